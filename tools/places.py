#!/usr/bin/env python3
"""places.py [POINT] [--list]: where the code still has a form that a newer one could replace.

Run it at the top of the repository. It counts, in crates/*/src, by the points of docs/DESIGN-PASS.md:
  1  own enums, flags in structs, numbers that stand for a refusal
  2  functions whose text is the same but for names, types and numbers
  3  loops that count by hand, and ranges that read one slice alone
  4  conversions by `as` that lose nothing, and functions that only pick the larger, the smaller or a bit
  5  facts that stand in the `requires` of three functions or more, and parameters that three functions or more share
  6  structs with a count beside an array, and with arrays side by side
  7  a number or flag that says which step to run
  8  lines of proof, and answers that are one call of a tactic without a fact
With --list it prints each place too. The other way of counting is `--text`: plain patterns, line by line.
`--bare` goes further: ranges of any `for`, conversions to any type, records handed by value and flags handed over, each
that has no line of reason (`Kept ..`) above it in its function, over the function, or at the file's head.
"""
import collections
import glob
import itertools
import re
import sys

FN = re.compile(r'^( *)(?:pub(?:\([a-z]+\))? )?(?:const )?(?:extern "C" )?fn (\w+)(<[^(]*>)?\(', re.M)


def sources():
    for path in sorted(glob.glob('crates/*/src/**/*.rt', recursive=True)):
        yield path, open(path).read()


def bare(text):
    return re.sub(r'//[^\n]*', '', text)


def closing(text, at):
    """The place of the bracket that closes the one at `at`."""
    pairs = {'(': ')', '{': '}', '[': ']'}
    depth = 0
    for k in range(at, len(text)):
        if text[k] in pairs:
            depth += 1
        elif text[k] in pairs.values():
            depth -= 1
            if depth == 0:
                return k
    return len(text) - 1


def functions():
    """Path, line, name, parameters, clauses and body of each function."""
    for path, text in sources():
        text = bare(text)
        for m in FN.finditer(text):
            open_at = m.end() - 1
            end = closing(text, open_at)
            rest = text[end + 1:]
            # the body opens at a brace that begins a line with the function's own indent, or ends the header's line
            body = re.search(r'(?:^' + m.group(1) + r'\{)|(?: \{$)', rest, re.M)
            if not body:
                continue
            start = end + 1 + body.end() - 1
            stop = closing(text, start)
            yield (path, text.count('\n', 0, m.start()) + 1, m.group(2), text[open_at + 1:end],
                   text[end + 1:start], text[start:stop + 1])


def structs():
    for path, text in sources():
        text = bare(text)
        for m in re.finditer(r'^(?:pub(?:\([a-z]+\))? )?struct (\w+)(?:<[^>]*>)? \{', text, re.M):
            yield path, text.count('\n', 0, m.start()) + 1, m.group(1), text[m.end():closing(text, m.end() - 1)]


def point1():
    for path, text in sources():
        for m in re.finditer(r'^(?:pub(?:\([a-z]+\))? )?enum (\w+)', text, re.M):
            yield path, text.count('\n', 0, m.start()) + 1, 'enum ' + m.group(1)
    for path, line, name, body in structs():
        for m in re.finditer(r'(\w+): bool,', body):
            yield path, line, 'flag %s.%s' % (name, m.group(1))
    for path, line, name, params, clauses, body in functions():
        for m in re.finditer(r'Fault\((\d+)\)|number: (\d+)\b|plain\((\d+)|refuse\([^;]*?\b(\d+)\b', body):
            yield path, line, 'number in %s' % name


def skeleton(body):
    words = re.findall(r"b?\"[^\"]*\"|\w+|[^\w\s]", body)
    keep = {'let', 'mut', 'while', 'for', 'in', 'if', 'else', 'match', 'return', 'true', 'false', 'as', 'len', 'loop'}
    return tuple(w if not re.match(r'\w|b?"', w) or w in keep else ('n' if w[0].isdigit() else 'x') for w in words)


def point2():
    groups = collections.defaultdict(list)
    for path, line, name, params, clauses, body in functions():
        shape = skeleton(body)
        if len(shape) >= 24:
            groups[shape].append((path, line, name))
    for shape, places in groups.items():
        if len(places) > 1:
            for path, line, name in places:
                yield path, line, '%s (one of %d)' % (name, len(places))


def point3():
    for path, line, name, params, clauses, body in functions():
        for m in re.finditer(r'\b(while|loop)\b', body):
            yield path, line + body.count('\n', 0, m.start()), '%s in %s' % (m.group(1), name)
        for m in re.finditer(r'for (\w+) in 0\.\.(\w+)\.len\(\) \{', body):
            yield path, line, 'range over a slice in %s' % name


def point4():
    for path, line, name, params, clauses, body in functions():
        for m in re.finditer(r'\bas u64\b', body):
            yield path, line, 'as u64 in %s' % name
        if re.fullmatch(r'\{\s*if (\w+) < (\w+) \{ (\2|\1) \} else \{ (\1|\2) \}\s*\}', body) or re.fullmatch(
                r'\{\s*if \w+ \{ 1 \} else \{ 0 \}\s*\}', body):
            yield path, line, 'larger, smaller or bit: %s' % name


def facts(clauses):
    for m in re.finditer(r'requires(?: \w+)? \{(.*?)\}\s*(?=requires|ensures|$)', clauses, re.S):
        depth, part = 0, ''
        for c in m.group(1) + '×':
            if c == '×' and depth == 0:
                fact = re.sub(r'\s+', ' ', part).strip()
                while fact.startswith('(') and closing(fact, 0) == len(fact) - 1:
                    fact = fact[1:-1].strip()
                if fact:
                    yield fact
                part = ''
                continue
            depth += {'(': 1, ')': -1, '[': 1, ']': -1}.get(c, 0)
            part += c


def point5():
    by_fact = collections.defaultdict(set)
    by_group = collections.defaultdict(set)
    for path, line, name, params, clauses, body in functions():
        here = '%s::%s' % (path.split('/')[1], name)
        for fact in facts(clauses):
            by_fact[fact].add(here)
        ps = [re.sub(r'\s+', ' ', p).strip() for p in params.split(',') if p.strip()]
        for group in itertools.combinations(sorted(ps), 3):
            by_group[group].add(here)
    for fact, where in sorted(by_fact.items(), key=lambda f: -len(f[1])):
        if len(where) >= 3:
            yield 'contracts', len(where), fact
    best = collections.defaultdict(list)
    for group, where in by_group.items():
        if len(where) >= 3:
            best[frozenset(where)].append(group)
    for where, groups in sorted(best.items(), key=lambda g: -len(g[0])):
        names = sorted(set(itertools.chain(*groups)))
        yield 'parameters', len(where), ', '.join(names)


def point6():
    for path, line, name, body in structs():
        arrays = re.findall(r'(\w+): \[', body)
        counts = re.findall(r'(\w*(?:count|size|holding)): usize', body)
        if arrays and counts:
            yield path, line, '%s: %s beside %s' % (name, ', '.join(counts), ', '.join(arrays))
        elif len(arrays) > 1:
            yield path, line, '%s: %s side by side' % (name, ', '.join(arrays))


def point7():
    for path, line, name, params, clauses, body in functions():
        for m in re.finditer(r'\b(step|phase|mode|kind|stage|which): (?:u8|u32|usize)\b', params):
            yield path, line, '%s of %s' % (m.group(1), name)
        for m in re.finditer(r'\w+: (?:fn\(|&dyn |Box<dyn )', params):
            yield path, line, 'function handed to %s' % name


def point8():
    for path in sorted(glob.glob('crates/*/proofs/**/Answers.antt', recursive=True)):
        text = open(path).read()
        for m in re.finditer(r'^\S+ c = (search rules|omega arith|refl|grind rules)$', text, re.M):
            yield path, text.count('\n', 0, m.start()) + 1, m.group(1)


TEXT = {
    '1': r'\benum \w+|: bool,$|Fault\(\d+\)|number: \d+',
    '3': r'^\s*(while|loop)\b',
    '4': r'\bas u64\b',
    '6': r'(count|size|holding): usize,',
}


FURTHER = {
    '3': r'\bfor [a-z]\w* in \(?[^\[{&]*\.\.',
    '4': r'\bas (?:u64|u32|usize|i32)\b',
    '5': r'\b\w+: (?:Job|Plan|JobText|Accepted|Part|\[(?:PartSaid|Part); PARTS\]|Positions|Classes|Numbers|Quotes)\b',
    '7': r'\b\w+: bool\b',
}


def reasons(lines, line, body_lines):
    """Line numbers from the function's own comment to its end that hold a reason, and whether the file's head holds one."""
    top = line - 1
    while top > 1 and lines[top - 2].strip().startswith('//'):
        top -= 1
    found = [n for n in range(top, line + body_lines) if n <= len(lines) and '// Kept' in lines[n - 1]]
    head = itertools.takewhile(lambda l: l.startswith('//'), lines)
    return found, any('Kept' in l for l in head)


def further(point):
    for path, line, name, params, clauses, body in functions():
        lines = open(path).read().split('\n')
        text = params + '\n' * clauses.count('\n') + body if point not in '57' else params
        found, head = reasons(lines, line, (params + clauses + body).count('\n') + 1)
        for m in re.finditer(FURTHER[point], text):
            if not head and not found:
                yield path, line, '%s in %s' % (m.group(0).strip(), name)


def main():
    args = [a for a in sys.argv[1:] if not a.startswith('--')]
    if '--text' in sys.argv:
        for point, pattern in TEXT.items():
            n = sum(len(re.findall(pattern, bare(t), re.M)) for _, t in sources())
            print('point %s by pattern: %d' % (point, n))
        return
    if '--bare' in sys.argv:
        for point in args or sorted(FURTHER):
            places = list(further(point))
            print('point %s without a line: %d' % (point, len(places)))
            if '--list' in sys.argv:
                for place in places:
                    print('  ', *place)
        return
    for point in args or '12345678':
        places = list(globals()['point' + point]())
        print('point %s: %d' % (point, len(places)))
        if '--list' in sys.argv:
            for place in places:
                print('  ', *place)
    lines = sum(1 for p in glob.glob('crates/*/proofs/**/*.antt', recursive=True) for _ in open(p))
    print('lines of proof: %d' % lines)


main()
