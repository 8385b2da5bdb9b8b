#!/usr/bin/env python3
"""Writes the must-fail edits of an older state of the repository in the spelling of this one.

usage: edits_over.py [--dry] [--diffs] OLD [ROOT]

OLD is the older state's folder, ROOT the repository (here). Each edit of OLD is looked up at its place in today's file;
its `old:` becomes the text that stands there, and `new:` the same change of it. How a name is spelled today is read off
the lines of specs/, proofs/ and src/ that are the same in both states but for the spelling. An edit that fits already is left as it is: each `old:` stands once in the file,
and the same tokens go and come as in OLD. What can't be decided is printed as `hand:` and left. --dry writes nothing,
--diffs prints, for each edit, what it changes in OLD's file beside what it changes in today's.
"""
import difflib
import glob
import os
import re
import sys

TOKEN = re.compile(r'b?"(?:[^"\\]|\\.)*"|[^\s(){}\[\];,.`"«»⌜⌝|]+|[{}\[\];,.`⌜⌝|"]')
NAME = re.compile(r"[^\s(){}\[\];,.`\"«»⌜⌝|]+")
FIXED = {"getD": "get_or", "Counts": "IsPrefixLen"}
OPERATOR = re.compile(r"^(?:[-+*/^=<>≤≥≡∷×→↔⊎∸&|;,.:λ∀∃]|\+ℤ|-ℤ|\*ℤ|\+\+|&&|\|\||:=|==|in|let|←)+$")
ASIDE = re.compile(r"\s*(?:--|//|(?:pub |ghost )*use )")


def read(path):
    with open(path, encoding="utf-8") as f:
        return f.read()


def parse(text):
    """An edit's comment lines, and for each file its pairs of old and new."""
    head, parts = [], []
    for line in text.split("\n"):
        if line.startswith("file:"):
            parts.append((line[5:].strip(), []))
        elif line.startswith("old:"):
            parts[-1][1].append([line[5:], ""])
        elif line.startswith("new:"):
            parts[-1][1][-1][1] = line[5:]
        elif line:
            head.append(line)
    return head, parts


def shown(head, parts):
    out = list(head)
    for f, pairs in parts:
        out.append("file: " + f)
        for old, new in pairs:
            out += ["old: " + old, ("new: " + new).rstrip(" ") if not new else "new: " + new]
    return "\n".join(out) + "\n"


def applied(text, pairs):
    """The text with the pairs made in turn, or None where an old text doesn't stand exactly once."""
    for old, new in pairs:
        if not old or text.count(old) != 1:
            return None
        text = text.replace(old, new)
    return text


def plain(w):
    """A name without what the spelling may change."""
    w = FIXED.get(w, w)
    w = re.sub(r"_lem\d*$", "", w)
    return re.sub(r"[-_◌«»]", "", w).lower()


def old_path(text):
    """Paths of crates as they are written today."""
    return re.sub(r"Rattle·(\w+)(?:·(specs|proofs)\.\2)?", lambda m: "Rattle." + m.group(1) + ("." + m.group(2) if m.group(2) else ""), text)


class Names:
    """How each name of the older state is spelled today: in the file itself, else in the most places."""

    def __init__(self, old_root, root):
        self.all, self.files = {}, {}
        for sub in ("specs", "proofs", "src"):
            for path in sorted(glob.glob(os.path.join(old_root, "crates", "*", sub, "**", "*"), recursive=True)):
                rel = os.path.relpath(path, old_root)
                to = os.path.join(root, rel)
                if path.endswith((".antt", ".rt")) and os.path.exists(to):
                    self.compare(rel, [clause(l) if is_logic(rel, l, 0) else l for l in old_path(read(path)).split("\n")], read(to).split("\n"))
        self.all = {w: max(v, key=v.get) for w, v in self.all.items()}

    def compare(self, rel, olds, news):
        a = [[w for w, _, _ in tokens(l)] for l in olds]
        b = [[w for w, _, _ in tokens(l)] for l in news]
        seen = {}
        ka, kb = [" ".join(map(plain, l)) for l in a], [" ".join(map(plain, l)) for l in b]
        for tag, i1, i2, j1, j2 in difflib.SequenceMatcher(None, ka, kb, False).get_opcodes():
            if tag == "equal":
                for k in range(i2 - i1):
                    if not is_logic(rel, olds[i1 + k], 0) or ASIDE.match(olds[i1 + k]):
                        continue
                    for w, x in zip(a[i1 + k], b[j1 + k]):
                        for votes in (seen, self.all):
                            votes.setdefault(w, {}).setdefault(x, 0)
                            votes[w][x] += 1
        self.files[rel] = {w: max(v, key=v.get) for w, v in seen.items()}

    def word(self, w, rel=None):
        if w[:1] == '"' or w[:2] == 'b"':
            return w
        to = self.files.get(rel, {}).get(w) or self.all.get(w)
        if to:
            return to
        w = FIXED.get(w, w)
        m = re.fullmatch(r"_([^_A-Za-z]+)_", w)
        return "◌" + m.group(1) + "◌" if m else w

    def spell(self, text, logic, rel=None):
        """The text in today's spelling; logic says whether it stands in a clause, a specification or a proof, or is code."""
        if not logic:
            return text
        text = TOKEN.sub(lambda m: self.word(m.group(), rel), old_path(text))
        return tight(clause(text))


    def whole(self, name, text, rel):
        """A whole file in today's spelling."""
        if name.endswith(".antt"):
            return self.spell(text, True, rel)
        return "\n".join(self.spell(l, is_logic(name, l, 0), rel) for l in text.split("\n"))


def clause(text):
    m = re.search(r"λ (\w+)\. ⌜ (.*?) ⌝", text)
    if m:
        body = re.sub(r"(?<![\w.'])%s(?![\w'])" % re.escape(m.group(1)), "result", m.group(2))
        text = text[: m.start()] + body + text[m.end() :]
    text = re.sub(r"⌜ (.*?) ⌝", r"\1", text)
    text = re.sub(r"\(now \((\w+) \.entry\)\)", r"\1.old", text)
    text = re.sub(r"\(now \((\w+) \.exit\)\)", r"\1.new", text)
    return text


PIECE = re.compile(r'b?"(?:[^"\\]|\\.)*"| \.«?[\w-]+»?|\.«?[\w-]+»?(?=[\s)])|[()\[\]{}]|\s+|[^\s()\[\]{}"]+?(?=[,;.]?(?:[\s()\[\]{}]|$))|.')


def tight(text):
    """Projections written tight: `(a .f)` is `a.f`, and `g a .f` is `(g a).f`."""
    stack = [["", []]]  # groups: the opening bracket and its items, each a text and its kind
    marks = set()

    def project(items, field):
        k = len(items)
        while k and items[k - 1][1] != "op":
            k -= 1
        while k < len(items) and items[k][1] == "space":
            k += 1
        arg = items[k:]
        del items[k:]
        body = "".join(t for t, _ in arg)
        atoms = [a for a in arg if a[1] == "atom"]
        if not arg:
            items.append((" " + field, "atom"))
        elif len(atoms) == 1 and len(arg) == 1:
            items.append((body + field, "atom"))
        else:
            items.append(("(" + body + ")" + field, "atom"))
        marks.add(items[-1][0])

    for m in PIECE.finditer(text):
        t = m.group()
        if re.match(r" \.«?\w", t):
            project(stack[-1][1], t[1:].replace("«", "").replace("»", ""))
        elif t in "([{" and t:
            stack.append([t, []])
        elif t in ")]}" and t and len(stack) > 1:
            o, items = stack.pop()
            body = "".join(x for x, _ in items)
            if o == "(" and t == ")" and len(items) == 1 and body in marks:
                stack[-1][1].append((body, "atom"))
            else:
                stack[-1][1].append((o + body + t, "atom"))
        elif t.isspace():
            stack[-1][1].append((t, "space"))
        elif OPERATOR.match(t) or t in ")]}" or t in (",", ";"):
            stack[-1][1].append((t, "op"))
        else:
            stack[-1][1].append((t, "atom"))
    while len(stack) > 1:
        o, items = stack.pop()
        stack[-1][1].append((o + "".join(x for x, _ in items), "atom"))
    return "".join(x for x, _ in stack[0][1])


def tokens(text):
    return [(m.group(), m.start(), m.end()) for m in TOKEN.finditer(text)]


def key(words):
    return [w for w in words if w not in ("(", ")", "«", "»")]


def places(needle, hay):
    n = len(needle)
    if not n:
        return []
    return [i for i in range(len(hay) - n + 1) if hay[i] == needle[0] and hay[i : i + n] == needle]


def loose(name, text, pairs):
    """Whether a new text has a projection that isn't written tight."""
    return any(is_logic(name, text, text.find(old.strip())) and re.search(r"[\w)»] \.[a-z«0-9]", new) for old, new in pairs)


def is_logic(name, text, at):
    """Whether the place stands in a clause, a specification or a proof."""
    if name.endswith(".antt"):
        return True
    line = text[text.rfind("\n", 0, at) + 1 :].split("\n", 1)[0]
    return re.match(r"\s*(requires|ensures|decreases|invariant|ghost|prove)\b", line) is not None


def bounds(text, start, end):
    return text.rfind("\n", 0, start) + 1, (text.find("\n", end) if text.find("\n", end) >= 0 else len(text))


def unique(text, start, end, old_was_indented):
    """The least widening of text[start:end] that stands once in the text, within its lines."""
    a, b = bounds(text, start, end)
    tries = [(start, end)]
    if not text[a:start].strip():
        tries.insert(0 if old_was_indented else 1, (a, end))
    tries += [(a, b)]
    for s, e in tries:
        if text.count(text[s:e]) == 1:
            return s, e
    return None


def move(lt, pt, old, new, names, name, rel):
    """The pair that makes in pt the change that old and new make in lt; or a reason."""
    at = lt.index(old)
    logic = is_logic(name, lt, at + len(old) - len(old.lstrip()))
    so, sn = names.spell(old, logic, rel), names.spell(new, logic, rel)
    lk = [names.word(w, rel) if logic else w for w, _, _ in tokens(old_path(lt))]
    pk = tokens(pt)
    pw = [w for w, _, _ in pk]
    need = key([w for w, _, _ in tokens(so)])
    # the place in the older text, by the number of those before it
    before = len(tokens(old_path(lt[:at])))
    inside = places(need, lk)
    here = places(need, pw)
    if not here:
        return None, "no such tokens"
    if len(here) == 1:
        i = here[0]
    elif before in inside and len(inside) == len(here):
        i = here[inside.index(before)]
    else:
        return None, f"{len(here)} places, {len(inside)} in the older file"
    start, end = pk[i][1], pk[i + len(need) - 1][2]
    core = so.strip()
    # brackets at the ends of the text
    lead = len(core) - len(core.lstrip("("))
    for _ in range(lead):
        if pt[start - 1 : start] == "(":
            start -= 1
    for _ in range(len(core) - len(core.rstrip(")"))):
        if pt[end : end + 1] == ")":
            end += 1
    got = pt[start:end]
    if squeeze(got) != squeeze(core):
        return None, f"stands as {got!r}, wanted {core!r}"
    put = sn.strip()
    if "\n" in got:
        # several lines: only the one that changes
        return lines(pt, start, end, core, put)
    wide = unique(pt, start, end, old[:1] == " ")
    if not wide:
        return None, "not unique"
    s, e = wide
    return (pt[s:e], pt[s:start] + put + pt[end:e]), None


def squeeze(text):
    return re.sub(r"\s+", "", text).replace(",)", ")").replace(",}", "}").replace(",]", "]")


def lines(pt, start, end, core, put):
    """Where the text stands on several lines, the one line that holds the tokens that change."""
    a, b = [m.span() for m in re.finditer(r"\S+", core)], [m.span() for m in re.finditer(r"\S+", put)]
    aw, bw = [core[s:e] for s, e in a], [put[s:e] for s, e in b]
    g = [(m.start() + start, m.end() + start) for m in re.finditer(r"\S+", pt[start:end])]
    if len(g) != len(a) or [pt[s:e] for s, e in g] != aw:
        return None, "stands on several lines"
    ops = [o for o in difflib.SequenceMatcher(None, aw, bw, False).get_opcodes() if o[0] != "equal"]
    i1, i2 = min(o[1] for o in ops), max(o[2] for o in ops)
    j1, j2 = min(o[3] for o in ops), max(o[4] for o in ops)
    if i1 == i2:
        i1, j1 = i1 - 1, j1 - 1
    s, e = g[i1][0], g[i2 - 1][1]
    if "\n" in pt[s:e]:
        return None, "the change itself stands on several lines"
    wide = unique(pt, s, e, False)
    if not wide:
        return None, "not unique"
    x, y = wide
    return (pt[x:y], pt[x:s] + " ".join(bw[j1:j2]) + pt[e:y]), None


def change(a, b):
    """The tokens of a and of b between the first and the last that differ."""
    aw, bw = key([w for w, _, _ in tokens(a)]), key([w for w, _, _ in tokens(b)])
    i = 0
    while i < min(len(aw), len(bw)) and aw[i] == bw[i]:
        i += 1
    j = 0
    while j < min(len(aw), len(bw)) - i and aw[-1 - j] == bw[-1 - j]:
        j += 1
    aw, bw = aw[i : len(aw) - j], bw[i : len(bw) - j]
    return aw, bw


def differing(a, b):
    """The tokens that go and that come, in order."""
    aw, bw = change(a, b)
    gone, come = [], []
    for tag, i1, i2, j1, j2 in difflib.SequenceMatcher(None, aw, bw, False).get_opcodes():
        if tag != "equal":
            gone.append(aw[i1:i2])
            come.append(bw[j1:j2])
    return gone, come


def beside(a, b):
    return [l for l in difflib.unified_diff(a.split("\n"), b.split("\n"), n=0, lineterm="") if not l.startswith(("---", "+++", "@@"))]


def main(argv):
    dry, diffs = "--dry" in argv, "--diffs" in argv
    argv = [a for a in argv if not a.startswith("--")]
    if not argv:
        print(__doc__)
        return 2
    old_root, root = argv[0], (argv[1] if len(argv) > 1 else ".")
    names = Names(old_root, root)
    count = {"fits": 0, "written": 0, "hand": 0}
    for path in sorted(glob.glob(os.path.join(old_root, "crates", "*", "must-fail", "*.edit"))):
        crate, edit = path.split(os.sep)[-3], os.path.basename(path)
        label = crate + "/" + edit
        target = os.path.join(root, "crates", crate, "must-fail", edit)
        head, parts = parse(read(path))
        now_head, now_parts = parse(read(target)) if os.path.exists(target) else ([], [])
        by_file = {f: pairs for f, pairs in now_parts}
        result, state, said = [], "fits", []
        for f, pairs in parts:
            lt = read(os.path.join(old_root, "crates", crate, f))
            le = applied(lt, pairs)
            p = os.path.join(root, "crates", crate, f)
            if not os.path.exists(p):
                if f.startswith("proofs/") and len(parts) > 1:
                    if f in by_file:
                        said.append(f"{f} is gone: its pairs fall")
                        state = state if state == "hand" else "written"
                    continue
                state = "hand"
                said.append(f"{f} is gone")
                result.append((f, by_file.get(f, pairs)))
                continue
            pt = read(p)
            rel = os.path.join("crates", crate, f)
            want = differing(names.whole(f, lt, rel), names.whole(f, le, rel))
            mine = by_file.get(f)
            pe = applied(pt, mine) if mine else None
            if pe is not None and pe != pt and differing(pt, pe) == want and not loose(f, pt, mine):
                result.append((f, mine))
                continue
            # anew
            made, cur_l, cur_p = [], lt, pt
            why = None
            for o, n in pairs:
                if o == n:
                    continue
                pair, why = move(cur_l, cur_p, o, n, names, f, rel)
                if why:
                    break
                made.append(list(pair))
                cur_l, cur_p = cur_l.replace(o, n), applied(cur_p, [pair])
                if cur_p is None:
                    why = "not unique"
                    break
            if not why:
                got = differing(pt, cur_p)
                if got != want:
                    why = f"other tokens change: {got} for {want}"
            if why:
                state = "hand"
                said.append(f"{f}: {why}" + ("" if pe is None else " (the edit there now stands)"))
                result.append((f, mine if mine else pairs))
            else:
                state = state if state == "hand" else "written"
                result.append((f, made))
        if now_head != head and state == "fits":
            state = "written"
        count[state] += 1
        if state != "fits":
            for s in said or [""]:
                print(f"{state}: {label} {s}")
        if state == "written" and not dry:
            with open(target, "w", encoding="utf-8") as out:
                out.write(shown(head, result))
        if diffs:
            print("== " + label + " " + state)
            for f, pairs in parts:
                lt = read(os.path.join(old_root, "crates", crate, f))
                print("\n".join("  was " + l for l in beside(lt, applied(lt, pairs))))
            for f, pairs in result:
                p = os.path.join(root, "crates", crate, f)
                pt = read(p) if os.path.exists(p) else ""
                pe = applied(pt, pairs)
                print("\n".join("  now " + l for l in beside(pt, pe)) if pe is not None else "  now: BAD")
    print(" ".join(f"{k}={v}" for k, v in count.items()))
    return 0


if __name__ == "__main__":
    raise SystemExit(main(sys.argv[1:]))
