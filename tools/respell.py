#!/usr/bin/env python3
"""Spells the repository's own definitions and lemmas as the library spells its own.

usage: respell.py [--dry] [ROOT]    rewrites crates/*/specs, proofs, src and must-fail, docs/ and README.md in place
       respell.py --names FILE ..   applies the same names to further files

Functions, lemmas, fields and constructors of specs/ and proofs/ are in snake case. A dash stays where it joins two
names: both sides stand in the lemma's own statement, or one side is a fact (in camel case) or an operator. Types, modules
and files keep their names, and so does every name of src/ and each that is also one of the library's.
"""
import collections
import os
import re
import sys

TOKEN = re.compile(r"[^\s(){}\[\];,.`\"«»⌜⌝|]+")
HEAD = re.compile(r"^(\s*)((?:(?:abbrev|unfoldable|pub|record|data|ruleset|mutual)\s+)*)([^\s(){}:;,.\[\]]+)\s+((?:\([^)]*\)\s*|\{[^}]*\}\s*)*):(?:\s|$)")
FIELD = re.compile(r"^\s+(?:pub\s+)?([^\s(){}:;,.\[\]]+)\s+:(?:\s|$)")
IDENT = re.compile(r"[A-Za-z_]\w*")


def walk(root):
    crates = os.path.join(root, "crates")
    for c in sorted(os.listdir(crates)):
        for sub in ("specs", "proofs", "src", "must-fail"):
            for d, dirs, files in os.walk(os.path.join(crates, c, sub)):
                dirs.sort()
                for f in sorted(files):
                    if f.endswith((".antt", ".rt", ".edit")):
                        yield os.path.join(d, f)


def is_function_proof(path):
    return os.path.basename(path) in ("Proof.antt", "Answers.antt", "Invariants.antt")


def signature(lines, k):
    """The text of the declaration at line k, up to the line that begins its body."""
    text = [lines[k]]
    name = HEAD.match(lines[k]) or FIELD.match(lines[k])
    word = name.group(3) if name.re is HEAD else name.group(1)
    for line in lines[k + 1 : k + 40]:
        s = line.strip()
        if not s or s.startswith(word + " ") or s == word or s.startswith("unfolding"):
            break
        if HEAD.match(line) and not line.startswith("    "):
            break
        text.append(line)
    return " ".join(text)


def snake(word):
    """One dash-free part in snake case."""
    if not re.search(r"[a-zA-Z]", word) or word[0].isupper():
        return word
    word = re.sub(r"([a-z0-9])([A-Z])", r"\1_\2", word)
    return word.lower() if re.search(r"[A-Z]", word) and not re.search(r"[A-Z]{2}", word) else re.sub(r"[A-Z]", lambda m: m.group().lower(), word)


def is_name(part):
    """A fact in camel case, as All, or an operator; E7 and 12 are the numbers of clauses."""
    return re.match(r"[A-Z][a-z]", part) is not None or not re.search(r"[A-Za-z0-9]", part)


def respelled(name, text):
    """The new spelling of a name whose declaration has this text."""
    parts = name.split("-")
    if any(p == "" for p in parts):
        return name
    words = set()
    for t in TOKEN.findall(text.split(":", 1)[1] if ":" in text else text):
        words.add(t)
    out = snake(parts[0])
    for a, b in zip(parts, parts[1:]):
        both = (is_name(a) or a in words) and (is_name(b) or b in words)
        clause = re.fullmatch(r"[A-Z]?\d+\w?", a) or re.fullmatch(r"[A-Z]?\d+\w?", b)
        out += ("-" if both and not clause else "_") + snake(b)
    return out


def declared(root):
    """Each own name of specs/ and proofs/, with the texts that declare it."""
    found = collections.OrderedDict()
    for path in walk(root):
        if not path.endswith(".antt"):
            continue
        lines = open(path, encoding="utf-8").read().split("\n")
        for k, line in enumerate(lines):
            m = HEAD.match(line) or FIELD.match(line)
            if not m:
                continue
            name = m.group(3) if m.re is HEAD else m.group(1)
            if re.match(r"^\s*(pub\s+)?(use|mod|module|open|let|--)\b", line):
                continue
            text = signature(lines, k)
            if is_function_proof(path) and (re.search(r":\s*(tie|goal)\.", text) or name.startswith("+") or re.search(r"-(requires|spec)(-\d+)?$", name)):
                continue
            found.setdefault(name, []).append(text)
    return found


def rust_words(root):
    words = set()
    for path in walk(root):
        if path.endswith(".rt"):
            text = re.sub(r"//.*", "", open(path, encoding="utf-8").read())
            text = re.sub(r'"[^"]*"', "", text)
            text = re.sub(r"ghost use [^;]*;", "", text)
            words.update(m.group(1) for m in re.finditer(r"\b(?:fn|const|struct|enum|mod|static|type)\s+(\w+)", text))
            words.update(m.group(1) for m in re.finditer(r"\b(\w+): ", text))
            words.update(m.group(1) for m in re.finditer(r"\blet (?:mut )?(\w+)", text))
    return words


def written(root):
    """Each word that stands in specs/ or proofs/ already."""
    words = set()
    for path in walk(root):
        if path.endswith(".antt"):
            for line in open(path, encoding="utf-8"):
                if not line.lstrip().startswith("--"):
                    words.update(TOKEN.findall(line))
    return words


def imported(root):
    """Each name that some file takes from the library."""
    own = set(os.listdir(os.path.join(root, "crates")))
    words = set()
    for path in walk(root):
        if path.endswith(".edit"):
            continue
        for m in re.finditer(r"\buse ([^\s{};]+)\.\{([^}]*)\}", open(path, encoding="utf-8").read()):
            place = m.group(1).split(".")
            if place[0] == "Rattle" and len(place) > 1 and place[1] in own:
                continue
            words.update(w.strip().split(" as ")[0] for w in m.group(2).split(","))
    return words


def table(root):
    names = declared(root)
    library = imported(root)
    rust = rust_words(root)
    taken = set(names) | written(root)
    new = {}
    for name, texts in names.items():
        if name[0].isupper() and "-" not in name:
            continue
        if name in library:
            continue
        if not ("-" in name or re.search(r"[a-z0-9][A-Z]", name)):
            continue
        votes = collections.Counter(respelled(name, t) for t in texts)
        to = max(votes, key=lambda w: (w.count("-"), w))
        if to != name:
            new[name] = to
    back = collections.defaultdict(list)
    for a, b in new.items():
        back[b].append(a)
    for b, olds in back.items():
        clash = len(olds) > 1 or b in taken or b in rust or b in RESERVED
        if clash:
            for i, a in enumerate(sorted(olds, key=lambda w: ("-" in w, w))):
                to = b
                if b in rust or b in taken or b in RESERVED or i:
                    to = b + "_lem" + (str(i + 1) if i > (0 if (b in rust or b in taken or b in RESERVED) else 1) else "")
                new[a] = to
    return new


RESERVED = {"length", "take", "drop", "map", "set", "get_or", "append", "replicate", "sum", "all", "any", "min", "max", "last", "head", "tail", "filter", "reverse", "cond", "not", "or", "and", "refl", "sym", "ap", "subst"}


def apply(names, text):
    return TOKEN.sub(lambda m: names.get(m.group(), m.group()), text)


def main(argv):
    dry = "--dry" in argv
    argv = [a for a in argv if a != "--dry"]
    if argv[:1] == ["--names"]:
        names = dict(line.split("\t") for line in open(argv[1], encoding="utf-8").read().splitlines())
        for path in argv[2:]:
            old = open(path, encoding="utf-8").read()
            new = apply(names, old)
            if new != old:
                open(path, "w", encoding="utf-8").write(new)
        return 0
    root = argv[0] if argv else "."
    names = table(root)
    for a in sorted(names):
        print(a + "\t" + names[a])
    if dry:
        return 0
    paths = list(walk(root)) + [os.path.join(root, "README.md")]
    paths += [os.path.join(root, "docs", f) for f in sorted(os.listdir(os.path.join(root, "docs"))) if f.endswith(".md") and not f.startswith("PORT")]
    for path in paths:
        old = open(path, encoding="utf-8").read()
        new = apply(names, old)
        if new != old:
            open(path, "w", encoding="utf-8").write(new)
    return 0


if __name__ == "__main__":
    raise SystemExit(main(sys.argv[1:]))
