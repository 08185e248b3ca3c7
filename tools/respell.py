#!/usr/bin/env python3
"""Brings the repository's own definitions, lemmas, fields and constructors in specs/ and proofs/ to one spelling: words in snake case.

usage: python3 tools/respell.py [FOLDER]    in the repository (or FOLDER), once, after the kit's port.py

A definition `checksumOf` becomes `checksum_of`, a lemma `take-over` becomes `take_over`. Where a definition and a lemma would have one name,
the lemma ends in `_lem`. Types, modules, names from src/ and the library's names stay. It also goes through contracts in src/, and through names
in backquotes in docs/, README.md and comments. It goes by text and proves nothing.
"""

import collections
import os
import re
import sys

TOKEN = re.compile(r"[A-Za-z](?:[\w'-]*[\w'])?")
HEAD = re.compile(r"^( *)((?:(?:pub|abbrev|unfoldable) )*)([a-z][\w'-]*)(?= :|(?: [({][^:]*:[^:]*[)}])+ (?:: |where))")
DECLARED = re.compile(r"^( *)(?:pub )?(record|data) ([A-Z][\w'-]*)")


def snake(name):
    name = name.replace("-", "_")
    return re.sub(r"(?<=[a-z0-9'])([A-Z])", lambda m: "_" + m.group(1).lower(), name)


def files(root, ending):
    for folder, dirs, names in os.walk(os.path.join(root, "crates")):
        dirs[:] = sorted(d for d in dirs if d != "out")
        for name in sorted(names):
            if name.endswith(ending):
                yield os.path.join(folder, name)


def read(path):
    with open(path, encoding="utf-8") as f:
        return f.read()


def own(root):
    """Each name of the repository's own, with whether some place defines it as a definition (an abbrev, or unfoldable), and the fields apart."""
    names, fields = collections.defaultdict(set), set()
    for path in files(root, ".antt"):
        if os.path.basename(path) == "Proof.antt":
            continue
        inside, deep = None, 0
        for line in read(path).split("\n"):
            declared = DECLARED.match(line)
            if declared:
                inside, deep = declared.group(2), len(declared.group(1))
                continue
            if line.strip() and len(line) - len(line.lstrip()) <= deep:
                inside = None
            m = HEAD.match(line)
            if not m:
                continue
            if inside:
                fields.add(m.group(3))
            names[m.group(3)].add("definition" if "abbrev" in m.group(2) or "unfoldable" in m.group(2) else "field" if inside else "lemma")
    return names, fields


def rust_fields(root):
    return {m.group(1) for path in files(root, ".rt") for m in re.finditer(r"^ +(?:pub )?(\w+): ", read(path), re.M)}


def spelling(root):
    names, fields = own(root)
    groups = collections.defaultdict(list)
    for name in names:
        groups[snake(name)].append(name)
    new, source = {}, rust_fields(root)
    for word, olds in groups.items():
        # A field from src/ keeps its name; another one that would have a definition's name hides it in the fields behind it.
        tops = [n for n in olds if names[n] - {"field"}]
        keeps = next((n for n in tops if "definition" in names[n]), tops[0] if tops else None)
        for name in olds:
            if name in tops:
                new[name] = word if name == keeps else word + "_lem"
            else:
                new[name] = word + "_lem" if word not in source and any("definition" in names[n] for n in tops) else word
    return {a: b for a, b in new.items() if a != b}, fields


def foreign(text):
    """The names that a file brings in from libraries other than the repository's crates."""
    found = set()
    for m in re.finditer(r"^(?:ghost )?use (\S+?)\.\{([^}]*)\}", text, re.M):
        if not re.match(r"Rattle\.(?!std\.)", m.group(1)):
            found.update(x.strip().split(" as ")[-1] for x in m.group(2).split(","))
    return found


def turned(text, new, kept, dotted=None):
    def word(m):
        t = m.group(0)
        if t in kept or t not in new:
            return t
        if dotted is not None and m.start() and text[m.start() - 1] == "." and t not in dotted:
            return t
        return new[t]

    return TOKEN.sub(word, text)


def quoted(text, new):
    return re.sub(r"`[^`\n]+`", lambda m: turned(m.group(0), new, ()), text)


def antt(path, new, fields):
    text = read(path)
    kept = foreign(text)
    proof = os.path.basename(path) == "Proof.antt"
    out = []
    for line in text.split("\n"):
        m = re.match(r"((?:[^-]|-(?!-))*?)(^|\s)(-- .*|--)$", line)
        code, comment = (line[: m.start(3)], m.group(3)) if m else (line, "")
        if not re.match(r"use (?!Rattle\.(?!std\.))", code):
            code = turned(code, new, kept, fields if proof else None)
        out.append(code + quoted(comment, new))
    return "\n".join(out)


def contracts(path, new):
    """In src/ only imports and clauses speak of the repository's definitions."""
    text = read(path)
    kept = foreign(text)
    out = []
    for line in text.split("\n"):
        s = line.lstrip()
        if s.startswith("ghost use Rattle.std."):
            pass
        elif s.startswith("ghost use ") or re.match(r"(requires|ensures)\b", s):
            line = turned(line, new, kept)
        elif s.startswith("//"):
            line = quoted(line, new)
        out.append(line)
    return "\n".join(out)


def main():
    root = sys.argv[1] if len(sys.argv) > 1 else "."
    new, fields = spelling(root)
    work = [(p, antt(p, new, fields)) for p in files(root, ".antt")] + [(p, contracts(p, new)) for p in files(root, ".rt")]
    pages = [os.path.join(root, "README.md")]
    for folder, _, names in os.walk(os.path.join(root, "docs")):
        pages += [os.path.join(folder, n) for n in names if n.endswith(".md")]
    work += [(p, quoted(read(p), new)) for p in sorted(pages)]
    changed = 0
    for path, text in work:
        if text != read(path):
            changed += 1
            with open(path, "w", encoding="utf-8") as f:
                f.write(text)
    print(f"{len(new)} names, {changed} files")


if __name__ == "__main__":
    main()
