#!/usr/bin/env python3
"""Brings the definitions and lemmas of crates/ to snake case, as today's Rattle spells them: `asSet` becomes `as_set`, `m′` becomes `m'`.

usage: python3 tools/respell.py [--check]        at the top of the repository, once, behind port.py

Each part of a name between hyphens that begins with a small letter and holds a capital is turned. A lemma whose name would fall together with that of a
definition gets another one (APART). Strings, functions of src/ and types keep their names. --check writes nothing, and lists the names that fall together.
"""
import collections
import os
import re
import sys

NAME = re.compile(r"(?<![\w'·-])[A-Za-z_][\w']*(?:-[\w'≢≡]+)*")
STRING = re.compile(r'b?"(?:[^"\\]|\\.)*"')
DOCUMENTS = ("README.md", "docs", "reference", "fuzz", "tests", "bench")

# lemmas in whose files a definition has the same name in snake case
APART = {
    "all_digits": "all_digits-each",
    "all_in": "all_in-each",
    "all_left": "all_left-front",
    "all_right": "all_right-each",
    "is_member": "is_member-at",
    "load_fields": "load_fields-are",
    "no_room": "no_room-is",
    "run_short": "run_short-is",
    "same_bytes": "same_bytes-are",
}


def files(*kinds, root="crates"):
    if os.path.isfile(root):
        yield root
    for folder, dirs, names in os.walk(root):
        dirs[:] = sorted(d for d in dirs if d not in ("out", "target", ".git", "notes"))
        for name in sorted(names):
            if name.endswith(kinds):
                yield os.path.join(folder, name)


def part(word):
    if not re.match(r"[a-z]", word) or not re.search(r"[a-z0-9][A-Z]", word):
        return word
    return re.sub(r"(?<=[a-z0-9])([A-Z])", lambda m: "_" + m.group(1).lower(), word)


def camel(name):
    return "-".join(part(p) for p in name.split("-"))


def turn(text, apart, known=None):
    def name(m):
        old = m.group(0)
        if known is not None:
            return camel(old) if old in known or camel(old) in known else old
        return APART[old] if apart and old in APART else camel(old)

    kept = []
    text = STRING.sub(lambda m: kept.append(m.group(0)) or f"\0{len(kept) - 1}\0", text)
    text = NAME.sub(name, text.replace("′", "'"))
    return re.sub(r"\0(\d+)\0", lambda m: kept[int(m.group(1))], text)


def main(check):
    words = collections.defaultdict(set)
    for path in files(".antt", ".rt"):
        for m in NAME.finditer(open(path, encoding="utf-8").read().replace("′", "'")):
            words[m.group(0)].add(path)
    together = collections.defaultdict(set)
    for old in words:
        together[camel(old)].add(old)
    for new, olds in sorted(together.items()):
        if len(olds) > 1:
            print(f"fall together: {new}: " + "; ".join(f"{o} ({len(words[o])} files, {sorted(words[o])[0]})" for o in sorted(olds)))
    if check:
        return
    if not any(camel(old) != old for old in words):
        print("nothing to do: it ran here before")
        return
    known = set(words)
    changed = 0
    paths = [(p, "/proofs/" in p and p.endswith(".antt"), None) for p in files(".antt", ".rt", ".edit")]
    paths += [(p, False, known) for d in DOCUMENTS for p in files(".md", root=d)]
    for path, apart, only in paths:
        old = open(path, encoding="utf-8").read()
        new = turn(old, apart, only)
        if new != old:
            changed += 1
            with open(path, "w", encoding="utf-8") as f:
                f.write(new)
    print(f"{changed} files changed")


main("--check" in sys.argv[1:])
