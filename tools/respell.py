#!/usr/bin/env python3
"""Respells this repository's own definitions and lemmas, once, after the kit's port.py.

usage: python3 tools/respell.py [FOLDER]      (FOLDER: the top of the repository; else the current folder)

Functions in snake case, facts and types in upper camel case. A lemma that is named by its left side keeps the dash
between the two functions (DASHED); any other dash becomes an underscore. Only names that a file of specs/ or
proofs/ declares at its top are respelled, wherever a whole name stands in an .antt file, or in a clause or a ghost
line of an .rt file. What Rattle names (goals, fields of goals) is not touched: those files are proofs/F/*.antt.
"""
import os
import re
import sys

ROOT = sys.argv[1] if len(sys.argv) > 1 else "."
DASHED = {"length-splice", "splice-splice", "length-paired"}
# a lemma that would fall together with a definition gets a name of its own
OWN = {"fault-text": "listing_text-fault"}
# a name takes these characters; a dot, a bracket, a comma or a space ends it
NAME = r"[A-Za-z_'′][A-Za-z0-9_'′-]*"
DECLARED = re.compile(r"^\s*(?:(?:abbrev|unfoldable|pub|record|data)\s+)*(" + NAME + r")(?:\s+\([^)]*\))*\s+:\s")
WORD = re.compile(r"(?<![A-Za-z0-9_'′.-])" + NAME + r"|(?<=\.)" + NAME)


def files(suffix, *folders):
    for top, dirs, names in os.walk(os.path.join(ROOT, "crates")):
        dirs[:] = sorted(d for d in dirs if d != "out")
        parts = os.path.relpath(top, os.path.join(ROOT, "crates")).split(os.sep)
        if len(parts) > 1 and parts[1] in folders:
            for name in sorted(names):
                if name.endswith(suffix):
                    yield parts, os.path.join(top, name)


def respelled(name):
    if name in DASHED:
        return name
    if name in OWN:
        return OWN[name]
    if name[0].isupper():
        return "".join(w[:1].upper() + w[1:] for w in name.split("-"))
    name = re.sub(r"(?<=[a-z0-9])([A-Z])", lambda m: "_" + m.group(1).lower(), name)
    return name.replace("-", "_").replace("′", "'")


def declared():
    """The names that files of specs/ and lemma files declare: not those of proofs/F/, which Rattle asks for."""
    found = set()
    for parts, path in files(".antt", "specs", "proofs"):
        if parts[1] == "proofs" and len(parts) > 2:
            continue
        with open(path, encoding="utf-8") as f:
            lines = f.read().split("\n")
        for i, line in enumerate(lines):
            m = DECLARED.match(line)
            # a field of a record stands two columns in below it and keeps its spelling
            if m and (not line.startswith("  ") or not in_record(lines, i)):
                found.add(m.group(1))
    return found


def in_record(lines, i):
    while i >= 0 and (lines[i].startswith("  ") or not lines[i].strip()):
        i -= 1
    return bool(re.match(r"(?:pub )?record\b", lines[i]))


def main():
    table = {n: respelled(n) for n in declared()}
    table = {n: to for n, to in table.items() if n != to}
    new = list(table.values())
    twice = {t for t in new if new.count(t) > 1} | (set(new) & declared())
    if twice:
        raise SystemExit("these names would fall together: " + ", ".join(sorted(twice)))

    def turn(text):
        return WORD.sub(lambda m: table.get(m.group(0), m.group(0)), text)

    for _, path in files(".antt", "specs", "proofs"):
        edit(path, turn)
    for _, path in files(".rt", "src"):
        edit(path, lambda t: "\n".join(turn(l) if re.match(r"\s*(ghost|requires|ensures|invariant)\b", l) else l for l in t.split("\n")))
    for n in sorted(table):
        print(n, "->", table[n])


def edit(path, turn):
    with open(path, encoding="utf-8") as f:
        old = f.read()
    new = turn(old)
    if new != old:
        with open(path, "w", encoding="utf-8") as f:
            f.write(new)


if __name__ == "__main__":
    main()
