#!/usr/bin/env python3
"""Respells this repository's own definitions and lemmas as today's Rattle spells names.

usage: python3 tools/respell.py [FOLDER]     in a checkout of the commit that port.py has just turned; once

Words are in snake case, types and facts in camel case. It renames what specs/ and the lemma files of proofs/ define
(definitions, lemmas, records, their fields, constructors), and the names after `as` in imports, wherever a file of crates/ or a backquoted word of the
documents names it. It leaves alone: what Rattle makes (the names of goals, measures and invariants), names of Rattle's
libraries, functions and text of src/, comments, strings, tests' values and must-fail edits. It refuses names that fall together.
"""

import glob
import os
import re
import sys

# What no rule spells.
BY_HAND = {
    "tableNumber": "table_number",
    "leZ-true": "le_z_true",
    "le-leZ": "le_le_z",
    "valueKind": "ValueKinds",
    "eventKind": "EventKinds",
    "sizes-of": "sizes_of",
}
DEFINED = re.compile(r"^\s*(?:abbrev |unfoldable )*(?:pub )?(?:record |data )?([^\s:(){};,.\[\]\"]+) *(?:[({][^=]*)?:\s")
# A new name that a file has beside the old one: a definition that bears the name of the method that it is of.
MIRRORED = {"ends_in"}
AS_ALL = "AllByRecursion as All"
# A name, as antt reads one.
NAME = re.compile(r"[^\s(){};,.\[\]\"`|]+")


def spelled(name):
    if name in BY_HAND:
        return BY_HAND[name]
    if name[0].isupper():
        return "".join(part[:1].upper() + part[1:] for part in name.split("-"))
    return name.replace("-", "_")


ALIAS = re.compile(r"^(?:pub |ghost )*use .*")


def lemma_files(root):
    for folder in ("specs", "proofs"):
        yield from sorted(glob.glob(os.path.join(root, "crates", "*", folder, "*.antt")))


def own_names(root):
    names = set()
    for path in lemma_files(root):
        with open(path, encoding="utf-8") as f:
            for line in f:
                m = DEFINED.match(line)
                if m and not line.lstrip().startswith("--"):
                    names.add(m.group(1))
    for path in files(root):
        if path.endswith((".antt", ".rt")):
            with open(path, encoding="utf-8") as f:
                for line in f:
                    if ALIAS.match(line):
                        names |= set(re.findall(r" as ([^\s,};]+)", line))
    return names


def code(line, comment):
    """A line's code and its comment."""
    at = line.find(comment)
    while at > 0 and line[:at].count('"') % 2:
        at = line.find(comment, at + 1)
    return (line, "") if at < 0 else (line[:at], line[at:])


def turn(text, turned):
    """Renames outside strings."""
    parts = re.split(r'("(?:[^"\\]|\\.)*")', text)
    return "".join(p if p.startswith('"') else NAME.sub(lambda m: turned.get(m.group(), m.group()), p) for p in parts)


def turn_file(path, comment, turned):
    with open(path, encoding="utf-8") as f:
        lines = f.read().split("\n")
    if any(AS_ALL in line for line in lines):
        # port.py keeps the old name of the library's word, which another word of the library has today.
        lines = [line.replace(AS_ALL, "AllByRecursion") for line in lines]
        turned = turned | {"All": "AllByRecursion"}
    new = []
    for line in lines:
        body, rest = code(line, comment)
        new.append(turn(body, turned) + rest)
    write(path, None, "\n".join(new))


def turn_page(path, turned, own):
    """A page also has names that port.py has respelled in crates/ already."""
    with open(path, encoding="utf-8") as f:
        old = f.read()
    spans = " ".join(re.findall(r"`[^`\n]+`", old))
    turned = {w: w.replace("-", "_") for w in NAME.findall(spans) if "-" in w and w.replace("-", "_") in own} | turned
    write(path, old, re.sub(r"`[^`\n]+`", lambda m: turn(m.group(), turned), old))


def write(path, old, new):
    if old != new:
        with open(path, "w", encoding="utf-8") as f:
            f.write(new)


def files(root):
    for folder, dirs, names in os.walk(os.path.join(root, "crates")):
        dirs[:] = [d for d in dirs if d != "out"]
        for name in names:
            yield os.path.join(folder, name)


def words(root):
    """Every name that a file of crates/ has."""
    found = {}
    for path in files(root):
        if path.endswith((".antt", ".rt")):
            with open(path, encoding="utf-8") as f:
                for line in f:
                    for w in NAME.findall(code(line, "--" if path.endswith(".antt") else "//")[0]):
                        found.setdefault(w, set()).add(path)
    return found


def main():
    root = sys.argv[1] if len(sys.argv) > 1 else "."
    own = own_names(root) | set(BY_HAND)
    turned = {n: spelled(n) for n in own if spelled(n) != n}
    spellings = {}
    for n in sorted(own):
        spellings.setdefault(spelled(n), []).append(n)
    clash = [f"{' and '.join(ns)} would both be {s}" for s, ns in spellings.items() if len(ns) > 1]
    # A new name that a file has already, beside the old one.
    found = words(root)
    for n, s in sorted(turned.items()):
        for path in sorted(found.get(s, set()) & found.get(n, set())) if s not in MIRRORED else []:
            clash.append(f"{path}: has {n} and {s}")
    if clash:
        print("\n".join(clash))
        raise SystemExit("respell: names fall together; nothing was changed")
    for path in files(root):
        if path.endswith(".antt"):
            turn_file(path, "--", turned)
        elif path.endswith(".rt"):
            turn_file(path, "//", turned)
    for path in sorted(glob.glob(os.path.join(root, "docs", "*.md"))) + [os.path.join(root, "README.md")]:
        turn_page(path, turned, own)
    print(f"respell: {len(turned)} names")


main()
