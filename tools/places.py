#!/usr/bin/env python3
"""Lists places of a repository's code that a generic function, a struct or a slice might replace.

usage: python3 tools/places.py FOLDER    a checkout with crates/

It reads text alone: pairs of functions whose words are alike, clauses that stand in three functions or more,
parameters that three functions of one file share, elements read by a variable, enums, and answers that are a number or a flag.
A reader judges each.
"""

import collections
import difflib
import glob
import os
import re
import sys

FN = re.compile(r"^(?P<indent> *)(?:pub(?:\([a-z]+\))? )?fn (?P<name>\w+)", re.M)
CLAUSE = re.compile(r"^ *(?:requires|ensures)\*?(?: \w+)? \{ (.*) \}$", re.M)


def files():
    return sorted(glob.glob("crates/*/src/**/*.rt", recursive=True))


def functions():
    for path in files():
        with open(path, encoding="utf-8") as f:
            text = f.read()
        starts = list(FN.finditer(text))
        for i, m in enumerate(starts):
            end = re.compile(r"^%s\}" % m["indent"], re.M).search(text, m.start())
            after = next((n.start() for n in starts[i + 1 :] if n["indent"] == m["indent"]), len(text))
            if end and end.start() < after:
                yield path, m["name"], text[m.start() : end.end()]


def words(body):
    return re.findall(r"[A-Za-z_]\w*|\d[\d_]*|\S", re.sub(r"//[^\n]*", "", body))


def twins(all_functions):
    read = [(path, name, words(body)) for path, name, body in all_functions]
    for i, (path, name, x) in enumerate(read):
        for other, called, y in read[i + 1 :]:
            if min(len(x), len(y)) < 25 or abs(len(x) - len(y)) > 8:
                continue
            alike = difflib.SequenceMatcher(None, x, y, autojunk=False).ratio()
            if alike >= 0.85:
                print(f"{alike:.2f} {path} {name} | {other} {called}")


def parameters(body):
    head = body[: body.find("{")]
    return re.findall(r"(\w+: [^,()]+)(?=[,)])", head[head.find("(") + 1 :])


def shared(all_functions):
    clauses, pairs = collections.Counter(), collections.Counter()
    for path, _, body in all_functions:
        clauses.update(set(CLAUSE.findall(body)))
        of = parameters(body)
        pairs.update((path, a, b) for i, a in enumerate(of) for b in of[i + 1 :])
    print("-- clauses in three functions or more")
    for clause, n in clauses.items():
        if n >= 3:
            print(n, clause)
    print("-- pairs of parameters in three functions or more of a file")
    for pair, n in sorted(pairs.items()):
        if n >= 3:
            print(n, *pair)


def lines(title, pattern):
    print("--", title)
    for path in files():
        with open(path, encoding="utf-8") as f:
            for number, line in enumerate(f, 1):
                line = line.split("//")[0]
                if re.search(pattern, line):
                    print(f"{path}:{number} {line.strip()[:110]}")


def main():
    if len(sys.argv) != 2:
        raise SystemExit(__doc__)
    os.chdir(sys.argv[1])
    found = list(functions())
    print("functions with bodies:", len(found))
    print("-- functions alike in 85 words of 100 or more")
    twins(found)
    shared(found)
    lines("elements read by a variable", r"^(?!.*(: \[|-> \[)).*\w\[[a-z_]\w*( [+-] \w+)?\]")
    lines("enums", r"^\s*(pub(\(crate\))? )?enum ")
    lines("answers that are a number or a flag", r"fn \w+.*-> (u8|u16|bool|\(bool, bool\)|Option<u8>)")


main()
