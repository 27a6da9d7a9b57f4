#!/usr/bin/env python3
"""Respells the repository's own definitions and lemmas in snake case, as Rattle's libraries do.

usage: python3 tools/respell.py [ROOT]

It reads the names that crates/*/specs and crates/*/proofs define, the fields of their records too, turns those in camel
case or with dashes, and writes each use anew, in .antt and .rt files. Types and facts keep their capital; functions of
src/, goals and what the check names itself are left alone. It stops where two names would fall together. Run once, after
Rattle's own port.py.
"""
import os
import re
import sys

# Where the plain respelling is another word already, as `rate_part` is a field and a parameter; and the library's `getD`.
ELSE = {"ratePart": "rate_part_at", "getD-joined": "get_or_joined", "getD-times": "get_or_times"}
SIGNATURE = re.compile(r"(?:unfoldable |abbrev |pub )*([^\s:(){}=.,]+)(?: \([^)]*\)| \{[^}]*\})* : (.*)")
FIELD = re.compile(r"  pub ([^\s:(){}=.,]+) : ")
TOKEN = re.compile(r"[^\s(){}\[\].,;:=«»]+")


def texts(root):
    for folder, folders, files in os.walk(os.path.join(root, "crates")):
        folders[:] = sorted(f for f in folders if f != "out")
        for file in sorted(files):
            if file.endswith((".antt", ".rt")):
                yield os.path.join(folder, file)


def read(path):
    with open(path, encoding="utf-8") as file:
        return file.read()


def defined(path, text):
    """The names that a file of specs/ or proofs/ defines, but for types and answers to goals."""
    for line in text.splitlines():
        if line.startswith((" ", "--", "use ", "mod ", "pub mod ", "pub record ", "record ", "data ", "pub data ")):
            continue
        found = SIGNATURE.match(line)
        if found and not found[1][0].isupper() and not found[2].startswith("goal."):
            yield found[1]


def fields(text):
    """The fields of a file's records."""
    return (found[1] for found in map(FIELD.match, text.splitlines()) if found)


def respelled(name):
    if name in ELSE:
        return ELSE[name]
    name = name.replace("-", "_")
    return re.sub(r"(?<=[a-z0-9])([A-Z])", lambda capital: "_" + capital[1].lower(), name)


def spellings(root):
    """Each name that changes, with its new spelling; and the fields among them, which stand behind any value's dot."""
    names, behind = set(), set()
    for path in texts(root):
        if path.endswith(".antt"):
            text = read(path)
            names.update(defined(path, text))
            behind.update(fields(text))
    turned = {name: respelled(name) for name in names | behind if respelled(name) != name}
    for name, new in turned.items():
        if new in names or sum(other == new for other in turned.values()) > 1:
            sys.exit(f"respell: {name} would fall together with another name, as {new}")
    return turned, behind


def rewritten(line, turned, behind):
    """A line with the new spellings; a word with dashes in a comment is English."""
    at = min((k for k in (line.find("--"), line.find("//")) if k >= 0), default=len(line))

    def word(found):
        name, before = found[0], line[: found.start()]
        if name not in turned:
            return name
        if found.start() > at and "-" in name:
            return name
        if before.endswith(".") and name not in behind and not re.search(r"(?:^|[^\w.])(?:\w+\.)*[A-Z]\w*\.$", before):
            return name
        return turned[name]

    return TOKEN.sub(word, line)


def main(argv):
    root = argv[0] if argv else "."
    turned, behind = spellings(root)
    changed = 0
    for path in texts(root):
        text = read(path)
        new = "".join(rewritten(line, turned, behind) for line in text.splitlines(keepends=True))
        if new != text:
            changed += 1
            with open(path, "w", encoding="utf-8") as file:
                file.write(new)
    print(f"respell: {len(turned)} names, {changed} files")


if __name__ == "__main__":
    main(sys.argv[1:])
