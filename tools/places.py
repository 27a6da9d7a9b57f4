#!/usr/bin/env python3
"""Lists the places in src/ that the design pass looks for, point by point, and counts them.

usage: places.py [ROOT]      ROOT is a checkout, by default this one
Points: 1 shapes of Option and Result, flags, numbers for kinds; 2 twins; 3 loops by index; 4 conversions and printing
by hand; 5 facts and parameters that travel together; 6 buffers with a length beside them, parallel arrays; 7 switches
on what to do; 8 answers and lemmas in proofs/. A place is found by its text: whether it is one, the page says.
"""
import collections
import pathlib
import re
import sys


def sources(root):
    return sorted(p for p in root.glob("crates/*/src/*.rt") if p.name != "tests.rt")


def grep(files, root, pattern):
    found = []
    for path in files:
        for number, line in enumerate(path.read_text().splitlines(), 1):
            if not line.lstrip().startswith(("//", "ghost use")) and re.search(pattern, line):
                found.append(f"{path.relative_to(root)}:{number}: {line.strip()[:110]}")
    return found


def functions(files):
    """(file, name, text from `fn` to the body) of each function."""
    for path in files:
        text = path.read_text()
        for match in re.finditer(r"\bfn (\w+)(?:<[^\n(]*?(?:\([^\n)]*\)[^\n(]*?)?>)?\(", text):
            end = min(i for i in (text.find("\n    {", match.start()), text.find("\n{", match.start()), text.find(";\n", match.start()), len(text)) if i >= 0)
            yield path, match.group(1), text[match.start():end]


def option_shapes(files, root):
    found = []
    for path in files:
        for match in re.finditer(r"enum (\w+)(?:<[^{]*>)? \{([^}]*)\}", path.read_text()):
            variants = [v.strip() for v in re.sub(r"///.*", "", match.group(2)).split(",") if v.strip()]
            loaded = [v for v in variants if "(" in v]
            if len(variants) == 2 and loaded:
                found.append(f"{path.relative_to(root)}: enum {match.group(1)}: {', '.join(variants)}")
    return found


def arms(files, root):
    """Matches on numbers, by their number of arms."""
    found = []
    for path in files:
        for match in re.finditer(r"match (\w+) \{((?:\s+\d+ => [^\n]*\n)+)", path.read_text()):
            found.append(f"{path.relative_to(root)}: match {match.group(1)}: {len(match.group(2).strip().splitlines())} arms")
    return found


def same_names(files, root):
    where = collections.defaultdict(set)
    for path, name, text in functions(files):
        if "self" not in text.split(")")[0]:
            where[name].add(str(path.relative_to(root)))
    return [f"fn {n}: {', '.join(sorted(w))}" for n, w in sorted(where.items()) if len(w) > 1 and n not in ("main", "run", "new", "try_from", "fmt", "from")]


def bodies(files):
    """(file, name, text of the body) of each function."""
    for path in files:
        text = path.read_text()
        for match in re.finditer(r"^( *)(?:pub(?:\(crate\))? )?fn (\w+)[^;{]*?(?:\n\1(?:    [^\n]*)?)*?\n?\1?\{\n(.*?)^\1\}", text, re.M | re.S):
            yield path, match.group(2), match.group(3)


WORDS = "let mut for in if else match return Some None Ok Err self".split()


def one_shape(files, root):
    """Functions whose bodies differ in names, numbers and texts alone, from four lines or twelve words on."""
    where = collections.defaultdict(list)
    for path, name, body in bodies(files):
        body = re.sub(r"//[^\n]*", "", body)
        tokens = re.findall(r"\"[^\"]*\"|\w+|[^\w\s]", body)
        shape = " ".join("t" if t[0] == '"' else t if t in WORDS else "w" if re.match(r"[A-Za-z_]", t) else "n" if t[0].isdigit() else t for t in tokens)
        if len(tokens) >= 16:
            where[shape].append(f"{path.relative_to(root)}::{name}")
    return [", ".join(w) for w in where.values() if len(w) > 1]


def facts(files, root):
    where = collections.defaultdict(set)
    for path, name, text in functions(files):
        for clause in re.findall(r"requires \w* ?\{ (.*) \}", text):
            for fact in re.split(r" × ", clause):
                fact = fact.strip("() ")
                if len(fact) > 12:
                    where[fact].add(f"{path.parent.parent.name}::{name}")
    return [f"{f}: {', '.join(sorted(w))}" for f, w in sorted(where.items()) if len(w) > 2]


def companions(files, root):
    where = collections.defaultdict(set)
    for path, name, text in functions(files):
        parameters = re.findall(r"(\w+): ([&\w<>'\[\]; ]+)", re.sub(r"\s+", " ", re.sub(r"^fn \w+(<.*?>)?\(", "(", text, flags=re.S).split("requires")[0].split("ensures")[0].split("->")[0]))
        for i, one in enumerate(parameters):
            for other in parameters[i + 1:]:
                where[(f"{one[0]}: {one[1].strip()}", f"{other[0]}: {other[1].strip()}")].add(f"{path.parent.parent.name}::{name}")
    return [f"{a}, {b}: {', '.join(sorted(w))}" for (a, b), w in sorted(where.items()) if len(w) > 2]


def main():
    root = pathlib.Path(sys.argv[1] if len(sys.argv) > 1 else pathlib.Path(__file__).parent.parent).resolve()
    if not (root / "crates").is_dir():
        sys.exit(__doc__)
    files = sources(root)
    answers = sorted(root.glob("crates/*/proofs/**/Answers.antt"))
    parts = [
        ("1 enums of the shape of Option or Result", option_shapes(files, root)),
        ("1 a flag beside a value", grep(files, root, r"^\s+(pub(\(crate\))? )?\w+: bool,")),
        ("1 numbers and words for kinds", arms(files, root) + grep(files, root, r"\b(kind|name|code|mode): (&str|u8)")),
        ("2 functions of one name in two files", same_names(files, root)),
        ("2 functions of one shape", one_shape(files, root)),
        ("3 loops by index or by hand", grep(files, root, r"\bfor \w+ in [^{]*\.\.|\bwhile ")),
        ("4 numbers vetted or shown by a call of the crate's own", grep(files, root, r"fn (new|number)\((self\)|\w+: i64)")),
        ("4 equality and printing by hand", grep(files, root, r"println!\(rt; \"[^\"]*\{[^\"]*\{|fn is_at|fn agrees|fn same")),
        ("4 a refusal written out", grep(files, root, r"(Err\(Fault \{|return Err\(Fault)")),
        ("5 facts in three contracts or more", facts(files, root)),
        ("5 parameters together in three functions or more", companions(files, root)),
        ("6 arrays of a fixed size, and parallel ones", grep(files, root, r"^\s+(pub(\(crate\))? )?\w+: (\[\w+; \d+\]|&'a \[i16\])|\bxs: &\[i16\], ys: &\[i16\]|-> \[\w+; \d+\]")),
        ("7 switches on what to do", grep(files, root, r"match (kind|name)\b|if kind ==|kind == \"|fn \w+\(\w*,? ?kind: &str")),
        ("8 files of answers", [str(p.relative_to(root)) for p in answers]),
        ("8 answers", [f"{p.relative_to(root)}: {n}" for p in answers for n in re.findall(r"^pub (\S+) : goal\.", p.read_text(), re.M)]),
    ]
    quiet = "--counts" in sys.argv
    for title, found in parts:
        print(f"{title}: {len(found)}")
        if not quiet:
            for place in found:
                print(f"    {place}")


if __name__ == "__main__":
    main()
