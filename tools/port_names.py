#!/usr/bin/env python3
"""Brings the names of this repository's definitions and lemmas to the spelling of the Rattle that it was ported to.

usage: python3 tools/port_names.py --first    before the kit's port.py: a short name that port.py takes for a new spelling
       python3 tools/port_names.py            after it: words in snake case, in specs/, proofs/, clauses and must-fail edits

Run in the repository's top folder. Types, facts and modules keep their capitals; functions of src/, strings and numbers are
left alone, and so is what Rattle itself names (goals, steps and their fields).
"""

import glob
import os
import re
import sys

TOKEN = re.compile(r"[^\s(){};,:]+")
DECLARED = re.compile(r"^\s*(?:abbrev |unfoldable )?(?:pub )?((?:[^\s(){};,:\"]+ )*[^\s(){};,:\"]+)(?: \{[^}]*\})?\s*:\s", re.M)
# Bound names that are spelled in two ways beside the definitions.
LOCALS = ["fromIo", "toIo"]


def read(path):
    with open(path, encoding="utf-8") as f:
        return f.read()


def write(path, text):
    with open(path, "w", encoding="utf-8") as f:
        f.write(text)


def antt_files():
    found = []
    for part in ("specs", "proofs"):
        found += glob.glob(f"crates/*/{part}/**/*.antt", recursive=True)
    return sorted(found)


def by_hand(path):
    """A proof of a function: its names are the goals'."""
    return os.path.basename(path) in ("Proof.antt", "Answers.antt", "Invariants.antt") and "/proofs/" in path


def uncommented(text):
    return re.sub(r"--[^\n]*", "", text)


def declared():
    """The names that the definitions and lemmas, their fields and their constructors have."""
    names = set()
    for path in antt_files():
        if by_hand(path):
            continue
        for m in DECLARED.finditer(uncommented(read(path))):
            names.update(m[1].split())
    return {n for n in names if not re.search(r"[◌=→λ\"·.]", n)}


def is_camel(name):
    return name[0].islower() and re.search(r"[a-z0-9][A-Z]", name)


def snake(name):
    return re.sub(r"([a-z0-9])([A-Z])", r"\1_\2", name).lower().replace("-", "_")


def mapping():
    names = declared()
    camel = sorted(n for n in names if is_camel(n)) + LOCALS
    dashed = sorted(n for n in names if "-" in n and n[0].islower() and not re.search(r"[A-Z]", n))
    to = {}
    taken = {n for n in names if n not in camel and n not in dashed}
    for n in camel:
        new = snake(n)
        if new in taken:
            print(f"falls together: {n} and {new}")
        to[n] = new
        taken.add(new)
    for n in dashed:
        new = snake(n)
        if new in taken:
            print(f"a lemma with a definition's name: {n} becomes {new}_lem")
            new += "_lem"
            if new in taken:
                print(f"falls together: {n} and {new}")
        to[n] = new
        taken.add(new)
    return to


def turned(text, to, dashes, walk=False):
    """The text with its names turned; what follows -- or // on a line keeps its dashes."""

    def one(m):
        word = m[0]
        # A chain of projections: each part by itself. In a walk a field with a dash is Rattle's own.
        parts = word.split(".")
        out = []
        for i, part in enumerate(parts):
            bare = part.strip("`'\"?!")
            if bare in to and ("-" not in bare or dashes) and not (walk and i and "-" in bare):
                part = part.replace(bare, to[bare])
            out.append(part)
        return ".".join(out)

    lines = []
    for line in text.split("\n"):
        code, mark, comment = line.partition("--")
        if line.lstrip().startswith("//"):
            code, mark, comment = "", line, ""
        # What stands between quotes is text.
        code = "".join(part if k % 2 else TOKEN.sub(one, part) for k, part in enumerate(re.split(r"(\"[^\"]*\")", code)))
        if mark:
            words = mark + comment
            words = re.sub(r"\b[a-z][a-z0-9]*(?:[A-Z][A-Za-z0-9]*)+\b", lambda m: to.get(m[0], m[0]), words)
            code += words
        lines.append(code)
    return "\n".join(lines)


def first():
    path = "crates/lines/proofs/+put_decimal/Proof.antt"
    text = read(path)
    text = re.sub(r" as put_byte$", " as putting", text, flags=re.M)
    text = re.sub(r"\bput_byte\.(Asked|Learnt)", r"putting.\1", text)
    write(path, text)


# Names that port.py spelled as another definition's.
APART = [
    ("crates/rules/proofs/Sequences.antt", "same_codes", "same_codes_lem"),
    ("crates/records/proofs/BigEndian.antt", "number_of", "number_of_lem"),
    ("crates/records/proofs/Encoding.antt", "number_of", "number_of_lem"),
]


def names():
    for path, old, new in APART:
        write(path, turned(read(path), {old: new}, True))
    to = mapping()
    for path in antt_files():
        text = read(path)
        write(path, turned(text, to, True, by_hand(path)))
    for path in glob.glob("crates/*/src/**/*.rt", recursive=True):
        write(path, turned(read(path), to, False))
    print(f"{len(to)} names")


def main(doc, before, after):
    """Runs one of two: before the kit's port.py or after it."""
    if sys.argv[1:] == ["--first"]:
        before()
    elif not sys.argv[1:]:
        after()
    else:
        print(doc)
        sys.exit(2)


if __name__ == "__main__":
    main(__doc__, first, names)
