#!/usr/bin/env python3
"""The list of crates.

    python3 scripts/gate/crates.py           compares: one line 'ok ..' or 'failed ..' for each of these
    python3 scripts/gate/crates.py --write   takes names out of crates.txt that are not used

- crates.txt has each crate behind those that it names.
- A crate's line has no name that its sources, definitions and proofs do not use.
- It has each library whose definitions or lemmas these name. `rt ci` asks for that; `over.py` and `rt try` do not.

scripts/dev/pictures.py draws them (docs/crates.svg)."""
import os
import re
import sys

from texts import ROOT, read, say, write


CITED = re.compile(r"\bRattle\.(\w+)")
# no line names it
GIVEN = "std"


def listed():
    """the crates in the order of crates.txt, each with the names of its line"""
    lines = (line.split("#")[0] for line in read("crates.txt").split("\n"))
    return {line.split(":")[0].split()[0]: line.split(":")[1].split() for line in lines if ":" in line}


def out_of_order(crates):
    seen = set()
    for name, below in crates.items():
        yield from (f"{name} stands before {it}" for it in below if it in crates and it not in seen)
        seen.add(name)


def texts_of(name):
    """each file of a crate, and its text"""
    for part in ("src", "specs", "proofs"):
        for at, _, files in sorted(os.walk(f"{ROOT}/crates/{name}/{part}")):
            yield from ((f"{at}/{it}", read(f"{at}/{it}")) for it in sorted(files))


def words_of(name):
    return set(re.findall(r"\w+", "\n".join(text for _, text in texts_of(name))))


def lacking(crates):
    for name, below in crates.items():
        found = {}
        for path, text in texts_of(name):
            code = re.sub(r"//[^\n]*" if path.endswith(".rt") else r"--[^\n]*", "", text)
            for it in CITED.findall(code):
                found.setdefault(it, os.path.relpath(path, ROOT))
        yield from (f"{name} lacks {it}, which {path} names" for it, path in sorted(found.items()) if it not in (name, GIVEN, *below))


def unused(crates):
    for name, below in crates.items():
        words = words_of(name)
        yield from (f"{name} does not use {it}" for it in below if it not in words)


def drop_unused():
    """writes crates.txt without the names that a crate does not use"""
    lines = read("crates.txt").split("\n")
    for at, line in enumerate(lines):
        head, mark, names = line.partition(":")
        if mark and not line.startswith("#"):
            words = words_of(head.split()[0])
            lines[at] = head + mark + "".join(f" {it}" for it in names.split() if it in words)
    write("crates.txt", "\n".join(lines))


def main():
    if sys.argv[1:] == ["--write"]:
        return drop_unused()
    crates = listed()
    fine = say(list(out_of_order(crates)), f"crates.txt: {len(crates)} crates, each behind those that it names", "crates.txt")
    fine &= say(list(unused(crates)), "crates.txt: each name of a line is used", "crates.txt")
    fine &= say(list(lacking(crates)), "crates.txt: each library that a crate's definitions and proofs name is in its line", "crates.txt")
    sys.exit(0 if fine else 1)


main()
