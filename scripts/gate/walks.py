#!/usr/bin/env python3
"""Through which functions does a header section go? The two walks of docs/WALKS.md, by the sources.

    python3 scripts/gate/walks.py           one line 'ok ..', or 'failed ..' for each function that does not stand so, and each wrong count

A walk is a paragraph `**NAME**: N functions, M changes of crate.`, and then crates with the functions that follow each other there. Each function has to
stand in its crate, and to be called in the crate of one that stands before it; N and M are counted."""
import glob
import os
import re
import sys

from texts import ROOT, read, say

PAGE = "docs/WALKS.md"
WALK = re.compile(r"^\*\*(Out|In)\*\*: (\d+) functions, (\d+) changes of crate\.(.*?)\n(?:\n|\Z)", re.M | re.S)


def source(crate):
    """the code of a crate, without comments"""
    paths = sorted(glob.glob(f"crates/{crate}/src/**/*.rt", root_dir=ROOT, recursive=True))
    return re.sub(r"//.*", "", "\n".join(read(path) for path in paths))


def judged(walk, sources, wrong):
    """counts one walk, and asks each of its functions"""
    name, functions, changes, text = walk.groups()
    crate, seen = None, []
    for word in re.findall(r"`(\w+)`", text):
        if os.path.isdir(os.path.join(ROOT, "crates", word)):
            crate = word
            continue
        if not re.search(rf"\bfn {word}\b", sources(crate)):
            wrong.append(f"{name}: {crate} has no function {word}")
        if seen and not any(re.search(rf"(?<!fn )\b{word}\(", sources(it)) for it in {it for it, _ in seen} | {crate}):
            wrong.append(f"{name}: {word} of {crate} is not called")
        seen.append((crate, word))
    found = len(seen), sum(one[0] != other[0] for one, other in zip(seen, seen[1:]))
    if found != (int(functions), int(changes)):
        wrong.append(f"{name}: {found[0]} functions, {found[1]} changes of crate")
    return found


def main():
    wrong, kept = [], {}

    def sources(crate):
        return kept.setdefault(crate, source(crate))

    counts = [judged(walk, sources, wrong) for walk in WALK.finditer(read(PAGE))]
    if len(counts) != 2:
        wrong.append(f"{PAGE} has {len(counts)} walks")
    return 0 if say(wrong, f"{PAGE}: two walks, of {' and '.join(str(it[0]) for it in counts)} functions", "walks") else 1


if __name__ == "__main__":
    sys.exit(main())
