#!/usr/bin/env python3
"""A line of what callgrind counted of an exchange, and the functions that take most of it: instructions.py KIND FOLDER FUNCTIONS FEW MANY. The folder has
the counts of FEW and of MANY exchanges, ours and nghttp3's."""
import re
import subprocess
import sys

LINE = re.compile(r"\s*([\d,]+) \(\s*[\d.]+%\)\s+(.*)")


def read(path):
    """the instructions of each function, by its name"""
    said = subprocess.run(["callgrind_annotate", "--threshold=100", "--auto=no", path], capture_output=True, text=True, check=True).stdout
    counts = {}
    for line in said.splitlines():
        found = LINE.match(line)
        if found is None:
            continue
        name = re.sub(r" \[.*", "", found[2]).split(":", 1)[-1]
        counts[name] = counts.get(name, 0) + int(found[1].replace(",", ""))
    return counts


def an_exchange(folder, who, few, many):
    """the instructions that each function takes for one exchange"""
    before, after = (read(f"{folder}/{exchanges}.{who}") for exchanges in (few, many))
    return {name: (count - before.get(name, 0)) / (many - few) for name, count in after.items()}


def total(counts):
    return next(count for name, count in counts.items() if name.endswith("PROGRAM TOTALS"))


def main():
    kind, folder, functions, few, many = sys.argv[1], sys.argv[2], *map(int, sys.argv[3:])
    ours, peer = (an_exchange(folder, who, few, many) for who in ("ours", "nghttp3"))
    print(f"| {kind} | {total(ours):,.0f} | {total(peer):,.0f} |")
    named = [(count, name) for name, count in ours.items() if not name.endswith("PROGRAM TOTALS")]
    for count, name in sorted(named, reverse=True)[:functions]:
        print(f"{count:10,.0f} {name}", file=sys.stderr)


if __name__ == "__main__":
    main()
