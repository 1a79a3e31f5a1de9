#!/usr/bin/env python3
"""Where does each rule stand? The table 'Rules by name' of docs/ARCHITECTURE.md is written from marks.

    python3 scripts/gate/rules.py           compares: one line 'ok ..', or 'failed ..' for each rule that lacks a part, each bad mark, and a stale table
    python3 scripts/gate/rules.py --write   writes the table

A mark is a comment on a line of its own, as `RFC 9114 4.1: DATA before the header section`: the standard, its section and the name of the rule, the
same wherever the rule stands. It is in front of each definition (specs), of the functions that an endpoint runs (src), and of a line of a stored input that
shows the rule. In a wrong body (refused) it is a line `rule: RFC ..`. A rule that lacks one of these four parts fails."""
import collections
import glob
import os
import re
import sys

from texts import ROOT, read, say, write

PAGE = "docs/ARCHITECTURE.md"
PARTS = {
    "definition": ["crates/*/specs/*.antt"],
    "body": ["crates/*/src/**/*.rt"],
    "case": ["crates/h3_cases/stdin", "tests/*/*.[ct]*", "examples/*.talk"],
    "wrong body": ["crates/*/refused/*.edit"],
}
MARK = re.compile(r"^ *(?:(?:--|//|#|/\*) |rule: )(RFC (\d+) (\d+(?:\.\d+)*): (\S.*?))(?: \*/)?$")
NEARLY = re.compile(r"^ *(?:--|//|#|/\*) ?RFC \d+ \d|^rule:")  # a line that was meant to be one
BESIDE = re.compile(r"^ *(?:--|//|#\[|$)")  # what may stand between a mark and its item
ITEM = re.compile(r"^ *(?:(?:pub(?:\(\w+\))?|const|unsafe|final|fn|abbrev|unfoldable|opaque|record|data) )+(\w+)")
TABLE = re.compile(r"^\| Section \| Rule \|.*\n(?:\|.*\n)+", re.M)
LONGEST = 140  # of a row, without the targets of its links


class Bad(Exception):
    """a mark that is none, or stands in front of nothing"""


def lines_of(path):
    with open(os.path.join(ROOT, path), encoding="latin-1") as file:  # some inputs have bytes that are no text
        return file.read().split("\n")


def item_behind(lines, at):
    """the name of what is defined next"""
    following = next((line for line in lines[at:] if not BESIDE.match(line)), "")
    found = ITEM.match(following)
    if found is None:
        raise Bad("nothing is defined next to this mark")
    return found[1]


def shown(part, path, lines, at):
    """a place by its name"""
    if part in ("definition", "body"):
        return f"`{item_behind(lines, at)}`"
    return os.path.basename(path)


def marks(wrong):
    """each rule with its parts, which have the places of the marks: names and files"""
    rules = collections.defaultdict(lambda: {part: [] for part in PARTS})
    for part, patterns in PARTS.items():
        paths = sorted({it for pattern in patterns for it in glob.glob(pattern, root_dir=ROOT, recursive=True)})
        for path in paths:
            lines = lines_of(path)
            for at, line in enumerate(lines):
                found = MARK.match(line)
                try:
                    if found:
                        rules[found[1]][part].append((shown(part, path, lines, at + 1), path))
                    elif NEARLY.match(line):
                        raise Bad("a mark has the form 'RFC 9114 4.1: NAME'")
                except Bad as why:
                    wrong.append(f"{path}:{at + 1}: {why}: {line.strip()}")
    return rules


def order(rule):
    """by standard, section and name"""
    _, standard, section, name = MARK.match(f"rule: {rule}").groups()
    return int(standard), [int(it) for it in section.split(".")], name


def links(places):
    """the names of the places, each once, linked from the page"""
    return ", ".join(f"[{name}](../{path})" for name, path in dict.fromkeys(places))


def row(rule, parts):
    _, standard, section, name = MARK.match(f"rule: {rule}").groups()
    numbered = [(n, path) for n, (_, path) in enumerate(parts["wrong body"], 1)]
    cells = [f"{standard}, {section}", name, *(links(parts[it]) for it in ("definition", "body", "case")), links(numbered)]
    return f"| {' | '.join(cells)} |\n"


def table(rules):
    head = "| Section | Rule | Definition | Body | Case | Wrong bodies |\n|---|---|---|---|---|---|\n"
    return head + "".join(row(it, rules[it]) for it in sorted(rules, key=order))


def main():
    wrong = []
    rules = marks(wrong)
    for rule in sorted(rules, key=order):
        wrong += [f"{rule}: it has no {part}" for part, places in rules[rule].items() if not places]
        width = len(re.sub(r"\]\([^)]*\)", "]", row(rule, rules[rule])))
        wrong += [f"{rule}: its row has {width} characters, more than {LONGEST}"] if width > LONGEST else []
    page = read(PAGE)
    if sys.argv[1:] == ["--write"]:
        write(PAGE, TABLE.sub(lambda _: table(rules), page, count=1))
    elif TABLE.search(page) is None or TABLE.search(page)[0] != table(rules):
        wrong.append(f"{PAGE}: its table is not that of the marks (python3 scripts/gate/rules.py --write)")
    sys.exit(0 if say(wrong, f"{PAGE}: {len(rules)} rules, each with its definition, body, case and wrong bodies", "rules") else 1)


if __name__ == "__main__":
    main()
