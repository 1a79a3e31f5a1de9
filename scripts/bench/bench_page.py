#!/usr/bin/env python3
"""The tables of a run of the benches.

    python3 scripts/bench/bench_page.py RUN       writes what `scripts/bench/bench.sh page` printed, the file RUN, into bench/RESULTS.md between its two marks, and the
                                            rows that matter into docs/PERFORMANCE.md. Says which rows below their target the list of RESULTS does not name
    python3 scripts/bench/bench_page.py --check   compares: are the rows of docs/PERFORMANCE.md those of bench/RESULTS.md? One line 'ok ..' or 'failed ..'
    python3 scripts/bench/bench_page.py --chosen  writes the rows of docs/PERFORMANCE.md anew, from those of bench/RESULTS.md
"""
import datetime
import os
import re
import subprocess
import sys
import textwrap

ROOT = os.path.dirname(os.path.dirname(os.path.dirname(os.path.realpath(__file__))))
RESULTS = f"{ROOT}/bench/RESULTS.md"
SUMMARY = f"{ROOT}/docs/PERFORMANCE.md"
BEGIN, END = "<!-- a run: bench.sh page writes from here -->\n", "<!-- to here -->\n"
BELOW = "## Below the target, and what comes next"
TABLES = ("## Rows", "## Whole exchanges, through the C interface")
# the rows of docs/PERFORMANCE.md: row and set, and what it says of them
CHOSEN = (
    ("varint decode", "1 to 8 bytes", "a variable-length integer is read"),
    ("huffman decode", "all strings", "Huffman code is read"),
    ("encode, capacity 0", "requests", "a header section is written, no dynamic table"),
    ("decode, capacity 0", "requests", "a header section is read, no dynamic table"),
    ("encode, 4096/100, by 1", "requests", "a header section is written, with a table"),
    ("decode, 4096/100, by 1", "requests", "a header section is read, with a table"),
    ("size, both, 4096/100, by 1", "requests", "size of header sections, with a table"),
    ("frames read", "DATA, one piece", "a DATA frame is read"),
    ("500 exchanges, 4096/100", "real POST", "request and response, 7,000 bytes each, in C"),
    ("500 exchanges, 0/0", "small GET", "request and response, small, in C"),
    ("500 exchanges, 0/0", "64 KiB POST", "request and response, 64 KiB each, in C"),
    ("an idle end", "no exchange", "memory of a connection without requests"),
)


def parts(text):
    """what stands before the tables, and the tables: lists of lines"""
    notes, tables, inside = [], [], False
    for line in text.splitlines():
        if line.startswith("|"):
            if not inside:
                tables.append([])
            tables[-1].append(" ".join(line.split()))
        elif line.strip():
            notes.append(line)
        inside = line.startswith("|")
    return notes, tables


def machine():
    with open("/proc/cpuinfo") as file:
        names = re.findall(r"^model name\s*: (.*)$", file.read(), re.M)
    return f"{names[0] if names else 'unknown processor'}, {os.cpu_count()} cores"


def commit():
    found = subprocess.run(["git", "-C", ROOT, "rev-parse", "--short", "HEAD"], capture_output=True, text=True, check=False)
    return found.stdout.strip() or "unknown"


def cells(line):
    return [cell.strip() for cell in line.strip("|").split("|")]


def below(tables):
    """the rows with a star, and their sets"""
    return [tuple(cells(line)[:2]) for table in tables for line in table[2:] if "*" in line]


def named(page):
    """what the list of the page has between backticks: its items, and not what stands behind them"""
    if BELOW not in page:
        return []
    return re.findall(r"`([^`]+)`", re.split(r"\n## |\n\n[A-Z]", page.split(BELOW)[1])[0])


def text_of(notes, tables):
    when = datetime.datetime.now(datetime.timezone.utc).strftime("%Y-%m-%d %H:%M UTC")
    loads = [note.rsplit(" ", 1)[1] for note in notes if note.startswith("load of the machine")]
    others = [note for note in notes if not note.startswith("load of the machine") and "rows below" not in note]
    lines = [f"Measured {when} at commit {commit()}, on {machine()}.", f"The load of the machine was {' and '.join(loads)} when the tables began.", ""]
    lines += [f"- {note}" for note in others]
    for head, table in zip(TABLES, tables):
        lines += ["", head, "", *table]
    short = below(tables)
    lines += ["", f"{len(short)} rows are below their target, or above what is wanted."]
    return "\n".join(lines) + "\n"


def read(path):
    with open(path, encoding="utf-8") as file:
        page = file.read()
    if page.count(BEGIN) != 1 or page.count(END) != 1:
        sys.exit(f"{path}: the marks are not there")
    return page


def between(page):
    return page.split(BEGIN)[1].split(END)[0]


def put(path, text):
    """writes a text between the marks of a page"""
    page = read(path)
    page = f"{page.split(BEGIN)[0]}{BEGIN}\n{text}\n{END}{page.split(END)[1]}"
    with open(path, "w", encoding="utf-8") as file:
        file.write(page)
    return page


def summary(run):
    """the rows of docs/PERFORMANCE.md, of what stands between the marks of bench/RESULTS.md"""
    _, tables = parts(run)
    rows = {tuple(line[:2]): line for table in tables for line in map(cells, table[2:])}
    measured = re.search(r"^Measured .*$", run, re.M)[0]
    lines = [*textwrap.wrap(measured, 130), "", "| What | ours | nghttp3 | unit | ratio | wanted |", "|---|---|---|---|---|---|"]
    for row, kind, what in CHOSEN:
        if (row, kind) not in rows:
            sys.exit(f"{RESULTS} has no row {row}, {kind}")
        _, _, ours, peer, _, unit, ratio, _, wanted, *_ = (re.sub(r"\.000$", "", it) for it in rows[row, kind])
        lines.append(f"| {what} | {ours} | {peer} | {unit} | {ratio} | {wanted} |")
    return "\n".join(lines) + "\n"


def check():
    if between(read(SUMMARY)).strip() == summary(between(read(RESULTS))).strip():
        print("ok docs/PERFORMANCE.md: its rows are those of bench/RESULTS.md")
        return 0
    print("failed docs/PERFORMANCE.md: its rows are not those of bench/RESULTS.md (python3 scripts/bench/bench_page.py --chosen)")
    return 1


def write(run):
    with open(run) as file:
        notes, tables = parts(file.read())
    # what a long connection costs is a table of another kind, behind these: RESULTS.md has that of a longer run (make bench-long)
    notes, tables = [it for it in notes if "rows above what is wanted" not in it], [it for it in tables if cells(it[0])[0] == "Row"]
    if len(tables) != len(TABLES) or sum("rows below their target" in note for note in notes) != len(TABLES):
        sys.exit(f"{run}: not a whole run")
    text = text_of(notes, tables)
    page = put(RESULTS, text)
    put(SUMMARY, summary(text))
    names = named(page)
    for row, kind in below(tables):
        if not any((" " in name and row.startswith(name)) or name in (kind, f"{row}, {kind}") for name in names):
            print(f"no cause is named on the page: {row}, {kind}", file=sys.stderr)


if sys.argv[1:] == ["--check"]:
    sys.exit(check())
elif sys.argv[1:] == ["--chosen"]:
    put(SUMMARY, summary(between(read(RESULTS))))
elif len(sys.argv) == 2:
    write(sys.argv[1])
else:
    sys.exit("bench_page.py RUN, --check or --chosen")
