#!/usr/bin/env python3
"""Cases that are answered twice: by the Rust crate h3 of Debian 13 (the program of scripts/interop/upstream) and by the program h3_cases.

    python3 scripts/interop/upstream.py UPSTREAM OURS [CASES A GROUP] [SEED]

UPSTREAM and OURS are commands that read lines and print one for each. The rows are those of crates/h3_cases/stdin and generated ones. A
line 'ok NAME' says that all answers of a group are the same but for differences that are listed (scripts/interop/upstream_known.py, and
docs/DIFFERENCES.md), 'failed NAME' that others are not; and each listed difference has to be met. Ends with 1 where a line failed.
"""
import collections
import os
import random
import shlex
import subprocess
import sys

sys.path.insert(0, os.path.dirname(os.path.abspath(__file__)))
import upstream_cases as cases  # noqa: E402
from upstream_known import KNOWN  # noqa: E402

PAGE = os.path.join(os.path.dirname(os.path.abspath(__file__)), "..", "..", "docs", "DIFFERENCES.md")


def answers(command, lines, marked=False):
    """What a program prints, an answer for each line. Ours gives comments back: they part answers that may hold line ends."""
    mark = "#@"
    text = "".join(f"{line}\n{mark}\n" if marked else line + "\n" for line in lines)
    done = subprocess.run(shlex.split(command), input=text.encode(), capture_output=True)
    printed = done.stdout.decode("latin-1").split(f"\n{mark}\n" if marked else "\n")[:-1]
    if len(printed) != len(lines):
        sys.exit(f"{command}: {len(printed)} answers to {len(lines)} lines: {done.stderr[-2000:].decode('latin-1')}")
    return printed


def ours(command, made):
    """the answers to all cases"""
    told = iter(answers(command, [line for case in made for line in case.asked], True))
    for case in made:
        case.told = [next(told) for _ in case.asked]


def known(case, mine, theirs):
    """the first listed difference that these answers show"""
    return next((name for name, test in KNOWN if test(case, mine, theirs)), None)


def compare(made, their_lines):
    groups, met, bad = collections.Counter(), collections.Counter(), collections.defaultdict(list)
    listed = collections.Counter()
    for case, line in zip(made, their_lines):
        groups[case.group] += 1
        mine, theirs = case.ours(), case.theirs(line)
        if mine == theirs:
            continue
        name = known(case, mine, theirs)
        if name is None:
            bad[case.group].append((case, mine, line))
        else:
            met[name] += 1
            listed[case.group] += 1
    return groups, met, listed, bad


def main():
    upstream, mine = sys.argv[1:3]
    count = int(sys.argv[3]) if len(sys.argv) > 3 else 500
    seed = int(sys.argv[4]) if len(sys.argv) > 4 else 1
    made = cases.rows() + cases.examples() + cases.generated(random.Random(seed), count)
    ours(mine, made)
    groups, met, listed, bad = compare(made, answers(upstream, [case.line for case in made]))
    failed = 0
    for group, number in groups.items():
        if bad[group]:
            failed += 1
            print(f"failed h3 0.0.6, {group}: {len(bad[group])} of {number} cases differ")
            for case, text, line in bad[group][:int(os.environ.get("SHOW", "5"))]:
                print(f"  {case.line}\n    ours   {text}\n    theirs {case.theirs(line)}\n    printed {line}", file=sys.stderr)
        else:
            print(f"ok h3 0.0.6, {group}: {number} cases, {listed[group]} of them differ as listed")
    with open(PAGE, encoding="utf-8") as page:
        rows = page.read()
    for name, _ in KNOWN:
        if met[name] == 0 or f"| {name} |" not in rows:
            failed += 1
            print(f"failed h3 0.0.6, a listed difference that {'has no row' if met[name] else 'no case shows'}: {name}")
        else:
            print(f"  {met[name]} {name}", file=sys.stderr)
    sys.exit(1 if failed else 0)


if __name__ == "__main__":
    main()
