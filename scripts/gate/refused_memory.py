#!/usr/bin/env python3
"""The program where memory is refused.

    python3 scripts/gate/refused_memory.py PROGRAM CASES

runs the program on some scripts of examples and tests/talk again and again: at the first call for memory that is refused, the second, and so on, until a run
meets no refusal; each number both for that call alone and for all from it on. Each run has to end with status 2, or with status 0 and the
lines of the example up to one that tells of refused memory. Then it runs the program of cases (crates/h3_cases) on a head with two insertions, a header
and a list of fields, and on such a trailer. It is sent again where memory was refused: what was inserted before stands on the encoder stream, nothing of it
on its own, and the second section refers to it. It prints a line 'ok NAME' or 'failed NAME' a script, and one for the insertions. The calls are refused by a few lines of C
(scripts/gate/refusing.py); where no C compiler is there it says so and tries nothing. What holds behind the first such line scripts/gate/memory_runs.py tries.
"""
import os
import sys

sys.path.insert(0, os.path.dirname(os.path.abspath(__file__)))
from refusing import FOR_GOOD, Refused, Refusing, can_refuse  # noqa: E402

TOP = os.path.dirname(os.path.dirname(os.path.dirname(os.path.abspath(__file__))))
SCRIPTS = ("first", "table", "interim", "refused_event", "lists_pulled")
MEMORY = (b"refused OutOfMemory", b"refused Kept", b"fault out of memory")
# A client whose peer takes a table of 4,096 bytes and lets 100 streams wait. It has inserted 15 fields for stream 0. An encoder asks for the memory of 16
# entries at once, so one more insertion takes none, and a second one does. So the answers of both sends on stream 4, and what waits on the encoder
# stream and on stream 4 after each, depend on how many insertions were made when memory was refused.
BEGUN = [b"call new c 1000 0 0", b"call deliver 3 000406015000074064", b"call open",
         b"call fields 0 :method=GET " + b" ".join(n * b"b" + b"=1" for n in range(1, 16)), b"call waits 6", b"call open"]
WAITS = [b"call waits 6", b"call waits 4"]
REQUEST = b" 4 :method=GET :scheme=https :authority=www.example.com :path=/sample/path"
# Of each command what stands on stream 4 before it, its fields, their insertions, and the frame: its entries are both inserted behind the base, one
# of them before it, both before it (RFC 9204, section 4.5).
FRAMES = (b"01061281d1d71011", b"01061280d1d78010", b"01061200d1d78180")
OF_REQUEST = (b"", REQUEST, (b"c08cf1e3c2e5f23a6ba0ab90f4ff", b"c1896103a6ba0ac5634cff"), FRAMES)
SENT = {b"head": OF_REQUEST, b"fields": OF_REQUEST,
        b"trailers": (b"01030000d1", b" 4 x=1 y=2", (b"61f3810f", b"61f58117"), (b"010412811011", b"010412808010", b"010412008180"))}


def is_allowed(wrote, status, met, wanted, usual):
    if not met:
        return (wrote, status) == (b"".join(it + b"\n" for it in wanted), usual)
    if status == 2:
        return True
    if status != usual:
        return False
    lines = wrote.split(b"\n")[:-1]
    first = next((n for n, line in enumerate(lines) if line in MEMORY), len(lines))
    return len(lines) == len(wanted) and lines[:first] == wanted[:first]


def check(refusing, program, name):
    folder = next(it for it in (f"{TOP}/examples", f"{TOP}/tests/talk") if os.path.exists(f"{it}/{name}.talk"))
    with open(f"{folder}/{name}.talk", "rb") as script, open(f"{folder}/{name}.stdout", "rb") as file:
        given, wanted = script.read(), file.read().split(b"\n")[:-1]
    usual = 1 if wanted[0].startswith(b"line ") else 0
    runs, statuses = 0, set()
    for last in (lambda n: n, lambda n: FOR_GOOD):
        met, number = True, 0
        while met:
            number += 1
            ran = refusing.run(program, given, Refused(number, last(number)))
            met, runs, statuses = ran.refused > 0, runs + 1, statuses | {ran.status}
            if not is_allowed(ran.wrote, ran.status, met, wanted, usual):
                print(f"failed {name} with memory refused: call {number} for memory refused: status {ran.status}, {ran.wrote[:200]!r}")
                return 1
    print(f"ok {name} with memory refused: {runs} runs, statuses {' '.join(map(str, sorted(statuses)))}")
    return 0


def waits(bytes):
    return b"waits " + (bytes or b"-")


def insertions(refusing, cases, sent):
    """each call for memory of the calls refused in turn: how often the command, of a header or of a list, was refused with no insertion, one and two made"""
    front, fields, inserted, frames = SENT[sent]
    begun = [*BEGUN, *([b"call fields 4 :method=GET"] if front else [])]
    section = [b"call " + sent + fields, *WAITS]
    told, at = f"insertions of {sent.decode()} with memory refused", len(begun)
    before = refusing.run(cases, b"\n".join(begun) + b"\n").wrote.split(b"\n")[4]
    first, opened = before.removeprefix(b"waits "), [b"ok", b"ok", b"stream 0", b"ok", before, b"stream 4", *([b"ok"] if front else [])]
    both = waits(first + b"".join(inserted))
    found, met, number = [0, 0, 0], True, 0
    while met:
        number += 1
        ran = refusing.run(cases, b"\n".join(begun + section + section) + b"\n", Refused(number, number))
        met, lines = ran.refused > 0, ran.wrote.split(b"\n")[:-1]
        if lines[:at + 1] != opened + [b"refused OutOfMemory"]:
            # memory was refused elsewhere, or not at all
            continue
        made = {waits(first + b"".join(inserted[:made])): made for made in range(3)}.get(lines[at + 1])
        if made is None or lines[at + 2:] != [waits(front), b"ok", both, waits(front + frames[made])] or ran.status:
            print(f"failed {told}: call {number} for memory refused: status {ran.status}, {lines[at:]}")
            return 1
        found[made] += 1
    if lines != opened + [b"ok", both, waits(front + frames[0]), b"refused OutOfOrder", both, waits(front + frames[0])] or not found[1]:
        print(f"failed {told}: {found} refusals with no, one and two insertions made; with none {lines[at:]}")
        return 1
    print(f"ok {told}: {number} runs, of which {found[0]}, {found[1]} and {found[2]} refuse it with none, one and two made")
    return 0


def main():
    program, cases = map(os.path.abspath, sys.argv[1:3])
    if not can_refuse():
        print("ok refused memory: not tried, since there is no C compiler")
        return 0
    with Refusing() as refusing:
        return max([check(refusing, program, name) for name in SCRIPTS] + [insertions(refusing, cases, sent) for sent in SENT])


if __name__ == "__main__":
    sys.exit(main())
