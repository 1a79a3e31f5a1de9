#!/usr/bin/env python3
"""Hostile lists of calls of an endpoint, as the lines `call ..` that the program h3_cases reads, and the lines that the model of an
endpoint (scripts/gate/independent_model.py) answers to them.

    python3 scripts/gate/hostile_calls.py PROGRAM [LISTS A SIDE] [FIRST SEED]

runs the program on 2,000 lists a side and prints lines 'ok NAME' or 'failed NAME' for each side, with the first list that it answers
otherwise. Half of the lists are those of scripts/gate/connection_cases.py, a quarter each the sends and the wilder bytes of
scripts/gate/call_lists.py; half of all have more calls put between them. Then the same lists with lists of fields: every second header section and trailer is
sent as its list, which may be malformed, and every second pull answers with lists. Lists in which the model does not know a rule of another
library are left out.
"""
import itertools
import os
import random
import subprocess
import sys

sys.path.insert(0, os.path.dirname(os.path.abspath(__file__)))
from call_lists import ODD_FIELDS, calls_of, sends_of  # noqa: E402
from connection_cases import calls  # noqa: E402
from independent_model import CLIENT, SERVER, Endpoint, Malformed, Unsure, head_of  # noqa: E402

CODES = {
    0x103: "H3_STREAM_CREATION_ERROR", 0x104: "H3_CLOSED_CRITICAL_STREAM", 0x105: "H3_FRAME_UNEXPECTED", 0x106: "H3_FRAME_ERROR",
    0x108: "H3_ID_ERROR", 0x109: "H3_SETTINGS_ERROR", 0x10A: "H3_MISSING_SETTINGS", 0x200: "QPACK_DECOMPRESSION_FAILED",
    0x201: "QPACK_ENCODER_STREAM_ERROR", 0x202: "QPACK_DECODER_STREAM_ERROR",
}


def escaped(data):
    """bytes as the program prints them: what is no letter, digit or sign is an escape"""
    return "".join(chr(b) if 33 <= b < 127 and b != 37 else "%%%02X" % b for b in data)


def words(fields):
    return "".join(f" {escaped(n)}={escaped(v)}" for n, v in fields)


def digits(data):
    return data.hex() or "-"


CALLS = {
    "open_request": lambda: "open", "send_head": lambda i, f: f"head {i}{words(f)}", "send_body": lambda i, b: f"body {i} {digits(b)}",
    "send_trailer": lambda i, f: f"trailer {i}{words(f)}", "finish": lambda i: f"finish {i}", "reset": lambda i: f"reset {i}",
    "goaway": lambda i: f"goaway {i}", "outgoing": lambda i: f"waits {i}", "advance": lambda i, n: f"advance {i} {n}",
    "deliver": lambda i, b: f"deliver {i} {digits(b)}", "deliver_end": lambda i: f"end {i}", "deliver_reset": lambda i, c: f"gone {i} {c}",
    "send_fields": lambda i, f: f"fields {i}{words(f)}", "send_trailer_fields": lambda i, f: f"trailers {i}{words(f)}",
    "pull": lambda i: f"pull {i}", "pull_fields": lambda i: f"pulls {i}", "cancel": lambda i: f"cancel {i}", "show": lambda: "show",
}


def pull_line(a):
    kind = a[0]
    if kind in ("Head", "Interim", "Trailer"):
        return kind.lower() + words(a[1])
    if kind in ("Body", "Raw"):
        return f"{kind.lower()} {escaped(a[1])}"
    if kind == "Fault":
        if a[1] == "Connection":
            return f"fault {CODES[a[2]]}"
        return "fault " + {"Reset": lambda: f"reset {a[3]}", "Canceled": lambda: "canceled", "Malformed": lambda: f"malformed {a[3]}"}[a[2]]()
    named = {"TooLarge": "too large", "Session": "session", "End": "end", "Pending": "pending", "Waiting": "waiting", "NoMessages": "no messages"}
    return " ".join([named[kind]] + [str(n) for n in a[1:]])


def line(call, a):
    """the line of an answer"""
    kind = a[0]
    if call[0] in ("pull", "pull_fields"):
        return pull_line(a)
    if kind == "done":
        return "ok"
    if kind == "opened":
        return f"stream {a[1]}"
    if kind == "waits":
        return f"waits {digits(a[1])}"
    if kind == "shown":
        limits = "- - -" if a[1] is None else "%d %d %d" % a[1]
        return f"show {limits} {a[2]} {a[3]} {a[4]}"
    if kind in ("Closed", "Connection"):
        return f"refused {kind} {CODES[a[1]]}"
    return " ".join(["refused", kind] + [str(n) for n in a[1:]])


def more(rng, todo, side):
    """the calls, with some that send and take what waits put between them"""
    ids = [0, 4, 8, 2, 3, 6, 7, 10, 11]
    out = []
    for call in todo:
        out.append(call)
        if rng.random() < 0.12:
            id = rng.choice(ids)
            out.append(rng.choice([("advance", id, rng.choice([0, 1, 2, 5, 1000])), ("outgoing", id), ("pull", id), ("finish", id), ("send_body", id, b"z"), ("deliver", id, b""), ("deliver_end", id)]))
    return out


AS_LISTS = {"send_head": "send_fields", "send_trailer": "send_trailer_fields", "pull": "pull_fields"}


def another(rng, fields):
    """the list, a few in another order, and a few with a field that may be malformed"""
    fields = list(fields)
    if rng.random() < 0.3:
        rng.shuffle(fields)
    if rng.random() < 0.1:
        fields.insert(rng.randrange(len(fields) + 1), rng.choice(ODD_FIELDS))
    return fields


def heads_made(todo, rng=None):
    """the calls with their heads as a `Header` gives them, those of one name together; what makes no head is left out. With `rng` every
    second one of these, and of the pulls, is a call with a list."""
    for call in todo:
        if rng and call[0] in AS_LISTS and rng.random() < 0.5:
            yield AS_LISTS[call[0]], call[1], *(another(rng, fields) for fields in call[2:])
        elif call[0] not in ("send_head", "send_trailer"):
            yield call
        else:
            try:
                yield call[0], call[1], head_of(call[2])
            except Malformed:
                pass


def hostile(seed, side, has_lists=False):
    """the lines of a list of calls and of its answers"""
    rng = random.Random(f"{seed} {side}")
    if seed % 4 < 2:
        limits, todo = calls(seed, side, rng.choice([0.0, 0.17, 0.17, 0.6]))
    else:
        limits, todo = sends_of(seed, side) if seed % 4 == 2 else calls_of(seed, side)
    if rng.random() < 0.5:
        todo = more(rng, todo, side)
    end = Endpoint(side, *limits)
    made = heads_made(todo, random.Random(f"lists {seed} {side}") if has_lists else None)
    done = [(call, getattr(end, call[0])(*call[1:])) for call in made]
    asked, told = ["call new %s %d %d %d" % (("c" if side == CLIENT else "s",) + limits)], ["ok"]
    for call, answer in done:
        asked.append("call " + CALLS[call[0]](*call[1:]))
        told.append(line(call, answer))
    return asked, told


def lists(side, count, seed, has_lists=False):
    made = []
    while len(made) < count:
        try:
            asked, told = hostile(seed, side, has_lists)
            name = [f"# {side.lower()} {seed}"]
            made.append((name + asked, name + told))
        except Unsure:
            pass
        seed += 1
    return made


def compared(program, side, count, first, has_lists):
    """asks the program, and tells the first list that it answers otherwise"""
    made = lists(side, count, first, has_lists)
    text = "".join(text + "\n" for asked, _ in made for text in asked)
    ran = subprocess.run([program], input=text.encode("ascii"), stdout=subprocess.PIPE, timeout=100)
    answers = ran.stdout.decode("ascii").split("\n")
    at = 0
    for asked, told in made:
        got = answers[at:at + len(told)]
        at += len(told)
        if got != told:
            place = next(k for k, text in enumerate(told) if got[k:k + 1] != [text])
            calls_so_far = "".join(f"    {call}\n" for call in asked[:place + 1])
            print(f"{calls_so_far}the program: {got[place:place + 1]}, the model: {told[place]!r}", file=sys.stderr)
            return False
    return ran.returncode == 0 and answers[at:] == [""]


def main():
    program = sys.argv[1]
    count = int(sys.argv[2]) if len(sys.argv) > 2 else 2000
    first = int(sys.argv[3]) if len(sys.argv) > 3 else 1
    good = True
    for side, has_lists in itertools.product((CLIENT, SERVER), (False, True)):
        right = compared(program, side, count, first, has_lists)
        print(f"{'ok' if right else 'failed'} hostile calls of a {side.lower()}{' with lists of fields' if has_lists else ''}")
        good = good and right
    sys.exit(0 if good else 1)


if __name__ == "__main__":
    main()
