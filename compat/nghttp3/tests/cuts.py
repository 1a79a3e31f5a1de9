#!/usr/bin/env python3
"""cuts.py FIRST LAST: what is told does not depend on where the bytes of a stream are cut. The cases of byte_cases.py, and cases with
changed bytes, are given to the drop-in whole and in random pieces: the same is told, and the same error answered."""
import random
import sys

from byte_cases import CASES
from byte_scripts import opened, told_of
from library import ERRORS, IS_VERSION_1, libraries

TELLS_EACH = {"two GOAWAY at once"}  # which whole are told as one (README.md)


def changed(chance, case):
    """a case with up to three bytes replaced, put in or taken out"""
    deliveries = [(stream, bytearray(data), is_end) for stream, data, is_end in case.deliveries]
    for _ in range(chance.randint(1, 3)):
        data = chance.choice(deliveries)[1]
        at = chance.randrange(len(data) + 1)
        data[at : at + chance.randrange(2)] = bytes([chance.randrange(256)] * chance.randrange(2))
    return case._replace(deliveries=[(stream, bytes(data), is_end) for stream, data, is_end in deliveries])


def cut(chance, case):
    pieces = []
    for stream, data, is_end in case.deliveries:
        while len(data) > 1 and chance.random() < 0.8:
            at = chance.randint(1, min(len(data) - 1, chance.choice((1, 4, 100))))
            pieces.append((stream, data[:at], False))
            data = data[at:]
        pieces.append((stream, data, is_end))
    return case._replace(deliveries=pieces)


def run(library, case):
    """what is told, without the flags that say whether the end came in the same call; the error or 0; consumed bytes"""
    events, consumed = [], 0
    connection = opened(library, case, lambda *event: events.append(event))
    for stream, data, is_end in case.deliveries:
        result = connection.read(stream, data, is_end)
        assert result in ERRORS or 0 <= result, f"{case.name}: {result}"
        if result < 0:
            break
        consumed += result
    connection.free()
    consumed += sum(len(it[2]) if it[0] == "data" else it[2] for it in events if it[0] in ("data", "consume"))
    assert consumed <= sum(len(data) for _, data, _ in case.deliveries), f"{case.name}: more was consumed than came"
    told = [it[:2] if it[0].startswith("end_") else it for it in told_of(events, result < 0) if it[0] != "consume"]
    if not IS_VERSION_1:  # which refuses a stream of an unknown type with each delivery
        told = [it for at, it in enumerate(told) if it[0] != "stop" or it not in told[:at]]
    return told, min(result, 0), 0 if result < 0 else consumed


def is_front(front, whole):
    """Is the one list a front of the other? Its last piece of data may be a front too."""
    if not front:
        return True
    *before, last = front
    if whole[: len(before)] != before or len(whole) < len(front):
        return False
    other = whole[len(before)]
    return last == other or (last[0] == other[0] == "data" and other[2].startswith(last[2]))


def differ(whole, pieces):
    """An error of the connection keeps back what the same call had to tell."""
    if whole[1]:
        return whole[1] != pieces[1] or not is_front(whole[0], pieces[0])
    return whole != pieces


def main():
    _, ours = libraries()
    wrong = count = 0
    for seed in range(int(sys.argv[1]), int(sys.argv[2])):
        chance = random.Random(seed)
        for case in CASES:
            if case.name in TELLS_EACH:
                continue
            count += 1
            asked = changed(chance, case) if seed % 2 else case
            pieces = cut(chance, asked)
            answers = run(ours, asked), run(ours, pieces)
            if differ(*answers):
                wrong += 1
                print(f"failed cuts: seed {seed}, {case.name}: {answers[0]}\nin pieces {answers[1]}\n{pieces.deliveries}")
    if not wrong:
        print(f"ok cuts: {count} cases in pieces")
    sys.exit(wrong > 0)


if __name__ == "__main__":
    main()
