#!/usr/bin/env python3
"""frames_left.py: how many bytes of a frame are to come, of the cases of byte_cases.py as they are, with their longest delivery in two, and
byte by byte: after each delivery Debian's library and ours are asked of every stream. Of a stream that was given up, or on a connection
with an error, nothing is asked."""
import sys

from byte_cases import CASES
from byte_scripts import opened
from differences import judge
from library import IS_VERSION_1_17, libraries

STREAMS = range(16)


def may_be_cut(case):
    """nghttp3 before 1.17 is not given a PRIORITY_UPDATE frame in pieces"""
    return IS_VERSION_1_17 or not case.name.startswith("PRIORITY_UPDATE")


def by_bytes(case):
    pieces = [(stream, data[at : at + 1], is_end and at + 1 == len(data)) for stream, data, is_end in case.deliveries for at in range(len(data))]
    return case._replace(deliveries=pieces)


def in_two(case):
    """each way to cut the longest delivery once"""
    place = max(range(len(case.deliveries)), key=lambda it: len(case.deliveries[it][1]))
    stream, data, is_end = case.deliveries[place]
    for at in range(1, len(data)):
        pieces = [(stream, data[:at], False), (stream, data[at:], is_end)]
        yield case._replace(deliveries=[*case.deliveries[:place], *pieces, *case.deliveries[place + 1 :]])


def ways(case):
    yield case.name, case
    if may_be_cut(case):
        yield from ((f"{case.name}, in two", it) for it in in_two(case))
        yield f"{case.name}, by bytes", by_bytes(case)


def answers(library, case):
    """after each delivery what is to come on each stream that was not given up; None after an error"""
    given_up = set()

    def say(kind, stream, *_):
        if kind in ("stop", "reset"):
            given_up.add(stream)

    connection = opened(library, case, say)
    left = library.get_frame_payload_left
    for stream, data, is_end in case.deliveries:
        if connection.read(stream, data, is_end) < 0:
            yield None
            break
        told = {it: left(connection.at, it) for it in STREAMS if it not in given_up}
        if IS_VERSION_1_17:
            assert all(library.get_frame_payload_left2(connection.at, it) == told[it] for it in told), case.name
        yield told
    connection.free()


def first_difference(native, ours, case):
    """the first delivery after which both tell another number, and these"""
    for place, (theirs, own) in enumerate(zip(answers(native, case), answers(ours, case))):
        if theirs is None or own is None:
            return None
        other = [it for it in theirs.keys() & own.keys() if theirs[it] != own[it]]
        if other:
            return tuple(f"{told[other[0]]} on stream {other[0]} after delivery {place + 1}" for told in (theirs, own))
    return None


def main():
    native, ours = libraries()
    found = {}
    for case in CASES:
        for way, asked in ways(case):
            other = first_difference(native, ours, asked)
            if other:
                found[way] = other
    sys.exit(not judge("frames left", found, len(CASES)))


if __name__ == "__main__":
    main()
