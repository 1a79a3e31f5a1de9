#!/usr/bin/env python3
"""tables.py: a fault of nghttp3's encoder, which ours does not have (README.md). A client sends requests with an ever new user-agent, to
a server whose table has other sizes than the 4,096 bytes that nghttp3's encoder takes at most. nghttp3 and the drop-in are such servers,
and refuse alike."""
import sys

from byte_cases import GET
from differences import judge
from library import Connection, check, error_name, libraries

REQUESTS = 300
TABLES = (220, 1024, 2048, 4096, 8192, 65536)


def fields_of(number):
    return [*GET, (b"user-agent", b"agent number %d" % number), (b"x-a", b"value %d" % (number // 2))]


def move(sender, receiver):
    """all that waits; answers an error of the receiver's"""
    while True:
        count, stream, is_end, data = sender.write()
        check(count, "writev")
        if stream < 0:
            return None
        sender.library.add_write_offset(sender.at, stream, len(data))
        sender.library.add_ack_offset(sender.at, stream, len(data))
        result = receiver.read(stream, data, is_end)
        if result < 0:
            return error_name(result)


def required_insert_count(client, server, table):
    """the count is written by the encoder's own limit, and not by the capacity that the peer announced (RFC 9204, section 4.5.1.1)"""
    done = []
    sides = (Connection(client, False, lambda *_: None),
             Connection(server, True, lambda kind, *_: done.append(kind) if kind == "end_stream" else None, table=table, blocked=100))
    move(*sides)
    move(*reversed(sides))
    for number in range(REQUESTS):
        check(sides[0].request(4 * number, fields_of(number)))
        error = move(*sides) or move(*reversed(sides))
        if error:
            return f"request {number}: {error}"
    waiting = REQUESTS - len(done)
    for side in sides:
        side.free()
    return f"{waiting} of {REQUESTS} requests wait for ever" if waiting else "all requests come"


def answer(client, table):
    """at both servers, which have to answer alike"""
    return " or ".join(sorted({required_insert_count(client, server, table) for server in libraries()}))


def main():
    native, ours = libraries()
    answers = {f"{table} bytes": (answer(native, table), answer(ours, table)) for table in TABLES}
    found = {case: both for case, both in answers.items() if both[0] != both[1]}
    sys.exit(not judge("tables", found, len(answers)))


if __name__ == "__main__":
    main()
