#!/usr/bin/env python3
"""Large input, with memory for all of it: no answer may tell of want of memory, and none is wanting.

    python3 scripts/gate/sizes.py PROGRAM CASES

runs the program on scripts, and the program of cases on calls: bodies of 64 KiB and 16 MiB, heads of 64 KiB and of 1,000 fields, 10,000
streams at once, 100,000 insertions, deliveries of 1 MiB on each kind of stream, a schedule of more than 100,000 events in a script of more than
4 MiB. Each line has to be the one that was worked out here from the standards' encodings, so an endpoint that finds no memory for large
input fails. Calls for memory are counted on the way (refusing.py): a run in which one was refused fails too, since it shows nothing. It
prints a line 'ok NAME' or 'failed NAME' for each script and for the calls.
"""
import os
import subprocess
import sys

sys.path.insert(0, os.path.dirname(os.path.abspath(__file__)))
from independent_qpack import Sender, integer, string, varint  # noqa: E402
from refusing import Refusing  # noqa: E402

KIB, MIB = 1 << 10, 1 << 20
LONG = 100  # of a line that is printed


class Lines:
    """What a program is given, and of each line what it answers: bytes, or nothing where the program prints nothing for it."""

    def __init__(self):
        self.given, self.wanted = [], []

    def line(self, text, answer=None):
        self.given.append(text if isinstance(text, bytes) else text.encode())
        if answer is not None:
            self.wanted.append(answer if isinstance(answer, bytes) else answer.encode())

    def text(self):
        return b"".join(it + b"\n" for it in self.given)


# ---- what stands on streams


def frame(kind, payload):
    return varint(kind) + varint(len(payload)) + payload


def head_frame(fields):
    """a HEADERS frame whose section names no entry of a table"""
    return frame(1, Sender().encode(0, fields)[0])


def control_len(section, table, blocked):
    """how many bytes the control stream begins with: its type, and SETTINGS with three extensions that are off and the three limits"""
    pairs = varint(6) + varint(section) + bytes([8, 0]) + varint(0x2B603742) + b"\0" + bytes([0x33, 0]) + varint(0x2B603743) + b"\0"
    return 1 + len(frame(4, pairs + varint(1) + varint(table) + varint(7) + varint(blocked)))


REQUEST = [(b":method", b"GET"), (b":scheme", b"https"), (b":authority", b"a.example"), (b":path", b"/")]
RESPONSE = [(b":status", b"200")]


def words(fields):
    return b" ".join(name + b"=" + value for name, value in fields)


# ---- scripts of the program


def message(x, side, other, id, line, fields, body, trailer):
    """a message of a head, a body in one piece and a trailer goes over whole, and is pulled, the trailer as a list"""
    waits = len(head_frame(fields)) + len(varint(0) + varint(len(body))) + len(body) + (len(head_frame(trailer)) if trailer else 0)
    x.line(line, "ok")
    x.line(b"body %s %d " % (side, id) + body, "ok")
    if trailer:
        x.line(b"trailer %s %d " % (side, id) + words(trailer), "ok")
    x.line(b"finish %s %d" % (side, id), "ok")
    x.line(b"deliver %s %d %d" % (side, id, waits + 1), "short %d" % waits)
    x.line(b"deliver %s %d %d" % (side, id, waits), "delivered %d" % waits)
    x.line(b"end %s %d" % (side, id), "ok")
    x.line(b"pull %s %d" % (other, id), b"head " + words(fields))
    x.line(b"pull %s %d" % (other, id), b"body " + body)
    if trailer:
        x.line(b"pulls %s %d" % (other, id), b"trailer " + words(trailer))
    x.line(b"pull %s %d" % (other, id), "end")


def exchange(size, fields, trailer):
    """a request and its response, both with these fields, a body of that size and a trailer"""
    x = Lines()
    x.line("config %d 0 0 %d 0 0" % (MIB, MIB))
    x.line("open c", "stream 0")
    request, response = REQUEST + fields, RESPONSE + fields
    body = (b"0123456789abcdef" * (size // 16 + 1))[:size]
    message(x, b"c", b"s", 0, b"head c 0 GET https://a.example/ " + words(fields), request, body, trailer)
    message(x, b"s", b"c", 0, b"head s 0 200 " + words(fields), response, body[::-1], trailer)
    return x


def many_streams(count):
    """so many requests at once, and then so many responses"""
    x = Lines()
    x.line("config 1000 0 0 1000 0 0")
    ids = [4 * n for n in range(count)]
    for id in ids:
        x.line("open c", "stream %d" % id)
    for side, other, line, fields in (("c", "s", "GET https://a.example/", REQUEST), ("s", "c", "200", RESPONSE)):
        waits = len(head_frame(fields))
        for id in ids:
            x.line("head %s %d %s" % (side, id, line), "ok")
            x.line("finish %s %d" % (side, id), "ok")
        for id in ids:
            x.line("deliver %s %d %d" % (side, id, waits), "delivered %d" % waits)
            x.line("end %s %d" % (side, id), "ok")
        for id in ids:
            x.line("pull %s %d" % (other, id), b"head " + words(fields))
            x.line("pull %s %d" % (other, id), "end")
    return x


def many_goaways(count):
    """so many GOAWAY frames of ten bytes, which go over in one delivery"""
    x = Lines()
    x.line("config 1000 0 0 1000 0 0")
    first = 2 ** 62 - 4
    for n in range(count):
        x.line("goaway s %d" % (first - 4 * n), "ok")
    waits = control_len(1000, 0, 0) + 10 * count
    x.line("deliver s 3 %d" % (waits + 1), "short %d" % waits)
    x.line("deliver s 3 %d" % waits, "delivered %d" % waits)
    x.line("show c", "show 0 0 1000 0 0 0")
    x.line("open c", "refused GoingAway %d" % (first - 4 * (count - 1)))
    return x


def many_insertions(heads, fields):
    """Responses of so many new fields each, over a table that has room for less than twice as many: each field is inserted, and older ones are
    evicted. What one response inserts is received and acknowledged before the next."""
    x = Lines()
    x.line("config %d 4096 100 %d 0 0" % (MIB, MIB))
    waits = control_len(MIB, 4096, 100)
    x.line("deliver c 2 %d" % waits, "delivered %d" % waits)
    for n in range(heads):
        id, start = 4 * n, n * fields
        values = [b"%06d" % k for k in range(start, start + fields)]
        # the first one has its name with it, and each later one the name of the entry before it
        named = [integer(6, 2, 0) if start + k else string(6, 1, b"x-a") for k in range(fields)]
        inserted = sum(len(name + string(8, 0, value)) for name, value in zip(named, values)) + (1 + len(integer(5, 1, 4096)) if n == 0 else 0)
        encoded = integer(8, 0, (start + fields) % (2 * (4096 // 32)) + 1)
        lines = integer(6, 3, 25) + b"".join(integer(4, 1, k) for k in range(fields))
        section = len(frame(1, encoded + integer(7, 1, fields - 1) + lines))
        replies = len(integer(6, 0, fields) + integer(7, 1, id)) + (1 if n == 0 else 0)
        list_of = b" ".join(b"x-a=" + value for value in values)
        x.line("open c", "stream %d" % id)
        x.line("deliver c %d 0" % id, "delivered 0")
        x.line(b"head s %d 200 " % id + list_of, "ok")
        x.line("deliver s 7 %d" % inserted, "delivered %d" % inserted)
        x.line("deliver s %d %d" % (id, section), "delivered %d" % section)
        x.line("pull c %d" % id, b"head :status=200 " + list_of)
        x.line("deliver c 10 %d" % replies, "delivered %d" % replies)
    x.line("deliver s 7 1", "short 0")
    x.line("deliver c 10 1", "short 0")
    return x


# ---- calls of one endpoint


def hexed(data):
    return data.hex() or "-"


def calls(x, streams, insertions, body):
    """each call of an endpoint, at these sizes"""
    ok = "ok"
    big = [(b"x-%04d" % n, b"%04d" % n) for n in range(1000)]
    wide = [(b"y-%02d" % n, b"v" * 900) for n in range(75)]
    x.line("call new s %d 4096 100" % MIB, ok)
    # control: SETTINGS, an unknown frame of 1 MiB, 100,000 GOAWAY frames, and once more an unknown frame
    x.line("call deliver 2 " + hexed(b"\0" + frame(4, b"") + frame(0x21, bytes(MIB))), ok)
    x.line("call deliver 2 " + hexed(b"".join(frame(7, varint(2 * MIB - n)) for n in range(insertions))), ok)
    x.line("call goaways", "goaways " + " ".join(str(2 * MIB - n) for n in range(insertions)))
    x.line("call show", "show 0 0 4611686018427387903 0 0 0")
    # encoder: the capacity and the insertions, in one delivery; the last one is named
    entries = [b"%06d" % n for n in range(insertions)]
    x.line("call deliver 6 " + hexed(b"\2" + integer(5, 1, 4096) + b"".join(integer(6, 3, 0) + integer(7, 0, 6) + value for value in entries)), ok)
    x.line("call waits 11", "waits 03" + integer(6, 0, insertions).hex())
    section = integer(8, 0, insertions % 256 + 1) + b"\0" + bytes([0xD1, 0xD7, 0x80, 0xC1])
    x.line("call deliver 0 " + hexed(frame(1, section) + frame(0, body)), ok)
    x.line("call pull 0", b"head :method=GET :scheme=https :authority=" + entries[-1] + b" :path=/")
    x.line("call tries 0", "tries 1")
    x.line("call pull 0", b"body " + body)
    x.line("call deliver 0 " + hexed(head_frame(big)), ok)
    x.line("call end 0", ok)
    x.line("call pulls 0", b"trailer " + words(big))
    x.line("call pulls 0", "end")
    # decoder: increments of 0
    x.line("call deliver 10 " + hexed(b"\3" + bytes(MIB)), ok)
    # a WebTransport stream, and a stream of unknown type
    x.line("call deliver 14 " + hexed(varint(0x54) + varint(4) + b"r" * MIB), ok)
    x.line("call pull 14", "session 4")
    x.line("call pull 14", b"raw " + b"r" * MIB)
    x.line("call deliver 18 " + hexed(varint(0x21) + bytes(MIB)), ok)
    x.line("call pull 18", "no messages")
    # what is sent: heads, a body, a trailer, and what waits of them
    sent = head_frame(RESPONSE + big + wide) + frame(0, body) + head_frame(wide)
    x.line(b"call head 0 " + words(RESPONSE + big + wide), ok)
    x.line("call body 0 " + hexed(body), ok)
    x.line(b"call trailers 0 " + words(wide), ok)
    x.line("call finish 0", ok)
    x.line("call sends 0", "finished")
    x.line("call waits 0", "waits " + hexed(sent))
    x.line("call advance 0 %d" % (len(head_frame(RESPONSE + big + wide)) + len(varint(0) + varint(len(body)))), ok)
    x.line("call lends 0", "lends " + hexed(body))
    x.line("call advance 0 %d" % len(body), ok)
    x.line("call waits 0", "waits " + hexed(head_frame(wide)))
    cost = lambda fields: sum(len(name) + len(value) + 64 for name, value in fields) + 64
    x.line("call sent", "sent %d" % (cost(RESPONSE + big + wide) + cost(wide) + len(body) + 64))
    x.line("call reset 0", ok)
    x.line("call sends 0", "reset")
    # streams: bytes that are not pulled, a cancellation, a reset, an end
    for n in range(1, streams):
        x.line("call deliver %d %s" % (4 * n, hexed(head_frame(REQUEST))), ok)
    for n in range(1, streams, 3):
        x.line("call cancel %d" % (4 * n), ok)
        x.line("call gone %d 256" % (4 * n + 4), ok)
        x.line("call end %d" % (4 * n + 8), ok)
    for n in range(1, streams, 3):
        x.line("call pull %d" % (4 * n), "fault canceled")
        x.line("call pull %d" % (4 * n + 4), "fault reset 256")
        x.line("call pull %d" % (4 * n + 8), b"head " + words(REQUEST))
    x.line("call goaway %d" % (4 * streams), ok)
    # a client: as many requests
    x.line("call new c %d 4096 100" % MIB, ok)
    for n in range(streams):
        x.line("call open", "stream %d" % (4 * n))
    x.line(b"call head %d " % (4 * streams - 4) + words(REQUEST + big), ok)
    x.line("call waits %d" % (4 * streams - 4), "waits " + hexed(head_frame(REQUEST + big)))


# ---- runs


def differences(x, ran):
    """what is not as it has to be, first things first"""
    lines = ran.wrote.split(b"\n")[:-1]
    if ran.refused or not ran.calls:
        yield f"{ran.refused} of {ran.calls} calls for memory were refused"
    if ran.status:
        yield f"status {ran.status}"
    if len(lines) != len(x.wanted):
        yield f"{len(lines)} lines, and not {len(x.wanted)}"
    for number, (found, wanted) in enumerate(zip(lines, x.wanted)):
        if found != wanted:
            yield f"answer {number + 1}: {found[:LONG]!r}, and not {wanted[:LONG]!r}"


def check(refusing, name, program, x):
    given, told = x.text(), ""
    try:
        ran = refusing.run(program, given, seconds=300)
        wrong = list(differences(x, ran))
        told = f"{len(x.wanted):,} answers to {len(given):,} bytes, {ran.calls:,} calls for memory and none refused"
    except subprocess.TimeoutExpired:
        wrong = ["it did not end within five minutes"]
    print(f"failed sizes, {name}: {wrong[0]}" if wrong else f"ok sizes, {name}: {told}", flush=True)
    return bool(wrong)


def main():
    program, cases = map(os.path.abspath, sys.argv[1:3])
    fields = [(b"x-%04d" % n, b"%08d" % n) for n in range(1000)]
    of_calls = Lines()
    calls(of_calls, 10_000, 100_000, b"0123456789abcdef" * (MIB // 16))
    with Refusing() as refusing:
        return max([
            check(refusing, "bodies of 64 KiB, heads of 64 KiB", program, exchange(64 * KIB, [(b"x-a", b"v" * 64 * KIB)], [(b"x-b", b"w" * 64 * KIB)])),
            check(refusing, "bodies of 16 MiB, heads of 1,000 fields", program, exchange(16 * MIB, fields, fields)),
            check(refusing, "10,000 streams", program, many_streams(10_000)),
            check(refusing, "150,000 GOAWAYs", program, many_goaways(150_000)),
            check(refusing, "100,000 insertions", program, many_insertions(2_000, 50)),
            check(refusing, "calls", cases, of_calls),
        ])


if __name__ == "__main__":
    sys.exit(main())
