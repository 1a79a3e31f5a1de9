#!/usr/bin/env python3
"""A large exchange between a client and a server: 500 POST requests with bodies of 7,000 bytes both ways.

    python3 scripts/gate/exchange.py PROGRAM

makes a script of it, with tables of 4,096 bytes and 100 streams that may wait, runs the program on it and holds each line that it
writes against what scripts/gate/independent_model.py answers. So how many bytes each delivery carries comes from the model. Each stream has
to give its head, its 7,000 bytes, in whatever pieces, and its end, to pulls with headers and with lists; no answer may tell of refused memory. It prints one line, 'ok
exchange' or 'failed exchange'. Without PROGRAM it prints the script.
"""
import os
import subprocess
import sys

sys.path.insert(0, os.path.dirname(os.path.abspath(__file__)))
from independent_model import CLIENT, SERVER, Endpoint  # noqa: E402

REQUESTS, BATCH, BODY, PULLS = 500, 20, 7000, 5
LIMITS = (1000, 4096, 100)
OWN = {"c": (2, 6, 10), "s": (3, 7, 11)}
OTHER = {"c": "s", "s": "c"}


class Exchange:
    """The script, and of each line the answer; the answer of a pull is left open, and what the stream gives stands in `given`."""

    def __init__(self):
        self.ends = {"c": Endpoint(CLIENT, *LIMITS), "s": Endpoint(SERVER, *LIMITS)}
        self.lines, self.answers, self.given = [], [], {}

    def event(self, line, answer):
        self.lines.append(line)
        self.answers.append(answer)

    def call(self, line, answer):
        if answer != ("done",):
            raise AssertionError(f"{line}: {answer}")
        self.event(line, "ok")

    def carry(self, side, id):
        """all that waits on a stream goes over"""
        waits = self.ends[side].outgoing(id)[1]
        if waits:
            if self.ends[OTHER[side]].deliver(id, waits) != ("done",):
                raise AssertionError(f"a delivery on {id}")
            self.ends[side].advance(id, len(waits))
            self.event(f"deliver {side} {id} {len(waits)}", f"delivered {len(waits)}")
        return bool(waits)

    def carry_own(self):
        while any([self.carry(side, id) for side in "cs" for id in OWN[side]]):
            pass

    def send(self, side, id, line, answer):
        self.call(line, answer)
        self.carry_own()
        self.carry(side, id)

    def message(self, side, id, words, fields):
        """the head, the body and the end of a message are sent"""
        end, body = self.ends[side], (f"{side}{id} " * BODY)[:BODY]
        self.send(side, id, f"head {side} {id} {words}", end.send_head(id, fields))
        self.send(side, id, f"body {side} {id} {body}", end.send_body(id, body.encode()))
        self.send(side, id, f"finish {side} {id}", end.finish(id))

    def take(self, side, id):
        """the end goes over, and all is pulled"""
        writer, reader = OTHER[side], self.ends[side]
        self.call(f"end {writer} {id}", reader.deliver_end(id))
        head, body, item = None, b"", reader.pull(id)
        while item != ("End",):
            if item[0] == "Head":
                head = "head" + "".join(f" {n.decode()}={v.decode()}" for n, v in item[1])
            elif item[0] == "Body":
                body += item[1]
            else:
                raise AssertionError(f"a pull on {id}: {item}")
            item = reader.pull(id)
        self.given[side, id] = (head, body)
        for number in range(PULLS):
            self.event(f"{'pulls' if number % 2 else 'pull'} {side} {id}", (side, id))
        self.carry_own()

    def show(self, side):
        _, limits, sending, receiving, waiting = self.ends[side].show()
        self.event(f"show {side}", "show " + " ".join(map(str, limits + (sending, receiving, waiting))))


def exchange():
    x = Exchange()
    x.carry_own()
    for first in range(0, REQUESTS, BATCH):
        batch = range(first, min(first + BATCH, REQUESTS))
        for n in batch:
            _, id = x.ends["c"].open_request()
            x.event("open c", f"stream {id}")
            path = f"/{n}"
            fields = [(b":method", b"POST"), (b":scheme", b"https"), (b":authority", b"www.example.com"), (b":path", path.encode())]
            x.message("c", id, f"POST https://www.example.com{path}", fields)
        for n in batch:
            x.take("s", 4 * n)
        for n in batch:
            x.message("s", 4 * n, "200", [(b":status", b"200")])
        for n in batch:
            x.take("c", 4 * n)
    x.show("c")
    x.show("s")
    return x


def script_of(x):
    section, table, blocked = LIMITS
    return "".join(line + "\n" for line in [f"config {section} {table} {blocked} {section} {table} {blocked}"] + x.lines).encode()


def differences(x, lines):
    """what is not as the model says, first things first"""
    if len(lines) != len(x.answers):
        yield f"{len(lines)} lines for {len(x.answers)} events"
        return
    pulled = {}
    for number, (line, answer) in enumerate(zip(lines, x.answers)):
        if isinstance(answer, tuple):
            pulled.setdefault(answer, []).append(line)
        elif line != answer.encode():
            yield f"event {number + 1}, {x.lines[number][:60]}: wanted {answer}, found {line[:60]!r}"
    for (side, id), (head, body) in x.given.items():
        found = pulled[side, id]
        pieces = found[1:found.index(b"end")] if b"end" in found else None
        if pieces is None or found[0] != head.encode() or any(p[:5] != b"body " for p in pieces) or b"".join(p[5:] for p in pieces) != body or len(body) != BODY:
            yield f"stream {id} at {side}: {[line[:60] for line in found]}"


def main():
    x = exchange()
    if len(sys.argv) < 2:
        sys.stdout.buffer.write(script_of(x))
        return 0
    try:
        ran = subprocess.run([sys.argv[1]], input=script_of(x), stdout=subprocess.PIPE, timeout=60)
        wrong = [f"status {ran.returncode}"] if ran.returncode else list(differences(x, ran.stdout.split(b"\n")[:-1]))
    except subprocess.TimeoutExpired:
        wrong = ["it did not end within a minute"]
    for line in wrong[:5]:
        print(line)
    print(f"failed exchange: {len(wrong)} differences" if wrong else f"ok exchange: {REQUESTS} requests, {len(x.lines)} events")
    return 1 if wrong else 0


if __name__ == "__main__":
    sys.exit(main())
