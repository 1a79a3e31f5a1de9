#!/usr/bin/env python3
"""exchanges.py FIRST LAST: random exchanges between a client and a server, each Debian's library or ours: four pairs. What an application
is told is held against what the other one sent, and the bytes that were acknowledged and consumed against those that went over."""
import random
import sys

from library import END, IS_VERSION_1, NEVER_INDEX, NO_END_STREAM, WOULDBLOCK, Connection, check, libraries, pairs

NAMES = [b"accept", b"user-agent", b"cookie", b"x-a", b"x-b", b"x-long", b"content-type", b"cache-control", b"referer"]
# what a trailer may have: a sender leaves out of it what says how a message is framed, routed, secured, formatted or cached (RFC 9110, 6.5.1)
TRAILER_NAMES = [name for name in NAMES if name not in (b"cookie", b"content-type", b"cache-control")]
IDLE_STEPS = 400  # in a row, after which a run is over
LENGTHS_OF_VALUES = (0, 1, 3, 9, 40, 300)
LENGTHS_OF_PIECES = (1, 5, 63, 64, 100, 1000, 5000, 20000)


def random_fields(chance, count, names=NAMES):
    values = (bytes(chance.choice(b"abcdefgh0123 ") for _ in range(chance.choice(LENGTHS_OF_VALUES))).strip() for _ in range(count))
    return [(chance.choice(names), value, NEVER_INDEX if chance.random() < 0.2 else 0) for value in values]


def told_of(kind, field, sender):
    """what an application is told of a field: the name, the value, and its flags, which are none where none were given. Ours flags a short
    cookie by itself (RFC 9204, 7.1.3), and nghttp3 does not"""
    name, value, *flags = field
    if sender.name != "nghttp3" and name == b"cookie" and len(value) < 20:
        flags = [NEVER_INDEX]
    return (kind, name, value, *(flags or [0]))


def random_body(chance):
    return [bytes([chance.randrange(256)]) * chance.choice(LENGTHS_OF_PIECES) for _ in range(chance.choice((0, 0, 1, 1, 2, 5)))]


class Message:
    """heads (interim ones first), the pieces of a body, a trailer or None; whether the trailer is submitted before the body"""

    def __init__(self, chance, head, interim=()):
        self.pieces = random_body(chance)
        self.head = head + random_fields(chance, chance.randint(0, 6))
        if self.pieces and chance.random() < 0.5:
            self.head.append((b"content-length", b"%d" % self.length()))
        self.interim = list(interim)
        self.trailer = random_fields(chance, 2, TRAILER_NAMES) if chance.random() < 0.3 else None
        self.is_trailer_first = chance.random() < 0.5

    def length(self):
        return sum(map(len, self.pieces))

    def told(self, sender):
        """what the receiver's application is told of it, by the sender's library"""
        out = []
        for fields in [*self.interim, self.head]:
            out += [("begin_headers",), *(told_of("header", field, sender) for field in fields), ("end_headers",)]
        if self.pieces:
            out.append(("data", b"".join(self.pieces)))
        if self.trailer is not None:
            out += [("begin_trailers",), *(told_of("trailer", field, sender) for field in self.trailer), ("end_trailers",)]
        return [*out, ("end_stream",)]


class Exchange:
    def __init__(self, chance):
        method = chance.choice((b"GET", b"POST"))
        path = b"/%d" % chance.randrange(4)
        self.request = Message(chance, [(b":method", method), (b":scheme", b"https"), (b":authority", b"a.b"), (b":path", path)])
        interim = [(b":status", b"103"), *random_fields(chance, 1)]
        self.response = Message(chance, [(b":status", b"200")], [interim] * chance.choice((0, 0, 0, 1, 2)))
        self.is_late = chance.random() < 0.5  # the server answers after the end of the request, and not after its head


def scenario(seed, client, server):
    """exchanges, and the settings of both sides. nghttp3's encoder errs with tables of other sizes than 4,096: it is told of no other"""
    chance = random.Random(seed)
    exchanges = [Exchange(chance) for _ in range(chance.randint(1, 8))]
    settings = [{"table": chance.choice((0, 0, 220, 4096)), "blocked": chance.choice((0, 1, 100))} for _ in range(2)]
    for own, encoder in zip(settings, (server, client)):
        if own["table"] == 220 and encoder.name == "nghttp3":
            own["table"] = 4096
    return chance, exchanges, settings


class Side:
    """a connection, and what its application was told of each stream"""

    def __init__(self, library, is_server, settings, on):
        self.told, self.consumed, self.acked, self.settings = {}, {}, {}, []
        self.starved, self.blocked = set(), set()
        self.library = library
        self.connection = Connection(library, is_server, self.say, on, **settings)
        self.at = self.connection.at

    def say(self, kind, stream, *what):
        told = self.told.setdefault(stream, [])
        if kind == "data" and told and told[-1][0] == "data":
            told[-1] = ("data", told[-1][1] + what[0])
        elif kind == "acked":
            self.acked[stream] = self.acked.get(stream, 0) + what[0]
        elif kind == "consume":
            self.consumed[stream] = self.consumed.get(stream, 0) + what[0]
        elif kind == "settings":
            self.settings.append(stream)
        else:
            told.append((kind, *what[:1]) if kind == "data" else (kind, *what[:4]) if kind in ("header", "trailer") else (kind,))

    def messages(self, stream):
        """without tokens, and without the close of the stream"""
        return [(it[0], *it[2:]) if it[0] in ("header", "trailer") else it for it in self.told.get(stream, []) if it[0] != "close"]

    def tokens(self):
        return sorted({(it[2], it[1]) for told in self.told.values() for it in told if it[0] in ("header", "trailer")})


class Run:
    """one scenario over a pair of libraries"""

    def __init__(self, seed, client, server):
        self.chance, self.exchanges, self.settings = scenario(seed, client, server)
        on = {"end_headers": lambda _, stream: self.on_head(stream), "end_stream": lambda _, stream: self.on_end(stream)}
        self.sides = Side(client, False, self.settings[0], {}), Side(server, True, self.settings[1], on)
        self.flight, self.unacked, self.came = ({}, {}), ({}, {}), ({}, {})  # of what each side sent
        self.ends = ({}, {})  # of each side's streams: True where the end was sent, False where it also came
        self.started, self.answered = 0, set()

    def on_head(self, stream):
        exchange = self.exchanges[stream // 4]
        if not exchange.is_late:
            self.answer(stream)

    def on_end(self, stream):
        if self.exchanges[stream // 4].is_late:
            self.answer(stream)

    def answer(self, stream):
        for fields in self.exchanges[stream // 4].response.interim:
            check(self.sides[1].connection.inform(stream, fields), "interim response")
        self.send(1, stream, self.exchanges[stream // 4].response, self.sides[1].connection.respond)

    def send(self, which, stream, message, submit):
        connection = self.sides[which].connection
        has_body = message.pieces or message.trailer is not None
        check(submit(stream, message.head, self.reader(which, message) if has_body else None), "message")
        if message.trailer is not None and message.is_trailer_first:
            check(connection.trail(stream, message.trailer), "trailer")

    def reader(self, which, message):
        side, left = self.sides[which], list(message.pieces)

        def read(stream):
            if self.chance.random() < 0.3:
                side.starved.add(stream)
                return WOULDBLOCK
            pieces = []
            if left:
                count = self.chance.randint(1, min(3, len(left)))
                pieces, left[:count] = left[:count], []
                if left or self.chance.random() < 0.5:
                    return pieces, 0
            if message.trailer is None:
                return pieces, END
            if not message.is_trailer_first:
                check(side.connection.trail(stream, message.trailer), "trailer")
            return pieces, END | NO_END_STREAM

        return side.connection.reader(read)

    # the steps of a run: each says whether it did something

    def start(self):
        if self.started == len(self.exchanges):
            return False
        self.started += 1
        self.send(0, 4 * (self.started - 1), self.exchanges[self.started - 1].request, self.sides[0].connection.request)
        return True

    def write(self, which):
        side = self.sides[which]
        count, stream, is_end, data = side.connection.write(self.chance.choice((1, 2, 16)))
        check(count, "writev")
        if stream < 0:
            return False
        taken = len(data) if self.chance.random() < 0.7 else self.chance.randint(0, len(data))
        is_end = is_end and taken == len(data)
        if taken < len(data) or (taken == 0 and not is_end):
            side.library.block_stream(side.at, stream)
            side.blocked.add(stream)
        if taken or is_end:
            check(side.library.add_write_offset(side.at, stream, taken), "add_write_offset")
        self.flight[which].setdefault(stream, bytearray()).extend(data[:taken])
        if is_end:
            assert stream not in self.ends[which], f"the end of stream {stream} came twice"
            self.ends[which][stream] = True
        return True

    def deliver(self, which):
        receiver, flight, ends = self.sides[1 - which], self.flight[which], self.ends[which]
        todo = [stream for stream in flight if flight[stream] or ends.get(stream)]
        if not todo:
            return False
        stream = self.chance.choice(todo)
        most = len(flight[stream])
        count = most if self.chance.random() < 0.5 else self.chance.randint(0, min(most, self.chance.choice((1, 10, 1000))))
        data, flight[stream][:count] = bytes(flight[stream][:count]), b""
        is_end = not flight[stream] and bool(ends.get(stream))
        if is_end:
            ends[stream] = False
        if not data and not is_end:
            return True
        self.came[which][stream] = self.came[which].get(stream, 0) + count
        self.unacked[which][stream] = self.unacked[which].get(stream, 0) + count
        consumed = check(receiver.connection.read(stream, data, is_end), f"read of stream {stream}")
        receiver.consumed[stream] = receiver.consumed.get(stream, 0) + consumed
        return True

    def wake(self):
        did = False
        for side in self.sides:
            for waiting, call in ((side.starved, side.library.resume_stream), (side.blocked, side.library.unblock_stream)):
                if waiting:
                    check(call(side.at, waiting.pop()))
                    did = True
        return did

    def acknowledge(self, which):
        unacked, side = self.unacked[which], self.sides[which]
        todo = [stream for stream in unacked if unacked[stream]]
        if not todo:
            return False
        stream = self.chance.choice(todo)
        count = self.chance.randint(1, unacked[stream])
        unacked[stream] -= count
        check(side.library.add_ack_offset(side.at, stream, count), "add_ack_offset")
        return True

    def step(self):
        act = self.chance.random()
        if act < 0.1:
            return self.start()
        if act < 0.45:
            return self.write(self.chance.randrange(2))
        if act < 0.8:
            return self.deliver(self.chance.randrange(2))
        if act < 0.9:
            return self.wake()
        return self.acknowledge(self.chance.randrange(2))

    def compare(self, index, exchange):
        stream = 4 * index
        for which, message in ((0, exchange.request), (1, exchange.response)):
            sender, receiver = self.sides[which], self.sides[1 - which]
            assert self.ends[which].get(stream) is False, f"stream {stream} did not end"
            wanted = message.told(sender.library)
            assert receiver.messages(stream) == wanted, f"stream {stream}: {receiver.messages(stream)}\nwanted {wanted}"
            acked = sender.acked.get(stream, 0)
            assert acked == message.length(), f"stream {stream}: {acked} of {message.length()} bytes of the body acknowledged"
            consumed = receiver.consumed[stream] + message.length()
            assert consumed == self.came[which][stream], f"stream {stream}: {consumed} of {self.came[which][stream]} bytes consumed"

    def go(self):
        idle = 0
        while idle < IDLE_STEPS:
            idle = 0 if self.step() else idle + 1
        for index, exchange in enumerate(self.exchanges):
            self.compare(index, exchange)
        for side, peer in zip(self.sides, reversed(self.settings)):
            told = [it[1:] for it in side.settings]
            assert not IS_VERSION_1 or told == [(peer["table"], peer["blocked"], 0, 0)], f"settings {told}, and the peer's are {peer}"
            for index in range(len(self.exchanges)):
                check(side.library.close_stream(side.at, 4 * index, 0x100), "close_stream")
            side.connection.free()
        return [side.tokens() for side in self.sides]


def main():
    first, last = int(sys.argv[1]), int(sys.argv[2])
    found, wrong, runs = libraries(), 0, 0
    for seed in range(first, last):
        told = []
        for client, server in pairs(found):
            runs += 1
            try:
                told.append(Run(seed, client, server).go())
            except AssertionError as error:
                wrong += 1
                print(f"failed exchanges: seed {seed}, {client.name} to {server.name}: {str(error)[:600]}")
        if any(it != told[0] for it in told):
            wrong += 1
            print(f"failed exchanges: seed {seed}: tokens differ")
    if not wrong:
        print(f"ok exchanges: {runs} runs")
    sys.exit(wrong > 0)


if __name__ == "__main__":
    main()
