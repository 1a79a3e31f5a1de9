"""Lists of calls of an endpoint by chance: bytes that a peer may have written (`calls_of`), more or less with pieces that it must not write, cut
anywhere, some of them changed; and sends (`sends_of`), with a decoder stream that mostly follows."""
import random

import connection_cases
import independent_model
from independent_model import CLIENT, SERVER
from independent_qpack import Sender, integer, string, varint

FIELDS = [(b"x-a", b"1"), (b"x-a", b"2"), (b"x-b", b"2"), (b"accept", b"*/*"), (b"server", b"s"), (b"x-longer-name", b"and a value"), (b"x-longer-name", b"1"), (b"age", b"7"), (b"cookie", b"")]
ODD_FIELDS = [(b"X-A", b"1"), (b"", b""), (b"x a", b"1"), (b"x-a", b"a\n"), (b"x-a", b"\x7f"), (b"x-a", b"\t \xff"), (b":path", b""), (b":other", b""), (b":", b""), (b":status", b"20"), (b":status", b"099"),
              (b":status", b"2000"), (b":status", b"200"), (b":status", b"100"), (b":status", b"999"), (b":method", b"GET"), (b":method", b""), (b":method", b"A B"), (b":protocol", b"webtransport"),
              (b":protocol", b"connect-udp"), (b":protocol", b"websocket"), (b":authority", b""), (b":authority", b"a.b"), (b":scheme", b"http"), (b":path", b"/x")]
STATUSES = [b"200", b"200", b"200", b"404", b"103", b"103", b"199", b"299"]


def number(rng, value):
    """RFC 9000, 16: one of the forms in which a number may be written"""
    if rng.random() < 0.9:
        return varint(value)
    forms = [(size, power) for power, size in enumerate((1, 2, 4, 8)) if value < 2 ** (8 * size - 2)]
    size, power = rng.choice(forms)
    return (value + (power << (8 * size - 2))).to_bytes(size, "big")


def wide(rng, bits, flags):
    """RFC 7541, 5.1: an integer about the greatest that is read, or a long form of a small one"""
    top = 2**bits - 1
    return rng.choice([integer(bits, flags, 2**63 + top - 1), integer(bits, flags, 2**63 + top), integer(bits, flags, 2**64), integer(bits, flags, top)[:-1] + b"\x80" * rng.choice([1, 9, 12]) + b"\0"])


def written(rng, bits, flags, data):
    """a string, Huffman coded or plain"""
    return string(bits, flags, data) if rng.random() < 0.5 else integer(bits - 1, flags * 2, len(data)) + data


def head(rng, side, odd):
    first = [(b":method", rng.choice([b"GET", b"POST"])), (b":scheme", b"https"), (b":authority", rng.choice([b"a.b", b"www.example.com"])), (b":path", b"/")]
    fields = (first if side == CLIENT else [(b":status", rng.choice(STATUSES))]) + [rng.choice(FIELDS) for _ in range(rng.randrange(5))]
    if odd:
        fields.insert(rng.randrange(len(fields) + 1), rng.choice(ODD_FIELDS))
        if rng.random() < 0.3:
            fields.pop(rng.randrange(len(fields)))
    return fields


def in_order(fields):
    """as a `Header` gives them: those of one name together"""
    return [f for name in dict.fromkeys(n for n, _ in fields) for f in fields if f[0] == name]


class Peer:
    """what the other side writes: `encoder` is its encoder stream so far"""

    def __init__(self, rng, side, capacity, blocked):
        self.rng, self.side, self.capacity = rng, side, capacity
        self.wild = rng.choice([0, 0.02, 0.1, 0.25])  # how often something is written that should not be
        self.sender, self.encoder = Sender(), b"\2"
        if rng.random() < 0.85 and capacity:
            self.sender.table.capacity = rng.choice([capacity, capacity, capacity, capacity // 2])
            self.sender.limit = rng.choice([blocked, blocked, blocked + 1, 9])
            self.encoder += integer(5, 1, self.sender.table.capacity)
        self.modulus = 2 * (capacity // 32)

    def section(self, stream, fields):
        rng, sender = self.rng, self.sender
        if rng.random() < self.wild:
            return self.odd_section()
        if rng.random() < 0.5:  # as if all had been read and acknowledged
            sender.known, sender.tracked = sender.table.inserted, {}
        used, sender.table.capacity = sender.table.capacity, max(sender.table.capacity, 1)
        section, instructions = sender.encode(stream, fields)
        sender.table.capacity = used
        if section[0] and used // 32 * 2 != self.modulus:  # the count goes modulo the announced capacity (RFC 9204, 4.5.1.1)
            return self.odd_section()
        self.encoder += instructions
        return section

    def odd_section(self):
        """counts, bases and indexes near the right ones"""
        rng, inserted = self.rng, self.sender.table.inserted
        count = rng.choice([0, inserted, inserted, inserted + 1, max(inserted - 1, 0), rng.randrange(9)])
        encoded = count % self.modulus + 1 if count and self.modulus else rng.choice([count, count, 0])
        delta = rng.choice([0, 0, 0, 1, 2, inserted])
        text = integer(8, 0, encoded) + integer(7, rng.choice([0, 0, 1]), delta)
        return text + b"".join(self.line() for _ in range(rng.randrange(4)))

    def line(self):
        rng = self.rng
        index, value = rng.choice([0, 0, 1, 1, 2, 3, 7]), written(rng, 8, 0, rng.choice([b"", b"1", b"200"]))
        if rng.random() < 0.05:
            return wide(rng, *rng.choice([(6, 3), (6, 2), (4, 1), (3, 0)]))
        return rng.choice([
            integer(6, 3, rng.choice([0, 17, 24, 25, 23, 98, 99, 63])), integer(6, 2, index), integer(4, 1, index), integer(4, rng.choice([5, 7]), rng.choice([24, 2, 95, 99])) + value,
            integer(4, 4, index) + value, integer(3, rng.choice([0, 1]), index) + value, written(rng, 4, rng.choice([2, 3]), rng.choice([b"x-a", b":status", b":method", b"A"])) + value])

    def instruction(self):
        """RFC 9204, 4.3: any one, right or not; what it inserts is not followed, so later sections may miss it"""
        rng = self.rng
        value = written(rng, 8, 0, rng.choice([b"", b"1", b"and a value", b"z" * 40]))
        if rng.random() < 0.05:
            return wide(rng, *rng.choice([(5, 1), (6, 3), (6, 2), (5, 0)]))
        return rng.choice([
            integer(5, 1, rng.choice([0, 31, 64, self.capacity, self.capacity, self.capacity + 1])), integer(6, 3, rng.choice([0, 24, 92, 98, 99])) + value,
            integer(6, 2, rng.choice([0, 0, 1, 2, 5])) + value, written(rng, 6, 1, rng.choice([b"", b"x-a", b"x-longer-name"])) + value, integer(5, 0, rng.choice([0, 0, 1, 2, 5]))])

    def frame(self, kind, payload):
        rng = self.rng
        return number(rng, kind) + number(rng, len(payload)) + payload

    def odd_frame(self):
        """frames that may be out of place, malformed or unknown"""
        rng = self.rng
        one = number(rng, rng.choice([0, 3, 4, 8, 400]))
        return rng.choice([
            self.frame(rng.choice([3, 7, 13]), rng.choice([one, one, one, b"", one + b"\0", b"\x40"])), self.frame(5, rng.choice([b"\0", b"\1abc", b"", b"\x40"])), self.frame(4, self.settings()),
            self.frame(4, rng.choice([b"\6\x40", b"\2\0", b"\7", b"\1\0\1\0"])), self.frame(rng.choice([2, 6, 8, 9]), b"ab"), self.frame(rng.choice([33, 64, 95, 0x21 + 0x1F * 5]), rng.choice([b"", b"xyz"])), number(rng, 0x41) + one, self.frame(0, b""), self.frame(0, b"hi"), self.frame(1, b"\0\0\xd9")])

    def settings(self):
        rng = self.rng
        pairs = [(1, rng.choice([0, 31, 64, 64, 100, 220, 400, 2**30])), (7, rng.choice([0, 1, 2, 10, 65535, 65536])), (6, rng.choice([41, 80, 120, 1000]))]
        pairs = [pair for pair in pairs if rng.random() < 0.75]
        if rng.random() < self.wild:
            pairs += [(rng.choice([0, 1, 2, 3, 4, 5, 6, 7, 8, 33, 0x33, 0xFFD277, 0x2B603742]), rng.choice([0, 1, 500]))] * rng.choice([1, 2])
        rng.shuffle(pairs)
        text = b"".join(number(rng, id) + number(rng, value) for id, value in pairs)
        return text + rng.choice([b"\0", b"\x40", b"\6\x40"]) if rng.random() < self.wild / 3 else text

    def message(self, stream):
        """RFC 9114, 4.1, with frames that don't belong"""
        rng, text = self.rng, b""
        if rng.random() < 0.08:
            return self.odd_frame() * rng.randrange(2) + number(rng, 0x41) + number(rng, rng.choice([0, 4, 2**40])) + b"some raw bytes"
        for _ in range(rng.choice([1, 1, 1, 2, 3])):
            fields = head(rng, self.side, rng.random() < self.wild)
            if self.side == SERVER and rng.random() < 0.1:  # the last one counts
                fields.append((b":status", rng.choice(STATUSES)))
            text += self.frame(1, self.section(stream, fields))
            if self.side == CLIENT or fields and fields[-1][1][:1] != b"1":
                break
        for _ in range(rng.randrange(3)):
            text += self.frame(0, bytes(rng.choice(b"abc") for _ in range(rng.randrange(6))))
        if rng.random() < 0.35:
            text += self.frame(1, self.section(stream, [rng.choice(ODD_FIELDS if rng.random() < self.wild else FIELDS)]))
        if rng.random() < self.wild:
            text += self.odd_frame()
        return self.odd_frame() + text if rng.random() < self.wild / 3 else text

    def control(self):
        rng = self.rng
        text = b"" if rng.random() < self.wild / 3 else self.frame(4, self.settings())
        going = [12, 8, 8, 4, 0] if self.wild < 0.1 else [0, 4, 8, 12, 3]
        for _ in range(rng.randrange(3)):
            going = going[rng.randrange(len(going)):] if self.wild < 0.1 else going
            known = [self.frame(7, number(rng, rng.choice(going[:1] if self.wild < 0.1 else going)))] + [self.frame(13, b"\5")] * (self.side == CLIENT)
            text += self.odd_frame() if rng.random() < self.wild else rng.choice(known + [self.frame(33, b"x")])
        return b"\0" + text

    def decoder(self):
        """RFC 9204, 4.4"""
        rng, text = self.rng, b"\3"
        for _ in range(rng.randrange(7)):
            increment = integer(6, 0, rng.choice([0, 1, 1, 1, 2, 3, 300]))
            text += rng.choice([increment, integer(7, 1, rng.choice([0, 4, 8, 12])), integer(6, 1, rng.choice([0, 4, 8, 400]))]) if rng.random() < self.wild else increment
        return text + (wide(rng, *rng.choice([(7, 1), (6, 1), (6, 0), (6, 0)])) * 2 if rng.random() < self.wild else b"")


def streams(rng, peer, ids, bit):
    """the peer's streams and all that it writes on each"""
    out = [(id, peer.message(id)) for id in ids]
    instructions, first = peer.encoder, 2 if rng.random() < 0.8 else 26
    while rng.random() < 2 * peer.wild:
        instructions += peer.instruction()
    out += [(first + bit, peer.control())] * (rng.random() < 0.85) + [(first + 4 + bit, instructions)] * (rng.random() < 0.9) + [(first + 8 + bit, peer.decoder())] * (rng.random() < 0.6)
    while rng.random() < peer.wild * 2:
        text = rng.choice([b"\x21ab", b"\x40\x54\4hi there", number(rng, 0x54) + number(rng, 2**40) + b"x", b"\1\0", b"\1", b"\0", b"\2", b"\3", b"\x40", b"\x40\x54", b""])
        out.append((rng.choice([14, 18, 22]) + bit, text))
    return out


def own_call(rng, side, ids):
    id = rng.choice(ids)
    return rng.choice([
        ("send_head", id, in_order(head(rng, side, rng.random() < 0.05))), ("send_head", id, in_order(head(rng, side, False))), ("send_head", id, in_order(head(rng, side, False))), ("send_body", id, rng.choice([b"xy", b""])),
        ("send_trailer", id, [rng.choice(FIELDS)]), ("finish", id), ("outgoing", id), ("open_request",), ("show",)])


def rare_call(rng, ids):
    id = rng.choice(ids + [2, 3, 6, 7, 10, 11, 14, 15, 1, 16, 26, 27, 30, 31, 34, 35])
    return rng.choice([
        ("cancel", id), ("cancel", rng.choice(ids)), ("reset", id), ("reset", rng.choice(ids)), ("goaway", rng.choice([0, 4, 8, 3])), ("deliver", id, b""), ("deliver_end", id), ("deliver_reset", id, 7), ("pull", id),
        ("outgoing", id), ("send_trailer", rng.choice(ids), [(b":path", rng.choice([b"/", b"/" + b"x" * 900]))])])


def queues(rng, peer, ids, bit):
    """each stream's deliveries, in their order"""
    out = []
    for id, text in streams(rng, peer, ids, bit):
        if rng.random() < peer.wild / 2:
            text = connection_cases.mutated(rng, text)
        calls, step = [], rng.choice([1, 5, 20, 20, 1000])
        while text:
            n = rng.randrange(1, step + 1)
            calls, text = calls + [("deliver", id, text[:n])], text[n:]
        if rng.random() < (0.6 if id in ids else 0.2 if id in (14, 15, 18, 19, 22, 23) else peer.wild / 5):
            calls.append(rng.choice([("deliver_end", id), ("deliver_end", id), ("deliver_reset", id, 268)]))
        out.append(calls)
    return out


def calls_of(seed, side):
    """what an endpoint announces, and what it is asked"""
    rng = random.Random(seed * 2 + (side == CLIENT))
    bit, ids = (1, [0, 4, 8]) if side == CLIENT else (0, [0, 4, 8, 12])
    limits = rng.choice([41, 90, 130, 1000, 1000, 1000]), rng.choice([0, 31, 64, 64, 100, 220, 400]), rng.randrange(4)
    peer = Peer(rng, SERVER if side == CLIENT else CLIENT, limits[1], limits[2])
    waiting = queues(rng, peer, ids[:rng.randrange(1, len(ids) + 1)], bit)
    if rng.random() < 0.4:  # the one-way streams first, so that more of the rest is reached
        waiting.sort(key=lambda calls: bool(calls) and calls[0][1] in ids)
    todo = [("open_request",)] * rng.choice([1, 2, 3, 3, 3]) if side == CLIENT else []
    late, waiting = rng.random() < 0.4, [calls for calls in waiting if calls]
    while waiting and len(todo) < 90:
        queue = waiting[0] if late else rng.choice(waiting)
        while queue and rng.random() < 0.85:
            todo.append(queue.pop(0))
            if rng.random() < 0.2:
                todo.append(("pull", rng.choice(ids + [todo[-1][1]])))
        if rng.random() < 0.35:
            todo.append(own_call(rng, side, ids))
        if rng.random() < 0.05:
            todo.append(rare_call(rng, ids))
        waiting = [calls for calls in waiting if calls]
    for _ in range(rng.randrange(14)):
        todo.append(rng.choice([("pull", rng.choice(ids)), ("pull", rng.choice(ids)), own_call(rng, side, ids)]))
    own = 1 - bit
    return limits, todo + [("pull", id) for id in ids + [14 + bit]] + [("outgoing", 2 + own), ("outgoing", 6 + own), ("outgoing", 10 + own), ("show",)]


def from_decoder(rng, sender, ids):
    """RFC 9204, 4.4: mostly what a decoder may say of what was sent"""
    waiting = [id for id, sections in sender.tracked.items() if sections]
    more = sender.table.inserted - sender.known
    says = [integer(6, 0, rng.randrange(1, more + 1))] * 2 if more > 0 else []
    says += [integer(7, 1, rng.choice(waiting)), integer(7, 1, rng.choice(waiting)), integer(6, 1, rng.choice(waiting))] if waiting else []
    rare = [integer(6, 1, rng.choice(ids)), integer(6, 0, rng.choice([0, 1, 2, 2**63 + 62])), integer(7, 1, rng.choice(waiting or ids[:1] if rng.random() < 0.9 else ids))]
    return rng.choice(rare if rng.random() < 0.06 else says or [b""])


def sends_of(seed, side):
    """What the encoder chooses: many heads of few fields, a small table, and a decoder stream that mostly follows. The model is asked
    along, so that the decoder stream may follow."""
    rng = random.Random(seed * 2 + (side == CLIENT))
    bit, ids, limits = 1 if side == CLIENT else 0, list(range(0, 4 * rng.choice([3, 10]), 4)), (1000, 220, 2)
    guide = independent_model.Endpoint(side, *limits)
    pool = rng.sample(FIELDS, rng.randrange(2, 6)) + ([(b"x-a", b"z" * rng.randrange(40))] if rng.random() < 0.3 else [])
    first = [(b":method", b"GET"), (b":path", b"/x")] if side == CLIENT else [(b":status", rng.choice(STATUSES))]
    most = rng.choice([None, None, independent_model.total(first + pool[:2]) - rng.randrange(2)])
    pairs = [(1, rng.choice([0, 31, 64, 64, 70, 75, 80, 100, 110, 150, 220, 400])), (7, rng.choice([0, 1, 1, 2, 3, 10, 100]))] + [(6, most)] * (most is not None)
    payload = b"".join(varint(id) + varint(value) for id, value in pairs)
    todo = [("open_request",) if side == CLIENT else ("deliver", id, b"") for id in ids]
    todo += [("deliver", 2 + bit, b"\0\4" + varint(len(payload)) + payload), ("deliver", 10 + bit, b"\3")]
    if rng.random() < 0.1:
        todo.reverse()
    for call in todo:
        getattr(guide, call[0])(*call[1:])
    for _ in range(rng.randrange(10, 40)):
        id = rng.choice(ids)
        fields = in_order([rng.choice(pool) for _ in range(rng.choice([0, 1, 1, 2, 3, 5]))])
        call = rng.choice([("send_head", id, first + fields), ("send_head", id, first + fields), ("send_trailer", id, fields)])
        if rng.random() < 0.45:
            call = ("deliver", 10 + bit, from_decoder(rng, guide.sender, ids))
        elif rng.random() < 0.15:
            trailer = [(b":path", b"/")] + [(b"x-a", b"z" * 900)] * rng.randrange(2)
            call = rng.choice([("finish", id), ("reset", id), ("reset", rng.choice(ids[:2])), ("send_trailer", rng.choice(ids[:2]), trailer)])
        todo.append(call)
        getattr(guide, call[0])(*call[1:])
    own = 1 - bit
    return limits, todo + [("outgoing", id) for id in ids + [6 + own, 10 + own]] + [("show",)]
