"""QPACK and the numbers below it, for scripts/gate/independent_model.py: RFC 9204, with RFC 7541 (integers, Huffman code) and RFC 9000 (16).

Nothing here was taken from the definitions or the code: the RFCs and the rules of this project that go past them (how the sender chooses, what a
reader lets pass) are all that was read.
"""

MOST = 2**64 - 1


class Bad(Exception):
    """a text that no reader takes"""


class Short(Exception):
    """a text that isn't whole yet"""


class Missing(Exception):
    """a field section whose required insert count is above the insertions read (RFC 9204, 2.1.2)"""

    def __init__(self, count):
        super().__init__(count)
        self.count = count


# ---- the Huffman code (RFC 7541, Appendix B): lengths by symbol, the code is canonical

BY_LENGTH = [
    (5, b"012aceiost"), (6, b" %-./3456789=A_bdfghlmnpru"), (7, b":BCDEFGHIJKLMNOPQRSTUVWYjkqvwxyz"), (8, b"&*,;XZ"), (10, b"!\"()?"),
    (11, b"'+|"), (12, b"#>"), (13, b"\0$@[]~"), (14, b"^}"), (15, b"<`{"), (19, [92, 195, 208]), (20, [128, 130, 131, 162, 184, 194, 224, 226]),
    (21, [153, 161, 167, 172, 176, 177, 179, 209, 216, 217, 227, 229, 230]),
    (22, [129, 132, 133, 134, 136, 146, 154, 156, 160, 163, 164, 169, 170, 173, 178, 181, 185, 186, 187, 189, 190, 196, 198, 228, 232, 233]),
    (23, [1, 135, *range(137, 142), 143, 147, *range(149, 153), 155, 157, 158, 165, 166, 168, 174, 175, 180, 182, 183, 188, 191, 197, 231, 239]),
    (24, [9, 142, 144, 145, 148, 159, 171, 206, 215, 225, 236, 237]), (25, [199, 207, 234, 235]),
    (26, [192, 193, 200, 201, 202, 205, 210, 213, 218, 219, 238, 240, 242, 243, 255]),
    (27, [203, 204, 211, 212, 214, 221, 222, 223, 241, *range(244, 249), *range(250, 255)]),
    (28, [*range(2, 9), 11, 12, *range(14, 22), *range(23, 32), 127, 220, 249]), (30, [10, 13, 22, 256]),
]


def canonical():
    """each symbol's code word, as a text of 0 and 1"""
    words, code, last = {}, -1, 5
    for length, symbols in BY_LENGTH:
        for k, symbol in enumerate(sorted(symbols)):
            code = (code + 1) << (length - last) if k == 0 else code + 1
            words[symbol], last = format(code, f"0{length}b"), length
    return words


WORDS = canonical()
SYMBOLS = {word: symbol for symbol, word in WORDS.items()}


def huffman(data):
    """the code words joined, then ones up to a whole byte (5.2)"""
    bits = "".join(WORDS[b] for b in data)
    bits += "1" * (-len(bits) % 8)
    return bytes(int(bits[k:k + 8], 2) for k in range(0, len(bits), 8))


def from_huffman(payload):
    bits, word, out = "".join(format(b, "08b") for b in payload), "", []
    for bit in bits:
        word += bit
        if word in SYMBOLS:
            out.append(SYMBOLS[word])
            word = ""
    if 256 in out or len(word) > 7 or "0" in word:
        raise Bad("Huffman code")
    return bytes(out)


# ---- numbers and strings


def varint(value):
    """RFC 9000, 16: the shortest form"""
    for power, size in enumerate((1, 2, 4, 8)):
        if value < 2 ** (8 * size - 2):
            return (value + (power << (8 * size - 2))).to_bytes(size, "big")
    raise ValueError(value)


def integer(bits, flags, value):
    """RFC 7541, 5.1: an integer in the low bits of a byte whose high bits are flags"""
    top = 2**bits - 1
    if value < top:
        return bytes([(flags << bits) + value])
    value, out = value - top, [(flags << bits) + top]
    while value >= 128:
        out.append(value % 128 + 128)
        value //= 128
    return bytes(out + [value])


def string(bits, flags, data):
    """RFC 7541, 5.2, in a prefix of so many bits, H among them: always Huffman coded"""
    payload = huffman(data)
    return integer(bits - 1, flags * 2 + 1, len(payload)) + payload


class Reader:
    """a place in a text"""

    def __init__(self, data):
        self.data, self.at = data, 0

    def left(self):
        return len(self.data) - self.at

    def take(self, count):
        if self.left() < count:
            raise Short
        self.at += count
        return self.data[self.at - count:self.at]

    def peek(self):
        if not self.left():
            raise Short
        return self.data[self.at]

    def varint(self):
        """RFC 9000, 16: every form"""
        size = 2 ** (self.peek() >> 6)
        return int.from_bytes(self.take(size), "big") % 2 ** (8 * size - 2)

    def integer(self, bits):
        """RFC 7541, 5.1: out of range as soon as the bytes so far say so"""
        top = 2**bits - 1
        value = self.take(1)[0] % 2**bits
        if value < top:
            return value
        power = 0
        while True:
            byte = self.take(1)[0]
            value += byte % 128 << power
            power += 7
            if value >= 2**63 + top:
                raise Bad("integer")
            if byte < 128:
                return value

    def string(self, bits):
        """its payload as it came, and whether it is Huffman coded: that is judged once all that it is part of is whole (`text`)"""
        coded = self.peek() >> (bits - 1) & 1
        return self.take(self.integer(bits - 1)), coded


def text(string):
    payload, coded = string
    return from_huffman(payload) if coded else payload


# ---- the static table (RFC 9204, Appendix A)

STATIC_TEXT = """:authority|
:path|/
age|0
content-disposition|
content-length|0
cookie|
date|
etag|
if-modified-since|
if-none-match|
last-modified|
link|
location|
referer|
set-cookie|
:method|CONNECT|DELETE|GET|HEAD|OPTIONS|POST|PUT
:scheme|http|https
:status|103|200|304|404|503
accept|*/*|application/dns-message
accept-encoding|gzip, deflate, br
accept-ranges|bytes
access-control-allow-headers|cache-control|content-type
access-control-allow-origin|*
cache-control|max-age=0|max-age=2592000|max-age=604800|no-cache|no-store|public, max-age=31536000
content-encoding|br|gzip
content-type|application/dns-message|application/javascript|application/json|application/x-www-form-urlencoded|image/gif|image/jpeg|image/png|text/css|text/html; charset=utf-8|text/plain|text/plain;charset=utf-8
range|bytes=0-
strict-transport-security|max-age=31536000|max-age=31536000; includesubdomains|max-age=31536000; includesubdomains; preload
vary|accept-encoding|origin
x-content-type-options|nosniff
x-xss-protection|1; mode=block
:status|100|204|206|302|400|403|421|425|500
accept-language|
access-control-allow-credentials|FALSE|TRUE
access-control-allow-headers|*
access-control-allow-methods|get|get, post, options|options
access-control-expose-headers|content-length
access-control-request-headers|content-type
access-control-request-method|get|post
alt-svc|clear
authorization|
content-security-policy|script-src 'none'; object-src 'none'; base-uri 'none'
early-data|1
expect-ct|
forwarded|
if-range|
origin|
purpose|prefetch
server|
timing-allow-origin|*
upgrade-insecure-requests|1
user-agent|
x-forwarded-for|
x-frame-options|deny|sameorigin"""
STATIC = []
for static_line in STATIC_TEXT.encode().split(b"\n"):
    static_name, *static_values = static_line.split(b"|")
    STATIC += [(static_name, value) for value in static_values]
assert len(STATIC) == 99
STATIC_NAMES = [name for name, _ in STATIC]


def static_entry(index):
    if index >= len(STATIC):
        raise Bad("static index")
    return STATIC[index]


def size(field):
    """RFC 9204, 3.2.1"""
    return len(field[0]) + len(field[1]) + 32


class NeverIndexed(tuple):
    """a field whose lines are literals with the bit N, wherever it goes (RFC 9204, 4.5.4 and 7.1.3)"""


def flagged(field, bit):
    return NeverIndexed(field) if bit else field


# ---- the dynamic table (RFC 9204, 3.2)


class Table:
    """Entries are numbered from 1 by insertion; those that are there are the last ones."""

    def __init__(self):
        self.capacity, self.inserted, self.entries = 0, 0, []

    def used(self):
        return sum(size(field) for field in self.entries)

    def numbered(self):
        """(number, field) of the entries that are there, newest first"""
        return [(self.inserted - k, field) for k, field in enumerate(reversed(self.entries))]

    def entry(self, number):
        if not self.inserted - len(self.entries) < number <= self.inserted:
            raise Bad("no such entry")
        return self.entries[number - self.inserted - 1]

    def evict(self, most):
        """3.2.2: the oldest go until the rest is no larger than this"""
        while self.used() > most:
            self.entries.pop(0)

    def insert(self, field):
        if size(field) > self.capacity:
            raise Bad("larger than the table")
        self.evict(self.capacity - size(field))
        self.entries.append(field)
        self.inserted += 1


# ---- reading


class Receiver:
    """the decoder of RFC 9204: its table starts at capacity 0 (3.2.2), whatever it announced. If it is `strict`, no line names an entry from the
    required insert count on (2.2.3), and without a table an encoder writes the encoded count 0 and the sign 0 (4.5.1.1, 4.5.1.2)"""

    def __init__(self, announced, strict=False):
        self.announced, self.strict, self.table = announced, strict, Table()

    def instruction(self, r):
        """RFC 9204, 4.3: one encoder instruction; an index names an entry of the table as it stands before it"""
        first, table = r.peek(), self.table
        if first & 0x80:
            index = r.integer(6)
            value = r.string(8)
            name = static_entry(index)[0] if first & 0x40 else table.entry(table.inserted - index)[0]
            table.insert((name, text(value)))
        elif first & 0x40:
            name, value = r.string(6), r.string(8)
            table.insert((text(name), text(value)))
        elif first & 0x20:
            capacity = r.integer(5)
            if capacity > self.announced:
                raise Bad("capacity")
            table.capacity = capacity
            table.evict(capacity)
        else:
            table.insert(table.entry(table.inserted - r.integer(5)))

    def instructions(self, data):
        """reads what is whole; answers the rest, and whether all of it may still become instructions"""
        while data:
            r = Reader(data)
            try:
                self.instruction(r)
            except Short:
                return data, True
            except Bad:
                return data, False
            data = data[r.at:]
        return data, True

    def prefix(self, r):
        """RFC 9204, 4.5.1: required insert count and base, by the announced capacity; where that is 0 both are 0, whatever was read if it is not
        strict"""
        encoded, negative = r.integer(8), r.peek() >> 7
        delta, most = r.integer(7), self.announced // 32
        if self.announced == 0:
            if self.strict and (encoded or negative):
                raise Bad("an encoder without a table did not write this")
            return 0, 0
        count = 0
        if encoded:
            found = [n for n in range(self.table.inserted - most + 1, self.table.inserted + most + 1) if encoded <= 2 * most and n % (2 * most) == encoded - 1 and n > 0]
            if not found:
                raise Bad("required insert count")
            count = found[0]
        base = count - delta - 1 if negative else count + delta
        if base < 0:
            raise Bad("base")
        return count, base

    def line(self, r, base, count):
        """RFC 9204, 4.5.2 to 4.5.6; an entry above the required count may be named if it is there and this is not strict"""

        def entry(number):
            if self.strict and number > count:
                raise Bad("above the required insert count")
            return self.table.entry(number)

        first = r.peek()
        if first & 0x80:
            index = r.integer(6)
            return static_entry(index) if first & 0x40 else entry(base - index)
        if first & 0x40:
            index = r.integer(4)
            name = static_entry(index)[0] if first & 0x10 else entry(base - index)[0]
            return flagged((name, text(r.string(8))), first & 0x20)
        if first & 0x20:
            name = text(r.string(4))
            return flagged((name, text(r.string(8))), first & 0x10)
        if first & 0x10:
            return entry(base + r.integer(4) + 1)
        name = entry(base + r.integer(3) + 1)[0]
        return flagged((name, text(r.string(8))), first & 0x08)

    def section(self, data):
        """required insert count and fields; `Missing` before any line is read, `Bad` for all that isn't whole or right"""
        r = Reader(data)
        try:
            count, base = self.prefix(r)
            if count > self.table.inserted:
                raise Missing(count)
            fields = []
            while r.left():
                fields.append(self.line(r, base, count))
        except Short:
            raise Bad("cut short") from None
        return count, fields


# ---- writing


class Sender:
    """the encoder of RFC 9204, by the rule of choice of this project"""

    def __init__(self):
        self.table, self.limit, self.known = Table(), 0, 0
        self.counts = []  # of every section written with references, released or not
        self.tracked = {}  # stream: the entries that each of its unacknowledged sections names, oldest first
        self.canceled = set()  # streams whose cancellation was read, for good

    def may_block(self):
        """2.1.2: sections that the peer may not be able to read yet, against its limit"""
        return sum(count > self.known for count in self.counts) < self.limit

    def named(self):
        return {number for sections in self.tracked.values() for section in sections for number in section}

    def makes_room(self, field, own):
        """2.1.1: whether the oldest entries in the way may all go: known to be received, and named by no section that counts"""
        table, kept = self.table, self.named() | own
        free = table.capacity - table.used()
        if size(field) > table.capacity:
            return False
        for number, old in reversed(table.numbered()):
            if free >= size(field):
                break
            if number > self.known or number in kept:
                return False
            free += size(old)
        return True

    def insertion(self, field):
        """4.3: inserts, and answers the instruction, which refers to what remains alone"""
        table, index = self.table, None
        table.evict(table.capacity - size(field))
        equal = [n for n, f in table.numbered() if f == field]
        alike = [n for n, f in table.numbered() if f[0] == field[0]]
        if equal:
            written = integer(5, 0, table.inserted - equal[0])
        elif field[0] in STATIC_NAMES:
            written = integer(6, 3, STATIC_NAMES.index(field[0])) + string(8, 0, field[1])
        elif alike:
            written = integer(6, 2, table.inserted - alike[0]) + string(8, 0, field[1])
        else:
            written = string(6, 1, field[0]) + string(8, 0, field[1])
        table.insert(field)
        return written

    def literal(self, field, base, usable, own):
        """4.5.4 to 4.5.6"""
        alike = [n for n, f in usable if f[0] == field[0]]
        value, never = string(8, 0, field[1]), isinstance(field, NeverIndexed)
        if field[0] in STATIC_NAMES:
            return integer(4, 5 | 2 * never, STATIC_NAMES.index(field[0])) + value
        if not alike:
            return string(4, 2 | never, field[0]) + value
        own.add(alike[0])
        return (integer(4, 4 | 2 * never, base - alike[0]) if alike[0] <= base else integer(3, never, alike[0] - base - 1)) + value

    def encode(self, stream, fields):
        """the field section and the encoder instructions that go ahead of it"""
        table, plain = self.table, stream in self.canceled
        base, may_block = table.inserted, not plain and self.may_block()
        lines, instructions, own = b"", b"", set()
        for field in fields:
            usable = [(n, f) for n, f in table.numbered() if not plain and (n <= self.known or may_block)]
            equal = [n for n, f in usable if f == field and n <= base]
            if isinstance(field, NeverIndexed):
                lines += self.literal(field, base, usable, own)
            elif field in STATIC:
                lines += integer(6, 3, STATIC.index(field))
            elif equal:
                own.add(equal[0])
                lines += integer(6, 2, base - equal[0])
            elif may_block and self.makes_room(field, own):
                instructions += self.insertion(field)
                own.add(table.inserted)
                lines += integer(4, 1, table.inserted - base - 1)
            else:
                lines += self.literal(field, base, usable, own)
        return self.prefix(stream, max(own, default=0), base, own) + lines, instructions

    def prefix(self, stream, count, base, own):
        """4.5.1; a section with references is tracked under its stream"""
        if count == 0:
            return b"\0\0"
        self.counts.append(count)
        self.tracked.setdefault(stream, []).append(own)
        encoded = integer(8, 0, count % (2 * (self.table.capacity // 32)) + 1)
        return encoded + (integer(7, 1, count - base - 1) if count > base else integer(7, 0, base - count))

    def instructions(self, data):
        """RFC 9204, 4.4: reads what is whole; every increment is taken (this project's choice)"""
        while data:
            r = Reader(data)
            first = r.peek()
            try:
                value = r.integer(7 if first & 0x80 else 6)
            except Short:
                return data, True
            except Bad:
                return data, False
            if first & 0x80:
                if not self.tracked.get(value):
                    return data, False
                self.tracked[value].pop(0)
            elif first & 0x40:
                self.tracked.pop(value, None)
                self.canceled.add(value)
            else:
                self.known = min(self.known + value, MOST)
            data = data[r.at:]
        return data, True
