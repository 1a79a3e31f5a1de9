"""The cases of scripts/interop/upstream.py: rows of crates/h3_cases/stdin, and generated ones."""
import os
import re
import sys

TOP = os.path.join(os.path.dirname(os.path.abspath(__file__)), "..", "..")
sys.path.insert(0, os.path.join(TOP, "scripts", "gate"))
import independent_qpack as qpack  # noqa: E402

CAUSE = re.compile(r" by (.*)$")


class Case:
    """one line for h3, some for h3_cases, and what both answers are compared as"""

    def __init__(self, group, line, asked):
        self.group, self.line, self.asked = group, line, asked

    def ours(self):
        return self.told[0]

    def theirs(self, line):
        return line


def hexed(data):
    return data.hex() or "-"


# ---- parts: both programs print the same words

def varint(data):
    return Case("integers", f"varint {hexed(data)}", [f"varint read {hexed(data)}"])


def varint_write(number):
    return Case("integers", f"varint_write {number}", [f"varint write {number}"])


def frame(data):
    return Case("frames", f"frame {hexed(data)}", [f"frame read {hexed(data)}"])


def two_frames(data):
    return Case("frames", f"two_frames {hexed(data)}", [f"frame two {hexed(data)}"])


def settings(data, ids):
    ids = " ".join(str(id) for id in ids)
    return Case("settings", f"settings {hexed(data)} {ids}", [f"settings read {hexed(data)} {ids}"])


def stream(first, later, last, data):
    return Case("streams of frames", f"stream {first} {later} {last} {hexed(data)}", [f"stream read {first} {later} {last} {hexed(data)}"])


def cuts(data):
    return Case("streams of frames", f"cuts {hexed(data)}", [f"stream cuts {hexed(data)}"])


# ---- sections: h3 is asked by a message, and ours by its parts

HEAD_ERRORS = ("invalid header name: ", "invalid header value: ", "invalid request", "missing method", "missing status", "missing authority", "uri and")
HEAD = bytes.fromhex("0000d1d7500161c1")


class Section(Case):
    """a field section that stands as a request, a response or a trailer"""

    def __init__(self, kind, limit, data):
        head = frame_of(1, data)
        if kind == "trailer":
            head = frame_of(1, HEAD) + head
        side = "client" if kind == "response" else "server"
        asked = [f"section read {limit} {hexed(data)}"] + heads_of(kind, data)
        super().__init__(f"sections of a {kind}", f"{side} {limit} 99999 0/{hexed(head)}/end", asked)
        self.kind, self.data = kind, data

    def ours(self):
        read = self.told[0]
        if read.startswith("size "):
            return message(self.kind, *self.told[1:]) if len(self.told) > 1 else f"{read}, but not by the RFCs"
        if read.startswith("HeaderTooLong("):
            return f"too large {read[14:read.index(')')]}"
        error = short(read.split(" rest ")[0])
        if self.kind == "request":
            # a server of h3 tells the code alone
            return f"close QPACK_{'DECOMPRESSION_FAILED' if error == 'InvalidStaticIndex' else 'DECODER_STREAM_ERROR'}"
        return "section " + error

    def theirs(self, line):
        found = CAUSE.search(line)
        if found:
            return of_cause(found.group(1))
        line = raw(line)
        if self.kind == "trailer":
            ending = line.split(" | ", 2)[-1]
            return ending if ending.startswith(("trailer", "too large")) else line
        return line.split(" | ", 1)[0]


def of_cause(text):
    """what h3 names as the cause of a refusal: a head's by its own text, a section's by its Debug text"""
    for start in HEAD_ERRORS:
        at = text.rfind(": " + start)
        if at >= 0:
            return "head invalid request" if start == "invalid request" else "head " + text[at + 2:]
    return "section " + short(text.split(": ")[0])


def short(text):
    """a Debug text without what is in the innermost cause"""
    return re.sub(r"(HuffmanDecoding|InvalidStaticIndex|InvalidBase).*", r"\1", text)


def fields_of(section):
    """The fields of a section, by the RFCs; raises where it can not be read. With no table, count and base are not looked at (docs/RFC.md, 4.5.1.1)."""
    reader, fields = qpack.Reader(section), []
    reader.integer(8)
    reader.integer(7)
    while reader.left():
        first = reader.peek()
        if first >> 7:
            if not first >> 6 & 1:
                raise qpack.Bad("dynamic")
            fields.append(qpack.static_entry(reader.integer(6)))
            continue
        if first >> 6 and not first >> 4 & 1 or first < 32:
            raise qpack.Bad("dynamic")
        index, name = (reader.integer(4), None) if first >> 6 else (None, reader.string(4))
        value = reader.string(8)
        fields.append((qpack.static_entry(index)[0] if first >> 6 else qpack.text(name), qpack.text(value)))
    return fields


def how_read(section):
    """whether a section can be read, by the RFCs: `whole`, `bad` or `short`; and its fields, where it can"""
    try:
        return "whole", fields_of(section)
    except qpack.Bad:
        return "bad", []
    except qpack.Short:
        return "short", []


def heads_of(kind, section):
    """what is asked of ours about the head or the trailer that a section is"""
    how, fields = how_read(section)
    words = "".join(f" {escaped(name).replace('=', '%3D')}={escaped(value)}" for name, value in fields)
    more = {"request": "target", "response": "status", "trailer": "fields"}[kind]
    return [f"head fields{words}", f"head {more}{words}"] if how == "whole" else []


def escaped(data):
    """bytes as words of both programs: what is no letter, digit or sign is an escape"""
    return "".join(chr(byte) if 33 <= byte < 127 and byte != 37 else f"%{byte:02X}" for byte in data)


def raw(text):
    """words without escapes, and `?` for what is no UTF-8, as `head fields` prints them"""
    return " ".join("=".join(text_of(unescaped(part)) for part in word.split("=", 1)) for word in text.split(" "))


def unescaped(text):
    return re.sub(rb"%([0-9A-F]{2})", lambda found: bytes([int(found.group(1), 16)]), text.encode())


def text_of(data):
    try:
        return data.decode()
    except UnicodeDecodeError:
        return "?"


def message(kind, fields, more):
    """what a head makes of its fields: a request, a response or a trailer in the words of the other program, or a refusal"""
    fields, more = (text.encode("latin-1").decode() for text in (fields, more))
    if not re.match(r"\d+ \d+:", fields):
        return "head " + fields
    words, pseudo = fields.split(":", 1)[1], {}
    while found := re.match(r" (:[a-z]+)=([^ ]*)", words):
        pseudo[found.group(1)] = found.group(2)
        words = words[found.end():]
    if kind == "trailer":
        return "trailer" + words
    if more.startswith(HEAD_ERRORS):
        return "head " + more
    if kind == "response":
        return f"response {pseudo[':status']};{words}"
    return f"request {pseudo[':method']} {more} {pseudo.get(':protocol', '')};{words}"


# ---- whole connections

class Connection(Case):
    """some streams of the peer, whole, and what its first message is"""

    def __init__(self, side, limit, piece, streams):
        words = " ".join(f"{id}/{hexed(data)}/{last}" for id, data, last in streams)
        asked = [f"call new {side[0]} {limit} 0 0"] + ["call open"] * (side == "client")
        self.first = len(asked)
        self.request, self.last = next((data, last) for id, data, last in streams if id == 0)
        pulls = ["call pull 0"] * (8 + len(self.request) // piece)
        for id, data, last in streams:
            asked += [f"call deliver {id} {hexed(data[at:at + piece])}" for at in range(0, max(len(data), 1), piece)]
            asked += {"end": [f"call end {id}"], "reset": pulls * (id == 0) + [f"call gone {id} {RESET}"], "nothing": []}[last]
        asked += pulls
        self.behind = len(asked)
        kind = "request" if side == "server" else "response"
        sections = [payload for frame, payload, is_whole in frames_of(self.request) if frame == 1 and is_whole]
        super().__init__(f"whole connections of a {side}", f"{side} {limit} {piece} {words}", asked + [line for section in sections[:1] for line in heads_of(kind, section)])
        self.side, self.kind, self.streams = side, kind, streams
        self.is_message = streams[0][1] == SETTINGS and streams[0][2] == "nothing" and len(streams) == 2

    def items(self):
        """the items up to the last, or the refusal of a delivery"""
        out = []
        for asked, told in zip(self.asked[self.first:self.behind], self.told[self.first:]):
            if told.startswith("refused Connection "):
                return out + ["fault " + told.split(" ")[2]]
            if asked == "call pull 0" and told != "pending":
                out.append(told)
                if told == "end" or told.startswith("fault"):
                    return out
        return out + ["pending"]

    def ours(self):
        head, body, trailer = "", b"", "end"
        for item in self.items():
            word = item.split(" ")[0]
            if word == "head":
                if len(self.told) == self.behind:
                    return f"{item}, but not by the RFCs"
                head = message(self.kind, *self.told[self.behind:])
                if not self.told[self.behind].split(":", 1)[-1].encode("latin-1").decode() == raw(item[4:]):
                    return f"{head} and not {item}"
                if head.startswith("head "):
                    return "stream H3_MESSAGE_ERROR"
            elif word == "body":
                body += unescaped(item[5:])
            elif word == "trailer":
                trailer = raw(item)
            elif word in ("interim", "session", "raw") or word == "too" and not head:
                return item
            elif word == "too":
                trailer = item
            else:
                ending = trailer if item == "end" else fault(item)
        return f"{head} | body {hexed(body)} | {ending}" if head else ending

    def theirs(self, line):
        return raw(CAUSE.sub("", line)).replace(f"close {RESET:#x}", "reset")


RESET = 0x3E7


def fault(text):
    if text.startswith("fault malformed"):
        return "stream H3_MESSAGE_ERROR"
    if text.startswith("fault reset"):
        return "reset"
    return text.replace("fault ", "close ")


# ---- bytes

def is_varint(data):
    """the length of the integer at the front, or 0 where none is whole"""
    length = 1 << (data[0] >> 6) if data else 0
    return length if length <= len(data) else 0


def integer_of(data):
    """the integer at the front and its length, or two zeros"""
    length = is_varint(data)
    return int.from_bytes(data[:length], "big") & ((1 << (8 * length - 2)) - 1) if length else 0, length


def type_of(data):
    """the type of a unidirectional stream, or none where it is not whole"""
    kind, length = integer_of(data)
    return kind if length else None


def is_reserved(kind):
    return kind >= 0x21 and (kind - 0x21) % 0x1F == 0


def frames_of(data):
    """kinds, payloads and whether they are whole, up to the first frame that is not or that has no length"""
    out = []
    while data:
        kind, first = integer_of(data)
        length, second = integer_of(data[first:]) if first else (0, 0)
        if kind == 0x41 and first:
            return out + [(kind, data[first:], second > 0)]
        if not second:
            return out
        payload = data[first + second:][:length]
        out.append((kind, payload, len(payload) == length))
        data = data[first + second + length:]
    return out


def number(value, length=0):
    """an integer in its shortest form, or in that of so many bytes"""
    if length == 0:
        return qpack.varint(value)
    tag = {1: 0, 2: 1, 4: 2, 8: 3}[length]
    return (value | tag << (8 * length - 2)).to_bytes(length, "big")


def frame_of(kind, payload, kind_length=0, length_length=0):
    return number(kind, kind_length) + number(len(payload), length_length) + payload


def rows():
    """the rows of crates/h3_cases/stdin that h3 can answer too"""
    made = []
    with open(os.path.join(TOP, "crates", "h3_cases", "stdin"), encoding="utf-8") as file:
        for line in file:
            made += row(line.rstrip("\n").split(" "))
    return made


def data(word):
    return b"" if word == "-" else bytes.fromhex(word)


def row(words):
    match words:
        case ["varint", "read", word] if len(word) % 2 == 0 or word == "-":  # a digit alone is no byte: our program says so
            return [varint(data(word))]
        case ["varint", "write", word]:
            return [varint_write(int(word))]
        case ["frame", "read", word]:
            return [frame(data(word))]
        case ["frame", "two", word]:
            return [two_frames(data(word))]
        case ["settings", "read", word, *ids]:
            return [settings(data(word), ids)]
        case ["stream", "read", first, later, last, word]:
            return [stream(first, later, last, data(word))]
        case ["stream", "cuts", word]:
            return [cuts(data(word))]
        case ["section", "read", limit, word]:
            # the head before a trailer has 160 bytes
            return [Section(kind, int(limit), data(word)) for kind in ("request", "response", "trailer") if kind != "trailer" or int(limit) > 160]
    return []


def examples():
    """what generated cases seldom show"""
    head = frame_of(1, HEAD)
    long = frame_of(1, bytes.fromhex("000023782d617f29") + b"a" * 168)
    return [
        Section("trailer", 10000, bytes.fromhex("00002918")),
        Section("response", 10000, bytes.fromhex("0000d9ff80808080808080808002")),
        Connection("client", 10000, 99, [(3, SETTINGS, "nothing"), (0, bytes.fromhex("01030000d90002"), "end")]),
        Connection("server", 170, 99, [(2, SETTINGS, "nothing"), (0, head + long, "end")]),
        Connection("server", 10000, 99, [(2, SETTINGS, "nothing"), (0, b"", "end")]),
        Connection("client", 10000, 99, [(3, SETTINGS, "nothing"), (0, b"", "end")]),
        Connection("server", 10000, 99, [(2, SETTINGS, "nothing"), (0, bytes.fromhex("40410061"), "nothing")]),
        Connection("server", 10000, 99, [(2, SETTINGS, "nothing"), (0, head + bytes.fromhex("01030000d1"), "end")]),
        Connection("server", 10000, 99, [(2, SETTINGS, "nothing"), (0, head + bytes.fromhex("07020009"), "end")]),
        Connection("client", 10000, 99, [(3, SETTINGS, "nothing"), (0, bytes.fromhex("01090000d9236122620161"), "end")]),
        Connection("client", 10000, 99, [(3, SETTINGS, "nothing"), (0, bytes.fromhex("01040000d9d1"), "end")]),
        Connection("client", 10000, 99, [(3, SETTINGS, "nothing"), (0, bytes.fromhex("01090000d933782d6181ff"), "end")]),
        Connection("server", 10000, 99, [(2, SETTINGS, "nothing"), (0, bytes.fromhex("010a0000d1d7500161510161"), "end")]),
        Connection("client", 10000, 99, [(3, SETTINGS, "nothing"), (0, bytes.fromhex("01030000d905020000"), "end")]),
        Connection("client", 10000, 99, [(3, SETTINGS, "nothing"), (7, bytes.fromhex("0100"), "nothing"), (0, bytes.fromhex("01030000d9"), "end")]),
        Connection("server", 10000, 99, [(2, SETTINGS + b"\0\0", "nothing"), (6, b"\0", "nothing"), (0, head, "end")]),
    ]


def generated(rng, count):
    makers = (some_varint, some_frame, some_settings, some_stream, some_section, some_connection)
    return [case for make in makers for _ in range(count) for case in make(rng)]


def some_number(rng):
    return rng.choice([rng.randrange(64), rng.randrange(2**14), rng.randrange(2**30), rng.randrange(2**62), 63, 64, 2**14 - 1, 2**14, 2**30 - 1, 2**30, 2**62 - 1])


def some_varint(rng):
    value = some_number(rng)
    form = rng.choice([length for length in (1, 2, 4, 8) if value < 1 << (8 * length - 2)])
    whole = number(value, form) + rng.randbytes(rng.randrange(3))
    return [varint(whole[:rng.randrange(len(whole) + 1)]), varint(whole), varint_write(rng.choice([value, 2**62, 2**64 - 1]))]


def changed(rng, bytes_):
    """the bytes as they are, or cut, or with some bits turned"""
    out = bytearray(bytes_)
    for _ in range(rng.choice([0, 0, 1, 2])):
        if out:
            out[rng.randrange(len(out))] ^= 1 << rng.randrange(8)
    if rng.random() < 0.2:
        del out[rng.randrange(len(out) + 1):]
    return bytes(out)


KINDS = [0, 1, 2, 3, 4, 5, 6, 7, 8, 9, 0xD, 0x21, 0x40, 0x41, 0x54, 0x5F]


def any_frame(rng):
    kind = rng.choice(KINDS) if rng.random() < 0.9 else some_number(rng)
    if kind in (3, 7, 0xD) and rng.random() < 0.8:
        payload = number(some_number(rng)) + rng.randbytes(rng.choice([0, 0, 0, 1]))
    elif kind == 4:
        payload = some_payload(rng)
    else:
        payload = rng.randbytes(rng.randrange(12))
    forms = [0, 0, 0, 2, 4, 8] if kind < 2**14 else [0]
    return frame_of(kind, payload, rng.choice(forms), rng.choice([0, 0, 0, 2, 4, 8]))


def some_frame(rng):
    whole = changed(rng, any_frame(rng))
    return [frame(whole), frame(whole[:rng.randrange(len(whole) + 1)])]


IDS = [1, 6, 7, 8, 0x33, 0x2B603742, 0x2B603743, 0, 2, 3, 4, 5, 9, 0x21, 0x40, 0x5F]


def some_payload(rng):
    out = b""
    for _ in range(rng.randrange(6)):
        id = rng.choice(IDS[:7]) if rng.random() < 0.8 else rng.choice(IDS)
        out += number(id, rng.choice([0, 0, 4]) if id < 2**30 else 0) + number(some_number(rng))
    return out


def some_settings(rng):
    whole = some_payload(rng)
    return [settings(changed(rng, whole), IDS)]


def some_stream(rng):
    whole = b"".join(any_frame(rng) for _ in range(rng.randrange(1, 5)))
    whole = changed(rng, whole)
    last = rng.choice(["end", "end", "nothing", "reset"])
    return [stream(rng.randrange(1, 9), rng.randrange(1, 9), last, whole), cuts(whole[:40])]


# ---- sections and messages

NAMES = [b"x-a", b"cookie", b"set-cookie", b"te", b"host", b"content-length", b"X-A", b"", b"a b", b"x\xff", b":foo", b"connection", b"a\"b", b"accept"]
VALUES = [b"", b"a", b"1", b"www.example.com", b"a\nb", b" a", b"\xff", b"a:1", b"test.com", b"gzip, deflate"]
PSEUDO = {
    b":method": [b"GET", b"POST", b"CONNECT", b"", b"G T", b"get"], b":scheme": [b"https", b"http", b"ftp", b"", b"1a", b"a b"],
    b":authority": [b"a", b"test.com", b"a:1", b"", b"u@h", b"a b", b"[::1]"], b":path": [b"/", b"/a?b#c", b"*", b"", b"a", b"/a b", b"/\xff"],
    b":status": [b"200", b"404", b"103", b"99", b"1000", b"099", b"", b"2 0"], b":protocol": [b"webtransport", b"connect-udp", b"websocket"],
}


def some_fields(rng, kind):
    pseudo = {"request": [b":method", b":scheme", b":authority", b":path"], "response": [b":status"], "trailer": []}[kind]
    out = [(name, PSEUDO[name][0] if rng.random() < 0.7 else rng.choice(PSEUDO[name])) for name in pseudo if rng.random() < 0.92]
    for _ in range(rng.choice([0, 0, 1, 2, 4])):
        out.append((rng.choice(NAMES[:6]) if rng.random() < 0.8 else rng.choice(NAMES), rng.choice(VALUES)))
    if rng.random() < 0.15:
        name = rng.choice(list(PSEUDO))
        out.insert(rng.randrange(len(out) + 1), (name, rng.choice(PSEUDO[name])))
    if rng.random() < 0.1:
        rng.shuffle(out)
    return out


STATIC = [qpack.static_entry(index) for index in range(99)]


def literal(rng, bits, flags, text):
    """a string behind flags, as it stands or by its Huffman encoding"""
    if rng.random() < 0.5:
        coded = qpack.huffman(text)
        return qpack.integer(bits, flags << 1 | 1, len(coded)) + coded
    return qpack.integer(bits, flags << 1, len(text)) + text


def line_of(rng, name, value):
    """a field line: static where it can be, or with a static name, or literal"""
    if (name, value) in STATIC and rng.random() < 0.8:
        return qpack.integer(6, 3, STATIC.index((name, value)))
    named = [index for index, entry in enumerate(STATIC) if entry[0] == name]
    never = rng.randrange(2)
    if named and rng.random() < 0.7:
        return qpack.integer(4, 5 | never << 1, rng.choice(named)) + literal(rng, 7, 0, value)
    return literal(rng, 3, 2 | never, name) + literal(rng, 7, 0, value)


def section_of(rng, fields):
    return bytes(2) + b"".join(line_of(rng, name, value) for name, value in fields)


def some_section(rng):
    kind = rng.choice(["request", "response", "trailer"])
    whole = section_of(rng, some_fields(rng, kind))
    limit = rng.choice([10000, 10000, 10000, 200, 170])
    made = [Section(kind, limit, whole)]
    if rng.random() < 0.5:
        made.append(Section(kind, 10000, changed(rng, whole)))
    if rng.random() < 0.3:
        made.append(Section(kind, 10000, whole[:rng.randrange(len(whole) + 1)]))
    return made


SETTINGS = bytes.fromhex("000403064100")


def some_connection(rng):
    side = rng.choice(["server", "client"])
    kind = "request" if side == "server" else "response"
    own = 2 if side == "server" else 3
    if rng.random() < 0.5:
        whole = messages(rng, kind)
        last = rng.choice(["end", "end", "end", "nothing", "reset"])
        return [Connection(side, rng.choice([10000, 10000, 150]), rng.choice([1, 3, 99999]), [(own, SETTINGS, "nothing"), (0, whole, last)])]
    streams = [(own, b"\0" + control(rng), rng.choice(["nothing", "nothing", "nothing", "end", "reset"]))]
    if rng.random() < 0.3:
        streams.append((own + 4, rng.choice(OTHER_STREAMS), rng.choice(["nothing", "nothing", "end"])))
    head = bytes.fromhex("0000d1d7500161c1") if side == "server" else bytes.fromhex("0000d9")
    return [Connection(side, 10000, rng.choice([1, 3, 99999]), streams + [(0, frame_of(1, head), "end")])]


OTHER_STREAMS = [bytes.fromhex(word) for word in ("", "40", "02", "03", "00", "0100", "21", "4040", "405f", "5400", "023fe11f", "0380", "0301", "0200")]


def control(rng):
    first = frame_of(4, some_payload(rng) if rng.random() < 0.4 else b"\x06\x41\0")
    rest = b"".join(control_frame(rng) for _ in range(rng.choice([0, 0, 1, 2])))
    return changed(rng, first + rest) if rng.random() < 0.3 else rng.choice([first, first, first, b""]) + rest


def control_frame(rng):
    kind = rng.choice([7, 7, 7, 3, 0xD, 4, 0, 1, 2, 5, 0x21])
    return frame_of(kind, number(rng.choice([0, 4, 8, 5, 2**62 - 4])) + (b"x" if rng.random() < 0.1 else b""))


def messages(rng, kind):
    head = frame_of(1, section_of(rng, good_fields(rng, kind) if rng.random() < 0.8 else some_fields(rng, kind)))
    parts = [head] if rng.random() < 0.95 else []
    for _ in range(rng.choice([0, 1, 1, 2])):
        parts.append(frame_of(0, rng.randbytes(rng.randrange(5)), 0, rng.choice([0, 8])))
    if rng.random() < 0.4:
        parts.append(frame_of(1, section_of(rng, some_fields(rng, "trailer"))))
    if rng.random() < 0.25:
        parts.insert(rng.randrange(len(parts) + 1), any_frame(rng))
    whole = b"".join(parts)
    return changed(rng, whole) if rng.random() < 0.3 else whole


def good_fields(rng, kind):
    if kind == "response":
        return [(b":status", rng.choice([b"200", b"404", b"103"]))] + [(b"x-a", rng.choice(VALUES[:4]))] * rng.randrange(2)
    return [(name, PSEUDO[name][0]) for name in (b":method", b":scheme", b":authority", b":path")] + [(b"x-a", b"1")] * rng.randrange(2)
