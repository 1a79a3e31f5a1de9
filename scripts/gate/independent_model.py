"""One endpoint of an HTTP/3 connection, client or server, as a plain class: RFC 9114 and RFC 9204 over RFC 9000's streams.

Its author read none of the definitions and none of the code: only the RFCs and the rules of this project that choose where they leave a
choice. scripts/gate/hostile_calls.py asks it and the program the same questions.

A call is answered by a tuple: `("done",)`, `("opened", id)`, `("waits", bytes)`, `("shown", limits, sending, receiving, waiting)`, the name
of a refusal with what it carries, or what a pull hands out.
"""
from independent_qpack import Bad, Missing, NeverIndexed, Reader, Receiver, Sender, Short, integer, size, varint

CLIENT, SERVER = "Client", "Server"

# RFC 9114, 8.1, and RFC 9204, 6
STREAM_CREATION_ERROR, CLOSED_CRITICAL_STREAM, FRAME_UNEXPECTED, FRAME_ERROR = 0x103, 0x104, 0x105, 0x106
ID_ERROR, SETTINGS_ERROR, MISSING_SETTINGS = 0x108, 0x109, 0x10A
DECOMPRESSION_FAILED, ENCODER_STREAM_ERROR, DECODER_STREAM_ERROR = 0x200, 0x201, 0x202

# RFC 9114, 7.2 and 11.2.1; those of HTTP/2 that must not come; WebTransport's, which has a session id in place of a length
DATA, HEADERS, CANCEL_PUSH, SETTINGS, PUSH_PROMISE, GOAWAY, MAX_PUSH_ID, WEBTRANSPORT = 0, 1, 3, 4, 5, 7, 13, 0x41
OF_HTTP2 = (2, 6, 8, 9)
KNOWN = (DATA, HEADERS, CANCEL_PUSH, SETTINGS, PUSH_PROMISE, GOAWAY, MAX_PUSH_ID) + OF_HTTP2

# RFC 9114, 6.2, and RFC 9204, 4.2
CONTROL, PUSH, ENCODER, DECODER, WEBTRANSPORT_UNI = 0, 1, 2, 3, 0x54
UNKNOWN = 0x21  # one of those that have no meaning

# RFC 9114, 7.2.4.1, RFC 9204, 5, RFC 9220, RFC 9297 and WebTransport
CAPACITY, SECTION_SIZE, BLOCKED = 1, 6, 7
KEPT_SETTINGS = (CAPACITY, SECTION_SIZE, BLOCKED, 8, 0x33, 0x2B603742, 0x2B603743)
GREATEST = 2**62 - 1


class Fault(Exception):
    """a connection error, with its code"""


class Malformed(Exception):
    """RFC 9114, 4.1.2: a stream error alone"""


class Unsure(Exception):
    """what this model does not know: texts whose grammar is the URI crate's own"""


# ---- heads (RFC 9114, 4.2 and 4.3)

LOWER, DIGITS = b"abcdefghijklmnopqrstuvwxyz", b"0123456789"
TOKEN = b"!#$%&'*+-.^_`|~" + DIGITS + LOWER
PSEUDO = (b":method", b":scheme", b":authority", b":path", b":status", b":protocol")
PLAIN_HOST = LOWER + LOWER.upper() + DIGITS + b".-"
PLAIN_PATH = PLAIN_HOST + b"/_~?="


def is_value(name, value):
    """whether the value is one of its name's type"""
    if name == b":method":
        return value != b"" and all(b in TOKEN + LOWER.upper() for b in value)
    if name == b":status":
        return len(value) == 3 and all(b in DIGITS for b in value) and value[:1] != b"0"
    if name == b":protocol":
        return value in (b"webtransport", b"connect-udp")
    if name in PSEUDO:
        if value == b"" and name != b":scheme":
            return False
        if name == b":scheme" and value not in (b"http", b"https") or any(b not in (PLAIN_PATH if name == b":path" else PLAIN_HOST) for b in value):
            raise Unsure
        return name != b":path" or value[:1] == b"/" or unsure()
    return all(b == 9 or 32 <= b != 127 for b in value)


def unsure():
    raise Unsure


MOST_NAMES = 24576  # so many names has a `Header` room for (this project's choice)


def head_of(fields):
    """The head that a field list stands for: pseudo fields in their order, the last of each name, then the plain ones, those of one name
    together. Late and repeated pseudo fields pass (this project's choice)."""
    pseudo, plain = {}, {}
    for name, value in fields:
        if name not in PSEUDO and (name == b"" or any(b not in TOKEN for b in name)):
            raise Malformed("Name")
        if not is_value(name, value):
            raise Malformed("Value")
        if name in PSEUDO:
            pseudo[name] = value
        else:
            plain.setdefault(name, []).append(value)
        if len(plain) > MOST_NAMES:
            raise Malformed("TooMany")
    return [(n, pseudo[n]) for n in PSEUDO if n in pseudo] + [(n, v) for n, values in plain.items() for v in values]


def value_of(head, name):
    return dict(head).get(name)


def is_request(head):
    return value_of(head, b":method") is not None and value_of(head, b":status") is None


def is_response(head):
    return value_of(head, b":method") is None and value_of(head, b":status") is not None


def has_pseudo(head):
    return any(name in PSEUDO for name, _ in head)


def is_secret(field):
    """RFC 9204, 7.1.3: the names are this project's choice, and that a long cookie can't be guessed"""
    name, value = field
    return name in (b"authorization", b"proxy-authorization") or name in (b"cookie", b"set-cookie") and len(value) < 20


def total(fields):
    """RFC 9114, 4.2.2"""
    return sum(size(field) for field in fields)


# ---- frames (RFC 9114, 7)


def frame(data, sessions):
    """type, payload and length in all of the frame that a text begins with; of DATA its length, as soon as its head is whole. Where `sessions`
    are not known, 0x41 has a length as any type"""
    r = Reader(data)
    kind = r.varint()
    if kind == WEBTRANSPORT and sessions:
        return kind, r.varint(), r.at
    length = r.varint()
    return kind, length if kind == DATA else r.take(length), r.at


def meaning(kind, payload):
    """7.1: the payload is exactly the frame's fields, judged before its place is"""
    if kind == SETTINGS:
        return settings_of(payload)
    if kind not in (CANCEL_PUSH, GOAWAY, MAX_PUSH_ID, PUSH_PROMISE):
        return payload
    r = Reader(payload)
    try:
        value = r.varint()
    except Short:
        raise Fault(FRAME_ERROR) from None
    if r.left() and kind != PUSH_PROMISE:
        raise Fault(FRAME_ERROR)
    return value


def settings_of(payload):
    """7.2.4: HTTP/2's are refused, those without a meaning here ignored, the others come once"""
    r, pairs = Reader(payload), {}
    try:
        while r.left():
            id, value = r.varint(), r.varint()
            if id in (0, 2, 3, 4, 5) or id in pairs:
                raise Fault(SETTINGS_ERROR)
            if id in KEPT_SETTINGS:
                pairs[id] = value
    except Short:
        raise Fault(FRAME_ERROR) from None
    return pairs


# ---- what is kept of a stream


class Outgoing:
    """a request stream's sending: a head, after a server's interim ones, bodies, at most one trailer, the end"""

    def __init__(self):
        self.waits, self.place, self.finished, self.was_reset = b"", "head", False, False

    def takes(self, part):
        if self.finished or self.was_reset:
            return False
        return {"head": self.place == "head", "finish": self.place != "head"}.get(part, self.place == "body")


class Incoming:
    """what the peer sends on a stream; `kind` is a one-way stream's type, once read"""

    def __init__(self):
        self.pieces, self.ended, self.reset = [], False, None
        self.kind, self.place, self.payload = None, "head", 0
        self.section, self.count = None, 0  # a field section that waits for insertions
        self.listed = None  # the fields of the newest one, as they came
        self.session, self.fault, self.over, self.given_up = None, None, False, False

    def unread(self):
        return b"".join(self.pieces)

    def drop(self, count):
        while count:
            n = min(count, len(self.pieces[0]))
            self.pieces[0], count = self.pieces[0][n:], count - n
            if not self.pieces[0]:
                self.pieces.pop(0)

    def piece(self, most, wanted):
        """A front of what came. Where a body is cut is promised to nobody: what the other side took is right where it is such a front."""
        every = self.unread()[:most]
        taken = wanted if wanted and every.startswith(wanted) else self.pieces[0][:most] if every else b""
        self.drop(len(taken))
        return taken


class Endpoint:
    """The calls of one side. `section`, `capacity` and `blocked` are what it announces (RFC 9114, 7.2.4.1; RFC 9204, 5). If it `guards`, it sends
    each field that is a secret as one that is never indexed. If it is `strict`, it holds its peer to rules that else pass, of settings, of the
    first frame, of sessions and of what a field section may name, keeps one itself after a GOAWAY, and takes the types of WebTransport, which
    it does not announce, as unknown."""

    def __init__(self, side, section, capacity, blocked, guards=False, strict=False):
        self.side, self.section, self.blocked, self.guards, self.strict = side, section, blocked, guards, strict
        self.bit = 0 if side == CLIENT else 1
        self.ids = [2 + self.bit, 6 + self.bit, 10 + self.bit]
        pairs = [(SECTION_SIZE, section), (8, 0), (0x2B603742, 0), (0x33, 0), (0x2B603743, 0), (CAPACITY, capacity), (BLOCKED, blocked)]
        payload = b"".join(varint(id) + varint(value) for id, value in pairs)
        self.own = {self.ids[0]: varint(CONTROL) + varint(SETTINGS) + varint(len(payload)) + payload, self.ids[1]: varint(ENCODER), self.ids[2]: varint(DECODER)}
        self.fault, self.settings = None, None
        self.sender, self.receiver = Sender(), Receiver(capacity, strict)
        self.outgoing_streams, self.incoming = {}, {}
        self.critical = {}  # of control, encoder and decoder stream of the peer: the bytes not yet read
        self.opened, self.goaways, self.own_goaways, self.max_push = 0, [], [], None

    # -- streams and calls

    def is_request(self, id):
        return id % 4 == 0

    def is_own_one_way(self, id):
        return id % 2 == self.bit and id & 2 != 0

    def is_open(self, id):
        """a request stream, at a client once opened, at a server from its first delivery on"""
        return self.is_request(id) and id in self.outgoing_streams

    def is_critical(self, id):
        """RFC 9114, 6.2.1; RFC 9204, 4.2"""
        return id in (2, 6, 10, 3, 7, 11) or id in self.incoming and self.incoming[id].kind in (CONTROL, ENCODER, DECODER) and not self.is_request(id)

    def waiting(self):
        """RFC 9204, 2.1.2: streams whose field section misses insertions"""
        return sum(s.section is not None and not s.given_up and s.count > self.receiver.table.inserted for s in self.incoming.values())

    def to_decoder(self, text):
        self.own[self.ids[2]] += text

    def open_request(self):
        if self.fault is not None:
            return ("Closed", self.fault)
        if self.side == SERVER:
            return ("NotClient",)
        if self.goaways:
            return ("GoingAway", self.goaways[-1])
        id = self.opened
        self.opened += 4
        self.outgoing_streams[id], self.incoming[id] = Outgoing(), Incoming()
        return ("opened", id)

    # -- sending

    def not_sent(self, id, part):
        if self.fault is not None:
            return ("Closed", self.fault)
        if not self.is_open(id):
            return ("NotOpen",)
        return None if self.outgoing_streams[id].takes(part) else ("OutOfOrder",)

    def too_large(self, fields):
        """RFC 9114, 4.2.2: the limit is unknown until the peer's settings came"""
        return self.settings is not None and total(fields) > self.settings.get(SECTION_SIZE, GREATEST)

    def send_section(self, id, head):
        guarded = [NeverIndexed(field) if self.guards and is_secret(field) else field for field in head]
        section, instructions = self.sender.encode(id, guarded)
        self.own[self.ids[1]] += instructions
        self.outgoing_streams[id].waits += varint(HEADERS) + varint(len(section)) + section

    def send_head(self, id, head):
        """RFC 9114, 4.1: interim responses may go ahead of the final one. The head is the list that the caller's `Header` gives."""
        return self.head_not_sent(id) or self.send_head_as(id, head, head)

    def send_fields(self, id, fields):
        """A head as a list that is no `Header`: it goes out as it stands, and is judged as the head that it stands for, if it is one."""
        refused = self.head_not_sent(id)
        if refused:
            return refused
        try:
            return self.send_head_as(id, head_of(fields), fields)
        except Malformed as malformed:
            return ("Malformed", malformed.args[0])

    def head_not_sent(self, id):
        """why no head goes out at all. RFC 9114, 5.2: no new request after a GOAWAY, on a stream that was opened before either"""
        refused = self.not_sent(id, "head")
        if not refused and self.strict and self.side == CLIENT and self.goaways:
            return ("GoingAway", self.goaways[-1])
        return refused

    def send_head_as(self, id, head, fields):
        """the head, which is written as these fields"""
        if not (is_request(head) if self.side == CLIENT else is_response(head)):
            return ("WrongSide",)
        if self.too_large(fields):
            return ("TooLarge", total(fields))
        self.send_section(id, fields)
        if self.side == CLIENT or value_of(head, b":status")[:1] != b"1":
            self.outgoing_streams[id].place = "body"
        return ("done",)

    def send_body(self, id, body):
        refused = self.not_sent(id, "body")
        if refused:
            return refused
        if body:
            self.outgoing_streams[id].waits += varint(DATA) + varint(len(body)) + body
        return ("done",)

    def send_trailer(self, id, head):
        return self.not_sent(id, "trailer") or self.send_trailer_as(id, head, head)

    def send_trailer_fields(self, id, fields):
        """a trailer as a list"""
        refused = self.not_sent(id, "trailer")
        if refused:
            return refused
        try:
            return self.send_trailer_as(id, head_of(fields), fields)
        except Malformed as malformed:
            return ("Malformed", malformed.args[0])

    def send_trailer_as(self, id, head, fields):
        """RFC 9114, 4.3: no pseudo-header fields in it"""
        if has_pseudo(head):
            return ("PseudoInTrailer",)
        if self.too_large(fields):
            return ("TooLarge", total(fields))
        self.send_section(id, fields)
        self.outgoing_streams[id].place = "done"
        return ("done",)

    def finish(self, id):
        refused = self.not_sent(id, "finish")
        if refused:
            return refused
        self.outgoing_streams[id].finished = True
        return ("done",)

    def reset(self, id):
        if self.fault is not None:
            return ("Closed", self.fault)
        if self.is_critical(id):
            return ("Critical",)
        if not self.is_open(id):
            return ("NotOpen",)
        out = self.outgoing_streams[id]
        if out.was_reset or out.finished and not out.waits:
            return ("Ended",)
        out.was_reset, out.waits = True, b""
        return ("done",)

    def goaway(self, id):
        """RFC 9114, 5.2: a server names requests, a client pushes; no later one is higher"""
        if self.fault is not None:
            return ("Closed", self.fault)
        if self.side == SERVER and id % 4:
            return ("NotRequestId",)
        if self.own_goaways and id > self.own_goaways[-1]:
            return ("Raised", self.own_goaways[-1])
        self.own_goaways.append(id)
        self.own[self.ids[0]] += varint(GOAWAY) + varint(len(varint(id))) + varint(id)
        return ("done",)

    def outgoing(self, id):
        if id in self.own:
            return ("waits", self.own[id])
        return ("waits", self.outgoing_streams[id].waits if self.is_open(id) else b"")

    def has_outgoing(self, id):
        return id in self.own or self.is_open(id)

    def advance(self, id, count):
        """takes so many bytes of what waits"""
        if id in self.own:
            self.own[id] = self.own[id][count:]
        elif id in self.outgoing_streams:
            self.outgoing_streams[id].waits = self.outgoing_streams[id].waits[count:]
        return ("done",)

    def is_finished(self, id):
        """a stream that was reset is not"""
        return self.is_open(id) and self.outgoing_streams[id].finished and not self.is_reset(id)

    def is_reset(self, id):
        return self.is_open(id) and self.outgoing_streams[id].was_reset

    def show(self):
        limits = None if self.settings is None else (self.settings.get(CAPACITY, 0), self.settings.get(BLOCKED, 0), self.settings.get(SECTION_SIZE, GREATEST))
        return ("shown", limits, self.sender.table.used(), self.receiver.table.used(), self.waiting())

    # -- deliveries

    def delivered(self, id, read):
        """the refusals of a delivery in their order, else what the delivery does to the stream"""
        if self.fault is not None:
            return ("Connection", self.fault)
        if self.is_own_one_way(id):
            return ("NotReceiving",)
        if self.is_request(id) and self.side == CLIENT and not self.is_open(id) or id % 4 == 1 and self.side == SERVER:
            return ("NotOpen",)
        s = self.incoming.get(id)
        if s and (s.ended or s.reset is not None):
            return ("AfterEnd",)
        try:
            if id % 4 == 1:  # RFC 9114, 6.1: a bidirectional stream that the server opened
                raise Fault(STREAM_CREATION_ERROR)
            s = self.incoming.setdefault(id, Incoming())
            if self.is_request(id):
                self.outgoing_streams.setdefault(id, Outgoing())
            read(s)
        except Fault as fault:
            self.fault = fault.args[0]
            return ("Connection", self.fault)
        return ("done",)

    def deliver(self, id, data):
        def read(s):
            if s.given_up:
                return
            if data:
                s.pieces.append(data)
            if not self.is_request(id):
                self.read_one_way(id, s)
        return self.delivered(id, read)

    def deliver_end(self, id):
        def read(s):
            self.not_critical(id)
            s.ended = True
        return self.delivered(id, read)

    def deliver_reset(self, id, code):
        def read(s):
            self.not_critical(id)
            s.reset = code
            if self.is_request(id):
                self.give_up(id, s, ("Fault", "Stream", "Reset", code))
        return self.delivered(id, read)

    def not_critical(self, id):
        """RFC 9114, 6.2.1; RFC 9204, 4.2: these streams are never closed"""
        s = self.incoming[id]
        if not self.is_request(id) and s.kind in (CONTROL, ENCODER, DECODER):
            raise Fault(CLOSED_CRITICAL_STREAM)

    def give_up(self, id, s, fault):
        """RFC 9204, 2.2.2.2: what a stream abandoned had waiting is never read, which the peer is told once; the first fault stays"""
        if not s.given_up:
            s.given_up, s.fault, s.pieces, s.section = True, fault, [], None
            self.to_decoder(integer(6, 1, id))

    # -- one-way streams

    def read_one_way(self, id, s):
        """RFC 9114, 6.2: the type first; one of an unknown type is thrown away"""
        if s.kind is None:
            r = Reader(s.unread())
            try:
                s.kind = r.varint()
            except Short:
                return
            s.drop(r.at)
            if s.kind in (CONTROL, ENCODER, DECODER):  # RFC 9114, 6.2.1; RFC 9204, 4.2: one of each
                if s.kind in self.critical:
                    raise Fault(STREAM_CREATION_ERROR)
                self.critical[s.kind] = b""
        if s.kind in (PUSH, WEBTRANSPORT_UNI) and s.session is None:
            r = Reader(s.unread())
            try:
                s.session = r.varint()
            except Short:
                return
            s.drop(r.at)
            if s.kind == PUSH:  # RFC 9114, 6.2.2: no client pushes, and no push was allowed
                raise Fault(STREAM_CREATION_ERROR if self.side == SERVER else ID_ERROR)
        if s.kind == WEBTRANSPORT_UNI:
            if not self.strict:
                return
            s.kind, s.session = UNKNOWN, None
        data, s.pieces = s.unread(), []
        if s.kind in self.critical:
            self.critical[s.kind] += data
            {CONTROL: self.read_control, ENCODER: self.read_encoder, DECODER: self.read_decoder}[s.kind]()

    def read_encoder(self):
        """RFC 9204, 4.3 and 4.4.3: what a delivery inserts is told in one increment"""
        before = self.receiver.table.inserted
        self.critical[ENCODER], right = self.receiver.instructions(self.critical[ENCODER])
        if self.receiver.table.inserted > before:
            self.to_decoder(integer(6, 0, self.receiver.table.inserted - before))
        if not right:
            raise Fault(ENCODER_STREAM_ERROR)

    def read_decoder(self):
        """RFC 9204, 4.4: read once the peer's settings are known"""
        if self.settings is not None:
            self.critical[DECODER], right = self.sender.instructions(self.critical[DECODER])
            if not right:
                raise Fault(DECODER_STREAM_ERROR)

    def read_control(self):
        known_before = self.settings is not None
        if self.strict and not known_before:
            self.settings_first()
        while True:
            try:
                kind, payload, used = frame(self.critical[CONTROL], not self.strict)
            except Short:
                break
            self.critical[CONTROL] = self.critical[CONTROL][used:] if kind != DATA else b""
            if self.knows(kind):
                self.control_frame(kind, payload)
        if not known_before and DECODER in self.critical:
            self.read_decoder()

    def settings_first(self):
        """RFC 9114, 6.2.1: no other frame is the first, one of unknown type either. The type and the length tell it"""
        r = Reader(self.critical[CONTROL])
        try:
            kind, _ = r.varint(), r.varint()
        except Short:
            return
        if kind != SETTINGS:
            raise Fault(MISSING_SETTINGS)

    def knows(self, kind):
        """RFC 9114, 9: whether frames of a type have a meaning"""
        return kind in KNOWN or kind == WEBTRANSPORT and not self.strict

    def control_frame(self, kind, payload):
        """RFC 9114, 6.2.1 and 7.2"""
        if self.settings is None and kind != SETTINGS:
            raise Fault(MISSING_SETTINGS)
        value = meaning(kind, payload)
        if kind == SETTINGS and self.settings is None:
            self.take_settings(value)
        elif kind == GOAWAY:  # 5.2
            if self.side == CLIENT and value % 4 or self.goaways and value > self.goaways[-1]:
                raise Fault(ID_ERROR)
            self.goaways.append(value)
        elif kind == MAX_PUSH_ID and self.side == SERVER:  # 7.2.7
            if self.max_push is not None and value < self.max_push:
                raise Fault(ID_ERROR)
            self.max_push = value
        elif kind == CANCEL_PUSH:  # 7.2.3: nothing was promised
            raise Fault(ID_ERROR)
        else:
            raise Fault(FRAME_UNEXPECTED)

    def take_settings(self, pairs):
        """RFC 9204, 3.2.3: the table is used where capacity and limit are ones that this project can have"""
        self.settings = pairs
        flags = (8, 0x33) if self.side == CLIENT else (0x33,)  # RFC 8441, 3; RFC 9297, 2.1.1
        if self.strict and any(pairs.get(id, 0) > 1 for id in flags):
            raise Fault(SETTINGS_ERROR)
        capacity, limit = pairs.get(CAPACITY, 0), pairs.get(BLOCKED, 0)
        if 1 <= capacity < 2**30 and limit <= 65535:
            self.sender.table.capacity, self.sender.limit = capacity, limit
            self.own[self.ids[1]] += integer(5, 1, capacity)

    # -- pulls

    def hands_out(self, id):
        """whether pulls of a stream may ever hand out something"""
        if self.is_request(id):
            return self.side == SERVER or self.is_open(id)
        if id % 4 == 1 or self.is_own_one_way(id):
            return False
        s = self.incoming.get(id)
        if s is None or s.session is not None:
            return True
        return s.kind in (None, WEBTRANSPORT_UNI) and not s.ended and s.reset is None

    def pull(self, id, other=None):
        """`other` is what somebody else answered: it counts only where nothing is promised (`Incoming.piece` and `in_body`)"""
        if self.fault is not None:
            return ("Fault", "Connection", self.fault)
        if not self.hands_out(id):
            return ("NoMessages",)
        s = self.incoming.get(id)
        if s is None:
            return ("Pending",)
        if s.fault is not None:
            return s.fault
        if s.over:
            return ("End",)
        if s.reset is not None:
            s.fault = ("Fault", "Stream", "Reset", s.reset)
            return s.fault
        wanted = other[1] if other and other[0] in ("Body", "Raw") else b""
        try:
            return self.next_item(id, s, wanted)
        except Malformed as malformed:
            self.give_up(id, s, ("Fault", "Stream", "Malformed", malformed.args[0]))
            return s.fault
        except Fault as fault:
            self.fault = fault.args[0]
            return ("Fault", "Connection", self.fault)

    def pull_fields(self, id, other=None):
        """a pull that answers a head or a trailer by the list that came, in its order"""
        answer = self.pull(id, other)
        return (answer[0], self.incoming[id].listed) if answer[0] in ("Head", "Interim", "Trailer") else answer

    def next_item(self, id, s, wanted):
        if s.place == "session":
            return self.raw(s, wanted)
        if not self.is_request(id):
            return ("Pending",) if s.session is None else self.begin_session(s, s.session)
        if s.section is not None:
            return self.field_section(id, s)
        while not s.payload:
            try:
                kind, payload, used = frame(s.unread(), not self.strict)
            except Short:
                return self.between(s)
            s.drop(used)
            if self.knows(kind):
                item = self.message_frame(id, s, kind, payload)
                if item:
                    return item
        return self.in_body(s, wanted)

    def between(self, s):
        """RFC 9114, 7.1: no stream ends inside a frame; 4.1: none before its head"""
        if not s.ended:
            return ("Pending",)
        if s.pieces:
            raise Fault(FRAME_ERROR)
        if s.place == "head":
            raise Malformed("NoHead")
        s.over = True
        return ("End",)

    def in_body(self, s, wanted):
        """Which bytes come out of a payload that the end cuts is promised to nobody."""
        cut = s.ended and len(s.unread()) < s.payload
        if cut and not wanted:
            raise Fault(FRAME_ERROR)
        taken = s.piece(s.payload, wanted)
        if not taken:
            return ("Pending",)
        s.payload -= len(taken)
        return ("Body", taken)

    def begin_session(self, s, session):
        s.place = "session"
        return ("Session", session)

    def raw(self, s, wanted):
        taken = s.piece(len(s.unread()), wanted)
        if taken:
            return ("Raw", taken)
        if not s.ended:
            return ("Pending",)
        s.over = True
        return ("End",)

    def message_frame(self, id, s, kind, payload):
        """RFC 9114, 4.1 and 7.2: the frames of a request stream in their order; None where a frame hands out nothing"""
        meaning(kind, payload)
        if kind == DATA and s.place == "body":
            s.payload = payload
            return None
        if kind == HEADERS and s.place != "done":
            s.section = payload
            return self.field_section(id, s)
        if kind == WEBTRANSPORT and self.side == SERVER and s.place == "head":
            return self.begin_session(s, payload)
        raise Fault(ID_ERROR if kind == PUSH_PROMISE and self.side == CLIENT else FRAME_UNEXPECTED)

    def field_section(self, id, s):
        """RFC 9204, 2.1.2 and 2.2.1: tried when its place comes, and once more when the insertions that it missed are there"""
        if s.count > self.receiver.table.inserted:
            return ("Waiting", s.count)
        tried, section, s.section = s.count > 0, s.section, None
        try:
            count, fields = self.receiver.section(section)
        except Missing as missing:
            if tried or self.waiting() >= self.blocked:
                raise Fault(DECOMPRESSION_FAILED) from None
            s.section, s.count = section, missing.count
            return ("Waiting", s.count)
        except Bad:
            raise Fault(DECOMPRESSION_FAILED) from None
        s.count = 0
        if count:  # 4.4.1
            self.to_decoder(integer(7, 1, id))
        return self.judged(s, fields)

    def judged(self, s, fields):
        """RFC 9114, 4.1, 4.2.2 and 4.3: what a field section is in its place; a list above the own limit isn't looked at but for its size"""
        in_head, s.listed = s.place == "head", fields
        if total(fields) > self.section:
            statuses = [value for name, value in fields if name == b":status"]
            last = statuses[-1] if statuses else b""
            interim = self.side == CLIENT and len(last) == 3 and last[:1] == b"1" and all(b in DIGITS for b in last)
            if in_head:
                s.place = "head" if interim else "body"
            else:
                s.place = "done"
            return ("TooLarge", total(fields))
        head = head_of(fields)
        if not in_head:
            if has_pseudo(head):
                raise Malformed("PseudoInTrailer")
            s.place = "done"
            return ("Trailer", head)
        if not (is_request(head) if self.side == SERVER else is_response(head)):
            raise Malformed("WrongSide")
        if self.side == CLIENT and value_of(head, b":status")[:1] == b"1":  # 15.2 of RFC 9110
            return ("Interim", head)
        s.place = "body"
        return ("Head", head)

    def cancel(self, id):
        """RFC 9204, 4.4.2: receiving is given up"""
        if self.fault is not None:
            return ("Closed", self.fault)
        if self.is_critical(id):
            return ("Critical",)
        if not self.is_open(id):
            return ("NotOpen",)
        s = self.incoming[id]
        if s.over or s.given_up:
            return ("Ended",)
        self.give_up(id, s, ("Fault", "Stream", "Canceled"))
        return ("done",)
