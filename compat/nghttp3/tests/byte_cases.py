"""What a peer may send, well-formed and not: CASES, each a side that receives, and deliveries of bytes on streams."""
import collections

Case = collections.namedtuple("Case", "name side method deliveries")  # side: "server" or "client"; method: what the client asked
CASES = []

DATA, HEADERS, CANCEL_PUSH, SETTINGS, PUSH_PROMISE, GOAWAY, MAX_PUSH_ID, UNKNOWN = 0, 1, 3, 4, 5, 7, 13, 0x21
PRIORITY_UPDATE = 0xF0700
CONTROL_TYPE, PUSH_TYPE, ENCODER_TYPE, DECODER_TYPE = b"\0", b"\1", b"\2", b"\3"


def integer(number):
    """RFC 9000, section 16"""
    log = 0 if number < 1 << 6 else 1 if number < 1 << 14 else 2 if number < 1 << 30 else 3
    return (number | log << 8 * (1 << log) - 2).to_bytes(1 << log, "big")


def prefixed(flags, bits, number):
    """RFC 7541, section 5.1"""
    most = (1 << bits) - 1
    if number < most:
        return bytes([flags | number])
    out, number = [flags | most], number - most
    while number >= 128:
        out.append(number % 128 | 128)
        number //= 128
    return bytes([*out, number])


def frame(kind, payload):
    return integer(kind) + integer(len(payload)) + payload


def section(*fields):
    """literals without a table (RFC 9204, section 4.5.6)"""
    return b"\0\0" + b"".join(prefixed(0x20, 3, len(name)) + name + prefixed(0, 7, len(value)) + value for name, value in fields)


def head(*fields):
    return frame(HEADERS, section(*fields))


def body(data):
    return frame(DATA, data)


GET = [(b":method", b"GET"), (b":scheme", b"https"), (b":authority", b"a.b"), (b":path", b"/")]
POST = [(b":method", b"POST"), *GET[1:]]
CONNECT = [(b":method", b"CONNECT"), (b":authority", b"a:1")]
OK = [(b":status", b"200")]
NO_SETTINGS = frame(SETTINGS, b"")


def without(fields, name):
    return [it for it in fields if it[0] != name]


def having(fields, name, value):
    return [(it[0], value if it[0] == name else it[1]) for it in fields]


def length(value):
    return (b"content-length", value)


def request(name, data, is_end=True, *more):
    """bytes on a request stream, at a server that has the client's settings"""
    CASES.append(Case(name, "server", None, [(2, CONTROL_TYPE + NO_SETTINGS, False), (0, data, is_end), *more]))


def response(name, data, is_end=True, method=b"GET"):
    CASES.append(Case(name, "client", method, [(3, CONTROL_TYPE + NO_SETTINGS, False), (0, data, is_end)]))


def at(side, name, *deliveries):
    CASES.append(Case(name, side, b"GET", [(stream, data, any(is_end)) for stream, data, *is_end in deliveries]))


def control(side, name, payload, is_end=False):
    """bytes on the control stream, after its type"""
    at(side, name, (2 if side == "server" else 3, CONTROL_TYPE + payload, is_end))


def well_formed():
    request("GET", head(*GET))
    request("GET, its end alone", head(*GET), False, (0, b"", True))
    request("POST of 5 bytes", head(*POST) + body(b"hello"))
    request("POST in two DATA frames", head(*POST) + body(b"hel") + body(b"lo"))
    request("POST with a trailer", head(*POST) + body(b"hello") + head((b"x-t", b"1")))
    request("a trailer without a body", head(*POST) + head((b"x-t", b"1")))
    request("an unknown frame first", frame(UNKNOWN, b"abc") + head(*GET))
    request("unknown frames between", head(*POST) + frame(UNKNOWN, b"abc") + body(b"x") + frame(0x40, b""))
    request("an empty DATA frame", head(*POST) + body(b""))
    request("content-length 5 with 5 bytes", head(*POST, length(b"5")) + body(b"hello"))
    request("a cut head", head(*GET)[:10], False, (0, head(*GET)[10:], True))
    request("byte by byte", b"", False, *((0, bytes([it]), False) for it in head(*POST) + body(b"hello")), (0, b"", True))
    request("priority u=1, i", head(*GET, (b"priority", b"u=1, i")))
    request("priority u=9", head(*GET, (b"priority", b"u=9")))
    request("cookie twice", head(*GET, (b"cookie", b"a=1"), (b"cookie", b"b=2")))
    request("CONNECT", head(*CONNECT) + body(b"x"), False)
    request("OPTIONS *", head((b":method", b"OPTIONS"), (b":scheme", b"https"), (b":authority", b"a"), (b":path", b"*")))
    request("host instead of :authority", head(*without(GET, b":authority"), (b"host", b"a.b")))
    request(":authority and the same host", head(*GET, (b"host", b"a.b")))
    request("te: trailers", head(*GET, (b"te", b"trailers")))
    request("an empty value", head(*GET, (b"x", b"")))
    request("obs-text in a value", head(*GET, (b"x", b"\xe4\xff")))
    response("200", head(*OK))
    response("200 with a body", head(*OK, length(b"5")) + body(b"hello"))
    response("103, then 200", head((b":status", b"103"), (b"link", b"x")) + head(*OK) + body(b"x"))
    response("100, 103, 200", head((b":status", b"100")) + head((b":status", b"103")) + head(*OK))
    response("a response with a trailer", head(*OK) + body(b"x") + head((b"t", b"1")))
    response("HEAD with content-length", head(*OK, length(b"5")), method=b"HEAD")
    response("204", head((b":status", b"204")))
    response("304 with content-length", head((b":status", b"304"), length(b"5")))
    response("an unknown frame before the response", frame(UNKNOWN + 0x1F, b"zz") + head(*OK))
    response("CONNECT, 200 and DATA", head(*OK) + body(b"x"), False, b"CONNECT")


def requests():
    for name in (b":method", b":scheme", b":path", b":authority"):
        text = name.decode()
        request(f"no {text}", head(*without(GET, name)))
        request(f"{text} twice", head(*GET, *(it for it in GET if it[0] == name)))
        request(f"{text} is empty", head(*having(GET, name, b"")))
    request("a pseudo-header field after a field", head((b"x", b"1"), *GET))
    request("an unknown pseudo-header field", head(*GET, (b":foo", b"1")))
    request(":status in a request", head(*GET, (b":status", b"200")))
    request("a name in upper case", head(*GET, (b"X-A", b"1")))
    request("an empty name", head(*GET, (b"", b"1")))
    request("a space in a name", head(*GET, (b"x y", b"1")))
    for text, value in (("a CR alone", b"\r"), ("a NUL alone", b"\0"), ("a NUL", b"a\0b"), ("a CR", b"a\rb"), ("a space before it", b" a"),
                        ("a space after it", b"a "), ("spaces alone", b"  ")):
        request(f"a value with {text}", head(*GET, (b"x", value)))
    for name in (b"connection", b"keep-alive", b"proxy-connection", b"transfer-encoding", b"upgrade"):
        request(f"{name.decode()} in a request", head(*GET, (name, b"x")))
    request("te: gzip", head(*GET, (b"te", b"gzip")))
    request("a path without a slash", head(*having(GET, b":path", b"a")))
    request("the path * of GET", head(*having(GET, b":path", b"*")))
    request("a path with a fragment", head(*having(GET, b":path", b"/#a")))
    request("a path with a space", head(*having(GET, b":path", b"/a b")))
    request("a scheme that begins with a digit", head(*having(GET, b":scheme", b"1a")))
    request("another scheme", head(*having(GET, b":scheme", b"ftp")))
    request("an authority with userinfo", head(*having(GET, b":authority", b"u@a.b")))
    request("an authority with a space", head(*having(GET, b":authority", b"a b")))
    request(":authority and another host", head(*GET, (b"host", b"c.d")))
    request("host twice", head(*GET, (b"host", b"a.b"), (b"host", b"a.b")))
    request("a method with a space", head(*having(GET, b":method", b"G T")))
    request("a method in lower case", head(*having(GET, b":method", b"get")))
    request("CONNECT with :path", head(*CONNECT, (b":path", b"/")))
    request("CONNECT with :scheme", head(*CONNECT, (b":scheme", b"https")))
    request("CONNECT without :authority", head(CONNECT[0]))
    request(":protocol without CONNECT", head(*GET, (b":protocol", b"x")))
    request("extended CONNECT that was not announced", head((b":method", b"CONNECT"), *GET[1:], (b":protocol", b"x")))


def contents():
    request("content-length a", head(*POST, length(b"a")) + body(b"x"))
    request("content-length twice, alike", head(*POST, length(b"1"), length(b"1")) + body(b"x"))
    request("content-length twice, unlike", head(*POST, length(b"1"), length(b"2")) + body(b"x"))
    request("content-length -1", head(*POST, length(b"-1")))
    request("content-length 5 with 4 bytes", head(*POST, length(b"5")) + body(b"hell"))
    request("content-length 5 with 6 bytes", head(*POST, length(b"5")) + body(b"hello!"))
    request("content-length 5 with no bytes", head(*POST, length(b"5")))
    request("content-length 5 and a trailer", head(*POST, length(b"5")) + head((b"t", b"1")))
    for text, name, value in (("a pseudo-header field", b":path", b"/"), ("upper case", b"X", b"/"), ("connection", b"connection", b"/"),
                              ("content-length", b"content-length", b"1")):
        request(f"{text} in a trailer", head(*POST) + body(b"x") + head((name, value)))
    response("a response of 5 with 4 bytes", head(*OK, length(b"5")) + body(b"hell"))
    response("a response of 5 with 6 bytes", head(*OK, length(b"5")) + body(b"hello!"))
    response("HEAD with a body", head(*OK) + body(b"x"), method=b"HEAD")
    for status in (b"204", b"304"):
        response(f"{status.decode()} with a body", head((b":status", status)) + body(b"x"))
    response("204 with content-length 0", head((b":status", b"204"), length(b"0")))
    response("204 with content-length 5", head((b":status", b"204"), length(b"5")))
    response("200 with content-length 0", head(*OK, length(b"0")))
    response("103 with content-length", head((b":status", b"103"), length(b"5")) + head(*OK))


def responses():
    response("no :status", head((b"x", b"1")))
    response(":status twice", head(*OK, *OK))
    for status in (b"99", b"abc", b"101", b"1000"):
        response(f"status {status.decode()}", head((b":status", status)))
    response(":status after a field", head((b"x", b"1"), *OK))
    response(":path in a response", head(*OK, (b":path", b"/")))
    response("upper case in a response", head(*OK, (b"X", b"1")))
    response("connection in a response", head(*OK, (b"connection", b"x")))
    response("te in a response", head(*OK, (b"te", b"trailers")))
    response("103 and the end", head((b":status", b"103")))
    response("a response of nothing", b"")
    response("200 twice", head(*OK) + head(*OK))
    response(":status in a trailer", head(*OK) + body(b"x") + head((b":status", b"200")))
    response("103, then DATA", head((b":status", b"103")) + body(b"x"))
    response("DATA before the response", body(b"x"))
    response("PUSH_PROMISE that was not allowed", frame(PUSH_PROMISE, b"\0" + section(*GET)) + head(*OK))


def frames():
    request("DATA first", body(b"x"))
    for text, kind, payload in (("SETTINGS", SETTINGS, b""), ("GOAWAY", GOAWAY, b"\0"), ("CANCEL_PUSH", CANCEL_PUSH, b"\0"),
                                ("MAX_PUSH_ID", MAX_PUSH_ID, b"\0"), ("PUSH_PROMISE", PUSH_PROMISE, b"\0" + section(*GET))):
        request(f"{text} on a request stream", frame(kind, payload))
    for kind in (2, 6, 8, 9):
        request(f"frame type {kind} of HTTP/2", frame(kind, b""))
    trailer = head((b"t", b"1"))
    request("DATA after a trailer", head(*POST) + trailer + body(b"x"))
    request("HEADERS after a trailer", head(*POST) + trailer + trailer)
    request("an unknown frame after a trailer", head(*POST) + trailer + frame(UNKNOWN, b"x"))
    request("the end in the head of a frame", head(*POST) + b"\0")
    request("the end in DATA", head(*POST) + body(b"hello")[:4])
    request("the end in HEADERS", head(*GET)[:10])
    request("the end in an unknown frame", head(*POST) + frame(UNKNOWN, b"abc")[:2])
    request("a request of nothing", b"")
    request("a request of an unknown frame", frame(UNKNOWN, b"a"))
    request("an empty HEADERS frame", frame(HEADERS, b""))
    request("half a prefix", frame(HEADERS, b"\0"))
    request("required insert count 5 without a table", frame(HEADERS, b"\5\0\x80"))
    request("a dynamic index without a table", frame(HEADERS, b"\0\0\x80"))
    for text, prefix in (("an encoded count of 1", b"\1\0"), ("a base below the count 0", b"\0\x80"), ("a base of 5", b"\0\5")):
        request(f"{text}, no index and no table", frame(HEADERS, prefix + section(*GET)[2:]))
    request("static index 99", frame(HEADERS, b"\0\0\xff\x24"))
    request("a cut literal", frame(HEADERS, b"\0\0\x23abc"))


def control_streams():
    control("server", "no SETTINGS first", frame(GOAWAY, b"\0"))
    control("server", "SETTINGS twice", NO_SETTINGS + NO_SETTINGS)
    control("server", "DATA on the control stream", NO_SETTINGS + frame(DATA, b""))
    control("server", "HEADERS on the control stream", NO_SETTINGS + frame(HEADERS, b""))
    control("server", "the end of the control stream", NO_SETTINGS, True)
    control("server", "a setting twice", frame(SETTINGS, 2 * (integer(6) + integer(5))))
    for setting in (2, 0):
        control("server", f"setting {setting} of HTTP/2", frame(SETTINGS, integer(setting) + integer(5)))
    control("server", "a cut setting", frame(SETTINGS, integer(6)))
    control("server", "an unknown setting", frame(SETTINGS, integer(0x21) + integer(7)))
    control("client", "ENABLE_CONNECT_PROTOCOL 2", frame(SETTINGS, integer(8) + integer(2)))
    control("client", "H3_DATAGRAM 2", frame(SETTINGS, integer(0x33) + integer(2)))
    told = ((1, 4096), (6, 9999), (7, 16), (8, 1), (0x33, 1))
    control("client", "settings", frame(SETTINGS, b"".join(integer(it) for pair in told for it in pair)))
    control("client", "GOAWAY at a client", NO_SETTINGS + frame(GOAWAY, integer(4)))
    at("client", "GOAWAY, then a greater one", (3, CONTROL_TYPE + NO_SETTINGS + frame(GOAWAY, integer(4))), (3, frame(GOAWAY, integer(8))))
    control("client", "GOAWAY of no request", NO_SETTINGS + frame(GOAWAY, integer(5)))
    control("client", "two GOAWAY at once", NO_SETTINGS + frame(GOAWAY, integer(8)) + frame(GOAWAY, integer(4)))
    control("server", "GOAWAY at a server", NO_SETTINGS + frame(GOAWAY, integer(5)))
    control("server", "GOAWAY with bytes after it", NO_SETTINGS + frame(GOAWAY, b"\0\0"))
    control("server", "MAX_PUSH_ID", NO_SETTINGS + frame(MAX_PUSH_ID, integer(5)))
    control("server", "MAX_PUSH_ID, then a lesser one", NO_SETTINGS + frame(MAX_PUSH_ID, integer(5)) + frame(MAX_PUSH_ID, integer(4)))
    control("client", "MAX_PUSH_ID at a client", NO_SETTINGS + frame(MAX_PUSH_ID, integer(5)))
    control("server", "CANCEL_PUSH", NO_SETTINGS + frame(CANCEL_PUSH, integer(5)))
    control("server", "an unknown frame on the control stream", NO_SETTINGS + frame(UNKNOWN, b"abc"))
    for side, name, kind in (("server", "of no request", PRIORITY_UPDATE), ("client", "at a client", PRIORITY_UPDATE),
                             ("server", "of a push", PRIORITY_UPDATE + 1)):
        control(side, f"PRIORITY_UPDATE {name}", NO_SETTINGS + frame(kind, integer(0) + b"u=1"))
    control("server", "PRIORITY_UPDATE in front of SETTINGS", frame(PRIORITY_UPDATE, integer(0) + b"u=1"))
    for name, payload in (("", b"\0u=1"), (" without a text", b"\0"), (" of urgency 8", b"\0u=8"), (" of no dictionary", b"\0U=1"), (" without an id", b""),
                          (" of half an id", b"\x40"), (" of a stream of the server", b"\1u=1")):
        at("server", f"PRIORITY_UPDATE of a request{name}", (2, CONTROL_TYPE + NO_SETTINGS), (0, head(*GET)), (2, frame(PRIORITY_UPDATE, payload)))
    for name, kind in (("PRIORITY_UPDATE", PRIORITY_UPDATE), ("PRIORITY_UPDATE of a push", PRIORITY_UPDATE + 1)):
        request(f"{name} on a request stream", frame(kind, integer(0) + b"u=1"))
        response(f"{name} in a response", frame(kind, integer(0) + b"u=1"))


def other_streams():
    settings = (2, CONTROL_TYPE + NO_SETTINGS)
    at("server", "two control streams", settings, (6, CONTROL_TYPE))
    at("server", "a push stream at a server", (2, PUSH_TYPE + b"\0"))
    at("client", "a push stream that was not allowed", (3, PUSH_TYPE + b"\0"))
    at("server", "an unknown unidirectional stream", (2, integer(0x21) + b"abc"), (2, b"def", True))
    at("server", "an unknown unidirectional stream, byte by byte", (2, b"\x40"), (2, b"\x21"), (2, b"a"), (2, b"", True))
    at("client", "two unknown unidirectional streams", (3, integer(0x21)), (7, integer(1 << 40) + b"a"), (3, b"b"), (7, b"", True))
    at("server", "the end of the encoder stream", (2, ENCODER_TYPE, True))
    at("server", "the end of the decoder stream", (2, DECODER_TYPE, True))
    at("server", "two encoder streams", (2, ENCODER_TYPE), (6, ENCODER_TYPE))
    at("server", "a capacity above the limit", settings, (6, ENCODER_TYPE + b"\x21"))
    at("server", "an insertion without a table", settings, (6, ENCODER_TYPE + b"\x41a\x01b"))
    at("server", "an increment of 0", settings, (6, DECODER_TYPE + b"\x00"))
    at("server", "an increment past what was inserted", settings, (6, DECODER_TYPE + b"\x01"))
    at("server", "an acknowledgment of no section", settings, (6, DECODER_TYPE + b"\x80"))
    at("server", "a cancellation of no section", settings, (6, DECODER_TYPE + b"\x40"))
    at("server", "a unidirectional stream without a type", (2, b"", True))
    at("client", "a bidirectional stream of the server", (1, head(*OK)))
    at("client", "bytes of a stream that was not opened", (4, head(*OK)))
    at("server", "bytes after the end", settings, (0, head(*GET), True), (0, b"x"))


for make in (well_formed, requests, contents, responses, frames, control_streams, other_streams):
    make()
assert len({it.name for it in CASES}) == len(CASES), "a name stands for two cases"
