"""aio.py: HTTP/3 by aioquic (Debian 13's python3-aioquic), for `make interop` to talk to.

    aio.py serve PORT CERTIFICATE KEY FOLDER   GET and HEAD of files below a folder, POST with count and SHA-256; paths of their own: see `own_path`
    aio.py client PORT TRUSTED BIG POSTED      a connection to a server for each case: a line 'ok CASE' or 'failed CASE: WHAT'. BIG is the file that
                                               the server has as /big.bin, and POSTED what it answers to a POST of it as /answer
    aio.py lost ..                             some of these cases, where packets are lost
    aio.py limited ..                          a case for a server that takes 150 requests on a connection
    aio.py sessions ..                         cases for a server of WebTransport sessions: each stream is answered as a POST is
    aio.py sessions-serve PORT CERTIFICATE KEY a server of such sessions, which answers as examples/c/webtransport does
    aio.py websockets ..                       cases for a server of WebSockets that sends messages back (frames by Debian's python3-wsproto)
    aio.py leaving ..                          a WebSocket, and a line 'open': the server ends then

aioquic 1.2.0 sends what it is told to, tables included, and checks what it gets. It tells of no GOAWAY, holds the length of an answer to HEAD against
its (empty) body, takes an interim head of its own for a message's last one, and what comes on a session's stream that it opened for frames: the subclass gets
around that."""
import asyncio
import hashlib
import os
import socket
import ssl
import sys

from aioquic.asyncio import connect, serve
from aioquic.asyncio.protocol import QuicConnectionProtocol
from aioquic.buffer import encode_uint_var
from aioquic.h3.connection import FrameType, H3Connection, HeadersState, encode_frame
from aioquic.h3.events import DatagramReceived, DataReceived, HeadersReceived, WebTransportStreamDataReceived
from aioquic.quic.configuration import QuicConfiguration
from aioquic.quic.events import ConnectionTerminated, ProtocolNegotiated, StopSendingReceived, StreamReset
from wsproto.connection import Connection as Frames, ConnectionType
from wsproto.events import BytesMessage, CloseConnection, Message, Ping, Pong, TextMessage

CANCELLED = 0x10C
MOST_SECONDS = 60
PIECE = 64 * 1024


class Connection(H3Connection):
    """an H3Connection that notes GOAWAY, and does not count the body of an answer to HEAD"""

    def __init__(self, quic, has_sessions):
        self.goaways, self.heads, self.is_leaving = [], set(), False
        super().__init__(quic, has_sessions)

    def _handle_control_frame(self, frame_type, frame_data):
        if frame_type == FrameType.GOAWAY:
            self.goaways.append(frame_data)
        super()._handle_control_frame(frame_type, frame_data)

    def _check_content_length(self, stream):
        if stream.stream_id not in self.heads:
            super()._check_content_length(stream)

    def send_interim(self, stream_id, headers):
        self.send_headers(stream_id, headers)
        self._get_or_create_stream(stream_id).headers_send_state = HeadersState.INITIAL

    def open_stream(self, session, is_unidirectional=False):
        """a stream of a WebTransport session"""
        stream_id = self.create_webtransport_stream(session, is_unidirectional)
        stream = self._get_or_create_stream(stream_id)
        stream.frame_type, stream.session_id = FrameType.WEBTRANSPORT_STREAM, session
        return stream_id

    def send_goaway(self, end):
        """once: a later one may not name a greater id (RFC 9114, section 5.2)"""
        if self.is_leaving:
            return
        self.is_leaving = True
        self._quic.send_stream_data(self._local_control_stream_id, encode_frame(FrameType.GOAWAY, encode_uint_var(end)))


class Protocol(QuicConnectionProtocol):
    """one connection: what came on each stream, and which ended, in order"""

    has_sessions = False

    def __init__(self, *arguments, **words):
        super().__init__(*arguments, **words)
        self.http, self.streams, self.over, self.ends, self.datagrams = None, {}, None, [], []

    def connection_made(self, transport):
        """room for the packets that come while Python is slow"""
        transport.get_extra_info("socket").setsockopt(socket.SOL_SOCKET, socket.SO_RCVBUF, 1 << 22)
        super().connection_made(transport)

    def stream(self, stream_id):
        return self.streams.setdefault(stream_id, {"heads": [], "body": bytearray(), "ended": False, "reset": None, "stopped": None, "changed": asyncio.Event()})

    def quic_event_received(self, event):
        if isinstance(event, ProtocolNegotiated):
            self.http = Connection(self._quic, self.has_sessions)
        if isinstance(event, ConnectionTerminated):
            self.over = (event.error_code, event.reason_phrase)
        if isinstance(event, StreamReset):
            self.stream(event.stream_id)["reset"] = event.error_code
        if isinstance(event, StopSendingReceived):
            self.stream(event.stream_id)["stopped"] = event.error_code
        for it in self.http.handle_event(event) if self.http else []:
            self.took(it)
        for stream in self.streams.values():
            stream["changed"].set()

    def took(self, it):
        stream = self.stream(it.stream_id)
        if isinstance(it, DatagramReceived):
            self.datagrams.append((it.stream_id, it.data))
        if isinstance(it, HeadersReceived):
            stream["heads"].append(dict(it.headers))
        elif isinstance(it, (DataReceived, WebTransportStreamDataReceived)):
            stream["body"] += it.data
        if getattr(it, "stream_ended", False) and not stream["ended"]:
            stream["ended"] = True
            self.ends.append(it.stream_id)

    async def until(self, stream_id, what):
        """waits until `what` holds of a stream; an error where the connection is over before"""
        stream = self.stream(stream_id)
        while not what(stream):
            if self.over:
                raise RuntimeError(f"the connection is over: {self.over}")
            stream["changed"].clear()
            await stream["changed"].wait()
        return stream


# ---- the server ----


def own_path(protocol, stream_id, path):
    """the answers that are not files. True: this was one"""
    http = protocol.http

    def answer(status, *fields, body=None):
        http.send_headers(stream_id, [(b":status", str(status).encode()), *fields], end_stream=body is None)
        if body is not None:
            http.send_data(stream_id, body, end_stream=True)

    if path in ("/204", "/304"):
        answer(int(path[1:]), (b"etag", b'"1"'))
    elif path == "/103":
        http.send_interim(stream_id, [(b":status", b"103"), (b"link", b"</style.css>; rel=preload; as=style")])
        answer(200, body=b"hints\n")
    elif path == "/trailers":
        http.send_headers(stream_id, [(b":status", b"200")])
        http.send_data(stream_id, b"trailers\n", end_stream=False)
        http.send_headers(stream_id, [(b"x-count", b"9"), (b"x-sum", b"0")], end_stream=True)
    elif path == "/reset":
        http.send_headers(stream_id, [(b":status", b"200"), (b"content-length", b"10000000")])
        http.send_data(stream_id, bytes(PIECE), end_stream=False)
        asyncio.get_event_loop().call_later(0.2, lambda: (protocol._quic.reset_stream(stream_id, CANCELLED), protocol.transmit()))
    elif path == "/goaway":
        # the answer comes half a second behind GOAWAY: a client that heeds it sends no request meanwhile, whichever of its streams is read first
        http.send_goaway(stream_id + 4)
        asyncio.get_event_loop().call_later(0.5, lambda: (answer(200, body=b"the last\n"), protocol.transmit()))
    else:
        return False
    return True


class Server(Protocol):
    folder = ""

    def took(self, it):
        super().took(it)
        stream = self.stream(it.stream_id)
        if isinstance(it, HeadersReceived) and len(stream["heads"]) == 1:
            stream["hash"], stream["count"] = hashlib.sha256(), 0
        if isinstance(it, DataReceived):
            stream["hash"].update(it.data)
            stream["count"] += len(it.data)
            stream["body"].clear()
        head = stream["heads"][0]
        path, method = head[b":path"].decode(), head[b":method"].decode()
        if path == "/early" and not stream.get("early"):
            stream["early"] = True
            self.http.send_headers(it.stream_id, [(b":status", b"200")])
            self.http.send_data(it.stream_id, b"early\n", end_stream=True)
            self._quic.stop_stream(it.stream_id, 0x100)
        elif stream["ended"] and path != "/early" and not stream.get("answered"):
            # a stream's end may be told by more than one event
            stream["answered"] = True
            if not own_path(self, it.stream_id, path):
                self.answer(it.stream_id, method, path, stream)
        self.transmit()

    def answer(self, stream_id, method, path, stream):
        if method == "POST":
            body = f"{stream['count']} {stream['hash'].hexdigest()}\n".encode()
        elif os.path.isfile(self.folder + path):
            with open(self.folder + path, "rb") as file:
                body = file.read()
        else:
            return self.http.send_headers(stream_id, [(b":status", b"404")], end_stream=True)
        head = [(b":status", b"200"), (b"content-length", str(len(body)).encode()), (b"server", b"aioquic")]
        self.http.send_headers(stream_id, head, end_stream=method == "HEAD")
        if method != "HEAD":
            self.http.send_data(stream_id, body, end_stream=True)


async def serve_folder(port, certificate, key, folder):
    configuration = QuicConfiguration(alpn_protocols=["h3"], is_client=False, max_data=1 << 22, max_stream_data=1 << 20)
    configuration.load_cert_chain(certificate, key)
    Server.folder = folder
    await serve("127.0.0.1", int(port), configuration=configuration, create_protocol=Server)
    await asyncio.Future()


class SessionServer(Protocol):
    """sessions on any path: each stream is answered with the count and hash of its bytes, one that goes one way on one of the server's, which goes both ways on
    the path /both; datagrams come back; a session ends with its request"""

    has_sessions = True

    def took(self, it):
        super().took(it)
        stream = self.stream(it.stream_id)
        if isinstance(it, HeadersReceived):
            self.http.send_headers(it.stream_id, [(b":status", b"200"), (b"sec-webtransport-http3-draft", b"draft02")])
        elif isinstance(it, DatagramReceived):
            self.http.send_datagram(it.stream_id, it.data)
        elif isinstance(it, WebTransportStreamDataReceived):
            stream["session"] = it.session_id
        if stream["ended"] and not stream.get("answered"):
            stream["answered"] = True
            self.end(it.stream_id, stream)
        self.transmit()

    def end(self, stream_id, stream):
        if stream["heads"]:
            self.http.send_data(stream_id, b"", end_stream=True)
        elif stream_id % 4 == 0:
            self._quic.send_stream_data(stream_id, answer_to(stream["body"]), True)
        elif stream_id % 4 == 2:
            is_back = self.stream(stream["session"])["heads"][0][b":path"] == b"/both"
            self._quic.send_stream_data(self.http.open_stream(stream["session"], not is_back), answer_to(stream["body"]), True)


async def serve_sessions(port, certificate, key):
    configuration = QuicConfiguration(alpn_protocols=["h3"], is_client=False, max_data=1 << 24, max_stream_data=1 << 22, max_datagram_frame_size=65536)
    configuration.load_cert_chain(certificate, key)
    await serve("127.0.0.1", int(port), configuration=configuration, create_protocol=SessionServer)
    await asyncio.Future()


# ---- the client's cases ----


class Client(Protocol):
    authority = b""

    def ask(self, method, path, *fields, end=True):
        stream_id = self._quic.get_next_available_stream_id()
        if method == "HEAD":
            self.http.heads.add(stream_id)
        head = [(b":method", method.encode()), (b":scheme", b"https"), (b":authority", self.authority), (b":path", path.encode())]
        self.http.send_headers(stream_id, head + list(fields), end_stream=end)
        self.transmit()
        return stream_id

    def send(self, stream_id, data, end):
        self.http.send_data(stream_id, data, end_stream=end)
        self.transmit()

    async def whole(self, stream_id, status=200):
        stream = await self.until(stream_id, lambda it: it["ended"] or it["reset"] is not None)
        if stream["reset"] is not None:
            raise RuntimeError(f"reset with {stream['reset']:#x}")
        *_, head = (it for it in stream["heads"] if b":status" in it)  # behind interim ones, and before a trailer
        if head[b":status"] != str(status).encode():
            raise RuntimeError(f"status {head}")
        return stream

    async def text(self, path):
        return (await self.whole(self.ask("GET", path)))["body"]


def want(good, what):
    if not good:
        raise RuntimeError(what)


async def case_get(client, words):
    want(await client.text("/hello.txt") == b"hello\n", "another body")


async def case_big(client, words):
    with open(words["big"], "rb") as file:
        want(await client.text("/big.bin") == file.read(), "another body")


async def case_post(client, words):
    stream_id = client.ask("POST", "/answer", end=False)
    with open(words["big"], "rb") as file:
        client.send(stream_id, file.read(), True)
    with open(words["posted"], "rb") as file:
        want((await client.whole(stream_id))["body"] == file.read(), "another hash")


async def case_head(client, words):
    stream = await client.whole(client.ask("HEAD", "/big.bin"))
    want(stream["body"] == b"" and stream["heads"][0][b"content-length"] == b"10000000", "a body, or another length")


async def case_many(client, words):
    ids = [client.ask("GET", f"/small/{i}.txt") for i in range(100)]
    for i, stream_id in enumerate(ids):
        want((await client.whole(stream_id))["body"] == f"small {i}\n".encode(), f"another body, {i}")


async def case_serial(client, words):
    for _ in range(500):
        want(await client.text("/hello.txt") == b"hello\n", "another body")


async def case_fields(client, words):
    fields = [(f"x-field-{i}".encode(), f"value {i} ".encode() * 3 + b"end") for i in range(100)]
    for _ in range(3):
        await client.whole(client.ask("GET", "/hello.txt", *fields))


async def case_trailers(client, words):
    stream_id = client.ask("POST", "/answer", (b"trailer", b"x-sum"), end=False)
    client.send(stream_id, b"abc", False)
    client.http.send_headers(stream_id, [(b"x-sum", b"3")], end_stream=True)
    client.transmit()
    want((await client.whole(stream_id))["body"] == b"3 " + hashlib.sha256(b"abc").hexdigest().encode() + b"\n", "another hash")


async def case_upload_aborted(client, words):
    for _ in range(20):
        stream_id = client.ask("POST", "/answer", end=False)
        client.send(stream_id, bytes(100_000), False)
        await asyncio.sleep(0.02)
        client._quic.reset_stream(stream_id, CANCELLED)
        client.transmit()
    await case_get(client, words)


async def case_download_stopped(client, words):
    for _ in range(20):
        stream_id = client.ask("GET", "/big.bin")
        await client.until(stream_id, lambda it: len(it["body"]) > 10_000)
        client._quic.stop_stream(stream_id, CANCELLED)
        client.transmit()
        await client.until(stream_id, lambda it: it["reset"] is not None)
    await case_get(client, words)


async def case_stopped(client, words):
    stream_id = client.ask("PUT", "/answer", end=False)
    client.send(stream_id, bytes(3_000_000), False)
    await client.whole(stream_id, 405)
    await client.until(stream_id, lambda it: it["stopped"] is not None)
    want(client.stream(stream_id)["stopped"] == 0x100, "another code than H3_NO_ERROR")
    await case_get(client, words)


async def case_goaway(client, words):
    for _ in range(150):
        want(await client.text("/hello.txt") == b"hello\n", "another body")
    want(client.http.goaways == [encode_uint_var(600)], f"GOAWAY {client.http.goaways}")
    stream_id = client.ask("GET", "/hello.txt")
    stream = await client.until(stream_id, lambda it: it["reset"] is not None)
    want(stream["reset"] == 0x10B, "another code than H3_REQUEST_REJECTED")


# ---- sessions of WebTransport ----

FIRST_OF_SERVER = 15  # its first unidirectional stream behind the control, encoder and decoder stream


def answer_to(data):
    return f"{len(data)} {hashlib.sha256(data).hexdigest()}\n".encode()


async def begin_session(client, path=b"/"):
    session = client._quic.get_next_available_stream_id()
    head = [(b":method", b"CONNECT"), (b":protocol", b"webtransport"), (b":scheme", b"https"), (b":authority", client.authority), (b":path", path)]
    client.http.send_headers(session, head + [(b"sec-webtransport-http3-draft02", b"1")])
    client.transmit()
    stream = await client.until(session, lambda it: it["heads"] or it["ended"] or it["reset"] is not None)
    want(stream["heads"] and stream["heads"][0][b":status"] == b"200", f"no session: {stream}")
    return session


def send_on(client, session, data, is_unidirectional=False, end=True):
    stream_id = client.http.open_stream(session, is_unidirectional)
    client._quic.send_stream_data(stream_id, data, end)
    client.transmit()
    return stream_id


async def case_both_ways(client, words):
    session = await begin_session(client)
    for data in (os.urandom(3_000_000), b"", b"x"):
        stream = await client.until(send_on(client, session, data), lambda it: it["ended"])
        want(stream["body"] == answer_to(data), f"another answer: {stream['body'][:100]}")


async def case_one_way(client, words):
    session = await begin_session(client)
    for i, data in enumerate((os.urandom(3_000_000), b"", b"x")):
        send_on(client, session, data, is_unidirectional=True)
        stream = await client.until(FIRST_OF_SERVER + 4 * i, lambda it: it["ended"])
        want(stream["body"] == answer_to(data), f"another answer: {stream['body'][:100]}")


async def case_many_streams(client, words):
    session = await begin_session(client)
    data = [os.urandom(1000 * i) for i in range(50)]
    ids = [send_on(client, session, it) for it in data]
    for i in range(10):
        send_on(client, session, data[i], is_unidirectional=True)
    for it, stream_id in zip(data, ids):
        want((await client.until(stream_id, lambda it: it["ended"]))["body"] == answer_to(it), "another answer")
    bodies = [bytes((await client.until(FIRST_OF_SERVER + 4 * i, lambda it: it["ended"]))["body"]) for i in range(10)]
    want(sorted(bodies) == sorted(answer_to(it) for it in data[:10]), "other answers to unidirectional streams")


async def case_streams_reset(client, words):
    session = await begin_session(client)
    for is_unidirectional in (False, True):
        stream_id = send_on(client, session, bytes(10_000), is_unidirectional, end=False)
        await asyncio.sleep(0.1)
        client._quic.reset_stream(stream_id, 0x52E4A40FA8DB)
        client.transmit()
    stream = await client.until(send_on(client, session, b"x"), lambda it: it["ended"])
    want(stream["body"] == answer_to(b"x"), "another answer")


async def case_session_ends(client, words):
    session = await begin_session(client)
    open_one = send_on(client, session, b"x", end=False)
    await asyncio.sleep(0.2)
    client.send(session, b"", True)
    await client.until(session, lambda it: it["ended"])
    stream = await client.until(open_one, lambda it: it["reset"] is not None)
    want(stream["reset"] == 0x170D7B68, f"another code than SESSION_GONE: {stream['reset']:#x}")


async def case_two_sessions(client, words):
    """on one connection: one ends, and the other goes on"""
    one, two = await begin_session(client), await begin_session(client, b"/both")
    open_one, open_two = (send_on(client, it, b"x", end=False) for it in (one, two))
    await asyncio.sleep(0.2)
    client.send(one, b"", True)
    await client.until(open_one, lambda it: it["reset"] is not None)
    client._quic.send_stream_data(open_two, b"y", True)
    send_on(client, two, b"one way", is_unidirectional=True)
    for stream_id, data in ((open_two, b"xy"), (1, b"one way")):
        stream = await client.until(stream_id, lambda it: it["ended"] or it["reset"] is not None)
        want(stream["body"] == answer_to(data), f"another answer: {stream}")


def capsule(kind, value):
    return encode_uint_var(kind) + encode_uint_var(len(value)) + value


async def case_capsule_closes(client, words):
    """an unknown capsule, and then one that closes the session with a number and a text, a byte at a time"""
    session = await begin_session(client)
    open_one = send_on(client, session, b"x", end=False)
    await asyncio.sleep(0.2)
    data = capsule(0x1234, b"skipped") + capsule(0x2843, (7).to_bytes(4, "big") + b"bye")
    for i in range(len(data)):
        client.send(session, data[i : i + 1], False)
    await client.until(session, lambda it: it["ended"])
    stream = await client.until(open_one, lambda it: it["reset"] is not None)
    want(stream["reset"] == 0x170D7B68, f"another code than SESSION_GONE: {stream['reset']:#x}")


async def case_capsule_cut(client, words):
    session = await begin_session(client)
    client.send(session, capsule(0x1234, b"whole")[:-1], True)
    stream = await client.until(session, lambda it: it["reset"] is not None)
    want(stream["reset"] == 0x10E, f"another code than H3_MESSAGE_ERROR: {stream['reset']:#x}")


async def case_datagrams(client, words):
    session = await begin_session(client)
    for data in (b"", b"x", bytes(1000)):
        while (session, data) not in client.datagrams:  # some may be lost on their way
            client.http.send_datagram(session, data)
            client.transmit()
            await asyncio.sleep(0.1)


async def case_back(client, words):
    """what goes one way is answered on a stream both ways, which the server opens"""
    session = await begin_session(client, b"/both")
    for i, data in enumerate((os.urandom(3_000_000), b"", b"x")):
        send_on(client, session, data, is_unidirectional=True)
        stream = await client.until(1 + 4 * i, lambda it: it["ended"])
        want(stream["body"] == answer_to(data), f"another answer: {stream['body'][:100]}")
        client._quic.send_stream_data(1 + 4 * i, b"", True)
        client.transmit()


async def case_no_session(client, words):
    session = await begin_session(client)
    stream = await client.until(send_on(client, session + 400, b"x"), lambda it: it["reset"] is not None)
    want(stream["reset"] == 0x3994BD84, f"another code than BUFFERED_STREAM_REJECTED: {stream['reset']:#x}")
    await client.whole(client.ask("GET", "/hello.txt"), 404)


# ---- WebSockets ----


async def answer_to_connect(client, protocol, *fields):
    stream_id = client._quic.get_next_available_stream_id()
    head = [(b":method", b"CONNECT"), (b":protocol", protocol), (b":scheme", b"https"), (b":authority", client.authority), (b":path", b"/echo")]
    client.http.send_headers(stream_id, head + list(fields))
    client.transmit()
    stream = await client.until(stream_id, lambda it: it["heads"] or it["ended"] or it["reset"] is not None)
    want(stream["heads"], f"no answer: {stream}")
    return stream_id, stream["heads"][0][b":status"]


class WebSocket:
    """a WebSocket of a client, whose frames wsproto writes and reads"""

    def __init__(self, client, stream_id):
        self.client, self.stream_id, self.count, self.events = client, stream_id, 0, []
        self.frames = Frames(ConnectionType.CLIENT)

    def send(self, *events):
        for event in events:
            self.client.send(self.stream_id, self.frames.send(event), False)

    async def event(self):
        while not self.events:
            stream = await self.client.until(self.stream_id, lambda it: len(it["body"]) > self.count or it["ended"] or it["reset"] is not None)
            want(len(stream["body"]) > self.count, f"the stream is over: reset {stream['reset']}")
            data, self.count = bytes(stream["body"][self.count:]), len(stream["body"])
            self.frames.receive_data(data)
            self.events += self.frames.events()
        return self.events.pop(0)

    async def message(self):
        parts = []
        while True:
            event = await self.event()
            want(isinstance(event, Message), f"no message: {event}")
            parts.append(event.data)
            if event.message_finished:
                return "".join(parts) if isinstance(event, TextMessage) else b"".join(parts)

    async def closes(self, code):
        event = await self.event()
        want(isinstance(event, CloseConnection) and event.code == code, f"no close with {code}: {event}")

    async def ends(self):
        stream = await self.client.until(self.stream_id, lambda it: it["ended"] or it["reset"] is not None)
        want(stream["reset"] is None, f"reset with {stream['reset']}")


async def open_websocket(client):
    stream_id, status = await answer_to_connect(client, b"websocket", (b"sec-websocket-version", b"13"))
    want(status == b"200", f"status {status}")
    return WebSocket(client, stream_id)


async def close(it):
    it.send(CloseConnection(code=1000, reason="bye"))
    await it.closes(1000)
    await it.ends()


async def case_messages(client, words):
    it = await open_websocket(client)
    for text in ("Hello", "", "Gr\u00fc\u00dfe, \u4e16\u754c", "a" * 100_000):
        it.send(TextMessage(data=text))
        want(await it.message() == text, "another text")
    for count in (0, 125, 126, 65535, 65536, 100_000, 3_000_000):
        data = os.urandom(count)
        it.send(BytesMessage(data=data))
        want(await it.message() == data, f"other bytes, {count}")
    await close(it)


async def case_fragments(client, words):
    it = await open_websocket(client)
    it.send(TextMessage(data="Hel", message_finished=False), Ping(payload=b"between"), TextMessage(data="lo"))
    events = [await it.event(), await it.event(), await it.event()]
    want([event.payload for event in events if isinstance(event, Pong)] == [b"between"], "no pong")
    want("".join(event.data for event in events if isinstance(event, TextMessage)) == "Hello", "another text")
    await close(it)


async def case_pings(client, words):
    it = await open_websocket(client)
    for payload in (b"", b"Hello", os.urandom(125)):
        it.send(Ping(payload=payload))
        event = await it.event()
        want(isinstance(event, Pong) and event.payload == payload, f"no pong: {event}")
    it.send(Pong(payload=b"nobody asked"), TextMessage(data="x"))
    want(await it.message() == "x", "another text")
    await close(it)


async def case_many_websockets(client, words):
    all_of_them = [await open_websocket(client) for _ in range(50)]
    for i, it in enumerate(all_of_them):
        it.send(TextMessage(data=f"message {i}"))
    for i, it in enumerate(all_of_them):
        want(await it.message() == f"message {i}", "another text")
    for it in all_of_them:
        await close(it)


async def case_closes(client, words):
    for code in (1000, 1001, 3000, 4999):
        it = await open_websocket(client)
        it.send(CloseConnection(code=code))
        await it.closes(code)
        await it.ends()
    it = await open_websocket(client)
    client.send(it.stream_id, b"", True)  # no close: RFC 9220, section 3
    await it.ends()


async def case_given_up(client, words):
    for _ in range(20):
        it = await open_websocket(client)
        it.send(BytesMessage(data=bytes(100_000)))
        client._quic.reset_stream(it.stream_id, CANCELLED)
        client.transmit()
        await client.until(it.stream_id, lambda it: it["reset"] is not None)
    await case_pings(client, words)


# RFC 6455, section 5.2: FIN, reserved bits and the opcode; the mask bit and the length; the mask, here 0.
BROKEN = {
    "not masked": (b"\x81\x05Hello", 1002),
    "a reserved bit": (b"\xc1\x80" + bytes(4), 1002),
    "a reserved opcode": (b"\x83\x80" + bytes(4), 1002),
    "a continuation of nothing": (b"\x80\x80" + bytes(4), 1002),
    "a message within another": (b"\x01\x81" + bytes(4) + b"x" + b"\x81\x80" + bytes(4), 1002),
    "a ping of 126 bytes": (b"\x89\xfe\x00\x7e" + bytes(4 + 126), 1002),
    "a ping in fragments": (b"\x09\x80" + bytes(4), 1002),
    "a length in more bytes than it needs": (b"\x82\xfe\x00\x05" + bytes(4 + 5), 1002),
    "a length of 2^63": (b"\x82\xff\x80" + bytes(7 + 4), 1002),
    "text that is not UTF-8": (b"\x81\x82" + bytes(4) + b"\xc3\x28", 1007),
}


async def case_broken(client, words):
    for name, (data, code) in BROKEN.items():
        it = await open_websocket(client)
        client.send(it.stream_id, data, False)
        while isinstance(event := await it.event(), Message):
            want(not event.message_finished, f"{name}: {event}")
        want(isinstance(event, CloseConnection) and event.code == code, f"{name}: {event}")
        await it.ends()
    await case_pings(client, words)


async def case_refused(client, words):
    for protocol in (b"chat", b"connect-udp", b"webtransport"):
        _, status = await answer_to_connect(client, protocol)
        want(status == b"501", f"{protocol}: status {status}")
    _, status = await answer_to_connect(client, b"websocket", (b"sec-websocket-version", b"8"))
    want(status == b"400", f"another version: status {status}")
    await client.whole(client.ask("GET", "/echo"), 404)
    await case_pings(client, words)


async def case_no_reader(client, words):
    """the client grants 1 MiB of credit, and no more: the server takes that, and its window of 256 KiB, and some 64 KiB between"""
    it = await open_websocket(client)
    grant, client._quic._write_stream_limits = client._quic._write_stream_limits, lambda **words: None
    data = os.urandom(3_000_000)
    it.send(BytesMessage(data=data))
    await client.until(it.stream_id, lambda it: len(it["body"]) > 1_000_000)
    await asyncio.sleep(2)
    granted = client._quic._streams[it.stream_id].max_stream_data_remote
    want(1 << 20 < granted < 3 << 19, f"the server takes {granted} bytes")
    client._quic._write_stream_limits = grant
    client.send(it.stream_id, b"", False)
    want(await it.message() == data, "other bytes")
    await close(it)


async def case_leaving(client, words):
    it = await open_websocket(client)
    print("open", flush=True)
    await it.closes(1001)
    it.send(CloseConnection(code=1001))
    await it.ends()


CASES = {
    "a small file": case_get,
    "10 MB": case_big,
    "POST of 10 MB": case_post,
    "HEAD": case_head,
    "100 requests at once": case_many,
    "500 requests, one behind the other": case_serial,
    "100 fields, three times": case_fields,
    "a request with a trailer": case_trailers,
    "20 uploads that are aborted": case_upload_aborted,
    "20 downloads that are stopped": case_download_stopped,
    "a PUT that is answered with 405 and stopped": case_stopped,
}
LOST = {name: CASES[name] for name in ("10 MB", "POST of 10 MB", "100 requests at once", "20 uploads that are aborted")}
LIMITED = {"GOAWAY behind 150 requests, and the next one is refused": case_goaway}


SESSIONS = {
    "a session, streams both ways": case_both_ways,
    "a session, unidirectional streams": case_one_way,
    "a session, 60 streams at once": case_many_streams,
    "a session, streams that are reset": case_streams_reset,
    "a session, datagrams": case_datagrams,
    "a session, streams both ways from the server": case_back,
    "a session that ends": case_session_ends,
    "two sessions, of which one ends": case_two_sessions,
    "a session that a capsule ends": case_capsule_closes,
    "a session whose last capsule is cut": case_capsule_cut,
    "a stream of no session": case_no_session,
}


WEBSOCKETS = {
    "a WebSocket: text and bytes, of 0 to 3,000,000": case_messages,
    "a WebSocket: fragments, and a ping between them": case_fragments,
    "a WebSocket: pings": case_pings,
    "50 WebSockets at once": case_many_websockets,
    "a WebSocket: how it is closed": case_closes,
    "20 WebSockets that are reset": case_given_up,
    "a WebSocket: frames that break rules": case_broken,
    "a WebSocket: a client that does not read": case_no_reader,
    "other protocols, and another version, open no WebSocket": case_refused,
}
LEAVING = {"a WebSocket at the server's end": case_leaving}


async def try_case(case, port, trusted, words):
    configuration = QuicConfiguration(alpn_protocols=["h3"], is_client=True, server_name="localhost", max_data=1 << 22, max_stream_data=1 << 20,
                                      max_datagram_frame_size=65536 if Client.has_sessions else None)
    configuration.load_verify_locations(trusted)
    configuration.verify_mode = ssl.CERT_REQUIRED
    Client.authority = f"localhost:{port}".encode()
    async with connect("127.0.0.1", int(port), configuration=configuration, create_protocol=Client) as client:
        await asyncio.wait_for(case(client, words), MOST_SECONDS)


async def try_all(cases, port, trusted, words):
    good = True
    for name, case in cases.items():
        try:
            await try_case(case, port, trusted, words)
            print(f"ok {name}", flush=True)
        except Exception as why:  # each case is told, whatever became of the one before
            good = False
            print(f"failed {name}: {type(why).__name__} {why}", flush=True)
    return good


def main():
    words = sys.argv[1:]
    if words[0] == "serve":
        asyncio.run(serve_folder(*words[1:]))
    elif words[0] == "sessions-serve":
        asyncio.run(serve_sessions(*words[1:]))
    else:
        cases = {"client": CASES, "lost": LOST, "limited": LIMITED, "sessions": SESSIONS, "websockets": WEBSOCKETS,
                 "leaving": LEAVING}[words[0]]
        Client.has_sessions = words[0] == "sessions"
        sys.exit(0 if asyncio.run(try_all(cases, words[1], words[2], {"big": words[3], "posted": words[4]})) else 1)


if __name__ == "__main__":
    main()
