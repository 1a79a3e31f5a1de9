"""aio_files.py CASES PORT TRUSTED FOLDER: aioquic (Debian 13's python3-aioquic) as a client of a server of files that counts nothing that is posted, as
gtlsserver of ngtcp2 is. FOLDER is what it serves.

A connection for each case: a line 'ok CASE' or 'failed CASE: WHAT'. CASES names which: files, ordering (RFC 9218), broken (rules that the client breaks,
with the code that the RFCs ask for), or options (for a server that sends a trailer behind each file, and answers before a request ends)."""
import asyncio
import os
import sys

import aio
from aio import want
from aioquic.buffer import encode_uint_var
from aioquic.h3.connection import encode_frame

DATA, HEADERS, SETTINGS = 0, 1, 4  # RFC 9114, section 7.2
PRIORITY_UPDATE = 0xF0700  # RFC 9218, section 7.2
UNKNOWN = 0x21  # of the types that are reserved to be ignored (RFC 9114, sections 6.2.3 and 7.2.8)
SLOW = "/letters.txt"  # 1,000,000 bytes, fewer than the credit of a stream; four of them are fewer than that of the connection
OTHER = "/600000"  # gtlsserver makes as many bytes as a path says


async def alive(client, words):
    await aio.case_get(client, words)


# ---- files ----


async def case_post(client, words):
    """the answer comes behind the last byte, which the server has to give credit for"""
    stream_id = client.ask("POST", "/hello.txt", end=False)
    client.send(stream_id, bytes(10_000_000), False)
    await asyncio.sleep(0.5)
    want(not client.stream(stream_id)["heads"], "an answer to a half of a request")
    client.send(stream_id, b"", True)
    want((await client.whole(stream_id))["body"] == b"hello\n", "another body")


async def case_posts(client, words):
    ids = [client.ask("POST", f"/small/{i}.txt", end=False) for i in range(50)]
    for stream_id in ids:
        client.send(stream_id, bytes(200_000), True)
    for i, stream_id in enumerate(ids):
        want((await client.whole(stream_id))["body"] == f"small {i}\n".encode(), f"another body, {i}")


async def case_request_trailer(client, words):
    stream_id = client.ask("POST", "/hello.txt", (b"trailer", b"x-sum"), end=False)
    client.send(stream_id, b"abc", False)
    client.http.send_headers(stream_id, [(b"x-sum", b"3")], end_stream=True)
    client.transmit()
    want((await client.whole(stream_id))["body"] == b"hello\n", "another body")


async def case_none(client, words):
    stream = await client.whole(client.ask("GET", "/none"), 404)
    want(len(stream["body"]) == int(stream["heads"][0][b"content-length"]), "another length")


async def case_folder(client, words):
    stream = await client.whole(client.ask("GET", "/small"), 308)
    want(stream["heads"][0][b"location"].endswith(b"/small/"), f"another place: {stream['heads'][0]}")


async def case_lengths(client, words):
    for count in (0, 1, 63, 64, 16_383, 16_384, 1_000_000, 10_000_000):
        stream = await client.whole(client.ask("GET", f"/{count}"))
        want(len(stream["body"]) == count and stream["heads"][0][b"content-length"] == str(count).encode(), f"{len(stream['body'])} for {count}")


def integer(bits, prefix, value):
    """RFC 7541, section 5.1"""
    most = (1 << prefix) - 1
    if value < most:
        return bytes([bits | value])
    rest, value = bytearray([bits | most]), value - most
    while value >= 128:
        rest.append(128 | value % 128)
        value //= 128
    return bytes(rest) + bytes([value])


def literals(fields):
    """a section of literals (RFC 9204, section 4.5.6): aioquic's encoder has room for 4,096 bytes"""
    return b"\0\0" + b"".join(integer(0x20, 3, len(name)) + name + integer(0, 7, len(value)) + value for name, value in fields)


async def case_long_section(client, words):
    fields = [(b":method", b"GET"), (b":scheme", b"https"), (b":authority", client.authority), (b":path", b"/hello.txt")]
    fields += [(f"x-long-{i}".encode(), os.urandom(1250).hex().encode()) for i in range(20)]
    stream_id = client._quic.get_next_available_stream_id()
    client._quic.send_stream_data(stream_id, encode_frame(HEADERS, literals(fields)), True)
    client.transmit()
    want((await client.whole(stream_id))["body"] == b"hello\n", "another body")
    await alive(client, words)


async def case_unknown(client, words):
    quic, greased = client._quic, encode_frame(UNKNOWN, b"greased")
    quic.send_stream_data(client.http._local_control_stream_id, greased)
    unknown = quic.get_next_available_stream_id(is_unidirectional=True)
    quic.send_stream_data(unknown, encode_uint_var(UNKNOWN) + bytes(1000))
    stream_id = quic.get_next_available_stream_id()
    quic.send_stream_data(stream_id, greased)
    head = [(b":method", b"POST"), (b":scheme", b"https"), (b":authority", client.authority), (b":path", b"/hello.txt")]
    client.http.send_headers(stream_id, head)
    quic.send_stream_data(stream_id, greased)
    client.http.send_data(stream_id, b"abc", end_stream=False)
    quic.send_stream_data(stream_id, greased, True)
    client.transmit()
    want((await client.whole(stream_id))["body"] == b"hello\n", "another body")
    await client.until(unknown, lambda it: it["stopped"] is not None)
    want(client.stream(unknown)["stopped"] == 0x103, "another code than H3_STREAM_CREATION_ERROR")


async def case_slow_reader(client, words):
    """one response stands still, since the client grants its stream no credit, and others go on"""
    grant, client._quic._write_stream_limits = client._quic._write_stream_limits, lambda **words: None
    slow = client.ask("GET", "/big.bin")
    await client.until(slow, lambda it: len(it["body"]) > 1_000_000)
    for _ in range(100):
        await alive(client, words)
    want(len(client.stream(slow)["body"]) < 1 << 20, "more than its credit")
    client._quic._write_stream_limits = grant
    await alive(client, words)
    with open(words["big"], "rb") as file:
        want((await client.whole(slow))["body"] == file.read(), "another body")


async def case_fields_come(client, words):
    """what the fields of a response say of a file"""
    stream = await client.whole(client.ask("GET", "/hello.txt"))
    head = stream["heads"][0]
    want(head[b"content-length"] == b"6" and head[b"content-type"] == b"text/plain" and head[b"server"].startswith(b"nghttp3/ngtcp2"), f"{head}")


# ---- the order of responses ----


def ask_all(client, path, *fields):
    return [client.ask("GET", path, *fields) for _ in range(4)]


def update_priority(client, stream_id, value):
    frame = encode_frame(PRIORITY_UPDATE, encode_uint_var(stream_id) + value)
    client._quic.send_stream_data(client.http._local_control_stream_id, frame)
    client.transmit()


async def first_is(client, urgent):
    """no other response is whole before it, of which each is shorter: a server that serves all in turn, or as they come, ends it last"""
    await client.whole(urgent)
    want(client.ends == [urgent], f"whole before it: {client.ends[:-1]}")


async def case_field(client, words):
    ask_all(client, OTHER)
    await first_is(client, client.ask("GET", SLOW, (b"priority", b"u=1")))


async def case_update(client, words):
    ask_all(client, OTHER)
    last = client.ask("GET", SLOW)
    update_priority(client, last, b"u=1")
    await first_is(client, last)


async def case_update_before(client, words):
    update_priority(client, 4 * 4, b"u=1")
    ask_all(client, OTHER)
    await first_is(client, client.ask("GET", SLOW))


async def case_field_and_update(client, words):
    """the update counts, and not the field (RFC 9218, section 8)"""
    asked = ask_all(client, SLOW, (b"priority", b"u=6"))
    last = client.ask("GET", SLOW, (b"priority", b"u=1"))
    update_priority(client, last, b"u=7")
    update_priority(client, asked[2], b"u=0")
    await first_is(client, asked[2])
    await client.whole(last)
    want(client.ends[-1] == last and len(client.ends) == 5, f"in another order: {client.ends}")


async def case_server(client, words):
    """gtlsserver takes a priority from the query, and says so in its response"""
    ask_all(client, OTHER)
    urgent = client.ask("GET", SLOW + "?u=1")
    await first_is(client, urgent)
    said = client.stream(urgent)["heads"][0].get(b"priority")
    want(said is not None and said.startswith(b"u=1"), f"another priority: {said}")


async def shares(client, *fields):
    """how much has come of four responses when the first of them is whole"""
    asked = ask_all(client, SLOW, *fields)
    await client.until(asked[0], lambda it: client.ends)
    return [len(client.stream(it)["body"]) for it in asked]


async def case_in_turn(client, words):
    come = await shares(client, (b"priority", b"i"))
    want(min(come) > 500_000, f"bytes of each: {come}")


async def case_one_by_one(client, words):
    come = await shares(client)
    want(come[0] == 1_000_000 and max(come[1:]) < 500_000, f"bytes of each: {come}")


# ---- rules that are broken ----


def on_request(*frames):
    """bytes that begin a request stream"""
    return lambda client: client._quic.send_stream_data(client._quic.get_next_available_stream_id(), b"".join(frames))


def on_control(*frames, end=False):
    return lambda client: client._quic.send_stream_data(client.http._local_control_stream_id, b"".join(frames), end)


def on_encoder(data):
    return lambda client: client._quic.send_stream_data(client.http._local_encoder_stream_id, data)


def on_decoder(data):
    return lambda client: client._quic.send_stream_data(client.http._local_decoder_stream_id, data)


def on_unidirectional(data):
    return lambda client: client._quic.send_stream_data(client._quic.get_next_available_stream_id(is_unidirectional=True), data)


# RFC 9114, sections 6.2.1, 7.2 and 8.1; RFC 9204, section 6
BROKEN = {
    "DATA before HEADERS": (on_request(encode_frame(DATA, b"abc")), 0x105),
    "SETTINGS on a request stream": (on_request(encode_frame(SETTINGS, b"")), 0x105),
    "a frame of HTTP/2 on a request stream": (on_request(encode_frame(6, bytes(8))), 0x105),
    "SETTINGS twice": (on_control(encode_frame(SETTINGS, b"")), 0x105),
    "HEADERS on the control stream": (on_control(encode_frame(HEADERS, b"")), 0x105),
    "a second control stream": (on_unidirectional(b"\x00"), 0x103),
    "a second encoder stream": (on_unidirectional(b"\x02"), 0x103),
    "the control stream ends": (on_control(end=True), 0x104),
    "a section with an entry that is not there": (on_request(encode_frame(HEADERS, b"\x00\x00\x80")), 0x200),
    "a capacity above the limit": (on_encoder(b"\x3f\xe1\xff\xff\x07"), 0x201),
    "an increment of 0": (on_decoder(b"\x00"), 0x202),
}


def breaks(send, code):
    async def case(client, words):
        await alive(client, words)
        send(client)
        client.transmit()
        while not client.over:
            await asyncio.sleep(0.01)
        want(client.over[0] == code, f"another code: {client.over}")

    return case


async def case_malformed(client, words):
    """each ends its stream, and the connection goes on (RFC 9114, section 4.1.2)"""
    head = {b":method": b"GET", b":scheme": b"https", b":authority": client.authority, b":path": b"/hello.txt"}
    for change in ({b":method": None}, {b":path": None}, {b":scheme": None}, {b":unknown": b"x"}, {b"connection": b"close"}, {b"Upper": b"x"}):
        stream_id = client._quic.get_next_available_stream_id()
        client.http.send_headers(stream_id, [(name, value) for name, value in {**head, **change}.items() if value is not None], end_stream=True)
        client.transmit()
        stream = await client.until(stream_id, lambda it: it["reset"] is not None or it["ended"])
        want(stream["reset"] == 0x10E, f"{change}: {stream}")
    await alive(client, words)


# ---- what options ask for ----


async def case_trailers(client, words):
    for path, count in (("/hello.txt", 6), ("/empty", 0), ("/big.bin", 10_000_000)) * 3:
        stream_id = client.ask("GET", path)
        stream = await client.whole(stream_id)
        want(len(stream["body"]) == count and stream["heads"][1:] == [{b"x-ngtcp2-stream-id": str(stream_id).encode()}], f"{path}: {stream['heads']}")


async def case_early(client, words):
    """the answer comes before the end of the request, whose rest is not wanted (RFC 9114, section 4.1)"""
    stream_id = client.ask("POST", "/hello.txt", end=False)
    client.send(stream_id, bytes(3_000_000), False)
    want((await client.whole(stream_id))["body"] == b"hello\n", "another body")
    await client.until(stream_id, lambda it: it["stopped"] is not None)
    want(client.stream(stream_id)["stopped"] == 0x100, "another code than H3_NO_ERROR")
    await alive(client, words)


FILES = {
    **{name: aio.CASES[name] for name in ("a small file", "10 MB", "HEAD", "100 requests at once", "500 requests, one behind the other",
                                          "100 fields, three times", "20 uploads that are aborted", "20 downloads that are stopped")},
    "POST of 10 MB": case_post,
    "50 POSTs of 200 KB at once": case_posts,
    "a request with a trailer": case_request_trailer,
    "no such file": case_none,
    "a folder": case_folder,
    "bodies of 0 to 10,000,000 bytes": case_lengths,
    "the fields of a response": case_fields_come,
    "a header section of 50,000 bytes": case_long_section,
    "frames and streams of unknown types": case_unknown,
    "a response that is not read, beside others": case_slow_reader,
}
ORDERING = {
    "an urgent response, by its field": case_field,
    "an urgent response, by PRIORITY_UPDATE behind its request": case_update,
    "an urgent response, by PRIORITY_UPDATE before its request": case_update_before,
    "PRIORITY_UPDATE counts, and not the field": case_field_and_update,
    "an urgent response, by the server": case_server,
    "incremental responses in turn": case_in_turn,
    "other responses one by one": case_one_by_one,
}
ALL_BROKEN = {**{name: breaks(*what) for name, what in BROKEN.items()}, "six malformed requests": case_malformed}
CASES = {"files": FILES, "ordering": ORDERING, "broken": ALL_BROKEN, "options": {"trailers": case_trailers, "an answer that stops a POST": case_early}}


def main():
    which, port, trusted, folder = sys.argv[1:]
    words = {"big": os.path.join(folder, "big.bin")}
    sys.exit(0 if asyncio.run(aio.try_all(CASES[which], port, trusted, words)) else 1)


if __name__ == "__main__":
    main()
