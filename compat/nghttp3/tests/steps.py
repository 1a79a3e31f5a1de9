#!/usr/bin/env python3
"""steps.py: the same steps over four pairs of libraries, which have to go alike: both steps of GOAWAY, requests that come too late,
draining, priorities, the order in which bodies go out, wrong calls. The answers that the RFCs fix are asked for by themselves."""
import ctypes
import sys

from byte_cases import CONTROL_TYPE, ENCODER_TYPE, GET, HEADERS, OK, POST, SETTINGS, frame
from library import END, IS_VERSION_1, IS_VERSION_1_17, NO_END_STREAM, Connection, Priority, Vector, check, error_name, libraries, pairs

REQUEST_REJECTED, NO_ERROR = 0x10B, 0x100
PRIORITIES = {4: b"u=5", 8: b"u=1", 12: b"u=5, i", 16: b"u=9", 20: b""}
BODY = 3000


class Steps:
    def __init__(self, client, server):
        self.told = []  # what is compared
        self.client = Connection(client, False, self.teller("client"))
        self.server = Connection(server, True, self.teller("server"))

    def teller(self, who):
        def tell(kind, stream, *what):
            if kind not in ("header", "settings"):
                self.told.append((who, kind, stream, *(what if kind in ("stop", "reset", "close", "acked") else ())))

        return tell

    def note(self, what, *answers):
        self.told.append((what, *answers))

    @staticmethod
    def move(sender, receiver):
        """all that waits; answers the request streams in the order in which their bytes went"""
        order = []
        while True:
            count, stream, is_end, data = sender.write()
            check(count, "writev")
            if stream < 0:
                return order
            if stream % 4 == 0:
                order.append(stream)
            sender.library.add_write_offset(sender.at, stream, len(data))
            check(receiver.read(stream, data, is_end), "read")

    def both_ways(self):
        self.move(self.client, self.server)
        return self.move(self.server, self.client)

    def priority(self, stream):
        return self.server.library.get_priority(self.server.at, stream)

    def wrong_calls(self):
        client, server = self.client.library, self.server.library
        self.note("in use", error_name(self.client.request(0, GET)))
        at = self.client.at
        self.note("no stream of the server", error_name(self.server.respond(4, OK)), error_name(self.server.trail(4, [])),
                  error_name(self.server.inform(4, OK)), error_name(server.close_stream(self.server.at, 8, 0)))
        self.note("no stream of the client", error_name(client.set_stream_user_data(at, 4, None)), client.resume_stream(at, 4),
                  client.unblock_stream(at, 4), client.add_ack_offset(at, 4, 1), client.add_write_offset(at, 4, 1),
                  client.shutdown_stream_read(at, 4), client.is_stream_writable(at, 4))
        self.note("bound twice", error_name(client.bind_control_stream(at, 2)), error_name(client.bind_qpack_streams(at, 6, 10)))
        self.note("priorities", self.priority(0), self.priority(4), self.priority(1))
        if not IS_VERSION_1:
            self.note("of the peer's encoder", *(bool(server.is_remote_qpack_encoder_stream(self.server.at, it)) for it in range(-1, 16)))
        if IS_VERSION_1:
            self.note("update", error_name(client.set_client_stream_priority(self.client.at, 4, b"u=1", 3)))

    def priorities(self):
        server = self.server.library
        for stream, value in PRIORITIES.items():
            check(self.client.request(stream, [*GET, (b"priority", value)]))
        self.move(self.client, self.server)
        self.note("priorities", [self.priority(stream) for stream in PRIORITIES])
        self.note("set", server.set_priority(self.server.at, 4, 0, 0), self.priority(4))
        for stream in (0, *PRIORITIES):
            self.note("writable", bool(server.is_stream_writable(self.server.at, stream)))
            check(self.server.respond(stream, OK, self.server.reader(lambda _: ([b"x" * BODY], END))))
        order = self.move(self.server, self.client)
        assert order.index(4) < order.index(8) < order.index(0) < order.index(12), f"urgencies 0, 1, 3 and 5 went out as {order}"
        self.note("order", order)
        self.note("more acknowledged than was sent", server.add_ack_offset(self.server.at, 12, 1 << 30))
        if IS_VERSION_1:
            self.note("acknowledged", *(error_name(server.update_ack_offset(self.server.at, 8, offset)) for offset in (100, 90, 200)))

    def update(self):
        """the PRIORITY_UPDATE that a client sends, and that it counts until the server's application sets a priority"""
        check(self.client.request(24, GET))
        self.move(self.client, self.server)
        self.note("update", self.client.library.set_client_stream_priority(self.client.at, 24, b"u=2, i", 6))
        self.move(self.client, self.server)
        assert self.priority(24) == (2, 1), f"the update came as {self.priority(24)}"
        self.note("set", self.server.library.set_priority(self.server.at, 24, 6, 0), self.priority(24))
        self.note("update", self.client.library.set_client_stream_priority(self.client.at, 24, b"u=1", 3))
        self.move(self.client, self.server)
        self.note("the server's counts", self.priority(24))

    def leave(self):
        server = self.server.library
        self.note("notice", error_name(server.submit_shutdown_notice(self.server.at)))
        self.move(self.server, self.client)
        self.note("asks", error_name(self.client.request(28, GET)), error_name(self.client.request(32, GET)))
        late = self.take_out(32)
        self.note("shutdown", error_name(server.shutdown(self.server.at)))
        assert self.server.read(32, late, True) == len(late), "a late request was not taken"
        rejected = [it[1:] for it in self.told[-2:]]
        assert rejected == [("stop", 32, REQUEST_REJECTED), ("reset", 32, REQUEST_REJECTED)], f"a late request: {rejected}"
        self.both_ways()
        self.note("closing", error_name(self.client.request(36, GET)))
        for stream in (0, *PRIORITIES, *([24] if IS_VERSION_1 else []), 28, 32):
            self.note("drained", self.is_drained())
            self.note("close", stream, error_name(server.close_stream(self.server.at, stream, NO_ERROR)))
        self.note("drained", self.is_drained())
        self.note("closed twice", error_name(server.close_stream(self.server.at, 0, NO_ERROR)))

    def is_drained(self):
        return IS_VERSION_1 and bool(self.server.library.is_drained(self.server.at))

    def take_out(self, late):
        """sends all that waits at the client, but for one stream, whose bytes are the answer"""
        found = b""
        while True:
            _, stream, is_end, data = self.client.write()
            if stream < 0:
                return found
            self.client.library.add_write_offset(self.client.at, stream, len(data))
            if stream == late:
                found += data
            else:
                check(self.server.read(stream, data, is_end))

    def go(self):
        self.both_ways()
        self.server.library.set_max_client_streams_bidi(self.server.at, 1000)
        self.note("asks", error_name(self.client.request(0, GET)))
        self.move(self.client, self.server)
        self.wrong_calls()
        self.priorities()
        if IS_VERSION_1:
            self.update()
        self.leave()
        self.client.free()
        self.server.free()
        return self.told


def give_up_a_waiting_one(library):
    """Three heads wait for the peer's encoder. When the first is told, its application gives the last one up. Then another one waits."""
    told = []

    def end_headers(connection, stream):
        told.append(stream)
        if stream == 0:
            check(library.shutdown_stream_read(connection.at, 8))

    def head(inserted):  # a request that names the entry that was inserted last (RFC 9204, sections 4.5.1 and 4.5.2)
        return frame(HEADERS, bytes((inserted + 1, 0)) + b"\xd1\xd7\xc1\x50\3a.b\x80")

    server = Connection(library, True, lambda *_: None, {"end_headers": end_headers}, table=4096, blocked=16)
    check(server.read(2, CONTROL_TYPE + frame(SETTINGS, b"")))
    check(server.read(6, ENCODER_TYPE + b"\x3f\xe1\x1f"))  # the capacity is 4,096
    for stream in (0, 4, 8):
        check(server.read(stream, head(1)))
    check(server.read(6, b"\x41a\1b"))
    check(server.read(12, head(2)))
    check(server.read(6, b"\x41a\1c"))
    server.free()
    assert told == [0, 4, 12], f"heads that waited were told of {told}"


def name_entries(library):
    """No line names an entry from the required insert count on (RFC 9204, section 2.2.3), and a larger count is taken (2.2.1): the prefix, the
    last line, and what comes of it at a server that has the entries a: b and c: d."""
    refused = "QPACK_DECOMPRESSION_FAILED"
    of = (
        (b"\2\0", b"\x80", (b"a", b"b")), (b"\2\x80", b"\x10", (b"a", b"b")), (b"\3\x80", b"\x10", (b"c", b"d")), (b"\3\0", b"\x81", (b"a", b"b")),
        (b"\2\0", b"\x10", refused), (b"\2\1", b"\x80", refused), (b"\2\0", b"\0\1x", refused), (b"\2\1", b"\x40\1x", refused),
        (b"\0\0", b"\x10", refused), (b"\0\1", b"\x80", refused),
    )
    for prefix, line, wanted in of:
        told = []
        server = Connection(library, True, lambda kind, _, *what: told.append(what[1:3]) if kind == "header" else None, table=4096, blocked=16)
        check(server.read(2, CONTROL_TYPE + frame(SETTINGS, b"")))
        check(server.read(6, ENCODER_TYPE + b"\x3f\xe1\x1f\x41a\1b\x41c\1d"))
        answer = server.read(0, frame(HEADERS, prefix + b"\xd1\xd7\xc1\x50\3a.b" + line))
        came = told[-1] if answer >= 0 else error_name(answer)
        server.free()
        assert came == wanted, f"{prefix.hex()} and {line.hex()}: {came}"


def send_lower_case(client, server):
    """names in upper case go out in lower case, of a head and of a trailer that waits for the end of the body"""
    told = []
    sender = Connection(client, False, lambda *_: None)
    receiver = Connection(server, True, lambda kind, _, *what: told.append(what[1:3]) if kind in ("header", "trailer") else None)
    check(sender.request(0, [*POST, (b"X-Head", b"A")], sender.reader(lambda _: ([b"body"], END | NO_END_STREAM))))
    check(sender.trail(0, [(b"x", b"C"), (b"X-TRAILER", b"D")]))
    Steps.move(sender, receiver)
    sender.free()
    receiver.free()
    assert told == [*POST, (b"x-head", b"A"), (b"x", b"C"), (b"x-trailer", b"D")], f"names in upper case came as {told}"


def older_structs(client, server):
    """programs with the structs of 1.8"""
    told = []
    left, right = (Connection(library, is_server, lambda kind, *_: told.append(kind), versions=(1, 1))
                   for library, is_server in ((client, False), (server, True)))
    check(left.request(0, GET))
    Steps.move(left, right)
    check(right.respond(0, OK))
    Steps.move(right, left)
    left.free()
    right.free()
    assert told.count("settings") == 2 and told.count("end_stream") == 2, f"with the structs of 1.8: {told}"


def later_calls(client, server):
    """the calls of 1.17, and its callback for settings, which takes the place of the other one"""
    told, settings = [], []
    origins = b"\0\x0bhttps://a.b"
    list_of_one = Vector(ctypes.cast(ctypes.c_char_p(origins), ctypes.c_void_p), len(origins))
    left = Connection(client, False, lambda kind, *_: settings.append(kind) if kind == "settings" else None,
                      {"settings_2": lambda _, what: settings.append(what[1:])})
    right = Connection(server, True, lambda *_: None, origins=ctypes.pointer(list_of_one), connect=1)
    count, stream, _, data = right.write()
    assert stream == 3 and data.endswith(b"\x0c" + bytes([len(origins)]) + origins), f"the control stream of the server: {data.hex()}"
    server.add_write_offset(right.at, stream, len(data))
    check(client.read_stream2(left.at, 3, data, len(data), 0, 1))
    assert settings == [(0, 0, 1, 0)], f"settings: {settings}"

    def note():
        told.append((client.is_stream_flushed(left.at, 0), client.is_stream_writable2(left.at, 0), client.get_stream_user_data(left.at, 0)))

    note()
    check(left.request(0, POST, left.reader(lambda _: ([b"body"], END))))
    note()
    check(client.set_stream_user_data(left.at, 0, 77))
    while True:
        count, stream, is_end, data = left.write()
        if stream < 0:
            break
        note()
        for part in (data[:2], data[2:]):
            client.add_write_offset(left.at, stream, len(part))
            note()
        check(server.read_stream2(right.at, stream, data, len(data), is_end, 2))
    priority = Priority()
    told.append((server.get_stream_priority2(right.at, 1, priority, 0), priority.urgency, server.is_drained2(right.at)))
    for number in (0, 63, 64, 16383, 16384, (1 << 30) - 1, 1 << 30, (1 << 62) - 1):
        buffer, number_again, signed = ctypes.create_string_buffer(9), ctypes.c_uint64(), ctypes.c_int64()
        place = ctypes.addressof(buffer)
        ends = [client.put_uvarint(buffer, number), client.get_uvarint(number_again, buffer.raw), client.get_varint(signed, buffer.raw)]
        assert number_again.value == signed.value == number, f"{number} was read as {number_again.value}"
        told.append((ends[0] - place, buffer.raw, client.put_uvarintlen(number), client.get_uvarintlen(buffer.raw)))
    left.free()
    right.free()
    return told


def main():
    found, wrong, wanted = libraries(), 0, None
    for library in found:
        try:
            give_up_a_waiting_one(library)
            name_entries(library)
        except AssertionError as error:
            wrong += 1
            print(f"failed steps: {library.name}: {error}")
    for client, server in pairs(found):
        try:
            send_lower_case(client, server)
            told = Steps(client, server).go()
            if IS_VERSION_1_17:
                told.extend(later_calls(client, server))
                older_structs(client, server)
        except AssertionError as error:
            wrong += 1
            print(f"failed steps: {client.name} to {server.name}: {error}")
            continue
        wanted = wanted or told
        unlike = [f"{want}, and here {have}" for want, have in zip(wanted, told) if want != have]
        if unlike or len(told) != len(wanted):
            wrong += 1
            print(f"failed steps: {client.name} to {server.name}: {len(told)} of {len(wanted)} steps; {unlike[:3]}")
    if not wrong:
        print(f"ok steps: {len(wanted)} over four pairs")
    sys.exit(wrong > 0)


if __name__ == "__main__":
    main()
