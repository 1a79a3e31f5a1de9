"""Two endpoints in one program: what was sent is what is received. Bytes that are expected come from the RFCs."""

import doctest
import pickle
import threading
import unittest
from unittest import mock

import beanwhile_h3
from beanwhile_h3 import (
    Answer,
    Body,
    Canceled,
    ClosedStream,
    Config,
    End,
    Endpoint,
    Field,
    GoawayCame,
    Head,
    Interim,
    NeverIndexed,
    NoMessages,
    PeerLimits,
    Pending,
    Priority,
    Raw,
    Refused,
    SettingsCame,
    StreamType,
    Trailer,
    Waiting,
    local_ids,
)
from beanwhile_h3.bench import Pair, Side, frame, joined

GET: list[Field] = [(b":method", b"GET"), (b":scheme", b"https"), (b":authority", b"localhost"), (b":path", b"/")]
MORE: list[Field] = [(b"x-long", b"v" * 3000), (b"x-none", b""), (b"x-bytes", b"\x80\xff"), (b"x-none", b"2")]
POST: list[Field] = [(b":method", b"POST"), *GET[1:], *MORE]


def settings(data: bytes) -> dict[int, int]:
    """What a control stream announces (RFC 9114, sections 6.2.1 and 7.2.4), read by RFC 9000, section 16."""

    def take(at: int) -> tuple[int, int]:
        size = 1 << (data[at] >> 6)
        return int.from_bytes(data[at : at + size], "big") & (1 << (8 * size - 2)) - 1, at + size

    assert data[:2] == b"\x00\x04"
    length, at = take(2)
    assert at + length == len(data)
    found = {}
    while at < len(data):
        setting, at = take(at)
        found[setting], at = take(at)
    return found


class Exchange(unittest.TestCase):
    def test_an_exchange_goes_over_whole_however_it_is_cut(self) -> None:
        body = bytes(i * i % 251 for i in range(20_000))
        for seed in range(20):
            pair = Pair()
            id = pair.client.open_request()
            self.assertEqual(id, 0)
            pair.client.send_head(id, POST)
            pair.client.send_body(id, body)
            pair.client.send_trailer(id, [(b"x-count", b"1"), (b"x-count", b"2")])
            pair.client.finish(id)
            pair.run(seed)
            trailer = Trailer([(b"x-count", b"1"), (b"x-count", b"2")])
            self.assertEqual(joined(pair.received[Side.SERVER, id]), [Head(POST), Body(body), trailer, End()])
            pair.server.send_head(id, [(b":status", b"103")])
            pair.server.send_head(id, [(b":status", b"200"), (b"x-a", b"b")])
            pair.server.finish(id)
            pair.run(seed)
            response = [Interim([(b":status", b"103")], 103), Head([(b":status", b"200"), (b"x-a", b"b")], 200), End()]
            self.assertEqual(pair.received[Side.CLIENT, id], response)
            state = pair.client.stream(id)
            self.assertEqual((state.has_outgoing, state.is_finished, state.is_reset), (True, True, False))
            self.assertEqual((state.waiting, state.unread), (0, 0))
            self.assertIn(state.tries, (1, 2))  # the header section may have come before its insertions
            pair.close()

    def test_a_never_indexed_field_goes_over_and_on(self) -> None:
        head: list[Field] = [*GET, NeverIndexed(b"authorization", b"a")]
        trailer: list[Field] = [(b"x-a", b"1"), NeverIndexed(b"x-b", b"2")]
        for _ in range(2):
            pair = Pair()
            id = pair.client.open_request()
            pair.client.send_head(id, head)
            # RFC 9204, section 4.5.4: 01, N, T and the index 84; the value
            self.assertTrue(pair.client.outgoing(id)[0].endswith(b"\x7f\x45\x01a"))
            pair.client.send_trailer(id, trailer)
            pair.client.finish(id)
            pair.run(0)
            came = joined(pair.received[Side.SERVER, id])
            assert isinstance(came[0], Head) and isinstance(came[1], Trailer)
            self.assertEqual((came[0].fields, came[1].fields), (head, trailer))
            head, trailer = came[0].fields, came[1].fields
            self.assertEqual([isinstance(field, NeverIndexed) for field in head + trailer], [False] * 4 + [True, False, True])
            pair.close()
        self.assertEqual((repr(head[4]), pickle.loads(pickle.dumps(head[4]))), ("NeverIndexed(b'authorization', b'a')", head[4]))

    def test_bytes_are_taken_by_any_count(self) -> None:
        client = Endpoint(Config.client())
        id = client.open_request()
        client.send_head(id, GET)
        client.advance(id, client.stream(id).waiting)
        client.send_body(id, bytearray(b"hello"))
        # a DATA frame: its type 0, its length, its bytes (RFC 9114, sections 7.1 and 7.2.1)
        self.assertEqual(client.outgoing(id), (b"\x00\x05hello", False))
        self.assertEqual(client.outgoing(id, 3), (b"\x00\x05h", False))
        client.advance(id, 2)
        client.finish(id)
        self.assertEqual(client.outgoing(id, 4), (b"hell", False))
        self.assertEqual(client.outgoing(id, 1 << 40), (b"hello", True))
        self.assertEqual((client.next_to_send(1), client.next_to_send(0), client.next_to_send(11)), (2, 0, None))
        client.advance(id, 5)
        self.assertEqual((client.outgoing(id), client.next_to_send(0)), ((b"", True), 0))
        self.assertEqual((client.end_taken(id), client.end_taken(id), client.next_to_send(0)), (True, False, 2))

    def test_requests_are_opened_by_their_ids_and_closed(self) -> None:
        client, server = Endpoint(Config.client()), Endpoint(Config.server())
        client.open_request_at(8)
        self.assertEqual((client.next_request_id(), client.open_request()), (12, 12))
        with self.assertRaises(Refused) as below:
            client.open_request_at(4)
        self.assertEqual(below.exception.answer, Answer.OUT_OF_ORDER)
        # neither half has ended; then the end of the peer's half came
        self.assertEqual(client.close_stream(4), ClosedStream(stop_sending=True, reset_stream=True))
        client.deliver_end(8)
        self.assertEqual(client.close_stream(8), ClosedStream(stop_sending=False, reset_stream=True))
        # the types 0, 0x21 (RFC 9114, sections 6.2.1 and 6.2.3), and half a type
        for id, data in (2, b"\x00"), (14, b"\x21"), (18, b"\x40"):
            server.deliver(id, data)
        # one byte of six of a SETTINGS frame's payload arrives (RFC 9114, section 7.2.4)
        server.deliver(2, b"\x04\x06\x08")
        self.assertEqual((server.frame_left(2), server.frame_left(14)), (5, 0))
        types = [server.stream_kind(id) for id in (2, 14, 18, 22, 0, 3)]
        self.assertEqual(types, [StreamType.CONTROL, StreamType.UNKNOWN, StreamType.UNTOLD, StreamType.UNTOLD, None, None])

    def test_settings_and_streams_of_extensions(self) -> None:
        config = Config.server()
        config.other_settings, config.other_streams = 1, True
        client, server = Endpoint(Config.client(), [(0x99, 7), (0x9A, 8)]), Endpoint(config)
        self.assertIsNone(client.remember_settings())
        server.deliver(2, client.outgoing(2)[0])
        client.deliver(3, server.outgoing(3)[0])
        self.assertEqual([server.peer_setting(id) for id in (0x99, 0x9A, 6)], [7, None, 65536])
        server.deliver(14, b"\x40\x99abc")
        self.assertEqual((server.stream_kind(14), server.other_type(14), server.other_type(2)), (StreamType.OTHER, 0x99, None))
        self.assertEqual(server.next_item(14), Raw(b"abc"))
        with self.assertRaises(Refused) as known:
            Endpoint(Config.client(), [(6, 7)])
        self.assertEqual((known.exception.answer, known.exception.detail), (Answer.SETTING, 6))
        # what a client remembers of its server (RFC 9114, section 7.2.4.2)
        remembered = client.remember_settings()
        assert remembered is not None
        self.assertEqual((client.settings_kept(remembered), client.settings_kept(b"\x06\x80\x01\x00\x01")), (True, False))
        resumed = Endpoint(Config.client(), remembered=b"\x06\x40\x64")
        with self.assertRaises(Refused) as large:
            resumed.send_head(resumed.open_request(), GET)
        self.assertEqual(large.exception.answer, Answer.TOO_LARGE)
        with self.assertRaises(Refused):
            Endpoint(Config.server(), remembered=remembered)

    def test_a_server_shuts_down_in_two_steps(self) -> None:
        server = Endpoint(Config.server())
        control = server.outgoing(3)[0]
        server.advance(3, len(control))
        server.deliver(4, b"\x01")
        self.assertEqual((server.first_unseen(), server.is_drained()), (8, False))
        server.shutdown_notice()
        server.shutdown()
        # GOAWAY with 2^62 - 4, and with 8 (RFC 9114, sections 5.2 and 7.2.6)
        self.assertEqual(server.outgoing(3)[0], b"\x07\x08\xff\xff\xff\xff\xff\xff\xff\xfc\x07\x01\x08")
        server.advance(3, 13)
        self.assertFalse(server.is_drained())
        idle = Endpoint(Config.server())
        idle.shutdown()
        idle.advance(3, idle.stream(3).waiting)
        self.assertEqual((idle.first_unseen(), idle.is_drained()), (0, True))

    def test_settings_are_those_of_the_configuration(self) -> None:
        config = Config.server()
        config.table, config.blocked, config.max_field_section_size, config.extended_connect = 220, 3, 1000, True
        data, is_last = Endpoint(config).outgoing(3)
        # RFC 9204, section 5; RFC 9114, section 7.2.4.1; RFC 9220, section 5
        announced = {key: value for key, value in settings(data).items() if key in (1, 6, 7, 8)}
        self.assertEqual((announced, is_last), ({1: 220, 6: 1000, 7: 3, 8: 1}, False))

    def test_the_dynamic_table_of_the_rfc(self) -> None:
        """RFC 9204, appendix B.2, with :method and :scheme of the static table (appendix A: 17 and 23) in the header section."""
        config = Config.server()
        config.table = 220
        server = Endpoint(config)
        server.deliver(4, frame(1, bytes.fromhex("0381 d1 d7 10 11")))
        self.assertEqual(server.next_item(4), Waiting(2))
        self.assertEqual(server.connection().waiting_heads, 1)
        for byte in bytes.fromhex("02 3fbd01 c00f7777772e6578616d706c652e636f6d c10c2f73616d706c652f70617468"):
            self.assertEqual(server.next_item(4), Waiting(2))
            server.deliver(6, bytes([byte]))
        fields = [(b":method", b"GET"), (b":scheme", b"https"), (b":authority", b"www.example.com"), (b":path", b"/sample/path")]
        self.assertEqual(server.next_item(4), Head(fields))
        self.assertEqual(server.connection().receiving_table, 106)
        self.assertEqual(server.outgoing(11)[0][-1:], b"\x84")  # the section acknowledgment of stream 4

    def test_a_pause_says_why_there_is_no_item(self) -> None:
        pair = Pair()
        pair.carry_all()
        id = pair.client.open_request()
        self.assertEqual(pair.client.next_item(id), Pending())
        self.assertEqual(pair.client.next_item(3), NoMessages())
        pair.client.send_head(id, GET)
        pair.carry_all()
        self.assertEqual(pair.received[Side.SERVER, id], [Head(GET)])
        self.assertEqual(pair.server.next_item(id), Pending())

    def test_states_and_settings_are_shown(self) -> None:
        pair = Pair()
        self.assertIsNone(pair.client.connection().peer)
        pair.carry_all()
        state = pair.client.connection()
        self.assertEqual((state.peer, state.goaway), (PeerLimits(4096, 16, 65536), None))
        self.assertEqual((pair.client.peer_setting(6), pair.client.peer_setting(0x21)), (65536, None))
        self.assertEqual((pair.client.next_event(), pair.client.next_event()), (SettingsCame(), None))
        pair.server.goaway(8)
        # GOAWAY: type 7, length 1, the id (RFC 9114, section 7.2.6)
        self.assertEqual(pair.server.outgoing(3), (b"\x07\x01\x08", False))
        pair.carry_all()
        self.assertEqual(pair.client.connection().goaway, 8)
        self.assertEqual((pair.client.next_event(), pair.client.next_event()), (GoawayCame(8), None))
        pair.server.deliver(0, frame(1, bytes.fromhex("0000 d1 d7 50 01 61 c1"))[:5])
        self.assertEqual(pair.server.stream(0).unread, 5)
        self.assertEqual((local_ids(False), local_ids(True)), ((2, 6, 10), (3, 7, 11)))

    def test_a_canceled_stream_says_so(self) -> None:
        pair = Pair()
        id = pair.client.open_request()
        pair.client.send_head(id, GET)
        pair.carry_all()
        pair.server.cancel(id)
        self.assertEqual(list(pair.server.items(id)), [Canceled()])
        pair.client.reset(id)
        self.assertTrue(pair.client.stream(id).is_reset)

    def test_priorities(self) -> None:
        """RFC 9218, section 4: urgency 3 and not incremental by default; RFC 8941, section 3.2: a dictionary has no empty member."""
        self.assertEqual(Priority.read(b"u=1, i"), Priority(1, True))
        self.assertEqual(Priority.read(b""), Priority(3, False))
        self.assertEqual(Priority.read(b"u=9"), Priority(3, False))
        self.assertIsNone(Priority.read(b"u=1,,i"))

    def test_the_server_counts_before_an_update_and_that_before_the_field(self) -> None:
        pair = Pair()
        id = pair.client.open_request()
        pair.client.send_head(id, GET)
        pair.carry_all()
        self.assertEqual(pair.server.priority(id), Priority(3, False))
        pair.server.set_initial_priority(id, Priority(5, False))
        self.assertEqual(pair.server.priority(id), Priority(5, False))
        pair.client.send_priority(id, Priority(1, True))
        self.assertEqual(pair.client.outgoing(2)[0], bytes.fromhex("800f0700 07 00") + b"u=1, i")  # RFC 9218, section 7.2
        pair.carry_all()
        pair.server.set_initial_priority(id, Priority(5, False))
        self.assertEqual(pair.server.priority(id), Priority(1, True))
        pair.server.set_priority(id, Priority(7, False))
        pair.client.send_priority(id, Priority(0, False))
        pair.carry_all()
        self.assertEqual(pair.server.priority(id), Priority(7, False))
        self.assertIsNone(pair.server.priority(4))
        with self.assertRaises(Refused) as refused:
            pair.server.send_priority(id, Priority(0, False))
        self.assertEqual(refused.exception.answer, Answer.NOT_CLIENT)

    def test_an_endpoint_is_freed_once(self) -> None:
        for ways in ("close", "with", "neither"):
            endpoint = Endpoint(Config.client())
            with mock.patch.object(endpoint, "_library", wraps=endpoint._library) as library:
                free = library.h3_raw_free
                if ways == "close":
                    endpoint.close()
                    endpoint.close()
                elif ways == "with":
                    with endpoint:
                        pass
                endpoint.__del__()
                self.assertEqual(free.call_count, 1, ways)

    def test_threads_take_turns(self) -> None:
        client, ids = Endpoint(Config.client()), []

        def work() -> None:
            for _ in range(200):
                id = client.open_request()
                client.send_head(id, GET)
                ids.append(id)

        threads = [threading.Thread(target=work) for _ in range(4)]
        for it in threads:
            it.start()
        for it in threads:
            it.join()
        self.assertEqual(sorted(ids), [4 * n for n in range(800)])

    def test_the_example_of_the_package(self) -> None:
        result = doctest.testmod(beanwhile_h3)
        self.assertEqual((result.failed, result.attempted > 4), (0, True))


if __name__ == "__main__":
    unittest.main()
