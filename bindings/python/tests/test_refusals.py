"""What is refused, and the faults of streams and of the connection."""

import unittest
from collections.abc import Callable
from typing import Any

from beanwhile_h3 import (
    Answer,
    Canceled,
    Code,
    Config,
    ConnectionFault,
    Endpoint,
    Fault,
    Field,
    Head,
    Malformation,
    Malformed,
    OutOfMemory,
    Pending,
    Refused,
    Reset,
    TooLargeHead,
)
from beanwhile_h3.bench import Pair, Side, frame
from beanwhile_h3.errors import refused

GET: list[Field] = [(b":method", b"GET"), (b":scheme", b"https"), (b":authority", b"localhost"), (b":path", b"/")]


def plain() -> Config:
    config = Config.client()
    config.strict = False
    return config


class Refusals(unittest.TestCase):
    def refused(self, answer: Answer, detail: int, call: Callable[..., object], *arguments: Any) -> Refused:
        with self.assertRaises(Refused) as caught:
            call(*arguments)
        self.assertEqual((caught.exception.answer, caught.exception.detail), (answer, detail))
        return caught.exception

    def test_calls_say_why_they_are_refused(self) -> None:
        client, server = Endpoint(Config.client()), Endpoint(Config.server())
        id = client.open_request()
        self.refused(Answer.OUT_OF_ORDER, 0, client.send_body, id, b"a")
        self.refused(Answer.FIELD_NAME, 0, client.send_head, id, [(b"Upper", b"a")])
        self.refused(Answer.FIELD_VALUE, 1, client.send_head, id, [(b":scheme", b"https"), (b":method", b"G T")])
        self.refused(Answer.WRONG_SIDE, 0, client.send_head, id, [(b":status", b"200")])
        self.refused(Answer.OUT_OF_ORDER, 0, client.send_trailer, id, [])
        self.refused(Answer.NOT_OPEN, 0, client.finish, id + 4)
        self.refused(Answer.CRITICAL, 0, client.reset, 2)
        self.refused(Answer.NOT_RECEIVING, 0, client.deliver, 2, b"")
        self.refused(Answer.NOT_CLIENT, 0, server.open_request)
        self.refused(Answer.NOT_REQUEST_ID, 0, server.goaway, 1)
        server.goaway(8)
        self.refused(Answer.RAISED, 8, server.goaway, 12)
        server.deliver_end(0)
        self.refused(Answer.AFTER_END, 0, server.deliver_reset, 0, 0x10C)
        server.close()
        self.refused(Answer.NO_ENDPOINT, 0, server.next_item, 0)
        self.refused(Answer.NO_ENDPOINT, 0, server.next_to_send)
        self.refused(Answer.NO_ENDPOINT, 0, server.outgoing, 0)

    def test_numbers_are_not_cut(self) -> None:
        client = Endpoint(Config.client())
        id = client.open_request()
        client.send_head(id, GET)
        for wrong in (1 << 62, 1 << 64, -1, (1 << 64) + id):
            calls: list[Any] = [client.next_item, client.finish, client.stream, client.outgoing, client.end_taken]
            for call in [*calls, client.deliver_end, client.cancel]:
                self.refused(Answer.ARGUMENT, 0, call, wrong)
            self.refused(Answer.ARGUMENT, 0, client.send_head, wrong, GET)
            self.refused(Answer.ARGUMENT, 0, client.send_body, wrong, b"")
            self.refused(Answer.ARGUMENT, 0, client.deliver, wrong, b"")
        waiting = client.stream(id).waiting
        for count in (waiting + 1, 1 << 64, -1):
            self.refused(Answer.ARGUMENT, 0, client.advance, id, count)
        self.refused(Answer.ARGUMENT, 0, client.outgoing, id, -1)
        self.assertEqual(client.stream(id).waiting, waiting)

    def test_bytes_are_bytes(self) -> None:
        client: Any = Endpoint(Config.client())
        id = client.open_request()
        for wrong in ("a", 5, None):
            with self.assertRaises(TypeError):
                client.send_head(id, [(b"name", wrong)])
            with self.assertRaises(TypeError):
                client.send_body(id, wrong)
            with self.assertRaises(TypeError):
                client.deliver(3, wrong)
        client.send_head(id, ((memoryview(name), bytearray(value)) for name, value in GET))

    def test_configurations(self) -> None:
        def made(**changes: int) -> Endpoint:
            config = Config.server()
            for name, value in changes.items():
                setattr(config, name, value)
            return Endpoint(config)

        self.refused(Answer.TABLE_LIMIT, 0, lambda: made(table=1 << 30))
        self.refused(Answer.BLOCKED_LIMIT, 0, lambda: made(blocked=65536))
        self.refused(Answer.SETTING, 6, lambda: made(max_field_section_size=1 << 62))
        self.refused(Answer.UNFINISHED_LIMIT, 0, lambda: made(unfinished_limit=4 * 65536 - 1))
        self.refused(Answer.ARGUMENT, 0, lambda: made(grease=(1 << 64) - 1))
        self.refused(Answer.ARGUMENT, 0, lambda: made(table=-1))
        made(unfinished_limit=4 * 65536)
        # h3.h, above h3_config_default
        config = Config.client()
        self.assertEqual((config.max_field_section_size, config.table, config.blocked, config.encoder_table), (65_536, 4_096, 16, 4_096))
        self.assertEqual((config.is_server, config.webtransport, Config.server().is_server), (False, False, True))
        self.assertIs(config.strict, True)

    def test_faults_of_a_stream_are_items(self) -> None:
        pair = Pair(plain())
        id = pair.client.open_request()
        pair.client.send_head(id, [*GET, (b"connection", b"close")])
        pair.carry_all()
        # a connection-specific field (RFC 9114, section 4.2), and a request that ends without a header section (4.1.1)
        malformed = Malformed(Malformation.CONNECTION_FIELD)
        self.assertEqual(pair.received[Side.SERVER, id], [malformed])
        self.assertEqual((malformed.is_last, malformed.closing_code(True)), (True, 0x10E))
        server = pair.server
        server.deliver_end(4)
        empty = Malformed(Malformation.NO_HEAD)
        self.assertEqual(server.next_item(4), empty)
        self.assertEqual((empty.closing_code(True), empty.closing_code(False)), (0x10D, 0x10E))
        server.deliver_reset(8, Code.REQUEST_CANCELLED)
        self.assertEqual([*server.items(8)], [Reset(0x10C)])
        server.deliver(12, b"")
        server.cancel(12)
        self.assertEqual(server.next_item(12), Canceled())
        # a HEADERS frame above the limit of 262,144 bytes, four times the largest field section
        server.deliver(20, frame(1, b"", 262_145))
        long = Malformed(Malformation.TOO_LONG)
        self.assertEqual((server.next_item(20), long.closing_code(True)), (long, 0x107))
        self.assertEqual((Reset(0).closing_code(True), Canceled().closing_code(False)), (0x10C, 0x10C))
        self.assertTrue(all(isinstance(it, Fault) for it in (malformed, empty, Reset(0), Canceled())))
        # the connection goes on: GET, https, the authority "a" and the path "/" (RFC 9204, appendix A and section 4.5.4)
        server.deliver(16, frame(1, bytes.fromhex("0000 d1 d7 50 01 61 c1")))
        self.assertEqual(server.next_item(16), Head([*GET[:2], (b":authority", b"a"), GET[3]]))
        self.assertEqual(server.next_item(16), Pending())

    def test_a_malformed_header_section_is_not_sent(self) -> None:
        client = Endpoint(Config.client())
        id = client.open_request()
        error = self.refused(Answer.MALFORMED, 9, client.send_head, id, [*GET, (b"connection", b"close")])
        self.assertIs(error.malformation, Malformation.CONNECTION_FIELD)
        self.assertEqual(client.stream(id).waiting, 0)
        self.assertIsNone(self.refused(Answer.NOT_OPEN, 0, client.finish, id + 4).malformation)

    def test_a_fault_of_the_connection_has_its_code(self) -> None:
        pair = Pair()
        pair.carry_all()
        # a second SETTINGS frame (RFC 9114, section 7.2.4): 0x105, H3_FRAME_UNEXPECTED
        for answer, call in (
            (Answer.CONNECTION, lambda: pair.server.deliver(2, frame(4, b""))),
            (Answer.CONNECTION, lambda: pair.server.next_item(0)),
            (Answer.CLOSED, lambda: pair.server.goaway(0)),
        ):
            error = self.refused(answer, 0x105, call)
            self.assertIsInstance(error, ConnectionFault)
            self.assertEqual(getattr(error, "code", None), 0x105)

    def test_a_header_section_that_is_too_large_is_skipped(self) -> None:
        config = Config.server()
        config.max_field_section_size = 100
        pair = Pair(None, config)
        id = pair.client.open_request()
        pair.client.send_head(id, GET)
        while steps := [it for it in pair.to_send() if it.sender is Side.CLIENT]:
            pair.carry(steps[0])
        # RFC 9114, section 4.2.2: names, values and 32 for each field
        size = sum(len(name) + len(value) + 32 for name, value in GET)
        self.assertEqual(pair.received[Side.SERVER, id], [TooLargeHead(size)])
        pair.carry_all()
        self.refused(Answer.TOO_LARGE, size, pair.client.send_head, pair.client.open_request(), GET)

    def test_texts(self) -> None:
        self.assertEqual(str(refused(7, 8)), "H3_GOING_AWAY: the peer processes no request from stream 8 on")
        self.assertEqual(str(refused(1, 0x105)), "H3_CLOSED: the connection is closed, 0x105")
        self.assertEqual(str(refused(27, 16)), "H3_MALFORMED: a strict peer would call the message malformed, H3_BAD_PATH")
        self.assertEqual(str(refused(99, 0)), "answer 99")
        self.assertIsInstance(refused(18), OutOfMemory)
        for answer in Answer:
            if answer not in (Answer.OK, Answer.KEPT, Answer.NONE, Answer.ROOM):  # which no call raises
                self.assertRegex(str(refused(answer, 3)), f"^{answer.text}: ..")


if __name__ == "__main__":
    unittest.main()
