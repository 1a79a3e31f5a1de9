"""Sessions of WebTransport (draft-ietf-webtrans-http3-02). Bytes that are expected come from the draft."""

import dataclasses
import unittest

from beanwhile_h3 import Answer, End, Endpoint, Field, Head, Pending, Raw, Refused, Session, webtransport_code, webtransport_number
from beanwhile_h3 import Config

CONNECT: list[Field] = [
    (b":method", b"CONNECT"),
    (b":scheme", b"https"),
    (b":authority", b"localhost"),
    (b":path", b"/"),
    (b":protocol", b"webtransport"),
]


def carry(source: Endpoint, to: Endpoint) -> None:
    while (id := source.next_to_send()) is not None:
        data, is_last = source.outgoing(id)
        to.deliver(id, data)
        source.advance(id, len(data))
        if is_last:
            to.deliver_end(id)
            source.end_taken(id)


def pair(sessions: bool) -> tuple[Endpoint, Endpoint]:
    with_sessions = {"webtransport": True, "extended_connect": True, "datagram": True, "sessions": sessions}
    client = Endpoint(dataclasses.replace(Config.client(), **with_sessions))
    server = Endpoint(dataclasses.replace(Config.server(), max_webtransport_sessions=1, **with_sessions))
    carry(client, server)
    carry(server, client)
    return client, server


def begin(client: Endpoint, server: Endpoint) -> int:
    id = client.open_request()
    client.send_head(id, CONNECT)
    carry(client, server)
    assert isinstance(server.next_item(id), Head)
    server.send_head(id, [(b":status", b"200")])
    carry(server, client)
    assert isinstance(client.next_item(id), Head)
    return id


class Sessions(unittest.TestCase):
    def refused(self, at: Endpoint, session: int) -> Answer:
        with self.assertRaises(Refused) as caught:
            at.open_session_stream(session)
        return caught.exception.answer

    def test_streams_go_both_ways(self) -> None:
        client, server = pair(True)
        session = begin(client, server)
        for side, peer, id in ((server, client, 1), (client, server, 4)):
            self.assertEqual(side.open_session_stream(session), id)
            self.assertEqual(side.outgoing(id)[0], b"\x40\x41\x00")
            side.send_raw(id, b"one")
            side.finish(id)
            carry(side, peer)
            self.assertEqual([peer.next_item(id) for _ in range(3)], [Session(session), Raw(b"one"), End()])
            peer.send_raw(id, b"two")
            carry(peer, side)
            self.assertEqual([side.next_item(id) for _ in range(2)], [Raw(b"two"), Pending()])

    def test_streams_go_one_way_and_end_with_their_session(self) -> None:
        client, server = pair(True)
        session = begin(client, server)
        self.assertEqual([client.open_session_stream(session, False) for _ in range(2)], [14, 18])
        self.assertEqual(server.open_session_stream(session, False), 15)
        self.assertEqual(server.outgoing(15)[0], b"\x40\x54\x00")
        self.assertEqual([client.next_of_session(session, start) for start in (0, 15, 19)], [14, 18, None])
        closed = client.close_stream(14)
        self.assertEqual((closed.stop_sending, closed.reset_stream), (False, True))
        self.assertEqual(client.next_of_session(session), 18)

    def test_without_the_choice_there_are_none(self) -> None:
        client, server = pair(False)
        session = begin(client, server)
        self.assertEqual([self.refused(it, session) for it in (client, server)], [Answer.NO_SESSIONS] * 2)
        client, server = pair(True)
        self.assertEqual([self.refused(client, it) for it in (4, 1, 1 << 62)], [Answer.NOT_OPEN, Answer.NOT_REQUEST_ID, Answer.ARGUMENT])
        with self.assertRaises(Refused) as caught:
            Endpoint(dataclasses.replace(Config.client(), sessions=True))
        self.assertEqual((caught.exception.answer, caught.exception.detail), (Answer.SETTING, 0x2B603742))

    def test_codes_read_back(self) -> None:
        self.assertEqual([webtransport_code(it) for it in (0, 29, 30)], [0x52E4A40FA8DB, 0x52E4A40FA8F8, 0x52E4A40FA8FA])
        self.assertEqual([webtransport_number(it) for it in (0x52E4A40FA8FA, 0x52E4A40FA8F9, 0x10C)], [30, None, None])
        with self.assertRaises(Refused):
            webtransport_code(1 << 32)


if __name__ == "__main__":
    unittest.main()
