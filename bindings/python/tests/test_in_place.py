"""Bodies that are copied nowhere: sent by their length, and read where they lie."""

import unittest

from beanwhile_h3 import (
    Answer,
    Body,
    BodyGiven,
    Config,
    ConnectionFault,
    End,
    Endpoint,
    Field,
    Head,
    Item,
    NoMessages,
    Pending,
    Refused,
    Trailer,
    Waiting,
)

POST: list[Field] = [(b":method", b"POST"), (b":scheme", b"https"), (b":authority", b"localhost"), (b":path", b"/")]
CHECK: list[Field] = [(b"x-count", b"1")]


def pair() -> tuple[Endpoint, Endpoint]:
    client, server = Endpoint(Config.client()), Endpoint(Config.server())
    for sender, receiver in ((server, client), (client, server)):
        while (id := sender.next_to_send()) is not None:
            data, _ = sender.outgoing(id)
            receiver.deliver(id, data)
            sender.advance(id, len(data))
    return client, server


def packets(client: Endpoint, id: int, held: bytes, size: int) -> list[tuple[bytes, bool]]:
    """All that waits on a stream, with the bytes of the body that the caller holds in their place, in packets."""
    found, at, is_end = [], 0, False
    while not is_end:
        data, past, is_last = client.outgoing_past(id, size)
        part = held[at : at + min(past, size - len(data))]
        is_end = is_last and len(part) == past
        at += len(part)
        client.advance(id, len(data) + len(part))
        found.append((data + part, is_end))
    assert at == len(held)
    return found


def read(server: Endpoint, id: int, data: bytes | bytearray | memoryview, is_end: bool) -> list[Item]:
    """All items of a packet, up to a pause or the end."""
    items: list[Item] = []
    at = 0
    while True:
        item, at = server.read(id, data, at, is_end)
        if not isinstance(item, Item):
            assert isinstance(item, Pending | Waiting | NoMessages) and at == len(data)
            return items
        items.append(item)
        if item.is_last:
            return items


class InPlace(unittest.TestCase):
    def request(self, size: int, held: bytes) -> tuple[Endpoint, list[tuple[bytes, bool]]]:
        client, server = pair()
        id = client.open_request()
        with self.assertRaises(Refused) as early:
            client.send_body_of(id, 3)
        self.assertEqual(early.exception.answer, Answer.OUT_OF_ORDER)
        client.send_head(id, POST)
        client.send_body_of(id, len(held))
        client.send_body(id, b"and more")
        client.send_trailer(id, CHECK)
        client.finish(id)
        with self.assertRaises(Refused) as follows:
            client.outgoing(id)
        self.assertEqual(follows.exception.answer, Answer.ARGUMENT)
        server.deliver(6, client.outgoing(6)[0])  # insertions first, so that no section waits for them
        return server, packets(client, id, held, size)

    def test_a_body_by_its_length_is_read_where_it_lies(self) -> None:
        held = bytes(range(250)) * 20
        for size in (2, 100, 1200, 100_000):
            server, sent = self.request(size, held)
            items: list[Item] = []
            for data, is_end in sent:
                items += read(server, 0, data, is_end)
            self.assertEqual([item.fields for item in items if isinstance(item, Head)], [POST])
            self.assertEqual([item.fields for item in items if isinstance(item, Trailer)], [CHECK])
            self.assertEqual(items[-1], End())
            pieces = [item for item in items if isinstance(item, BodyGiven)]
            self.assertEqual(b"".join(bytes(item.data) for item in items if isinstance(item, BodyGiven | Body)), held + b"and more")
            self.assertTrue(pieces)
            self.assertTrue(all(isinstance(piece.data.obj, bytes) for piece in pieces))

    def test_a_piece_is_a_view_of_what_was_given(self) -> None:
        head = b"\x01\x08\x00\x00\xd1\xd7\x50\x01a\xc1"  # GET, https, "a", "/" (RFC 9204, appendix A)
        for made in (bytes, bytearray, memoryview):
            server, data = Endpoint(Config.server()), bytearray(head + b"\x00\x05hello")
            given: bytes | bytearray | memoryview = data if made is bytearray else memoryview(data) if made is memoryview else bytes(data)
            _, at = server.read(0, given)
            self.assertEqual(at, len(head))
            item, at = server.read(0, given, at)
            assert isinstance(item, BodyGiven)
            self.assertEqual((bytes(item.data), at), (b"hello", len(data)))
            data[-5:] = b"HELLO"
            self.assertEqual(bytes(item.data), b"hello" if made is bytes else b"HELLO")
            item.data.release()

    def test_a_refused_read_says_why_and_where(self) -> None:
        server = Endpoint(Config.server())
        for start in (-1, 2):
            with self.assertRaises(Refused) as outside:
                server.read(0, b"a", start)
            self.assertEqual(outside.exception.answer, Answer.ARGUMENT)
        with self.assertRaises(Refused) as far:
            server.read(1 << 62, b"a")
        self.assertEqual((far.exception.answer, far.exception.start), (Answer.ARGUMENT, 0))
        self.assertEqual(server.read(2, b"\x00\x04\x00"), (NoMessages(), 3))  # a control stream (RFC 9114, section 6.2.1)
        with self.assertRaises(ConnectionFault) as fault:
            server.read(0, b"\x00\x03abc")  # DATA before a header section (RFC 9114, section 4.1)
        self.assertEqual(fault.exception.code, 0x105)


if __name__ == "__main__":
    unittest.main()
