"""HTTP Datagrams and capsules (RFC 9297). Bytes that are expected come from the RFC."""

import dataclasses
import unittest

from beanwhile_h3 import (
    Answer,
    Capsule,
    CapsuleEnd,
    CapsuleHead,
    CapsuleReader,
    CapsuleValue,
    Code,
    Config,
    ConnectionFault,
    DatagramEarly,
    DatagramFor,
    DatagramLate,
    DatagramOff,
    Endpoint,
    Field,
    Refused,
    capsule,
    capsule_head,
)

GET: list[Field] = [(b":method", b"GET"), (b":scheme", b"https"), (b":authority", b"localhost"), (b":path", b"/")]


def carry(source: Endpoint, to: Endpoint) -> None:
    while (id := source.next_to_send()) is not None:
        data, is_last = source.outgoing(id)
        to.deliver(id, data)
        source.advance(id, len(data))
        if is_last:
            to.deliver_end(id)
            source.end_taken(id)


def pair(datagram: bool) -> tuple[Endpoint, Endpoint]:
    client = Endpoint(dataclasses.replace(Config.client(), datagram=datagram))
    server = Endpoint(dataclasses.replace(Config.server(), datagram=True))
    carry(client, server)
    carry(server, client)
    return client, server


def ask(client: Endpoint, server: Endpoint) -> int:
    id = client.open_request()
    client.send_head(id, GET)
    carry(client, server)
    return id


class Datagrams(unittest.TestCase):
    def refused(self, at: Endpoint, id: int) -> Answer:
        with self.assertRaises(Refused) as caught:
            at.datagram(id, b"")
        return caught.exception.answer

    def test_a_datagram_is_for_its_request(self) -> None:
        client, server = pair(True)
        while ask(client, server) < 256:
            pass
        for id, head in ((0, b"\x00"), (252, b"\x3f"), (256, b"\x40\x40")):
            self.assertEqual(client.datagram(id, b"hi"), head + b"hi")
            self.assertEqual(server.read_datagram(head + b"hi"), DatagramFor(id, b"hi"))
        self.assertEqual(server.read_datagram(memoryview(b"\x40\x00")), DatagramFor(0, b""))

    def test_what_is_for_no_open_request_says_so(self) -> None:
        client, server = pair(True)
        id = ask(client, server)
        self.assertEqual(server.read_datagram(b"\x01"), DatagramEarly(4))
        self.assertEqual([self.refused(client, it) for it in (4, 2, 1 << 62)], [Answer.NOT_OPEN, Answer.NOT_REQUEST_ID, Answer.ARGUMENT])
        client.finish(id)
        self.assertEqual(self.refused(client, id), Answer.ENDED)
        carry(client, server)
        self.assertEqual(server.read_datagram(b"\x00"), DatagramLate())
        for data in (b"\x40", b"\x00"):
            with self.assertRaises(ConnectionFault) as caught:
                server.read_datagram(data)
            self.assertEqual(caught.exception.code, Code.DATAGRAM_ERROR)
        client, server = pair(False)
        id = ask(client, server)
        self.assertEqual(server.read_datagram(b""), DatagramOff())
        self.assertEqual(self.refused(server, id), Answer.NO_DATAGRAMS)


class Capsules(unittest.TestCase):
    def test_capsules_are_read_in_any_cut(self) -> None:
        whole = capsule(0x2843, b"\0\0\0\x07by") + capsule(0x17, b"")
        self.assertEqual(whole, b"\x68\x43\x06\0\0\0\x07by\x17\x00")
        for cut in range(len(whole) + 1):
            reader, told, value = CapsuleReader(), list[Capsule](), b""
            for piece in (whole[:cut], whole[cut:]):
                for part in reader.read(piece):
                    if isinstance(part, CapsuleValue):
                        value += part.data
                    else:
                        told.append(part)
            self.assertEqual(told, [CapsuleHead(0x2843, 6), CapsuleEnd(), CapsuleHead(0x17, 0), CapsuleEnd()])
            self.assertEqual(value, b"\0\0\0\x07by")
            self.assertTrue(reader.may_end)

    def test_a_capsule_that_is_cut_off_is_seen(self) -> None:
        reader = CapsuleReader()
        self.assertEqual(list(reader.read(b"\x00\x05h")), [CapsuleHead(0, 5), CapsuleValue(b"h")])
        self.assertFalse(reader.may_end)
        for given in ((1 << 62, 0), (0, 1 << 62), (-1, 0)):
            with self.assertRaises(Refused) as caught:
                capsule_head(*given)
            self.assertEqual(caught.exception.answer, Answer.ARGUMENT)
