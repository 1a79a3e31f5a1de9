"""The test bench: schedules that are random by a seed and can be taken again, and hostile bytes."""

import os
import random
import re
import unittest

from beanwhile_h3 import Body, Canceled, Config, ConnectionFault, End, Endpoint, Field, Head, Interim, Item, Refused, Reset
from beanwhile_h3.bench import Pair, Side, Step, frame, joined, spoiled, varint

GET: list[Field] = [(b":method", b"GET"), (b":scheme", b"https"), (b":authority", b"localhost"), (b":path", b"/")]
# RFC 9114, section 8.1, and RFC 9204, section 6
CODES = {*range(0x100, 0x111), 0x200, 0x201, 0x202}


def exchange(pair: Pair, requests: int = 5) -> None:
    """Requests of a client, which the server answers as they come."""

    def answer(side: Side, id: int, item: Item) -> None:
        if side is Side.SERVER and isinstance(item, Head):
            pair.server.send_head(id, [(b":status", b"200"), (b"x-id", b"%d" % id), (b"x-same", b"of all")])
        elif side is Side.SERVER and isinstance(item, Body):
            pair.server.send_body(id, item.data)
        elif side is Side.SERVER and isinstance(item, End):
            pair.server.finish(id)

    pair.on_item = answer
    for _ in range(requests):
        id = pair.client.open_request()
        pair.client.send_head(id, [*GET, (b"x-id", b"%d" % id), (b"x-same", b"of all")])
        pair.client.send_body(id, b"body of %d" % id * 50)
        pair.client.finish(id)


class Schedules(unittest.TestCase):
    def test_each_seed_gives_the_same_messages(self) -> None:
        schedules, waited = set(), 0
        for seed in range(60):
            pair = Pair()
            pair.carry_all()  # the settings, so that dynamic tables are used
            exchange(pair)
            schedules.add(tuple(pair.run(seed)))
            waited += any(pair.server.stream(id).tries == 2 for id in range(0, 20, 4))
            for id in range(0, 20, 4):
                body, more = Body(b"body of %d" % id * 50), [(b"x-id", b"%d" % id), (b"x-same", b"of all")]
                self.assertEqual(joined(pair.received[Side.SERVER, id]), [Head([*GET, *more]), body, End()])
                self.assertEqual(joined(pair.received[Side.CLIENT, id]), [Head([(b":status", b"200"), *more], 200), body, End()])
            self.assertEqual(pair.to_send(), [])
        self.assertEqual(len(schedules), 60)
        self.assertGreater(waited, 0)  # in some of them a header section came before its insertions

    def test_a_schedule_can_be_taken_again(self) -> None:
        first, again, by_seed = Pair(), Pair(), Pair()
        for pair in (first, again, by_seed):
            exchange(pair)
        steps = first.run(7)
        again.replay(steps)
        self.assertEqual((again.received, again.steps), (first.received, steps))
        self.assertEqual(by_seed.run(7), steps)
        self.assertNotEqual([*first.received.values()], [joined(it) for it in first.received.values()])  # some bodies were cut

    def test_a_step_that_does_not_fit_is_an_error(self) -> None:
        pair = Pair()
        id = pair.client.open_request()
        pair.client.send_head(id, GET)
        waiting = pair.client.stream(id).waiting
        for wrong in (Step(Side.CLIENT, id, waiting + 1, False), Step(Side.CLIENT, id, waiting, True), Step(Side.SERVER, id, 1, False)):
            with self.assertRaises(ValueError):
                pair.carry(wrong)
        self.assertEqual((pair.steps, pair.client.stream(id).waiting), ([], waiting))
        pair.carry(Step(Side.CLIENT, id, waiting - 1, False))
        self.assertEqual(pair.received, {})
        pair.carry(Step(Side.CLIENT, id, 1, False))
        self.assertEqual(pair.received, {(Side.SERVER, id): [Head(GET)]})

    def test_a_stream_that_is_canceled_or_reset_ends_once(self) -> None:
        for seed in range(20):
            pair = Pair()
            exchange(pair, 2)
            answer = pair.on_item

            def give_up(side: Side, id: int, item: Item) -> None:
                if (side, id, type(item)) == (Side.SERVER, 0, Head):
                    pair.server.cancel(0)
                    pair.reset(Side.SERVER, 0, 0x10B)
                elif answer and (side, id) != (Side.SERVER, 0):
                    answer(side, id, item)

            pair.on_item = give_up
            pair.run(seed)
            self.assertEqual([type(it) for it in pair.received[Side.SERVER, 0]], [Head, Canceled])
            self.assertEqual(pair.received[Side.CLIENT, 0], [Reset(0x10B)])
            self.assertEqual(pair.received[Side.CLIENT, 4][-1], End())

    def test_the_example_of_the_page(self) -> None:
        with open(os.path.join(os.path.dirname(__file__), "..", "README.md"), encoding="utf-8") as file:
            code = re.findall(r"^```python\n(.*?)^```", file.read(), re.M | re.S)
        self.assertEqual(len(code), 1)
        exec(code[0], {})

    def test_joined(self) -> None:
        items: list[Item] = [Interim([], 103), Body(b"a"), Body(b""), Body(b"b"), End()]
        self.assertEqual(joined(items), [Interim([], 103), Body(b"ab"), End()])


class Hostile(unittest.TestCase):
    def test_integers_and_frames_of_the_rfc(self) -> None:
        """RFC 9000, appendix A.1; RFC 9114, section 7.1"""
        for value, data in (
            (151_288_809_941_952_652, "c2197c5eff14e88c"),
            (494_878_333, "9d7f3e7d"),
            (15_293, "7bbd"),
            (37, "25"),
        ):
            self.assertEqual(varint(value).hex(), data)
        self.assertEqual(varint(37, 2).hex(), "4025")
        for value, size in ((1 << 62, None), (-1, None), (64, 1), (1, 3)):
            with self.assertRaises(ValueError):
                varint(value, size)
        self.assertEqual((frame(1, b"abc"), frame(0x21, b"", 64)), (b"\x01\x03abc", b"\x21\x40\x40"))

    def test_what_is_spoiled_differs(self) -> None:
        chance = random.Random(1)
        found = {spoiled(chance, b"some bytes") for _ in range(200)}
        self.assertGreater(len(found - {b"some bytes"}), 50)
        self.assertEqual({len(it) for it in found} & {9, 10, 11}, {9, 10, 11})
        self.assertNotEqual(spoiled(chance, b""), b"")

    def test_spoiled_bytes_end_in_faults_that_have_codes(self) -> None:
        faults = 0
        for seed in range(300):
            chance = random.Random(seed)
            pair = Pair(tamper=lambda step, data: spoiled(chance, data) if chance.random() < 0.2 else data)
            exchange(pair)
            try:
                pair.run(seed)
            except ConnectionFault as fault:
                faults += 1
                self.assertIn(fault.code, CODES)
                broken = pair.endpoint(pair.steps[-1].sender.peer)
                with self.assertRaises(ConnectionFault) as again:
                    broken.goaway(0)
                self.assertEqual(again.exception.code, fault.code)
            except Refused:  # the server answers a request that the fault has changed
                pass
            for items in pair.received.values():
                self.assertFalse(any(it.is_last for it in items[:-1]))
        self.assertGreater(faults, 100)

    def test_random_bytes_on_each_stream(self) -> None:
        chance = random.Random(5)
        for _ in range(300):
            endpoint = Endpoint(chance.choice((Config.client, Config.server))())
            ids = [endpoint.open_request()] if not endpoint.is_server else [0]
            ids += [it ^ (not endpoint.is_server) for it in (2, 6, 10, 14)]
            try:
                for _ in range(20):
                    id = chance.choice(ids)
                    endpoint.deliver(id, frame(chance.randrange(16), chance.randbytes(chance.randrange(20)), chance.randrange(20)))
                    for item in endpoint.items(id):
                        self.assertIsInstance(item, Item)
            except ConnectionFault as fault:
                self.assertIn(fault.code, CODES)


if __name__ == "__main__":
    unittest.main()
