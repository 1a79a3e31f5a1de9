"""A test bench: two endpoints in memory, with what goes between them cut and ordered at will.

A `Pair` has a client and a server. `to_send` says what waits, a `Step` carries so many bytes of one stream, `run` takes random steps by a
seed, and `replay` takes the same steps again. `tamper` changes what arrives. What each side received is in `received`; `joined` compares it
whatever the cuts were. For bytes that no endpoint sends there are `varint`, `frame` and `spoiled`."""

import enum
import random
from collections.abc import Callable, Iterable
from dataclasses import dataclass

from .config import Config
from .endpoint import Endpoint
from .items import Body, Item, Raw, Waiting


class Side(enum.Enum):
    """An endpoint of a pair."""

    CLIENT = "client"
    SERVER = "server"

    @property
    def peer(self) -> "Side":
        """The other one."""
        return Side.SERVER if self is Side.CLIENT else Side.CLIENT


@dataclass(frozen=True, slots=True)
class Step:
    """So many bytes of a stream go from one side to the other, and with `is_last` the stream's end after them. A list of steps is a
    schedule."""

    sender: Side
    id: int
    count: int
    is_last: bool


class Pair:
    """A client and a server in memory, in place of QUIC.

    `on_item(side, id, item)` is called with each item that a side receives, and may send. `tamper(step, data)` returns what arrives in
    place of the bytes that were sent."""

    def __init__(
        self,
        client: Config | None = None,
        server: Config | None = None,
        *,
        on_item: Callable[[Side, int, Item], None] | None = None,
        tamper: Callable[[Step, bytes], bytes] | None = None,
    ) -> None:
        self.client = Endpoint(client or Config.client())
        self.server = Endpoint(server or Config.server())
        self.on_item = on_item
        self.tamper = tamper
        self.received: dict[tuple[Side, int], list[Item]] = {}
        """The items of each stream that each side received."""
        self.steps: list[Step] = []
        """What was carried."""
        self._blocked: dict[Side, set[int]] = {Side.CLIENT: set(), Side.SERVER: set()}

    def endpoint(self, side: Side) -> Endpoint:
        """The endpoint of a side."""
        return self.client if side is Side.CLIENT else self.server

    def to_send(self) -> list[Step]:
        """What waits on each stream of both sides, as the step that carries all of it."""
        found = []
        for side in Side:
            endpoint, id = self.endpoint(side), self.endpoint(side).next_to_send()
            while id is not None:
                state = endpoint.stream(id)
                found.append(Step(side, id, state.waiting, state.is_finished and not state.is_reset))
                id = endpoint.next_to_send(id + 1)
        return found

    def carry(self, step: Step) -> None:
        """Carries a step, and reads the items that come of it.

        Raises ValueError: this does not wait there. Raises what `Endpoint.deliver` and `Endpoint.next_item` raise of the receiver: a
        `ConnectionFault` ends the pair."""
        sender, receiver = self.endpoint(step.sender), self.endpoint(step.sender.peer)
        data, is_last = sender.outgoing(step.id, step.count)
        if len(data) != step.count or (step.is_last and not is_last):
            raise ValueError(f"{len(data)} bytes{' and the end' * is_last} wait in place of {step}")
        self.steps.append(step)
        sender.advance(step.id, step.count)
        if step.is_last:
            sender.end_taken(step.id)
        receiver.deliver(step.id, self.tamper(step, data) if self.tamper else data)
        if step.is_last:
            receiver.deliver_end(step.id)
        self._read(step.sender.peer, step.id)

    def _read(self, side: Side, id: int) -> None:
        """Reads the stream, and after data on a unidirectional stream those that waited for insertions."""
        blocked = self._blocked[side]
        for stream in [id, *(sorted(blocked) if id & 2 else ())]:
            blocked.discard(stream)
            found = self.received.get((side, stream))
            if found and found[-1].is_last:
                continue  # what comes after a fault is dropped
            while isinstance(item := self.endpoint(side).next_item(stream), Item):
                self.received.setdefault((side, stream), []).append(item)
                if self.on_item:
                    self.on_item(side, stream, item)
                if item.is_last:
                    break
            if isinstance(item, Waiting):
                blocked.add(stream)

    def carry_all(self) -> None:
        """Carries what waits, a whole stream at a time, until nothing waits."""
        while steps := self.to_send():
            self.carry(steps[0])

    def run(self, seed: int) -> list[Step]:
        """Carries what waits in random cuts, from random streams of both sides, until nothing waits. Returns the steps. The same seed gives
        the same steps."""
        chance, before = random.Random(seed), len(self.steps)
        while steps := self.to_send():
            step = chance.choice(steps)
            count = chance.choice((min(step.count, 1), chance.randint(min(step.count, 1), step.count), step.count))
            is_last = step.is_last and count == step.count and (count == 0 or chance.random() < 0.5)
            self.carry(Step(step.sender, step.id, count, is_last))
        return self.steps[before:]

    def reset(self, side: Side, id: int, code: int) -> None:
        """A side resets its half of a stream, and RESET_STREAM reaches its peer at once: what waited is lost. It is no step.

        Raises what `Endpoint.reset` and `Endpoint.deliver_reset` raise."""
        self.endpoint(side).reset(id)
        self.endpoint(side.peer).deliver_reset(id, code)
        self._read(side.peer, id)

    def replay(self, steps: Iterable[Step]) -> None:
        """Carries these steps in turn. Raises what `carry` raises."""
        for step in steps:
            self.carry(step)

    def close(self) -> None:
        """Frees both endpoints."""
        self.client.close()
        self.server.close()


def joined(items: Iterable[Item]) -> list[Item]:
    """The items, with pieces of a body, or of a session, that follow each other put together: the same however they were cut."""
    found: list[Item] = []
    for item in items:
        last = found[-1] if found else None
        if isinstance(item, Body) and isinstance(last, Body):
            found[-1] = Body(last.data + item.data)
        elif isinstance(item, Raw) and isinstance(last, Raw):
            found[-1] = Raw(last.data + item.data)
        else:
            found.append(item)
    return found


def varint(value: int, size: int | None = None) -> bytes:
    """A variable-length integer (RFC 9000, section 16), in the fewest bytes or in `size` bytes: 1, 2, 4 or 8."""
    sizes = {1: 0, 2: 1, 4: 2, 8: 3}
    for length, prefix in sizes.items():
        if size in (None, length) and 0 <= value < 1 << (8 * length - 2):
            return (prefix << (8 * length - 2) | value).to_bytes(length, "big")
    raise ValueError(f"{value} is no variable-length integer of {size or 'at most 8'} bytes")


def frame(kind: int, payload: bytes, length: int | None = None) -> bytes:
    """A frame (RFC 9114, section 7.1) that says that its payload has `length` bytes, as many as it has or not."""
    return varint(kind) + varint(len(payload) if length is None else length) + payload


def spoiled(chance: random.Random, data: bytes) -> bytes:
    """The bytes with one random fault: a bit flipped, a byte replaced, inserted or removed, the rest removed, or a part repeated."""
    if not data:
        return chance.randbytes(1)
    at, end = chance.randrange(len(data)), chance.randrange(len(data)) + 1
    flipped = bytes([data[at] ^ 1 << chance.randrange(8)])
    ways = (
        data[:at] + flipped + data[at + 1 :],
        data[:at] + chance.randbytes(1) + data[at + 1 :],
        data[:at] + chance.randbytes(1) + data[at:],
        data[:at] + data[at + 1 :],
        data[:at],
        data[:end] + data[min(at, end) :],
    )
    return chance.choice(ways)
