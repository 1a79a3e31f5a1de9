"""What comes on a stream: items, faults of the stream among them, and pauses."""

import enum
from dataclasses import dataclass
from typing import ClassVar

from .errors import Code, Malformation

Field = tuple[bytes, bytes]
"""A name and a value. It is a `NeverIndexed` where it came as one."""


class NeverIndexed(tuple[bytes, bytes]):
    """A name and a value that are a literal on every hop, and in no table of QPACK (RFC 9204, section 7.1.3): so secrets are sent. A field
    that came so is one too, and goes on so if it is sent on.

    It is a pair in all else, and equal to the pair of its name and value."""

    __slots__ = ()

    def __new__(cls, name: bytes, value: bytes) -> "NeverIndexed":
        return super().__new__(cls, (name, value))

    def __getnewargs__(self) -> tuple[bytes, bytes]:
        return (self[0], self[1])

    def __repr__(self) -> str:
        return f"NeverIndexed({self[0]!r}, {self[1]!r})"


class Kind(enum.IntEnum):
    """`h3_kind`: what a read or a pull returns."""

    INTERIM = 1
    HEAD = 2
    BODY = 3
    TRAILER = 4
    TOO_LARGE_HEAD = 5
    SESSION = 6
    RAW = 7
    END = 8
    PENDING = 9
    WAITING = 10
    NO_MESSAGES = 11
    FAULT_CONNECTION = 12
    FAULT_MALFORMED = 13
    FAULT_RESET = 14
    FAULT_CANCELED = 15
    FAULT_MEMORY = 16
    BODY_GIVEN = 17


@dataclass(frozen=True, slots=True)
class Item:
    """What comes on a stream. `is_last`: it is the end or a fault, and a further `next_item` returns the same."""

    is_last: ClassVar[bool] = False


@dataclass(frozen=True, slots=True)
class Head(Item):
    """A header section: its fields as they came, and of a response its status."""

    fields: list[Field]
    status: int | None = None


@dataclass(frozen=True, slots=True)
class Interim(Item):
    """The header section of an interim response (status 100 to 199), after which another one comes."""

    fields: list[Field]
    status: int


@dataclass(frozen=True, slots=True)
class Body(Item):
    """A piece of the body."""

    data: bytes


@dataclass(frozen=True, slots=True)
class BodyGiven(Item):
    """A piece of the body that lies in the bytes that were given to `read`: a view of them, no copy."""

    data: memoryview


@dataclass(frozen=True, slots=True)
class Trailer(Item):
    """A trailer section."""

    fields: list[Field]


@dataclass(frozen=True, slots=True)
class TooLargeHead(Item):
    """In place of a header or trailer section above the local limit: its size."""

    size: int


@dataclass(frozen=True, slots=True)
class Session(Item):
    """A WebTransport session begins, by its id."""

    id: int


@dataclass(frozen=True, slots=True)
class Raw(Item):
    """Bytes of a session, or of a `StreamType.OTHER`."""

    data: bytes


@dataclass(frozen=True, slots=True)
class End(Item):
    """The stream has ended, and all of it was returned."""

    is_last: ClassVar[bool] = True


@dataclass(frozen=True, slots=True)
class Fault(Item):
    """Nothing more comes on this stream. The connection goes on."""

    is_last: ClassVar[bool] = True

    def closing_code(self, is_server: bool) -> int:
        """The code that a server or a client ends the stream with (RFC 9114, sections 4.1.1 and 4.1.2)."""
        return Code.REQUEST_CANCELLED


@dataclass(frozen=True, slots=True)
class Malformed(Fault):
    """The message is malformed."""

    malformation: Malformation

    def closing_code(self, is_server: bool) -> int:
        """The code that a server or a client ends the stream with (RFC 9114, sections 4.1.1 and 4.1.2)."""
        if self.malformation == Malformation.TOO_LONG:
            return Code.EXCESSIVE_LOAD
        return Code.REQUEST_INCOMPLETE if self.malformation == Malformation.NO_HEAD and is_server else Code.MESSAGE_ERROR


@dataclass(frozen=True, slots=True)
class Reset(Fault):
    """The peer reset its half with this code. The local half goes on, or ends by `reset`."""

    code: int


@dataclass(frozen=True, slots=True)
class Canceled(Fault):
    """The stream was ended by `cancel`."""


@dataclass(frozen=True, slots=True)
class Pause:
    """Why there is no item yet, with nothing wrong."""


@dataclass(frozen=True, slots=True)
class Pending(Pause):
    """The next item has not come yet."""


@dataclass(frozen=True, slots=True)
class Waiting(Pause):
    """The next header or trailer section needs so many insertions in all from the peer's encoder stream. Ask for the next item again
    after data on that stream."""

    insertions: int


@dataclass(frozen=True, slots=True)
class NoMessages(Pause):
    """The stream has no messages for this side."""
