"""HTTP Datagrams and capsules (RFC 9297)."""

import ctypes
from collections.abc import Iterator
from ctypes import byref, c_char_p, c_size_t, c_uint32, c_uint64, c_void_p
from dataclasses import dataclass

from . import raw
from .errors import Answer, refused

_PENDING, _HEAD, _VALUE = 0, 1, 2  # `h3_capsule_part`
_HEAD_ROOM = 16


@dataclass(frozen=True, slots=True)
class DatagramFor:
    """A datagram for the request on a stream."""

    id: int
    payload: bytes


@dataclass(frozen=True, slots=True)
class DatagramEarly:
    """A datagram for a stream that is not there yet, or that came before the peer's settings: drop it, or keep it for about a round trip
    and read it again."""

    id: int


@dataclass(frozen=True, slots=True)
class DatagramLate:
    """A datagram for a stream on which nothing more is received: it is dropped."""


@dataclass(frozen=True, slots=True)
class DatagramOff:
    """One of the sides announced no datagrams: it is dropped."""


Datagram = DatagramFor | DatagramEarly | DatagramLate | DatagramOff
"""What came as the payload of a QUIC DATAGRAM frame."""


@dataclass(frozen=True, slots=True)
class CapsuleHead:
    """A capsule begins."""

    capsule_type: int
    length: int
    """How many bytes its value has."""


@dataclass(frozen=True, slots=True)
class CapsuleValue:
    """The next bytes of the value."""

    data: bytes


@dataclass(frozen=True, slots=True)
class CapsuleEnd:
    """The capsule is whole."""


Capsule = CapsuleHead | CapsuleValue | CapsuleEnd
"""What a reader tells of bytes of capsules."""


class CapsuleReader:
    """Reads the capsules of one stream, whose bytes come in any pieces. It keeps the bytes of a type and length that are not whole, and no
    other. Skip the values of types that you do not know (RFC 9297, section 3.2)."""

    def __init__(self) -> None:
        self._state = raw.RawReader()
        self._library = raw.library()

    def read(self, data: bytes) -> Iterator[Capsule]:
        """What the next bytes of the stream tell. All are taken once the iterator ends."""
        start = ctypes.cast(c_char_p(data), c_void_p).value or 0
        at, used, told = 0, c_size_t(), raw.RawCapsule()
        while True:
            rest = ctypes.cast(c_void_p(start + at), c_char_p)
            self._library.h3_raw_read_capsule(byref(self._state), rest, len(data) - at, byref(used), byref(told))
            at += used.value
            if told.part == _PENDING:
                return
            if told.part == _HEAD:
                yield CapsuleHead(told.capsule_type, told.length)
            elif told.part == _VALUE:
                yield CapsuleValue(data[at - used.value : at])
            else:
                yield CapsuleEnd()

    @property
    def may_end(self) -> bool:
        """The stream may end here. If not, a capsule is not whole, and the message is malformed (`Code.MESSAGE_ERROR`)."""
        ends = c_uint32()
        self._library.h3_raw_capsule_ends(byref(self._state), byref(ends))
        return ends.value == 1


def capsule(capsule_type: int, value: bytes) -> bytes:
    """A whole capsule, to be sent as a body or as a part of one. Raises `Answer.ARGUMENT`: the type is 2^62 or more."""
    return capsule_head(capsule_type, len(value)) + value


def capsule_head(capsule_type: int, length: int) -> bytes:
    """What stands in front of the value of a capsule. Raises `Answer.ARGUMENT`: the type or length is 2^62 or more."""
    if capsule_type >> 62 or length >> 62:
        raise refused(Answer.ARGUMENT)
    buffer, count = ctypes.create_string_buffer(_HEAD_ROOM), c_size_t()
    answer = raw.library().h3_raw_capsule_head(c_uint64(capsule_type), c_uint64(length), buffer, _HEAD_ROOM, byref(count))
    if answer:
        raise refused(answer)
    return buffer.raw[: count.value]
