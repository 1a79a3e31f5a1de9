"""What can be read of a stream, of the connection, of the library and of a `priority` field."""

import ctypes
import enum
from dataclasses import dataclass
from typing import Self

from . import raw


@dataclass(frozen=True, slots=True)
class StreamState:
    """`h3_stream_state`"""

    waiting: int
    """Bytes that wait to be sent."""
    unread: int
    """Bytes that were delivered and are still held: grant credit for the others."""
    has_outgoing: bool
    """Something can be sent: a local unidirectional stream, or a request stream that was opened."""
    is_finished: bool
    """The local message was finished."""
    is_reset: bool
    """Sending was reset."""
    tries: int
    """How often the field section that is next was tried, else the last one."""


@dataclass(frozen=True, slots=True)
class ClosedStream:
    """What QUIC is to send for a stream that was closed."""

    stop_sending: bool
    reset_stream: bool


class StreamType(enum.IntEnum):
    """`h3_stream_type`: the type of a unidirectional stream (RFC 9114, section 6.2)."""

    UNTOLD = 0
    """Too few bytes came."""
    CONTROL = 1
    ENCODER = 2
    DECODER = 3
    PUSH = 4
    SESSION = 5
    """Of a WebTransport session."""
    UNKNOWN = 6
    """What comes on it is dropped: QUIC may send STOP_SENDING with `Code.STREAM_CREATION_ERROR`."""
    OTHER = 7
    """Of another type, and delivered: with `other_streams` of the configuration. `other_type` returns its type."""


@dataclass(frozen=True, slots=True)
class PeerLimits:
    """What the peer's settings allow."""

    table: int
    """The capacity of its dynamic table in bytes."""
    blocked: int
    """How many of its streams may wait."""
    section: int
    """The greatest size of a field section."""


@dataclass(frozen=True, slots=True)
class ConnectionState:
    """`h3_state`"""

    sending_table: int
    """The size of the dynamic table that this side writes, in bytes."""
    receiving_table: int
    """The size of the one that the peer writes."""
    waiting_heads: int
    """How many streams wait for insertions."""
    sent: int
    """Bytes of names, values and bodies that were sent, and 64 for each field and each call."""
    goaway: int | None
    """The id of the peer's last GOAWAY."""
    peer: PeerLimits | None
    """Once its settings came."""


@dataclass(frozen=True, slots=True)
class SettingsCame:
    """The peer's settings came: `connection` and `peer_setting` show them."""


@dataclass(frozen=True, slots=True)
class GoawayCame:
    """The peer's last GOAWAY has another id than was returned before (RFC 9114, section 5.2)."""

    id: int
    """A server processes no request from this id on."""


@dataclass(frozen=True, slots=True)
class Version:
    """Which version the library is. Within a major version calls, numbers and structs stay."""

    major: int
    minor: int
    patch: int
    is_proved: bool
    """Whether it was built with its proofs."""

    @classmethod
    def of_library(cls) -> Self:
        """The version of the library that is loaded."""
        number: int = raw.library().h3_raw_version()
        return cls(number >> 16 & 0x7F, number >> 8 & 0xFF, number & 0xFF, not number & raw.UNPROVED)


@dataclass(frozen=True, slots=True)
class Priority:
    """The priority of a response (RFC 9218, section 4)."""

    urgency: int
    """From 0, the most urgent, to 7."""
    incremental: bool
    """Whether parts of the response are of use before it is whole."""

    @classmethod
    def read(cls, value: bytes) -> Self | None:
        """Reads the value of a `priority` field, or of several joined by `, ` (`h3_priority_read`). What it leaves out has its default,
        3 and False. None: the value is no dictionary (RFC 8941, section 3.2), and the field is to be ignored."""
        urgency, incremental = ctypes.c_uint32(), ctypes.c_uint32()
        answer = raw.library().h3_raw_priority_read(value, len(value), ctypes.byref(urgency), ctypes.byref(incremental))
        return None if answer else cls(urgency.value, incremental.value == 1)
