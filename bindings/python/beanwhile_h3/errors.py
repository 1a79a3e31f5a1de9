"""Why a call was refused, why a message is malformed, and the codes of RFC 9114 that a program names."""

import enum
from typing import Any, Self


class _Numbers(enum.IntEnum):
    """Numbers of h3.h. One that this package does not know, as of a later library, has the name `OTHER`."""

    @classmethod
    def _missing_(cls, value: object) -> Self | None:
        if not isinstance(value, int):
            return None
        other: Any = int.__new__(cls, value)
        other._name_, other._value_ = "OTHER", value
        return other  # type: ignore[no-any-return]

    @property
    def text(self) -> str:
        """The name in h3.h, for a log: `H3_CLOSED` and so on."""
        return f"H3_{self.name}" if self.name != "OTHER" else f"{type(self).__name__.lower()} {self.value}"


class Answer(_Numbers):
    """`h3_answer`: what a call returns. Those that raise are `Refused.answer`."""

    OK = 0
    CLOSED = 1
    CONNECTION = 2
    NOT_RECEIVING = 3
    AFTER_END = 4
    KEPT = 5
    NOT_CLIENT = 6
    GOING_AWAY = 7
    IDS_USED_UP = 8
    NOT_OPEN = 9
    OUT_OF_ORDER = 10
    WRONG_SIDE = 11
    PSEUDO_IN_TRAILER = 12
    TOO_LARGE = 13
    CRITICAL = 14
    ENDED = 15
    NOT_REQUEST_ID = 16
    RAISED = 17
    MEMORY = 18
    TABLE_LIMIT = 19
    BLOCKED_LIMIT = 20
    SETTING = 21
    FIELD_NAME = 22
    FIELD_VALUE = 23
    FIELD_COUNT = 24
    NONE = 25
    ROOM = 26
    MALFORMED = 27
    UNFINISHED_LIMIT = 28
    NO_DATAGRAMS = 29
    REJECTED = 30
    NO_SESSIONS = 31
    ARGUMENT = 32
    NO_ENDPOINT = 33


class Malformation(_Numbers):
    """`h3_malformation`: why a message is malformed (RFC 9114, section 4.1.2). h3.h says more of each."""

    BAD_NAME = 0
    BAD_VALUE = 1
    TOO_MANY = 2
    HEAD_OF_WRONG_SIDE = 3
    PSEUDO_FIELD_IN_TRAILER = 4
    NO_HEAD = 5
    LATE_PSEUDO_FIELD = 6
    WRONG_PSEUDO_FIELD = 7
    REPEATED_PSEUDO_FIELD = 8
    CONNECTION_FIELD = 9
    BAD_CONTENT_LENGTH = 10
    BAD_PROTOCOL = 11
    BAD_CONNECT = 12
    MISSING_PSEUDO_FIELD = 13
    BAD_SCHEME = 14
    BAD_AUTHORITY = 15
    BAD_PATH = 16
    BAD_STATUS = 17
    NO_TRAILER_FIELD = 18
    TOO_LONG = 19


class Code(enum.IntEnum):
    """Error codes of RFC 9114, section 8.1, of RFC 9204, section 6, of RFC 9297, section 5.2, and of WebTransport."""

    DATAGRAM_ERROR = 0x33
    NO_ERROR = 0x100
    GENERAL_PROTOCOL_ERROR = 0x101
    INTERNAL_ERROR = 0x102
    STREAM_CREATION_ERROR = 0x103
    CLOSED_CRITICAL_STREAM = 0x104
    FRAME_UNEXPECTED = 0x105
    FRAME_ERROR = 0x106
    EXCESSIVE_LOAD = 0x107
    ID_ERROR = 0x108
    SETTINGS_ERROR = 0x109
    MISSING_SETTINGS = 0x10A
    REQUEST_REJECTED = 0x10B
    REQUEST_CANCELLED = 0x10C
    REQUEST_INCOMPLETE = 0x10D
    MESSAGE_ERROR = 0x10E
    CONNECT_ERROR = 0x10F
    VERSION_FALLBACK = 0x110
    QPACK_DECOMPRESSION_FAILED = 0x200
    QPACK_ENCODER_STREAM_ERROR = 0x201
    QPACK_DECODER_STREAM_ERROR = 0x202
    WEBTRANSPORT_BUFFERED_STREAM_REJECTED = 0x3994BD84
    WEBTRANSPORT_SESSION_GONE = 0x170D7B68


_TEXTS = {
    Answer.CLOSED: "the connection is closed, {detail:#x}",
    Answer.CONNECTION: "the connection has a fault, {detail:#x}",
    Answer.NOT_RECEIVING: "the peer sends nothing on this stream",
    Answer.AFTER_END: "the stream's end or reset came before",
    Answer.NOT_CLIENT: "only a client opens request streams",
    Answer.GOING_AWAY: "the peer processes no request from stream {detail} on",
    Answer.IDS_USED_UP: "there are no further stream ids",
    Answer.NOT_OPEN: "the stream is not open",
    Answer.OUT_OF_ORDER: "not at this place of the message",
    Answer.WRONG_SIDE: "a header section of the other side",
    Answer.PSEUDO_IN_TRAILER: "a pseudo-header field in a trailer section",
    Answer.TOO_LARGE: "a field section of {detail} bytes is larger than the peer accepts",
    Answer.CRITICAL: "the connection needs this stream",
    Answer.ENDED: "the stream has ended",
    Answer.NOT_REQUEST_ID: "not the id of a request stream",
    Answer.RAISED: "an earlier GOAWAY had the lower id {detail}",
    Answer.MEMORY: "out of memory",
    Answer.TABLE_LIMIT: "`table` is above 2^30 - 1",
    Answer.BLOCKED_LIMIT: "`blocked` is above 65535",
    Answer.SETTING: "the setting {detail:#x} cannot be announced",
    Answer.FIELD_NAME: "invalid name of field {detail}",
    Answer.FIELD_VALUE: "invalid value of field {detail}",
    Answer.FIELD_COUNT: "too many different field names",
    Answer.UNFINISHED_LIMIT: "`unfinished_limit` is below four times what is announced",
    Answer.NO_DATAGRAMS: "this side or the peer announced no HTTP datagrams",
    Answer.NO_SESSIONS: "this side or the peer takes no WebTransport sessions",
    Answer.REJECTED: "the request is rejected, {detail:#x}",
    Answer.ARGUMENT: "an argument is out of range",
    Answer.NO_ENDPOINT: "the endpoint was closed",
}


class Refused(Exception):
    """A call was refused, and changed nothing but what h3.h says (ANSWERS).

    `answer` is the reason, `detail` the number that the reason names, else 0. `start` is the index of the first byte that a refused
    `read` did not take, else 0. Two reasons have classes of their own, since a program treats them apart: `ConnectionFault` and
    `OutOfMemory`."""

    def __init__(self, answer: int, detail: int = 0) -> None:
        super().__init__(answer, detail)
        self.answer = Answer(answer)
        self.detail = detail
        self.start = 0

    @property
    def malformation(self) -> Malformation | None:
        """Of `Answer.MALFORMED`: the rule that the message breaks."""
        return Malformation(self.detail) if self.answer == Answer.MALFORMED else None

    def __str__(self) -> str:
        if self.malformation is not None:
            return f"{self.answer.text}: a strict peer would call the message malformed, {self.malformation.text}"
        return f"{self.answer.text}: {_TEXTS[self.answer].format(detail=self.detail)}" if self.answer in _TEXTS else self.answer.text


class ConnectionFault(Refused):
    """The connection has a fault (`Answer.CONNECTION`), or had one before (`Answer.CLOSED`): close it with `code`."""

    @property
    def code(self) -> int:
        """The application error code to close the QUIC connection with."""
        return self.detail


class OutOfMemory(Refused):
    """An allocation failed. Nothing is lost: make the same call again."""


def refused(answer: int, detail: int = 0) -> Refused:
    """The exception of an answer."""
    if answer in (Answer.CLOSED, Answer.CONNECTION):
        return ConnectionFault(answer, detail)
    return OutOfMemory(answer, detail) if answer == Answer.MEMORY else Refused(answer, detail)
