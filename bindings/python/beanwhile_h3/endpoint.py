"""One endpoint of a connection."""

import ctypes
import threading
from collections.abc import Callable, Iterable, Iterator
from ctypes import byref, c_char, c_char_p, c_size_t, c_uint32, c_uint64, c_void_p
from types import TracebackType
from typing import Self

from . import raw
from .config import NUMBERS, Config
from .datagrams import Datagram, DatagramEarly, DatagramFor, DatagramLate, DatagramOff
from .errors import Answer, Malformation, Refused, refused
from .items import (
    Body,
    BodyGiven,
    Canceled,
    End,
    Field,
    Head,
    Interim,
    Item,
    Kind,
    Malformed,
    NeverIndexed,
    NoMessages,
    Pause,
    Pending,
    Raw,
    Reset,
    Session,
    TooLargeHead,
    Trailer,
    Waiting,
)
from .state import ClosedStream, ConnectionState, GoawayCame, PeerLimits, Priority, SettingsCame, StreamState, StreamType

Bytes = bytes | bytearray | memoryview

_FIRST_ROOM = 1 << 16
_DATAGRAM_HEAD = 8


def _as_bytes(data: Bytes) -> bytes:
    return data if isinstance(data, bytes) else bytes(memoryview(data))


def _at(data: Bytes, view: memoryview, start: int) -> tuple[c_char_p, object]:
    """A pointer to the bytes of a view of `data` from `start` on, and what keeps them there."""
    if isinstance(data, bytes) or view.readonly or not view.nbytes:
        held = data if isinstance(data, bytes) else view.tobytes()
        return ctypes.cast(c_void_p((ctypes.cast(c_char_p(held), c_void_p).value or 0) + start), c_char_p), held
    lent = (c_char * view.nbytes).from_buffer(view)
    return ctypes.cast(c_void_p(ctypes.addressof(lent) + start), c_char_p), lent


def _number(value: int) -> int:
    """The value, if 64 bits hold it: ctypes would cut it."""
    if not 0 <= value < 1 << 64:
        raise refused(Answer.ARGUMENT)
    return value


def _listed(fields: Iterable[tuple[Bytes, Bytes]]) -> tuple[ctypes.Array[raw.FieldSize], int, bytes, int, bytes]:
    """A list of fields as the library takes it: the sizes and how many they are, the flags, and all bytes."""
    fields = list(fields)
    flags = bytes(isinstance(field, NeverIndexed) for field in fields)
    parts = [_as_bytes(part) for name, value in fields for part in (name, value)]
    if any(len(part) >> 32 for part in parts):
        raise refused(Answer.ARGUMENT)
    count = len(parts) // 2
    sizes = (raw.FieldSize * max(count, 1))(*(raw.FieldSize(len(parts[at]), len(parts[at + 1])) for at in range(0, 2 * count, 2)))
    return sizes, count, flags, count, b"".join(parts)


class Endpoint:
    """One endpoint of an HTTP/3 connection. Its settings wait on its control stream as soon as it is made.

    A call that is refused raises `Refused`; its documentation names the answers. Each call with an id raises `Answer.ARGUMENT` if the id
    is 2^62 or more (`next_to_send` only if 64 bits do not hold it). One call at a time is made on an endpoint, by a
    lock: threads may share it. `close` frees it, and so do `with` and the garbage collector; every call after that raises
    `Answer.NO_ENDPOINT`."""

    def __init__(self, config: Config, further: Iterable[tuple[int, int]] = (), remembered: Bytes | None = None) -> None:
        """`further` has ids and values of settings that are announced after those of the configuration, at most 8, for an extension that the
        caller speaks. `remembered`, of a client that sends 0-RTT data, are its server's settings, as `remember_settings` returned them in an earlier
        connection (RFC 9114, section 7.2.4.2).

        Raises `Answer.ARGUMENT` (the value of `grease`; more than 8 settings; `remembered` at a server, or bytes that are no settings),
        `TABLE_LIMIT`, `BLOCKED_LIMIT`, `UNFINISHED_LIMIT`, `SETTING`, `MEMORY`."""
        self._handle = raw.Handle()
        self._lock = threading.RLock()
        self._library = raw.library()
        self.is_server = bool(config.is_server)
        numbers, detail = (c_uint64 * NUMBERS)(*map(_number, config.numbers())), c_uint64()
        pairs = [_number(number) for pair in further for number in pair]
        settings = (c_uint64 * max(len(pairs), 1))(*pairs)
        if remembered is None:
            answer = self._library.h3_raw_new_with(numbers, NUMBERS, settings, len(pairs), byref(detail), byref(self._handle))
        else:
            data = _as_bytes(remembered)
            answer = self._library.h3_raw_new_resumed(numbers, NUMBERS, settings, len(pairs), data, len(data), byref(detail), byref(self._handle))
        if answer:
            raise refused(answer, detail.value)

    def close(self) -> None:
        """Frees the endpoint. A second call does nothing."""
        with self._lock:
            if self._handle.at:
                self._library.h3_raw_free(self._handle)
                self._handle.at = None

    def __enter__(self) -> Self:
        return self

    def __exit__(self, kind: type[BaseException] | None, error: BaseException | None, trace: TracebackType | None) -> None:
        self.close()

    def __del__(self) -> None:
        if hasattr(self, "_library"):  # else there is no library
            self.close()

    def _answer(self, name: str, *arguments: object) -> int:
        """What an export returns. It gets the handle, and writes the handle for the next call."""
        with self._lock:
            if not self._handle.at:
                raise refused(Answer.NO_ENDPOINT)
            answer: int = getattr(self._library, name)(self._handle, *arguments, byref(self._handle))
            return answer

    def _call(self, name: str, *arguments: object) -> None:
        """A call with a detail."""
        detail = c_uint64()
        answer = self._answer(name, *arguments, byref(detail))
        if answer:
            raise refused(answer, detail.value)

    def _plain_call(self, name: str, *arguments: object) -> None:
        """A call that has no detail."""
        answer = self._answer(name, *arguments)
        if answer:
            raise refused(answer)

    def _delivery(self, name: str, *arguments: object) -> None:
        """A delivery, which is taken too if an allocation failed while it was read (`H3_KEPT`)."""
        detail = c_uint64()
        answer = self._answer(name, *arguments, byref(detail))
        if answer not in (Answer.OK, Answer.KEPT):
            raise refused(answer, detail.value)

    def _found(self, name: str, number: int) -> int | None:
        """A number that a call finds, or None."""
        found = c_uint64()
        answer = self._answer(name, _number(number), byref(found))
        if answer not in (Answer.OK, Answer.NONE):
            raise refused(answer)
        return None if answer else found.value

    # ---- sending ----

    def open_request(self) -> int:
        """Opens a client's next request, and returns the id of its stream: 0, 4, 8, .. Call it before QUIC opens the stream.

        Raises `Answer.CLOSED`, `NOT_CLIENT`, `GOING_AWAY`, `IDS_USED_UP`, `MEMORY`."""
        id = c_uint64()
        self._call("h3_raw_open_request", byref(id))
        return id.value

    def next_request_id(self) -> int:
        """The id that `open_request` returns next. It opens nothing.

        Raises what `open_request` raises, except `Answer.MEMORY`."""
        id = c_uint64()
        self._call("h3_raw_next_request_id", byref(id))
        return id.value

    def open_request_at(self, id: int) -> None:
        """Opens the request of an id that QUIC gave, and all with lower ids that are not open.

        Raises what `open_request` raises, and `Answer.NOT_REQUEST_ID`, `OUT_OF_ORDER` (the id is below the next one)."""
        self._call("h3_raw_open_request_at", _number(id))

    def send_head(self, id: int, fields: Iterable[tuple[Bytes, Bytes]]) -> None:
        """Sends a header section as the list that it is given as: put pseudo-header fields in front, each once. A response with a status
        from 100 to 199 is an interim one, after which another one is sent. A field is a pair, or a `NeverIndexed`.

        Raises `Answer.CLOSED`, `NOT_OPEN`, `OUT_OF_ORDER`, `FIELD_NAME`, `FIELD_VALUE`, `FIELD_COUNT`, `WRONG_SIDE`, `MALFORMED` (a strict
        endpoint), `TOO_LARGE`, `MEMORY`. Nothing was sent then."""
        *row, data = _listed(fields)
        self._call("h3_raw_send_head", _number(id), *row, data, len(data))

    def send_trailer(self, id: int, fields: Iterable[tuple[Bytes, Bytes]]) -> None:
        """Sends a trailer section as the list that it is given as. Send no empty one: finish the stream.

        Raises what `send_head` raises, but `Answer.PSEUDO_IN_TRAILER` in place of `WRONG_SIDE`."""
        *row, data = _listed(fields)
        self._call("h3_raw_send_trailer", _number(id), *row, data, len(data))

    def send_body(self, id: int, data: Bytes) -> None:
        """Sends a piece of a body, as one DATA frame.

        Raises `Answer.CLOSED`, `NOT_OPEN`, `OUT_OF_ORDER`, `MALFORMED` (a strict endpoint: more than content-length says), `MEMORY`."""
        data = _as_bytes(data)
        self._call("h3_raw_send_body", _number(id), data, len(data))

    def send_body_of(self, id: int, length: int) -> None:
        """Sends a piece of a body of this length, whose bytes stay with the caller: the library never reads them. `outgoing_past` says when
        they go out. 0 bytes write nothing.

        Raises what `send_body` raises."""
        self._call("h3_raw_send_body_of", _number(id), _number(length))

    def finish(self, id: int) -> None:
        """The message is whole: FIN follows what waits.

        Raises `Answer.CLOSED`, `NOT_OPEN`, `OUT_OF_ORDER`, `MALFORMED` (a strict endpoint: less than content-length says)."""
        self._call("h3_raw_finish", _number(id))

    def reset(self, id: int) -> None:
        """Sending on a stream ends here, and what waits is dropped: QUIC sends RESET_STREAM.

        Raises `Answer.CLOSED`, `CRITICAL`, `NOT_OPEN`, `ENDED` (nothing is left to be sent)."""
        self._call("h3_raw_reset", _number(id))

    def cancel(self, id: int) -> None:
        """Nothing more is needed of a request stream: QUIC sends STOP_SENDING, and the next item is `Canceled`.

        Raises `Answer.CLOSED`, `CRITICAL`, `NOT_OPEN`, `ENDED` (its end was pulled, its reset came, or it was canceled), `MEMORY`."""
        self._call("h3_raw_cancel", _number(id))

    def close_stream(self, id: int) -> ClosedStream:
        """Cancels and resets a request stream, each if that half is open: which frames QUIC is to send for it.

        Raises `Answer.CLOSED`, `CRITICAL`, `NOT_OPEN`, `MEMORY`."""
        stop_sending, reset_stream = c_uint32(), c_uint32()
        self._call("h3_raw_close_stream", _number(id), byref(stop_sending), byref(reset_stream))
        return ClosedStream(stop_sending.value == 1, reset_stream.value == 1)

    def open_session_stream(self, session: int, both_ways: bool = True) -> int:
        """Opens a stream of the WebTransport session whose request has this id: both ways, or from this side alone. QUIC opens the stream of
        the id that it returns.

        Raises `Answer.CLOSED`, `NO_SESSIONS`, `NOT_REQUEST_ID`, `NOT_OPEN` (no header section was sent on the session's request, sending
        there has ended, or the peer's end or reset of it came), `GOING_AWAY`, `IDS_USED_UP`, `MEMORY`."""
        found = c_uint64()
        self._call("h3_raw_open_session_stream", _number(session), int(both_ways), byref(found))
        return found.value

    def send_raw(self, id: int, data: Bytes) -> None:
        """Sends bytes on a stream of a WebTransport session, as they are.

        Raises `Answer.CLOSED`, `NOT_OPEN`, `OUT_OF_ORDER` (it was finished or reset), `MEMORY`."""
        data = _as_bytes(data)
        self._call("h3_raw_send_raw", _number(id), data, len(data))

    def next_of_session(self, session: int, start: int = 0) -> int | None:
        """The lowest id from `start` on of a stream of a WebTransport session. When the session ends, close each of them."""
        found = c_uint64()
        answer = self._answer("h3_raw_next_of_session", _number(session), _number(start), byref(found))
        if answer not in (Answer.OK, Answer.NONE):
            raise refused(answer)
        return None if answer else found.value

    def goaway(self, id: int) -> None:
        """A server processes no request from this id on (a multiple of 4), a client no push (RFC 9114, section 5.2).

        Raises `Answer.CLOSED`, `NOT_REQUEST_ID`, `RAISED`, `MEMORY`."""
        self._call("h3_raw_goaway", _number(id))

    def shutdown_notice(self) -> None:
        """The first step of a shutdown (RFC 9114, section 5.2): a GOAWAY with the greatest id. The peer opens no further request once it
        came, and all that it sent until then is processed.

        Raises `Answer.CLOSED`, `MEMORY`."""
        self._call("h3_raw_shutdown_notice")

    def shutdown(self) -> None:
        """The second step: a GOAWAY of a server with `first_unseen`, of a client with 0. A delivery of a later request raises
        `Answer.REJECTED` then: deliver no more of its stream, and QUIC sends RESET_STREAM and STOP_SENDING with `Code.REQUEST_REJECTED`.

        Raises `Answer.CLOSED`, `IDS_USED_UP` (every id was seen, and no GOAWAY was sent), `MEMORY`."""
        self._call("h3_raw_shutdown")

    def first_unseen(self) -> int:
        """The first id of a request stream above all of which anything came: no request from there on was processed."""
        id = c_uint64()
        self._plain_call("h3_raw_first_unseen", byref(id))
        return id.value

    def is_drained(self) -> bool:
        """Whether nothing is left to be done, so that the connection can be closed without losing a request. It needs `end_taken` for
        each FIN."""
        drained = c_uint32()
        self._plain_call("h3_raw_is_drained", byref(drained))
        return drained.value == 1

    # ---- what waits to be sent ----

    def next_to_send(self, start: int = 0) -> int | None:
        """The lowest stream id from `start` on on which bytes wait, or an end that `end_taken` did not name yet."""
        return self._found("h3_raw_next_to_send", start)

    def next_by_priority(self) -> int | None:
        """The stream that sends next (RFC 9218, section 10): the local streams first, then the most urgent, by turns."""
        found = c_uint64()
        answer = self._answer("h3_raw_next_by_priority", byref(found))
        if answer not in (Answer.OK, Answer.NONE):
            raise refused(answer)
        return None if answer else found.value

    def set_priority(self, id: int, priority: Priority) -> None:
        """A request stream has this priority from now on, whatever its client says.

        Raises `Answer.ARGUMENT`, `CLOSED`, `NOT_REQUEST_ID`, `NOT_OPEN`, `MEMORY`."""
        self._call("h3_raw_set_priority", _number(id), _number(priority.urgency), int(priority.incremental))

    def set_initial_priority(self, id: int, priority: Priority) -> None:
        """Sets the priority that the request's `priority` field asks for (`Priority.read`). A PRIORITY_UPDATE frame of the client
        overrides it, and so does `set_priority`. The default is urgency 3, not incremental.

        Raises `Answer.ARGUMENT`, `CLOSED`, `NOT_REQUEST_ID`, `NOT_OPEN`, `MEMORY`."""
        self._call("h3_raw_set_initial_priority", _number(id), _number(priority.urgency), int(priority.incremental))

    def priority(self, id: int) -> Priority | None:
        """The priority that counts of a request stream; None: it is not open.

        Raises `Answer.ARGUMENT`."""
        urgency, incremental = c_uint32(), c_uint32()
        answer = self._answer("h3_raw_priority", _number(id), byref(urgency), byref(incremental))
        if answer not in (Answer.OK, Answer.NOT_OPEN):
            raise refused(answer)
        return None if answer else Priority(urgency.value, incremental.value == 1)

    def send_priority(self, id: int, priority: Priority) -> None:
        """Tells the server the priority of a response from now on (RFC 9218, section 7.2).

        Raises `Answer.ARGUMENT`, `CLOSED`, `NOT_CLIENT`, `NOT_REQUEST_ID`, `NOT_OPEN`, `ENDED`, `MEMORY`."""
        self._call("h3_raw_send_priority", _number(id), _number(priority.urgency), int(priority.incremental))

    def hold(self, id: int, held: bool) -> None:
        """QUIC has no credit for a stream, so that `next_by_priority` skips it, or has it again.

        Raises `Answer.ARGUMENT`, `CLOSED`, `NOT_OPEN`, `MEMORY`."""
        self._call("h3_raw_hold", _number(id), int(held))

    def outgoing(self, id: int, most: int | None = None) -> tuple[bytes, bool]:
        """The first bytes that wait on a stream, all or at most so many, and whether the stream ends after them. They go on waiting until
        `advance`.

        Raises `Answer.ARGUMENT`: bytes of a body follow that the caller holds (`send_body_of`)."""
        data, past, is_last = self.outgoing_past(id, most)
        if past:
            raise refused(Answer.ARGUMENT)
        return data, is_last

    def outgoing_past(self, id: int, most: int | None = None) -> tuple[bytes, int, bool]:
        """The first bytes that wait on a stream, all or at most so many; how many bytes of a body that the caller holds (`send_body_of`)
        come next; and whether the stream ends after both. All go on waiting until `advance`, which counts both."""
        with self._lock:
            waiting = self.stream(id).waiting  # with the bytes that the caller holds, for which no room is needed
            room = waiting if most is None else min(_number(most), waiting)
            found = self._outgoing(id, min(room, _FIRST_ROOM))
            return found if len(found[0]) < _FIRST_ROOM else self._outgoing(id, room)

    def _outgoing(self, id: int, room: int) -> tuple[bytes, int, bool]:
        buffer, count, past, end = ctypes.create_string_buffer(max(room, 1)), c_size_t(), c_size_t(), c_uint32()
        self._plain_call("h3_raw_outgoing", id, buffer, room, byref(count), byref(past), byref(end))
        return buffer.raw[: count.value], past.value, end.value == 1

    def advance(self, id: int, count: int) -> None:
        """QUIC took so many bytes of a stream: any count of those that wait.

        Raises `Answer.ARGUMENT`: fewer bytes wait."""
        self._plain_call("h3_raw_advance", _number(id), _number(count))

    def end_taken(self, id: int) -> bool:
        """QUIC took the FIN of a stream: `next_to_send` names it no longer. False: no end was next."""
        answer = self._answer("h3_raw_end_taken", _number(id))
        if answer not in (Answer.OK, Answer.NONE):
            raise refused(answer)
        return answer == Answer.OK

    # ---- what came ----

    def deliver(self, id: int, data: Bytes) -> None:
        """Bytes came on a stream, after those that came before. They were taken too if an allocation failed while they were read
        (`H3_KEPT`): the next delivery or item reads on.

        Raises `ConnectionFault` (`Answer.CONNECTION`: close the connection with its code), `Answer.NOT_RECEIVING`, `NOT_OPEN`, `AFTER_END`,
        `MEMORY` (nothing was taken: deliver again)."""
        data = _as_bytes(data)
        self._delivery("h3_raw_deliver", _number(id), data, len(data))

    def deliver_end(self, id: int) -> None:
        """The stream's FIN came. Raises what `deliver` raises."""
        self._delivery("h3_raw_deliver_end", _number(id))

    def deliver_reset(self, id: int, code: int) -> None:
        """RESET_STREAM came with this code. Raises what `deliver` raises; `Answer.AFTER_END` is normal if it came late."""
        self._delivery("h3_raw_deliver_reset", _number(id), _number(code))

    def read(self, id: int, data: Bytes, start: int = 0, is_end: bool = False) -> tuple[Item | Pause, int]:
        """The bytes of `data` from `start` on came on a stream, after those that came before, and with `is_end` its FIN after them. Returns
        what is next on the stream, and where the bytes begin that were not taken: call it again with that `start`, until a pause or the
        last item. A piece of the body is a `BodyGiven`, a view of `data`; nothing of it is copied or kept. (Of a read-only memoryview the
        bytes are copied for the call.)

        Raises what `deliver` and `next_item` raise; after `OutOfMemory` nothing is lost: go on from its `start`."""
        view = memoryview(data).cast("B")
        if not 0 <= start <= len(view):
            raise refused(Answer.ARGUMENT)
        item, given = raw.RawItem(), start
        with self._lock:
            try:
                while True:
                    given, (answer, detail, used) = start, self._read(id, data, view, start, is_end, item)
                    start += used
                    is_pause = answer == Answer.OK and item.kind in (Kind.PENDING, Kind.WAITING, Kind.NO_MESSAGES)
                    if answer != Answer.KEPT and not (is_pause and start < len(view)):
                        break
                if answer:
                    raise refused(answer, detail)
                if item.kind == Kind.BODY_GIVEN:
                    return BodyGiven(view[given + item.number : given + item.number + item.len]), start
                return self._held(item), start
            except Refused as error:
                error.start = start
                raise

    def _read(self, id: int, data: Bytes, view: memoryview, start: int, is_end: bool, item: raw.RawItem) -> tuple[int, int, int]:
        """What the library answers of bytes that came, the detail, and how many it took."""
        (place, _held), used, detail = _at(data, view, start), c_size_t(), c_uint64()
        end = int(bool(is_end))
        answer = self._answer("h3_raw_read", _number(id), place, len(view) - start, end, byref(used), byref(item), byref(detail))
        return answer, detail.value, used.value

    def next_item(self, id: int) -> Item | Pause:
        """What is next on a stream: an item, or a pause. A fault of this stream alone is an item, `Fault`.

        Raises `ConnectionFault`, and `OutOfMemory`: nothing is lost, ask again."""
        with self._lock:
            item = raw.RawItem()
            self._plain_call("h3_raw_pull", _number(id), byref(item))
            return self._held(item)

    def next_unblocked(self, start: int = 0) -> int | None:
        """The lowest stream id from `start` on of a stream whose last item was `Waiting` and whose insertions have come since."""
        return self._found("h3_raw_next_unblocked", start)

    def _held(self, item: raw.RawItem) -> Item | Pause:
        """What the item has that the endpoint holds."""
        if item.kind == Kind.FAULT_CONNECTION:
            raise refused(Answer.CONNECTION, item.number)
        if item.kind == Kind.FAULT_MEMORY:
            raise refused(Answer.MEMORY)
        return _READERS[Kind(item.kind)](self, item)

    def items(self, id: int) -> Iterator[Item]:
        """The items of a stream that are there, up to a pause or to the last one. Raises what `next_item` raises."""
        while isinstance(item := self.next_item(id), Item):
            yield item
            if item.is_last:
                return

    def _fields(self, item: raw.RawItem) -> list[Field]:
        """The fields of the item that was pulled last."""
        sizes, data = (raw.FieldSize * max(item.fields, 1))(), ctypes.create_string_buffer(max(item.len, 1))
        flags = ctypes.create_string_buffer(max(item.fields, 1))
        self._plain_call("h3_raw_item_fields", sizes, item.fields, flags, item.fields, data, item.len)
        found: list[Field] = []
        at, everything = 0, data.raw
        for size, flag in zip(sizes[: item.fields], flags.raw, strict=False):
            middle, end = at + size.name, at + size.name + size.value
            name, value = everything[at:middle], everything[middle:end]
            found.append(NeverIndexed(name, value) if flag else (name, value))
            at = end
        return found

    def _data(self, item: raw.RawItem) -> bytes:
        """The bytes of the item that was pulled last."""
        buffer, count = ctypes.create_string_buffer(max(item.len, 1)), c_size_t()
        self._plain_call("h3_raw_item_bytes", 0, buffer, item.len, byref(count))
        return buffer.raw[: count.value]

    # ---- datagrams ----

    def datagram(self, id: int, payload: Bytes) -> bytes:
        """An HTTP datagram for the request on a stream (RFC 9297, section 2.1), to be sent as the payload of a QUIC DATAGRAM frame.

        Raises `Answer.CLOSED`, `NOT_REQUEST_ID`, `NO_DATAGRAMS`, `NOT_OPEN`, `ENDED` (sending on the stream was finished or reset)."""
        head, count = ctypes.create_string_buffer(_DATAGRAM_HEAD), c_size_t()
        self._call("h3_raw_datagram_head", _number(id), head, _DATAGRAM_HEAD, byref(count))
        return head.raw[: count.value] + payload

    def read_datagram(self, data: Bytes) -> Datagram:
        """What came as the payload of a QUIC DATAGRAM frame. Nothing of it is kept.

        Raises `ConnectionFault`: it is malformed, or the connection had a fault before."""
        whole, id, start, detail = _as_bytes(data), c_uint64(), c_size_t(), c_uint64()
        answer = self._answer("h3_raw_read_datagram", whole, len(whole), byref(id), byref(start), byref(detail))
        if answer == Answer.OK:
            return DatagramFor(id.value, whole[start.value :])
        if answer == Answer.NOT_OPEN:
            return DatagramEarly(id.value)
        if answer == Answer.AFTER_END:
            return DatagramLate()
        if answer == Answer.NO_DATAGRAMS:
            return DatagramOff()
        raise refused(answer, detail.value)

    # ---- what can be read ----

    def stream(self, id: int) -> StreamState:
        """The state of a stream."""
        state = raw.RawStream()
        self._plain_call("h3_raw_stream", _number(id), byref(state))
        return StreamState(state.waiting, state.unread, state.has_outgoing == 1, state.is_finished == 1, state.is_reset == 1, state.tries)

    def frame_left(self, id: int) -> int:
        """How many bytes of the payload of the frame under way are still to come on a request stream or the peer's control stream."""
        left = c_uint64()
        self._plain_call("h3_raw_frame_left", _number(id), byref(left))
        return left.value

    def stream_kind(self, id: int) -> StreamType | None:
        """The type of a unidirectional stream of the peer, by what came on it. None: it is another stream."""
        kind = c_uint32()
        answer = self._answer("h3_raw_stream_kind", _number(id), byref(kind))
        if answer not in (Answer.OK, Answer.NONE):
            raise refused(answer)
        return None if answer else StreamType(kind.value)

    def other_type(self, id: int) -> int | None:
        """The type of a `StreamType.OTHER`, by the number that it begins with. None: it is another stream."""
        return self._found("h3_raw_other_type", id)

    def connection(self) -> ConnectionState:
        """The state of the connection."""
        state = raw.RawConnection()
        self._plain_call("h3_raw_connection", byref(state))
        goaway = state.goaway if state.has_goaway else None
        peer = PeerLimits(state.peer_table, state.peer_blocked, state.peer_section) if state.has_settings else None
        return ConnectionState(state.sending_table, state.receiving_table, state.waiting_heads, state.sent, goaway, peer)

    def next_event(self) -> SettingsCame | GoawayCame | None:
        """The next event of the connection, each once, or None. After data on a unidirectional stream of the peer, call it until it returns
        None. Of several GOAWAY frames it returns the last one."""
        kind, number = c_uint32(), c_uint64()
        answer = self._answer("h3_raw_next_event", byref(kind), byref(number))
        if answer not in (Answer.OK, Answer.NONE):
            raise refused(answer)
        if answer:
            return None
        return SettingsCame() if kind.value == raw.EVENT_SETTINGS else GoawayCame(number.value)

    def peer_setting(self, setting: int) -> int | None:
        """The value of a setting that the peer announced (RFC 9114, section 7.2.4)."""
        return self._found("h3_raw_peer_setting", setting)

    def remember_settings(self) -> bytes | None:
        """The settings of the server, to be kept with its session ticket for `remembered` of a later connection. None: they have not come.

        Raises `Answer.MEMORY`."""
        buffer, count = ctypes.create_string_buffer(128), c_size_t()
        answer = self._answer("h3_raw_remember_settings", buffer, len(buffer), byref(count))
        if answer not in (Answer.OK, Answer.NONE):
            raise refused(answer)
        return None if answer else buffer.raw[: count.value]

    def settings_kept(self, remembered: Bytes) -> bool | None:
        """Whether the settings that came keep to those that were remembered. None: they have not come. If not, and the server accepted the 0-RTT data,
        close the connection with `Code.SETTINGS_ERROR` (RFC 9114, section 7.2.4.2).

        Raises `Answer.ARGUMENT`: these are no settings."""
        data, kept = _as_bytes(remembered), c_uint32()
        answer = self._answer("h3_raw_settings_kept", data, len(data), byref(kept))
        if answer not in (Answer.OK, Answer.NONE):
            raise refused(answer)
        return None if answer else kept.value == 1


# how an item of each kind is read, but of the two faults that are raised
_READERS: dict[Kind, Callable[[Endpoint, raw.RawItem], Item | Pause]] = {
    Kind.INTERIM: lambda endpoint, item: Interim(endpoint._fields(item), item.status),
    Kind.HEAD: lambda endpoint, item: Head(endpoint._fields(item), item.status or None),
    Kind.BODY: lambda endpoint, item: Body(endpoint._data(item)),
    Kind.TRAILER: lambda endpoint, item: Trailer(endpoint._fields(item)),
    Kind.TOO_LARGE_HEAD: lambda _, item: TooLargeHead(item.number),
    Kind.SESSION: lambda _, item: Session(item.number),
    Kind.RAW: lambda endpoint, item: Raw(endpoint._data(item)),
    Kind.END: lambda _, item: End(),
    Kind.PENDING: lambda _, item: Pending(),
    Kind.WAITING: lambda _, item: Waiting(item.number),
    Kind.NO_MESSAGES: lambda _, item: NoMessages(),
    Kind.FAULT_MALFORMED: lambda _, item: Malformed(Malformation(item.number)),
    Kind.FAULT_RESET: lambda _, item: Reset(item.number),
    Kind.FAULT_CANCELED: lambda _, item: Canceled(),
}
