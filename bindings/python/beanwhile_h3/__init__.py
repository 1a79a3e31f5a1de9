"""One endpoint of an HTTP/3 connection (RFC 9114, with QPACK, RFC 9204): the calls of h3.h.

An `Endpoint` reads no socket and starts no thread. A program delivers what came on a stream and reads its items (`Endpoint.deliver`,
`Endpoint.items`; or `Endpoint.read`, which copies no body), sends messages (`Endpoint.open_request`, `send_head`, `send_body`, `finish`),
and passes what waits to QUIC (`next_to_send`, `outgoing`, `advance`, `end_taken`). A request goes from a client to a server, with the
bytes carried in place of QUIC:

    >>> client, server = Endpoint(Config.client()), Endpoint(Config.server())
    >>> id = client.open_request()
    >>> client.send_head(id, [(b":method", b"GET"), (b":scheme", b"https"), (b":authority", b"localhost"), (b":path", b"/a")])
    >>> client.finish(id)
    >>> while (stream := client.next_to_send()) is not None:
    ...     data, is_last = client.outgoing(stream)
    ...     server.deliver(stream, data)
    ...     client.advance(stream, len(data))
    ...     if is_last:
    ...         server.deliver_end(stream)
    ...         _ = client.end_taken(stream)
    >>> for item in server.items(id):
    ...     print(item)
    Head(fields=[(b':method', b'GET'), (b':scheme', b'https'), (b':authority', b'localhost'), (b':path', b'/a')], status=None)
    End()

`beanwhile_h3.bench` has a pair of endpoints whose bytes are cut at random, and what makes hostile bytes."""

from .config import Config
from .datagrams import (
    Capsule,
    CapsuleEnd,
    CapsuleHead,
    CapsuleReader,
    CapsuleValue,
    Datagram,
    DatagramEarly,
    DatagramFor,
    DatagramLate,
    DatagramOff,
    capsule,
    capsule_head,
)
from .endpoint import Endpoint
from .errors import Answer, Code, ConnectionFault, Malformation, OutOfMemory, Refused
from .items import (
    Body,
    BodyGiven,
    Canceled,
    End,
    Fault,
    Field,
    Head,
    Interim,
    Item,
    Malformed,
    NeverIndexed,
    NoMessages,
    Pause,
    Pending,
    Raw,
    Reset,
    Session,
    TooLargeHead,
    Trailer,
    Waiting,
)
from .state import ClosedStream, ConnectionState, GoawayCame, PeerLimits, Priority, SettingsCame, StreamState, StreamType, Version
from .webtransport import webtransport_code, webtransport_number

__all__ = [
    "Answer",
    "Body",
    "BodyGiven",
    "Canceled",
    "Capsule",
    "CapsuleEnd",
    "CapsuleHead",
    "CapsuleReader",
    "CapsuleValue",
    "ClosedStream",
    "Code",
    "Config",
    "ConnectionFault",
    "ConnectionState",
    "Datagram",
    "DatagramEarly",
    "DatagramFor",
    "DatagramLate",
    "DatagramOff",
    "End",
    "Endpoint",
    "Fault",
    "Field",
    "GoawayCame",
    "Head",
    "Interim",
    "Item",
    "Malformation",
    "Malformed",
    "NeverIndexed",
    "NoMessages",
    "OutOfMemory",
    "Pause",
    "PeerLimits",
    "Pending",
    "Priority",
    "Raw",
    "Refused",
    "Reset",
    "Session",
    "SettingsCame",
    "StreamState",
    "StreamType",
    "TooLargeHead",
    "Trailer",
    "Version",
    "Waiting",
    "capsule",
    "capsule_head",
    "local_ids",
    "webtransport_code",
    "webtransport_number",
]


def local_ids(is_server: bool) -> tuple[int, int, int]:
    """The ids of the local control, encoder and decoder stream."""
    return (3, 7, 11) if is_server else (2, 6, 10)
