"""The exports of the shared library, as h3.h declares them, and where the library is found.

In the repository `scripts/gate/c_header.py` compares `DECLARATIONS` and the structs with the header."""

import ctypes
import functools
import os
from ctypes import POINTER, c_char, c_char_p, c_size_t, c_uint32, c_uint64, c_void_p
from typing import Any

NAME = "libbeanwhile_h3.so.1"
VARIABLE = "BEANWHILE_H3_LIBRARY"
VERSION = 0x010000  # the version of h3.h that this package was written for
UNPROVED = 0x80000000
EVENT_SETTINGS = 1  # of enum h3_event


class Handle(ctypes.Structure):
    """`h3_endpoint`: one pointer that only the library reads."""

    at: int | None
    _fields_ = [("at", c_void_p)]


class FieldSize(ctypes.Structure):
    """`h3_field_size`"""

    name: int
    value: int
    _fields_ = [("name", c_uint32), ("value", c_uint32)]


class RawItem(ctypes.Structure):
    """`h3_item`"""

    kind: int
    status: int
    number: int
    fields: int
    len: int
    _fields_ = [("kind", c_uint32), ("status", c_uint32), ("number", c_uint64), ("fields", c_size_t), ("len", c_size_t)]


class RawStream(ctypes.Structure):
    """`h3_stream_state`"""

    waiting: int
    unread: int
    has_outgoing: int
    is_finished: int
    is_reset: int
    tries: int
    _fields_ = [
        ("waiting", c_uint64),
        ("unread", c_uint64),
        ("has_outgoing", c_uint32),
        ("is_finished", c_uint32),
        ("is_reset", c_uint32),
        ("tries", c_uint32),
    ]


class RawConnection(ctypes.Structure):
    """`h3_state`"""

    sending_table: int
    receiving_table: int
    waiting_heads: int
    sent: int
    goaway: int
    peer_table: int
    peer_blocked: int
    peer_section: int
    has_goaway: int
    has_settings: int
    _fields_ = [
        ("sending_table", c_uint64),
        ("receiving_table", c_uint64),
        ("waiting_heads", c_uint64),
        ("sent", c_uint64),
        ("goaway", c_uint64),
        ("peer_table", c_uint64),
        ("peer_blocked", c_uint64),
        ("peer_section", c_uint64),
        ("has_goaway", c_uint32),
        ("has_settings", c_uint32),
    ]


class RawReader(ctypes.Structure):
    """`h3_capsule_reader`"""

    head_low: int
    head_high: int
    head_len: int
    left: int
    is_at_end: int
    _fields_ = [("head_low", c_uint64), ("head_high", c_uint64), ("head_len", c_uint64), ("left", c_uint64), ("is_at_end", c_uint64)]


class RawCapsule(ctypes.Structure):
    """`h3_capsule`"""

    part: int
    capsule_type: int
    length: int
    _fields_ = [("part", c_uint64), ("capsule_type", c_uint64), ("length", c_uint64)]


# `bytes` go in as they are, without a copy: they end with a byte of 0, so there is a pointer if they are empty too
BYTES = c_char_p
BUFFER = POINTER(c_char)
U32_OUT = POINTER(c_uint32)
U64_OUT = POINTER(c_uint64)
SIZE_OUT = POINTER(c_size_t)
SIZES = POINTER(FieldSize)
OUT = POINTER(Handle)

SENDS_LIST = (c_uint32, [Handle, c_uint64, SIZES, c_size_t, BYTES, c_size_t, BYTES, c_size_t, U64_OUT, OUT])
TAKES_BYTES = (c_uint32, [Handle, c_uint64, BYTES, c_size_t, U64_OUT, OUT])
TAKES_ID = (c_uint32, [Handle, c_uint64, U64_OUT, OUT])
FINDS_NUMBER = (c_uint32, [Handle, c_uint64, U64_OUT, OUT])
TELLS = (c_uint32, [Handle, U64_OUT, OUT])
GIVES_ID = (c_uint32, [Handle, U64_OUT, U64_OUT, OUT])

# each export that is called: what it returns, and its arguments
DECLARATIONS: dict[str, tuple[Any, list[Any]]] = {
    "h3_raw_version": (c_uint32, []),
    "h3_raw_priority_read": (c_uint32, [BYTES, c_size_t, U32_OUT, U32_OUT]),
    "h3_raw_read_capsule": (c_uint32, [POINTER(RawReader), BYTES, c_size_t, SIZE_OUT, POINTER(RawCapsule)]),
    "h3_raw_capsule_ends": (c_uint32, [POINTER(RawReader), U32_OUT]),
    "h3_raw_capsule_head": (c_uint32, [c_uint64, c_uint64, BUFFER, c_size_t, SIZE_OUT]),
    "h3_raw_config_default": (None, [U64_OUT, c_size_t]),
    "h3_raw_new": (c_uint32, [U64_OUT, c_size_t, U64_OUT, OUT]),
    "h3_raw_new_with": (c_uint32, [U64_OUT, c_size_t, U64_OUT, c_size_t, U64_OUT, OUT]),
    "h3_raw_new_resumed": (c_uint32, [U64_OUT, c_size_t, U64_OUT, c_size_t, BYTES, c_size_t, U64_OUT, OUT]),
    "h3_raw_free": (None, [Handle]),
    "h3_raw_open_request": GIVES_ID,
    "h3_raw_next_request_id": GIVES_ID,
    "h3_raw_open_request_at": TAKES_ID,
    "h3_raw_send_head": SENDS_LIST,
    "h3_raw_send_trailer": SENDS_LIST,
    "h3_raw_send_body": TAKES_BYTES,
    "h3_raw_send_body_of": (c_uint32, [Handle, c_uint64, c_size_t, U64_OUT, OUT]),
    "h3_raw_finish": TAKES_ID,
    "h3_raw_reset": TAKES_ID,
    "h3_raw_cancel": TAKES_ID,
    "h3_raw_close_stream": (c_uint32, [Handle, c_uint64, U32_OUT, U32_OUT, U64_OUT, OUT]),
    "h3_raw_open_session_stream": (c_uint32, [Handle, c_uint64, c_uint32, U64_OUT, U64_OUT, OUT]),
    "h3_raw_send_raw": TAKES_BYTES,
    "h3_raw_next_of_session": (c_uint32, [Handle, c_uint64, c_uint64, U64_OUT, OUT]),
    "h3_raw_webtransport_code": (c_uint64, [c_uint32]),
    "h3_raw_webtransport_number": (c_uint32, [c_uint64, U32_OUT]),
    "h3_raw_goaway": TAKES_ID,
    "h3_raw_shutdown_notice": TELLS,
    "h3_raw_shutdown": TELLS,
    "h3_raw_first_unseen": TELLS,
    "h3_raw_is_drained": (c_uint32, [Handle, U32_OUT, OUT]),
    "h3_raw_next_to_send": FINDS_NUMBER,
    "h3_raw_next_by_priority": (c_uint32, [Handle, U64_OUT, OUT]),
    "h3_raw_set_initial_priority": (c_uint32, [Handle, c_uint64, c_uint32, c_uint32, U64_OUT, OUT]),
    "h3_raw_send_priority": (c_uint32, [Handle, c_uint64, c_uint32, c_uint32, U64_OUT, OUT]),
    "h3_raw_priority": (c_uint32, [Handle, c_uint64, U32_OUT, U32_OUT, OUT]),
    "h3_raw_set_priority": (c_uint32, [Handle, c_uint64, c_uint32, c_uint32, U64_OUT, OUT]),
    "h3_raw_hold": (c_uint32, [Handle, c_uint64, c_uint32, U64_OUT, OUT]),
    "h3_raw_outgoing": (c_uint32, [Handle, c_uint64, BUFFER, c_size_t, SIZE_OUT, SIZE_OUT, U32_OUT, OUT]),
    "h3_raw_advance": (c_uint32, [Handle, c_uint64, c_size_t, OUT]),
    "h3_raw_end_taken": (c_uint32, [Handle, c_uint64, OUT]),
    "h3_raw_deliver": TAKES_BYTES,
    "h3_raw_deliver_end": TAKES_ID,
    "h3_raw_deliver_reset": (c_uint32, [Handle, c_uint64, c_uint64, U64_OUT, OUT]),
    "h3_raw_pull": (c_uint32, [Handle, c_uint64, POINTER(RawItem), OUT]),
    "h3_raw_read": (c_uint32, [Handle, c_uint64, BYTES, c_size_t, c_uint32, SIZE_OUT, POINTER(RawItem), U64_OUT, OUT]),
    "h3_raw_next_unblocked": FINDS_NUMBER,
    "h3_raw_item_fields": (c_uint32, [Handle, SIZES, c_size_t, BUFFER, c_size_t, BUFFER, c_size_t, OUT]),
    "h3_raw_item_bytes": (c_uint32, [Handle, c_size_t, BUFFER, c_size_t, SIZE_OUT, OUT]),
    "h3_raw_datagram_head": (c_uint32, [Handle, c_uint64, BUFFER, c_size_t, SIZE_OUT, U64_OUT, OUT]),
    "h3_raw_read_datagram": (c_uint32, [Handle, BYTES, c_size_t, U64_OUT, SIZE_OUT, U64_OUT, OUT]),
    "h3_raw_stream": (c_uint32, [Handle, c_uint64, POINTER(RawStream), OUT]),
    "h3_raw_frame_left": FINDS_NUMBER,
    "h3_raw_stream_kind": (c_uint32, [Handle, c_uint64, U32_OUT, OUT]),
    "h3_raw_other_type": FINDS_NUMBER,
    "h3_raw_connection": (c_uint32, [Handle, POINTER(RawConnection), OUT]),
    "h3_raw_next_event": (c_uint32, [Handle, U32_OUT, U64_OUT, OUT]),
    "h3_raw_peer_setting": FINDS_NUMBER,
    "h3_raw_remember_settings": (c_uint32, [Handle, BUFFER, c_size_t, SIZE_OUT, OUT]),
    "h3_raw_settings_kept": (c_uint32, [Handle, BYTES, c_size_t, U32_OUT, OUT]),
}


def path() -> str:
    """The library that is loaded: the one beside this file (a wheel has it), else the one that the environment's BEANWHILE_H3_LIBRARY
    names, else the system's."""
    beside = os.path.join(os.path.dirname(os.path.abspath(__file__)), NAME)
    return beside if os.path.exists(beside) else os.environ.get(VARIABLE) or NAME


@functools.cache
def library() -> ctypes.CDLL:
    """The shared library, loaded at the first call that needs it.

    Raises ImportError if it is missing, or if its version is not the one that this package needs."""
    place = path()
    try:
        loaded = ctypes.CDLL(place)
        for name, (result, arguments) in DECLARATIONS.items():
            function = getattr(loaded, name)
            function.restype, function.argtypes = result, arguments
    except (OSError, AttributeError) as error:
        raise ImportError(f"{error}: {VARIABLE} may name the file {NAME} of Beanwhile", path=place) from error
    version = loaded.h3_raw_version() & ~UNPROVED
    if version < VERSION or version >> 16 != VERSION >> 16:
        needed = f"{VERSION:#x} or later of the same major version"
        raise ImportError(f"{place} has version {version:#x}, and this package needs {needed}", path=place)
    return loaded
