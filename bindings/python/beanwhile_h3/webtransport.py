"""The codes of WebTransport's applications (draft-ietf-webtrans-http3-02, section 4.3)."""

from __future__ import annotations

from ctypes import byref, c_uint32, c_uint64

from . import raw
from .errors import Answer, refused


def webtransport_code(number: int) -> int:
    """The code with which a stream of a session is reset for a number of an application. Raises `Answer.ARGUMENT`: it is 2^32 or more."""
    if not 0 <= number < 1 << 32:
        raise refused(Answer.ARGUMENT)
    return raw.library().h3_raw_webtransport_code(c_uint32(number))


def webtransport_number(code: int) -> int | None:
    """The number of an application for such a code, if it has one."""
    number = c_uint32()
    if not 0 <= code < 1 << 64 or raw.library().h3_raw_webtransport_number(c_uint64(code), byref(number)):
        return None
    return number.value
