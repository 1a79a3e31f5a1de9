#!/usr/bin/env python3
"""byte_scripts.py: the cases of byte_cases.py, each given to a connection of Debian's library and to one of ours: callbacks, errors and
consumed bytes are compared. Of a head that is refused nghttp3 tells some fields before it sees why, and ours none: such callbacks are
left out."""
import re
import sys

from byte_cases import CASES, GET
from differences import judge
from library import WOULDBLOCK, Connection, error_name, libraries

NO_LIMIT = 2**62 - 1
SHORT = {f"settings:({NO_LIMIT}, 0, 0, 0, 0)": "settings",
         **{f"begin_headers header:1::method={method} header:9::scheme=https header:0::authority=a.b header:8::path=/ ": f"{method} "
            for method in ("GET", "POST")},
         **{f"begin_headers header:11::status={status}": str(status) for status in (103, 200, 204, 304)}}
OF_A_SECTION = ("begin_headers", "header", "begin_trailers", "trailer")


def opened(library, case, say):
    """a connection on which its client has asked"""
    connection = Connection(library, case.side == "server", say)
    if case.side == "server":
        library.set_max_client_streams_bidi(connection.at, 100)  # an update of one beyond is refused by nghttp3 alone (README.md)
    if case.side == "client":
        is_tunnel = case.method == b"CONNECT"
        fields = [(b":method", case.method), *([(b":authority", b"a.b:443")] if is_tunnel else GET[1:])]
        assert connection.request(0, fields, connection.reader(lambda _: WOULDBLOCK) if is_tunnel else None) == 0
        while True:
            _, stream, _, data = connection.write()
            if stream < 0:
                break
            library.add_write_offset(connection.at, stream, len(data))
    return connection


def without_refused_head(told):
    while told and told[-1][0] in OF_A_SECTION:
        told.pop()


def told_of(events, has_error):
    told = []
    for event in events:
        if event[0] in ("stop", "reset"):
            without_refused_head(told)
        if event[0] == "data" and told and told[-1][:2] == event[:2]:
            told[-1] = (*event[:2], told[-1][2] + event[2])
        else:
            told.append(event)
    if has_error:
        without_refused_head(told)
    return told


def shown(event):
    kind, stream, *what = event
    if kind in ("stop", "reset"):
        return f"{kind}:{what[0]:#x}"
    if kind in ("header", "trailer"):
        return f"{kind}:{what[0]}:" + repr(what[1] + b"=" + what[2])[2:-1]
    if kind == "data":
        return "data:" + repr(what[0])[2:-1]
    if kind in ("settings", "shutdown"):
        return f"{kind}:{stream}"
    return f"{kind}:end" if kind.startswith("end_") and what and what[0] else kind


def answer(library, case):
    """what an application is told, the error, and how many bytes were consumed beside those of bodies"""
    events = []
    connection = opened(library, case, lambda *event: events.append(event))
    error, consumed = 0, 0
    for stream, data, is_end in case.deliveries:
        result = connection.read(stream, data, is_end)
        if result < 0:
            error = result
            break
        consumed += result
    connection.free()
    told = " ".join(shown(it) for it in told_of(events, error))
    for long, short in SHORT.items():
        told = told.replace(long, short)
    if error:
        return f"{told} error:{error_name(error)}:{library.err_infer_quic_app_error_code(error):#x}".strip()
    return f"{told} consumed:{consumed + sum(it[2] for it in events if it[0] == 'consume')}".strip()


def difference(name, answers):
    """one case for all header sections after which nghttp3 1.17 closes the connection, and 1.8 and ours end the stream"""
    ends = "error:MALFORMED_HTTP_HEADER:0x10e", r"stop:0x10e reset:0x10e consumed:\d+"
    begins = [re.fullmatch("(.*?) ?" + end, it) for end, it in zip(ends, answers)]
    if all(begins) and begins[0].group(1) == begins[1].group(1):
        return "a malformed header section", ("the connection is closed", "the stream ends")
    return name, answers


def main():
    native, ours = libraries()
    found = {}
    for case in CASES:
        answers = answer(native, case), answer(ours, case)
        if answers[0] != answers[1]:
            name, answers = difference(case.name, answers)
            found[name] = answers
    sys.exit(not judge("byte scripts", found, len(CASES)))


if __name__ == "__main__":
    main()
