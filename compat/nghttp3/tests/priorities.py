#!/usr/bin/env python3
"""priorities.py: what both libraries read of values of the `priority` field (RFC 9218): by the call for applications, of thousands of
values, and of requests with one such field or several."""
import random
import re
import sys

from byte_cases import CONTROL_TYPE, GET, NO_SETTINGS, head
from differences import judge
from library import Connection, check, libraries

VALUES = [
    b"u=1", b"i", b"u=1, i", b"u=1,i=?0", b"i=?1", b"u=8", b"u=-1", b"u=0;a=1", b'u="1"', b"x=(1 2);q, u=2", b"u=1.5", b"u=1,", b",u=1",
    b"", b" ", b"u", b"u=1  ,  i", b"u=1\t,\ti", b"x=:YWI=:, i", b'x="a\\"b", u=5', b"A=1", b"u=1 i", b"u=000000000000001",
    b"u=9999999999999999", b"x=tok/en:a, u=6", b"x=@123, u=1", b'x=%"a", u=1', b"x=:YWI:, u=2", b"x=:YW=:", b"x=:=:", b"x=::, i",
    b"u=1;a=(1)", b"u=(1)", b"x=1.1234", b"u=3", b"i=?0", b"u=8, u=2", b"u=2, u=8", b"i=1, u=2", b"x=1", b"u=1, x=" + b"a" * 1000,
]
CHANGED = 20000
DEFAULT, HELD, OUT_OF_RANGE = (3, 0), (5, 1), (200, 1)  # what an application has before the call
REFUSED = "INVALID_ARGUMENT"
# of requests: the values of their fields
FIELDS = [[value] for value in VALUES[:8]] + [
    [b"u=1", b"i"], [b"i", b"u=1"], [b"u=1, i", b"u=2"], [b"u=1", b"U"], [b"U", b"u=1"], [b"u=2", b"u=1", b"i", b"x=1"],
    [b"u=8", b"u=1"], [b"u=1", b""], [b"u=1", b"x=" + b"a" * 300, b"i"],
]
STRING = rb'"(?:[^"\\]|\\.)*"'
MEMBER = re.compile(STRING + rb"|(?:^ *|,[ \t]*)([ui])(?![a-z0-9_.*-])")
BYTE_SEQUENCE = re.compile(STRING + rb"|(:[A-Za-z0-9+/=]*:)")


def changed(chance, value):
    """a value with up to three bytes put in, taken out or replaced"""
    value = bytearray(value)
    for _ in range(chance.randint(1, 3)):
        kind, at = chance.randrange(3), chance.randrange(len(value) + 1)
        if kind == 0:
            value[at:at] = bytes([chance.choice(b'ui=?01, ;"()abc*.-:\t9')])
        elif kind == 1:
            del value[at : at + 1]
        elif at < len(value):
            value[at] = chance.choice(b'ui=?01, ;"()abc*.-:\t9\x80')
    return bytes(value)


def with_other_keys(value, places):
    """the members at these places have another key"""
    value = bytearray(value)
    for at in places:
        value[at : at + 1] = b"x"
    return bytes(value)


def with_defaults(native, value, start):
    """what a value says whose members u and i have their defaults where they have values that they cannot have: the last member of a key
    counts. nghttp3 tells it of the value without such members."""
    places = [(it.start(1), it.group(1)) for it in MEMBER.finditer(value) if it.group(1)]
    last = {key: at for at, key in places}
    earlier = [at for at, key in places if at != last[key]]
    for keys in ([], [b"u"], [b"i"], [b"u", b"i"]):
        told = native.parse_priority(with_other_keys(value, [*earlier, *(last[key] for key in keys if key in last)]), start)
        if told != REFUSED:
            return tuple(DEFAULT[at] if key in keys and key in last else told[at] for at, key in enumerate((b"u", b"i")))
    return REFUSED


def with_plain_items(value):
    """dates (RFC 9651, section 3.3.7) and display strings (3.3.8) are integers and strings"""
    return re.sub(rb'%"(?:[ !#$&-~]|%[0-9a-f]{2})*"', b'""', re.sub(rb"@(-?[0-9])", rb"\1", value))


def case_of(native, ours, value, start, answers):
    """the name of a difference, what nghttp3 did, and what we did"""
    if with_defaults(native, value, start) == answers[1]:
        return "a value that u or i cannot have", answers[0], "the default"
    if ours.parse_priority(with_plain_items(value), start) == answers[0]:
        return "a date or a display string", "the priority", answers[1]
    decoded = BYTE_SEQUENCE.sub(lambda it: b":YWI=:" if it.group(1) else it.group(), value)
    if with_defaults(native, decoded, start) == answers[1]:
        return "a byte sequence that is no base64", answers[0], "the priority"
    return f"{value!r} after {start}", *map(str, answers)


def asked(library, values):
    """the priority of a request with such fields: while its fields are told, and after them"""
    told = []
    server = Connection(library, True, lambda kind, stream, *_: told.append((kind, stream)), {
        kind: lambda _, stream: told.append(library.get_priority(server.at, stream)) for kind in ("header", "end_headers")})
    check(server.read(2, CONTROL_TYPE + NO_SETTINGS))
    check(server.read(0, head(*GET, *((b"priority", value) for value in values)), True))
    priorities = [library.get_priority(server.at, 0), *(it for it in told if isinstance(it[0], int))]
    server.free()
    return priorities


def main():
    native, ours = libraries()
    chance, found = random.Random(1), {}
    values = [(value, start) for value in VALUES for start in (DEFAULT, HELD, OUT_OF_RANGE)]
    values.extend((changed(chance, chance.choice(VALUES)), chance.choice((DEFAULT, HELD))) for _ in range(CHANGED))
    for value, start in values:
        answers = native.parse_priority(value, start), ours.parse_priority(value, start)
        if answers[0] != answers[1]:
            case, *of_both = case_of(native, ours, value, start, answers)
            found[case] = tuple(of_both)
    for of_fields in FIELDS:
        answers = asked(native, of_fields), asked(ours, of_fields)
        if answers[0] != answers[1]:
            found["a request with " + " and ".join(map(repr, of_fields))] = tuple(str(it[0]) for it in answers)
    sys.exit(not judge("priorities", found, len(values) + len(FIELDS)))


if __name__ == "__main__":
    main()
