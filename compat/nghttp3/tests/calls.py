#!/usr/bin/env python3
"""calls.py: the calls that need no peer, asked the same of both libraries: errors, checks of names and values, and messages that a
client submits against a rule for senders."""
import ctypes
import os
import sys

from differences import judge
from library import END, NO_END_STREAM, SETTINGS_VERSION, Connection, Settings, Vector, error_name, libraries


def defaults(library, version):
    """what is written to the struct of such a version, and that nothing is written behind it"""
    settings = Settings()
    ctypes.memset(ctypes.byref(settings), 0xAA, ctypes.sizeof(settings))
    library.settings_default(version, settings)
    return ctypes.string_at(ctypes.byref(settings), ctypes.sizeof(settings)).hex()


def submitted(library, fields, trailer=()):
    """what submit_request answers, and if there is a trailer what submit_trailers answers behind the body"""
    client = Connection(library, False, lambda *_: None)
    answers = [client.request(0, fields, client.reader(lambda _: ([b"body"], END | NO_END_STREAM)))]
    if trailer:
        while (step := client.write())[1] >= 0:
            library.add_write_offset(client.at, step[1], len(step[3]))
        answers.append(client.trail(0, trailer))
    client.free()
    return " ".join(error_name(it) for it in answers)


def questions():
    """(name, what is asked of a library)"""
    yield "version", lambda it: (it.version(0)[0].age, it.version(0)[0].number, bool(it.version(1 << 24)))
    for version in range(1, SETTINGS_VERSION + 1):
        yield f"settings_default of version {version}", lambda it, version=version: defaults(it, version)
    yield "vec_len", lambda it: it.vec_len((Vector * 3)(Vector(None, 5), Vector(None, 0), Vector(None, 1 << 40)), 3)
    for number in range(-1000, 1):
        yield f"strerror({number})", lambda it, number=number: it.strerror(number)
        yield f"err_infer_quic_app_error_code({number})", lambda it, number=number: it.err_infer_quic_app_error_code(number)
        yield f"err_is_fatal({number})", lambda it, number=number: bool(it.err_is_fatal(number))
    alone = [bytes([byte]) for byte in range(256)]
    texts = [b"", b":", b"a ", b" a", b":a", b"::a", *alone, *(b"a" + byte + b"b" for byte in alone)]
    for text in texts:
        yield f"check_header_name({text!r})", lambda it, text=text: bool(it.check_header_name(text, len(text)))
        yield f"check_header_value({text!r})", lambda it, text=text: bool(it.check_header_value(text, len(text)))
    post = [(b":method", b"POST"), (b":scheme", b"https"), (b":authority", b"a.b"), (b":path", b"/")]
    yield "CONNECT", lambda it: submitted(it, [(b":method", b"CONNECT"), (b":authority", b"a.b:1")])
    yield "CONNECT without a port", lambda it: submitted(it, [(b":method", b"CONNECT"), (b":authority", b"a.b")])
    yield "a trailer", lambda it: submitted(it, post, [(b"x-a", b"1")])
    yield "a trailer with cookie", lambda it: submitted(it, post, [(b"cookie", b"1")])


CONTROL = {f"check_header_value({bytes([byte])!r})" for byte in [*range(9), *range(10, 32), 127]}


def case_of(name):
    """one case for all control characters"""
    return "check_header_value of a single control character" if name in CONTROL else name


def main():
    native, ours = libraries()
    text, mark = ours.version(0)[0].text, os.environ["MARK"].encode()
    assert (b"UNPROVED" in text) == bool(mark), f"the version {text} of a library that is marked {mark}"
    found, count = {}, 0
    for name, ask in questions():
        count += 1
        answers = ask(native), ask(ours)
        if answers[0] != answers[1]:
            found[case_of(name)] = tuple(map(str, answers))
    sys.exit(not judge("calls", found, count))


if __name__ == "__main__":
    main()
