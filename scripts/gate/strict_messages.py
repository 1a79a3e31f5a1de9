#!/usr/bin/env python3
"""Messages of tests/strict/messages.tsv, each given as bytes to a strict endpoint, and each answered as the standards ask.

    python3 scripts/gate/strict_messages.py PROGRAM          the endpoint of the program h3_cases
    python3 scripts/gate/strict_messages.py --peer PROGRAM   that of the library for C beside nghttp3's (bench/interop_strict.c)

A row has the side that receives the message, whether extended CONNECT was announced, the method that was asked (of a response), whether the stream ends, the
message (sections `H=name:=value;..` and bodies `D=length`), the answer that the standards ask, their section, a note, what nghttp3 0.8.0 answers where that is
another one, and what 1.8.0 answers where that is another one than 0.8.0's. A line `# ..` is the mark of a rule (scripts/gate/rules.py). The rows were written from the standards, before any program ran them. Prints 'ok NAME' or 'failed NAME' and the rows that were answered otherwise.
"""
import collections
import os
import re
import subprocess
import sys

ROOT = os.path.dirname(os.path.dirname(os.path.dirname(os.path.realpath(__file__))))
NO_LIMIT = 2**62 - 1
H3_FRAME_UNEXPECTED, H3_REQUEST_INCOMPLETE, H3_MESSAGE_ERROR = 0x105, 0x10D, 0x10E

Row = collections.namedtuple("Row", "side extended asked ended parts expected section note peer later", defaults=[""])
PEERS = ["0.8.0", "1.8.0"]  # the versions of nghttp3 whose answers the table has


def unescaped(text):
    return re.sub(rb"\\x(..)", lambda found: bytes([int(found[1], 16)]), text.encode("latin-1"))


def parts_of(text):
    """the sections and bodies of a message: lists of fields, and lengths"""
    made = []
    for part in text.split(" | "):
        kind, rest = part[:2], part[2:]
        if kind == "D=":
            made.append(int(rest))
        else:
            made.append([tuple(unescaped(it) for it in field.split(":=", 1)) for field in rest.split(";") if field])
    return made


def rows():
    with open(f"{ROOT}/tests/strict/messages.tsv", encoding="latin-1") as table:
        lines = [line.rstrip("\n").split("\t") for line in table if not line.startswith("# ")][1:]
    return [Row(*line[:4], parts_of(line[4]), *line[5:]) for line in lines]


def prefixed(number, bits, flags):
    """RFC 7541, section 5.1"""
    most = (1 << bits) - 1
    if number < most:
        return bytes([flags | number])
    out, number = [flags | most], number - most
    while number >= 128:
        out.append(number % 128 | 128)
        number //= 128
    return bytes(out + [number])


def section(fields):
    """a field section of literals without a table (RFC 9204, section 4.5.6)"""
    return b"\0\0" + b"".join(prefixed(len(name), 3, 0x20) + name + prefixed(len(value), 7, 0) + value for name, value in fields)


def varint(number):
    return bytes([number]) if number < 64 else (number | 0x4000).to_bytes(2, "big")


def frame(kind, payload):
    return varint(kind) + varint(len(payload)) + payload


def message(parts):
    return b"".join(frame(0, b"h" * part) if isinstance(part, int) else frame(1, section(part)) for part in parts)


def request(method):
    if method == "CONNECT":
        return [(b":method", b"CONNECT"), (b":authority", b"a:443")]
    return [(b":method", method.encode()), (b":scheme", b"https"), (b":authority", b"a"), (b":path", b"/")]


def calls(row):
    """the calls of an endpoint that receives the message, as lines that h3_cases reads, and how many of their answers come before the pulls"""
    extended = " extended_connect" if row.extended == "1" else ""
    lines = [f"call new {row.side} {NO_LIMIT} 0 0 strict{extended}"]
    if row.side == "c":
        fields = "".join(f" {name.decode()}={value.decode()}" for name, value in request(row.asked))
        lines += ["call open", f"call head 0{fields}"]
    lines.append(f"call deliver 0 {message(row.parts).hex() or '-'}")
    if row.ended == "1":
        lines.append("call end 0")
    pulls = 2 * len(row.parts) + 2
    return lines + ["call pull 0"] * pulls, len(lines)


def outcome(row, answers):
    """the answer of an endpoint that was pulled until it gave nothing new, in the words of the table"""
    handed = []
    for answer in answers:
        words = answer.split(" ")
        if words[0] == "fault":
            return " ".join(words[1:]) if words[1] == "malformed" else f"fault {H3_FRAME_UNEXPECTED}" if words[1] == "H3_FRAME_UNEXPECTED" else answer
        if words[0] in ("end", "pending"):
            break
        handed.append(len(words[1]) if words[0] == "body" else words[0])
    if words[0] != ("end" if row.ended == "1" else "pending"):
        return f"stops at {answer}"
    return "ok" if is_whole(row, handed) else f"hands out {handed}"


def is_whole(row, handed):
    """Was each section handed out, and each byte of content?"""
    sections = sum(not isinstance(part, int) for part in row.parts)
    content = sum(part for part in row.parts if isinstance(part, int))
    return sum(isinstance(it, str) for it in handed) == sections and sum(it for it in handed if isinstance(it, int)) == content


def by_program(program):
    """what the program h3_cases answers to each row"""
    asked, places = [], []
    for row in rows():
        lines, before = calls(row)
        places.append((row, len(asked) + before, len(asked) + len(lines)))
        asked += lines
    ran = subprocess.run([program], input="\n".join(asked) + "\n", capture_output=True, text=True)
    answers = ran.stdout.splitlines()
    if ran.returncode or len(answers) != len(asked):
        sys.exit(f"failed the program answers {len(answers)} of {len(asked)} lines, status {ran.returncode}")
    for row, start, end in places:
        yield row, outcome(row, answers[start:end])


def code_of(row, answer):
    """an answer of the table as a peer tells it: by its code"""
    if answer == "ok" or answer.startswith("fault"):
        return answer
    return f"refused {H3_REQUEST_INCOMPLETE if answer.endswith('NoHead') and row.side == 's' else H3_MESSAGE_ERROR}"


def told(name, wrong, count):
    for line in wrong:
        print(line)
    print(f"{'failed' if wrong else 'ok'} {name}: {count - len(wrong)} of {count} messages")
    return not wrong


def is_of_other_side(side, fields):
    """A head that is none of the messages that come to this side: each endpoint asks that first, also one that is not strict."""
    names = {name for name, _ in fields}
    own, other = (b":method", b":status") if side == "s" else (b":status", b":method")
    return own not in names or other in names


def wanted(row):
    """the answer of an endpoint: it asks the strict rules behind those that every endpoint asks, of which two tell some rows by another name"""
    if row.expected in ("ok", "malformed Name", "malformed Value") or row.expected.startswith("fault"):
        return row.expected
    sections = [part for part in row.parts if not isinstance(part, int)]
    heads = [it for it in sections if not any(name == b":status" and value[:1] == b"1" for name, value in it)]
    if heads and is_of_other_side(row.side, heads[0]):
        return "malformed WrongSide"
    if row.expected == "malformed WrongPseudo" and any(name[:1] == b":" for it in heads[1:] for name, _ in it):
        return "malformed PseudoInTrailer"
    return row.expected


def check_program(program):
    found = list(by_program(program))
    wrong = [f"{row.side} {row.note}: {answer}, and not {wanted(row)}" for row, answer in found if answer != wanted(row)]
    return told("strict messages", wrong, len(found))


def by_peer(row, version):
    """what the table says of nghttp3 of this version: its answer, and the reason of that where it is not the one that the standards ask"""
    said = row.later if row.later and version == "1.8.0" else row.peer
    answer, _, reason = said.partition(": ")
    return answer or code_of(row, row.expected), reason


def check_peer(program):
    """the library for C and nghttp3, side by side: each row is answered by ours as the table says, and by nghttp3 as the table says of it. The program says which
    version of nghttp3 it has; of one that the table does not know nothing is checked."""
    version = subprocess.run([program, "version"], capture_output=True, text=True, check=True).stdout.strip()
    all_rows = rows()
    lines = "".join(f"{row.side} {row.extended} {row.asked} {row.ended} {message(row.parts).hex() or '-'}\n" for row in all_rows)
    ran = subprocess.run([program], input=lines, capture_output=True, text=True)
    answers = [line.split("\t") for line in ran.stdout.splitlines()]
    if ran.returncode or len(answers) != len(all_rows):
        sys.exit(f"failed the program answers {len(answers)} of {len(all_rows)} messages, status {ran.returncode}")
    ours, theirs, alone = [], [], []
    for row, (mine, other) in zip(all_rows, answers):
        if mine != code_of(row, row.expected):
            ours.append(f"{row.side} {row.note}: we say {mine}, and not {code_of(row, row.expected)}")
        said, reason = by_peer(row, version)
        if other != said:
            theirs.append(f"{row.side} {row.note}: nghttp3 says {other}, and not {said}")
        if mine == "ok" and other != "ok" and not reason:
            alone.append(f"{row.side} {row.note}: nghttp3 alone refuses it, and no reason is given")
    good = told("strict messages at our endpoint, over the library for C", ours, len(all_rows))
    if version not in PEERS:
        print(f"skipped strict messages at nghttp3 {version}: the table says what {' and '.join(PEERS)} answer")
        return good
    good &= told(f"strict messages at nghttp3 {version}, but for what the table explains", theirs, len(all_rows))
    return told(f"messages that nghttp3 {version} alone refuses have their reason", alone, len(all_rows)) and good


def main(arguments):
    if len(arguments) == 2 and arguments[0] == "--peer":
        return check_peer(arguments[1])
    if len(arguments) == 1:
        return check_program(arguments[0])
    sys.exit(__doc__)


if __name__ == "__main__":
    sys.exit(0 if main(sys.argv[1:]) else 1)
