#!/usr/bin/env python3
"""Scripts of the wider language (crates/h3_cases/README.md, "Scripts"): two endpoints that are made by choices, and lists of fields.

    python3 scripts/gate/wide_scripts.py PROGRAM     runs h3_cases, and prints 'ok NAME' or 'failed NAME' for each of these:

- the scripts of tests/wide, whose answers were worked out from the standards, and by the independent model too (scripts/gate/independent_talk.py)
  unless a strict side finds a message malformed;
- what the word `default` stands for is what `h3_config_default` has (crates/h3_c/src/config.rt);
- between two defaults, lists of the largest size that is announced, of bytes with codes of 5 to 28 bits, beside short ones: all come whole
  (tests/c/defaults.c has lists of any bytes);
- lists with as many names as a header has room for (24,576), and with one more, which is malformed, sent and come;
- between two defaults, requests that are canceled before anything came, cancellations of ids far apart, and GOAWAY frames: 2,000 of each are no
  fault, and a request after them comes whole.
"""
import glob
import os
import re
import subprocess
import sys

sys.path.insert(0, os.path.dirname(os.path.abspath(__file__)))
import independent_talk  # noqa: E402
from independent_qpack import BY_LENGTH, integer, string, varint  # noqa: E402

ROOT = os.path.dirname(os.path.dirname(os.path.dirname(os.path.realpath(__file__))))
GET = ":method=GET :scheme=https :authority=a.b :path=/"
MOST_NAMES = 24576  # so many has a header room for (include/h3.h, H3_FIELD_COUNT)
LARGEST = 65536  # the size of a list that the default announces (RFC 9114, section 4.2.2), in bytes
BEGIN = [("config default / default", "ok ok"), ("carry c", "ok ok ok"), ("carry s", "ok ok ok")]


def size(word):
    """of a field without its value (RFC 9114, section 4.2.2)"""
    name, _, value = word.partition("=")
    return len(name) + len(value) + 32


def ran(program, lines):
    done = subprocess.run([program], input=lines.encode(), stdout=subprocess.PIPE, timeout=900, check=False)
    return done.stdout.decode() if done.returncode == 0 else f"status {done.returncode}"


def answers(program, name, rows):
    """Are these lines answered so?"""
    got = ran(program, "".join(asked + "\n" for asked, _ in rows)).split("\n")
    for (asked, told), answer in zip(rows, got):
        if answer != told:
            print(f"{asked[:200]}: {answer[:200]!r} and not {told[:200]!r}", file=sys.stderr)
            return judged(name, False)
    return judged(name, len(got) == len(rows) + 1)


def judged(name, good):
    print(f"{'ok' if good else 'failed'} {name}")
    return good


def request(id, more=""):
    """a request with these fields, whole at the server"""
    fields = f"{GET} x-a=1{more}"
    return [("open c", f"stream {id}"), (f"fields c {id} {fields}", "ok"), (f"finish c {id}", "ok"), ("carry c", "ok ok ok"), (f"carry c {id}", "ok"),
            (f"pulls s {id}", f"head {fields}"), (f"pulls s {id}", "end"), ("carry s", "ok ok ok")]


def stored(program):
    good, modeled = True, 0
    for script in sorted(glob.glob(f"{ROOT}/tests/wide/*.talk")):
        with open(script, encoding="utf8") as file:
            asked = file.read()
        with open(script[:-5] + ".stdout", encoding="utf8") as file:
            told = file.read()
        name = os.path.basename(script)[:-5]
        rows = list(zip(asked.split("\n"), told.split("\n")))
        good &= answers(program, f"wide script {name}", rows[:-1])
        is_judged = "alformed" in told and ("strict" in asked or "default" in asked)  # by rules of messages, which the model has not
        if not is_judged and "no such line" not in told:
            modeled += 1
            if independent_talk.wide(asked) != told:
                good = judged(f"wide script {name}: the independent model answers otherwise", False)
    return judged(f"the independent model was asked for {modeled} of them", modeled > 0) and good


def numbers(program):
    """what `default` stands for"""
    with open(f"{ROOT}/crates/h3_c/src/config.rt", encoding="utf8") as file:
        body = re.search(r"fn default\(\) -> Self \{\s*GivenConfig \{(.*?)\}", file.read(), re.S).group(1)
    theirs = {name: eval(value) for name, value in re.findall(r"(\w+): ([0-9< ]+),", body)}  # a number, or 1 << 16
    with open(f"{ROOT}/crates/h3_cases/src/choices.rt", encoding="utf8") as file:
        words = re.search(r'const DEFAULT: &str =\s+"(.*?)";', file.read(), re.S).group(1).replace("\\\n", " ").split()
    ours = {name: int(value or 1) for name, _, value in (word.partition("=") for word in words)}
    return judged("`default` is what h3_config_default has", ours == {name: value for name, value in theirs.items() if value or name in ours})


def sizes(program):
    """Between two defaults, as many of one byte as the announced size has room for, beside a short list. Of each length of a Huffman code (RFC 7541,
    Appendix B) one byte that a value may have."""
    most = LARGEST - sum(size(word) for word in GET.split() + ["x-a=1", "x="])
    rows, allowed = list(BEGIN), set(range(0x21, 0x100)) - {0x7F}
    for place, byte in enumerate(max(allowed.intersection(group)) for _, group in BY_LENGTH if allowed.intersection(group)):
        text = chr(byte) if byte < 0x7F and byte != 0x25 else f"%{byte:02X}"
        value = f"%{byte:02X}*{most}"
        rows += [row if "x=" not in row[1] else (row[0], row[1].replace(value, f"{text}*{most}")) for row in request(8 * place, f" x={value}")]
        rows += request(8 * place + 4)
    return answers(program, f"two defaults: lists of {LARGEST} bytes come whole, of bytes with codes of each length", rows)


def names(program):
    """of fields whose names differ, between two sides without limits"""
    few = [f"n{number}=" for number in range(MOST_NAMES)]
    many, ours = [*few, "more="], [f"{GET} {' '.join(it)}" for it in (few, [*few, "n0="])]
    bytes_of = lambda word: string(4, 2, word[:-1].encode()) + string(8, 0, b"")
    section = b"\0\0" + b"".join(map(bytes_of, many))
    rows = [("config /", "ok ok"), ("open c", "stream 0"), (f"fields c 0 {GET} {' '.join(many)}", "refused Malformed TooMany"), (f"fields c 0 {ours[0]}", "ok"),
            (f"trailers c 0 {' '.join(many)}", "refused Malformed TooMany"), (f"trailers c 0 {' '.join(few)}", "ok"), ("carry c 0", "ok"),
            ("pulls s 0", f"head {ours[0]}"), ("pulls s 0", f"trailer {' '.join(few)}"), ("open c", "stream 4"), (f"fields c 4 {ours[1]}", "ok"),
            ("carry c 4", "ok"), ("pulls s 4", f"head {ours[1]}"), ("open c", "stream 8"), (f"call s deliver 8 {(varint(1) + varint(len(section)) + section).hex()}", "ok"),
            ("pulls s 8", "fault malformed TooMany")]
    return answers(program, f"lists of {MOST_NAMES} names, and of one more", rows)


def early_cancellations(program):
    """The decoder stream goes over before the settings."""
    rows = [BEGIN[0]]
    for place in range(2000):
        rows += [("open c", f"stream {4 * place}"), (f"cancel c {4 * place}", "ok")]
    return answers(program, "two defaults: 2,000 requests that are canceled before the settings came", rows + [("carry c 10", "ok")] + BEGIN[1:] + request(8000))


def far_cancellations(program):
    """RFC 9204, section 4.4.2: ids far apart, which no request has yet"""
    text = b"\x03" + b"".join(integer(6, 1, 4_000_000 * place) for place in range(2000, 0, -1))
    own = [("carry c 2", "ok"), ("carry c 6", "ok"), BEGIN[2]]
    rows = [row if row[0] != "carry c" else ("carry c 6", "ok") for row in request(0)]
    return answers(program, "two defaults: 2,000 cancellations of ids far apart", BEGIN[:1] + own + [(f"call s deliver 10 {text.hex()}", "ok")] + rows)


def goaways(program):
    """RFC 9114, section 5.2: the last id counts. A request below it that was open goes on."""
    first = request(0)
    rows = first[:4] + [(f"goaway s {8000 - 4 * place}", "ok") for place in range(2000)] + [("carry s", "ok ok ok")] + first[4:]
    return answers(program, "two defaults: 2,000 GOAWAY frames", BEGIN + rows + [("open c", "refused GoingAway 4")])


def main():
    program = sys.argv[1]
    good = [check(program) for check in (stored, numbers, sizes, names, early_cancellations, far_cancellations, goaways)]
    return 0 if all(good) else 1


if __name__ == "__main__":
    sys.exit(main())
