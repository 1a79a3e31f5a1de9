#!/usr/bin/env python3
"""The tables of the Huffman code (`tables.rt` and `byte_words.rt` in `crates/h3_huffman/src`) and of the static table
(`crates/h3_field/src/static_/tables.rt`), made of the definitions that the contracts cite: the symbols of each length of word in
`crates/h3_huffman/specs/Huffman.antt` (RFC 7541, appendix B) and the rows of `crates/h3_field/specs/StaticTable.antt` (RFC 9204,
appendix A).

    python3 scripts/gate/tables.py            compares: one line 'ok NAME' or 'failed NAME' for each table
    python3 scripts/gate/tables.py --write    writes the numbers of the tables anew (then run rt fmt in the crate)
    python3 scripts/gate/tables.py --search   prints multipliers below 64 that give each name a slot of its own, then each entry

That the tables say what the definitions do is proved; this shows how they are made. A slot is found by a hash, a sum of the length and of
some bytes by multipliers (`name_hash`, `field_hash` in `specs/StaticHash.antt`). Multipliers are found by trial: any do that give no two
names, and no two entries, one slot. Those in use are held to that here.
"""
import os
import random
import re
import sys

TOP = os.path.dirname(os.path.dirname(os.path.dirname(os.path.abspath(__file__))))
DECODING, ENCODING, STATIC = "crates/h3_huffman/src/tables.rt", "crates/h3_huffman/src/byte_words.rt", "crates/h3_field/src/static_/tables.rt"
FRONT, LONGEST, NONE, END = 12, 30, 99, 256
NAME_BY, FIELD_BY = (42, 29, 12), (21, 6, 56, 55)


def text_of(path):
    with open(f"{TOP}/{path}", encoding="utf-8") as file:
        return file.read()


def symbols_by_length():
    """each length of a word with its symbols in order"""
    body = re.search(r"^symbols_by_length =\n(.*?)\n\n", text_of("crates/h3_huffman/specs/Huffman.antt"), re.S | re.M)[1]
    rows = []
    for length, symbols in re.findall(r"^ *\((\d+), (.*)\) ∷(?: \[\])?$", body, re.M):
        found = []
        for text, first, last, one in re.findall(r'codes "([^"]*)"|numbers_to (\d+) (\d+)|\b(\d+)\b', symbols):
            found += [ord(c) for c in text] if text else range(int(first), int(last) + 1) if first else [int(one)]
        rows.append((int(length), found))
    return rows


def code_words(rows):
    """the word and its length of each symbol: each word is the one before it and one more, with zeros behind it"""
    words, word, before = {}, 0, rows[0][0]
    for length, symbols in rows:
        word <<= length - before
        before = length
        for symbol in symbols:
            words[symbol] = (word, length)
            word += 1
    return words


def entry(by_word, index):
    """the symbols of the first one or two words of twelve bits: the first symbol in bits 0 to 7, the second in bits 8 to 15, the length of
    all words in bits 16 to 19, that of the first in bits 20 to 23, and from bit 24 on the number of symbols"""
    found, at = [], 0
    for length in range(1, FRONT + 1):
        word = index >> FRONT - length & (1 << length - at) - 1
        if length > at and (word, length - at) in by_word and len(found) < 2:
            found.append((by_word[word, length - at], length - at))
            at = length
    second = found[1][0] if len(found) == 2 else 0
    return len(found) << 24 | found[0][1] << 20 | at << 16 | second << 8 | found[0][0]


def decoding(rows, words):
    by_word = {at: symbol for symbol, at in words.items()}
    long_rows = [(length, symbols) for length, symbols in rows if length > FRONT]
    limits = [words[symbols[0]][0] << LONGEST - length for length, symbols in long_rows] + [1 << LONGEST]
    counts = [len(symbols) for _, symbols in long_rows]
    return {
        "ENTRIES": ([entry(by_word, index) for index in range(limits[0] >> LONGEST - FRONT)], hex),
        "LIMITS": (limits, hex),
        "LENGTHS": ([length for length, _ in long_rows], str),
        "OFFSETS": ([sum(counts[:row]) for row in range(len(counts))], str),
        "SYMBOLS": ([symbol for _, symbols in long_rows for symbol in symbols], str),
    }


def encoding(words):
    return {
        "WORDS": ([words[byte][0] << 64 - words[byte][1] for byte in range(END)], hex),
        "WORD_LENGTHS": ([words[byte][1] for byte in range(END)], str),
    }


def entries():
    """the names and values of the static table, by index"""
    found = []
    body = re.search(r"^static_rows =\n(.*?)\n    \[\]\n", text_of("crates/h3_field/specs/StaticTable.antt"), re.S | re.M)[1]
    for row in body.split("\n"):
        name, values = re.fullmatch(r' *\(codes "([^"]*)", (.*) ∷ \[\]\) ∷', row).groups()
        found += [(name.encode(), value.encode()) for value in ([""] if values == "[]" else re.findall(r'codes "([^"]*)"', values))]
    return found


def name_hash(name, by):
    last = len(name) - 1
    return (by[0] * (len(name) % 128) + by[1] * name[last] + by[2] * name[last - len(name) // 6]) % 256


def field_hash(name, value, name_by, by):
    ends = [value[at] for at in (len(value) - 1, len(value) // 2, len(value) // 4)] if value else [0, 0, 0]
    return (by[0] * (name_hash(name, name_by) + len(value) % 128) + sum(m * byte for m, byte in zip(by[1:], ends))) % 512


def starts(parts):
    return [sum(map(len, parts[:at])) for at in range(len(parts) + 1)]


def slots(count, hashes):
    """the least index of each hash"""
    table = [NONE] * count
    for index, at in reversed(list(enumerate(hashes))):
        table[at] = index
    return table


def static():
    rows = entries()
    names, values = [name for name, _ in rows], [value for _, value in rows]
    hashes = [field_hash(name, value, NAME_BY, FIELD_BY) for name, value in rows]
    if len({name_hash(name, NAME_BY) for name in names}) != len({*names}) or len({*hashes}) != len(rows):
        sys.exit("failed static table: two names or two entries have one slot")
    return {
        "NAMES": (b"".join(names), None),
        "NAME_STARTS": (starts(names), str),
        "VALUES": (b"".join(values), None),
        "VALUE_STARTS": (starts(values), str),
        "NAME_SLOTS": (slots(256, [name_hash(name, NAME_BY) for name in names]), str),
        "FIELD_SLOTS": (slots(512, hashes), str),
    }


def committed(text, name):
    """the place of a table's numbers or bytes in the text, and what it holds"""
    found = re.search(r"\b%s: \[\w+; (\d+)\] = (?:\[(.*?)\]|\*b\"\\\n(.*?)\");" % name, text, re.S)
    if found[2] is None:
        return found.span(3), int(found[1]), re.sub(r"\\\n\s*", "", found[3].strip()).encode()
    return found.span(2), int(found[1]), [int(it, 0) for it in re.findall(r"\w+", found[2])]


def filled(numbers, how):
    """lines of at most 100 columns"""
    lines = ["   "]
    for word in (f" {how(it)}," for it in numbers):
        lines = lines + ["   " + word] if len(lines[-1]) + len(word) > 100 else lines[:-1] + [lines[-1] + word]
    return "\n" + "\n".join(lines) + "\n"


def compare(path, tables):
    text, bad = text_of(path), 0
    for name, (wanted, _) in tables.items():
        _, count, found = committed(text, name)
        is_same = found == wanted and count == len(wanted)
        print(f"{'ok' if is_same else 'failed'} {path}: {name}")
        bad += not is_same
    return bad


def write(path, tables):
    """writes the tables of numbers; the texts of names and values stay, since their lines are cut by hand"""
    text = text_of(path)
    for name, (wanted, how) in tables.items():
        (start, end), _, found = committed(text, name)
        if how and found != wanted:
            text = text[:start] + filled(wanted, how) + text[end:]
    with open(f"{TOP}/{path}", "w", encoding="utf-8") as file:
        file.write(text)


def search():
    rows = entries()
    names = {name for name, _ in rows}
    chance = random.Random(0)
    trials = lambda count: iter(lambda: tuple(chance.randrange(64) for _ in range(count)), None)
    of_names = next(by for by in trials(3) if len({name_hash(name, by) for name in names}) == len(names))
    print("names:", *of_names)
    of_rows = next(by for by in trials(4) if len({field_hash(*row, of_names, by) for row in rows}) == len(rows))
    print("entries:", *of_rows)


def main():
    if sys.argv[1:] == ["--search"]:
        return search()
    rows = symbols_by_length()
    words = code_words(rows)
    files = ((DECODING, decoding(rows, words)), (ENCODING, encoding(words)), (STATIC, static()))
    if sys.argv[1:] == ["--write"]:
        for path, tables in files:
            write(path, tables)
    return 1 if sum(compare(path, tables) for path, tables in files) else 0


if __name__ == "__main__":
    sys.exit(main())
