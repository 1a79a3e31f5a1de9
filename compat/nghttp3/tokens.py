#!/usr/bin/env python3
"""tokens.py NGHTTP3_H: prints the field names that nghttp3.h has tokens for, sorted by a place that the length and the last byte of a name
give, as the header that tokens.c includes."""
import re
import sys
from collections import Counter

PLACES = 128


def rows(header):
    """(name, token) of each item of the enum"""
    items = re.search(r"typedef enum nghttp3_qpack_token \{(.*?)\} nghttp3_qpack_token;", header, re.S)[1]
    token = -1
    for item in re.sub(r"/\*.*?\*/", "", items, flags=re.S).split(","):
        found = re.match(r"\s*NGHTTP3_QPACK_TOKEN_(\w+)\s*(?:=\s*(\d+))?\s*$", item)
        if not found:
            continue
        token = int(found[2]) if found[2] else token + 1
        name = found[1].lower().replace("_", "-")
        yield (":" + name[1:] if name.startswith("-") else name), token


def places_of(names):
    """the multiplier by which names are found with the fewest comparisons, and each name's place"""
    def places(multiplier):
        return [(len(name) * multiplier + ord(name[-1])) % PLACES for name in names]

    best = min(range(PLACES), key=lambda multiplier: sum(count**2 for count in Counter(places(multiplier)).values()))
    return best, dict(zip(names, places(best)))


def main():
    with open(sys.argv[1], encoding="utf-8") as file:
        tokens = dict(rows(file.read()))
    multiplier, place = places_of(sorted(tokens))
    names = sorted(tokens, key=lambda name: (place[name], name))
    print("/* written by tokens.py from the installed nghttp3.h */")
    print("typedef struct known {\n  const struct known *next; /* at the same place */")
    print("  const char *name;\n  size_t length;\n  int32_t token;\n} known;")
    print("static const known KNOWN[] = {")
    for at, name in enumerate(names, 1):
        after = f"KNOWN + {at}" if at < len(names) and place[names[at]] == place[name] else "NULL"
        print(f'    {{{after}, "{name}", {len(name)}, {tokens[name]}}},')
    print("};")
    print(f"enum {{ PLACES = {PLACES}, MULTIPLIER = {multiplier} }};")
    print("static const known *const FIRST_AT[PLACES] = {")
    for at, name in enumerate(names):
        if at == 0 or place[names[at - 1]] != place[name]:
            print(f"    [{place[name]}] = KNOWN + {at},")
    print("};")


main()
