#!/usr/bin/env python3
"""Does docs/C_API.md say of each call of include/h3.h what it refuses, and of each number of h3_config what it is by default?

    python3 scripts/gate/refusals.py           compares: a line 'ok ..' or 'failed ..' for each of both
    python3 scripts/gate/refusals.py --write   writes the table of refusals

The refusals of a call are the answers that its comment names behind "Refused", and H3_NONE. "Refused as h3_X" stands for those of that call.
The defaults are those of the definition by which h3_config_default is proved. SECURITY.md has them in its table of limits, too."""
import re
import sys

from texts import read, say, write

PAGE, HEADER, DEFAULTS = "docs/C_API.md", "include/h3.h", "crates/h3_c/specs/Configs.antt"
TABLE = re.compile(r"(<!-- refusals.py writes from here -->\n).*?(<!-- to here -->)", re.S)
CALL = re.compile(r"/\*((?:(?!\*/).)*)\*/\n(?:/\*(?:(?!\*/).)*\*/\n)*static inline uint32_t (h3_(?!version)\w+)\(", re.S)
EVERYWHERE = {"H3_NO_ENDPOINT"}


def answers(header):
    return set(re.findall(r"\bH3_\w+(?= = \d)", re.search(r"enum h3_answer \{(.*?)\};", header, re.S)[1])) - EVERYWHERE - {"H3_OK"}


def named(text, known):
    """the answers that a text names, each once, in its order"""
    return list(dict.fromkeys(it for it in re.findall(r"\bH3_[A-Z_]+\b", text) if it in known))


def of_comment(comments, call, known):
    text = " ".join(re.sub(r"\n \*", " ", comments[call]).split())
    refused = text.partition("Refused")[2]
    found = named(refused, known)
    base = re.search(r"^ as (h3_\w+|bytes)", refused)
    if base:
        first = of_comment(comments, "h3_deliver" if base[1] == "bytes" else base[1], known)
        if "but after the refusals of the list" in refused:
            first = first[: first.index("H3_FIELD_COUNT") + 1]
        if re.search(r"except H3_\w+", refused):
            without = re.search(r"except (H3_\w+)", refused)[1]
            first, found = [it for it in first if it != without], [it for it in found if it != without]
        found = list(dict.fromkeys(first + found))
    return found + [it for it in named(text.partition("Refused")[0], {"H3_NONE"}) if it not in found]


def refusals(header):
    known, comments = answers(header), {call: comment for comment, call in CALL.findall(header)}
    return {call: of_comment(comments, call, known) for call in comments}


def table(header):
    rows = ["| Call | Refusals |", "|---|---|"]
    calls = {}
    for call, them in refusals(header).items():
        calls.setdefault(tuple(them), []).append(f"`{call}`")
    for them, names in calls.items():
        rows.append(f"| {', '.join(names)} | {', '.join(f'`{it}`' for it in them) or 'none'} |")
    return "\n".join(rows) + "\n"


def defaults():
    """the numbers that the definition of h3_config_default sets, by their names"""
    text = read(DEFAULTS)
    return {name: int(number) for name, number in re.findall(r"^ +(\w+) = (\d+);", text, re.M)}


def wrong_defaults(page, header):
    fields = re.findall(r"^ +uint64_t (\w+);", re.search(r"typedef struct \{((?:(?!typedef).)*)\} h3_config;", header, re.S)[1], re.M)
    rows = re.findall(r"^\| (`\w+`(?:, `\w+`)*) \| ?([\d,]*) \|", re.search(r"## The configuration\n(.*?)\n## ", page, re.S)[1], re.M)
    said = {name: number.replace(",", "") for names, number in rows for name in re.findall(r"\w+", names)}
    yield from (f"it has no row of {it}" for it in fields if it not in said)
    yield from (f"h3_config has no {it}" for it in said if it not in fields)
    for name, number in defaults().items():
        if name in said and said[name] != str(number):
            yield f"{name} is {number} by default, and it says {said[name]}"


def wrong_limits():
    """the defaults of the table of limits in SECURITY.md that are not those of the definition"""
    table = re.search(r"## The limits of an endpoint\n(.*?)\n## ", read("SECURITY.md"), re.S)[1]
    for name, said in re.findall(r"^\| `(\w+)` \| [^|\d]*([\d,]+)[^|]*\|", table, re.M):
        numbers = defaults()
        least = 4 * max(numbers["max_field_section_size"], numbers["table"])
        if int(said.replace(",", "")) != (least if name == "unfinished_limit" else numbers[name]):
            yield f"SECURITY.md says that {name} is {said} by default"


def main():
    page, header = read(PAGE), read(HEADER)
    new = TABLE.sub(lambda it: it[1] + table(header) + it[2], page)
    if sys.argv[1:] == ["--write"]:
        return write(PAGE, new)
    count = len(refusals(header))
    stale = [] if new == page else ["its refusals are not those of h3.h (python3 scripts/gate/refusals.py --write)"]
    fine = say(stale, f"{PAGE}: the refusals of {count} calls as h3.h has them", PAGE)
    fine &= say([*wrong_defaults(page, header), *wrong_limits()], f"{PAGE}: each number of h3_config, and {len(defaults())} defaults as they are proved", PAGE)
    sys.exit(0 if fine else 1)


main()
