"""The differences that are meant: differences.txt. A test reports what it found by `judge`: what stands in the list, as it stands there,
is meant, and all else is a failure; so is an entry that no longer occurs."""
import os
import re

from library import IS_VERSION_1, VERSION

LIST = os.path.join(os.path.dirname(os.path.realpath(__file__)), "differences.txt")
KEYS = ("test", "case", "of", "nghttp3", "ours", "why")


def entries():
    """each block of the list as a dictionary; a line that begins with a space goes on with the one before"""
    with open(LIST, encoding="utf-8") as file:
        text = "".join(line for line in file if not line.startswith("#"))
    for block in text.replace("\n  ", " ").strip().split("\n\n"):
        entry = dict(line.split(": ", 1) for line in block.split("\n"))
        assert set(entry) == set(KEYS), f"differences.txt, {entry.get('case')}: a block has the keys {', '.join(KEYS)}"
        yield entry


def as_told(text):
    """0.8 has no callback for settings"""
    return text if IS_VERSION_1 else re.sub(r"settings(:\(.*?\))? ", "", text)


def judge(test, found, count):
    """`found`: case -> (what nghttp3 did, what we did). Prints a line 'ok ..' or 'failed ..', and says whether it is ok."""
    of_test = [it for it in entries() if it["test"] == test and VERSION in it["of"].split()]
    listed = {it["case"]: (as_told(it["nghttp3"]), as_told(it["ours"])) for it in of_test}
    wrong = []
    for case, (native, ours) in found.items():
        if case not in listed:
            wrong.append(f"{case}: not in differences.txt\n    nghttp3: {native}\n    ours: {ours}")
        elif listed[case] != (native, ours):
            wrong.append(f"{case}: not as differences.txt says\n    nghttp3: {native}\n    ours: {ours}")
    wrong.extend(f"{case}: stands in differences.txt, and did not occur" for case in listed if case not in found)
    for it in wrong:
        print(f"failed {test}: {it}")
    if not wrong:
        print(f"ok {test}: {count} cases, {len(listed)} differences, all of them meant")
    return not wrong
