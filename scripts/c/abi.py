#!/usr/bin/env python3
"""The binary interface of the shared library beside its description, tests/c/libbeanwhile_h3.abi (Debian: apt-get install abigail-tools).

    python3 scripts/c/abi.py write           writes the description, of include/h3.h as it is (make abi)
    python3 scripts/c/abi.py check FOLDER    has FOLDER's shared library the name and the exports of the description, and h3.h its types and
                                             numbers? Lines 'ok ..' or 'failed ..'; where the tools are missing, a line on stderr

The library has no debugging information, so the types are those of a hollow library of the same exports, compiled from the header with it.
That the header is the one of the exports is what scripts/gate/c_header.py checks."""
import os
import re
import shutil
import subprocess
import sys
import tempfile

ROOT = os.path.dirname(os.path.dirname(os.path.dirname(os.path.realpath(__file__))))
HEADER = os.path.join(ROOT, "include", "h3.h")
DESCRIPTION = os.path.join(ROOT, "tests", "c", "libbeanwhile_h3.abi")
DECLARED = re.compile(r"^(\w+) (h3_raw_\w+)\(([^;{]*?)\);", re.M | re.S)


def read(path):
    with open(path, encoding="utf-8") as file:
        return file.read()


def soname():
    major = re.search(r'#define H3_VERSION_TEXT "(\d+)\.', read(HEADER))[1]
    return f"libbeanwhile_h3.so.{major}"


def hollow_library(room):
    """a shared library of the exports that the header declares, with its types and no code"""
    made = ['#include "h3.h"']
    for result, name, given in DECLARED.findall(read(HEADER)):
        made.append(f"{result} {name}({given}) {{ {'' if result == 'void' else 'return 0; '}}}")
    if len(made) < 2:
        sys.exit(f"{HEADER} declares no exports")
    with open(f"{room}/exports.c", "w", encoding="utf-8") as file:
        file.write("\n".join(made) + "\n")
    library = f"{room}/{soname()}"
    flags = ["-std=c11", "-g", "-fno-eliminate-unused-debug-types", "-shared", "-fPIC", f"-Wl,-soname,{soname()}", f"-I{os.path.dirname(HEADER)}"]
    subprocess.run([os.environ.get("CC", "cc"), *flags, "-o", library, f"{room}/exports.c"], check=True)
    return library


def described(library):
    """the description of a library, with no path of this machine in it"""
    words = ["abidw", "--load-all-types", "--no-corpus-path", "--no-comp-dir-path", "--no-show-locs", library]
    text = subprocess.run(words, check=True, capture_output=True, text=True).stdout
    return re.sub(r" path='[^']*'", "", text)


def exports(library):
    """the name of a library, and the functions that it exports"""
    said = subprocess.run(["readelf", "-W", "--dyn-syms", "-d", library], check=True, capture_output=True, text=True).stdout
    names = re.findall(r" GLOBAL +DEFAULT +\d+ (\w+)$", said, re.M)
    return re.search(r"SONAME.*\[(.*)\]", said)[1], set(names)


def tell(wrong, what):
    print(f"failed abi: {what}: {wrong}" if wrong else f"ok abi: {what}")
    return not wrong


def check(folder):
    text = read(DESCRIPTION)
    wanted = set(re.findall(r"<elf-symbol name='(\w+)'", text))
    name, found = exports(os.path.join(folder, soname()))
    fine = tell(sorted(found ^ wanted), f"{name} has the {len(wanted)} exports of the description")
    named = re.search(r" soname='([^']*)'", text)[1]
    fine &= tell(name != named and [name, named], "its name is that of the description")
    with tempfile.TemporaryDirectory() as room:
        with open(f"{room}/now.abi", "w", encoding="utf-8") as file:
            file.write(described(hollow_library(room)))
        words = ["abidiff", "--non-reachable-types", "--harmless", DESCRIPTION, f"{room}/now.abi"]
        said = subprocess.run(words, capture_output=True, text=True)
        wrong = said.returncode and f"{said.stdout}{said.stderr}(if it is meant: make abi)"
        fine &= tell(wrong, "types and numbers of h3.h are those of the description")
    return fine


def main():
    missing = [it for it in ("abidw", "abidiff", "readelf") if shutil.which(it) is None]
    if missing:
        why = f"left out: the binary interface, which wants {' '.join(missing)} (Debian: apt-get install abigail-tools binutils)"
        print(why, file=sys.stderr)
        sys.exit(1 if sys.argv[1:] == ["write"] else 0)
    if sys.argv[1:] == ["write"]:
        with tempfile.TemporaryDirectory() as room:
            text = described(hollow_library(room))
        with open(DESCRIPTION, "w", encoding="utf-8") as file:
            file.write(text)
    elif len(sys.argv) == 3 and sys.argv[1] == "check":
        sys.exit(0 if check(sys.argv[2]) else 1)
    else:
        sys.exit(__doc__)


main()
