#!/usr/bin/env python3
"""exports.py: the drop-in has each symbol that Debian's library has, but for those of standalone QPACK, and no other."""
import os
import subprocess
import sys

from library import IS_VERSION_1_17

QPACK_CALLS = 27 if IS_VERSION_1_17 else 22  # all that begin so, and all left out
PREFIX = "nghttp3_qpack_"


def symbols(path):
    lines = subprocess.run(["nm", "-D", "--defined-only", path], check=True, capture_output=True, text=True).stdout.splitlines()
    return {line.split()[2] for line in lines}


def main():
    native, ours = symbols(os.environ["NATIVE"]), symbols(os.environ["OURS"])
    left_out = {it for it in native if it.startswith(PREFIX)}
    wrong = sorted((native - left_out) ^ ours)
    if wrong or len(left_out) != QPACK_CALLS:
        print(f"failed exports: {', '.join(wrong) or 'other calls are left out than README.md says'}")
        sys.exit(1)
    print(f"ok exports: {len(ours)} calls of {len(native)}")


if __name__ == "__main__":
    main()
