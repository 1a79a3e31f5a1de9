#!/usr/bin/env python3
"""dist.py FOLDER TO: packs the library of FOLDER (build/c) into TO, which is made anew: a tarball, Debian packages, the Rust crate, the Go
module and the Python wheel, and SHA256SUMS of these. A library without proofs is refused, unless UNPROVED=1 is set: then each name and each
description says so. The same commit and library give the same bytes."""
import os
import shutil
import sys

import crate
import debian
import go_module
import tarball
import wheel
from release import Release
from tree import Tree


def main():
    if len(sys.argv) != 3:
        sys.exit(__doc__)
    release, to = Release(sys.argv[1]), sys.argv[2]
    part = f"{to}.part"
    shutil.rmtree(part, ignore_errors=True)
    os.makedirs(part)
    for artefact in (tarball, debian, crate, go_module, wheel):
        artefact.make(release, part)
    made = Tree()
    made.take_folder(part)
    with open(f"{part}/SHA256SUMS", "w", encoding="utf-8") as file:
        file.write(made.checksums())
    shutil.rmtree(to, ignore_errors=True)
    os.rename(part, to)
    print(release.about(), end="")
    for name, entry in made.files():
        print(f"{to}/{name} ({len(entry.content):,} bytes)")


main()
