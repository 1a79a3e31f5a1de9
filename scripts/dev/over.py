#!/usr/bin/env python3
"""over.py CRATE [--base FOLDER] [--from CRATE,..] [rattle's flags]: `rattle check` of a crate, over the libraries that `rt ci` left in the
checkout FOLDER (this one if left out) and the sources of the crates after --from, which changed here.

`rt check` proves each library below a crate that changed first. This takes a minute in place of an hour, and keeps nothing for the gate:
end with `rt ci CRATE`. Useful flags are --only PATH and --allow-holes. The last line is the verdict, with the first errors in front of it:
rattle's `holes=0` says nothing of errors."""
import argparse
import os
import re
import shutil
import subprocess
import sys

ROOT = os.path.dirname(os.path.dirname(os.path.dirname(os.path.abspath(__file__))))
KIT = os.path.dirname(os.path.dirname(os.path.realpath(shutil.which("rt") or "rt")))


def libraries():
    """of each crate of crates.txt, in their order, the libraries that it names"""
    with open(f"{ROOT}/crates.txt", encoding="utf-8") as it:
        lines = re.findall(r"(?m)^(\w+)[^:\n#]*:(.*)$", it.read())
    return {name: names.split() for name, names in lines}


def below(named, crates):
    """all libraries on which these crates stand"""
    found, left = set(), list(crates)
    while left:
        new = [name for name in named.get(left.pop(), []) if name not in found]
        found.update(new)
        left += new
    return found


def externs(named, base, crate, changed):
    """the libraries that are taken as they were built"""
    for name in sorted(below(named, [crate, *changed]) - set(changed)):
        folder = f"{base}/crates/{name}/out/rlib" if name in named else f"{KIT}/rlibs"
        path = f"{folder}/{name}.rlib"
        if not os.path.exists(path):
            raise SystemExit(f"over.py: {path} is not there: run rt ci {name} in that checkout")
        yield from ("--extern", f"{name}={path}", "-L", f"dependency={folder}")


def told(command):
    """runs the check, prints what it says, and the verdict last: 1 if it found an error"""
    run = subprocess.Popen(command, stdout=subprocess.PIPE, stderr=subprocess.STDOUT, text=True)
    errors = []
    for line in run.stdout:
        sys.stdout.write(line)
        sys.stdout.flush()
        if re.search(r": error: |: not proved\b|: no proof: ", line):
            errors.append(line[:300].rstrip())
    code = run.wait()
    for line in errors[:5]:
        print(line)
    print(f"over.py: NOT PROVED: {len(errors)} errors" if code or errors else "over.py: no error")
    return code or int(bool(errors))


def main():
    reader = argparse.ArgumentParser(usage=__doc__)
    reader.add_argument("crate")
    reader.add_argument("--base", default=ROOT)
    reader.add_argument("--from", dest="changed", default="")
    given, flags = reader.parse_known_args()
    named, base = libraries(), os.path.abspath(given.base)
    changed = [name for name in named if name in given.changed.split(",")]
    os.chdir(f"{ROOT}/crates/{given.crate}")
    source = next(path for path in ("src/lib.rt", "src/main.rt") if os.path.exists(path))
    command = ["rattle", "check", "--crate-name", given.crate, source, "--extern", f"std={KIT}/rlibs/std.rlib"]
    command += ["-L", f"dependency={KIT}/rlibs", *externs(named, base, given.crate, changed)]
    for name in changed:
        command += ["--lib", f"{name}:{','.join([*named[name], 'std'])}=../{name}/src/lib.rt"]
    command += ["--antt-project", f"{KIT}/rattle/logic/antt-project.json", "--logic-built", f"{KIT}/logic_built"]
    kept = f"{ROOT}/crates/{given.crate}/out/over"
    os.makedirs(kept, exist_ok=True)
    command += ["--links", f"{given.crate}=", "--incremental", kept, *flags]
    sys.exit(told([f"{KIT}/bin/rattle", *command[1:]]))


if __name__ == "__main__":
    main()
