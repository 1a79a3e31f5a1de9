#!/usr/bin/env python3
"""Does the program write to each script NAME.talk of `examples` and `tests/talk` what NAME.stdout beside it has?

    python3 scripts/gate/stored_scripts.py PROGRAM

It has to end with status 1 where the stored lines name a refused line, else with 0. Scripts by chance follow, with what
scripts/gate/independent_talk.py has the program write, which was written without the definitions and the code. It prints a line 'ok NAME' or
'failed NAME' for each stored script, and one for all scripts by chance.
"""
import glob
import os
import subprocess
import sys
import tempfile

ROOT = os.path.dirname(os.path.dirname(os.path.dirname(os.path.abspath(__file__))))
BY_CHANCE = 10
SECONDS = 60  # far more than the longest takes


def content(path):
    with open(path, "rb") as it:
        return it.read()


def why_not(program, script, stored):
    """how the program answers otherwise, or nothing where it does not"""
    wanted = content(stored)
    ran = subprocess.run([program], input=content(script), stdout=subprocess.PIPE, stderr=subprocess.STDOUT, timeout=SECONDS, check=False)
    status = int(any(line.startswith(b"line ") for line in wanted.splitlines()))
    if ran.returncode != status:
        return f"status {ran.returncode}, and {status} is wanted"
    pairs = enumerate(zip(ran.stdout.splitlines(), wanted.splitlines()), 1)
    other = next((f"line {at} is {given[:200]!r}, and {line[:200]!r} is wanted" for at, (given, line) in pairs if given != line), "")
    return other or ("" if ran.stdout == wanted else f"{len(ran.stdout)} bytes, and {len(wanted)} are wanted")


def by_chance(program):
    """why scripts by chance are answered otherwise"""
    with tempfile.TemporaryDirectory() as room:
        maker = os.path.join(ROOT, "scripts/gate/independent_talk.py")
        subprocess.run([sys.executable, "-B", maker, room, str(BY_CHANCE)], check=True, stdout=subprocess.DEVNULL)
        scripts = sorted(path for path in glob.glob(f"{room}/*") if not path.endswith(".stdout"))
        if len(scripts) != BY_CHANCE:
            return [f"{len(scripts)} scripts were made, and not {BY_CHANCE}"]
        found = [(script, why_not(program, script, f"{script}.stdout")) for script in scripts]
        return [f"{content(script).decode(errors='replace')}{why}" for script, why in found if why]


def main():
    program, failed = os.path.abspath(sys.argv[1]), 0
    scripts = sorted(glob.glob(f"{ROOT}/examples/*.talk") + glob.glob(f"{ROOT}/tests/talk/*.talk"))
    for script in scripts:
        name = os.path.basename(script).removesuffix(".talk")
        why = why_not(program, script, script.removesuffix(".talk") + ".stdout")
        print(f"failed {name}: {why}" if why else f"ok {name}", flush=True)
        failed += bool(why)
    others = by_chance(program)
    print("\n".join([*others, f"failed scripts by chance: {len(others)} of {BY_CHANCE}"]) if others else f"ok {BY_CHANCE} scripts by chance are answered as by the independent model")
    return 1 if failed or others or not scripts else 0


if __name__ == "__main__":
    sys.exit(main())
