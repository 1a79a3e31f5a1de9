#!/usr/bin/env python3
"""chain.py [--jobs N] [--folder FOLDER]: proves the crates of this checkout as `rt ci` does, lowest first, and keeps what stands.

The kit's `rt ci` begins from nothing each time, so a change of one crate costs it all. This goes by the sources: a crate stands while its
files and those of all crates below it are as they were when it was proved. It proves what does not stand, also what changes meanwhile, and
ends when nothing is left that it can prove: with 0 if all stands. Up to N proofs run side by side (as many as there are processors), each
begun with 4 GB of free memory and its share of N processes. That on which the longest row of others waits comes first. The libraries lie in
crates/NAME/out.

FOLDER (build/chain) has stands.json, which sources stand; log; and NAME.out, what the last proof of a crate said.
`rt ci` stays the gate: it keeps none of this, and tries more, as programs by two compilers."""
import argparse
import hashlib
import json
import os
import subprocess
import sys
import time

ROOT = os.path.dirname(os.path.dirname(os.path.dirname(os.path.abspath(__file__))))
sys.path.insert(0, f"{ROOT}/scripts/gate")
import kit  # noqa: E402

PARTS = ("src", "specs", "proofs")
FREE_KIB = 4_000_000
SECONDS = 15


def crates():
    """the kit's program rt, and the crates of crates.txt, each after those that it stands on"""
    rt = kit.load_rt()
    rt.Crate.cuts_libraries = True
    return rt, kit.crates_of(rt, ROOT)


def digest(crate):
    """of a crate's own files, and of the libraries that it names"""
    made = hashlib.sha256(repr((sorted(it.name for it in crate.below()), sorted(crate.of_kit))).encode())
    for part in PARTS:
        for at, folders, files in os.walk(f"{crate.folder}/{part}"):
            folders.sort()
            for name in sorted(files):
                path = f"{at}/{name}"
                made.update(os.path.relpath(path, crate.folder).encode() + b"\0")
                with open(path, "rb") as file:
                    made.update(file.read())
    return made.hexdigest()


def wanted(listed):
    """for each crate what stands if it does: its digest with those of all crates below it"""
    own = {it.name: digest(it) for it in listed}
    made = {}
    for it in listed:
        below = sorted(low.name for low in it.below())
        made[it.name] = hashlib.sha256("".join(own[name] for name in (it.name, *below)).encode()).hexdigest()
    return made


def waits_behind(listed):
    """for each crate the lines of the longest row of crates that wait for it, itself among them"""
    rows = {it.name: it.count(rb"\n") for it in listed}
    longest = dict(rows)
    for it in reversed(listed):
        for low in it.below():
            longest[low.name] = max(longest[low.name], rows[low.name] + longest[it.name])
    return longest


def prove_one(name, jobs):
    """proves a crate over the libraries that are there, by so many processes: the status for the process that asked for it"""
    rt, listed = crates()
    rt.rtlib.guarded()  # takes signals, which only the main thread may
    keep_static(rt)
    crate = next(it for it in listed if it.name == name)
    crate.out = sys.stdout
    os.makedirs(f"{crate.folder}/out", exist_ok=True)
    rt.rtlib.stop_on_text(crate, "verdict")
    return crate.ci(["--jobs", str(jobs)], False)


def keep_static(rt):
    """has the check of a static library keep its work, over which `make lib` and `make bench-build` then build"""
    words = rt.Crate.words

    def kept(self, flags, *given, **named):
        return words(self, flags, *given, **({**named, "keeps": True} if self.is_static else named))

    rt.Crate.words = kept


def free_kib():
    with open("/proc/meminfo", encoding="ascii") as file:
        return next(int(line.split()[1]) for line in file if line.startswith("MemAvailable:"))


class Chain:
    """What stands, what is under way, and what failed as it is."""

    def __init__(self, folder, jobs):
        self.folder, self.jobs = folder, jobs
        self.running, self.failed, self.left = {}, {}, []
        os.makedirs(folder, exist_ok=True)
        path = f"{folder}/stands.json"
        self.stands = {}
        if os.path.exists(path):
            with open(path, encoding="utf-8") as file:
                self.stands = json.load(file)

    def say(self, text):
        line = time.strftime("%H:%M:%S ") + text
        print(line, flush=True)
        with open(f"{self.folder}/log", "a", encoding="utf-8") as file:
            file.write(line + "\n")

    def begin(self, name, want):
        with open(f"{self.folder}/{name}.out", "w", encoding="utf-8") as out:
            jobs = max(1, self.jobs // (len(self.running) + 1))  # a crate on which all others wait has all processors
            words = [sys.executable, os.path.abspath(__file__), "--one", name, "--jobs", str(jobs)]
            process = subprocess.Popen(words, cwd=ROOT, stdout=out, stderr=out)
        self.running[name] = (process, want, time.monotonic())
        self.say(f"{name} begins")

    def gather(self):
        """takes note of the proofs that have ended"""
        for name, (process, want, began) in list(self.running.items()):
            if process.poll() is None:
                continue
            del self.running[name]
            seconds = round(time.monotonic() - began)
            if process.returncode == 0:
                self.stands[name] = want
                with open(f"{self.folder}/stands.json.new", "w", encoding="utf-8") as file:
                    json.dump(self.stands, file, indent=1)
                os.replace(f"{self.folder}/stands.json.new", f"{self.folder}/stands.json")
                self.say(f"{name} proved in {seconds} s")
            else:
                self.failed[name] = want
                self.say(f"{name} NOT PROVED after {seconds} s: {self.folder}/{name}.out")

    def round(self):
        """begins what can begin; whether anything is under way"""
        self.gather()
        _, listed = crates()
        wants, longest = wanted(listed), waits_behind(listed)
        stands = {name for name, want in wants.items() if self.stands.get(name) == want}
        waits = {name for name, want in wants.items() if name in stands or name in self.running or self.failed.get(name) == want}
        ready = [it.name for it in listed if it.name not in waits and all(low.name in stands for low in it.below())]
        for name in sorted(ready, key=lambda it: -longest[it]):
            if len(self.running) < self.jobs and (not self.running or free_kib() > FREE_KIB):
                self.begin(name, wants[name])
        self.left = [name for name in wants if name not in stands]
        return bool(self.running)


def main():
    reader = argparse.ArgumentParser(usage=__doc__)
    reader.add_argument("--jobs", type=int, default=os.cpu_count())
    reader.add_argument("--folder", default=f"{ROOT}/build/chain")
    reader.add_argument("--one", help=argparse.SUPPRESS)
    given = reader.parse_args()
    if given.one:
        return prove_one(given.one, given.jobs)
    chain = Chain(os.path.abspath(given.folder), given.jobs)
    while chain.round():
        time.sleep(SECONDS)
    chain.say("all stands" if not chain.left else f"left: {' '.join(chain.left)}")
    return int(bool(chain.left))


if __name__ == "__main__":
    sys.exit(main())
