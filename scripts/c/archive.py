#!/usr/bin/env python3
"""Proves a static library and builds its archive, crates/CRATE/out/libCRATE.a: archive.py CRATE.

Where `rt ci` has left the libraries below the crate, and none of their files changed since, this crate alone is proved and built, over them. Else `rt lib`
does it, over what earlier checks kept. `rt lib` itself takes nothing of `rt ci`, which leaves of a library its statements and its code with no
stamp, and would prove all of them anew."""
import os
import subprocess
import sys
import tempfile

sys.path.insert(0, os.path.join(os.path.dirname(os.path.dirname(os.path.abspath(__file__))), "gate"))
import kit  # noqa: E402

GIVEN_JOBS = 4  # as many as `rt ci` gives to one proof


def crate_named(rt, root, name):
    found = [it for it in kit.crates_of(rt, root) if it.name == name]
    if not found or not found[0].is_static:
        sys.exit(f"{name} is no static library of crates.txt")
    return found[0]


def jobs_for(rt, crate):
    """as many jobs as there are processors, and memory for, by the measure of `rt ci`"""
    return max(1, min(GIVEN_JOBS, rt.processors(), 1 + int((0.85 * rt.free() / rt.need(crate) - 1) / 0.6)))


def build_over_ci(rt, crate):
    """proves the crate as `rt ci` does, and has LLVM compile what that proved"""
    os.makedirs(f"{crate.folder}/out", exist_ok=True)
    words = crate.words(["--jobs", str(jobs_for(rt, crate))], keeps=False)
    with tempfile.TemporaryDirectory(prefix="archive-") as room:
        status = crate.prove(["check", *words, "-o", f"{room}/checked"])
        if status:
            return status
        for flag in ("--logic-built", "--jobs"):
            at = words.index(flag)
            words = [*words[:at], *words[at + 2 :]]
        words += ["--crate-checked", f"{room}/checked", "--toolchain", f"{rt.KIT}/toolchain", "--backend", "llvm"]
        return crate.call(rt.rtlib.RATTLE, "build", *words, "-o", f"out/lib{crate.name}.a")


def main():
    if len(sys.argv) != 2:
        sys.exit("archive.py CRATE")
    root = os.path.dirname(os.path.dirname(os.path.dirname(os.path.realpath(__file__))))
    rt = kit.load_rt()
    crate = crate_named(rt, root, sys.argv[1])
    if not all(kit.is_left_by_ci(rt, root, it) for it in crate.below()):
        return subprocess.run(["rt", "lib"], cwd=crate.folder).returncode
    print(f"{crate.name}: over the libraries that rt ci left", flush=True)
    rt.rtlib.guarded()
    held = rt.rtlib.lock([*crate.below(), crate])
    status = build_over_ci(rt, crate)
    for it in held:
        os.close(it)
    return status


if __name__ == "__main__":
    sys.exit(main())
