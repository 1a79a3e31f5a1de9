#!/usr/bin/env python3
"""Is each wrong body that no proof refuses shown by a run? witnesses.py [--find] [CRATE..]

An edit of crates/*/refused with a line `judged:` has a line `witness: INPUT` where a run shows it: an input of this repository
(scripts/gate/witness_inputs.py) whose answer the wrong body changes. Behind the input may stand what else is measured or done:

  witness: tests/talk/order.talk
  witness: crates/h3_cases/stdin, memory             how often memory is asked for, how much, or how much is held at most
  witness: tests/talk/order.talk, refusing 7-9       the seventh to the ninth call for memory is refused; where calls have moved since, others may show it

An edit that no run shows has a line `unseen: WHY` in its place. All that a program runs are in one build beside the right bodies
(scripts/gate/variants.py). For each crate a line 'ok CRATE: ..' says how many its witnesses show. There is a line 'failed CRATE/EDIT: ..' for
each that does not compile, has no such line, or whose witness is gone, does not show it, or is answered otherwise by the right bodies. The last
line says how many edits there are, and what refuses them: at most READERS may rest on a reader.

--find looks for a witness of each edit that has none, or one that no longer shows it, and writes it into the edit."""
import collections
import concurrent.futures
import os
import re
import resource
import subprocess
import sys
import tempfile

import edits
import kit
import variants
import witness_inputs

READERS = 50  # at most so many edits rest on a reader
LANES = 2
MEMORY = "memory"
EVER = 10**9  # behind the last call for memory of a run
ROOM = 3 << 30  # bytes that a run may have
HUNG = (-24, -9)  # the signals at the limit of processor time

Ran = collections.namedtuple("Ran", "wrote status asked memory seconds")


def limit(seconds):
    resource.setrlimit(resource.RLIMIT_CPU, (seconds, seconds + 1))
    resource.setrlimit(resource.RLIMIT_AS, (ROOM, ROOM))
    resource.setrlimit(resource.RLIMIT_CORE, (0, 0))


def ended(process):
    """the status of a process that ended, and the seconds of a processor that it took"""
    _, status, used = os.wait4(process.pid, 0)
    process.returncode = os.waitstatus_to_exitcode(status)
    return process.returncode, used.ru_utime + used.ru_stime


def told_in(path):
    """the numbers of the bodies that were asked for, and the calls for memory with their bytes and the most held; none of a program that did not come to its end"""
    if not os.path.exists(path):
        return set(), None
    with open(path, encoding="ascii") as it:
        numbers, counts = it.read().split("\n")[:2]
    return {*map(int, numbers.split())}, tuple(map(int, counts.split()))


def run(given, number=0, refusing="", seconds=120):
    """a run of the input with the wrong body of this number, 0 for none"""
    with tempfile.TemporaryDirectory(prefix="run-") as room, open(f"{room}/wrote", "wb+") as out, open(f"{room}/given", "wb+") as source:
        env = {"WRONG": str(number), "TOLD": f"{room}/told", **({"REFUSE": refusing} if refusing else {})}
        source.write(given.given)
        source.seek(0)
        how = {"stdin": source, "stdout": out, "stderr": subprocess.DEVNULL, "env": env, "cwd": variants.ROOT}
        status, used = ended(subprocess.Popen(given.words, preexec_fn=lambda: limit(seconds), **how))
        out.seek(0)
        return Ran(out.read(), status, *told_in(f"{room}/told"), used)


def first_difference(right, wrong):
    """the first line that differs"""
    a, b = right.split(b"\n"), wrong.split(b"\n")
    at = next((n for n in range(min(len(a), len(b))) if a[n] != b[n]), min(len(a), len(b)))
    show = lambda them: repr(them[at][:80].decode(errors="replace")) if at < len(them) else "nothing"
    return f"line {at + 1}: {show(a)} becomes {show(b)}"


def difference(given, right, wrong, how):
    """what tells the wrong body from the right ones in this run, if anything does"""
    if wrong.status in HUNG:
        return "it does not end"
    if how == MEMORY:
        both = right.memory, wrong.memory
        return f"calls for memory, bytes and the most held: {both[0]} become {both[1]}" if both[0] != both[1] else None
    if right.status != wrong.status:
        return f"status {right.status} becomes {wrong.status}"
    if right.wrote != wrong.wrote and not given.is_test:
        return first_difference(right.wrote, wrong.wrote)
    return None


class Runs:
    """The runs of the right bodies, each made once."""

    def __init__(self, inputs):
        self.inputs, self.made = inputs, {}
        self.showed = collections.Counter()  # how many each input showed in a search

    def right(self, given, refusing=""):
        if (given.name, refusing) not in self.made:
            self.made[given.name, refusing] = run(given, 0, refusing)
        return self.made[given.name, refusing]

    def problem(self, given):
        """why the right bodies do not answer as they should"""
        right = self.right(given)
        if given.stored is not None and right.wrote != given.stored:
            return first_difference(given.stored, right.wrote)
        return f"status {right.status}" if given.is_test and right.status != 0 else None

    def shown(self, variant, witness):
        """whether the witness shows the wrong body, and how, or why not"""
        name, _, how = witness.partition(", ")
        if name not in self.inputs:
            return False, f"there is no input {name}"
        if how not in ("", MEMORY) and not re.fullmatch(r"refusing \d+-\d+", how):
            return False, f"a witness with {how!r} says nothing"
        given, refusing = self.inputs[name], how.removeprefix("refusing ") if how != MEMORY else ""
        right = self.right(given, refusing)
        seconds = max(2, int(10 * right.seconds) + 1)
        found = difference(given, right, run(given, variant.number, refusing, seconds), how)
        return (True, found) if found else (False, f"{witness} is answered as by the right body")


def judge(runs, variant, void):
    """whether the edit is as it should be, and what to say of it"""
    edit = variant.edit
    if variant.number in void:
        return False, f"it does not compile: {void[variant.number]}"
    if not edit.witness:
        return bool(edit.unseen), None if edit.unseen else "no run shows it: let 'make witnessed FIND=1' find a witness, or say in a line 'unseen: WHY' why there is none"
    if not variant.parts:
        return False, f"it has a witness, and no run can have it: {variant.why}"
    shown = runs.shown(variant, edit.witness)
    return shown if shown[0] or "refusing" not in edit.witness else with_others_refused(runs, variant, shown)


def with_others_refused(runs, variant, shown):
    """the same where calls for memory have moved: another one that is refused may show it"""
    name = variant.edit.witness.partition(", ")[0]
    for given, which in refusals(runs):
        if given.name == name and variant.number in runs.right(given, which).asked:
            again = runs.shown(variant, f"{name}, refusing {which}")
            if again[0]:
                return again
    return shown


def check(runs, made, void):
    """Prints a line for each edit that is not well, and one for each crate; is all well?"""
    fine, shown, left = True, collections.Counter(), collections.Counter()
    for name in sorted({it.edit.witness.partition(", ")[0] for it in made} & {*runs.inputs}):
        problem = runs.problem(runs.inputs[name])
        if problem:
            fine = say(False, f"{name}: the right bodies answer otherwise: {problem}")
    with concurrent.futures.ThreadPoolExecutor(LANES) as pool:
        for variant, (is_well, why) in zip(made, pool.map(lambda it: judge(runs, it, void), made)):
            of_crate = shown if is_well and why else left
            of_crate[variant.edit.crate] += 1
            if not is_well:
                fine = say(False, f"{variant.edit.label}: {why}")
    for crate in dict.fromkeys(it.edit.crate for it in made):
        say(True, f"{crate}: {shown[crate]} wrong bodies are shown by their witnesses, {left[crate]} are not run")
    return fine


def say(is_well, text):
    print(f"{'ok' if is_well else 'failed'} {text}", flush=True)
    return is_well


def count(made):
    """how many edits there are, and what refuses them; are those that rest on a reader few?"""
    by_reader = sum(not it.edit.witness for it in made)
    return say(by_reader <= READERS, f"{edits.summary()}, {'and not above' if by_reader <= READERS else 'more than'} {READERS}")


def refusals(runs):
    """each input to which memory is refused in a search, with each call for memory that is, alone and with all behind it"""
    for given in (it for it in runs.inputs.values() if it.is_refused):
        calls = runs.right(given).memory[0]
        yield from ((given, f"{n}-{last}") for n in range(1, calls + 1) for last in (n, EVER))


def candidates(runs, variant, order):
    """What may be a witness of it: an input that asks for it, first those that showed most, and of these the quickest; then the same by what memory it asks
    for; then one to which memory is refused."""
    asking = sorted((it for it in order if variant.number in runs.right(it).asked), key=lambda it: -runs.showed[it.name])
    yield from (it.name for it in asking)
    yield from (f"{it.name}, {MEMORY}" for it in asking if runs.right(it).memory and runs.right(it).memory[0])
    for given, which in refusals(runs):
        if variant.number in runs.right(given, which).asked:
            yield f"{given.name}, refusing {which}"


def find(runs, variant, order):
    tried = 0
    for witness in candidates(runs, variant, order):
        if runs.shown(variant, witness)[0]:
            runs.showed[witness.partition(", ")[0]] += 1
            return witness
        tried += 1
    return f"none of {tried} runs shows it"


def write(edit, witness):
    with open(edit.path, encoding="utf-8") as it:
        kept = [line for line in it.read().rstrip("\n").split("\n") if not line.startswith(("witness:", "unseen:"))]
    at = next(at for at, line in enumerate(kept) if line.startswith("judged:"))
    with open(edit.path, "w", encoding="utf-8") as it:
        it.write("\n".join([*kept[: at + 1], f"witness: {witness}", *kept[at + 1 :]]) + "\n")


def find_all(runs, made, void):
    """Writes the witnesses that are found, and prints the edits that have none."""
    with concurrent.futures.ThreadPoolExecutor(LANES) as pool:
        list(pool.map(runs.right, runs.inputs.values()))
    order = sorted((it for it in runs.inputs.values() if not runs.problem(it)), key=lambda it: runs.right(it).seconds)

    def one(variant):
        if variant.edit.witness and judge(runs, variant, void)[0]:
            return variant.edit.witness
        return find(runs, variant, order) if variant.parts and variant.number not in void else variant.why or "it does not compile"

    with concurrent.futures.ThreadPoolExecutor(LANES) as pool:
        for variant, found in zip(made, pool.map(one, made)):
            if found.partition(", ")[0] not in runs.inputs:
                if variant.parts or not variant.edit.unseen:
                    print(f"{variant.edit.label}: {found}", flush=True)
            elif found != variant.edit.witness:
                write(variant.edit, found)


def main():
    os.chdir(variants.ROOT)
    named = [it for it in sys.argv[1:] if it != "--find"]
    rt = kit.load_rt()
    made, sources = variants.every(rt)
    unknown = [it for it in named if it not in sources]
    if unknown:
        sys.exit(f"no edit of crates/{unknown[0]}/refused was judged, or there is no such crate")
    void = variants.build(rt, made, sources)
    witness_inputs.compile_c(rt)
    runs, mine = Runs(witness_inputs.every()), [it for it in made if not named or it.edit.crate in named]
    if "--find" in sys.argv[1:]:
        find_all(runs, mine, void)
        return 0
    fine = check(runs, mine, void)
    return 0 if count(made) and fine else 1


if __name__ == "__main__":
    sys.exit(main())
