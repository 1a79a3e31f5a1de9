#!/usr/bin/env python3
"""Does the prover refuse each wrong body in crates/CRATE/refused/? refused.py [--beside LOG | --unedited] [CRATE..]

Such an edit is a must-fail edit (`file:`, `old:`, `new:`) that also names the function whose contract refuses it: `function: decode::is_padding`. A line
'ok CRATE/EDIT: KIND' or 'failed CRATE/EDIT: KIND' says of each edit what refuses it:

  open goal          a goal of the contract (or of an invariant) stays open: the search came to its end, or the check gives values at which the goal is false
  by the body        the same of what a step of the body asks: an index, an overflow, what a call requires
  search gave up     at each goal that is open the search met one of its limits, which says nothing
  needs a proof by hand   what the search says shows nothing, since it does not prove the function as it is either
  judged             one of these two, and the edit has a line 'judged: WHY': why no proof can exist, as by the smallest input at which the body breaks a clause;
                     a run shows it at its line 'witness: INPUT' (scripts/gate/witnesses.py), or it has a line 'unseen: WHY'
  NOT REFUSED        the function is proved with the edit, or no check could judge it

Only an open goal, a refusal by the body and a judgement count. That an answer of the function's proof file does not fit the edited body (a misfit: it names what
the edit took away, or proves something else now) is no evidence, since another answer may fit. So such answers, and what stands on them, are taken away, and the
body is tried once more. Beside it the function is tried as it is, without the same answers. Where the search proves it so, a goal that it then leaves open for
the edit is the edit's doing. Where it does not, goals count that it proves in the function as it is and leaves open for the edit, and those that are false.
Where a goal that had an answer has another name now, or the edit adds a way, no goal of that sort counts by its name (Told.gone). Invariants stay. Answers that say
what the check tries by itself are left out from the start, since a search tells more of why a goal is open. One that is a search with a list of lemmas
by name, and nothing of the body, is no misfit where it fails, but a search that failed. Misfits of edits that are judged are not tried again.

Many edits are tried by one check: of distinct bodies, in copies of a function (scripts/gate/copies.py), over stubs of functions that no edit of it touches
(scripts/gate/stubs.py); docs/decisions/tests.md says why that is sound. A function of which the check says no more than that it calls one that is not proved is
tried again by itself. The misfits of a crate have one further check, and the functions as they are stand in it as copies. An edit of anything but one body (a
constant, a clause, a definition) has a check to itself.

The libraries below a crate are those that `rt ci` left, or what `rt lib` makes. With --beside, `rt ci` is running and writes to the file LOG: a crate's edits are
tried once it says that those below are proved, and judged ones are left to runs. With --unedited no edit is made: is each function that an edit names, and each
copy, proved as it is over the stubs?"""
import collections
import concurrent.futures
import copy
import dataclasses
import os
import re
import resource
import sys
import tempfile
import threading
import time

import copies
import kinds
import kit
import stubs
import turns
import without

ROOT = os.path.dirname(os.path.dirname(os.path.dirname(os.path.realpath(__file__))))
# Kinds of refusal beside those that scripts/gate/kinds.py reads off what a check prints.
BY_HAND, MISFIT, JUDGED, NOT_REFUSED = "needs a proof by hand", "misfit", "judged", "NOT REFUSED"
# So often answers are taken away: those that are left may not fit either.
ROUNDS = 3
# What a check says of a function that is proved, by itself or but for stubs.
PROVED = ("no holes", "depends on a hole in")


class Broken(Exception):
    """Why a crate's edits could not be tried."""


@dataclasses.dataclass
class Edit:
    path: str
    crate: str
    function: str  # as a check prints it, below the crate
    texts: dict  # the files that it changes, as it leaves them
    spans: list  # what it replaces: the file, the first byte, the end, and the bytes that stand there then
    body: object = None  # the function whose body holds all of it, if there is one
    copy: int = 0  # in which copy of its function a check has it: in none but the function itself
    judged: str = ""  # why no proof of it can exist, as a reader found
    witness: str = ""  # an input that shows it in a run (scripts/gate/witnesses.py)
    unseen: str = ""  # or why no run does
    taken: frozenset = frozenset()  # what a check takes away of its function's answers

    @property
    def checked(self):
        """what a check calls the function that has the edit"""
        return copies.name_of(self.function, self.copy)

    @property
    def key(self):
        """what tells its tries apart: the edit, or the function as it is without these answers"""
        return (self.path,) if self.spans else (self.function, self.taken)

    @property
    def label(self):
        return f"{self.crate}/{os.path.basename(self.path)}"


def span(before, after):
    """the first byte and the end of what differs, and what stands there after"""
    least = min(len(before), len(after))
    first = next((at for at in range(least) if before[at] != after[at]), least)
    same = next((at for at in range(least - first) if before[-1 - at] != after[-1 - at]), least - first)
    return first, len(before) - same, after[first : len(after) - same]


def read_edit(rt, crate, path):
    texts, why = rt.read_edit(path, crate.folder)
    if why:
        raise Broken(f"{path}: {why}")
    with open(path, encoding="utf-8") as it:
        written = it.read()
    named, judged, witness, unseen = (re.findall(rf"(?m)^{it}: (.+)$", written) for it in ("function", "judged", "witness", "unseen"))
    if len(named) != 1 or len(judged) > 1 or len(witness + unseen) > len(judged):
        raise Broken(f"{path}: one line 'function: NAME' says whose contract refuses it, one line 'judged: WHY' at most why no proof can exist, one line 'witness: INPUT' or 'unseen: WHY' what shows it")
    spans = []
    for file, text in texts.items():
        with open(f"{crate.folder}/{file}", "rb") as it:
            spans.append((file, *span(it.read(), text.encode())))
    return Edit(path, crate.name, named[0], texts, spans, judged="".join(judged), witness="".join(witness), unseen="".join(unseen))


def source_of(bodies, crate):
    source = bodies.Source(crate.folder)
    source.read("src/main.rt" if crate.is_program else "src/lib.rt")
    return source


def body_of(functions, edit):
    """the innermost function whose body holds all that the edit replaces"""
    holds = lambda f: all(f.file == file and f.opens < first and end <= f.end - 1 for file, first, end, _ in edit.spans)
    return min(filter(holds, functions), key=lambda f: f.end - f.opens, default=None)


def bytes_of(crate, file):
    with open(f"{crate.folder}/{file}", "rb") as it:
        return it.read()


def spans_of(crate, edits, stubbed):
    """what these edits replace in each file, the copies that some of them have put in behind their functions, and the stubs' bodies"""
    of_file = collections.defaultdict(list)
    for f in stubbed.values():
        of_file[f.file].append((f.opens, f.end, stubs.BODY))
    for edit in edits:
        if edit.copy:
            f, own = edit.body, [rest for _, *rest in edit.spans]
            of_file[f.file].append((f.end, f.end, copies.copy_of(bytes_of(crate, f.file), f, own, edit.copy)))
        for file, *rest in edit.spans if not edit.copy else []:
            of_file[file].append(tuple(rest))
    return of_file


def answers_of(crate, edit):
    """The answers that the function of this edit has in a check, but for those that are taken away."""
    return copies.own_proofs(crate, edit.function).get(f"{copies.folder_of(edit.function)}/Answers.antt", "")


def proof_files(crate, edit):
    """the proof files that the edit's own check has in place of the crate's, by their paths: None for one that goes"""
    texts = copies.proof_files(crate, edit.function, edit.copy) if edit.copy else {}
    path = f"{copies.folder_of(edit.checked)}/Answers.antt"
    if edit.taken:
        text = texts.get(path) or answers_of(crate, edit)
        texts[path] = without.without(text, edit.taken)
    if edit.copy and texts.get(path, "") is None:
        del texts[path]
    return texts


def joined(crate, edits, stubbed):
    """the source files that these edits, their copies and the stubs change, as all of them leave them, and the proof files of the edited functions and copies"""
    texts = {file: copies.replaced(bytes_of(crate, file), spans).decode() for file, spans in spans_of(crate, edits, stubbed).items()}
    for edit in edits:
        texts.update(proof_files(crate, edit))
    return texts


class Checks:
    """The checks of one crate, each over what those before it proved, and each in its turn. How many there were, and the seconds that they took."""

    def __init__(self, rt, crate, kept, turns, stubs):
        self.rt, self.crate, self.kept, self.turns, self.stubs = rt, crate, kept, turns, stubs
        self.count, self.seconds = 0, 0

    def check_of(self, edits):
        """what a check of the functions that have these edits says of each, and all that it printed"""
        stubbed = self.stubs.beside(edits)
        texts = {**joined(self.crate, edits, stubbed), **self.stubs.proof_files(stubbed)}
        return self.check(texts, [it.checked for it in edits])

    def check(self, texts, functions):
        """the same of these functions, in a copy of the crate with these texts"""
        rt, flags = self.rt, ["--jobs", "1", "--allow-holes"]
        for name in dict.fromkeys(functions):
            flags += ["--only", f"{self.crate.name}::{name}"]
        with self.turns.turn():
            began = time.monotonic()
            ran = kit.checked(rt, self.crate, texts, flags, self.kept)
            self.count, self.seconds = self.count + 1, self.seconds + time.monotonic() - began
        if not re.search(r"(?m)^only=\d+ holes=\d+", ran.stdout) or ran.returncode not in (0, 1) or rt.rtlib.STALE.search(ran.stdout):
            last = " ".join(ran.stdout.split()[-60:])
            raise Broken(f"a check judged nothing (status {ran.returncode}): {last}")
        sources = [it for it in texts if not it.startswith("proofs/")]
        unread = next((it for it in ran.stdout.split("\n") if rt.unread(it, sources)), None)
        if unread:
            raise Broken(f"the prover cannot read the edited text: {unread[:200]}")
        said = dict(re.findall(rf"(?m)^\w+ {self.crate.name}::(\S+): (.*)", ran.stdout))
        return said, ran.stdout


def batches(crate, edits):
    """Edits of distinct bodies, in as few lists as can be: of a body that may be copied the first list has all."""
    made = []
    for edit in edits:
        apart = lambda it: it.function != edit.function and it.body is not edit.body
        with_bodies = [batch for batch in made if edit.body and batch[0].body]
        batch = next((batch for batch in with_bodies if all(map(apart, batch))), None)
        if with_bodies and batch is not with_bodies[0] and copies.stands_alone(crate, edit.function, edit.body):
            batch = with_bodies[0]
            edit.copy = sum(it.body is edit.body for it in batch)
        if batch is None:
            made.append(batch := [])
        batch.append(edit)
    return made


def stray(batch, said):
    """The functions that are not proved though no edit of the batch touches them. Closures of an edited function have its name in theirs."""
    edited = [it.checked for it in batch]
    inside = ["::".join([*it.split("::")[-2:], ""]) for it in edited]
    is_well = lambda line: line.startswith((*PROVED, "no proof: it calls"))
    return [f"{name}: {line}" for name, line in said.items() if not is_well(line) and name not in edited and not any(it in name for it in inside)]


def alone(edit):
    return [dataclasses.replace(edit, copy=0)]


def adds_ways(crate, edit):
    return any(kinds.adds_ways(bytes_of(crate, file)[first:end].decode(), new.decode()) for file, first, end, new in edit.spans)


def told_in_turn(checks, edits):
    """each edit with what a check tells of its function, or with why none could"""
    left = batches(checks.crate, edits)
    while left:
        batch = left.pop(0)
        try:
            said, printed = checks.check_of(batch)
        except Broken as why:
            # (whose edit it is shows when each is tried by itself)
            if len(batch) > 1:
                left += map(alone, batch)
            else:
                yield batch[0], why
            continue
        others = stray(batch, said) if batch[0].body else []
        if others:
            raise Broken(f"with edits of other bodies: {'; '.join(others)[:900]}")
        for edit in batch:
            answered = without.without(answers_of(checks.crate, edit), edit.taken) or ""
            told = kinds.told(printed, checks.crate.name, edit.checked, answered)
            if adds_ways(checks.crate, edit):
                told.gone |= kinds.proved_sorts(answered)
            if told.is_in_doubt and len(batch) > 1:
                left.append(alone(edit))
            else:
                yield edit, told


def first_kind(edit, told):
    """of what kind the refusal is by what the first check of the edit tells; None where answers do not fit, and nothing else is sure"""
    if isinstance(told, Broken) or told.is_not_judged:
        return NOT_REFUSED
    sure = kinds.kind({goal: why for goal, why in told.goals.items() if why == kinds.FALSE or kinds.sort(goal) not in told.gone})
    if sure in (kinds.OPEN, kinds.BODY):
        return sure
    if told.unfit and edit.body:
        return None
    return sure if sure and not told.unfit and not told.elsewhere else BY_HAND


def kind_without(told, plain, gone):
    """Of what kind the refusal is by what a check tells where answers that do not fit are taken away, and of the function as it is without them. `gone` are the sorts of
    the goals that were answered and that the edit turns into others; None where further answers do not fit."""
    if isinstance(told, Broken) or told.is_not_judged:
        return NOT_REFUSED
    if told.unfit:
        return None
    if plain.is_proved:
        return kinds.kind(told.goals) or BY_HAND
    if not plain.goals:
        return BY_HAND
    is_sure = lambda goal, why: goal not in plain.goals and (why == kinds.FALSE or kinds.sort(goal) not in gone)
    sure = kinds.kind({goal: why for goal, why in told.goals.items() if is_sure(goal, why)})
    return sure if sure in (kinds.OPEN, kinds.BODY) else BY_HAND


def without_unfit(checks, misfits):
    """each edit whose function has answers that do not fit, its kind without them, and what the last check tells of it; `misfits` are edits and what was told of them"""
    gone = {edit.path: told.gone for edit, told in misfits}
    for _ in range(ROUNDS):
        trials = [dataclasses.replace(it, copy=0, taken=it.taken | told.unfit) for it, told in misfits]
        as_it_is = {it.key: it for it in (dataclasses.replace(it, spans=[]) for it in trials)}
        told = {it.key: said for it, said in told_in_turn(checks, [*trials, *as_it_is.values()])}
        misfits = []
        for it in trials:
            its, plain = told[it.key], told[(it.function, it.taken)]
            if isinstance(plain, Broken):
                raise plain
            kind = kind_without(its, plain, gone[it.path])
            if kind is None:
                gone[it.path] = gone[it.path] | its.gone
                misfits.append((it, its))
            else:
                yield it, kind, its
    for it, its in misfits:
        yield it, BY_HAND, its


def answer(edit, kind, told, how=""):
    """whether that counts as a refusal, and what to print"""
    if isinstance(told, Broken):
        return False, f"{NOT_REFUSED}: {told}"
    goals = ", ".join(f"`{goal}`" for goal in sorted(told.goals)[:4])
    where = f"{kind} at {edit.function}" + (f", {goals}" if goals else "") + how
    if kind == NOT_REFUSED:
        return False, f"{where}: {told.line or 'no check speaks of it'}"
    if kind in (kinds.OPEN, kinds.BODY):
        return True, where + (" (the line 'judged:' is not needed)" if edit.unseen else "")
    if edit.judged:
        return True, f"{JUDGED} ({where}): {edit.judged}"
    return False, f"{where}: say in a line 'judged: WHY' why no proof can exist, or strengthen the contract"


def in_turn(checks, edits):
    """each edit with its answer; those that are judged are not tried without answers that do not fit"""
    misfits = []
    for edit, told in told_in_turn(checks, edits):
        kind = first_kind(edit, told)
        if kind is None and not edit.judged:
            misfits.append((edit, told))
        else:
            yield edit, *answer(edit, kind or MISFIT, told)
    for edit, kind, told in without_unfit(checks, misfits):
        yield edit, *answer(edit, kind, told, ", answers taken away")


def as_they_are(checks, edits):
    """each edit, and whether its function or the copy of it is proved without it, over the stubs"""
    for batch in batches(checks.crate, edits):
        unedited = [dataclasses.replace(it, spans=[]) for it in batch]
        said, _ = checks.check_of(unedited)
        for it in unedited:
            line = said.get(it.checked, "no check speaks of it")
            yield it, line.startswith(PROVED), f"as it is: {it.checked}: {line.split(' `')[0]}"


def build_below(rt, crate):
    for it in crate.below():
        if not kit.is_left_by_ci(rt, ROOT, it) and it.build_rlib(["--jobs", "1"], anew=False):
            raise Broken(f"the library {it.name} is not proved")


def tried(rt, bodies, crate, turns, answers):
    """the lines for a crate's edits"""
    lines, found = [], collections.Counter()
    try:
        every = [read_edit(rt, crate, it) for it in edits_of(crate)]
        edits = [it for it in every if turns.room.tries_judged or not it.judged]
        source = source_of(bodies, crate)
        for it in edits:
            it.body = body_of(source.functions, it)
            it.taken = without.needless(answers_of(crate, it))
        with tempfile.TemporaryDirectory(prefix="refused-") as kept:
            checks = Checks(rt, as_library(crate), kept, turns, stubs.Stubs(crate, source))
            for edit, is_well, why in answers(checks, edits):
                lines.append(f"ok {edit.label}: {why}" if is_well else f"failed {edit.label}: {why}")
                found[re.split(r" at | \(|: ", why)[0]] += 1
        kinds_found = ", ".join(f"{count} {kind}" for kind, count in found.most_common())
        left = f"; {len(every) - len(edits)} that a reader judged are left to 'make refused'" if len(every) > len(edits) else ""
        lines.append(f"{crate.name}: {len(edits)} edits in {checks.count} checks, which took {checks.seconds:.0f} seconds: {kinds_found}{left}")
    except Broken as why:
        lines.append(f"failed {crate.name}/refused: {why}")
    return lines


def as_library(crate):
    """The crate, or a static library as any other: each function has the same proof so, and the code of all that it stands on is not read."""
    made = copy.copy(crate)
    made.is_static = False
    return made


def edits_of(crate):
    folder = f"{crate.folder}/refused"
    return sorted(f"{folder}/{it}" for it in os.listdir(folder)) if os.path.isdir(folder) else []


def try_all(rt, crates, room, answers):
    """Prints the lines for the crates' edits, several crates side by side, and says how many lines tell of a failure."""
    bodies, printing, in_turns = kit.load("rt-plant-bodies"), threading.Lock(), turns.Turns(room)
    left = sorted(crates, key=lambda it: -it.count(rb"\n") - 100 * len(edits_of(it)))

    def work(lane):
        failed = 0
        while crate := in_turns.take_ready(left):
            lines = tried(rt, bodies, crate, in_turns, answers)
            failed += sum(it.startswith("failed") for it in lines)
            with printing:
                print("\n".join(lines), flush=True)
        return failed

    with concurrent.futures.ThreadPoolExecutor(room.lanes) as pool:
        return sum(pool.map(work, range(room.lanes)))


def main():
    os.chdir(ROOT)
    rt = kit.load_rt()
    # (its first call sets a signal's handler, which only the main thread may)
    rt.rtlib.guarded()
    named = sys.argv[1:]
    log = named[1] if named[:1] == ["--beside"] else None
    answers = as_they_are if named[:1] == ["--unedited"] else in_turn
    named = named[2 if log else answers is not in_turn :]
    crates = {it.name: it for it in kit.crates_of(rt, ROOT) if edits_of(it)}
    unknown = [it for it in named if it not in crates]
    if unknown:
        sys.exit(f"no edits in crates/{unknown[0]}/refused, or no such crate")
    crates = [crates[it] for it in named or crates]
    try:
        for it in crates if not log else []:
            build_below(rt, it)
        failed = try_all(rt, crates, turns.Beside(rt, log) if log else turns.Alone(rt), answers)
    except Broken as why:
        print(f"failed refused.py: {why}")
        failed = 1
    used = resource.getrusage(resource.RUSAGE_CHILDREN)
    print(f"edits of {len(crates)} crates, {used.ru_utime + used.ru_stime:.0f} seconds of a processor", flush=True)
    return 1 if failed else 0


if __name__ == "__main__":
    sys.exit(main())
