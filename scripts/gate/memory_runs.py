#!/usr/bin/env python3
"""Whole runs of the program where memory is refused, each line held against a model of what is allowed.

    python3 scripts/gate/memory_runs.py PROGRAM CASES [--schedules N] [--first SEED] [--self-check]

runs crates/h3_talk on the scripts of scripts/gate/memory_schedules.py, three small ones and N by chance, with some of its calls for memory refused: one
alone, one and those behind it for a while, one and all up to where memory is back, and some by chance; of the small ones each call in turn. And it
runs crates/h3_cases on small ones of sides that ask for strict messages or limit what is unfinished, where each third call is the first refused. Each
line has to be one that scripts/gate/memory_world.py allows behind the lines before it, also behind the first that tells of refused memory. By the lines
alone, what comes out of a stream has to be a front of what was sent, and all of it in the end where the stream was neither reset nor given up. It
prints a line 'ok ..' or 'failed ..' for each of the two. With --self-check it holds the same runs against wrong models, from each of which some
have to differ. Where no C compiler is there it says so and tries nothing.
"""
import argparse
import os
import random
import sys
from collections import Counter
from dataclasses import dataclass, field
from functools import partial
from unittest import mock

sys.path.insert(0, os.path.dirname(os.path.abspath(__file__)))
import memory_world  # noqa: E402
from independent_model import SERVER, total, value_of  # noqa: E402
from independent_qpack import integer  # noqa: E402
from independent_talk import PULLS, printed, wide_event, with_lists  # noqa: E402
from memory_schedules import BEGINS, ENDS, JUDGED, SMALL, schedule  # noqa: E402
from memory_world import LISTS, MEMORY, OTHER, UNTOLD, Delivery, TooMany, follow, gives_up  # noqa: E402
from refusing import FOR_GOOD, Refused, Refusing, can_refuse  # noqa: E402

SCHEDULES, SHOWN = 20, 5
NO_MEMORY = 1  # the status of h3_cases where it could not write a line
TELLING = (*MEMORY, "refused Malformed", "fault malformed")  # the answers of refused memory, and of sides that judge more


# ---- which calls are refused, run by run


def each_in_turn(calls):
    return [Refused(first, first + more) for first in range(1, calls + 1) for more in (0, 3, 8, FOR_GOOD)]


def few_in_turn(calls):
    """Of h3_cases, which reads and writes each line as it comes, and tries some calls again: a line takes several calls for memory. Each third one begins."""
    return [Refused(first, first + (0, 6, 20)[first % 9 // 3]) for first in range(1, calls + 1, 3)]


def by_chance(rng, calls):
    chosen = []
    for _ in range(4):
        first = rng.randint(1, calls)
        chosen += [Refused(first, first), Refused(first, first + rng.choice([2, 5, 10, 30]))]
        chosen.append(Refused(rng.randint(1, calls), FOR_GOOD, rng.choice([10, 30, 60]), rng.randint(1, 10**9)))
    return [*chosen, Refused(rng.randint(1, calls), FOR_GOOD)]


# ---- what was sent and what came out, by the lines alone


@dataclass
class Message:
    """What one side sent on a stream, and what the other side was handed out of it: a text a head or trailer, a number a byte of a body."""

    sent: list = field(default_factory=list)
    came: list = field(default_factory=list)
    sizes: list = field(default_factory=list)
    is_cut_off: bool = False
    is_unsure: bool = False  # a line tells nothing

    def send(self, kind, side, fields):
        self.sizes.append((len(self.sent), total(fields)))
        is_interim = kind == "head" and side == SERVER and value_of(fields, b":status")[:1] == b"1"
        self.sent.append(printed(("Interim" if is_interim else kind.capitalize(), fields)))

    def come(self, line):
        if line.startswith("fault malformed"):
            self.is_cut_off = True
        elif line.startswith("body "):
            self.came += line[len("body "):].encode()
        elif line.startswith("too large "):
            # the section that comes next, if it is so large
            place, size = len(self.came), int(line.split(" ")[2])
            self.came.append(self.sent[place] if (place, size) in self.sizes else line)
        elif line.startswith(("head ", "interim ", "trailer ")) or line == "end" and self.came[-1:] != ["end"]:
            self.came.append(line)

    def is_whole(self):
        return bool(self.sent) and self.came == self.sent

    def fault(self):
        if self.is_unsure:
            return None
        if self.came != self.sent[:len(self.came)]:
            return "what came out is no front of what was sent"
        if len(self.came) < len(self.sent) and not self.is_cut_off:
            return "memory is back, and what was sent did not come out whole"
        return None


def messages(script, answers):
    """the message of each side on each stream"""
    found = {}
    for line, answer in zip(script[1:], answers):
        kind, side, arguments = wide_event(line)
        if kind in ("open", "goaway", "show", "deliver", "end", "gone"):
            continue
        is_reader = kind in (*PULLS, "cancel")
        message = found.setdefault((OTHER[side] if is_reader else side, arguments[0]), Message())
        if answer == UNTOLD:
            message.is_unsure = True
        elif kind in PULLS:
            message.come(answer)
        elif answer != "ok":
            continue
        elif kind in LISTS:
            message.send(LISTS[kind], side, arguments[1])
        elif kind == "body":
            message.sent += arguments[1]
        elif kind == "finish":
            message.sent.append("end")
        else:
            message.is_cut_off = True
    return found


# ---- runs


@dataclass(frozen=True)
class Run:
    """a script, which calls of it were refused memory, and what came of it"""

    name: str
    script: list[str]
    status: int
    answers: list[str]
    is_cases: bool = False
    is_refused: bool = True

    def wrong_line(self):
        """the first line that the model does not allow, or None"""
        is_whole = len(self.answers) == len(self.script) - 1
        if self.status != (0 if is_whole else NO_MEMORY) or not (is_whole or self.is_cases):
            return f"{self.name}: status {self.status}, {len(self.answers)} lines"
        try:
            place = follow(self.script, self.answers, self.is_cases and self.is_refused)
        except (TooMany, memory_world.Unread) as why:
            return f"{self.name}: {why}"
        return place and f"{self.name}: event {place}, {self.script[place]!r}, is answered {self.answers[place - 1]!r}"


def runs_of(refusing, program, name, script, plans, is_cases=False):
    """a script with no call refused, and by each plan"""
    given = ("\n".join(script) + "\n").encode()
    plain = refusing.run(program, given, window=(BEGINS, ENDS))
    chosen = plans(plain.calls) if plain.calls else []
    for plan in [Refused(), *chosen]:
        ran = refusing.run(program, given, plan, (BEGINS, ENDS))
        wrote = ran.wrote.decode(errors="replace").split("\n")[:-1]
        yield Run(f"{name}, {plan}", script, ran.status, wrote[1:] if is_cases else wrote, is_cases, plan != Refused())


def all_runs(refusing, program, cases, seeds):
    for name, script in SMALL.items():
        yield from runs_of(refusing, program, name, script, each_in_turn)
    for name, script in JUDGED.items():
        yield from runs_of(refusing, cases, name, script, few_in_turn, True)
    for seed in seeds:
        script = schedule(seed)
        yield from runs_of(refusing, program, f"schedule {seed}", script if seed % 2 else with_lists(script), partial(by_chance, random.Random(seed)))


def told(what, faults, good):
    print(f"failed {what} with memory refused: {len(faults)}, first {'; '.join(faults[:SHOWN])}" if faults else f"ok {what} with memory refused: {good}", flush=True)
    return bool(faults)


def compare(runs):
    count, events, whole, answers, lines, streams = 0, 0, 0, Counter(), [], []
    for run in runs:
        count, events = count + 1, events + len(run.answers)
        answers.update(next(kind for kind in TELLING if it.startswith(kind)) for it in run.answers if it.startswith(TELLING))
        wrong = run.wrong_line()
        lines += [wrong] if wrong else []
        found = {} if run.status else messages(run.script, run.answers)
        streams += [f"{run.name}: stream {id} of the {side.lower()}: {it.fault()}" for (side, id), it in found.items() if it.fault()]
        whole += sum(it.is_whole() for it in found.values())
    met = ", ".join(f"{answers[it]} {it!r}" for it in TELLING)
    lines += [] if all(answers[it] for it in TELLING) else [f"not every answer of these came: {met}"]
    bad = told("lines", lines, f"{count} runs, {events} lines, of which {met}")
    return told("messages", streams, f"{whole} came out whole, and of all others a front") or bad


# ---- wrong models


def stays_with_its_writer(end, kind, id, count=0):
    return Delivery(kind, id, end.outgoing(id)[1][:count] if kind == "deliver" else b"")


def inserts_nothing(end, _id, _fields):
    return end


def reads_all_or_nothing(_end, _delivery):
    return []


def reads_nothing(end, kept):
    return [(end, kept)]


def is_never_settled(_end, _id):
    return False


def holds_nothing_back(_end, _delivery, _reader):
    return None


def breaks_no_rule(_left, _kind, _what):
    return None


def is_never_too_long(_stream, _limit):
    return False


def cancels_nothing(end, id, why):
    written = end.own[end.ids[2]]
    fault = gives_up(end, id, why)
    end.own[end.ids[2]] = written
    return fault


def acknowledges_nothing(end, id, why):
    decoder = end.ids[2]
    end.own[decoder] = end.own[decoder].removesuffix(integer(7, 1, id))  # RFC 9204, 4.4.1
    return gives_up(end, id, why)


WRONG = {
    "what is kept stays with its writer": ("taken_from", stays_with_its_writer),
    "a refused head inserts nothing": ("with_insertions", inserts_nothing),
    "a kept delivery is read whole or not at all": ("whole_in", reads_all_or_nothing),
    "where memory is refused nothing that is kept is read": ("parts_read", reads_nothing),
    "a pull of a stream that is over reads what is kept": ("is_settled", is_never_settled),
    "what came before the settings is read with them": ("held_back", holds_nothing_back),
    "a strict side finds nothing malformed": ("broken", breaks_no_rule),
    "a side with a limit finds nothing too long": ("is_too_long", is_never_too_long),
    "of a message that is given up no cancellation is written": ("gives_up", cancels_nothing),
    "a section that is malformed is not acknowledged": ("gives_up", acknowledges_nothing),
}


def self_check(runs):
    """each wrong model up to the first run that differs from it"""
    runs, missed = list(runs), 0
    for what, (name, wrong) in WRONG.items():
        with mock.patch.object(memory_world, name, wrong):
            fault = next(filter(None, (run.wrong_line() for run in runs)), None)
        print(f"ok wrong model: {what}: {fault}" if fault else f"failed wrong model: {what}: none of {len(runs)} runs differs", flush=True)
        missed += fault is None
    return missed > 0


def main():
    parser = argparse.ArgumentParser(description="whole runs of the program where memory is refused")
    parser.add_argument("program", type=os.path.abspath)
    parser.add_argument("cases", type=os.path.abspath)
    parser.add_argument("--schedules", type=int, default=SCHEDULES)
    parser.add_argument("--first", type=int, default=1, help="the first seed")
    parser.add_argument("--self-check", action="store_true", help="wrong models, from each of which the program has to differ")
    given = parser.parse_args()
    if not can_refuse():
        print("ok runs with memory refused: not tried, since there is no C compiler")
        return 0
    with Refusing() as refusing:
        runs = all_runs(refusing, given.program, given.cases, range(given.first, given.first + given.schedules))
        return int((self_check if given.self_check else compare)(runs))


if __name__ == "__main__":
    sys.exit(main())
