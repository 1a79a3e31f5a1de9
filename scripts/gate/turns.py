"""When a check of wrong bodies may begin: alone on the machine, or beside an `rt ci` that writes to a file, with what that leaves of the processors and of the
memory. On its way `rt ci` waits for long proofs, on which most crates stand, with processors idle."""
import contextlib
import os
import re
import threading

CHECK_MEMORY = 4_000_000_000  # a check of h3_session, the largest of the crates with edits, was seen to take 3.3 GB
PROOF_MEMORY = 3_700_000_000  # in the mean, of as many proofs as rt ci has under way: 4.4 GB were seen for h3_cases, and 3.5 at most for any other
SECONDS = 2


def checks_within(rt, memory):
    return min(rt.processors(), int(memory / CHECK_MEMORY))


class Alone:
    """Nothing else is proved on the machine."""

    tries_judged = True

    def __init__(self, rt):
        self.lanes = max(1, checks_within(rt, rt.free()))

    def has_libraries(self, crate):
        return True

    def most(self):
        """how many checks may be under way now"""
        return self.lanes


class Beside:
    """`rt ci` is under way, and its lines come in the file `log`: this is the gate, whose time goes to edits of which the prover tells something."""

    tries_judged = False

    def __init__(self, rt, log):
        self.log = log
        proofs = int(os.environ.get("RT_JOBS") or rt.processors())
        self.lanes = max(1, checks_within(rt, rt.free()))
        self.lanes_beside = max(0, min(rt.processors() // 2, checks_within(rt, rt.free() - proofs * PROOF_MEMORY)))

    def said(self):
        with open(self.log, encoding="utf-8", errors="replace") as it:
            return it.read()

    def has_libraries(self, crate):
        """Has it proved all that the crate stands on?"""
        proved = re.findall(r"(?m)^rt: (\w+) (?:proved|is kept)\b", self.said())
        return {it.name for it in crate.below()} <= {*proved}

    def most(self):
        is_over = re.search(r"(?m)^\d+ passed, \d+ failed", self.said())
        return self.lanes if is_over else self.lanes_beside


class Turns:
    """Hands out turns, to as many checks at a time as there may be."""

    def __init__(self, room):
        self.room, self.under_way, self.changed = room, 0, threading.Condition()

    @contextlib.contextmanager
    def turn(self):
        with self.changed:
            while self.under_way >= self.room.most():
                self.changed.wait(SECONDS)
            self.under_way += 1
        try:
            yield
        finally:
            with self.changed:
                self.under_way -= 1
                self.changed.notify_all()

    def take_ready(self, crates):
        """Takes the first crate of the list out whose libraries are there, and waits for one; None where the list is empty."""
        with self.changed:
            while crates:
                ready = next(filter(self.room.has_libraries, crates), None)
                if ready:
                    crates.remove(ready)
                    return ready
                self.changed.wait(SECONDS)
        return None
