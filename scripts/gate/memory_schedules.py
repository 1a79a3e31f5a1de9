"""Scripts for a client and a server that are refused memory in their middle: by chance (`schedule`), and three small ones (`SMALL`), of which each call
for memory can be refused in turn.

Each begins with requests that are opened, and with a body of the client on stream 0 that nobody reads. A delivery of `BEGINS` bytes of it says
where refusals may begin, one of `ENDS` bytes where memory is back: a delivery first copies its bytes, and no other one has so many. Between
them messages are sent, with many fields to insert, and go over: most of all what stands on control, encoder and decoder streams, since these alone
are read as they come and so kept. Half of the deliveries are made once more, for where they were refused. Behind each event stand lines
that change nothing and tell most of what both sides have read. At the end everything is delivered and pulled.
"""
import os
import random
import sys

sys.path.insert(0, os.path.dirname(os.path.abspath(__file__)))
from independent_model import GREATEST  # noqa: E402
from independent_talk import SIDES, answered, event_of, next_line, sent_lines, setup  # noqa: E402
from memory_world import begin, right_line, states_behind  # noqa: E402

BEGINS, ENDS = 509, 521
OWN = {"c": (2, 6, 10), "s": (3, 7, 11)}
# more than any stream has: the answer says how many bytes wait
TOO_MANY = 2**64 - 1
PROBES = ["show c", "show s"] + [f"deliver {side} {id} {TOO_MANY}" for side, ids in OWN.items() for id in ids]
# more than what waits on any stream, by halves: all goes over, however much it is
HALVES = [2**power for power in range(11, -1, -1)]
ROUNDS, PULLS = 3, 8
SECTIONS, TABLES, BLOCKED = (160, 1000, GREATEST, GREATEST), (64, 144, 400, 4096, 4096), (0, 1, 2, 8, 100)
NAMES = ("x-a", "x-b", "server", "x-longer-name")


class Schedule:
    """the lines of a script, while two endpoints without refused memory answer along"""

    def __init__(self, limits):
        self.lines = ["config " + " ".join(map(str, limits))]
        self.ends = setup(self.lines[0])

    def add(self, line):
        self.lines.append(line)
        answered(self.ends, *event_of(line))

    def waits(self, side, id):
        return len(self.ends[SIDES[side]].outgoing(id)[1])


class Judged(Schedule):
    """The same of sides that judge messages, or limit them. None lacks memory."""

    def __init__(self, choices):
        self.lines = [f"config {choices}"]
        self.state, self.read = begin(self.lines[0])

    @property
    def ends(self):
        return self.state.ends

    def add(self, line):
        self.lines.append(line)
        event = self.read(line)
        self.state = states_behind(self.state, event, right_line(self.state, event))[0]


def fields(rng):
    return [f"{name}={rng.randrange(20)}" for name in rng.choices(NAMES, k=rng.choice([1, 3, 6]))]


def message(rng, side, id):
    """the lines of a message"""
    interim = [" ".join([f"head s {id} 103", *fields(rng)]) for _ in range(rng.randrange(3))] if side == "s" else []
    head = " ".join([f"head {side} {id}", "GET https://a.b/" if side == "c" else "200", *fields(rng)])
    body = [f"body {side} {id} {'text' * rng.randrange(4)}" for _ in range(rng.randrange(2))]
    return [*interim, head, *body, " ".join([f"trailer {side} {id}", *fields(rng)]), f"finish {side} {id}"]


def open_requests(made, seen, ids):
    """The requests are open, and the server has seen some of them. On stream 0 nothing but a body waits."""
    made.add("open c")
    made.add("head c 0 POST https://a.b/")
    made.add(f"body c 0 {'x' * (BEGINS + ENDS)}")
    made.add(f"deliver c 0 {made.waits('c', 0) - BEGINS - ENDS}")
    for _ in ids:
        made.add("open c")
    for id in seen:
        made.add(f"deliver c {id} 0")


def first_events(made, rng, ids):
    """the settings, which a cancellation may go ahead of"""
    lines = []
    if rng.random() < 0.3:
        lines += [f"cancel c {rng.choice(ids)}", "deliver c 10 2"]
    return lines + [f"deliver {side} {id} {made.waits(side, id)}" for side, id in (("s", 3), ("c", 2)) if rng.random() < 0.9]


def own_moved(made, rng):
    """a delivery of some of what waits on a control, encoder or decoder stream; None where nothing does"""
    waiting = [(side, id) for side, ids in OWN.items() for id in ids if made.waits(side, id)]
    if not waiting:
        return None
    side, id = rng.choice(waiting)
    count = made.waits(side, id)
    return f"deliver {side} {id} {count if rng.random() < 0.7 else rng.randint(0, count)}"


def one_event(made, rng, ids, queues):
    choice, ready = rng.random(), [queue for queue in queues if queue]
    if choice < 0.3 and ready:
        return rng.choice(ready).pop(0)
    return choice < 0.6 and own_moved(made, rng) or next_line(rng, made.ends, ids, queues)


def handed_out(ids, rounds):
    """lines that deliver and pull everything"""
    lines = []
    for _ in range(rounds):
        for side, own in OWN.items():
            lines += [f"deliver {side} {id} {count}" for id in (*own, *ids) for count in HALVES]
            lines += [f"{kind} {side} {id}" for id in ids for kind in ("end", "gone")]
        lines += [f"pull {side} {id}" for side in OWN for id in ids for _ in range(PULLS)]
    return lines


def ended(made, ids, rounds=ROUNDS):
    """the lines, once memory is back too"""
    made.add(f"deliver c 0 {ENDS}")
    return made.lines + handed_out([0, *ids], rounds)


def schedule(seed):
    """a script by chance"""
    rng = random.Random(seed)
    ids = [4 * number for number in range(1, rng.randint(2, 6))]
    made = Schedule([rng.choice(it) for _ in "cs" for it in (SECTIONS, TABLES, BLOCKED)])
    open_requests(made, [id for id in ids if rng.random() < 0.7], ids)
    queues = [(message if rng.random() < 0.7 else sent_lines)(rng, side, id) for id in ids for side in "cs"]
    made.add(f"deliver c 0 {BEGINS}")
    first = first_events(made, rng, ids)
    for number in range(rng.randint(20, 45)):
        line = first[number] if number < len(first) else one_event(made, rng, ids, queues)
        for _ in range(1 + (line.startswith("deliver") and rng.random() < 0.5)):
            made.add(line)
            made.lines += PROBES
    return ended(made, ids)


def small(lines):
    """a script of these events, in which a stream id stands for a delivery of all that waits there"""
    made = Schedule([1000, 220, 1, 1000, 220, 1])
    open_requests(made, [4], [4])
    made.add(f"deliver c 0 {BEGINS}")
    for line in lines:
        made.add(event(made, line))
        made.lines += PROBES
    return ended(made, [4])


def event(made, line):
    side, _, id = line.partition(" ")
    return f"deliver {line} {made.waits(side, int(id))}" if side in OWN else line


def judged(choices, lines):
    """the same of two sides that are made by choices, on streams 4 and 8, for crates/h3_cases"""
    made = Judged(choices)
    open_requests(made, [4], [4, 8])
    made.add(f"deliver c 0 {BEGINS}")
    for line in lines:
        made.add(event(made, line))
    made.lines += PROBES
    return ended(made, [4, 8], 2)


SIMPLE = "head c 4 GET https://www.example.com/sample/path"
SMALL = {
    # what the client's decoder wrote is read behind its settings, and then no section of stream 4 refers to the table
    "a cancellation before the settings": small(["cancel c 4", "c 10", "c 2", "head s 4 103 x-a=1", "head s 4 200 x-a=2"]),
    # The second section refers to what the first one inserted before memory was refused. A pull of stream 0, which was given up, reads nothing.
    "a head with two insertions, sent twice": small(["cancel s 0", "s 3", SIMPLE, SIMPLE, "c 6", "pull s 0", "c 6", "c 4", "pull s 4", "pull s 4"]),
    # A list is pulled once its insertions were read, again where memory was refused for that or for the list, and then a header is not there.
    "a head and a trailer, pulled as lists": small(["s 3", SIMPLE, "trailer c 4 x-a=1", "c 4", "pulls s 4", "c 6", "pulls s 4", "pulls s 4", "pulls s 4", "pull s 4"]),
}

GET = ":method=GET :scheme=https :authority=www.example.com"
POST = f":method=POST{GET[len(':method=GET'):]} :path=/"
WITH_TABLE = "max_field_section_size=1000 table=220 blocked=1"
JUDGED = {
    # Of a list that breaks a rule nothing is inserted. Content is as long as was said, and the message goes on behind each refusal.
    "a strict client, which sends nothing that is malformed": judged(f"{WITH_TABLE} strict / {WITH_TABLE}", [
        "s 3", f"fields c 4 {GET} :path=/a connection=close", f"fields c 4 {POST} content-length=5", "body c 4 hello!", "finish c 4", "body c 4 hello",
        "trailers c 4 x-a=1 upgrade=a", "trailers c 4 x-a=1", "finish c 4", "head c 8 GET https://a.b/ keep-alive=a", "head c 8 GET https://a.b/ x-a=1", "finish c 8",
        "c 6", "c 4", "pulls s 4", "pull s 4"]),
    # The section that is malformed is decoded, and so is acknowledged before its stream is given up. Another stream refers to what it inserted.
    "a strict server, which finds a request malformed behind what it keeps": judged(f"{WITH_TABLE} / {WITH_TABLE} strict", [
        "s 3", f"fields c 4 {GET} :path=/sample/path upgrade=a", f"fields c 8 {GET} :path=/sample/path", "c 4", "pulls s 4", "c 6", "c 8", "pulls s 4", "pulls s 4",
        "pulls s 8", "s 11"]),
    "a strict server, which finds content too long, and then too short": judged(f"{WITH_TABLE} / {WITH_TABLE} strict", [
        "s 3", f"fields c 4 {POST} content-length=3", "body c 4 text", "finish c 4", f"fields c 8 {POST} content-length=9", "body c 8 text", "finish c 8", "c 2", "c 6",
        "c 4", "pulls s 4", "pulls s 4", "c 8", "pulls s 8", "pulls s 8", "end c 8", "pulls s 8", "s 11"]),
    # A request that was sent before the settings came may be above the limit. The frame is not read.
    "a server with a limit, which finds a frame too long": judged("/ max_field_section_size=170 table=64 unfinished_limit=680", [
        f"fields c 4 {GET} :path=/ x-a=~*600", "head c 8 GET https://a.b/", "c 4", "c 2", "pulls s 4", "c 8", "pulls s 8", "s 3", "s 11"]),
}
