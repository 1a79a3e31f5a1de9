"""What a client and a server may answer to a schedule in which memory may be refused at any event.

A state is two endpoints of scripts/gate/independent_model.py, which know no refused memory, and what each side keeps: deliveries that it took and
could not read yet, in the order in which they came. What is kept has left its writer, and of the reader it counts as not delivered. `states_behind`
gives what may stand behind an event that was answered by a line of the program, and nothing where no such answer is allowed. The rules:

- A line that tells of no refused memory is exact. A delivery that is taken, and a pull, have read all that their side keeps.
- `refused OutOfMemory`: the call would have been accepted, and nothing has changed. A head or trailer may have made the insertions of a front
  of its fields, which stand on the encoder stream (RFC 9204, 4.3), with nothing on its own. `finish`, `reset` and `show` are never refused so.
- `refused Kept`: the delivery left its writer and is kept behind the rest, of which a part may be read. Something is left.
- `fault out of memory`, of a pull: nothing is handed out, and a part of what is kept may be read. A stream that was given up, reset or handed
  out to its end has its answer without memory (RFC 9114, 4.1.1), and its pulls read nothing.
- `refused Malformed WHY`: the side asks for strict messages, the send breaks that rule (scripts/gate/message_rules.py), and nothing has changed.
- `fault malformed WHY`, at a side that asks for strict messages or limits what is unfinished: it has read all that it keeps, and gives the message
  up. The part that breaks the rule it takes, and hands it to nobody. A HEADERS frame above its limit it does not take.

A script of the wider language (crates/h3_cases/README.md) says of each side what it judges. Its program makes some calls twice (`of_cases`).
"""
import os
import sys
from dataclasses import dataclass, field

sys.path.insert(0, os.path.dirname(os.path.abspath(__file__)))
from independent_model import CLIENT, DECODER, SERVER, Endpoint  # noqa: E402
from independent_talk import CANCELLED, PULLS, answered, event_of, printed, setup, wide_event, wide_setup  # noqa: E402
from message_rules import broken, counted, is_too_long  # noqa: E402

OUT_OF_MEMORY, KEPT, NOT_PULLED = MEMORY = ("refused OutOfMemory", "refused Kept", "fault out of memory")
OTHER = {CLIENT: SERVER, SERVER: CLIENT}
MOST_STATES = 2000
PLAIN = {int, bytes, str, bool, tuple, type(None)}
SENDS, READS = "sends", "reads"
LISTS = {"head": "head", "fields": "head", "trailer": "trailer", "trailers": "trailer"}
UNTOLD = "refused"  # a line that h3_cases could not read or write


def copied(it):
    """a copy that shares nothing which a call may change"""
    if isinstance(it, dict):
        return {name: value if type(value) in PLAIN else copied(value) for name, value in it.items()}
    if isinstance(it, (list, set)):
        return type(it)(value if type(value) in PLAIN else copied(value) for value in it)
    made = object.__new__(type(it))
    made.__dict__ = copied(it.__dict__)
    return made


def key(it):
    """equal for states that answer alike: what stands in the parts, and not how bytes that came were cut"""
    if type(it) in PLAIN:
        return it
    if isinstance(it, dict):
        return tuple(sorted((name, key(b"".join(value)) if name == "pieces" else key(value)) for name, value in it.items()))
    if isinstance(it, (list, set)):
        return type(it).__name__, tuple(map(key, it if isinstance(it, list) else sorted(it)))
    return key(it.__dict__)


class Unread(Exception):
    """what was taken can't be read: never with these rules"""


@dataclass(frozen=True)
class Delivery:
    """what goes over of a stream, by the script's word for it: bytes (`deliver`), its end (`end`) or its reset (`gone`)"""

    kind: str
    id: int
    data: bytes = b""

    def read_by(self, end):
        if self.kind == "deliver":
            answer = end.deliver(self.id, self.data)
        else:
            answer = end.deliver_end(self.id) if self.kind == "end" else end.deliver_reset(self.id, CANCELLED)
        if answer != ("done",):
            raise Unread(f"{self} is read as {answer}")


@dataclass(frozen=True)
class Judges:
    """the sides that ask for strict messages, and those that limit what is unfinished, with their limits"""

    strict: frozenset = frozenset()
    limits: tuple = ()

    def limit(self, side):
        return dict(self.limits).get(side)


@dataclass
class State:
    ends: dict[str, Endpoint]
    kept: dict[str, tuple[Delivery, ...]]
    judges: Judges = Judges()
    # of a strict side, of what it sends and of what it was handed on each stream: how much of the announced content is left
    left: dict = field(default_factory=dict)

    def copy(self):
        return State(copied(self.ends), dict(self.kept), self.judges, self.left)

    def with_side(self, side, end, left):
        """this side stands so now, and keeps what is left"""
        return State({**self.ends, side: end}, {**self.kept, side: left}, self.judges, self.left)

    def broken(self, way, side, id, part):
        """the rule that a part of a message breaks, if the side judges it"""
        return broken(self.left.get((way, side, id)), *part) if part and side in self.judges.strict else None

    def count(self, way, side, id, part):
        """the part has passed"""
        if part and side in self.judges.strict:
            self.left = {**self.left, (way, side, id): counted(self.left.get((way, side, id)), *part)}


def caught_up(state, side):
    """a side has read all that it keeps"""
    after = state.copy()
    for delivery in state.kept[side]:
        delivery.read_by(after.ends[side])
    after.kept[side] = ()
    return after


# ---- what is read of what is kept


def whole_in(end, delivery):
    """Behind how many of its bytes nothing is held that isn't whole: the stream's type, a frame, an instruction (RFC 9114, 6.2 and 7.1; RFC 9204,
    4.3 and 4.4). Where a cut lies inside of one of these tells nothing. On a request stream all bytes wait for a pull."""
    if delivery.kind != "deliver" or end.is_request(delivery.id):
        return []
    reader, places = copied(end), []
    for count in range(1, len(delivery.data) + 1):
        reader.deliver(delivery.id, delivery.data[count - 1:count])
        if not reader.critical.get(reader.incoming[delivery.id].kind, b"-"):
            places.append(count)
    return places


def front_read(end, delivery, count):
    """an endpoint that has read so many bytes of a delivery, and what is left of it"""
    end = copied(end)
    Delivery(delivery.kind, delivery.id, delivery.data[:count]).read_by(end)
    return end, Delivery(delivery.kind, delivery.id, delivery.data[count:])


def held_back(end, delivery, reader):
    """What the peer's decoder wrote is held until its SETTINGS are read. Where memory is refused behind these it is still to be read: a delivery of its
    own, behind the one that brings them. None where nothing is held, or where they are there already or do not come with this delivery, which `reader` has read."""
    held = end.critical.get(DECODER)
    if not held or end.settings is not None or reader.settings is None:
        return None
    end = copied(end)
    end.critical[DECODER] = b""
    id = next(id for id, stream in end.incoming.items() if stream.kind == DECODER)
    return end, (delivery, Delivery("deliver", id, held))


def parts_read(end, kept):
    """Each way to read a part of what is kept, in its order: the endpoint and what is left. A delivery is read at one go, whole or up to some byte, so what
    it inserts is told in one increment (RFC 9204, 4.4.3)."""
    found, todo = {}, [(end, kept, False)]
    while todo:
        end, kept, is_cut = todo.pop()
        place = key(end), kept, is_cut
        if place in found:
            continue
        found[place] = end, kept
        if not kept or is_cut:
            continue
        first, rest = kept[0], kept[1:]
        reader = copied(end)
        first.read_by(reader)
        todo.append((reader, rest, False))
        for count in whole_in(end, first):
            cut, left = front_read(end, first, count)
            todo.append((cut, (left, *rest), True))
        back = held_back(end, first, reader)
        if back is not None:
            todo.append((back[0], (*back[1], *rest), False))
    return list(found.values())


# ---- events


def is_there(end, kind, id, count=0):
    """whether a stream of the writer has what is to go over"""
    if not end.has_outgoing(id):
        return False
    waits = len(end.outgoing(id)[1])
    if kind == "deliver":
        return count <= waits
    return end.is_finished(id) and not waits if kind == "end" else end.is_reset(id)


def taken_from(end, kind, id, count=0):
    """the delivery leaves its writer"""
    data = end.outgoing(id)[1][:count] if kind == "deliver" else b""
    if data:
        end.advance(id, count)
    return Delivery(kind, id, data)


def kept_behind(state, kind, side, arguments):
    """The states where a delivery is kept. What comes on a request stream is only stored, so it is kept for what stands in front of it alone; and a
    stream of which something is kept is open."""
    after, reader, id = state.copy(), OTHER[side], arguments[0]
    delivery = taken_from(after.ends[side], kind, *arguments)
    if after.ends[reader].is_request(id):
        if not state.kept[reader]:
            return []
        after.ends[reader].deliver(id, b"")
    parts = parts_read(after.ends[reader], (*state.kept[reader], delivery))
    return [after.with_side(reader, end, left) for end, left in parts if left]


def handed_over(state, event, line):
    kind, side, arguments = event
    if not is_there(state.ends[side], kind, *arguments):
        return [state] if line == answered(state.ends, *event) else []
    after = caught_up(state, OTHER[side])
    right = answered(after.ends, *event)
    taken = right.split(" ")[0] in ("ok", "delivered")
    if line == OUT_OF_MEMORY:
        # bytes are copied before they are offered
        return [state] if taken or kind == "deliver" else []
    if line == KEPT:
        return kept_behind(state, *event) if taken else []
    if line != right:
        return []
    return [after if taken else state]


def is_settled(end, id):
    """whether a pull's answer needs no memory any more"""
    stream = end.incoming.get(id)
    return stream is not None and (stream.fault is not None or stream.over)


def asked(end, kind, id, piece=None):
    """the answer of a pull, with a header or with a list of fields"""
    return end.pull(id, piece) if kind == "pull" else end.pull_fields(id, piece)


def part_out(stream, answer, payload):
    """The part of a message that a pull read, where so much of a payload was under way before. A payload is one part, told by the length of its frame."""
    if answer[0] in ("Head", "Interim", "Trailer"):
        return "trailer" if answer[0] == "Trailer" else "head", stream.listed
    if answer[0] == "End":
        return "end", 0
    size = 0 if stream is None or payload else stream.payload + (len(answer[1]) if answer[0] == "Body" else 0)
    return ("content", size) if size else None


def gives_up(end, id, why):
    """the side gives the message up as malformed"""
    end.give_up(id, end.incoming[id], ("Fault", "Stream", "Malformed", why))
    return end.incoming[id].fault


def judged(after, side, kind, id, piece):
    """the answer of a pull of a side that has read all that it keeps"""
    end = after.ends[side]
    limit = after.judges.limit(side)
    if limit is not None and end.hands_out(id) and is_too_long(end.incoming.get(id), limit):
        return gives_up(end, id, "TooLong")
    payload = end.incoming[id].payload if id in end.incoming else 0
    answer = asked(end, kind, id, piece)
    part = part_out(end.incoming.get(id), answer, payload)
    why = after.broken(READS, side, id, part)
    if why:
        return gives_up(end, id, why)
    after.count(READS, side, id, part)
    return answer


def pulled(state, event, line):
    kind, side, (id,) = event
    end = state.ends[side]
    if is_settled(end, id):
        return [state] if line == printed(asked(end, kind, id)) else []
    if line == NOT_PULLED:
        return [state.with_side(side, *part) for part in parts_read(end, state.kept[side])]
    after = caught_up(state, side)
    # where a body is cut is promised to nobody: any front of what came is right
    piece = ("Body", line[len("body "):].encode()) if line.startswith("body ") else None
    return [after] if line == printed(judged(after, side, kind, id, piece)) else []


def with_insertions(end, id, fields):
    """the insertions for some fields, of which no section is written: nothing refers to them, and nothing waits for an acknowledgment"""
    end = copied(end)
    sender = copied(end.sender)
    _, instructions = sender.encode(id, fields)
    end.sender.table = sender.table
    end.own[end.ids[1]] += instructions
    return end


def fronts_inserted(state, side, id, fields):
    """the states that a refused head or trailer may leave"""
    ends = [with_insertions(state.ends[side], id, fields[:count]) for count in range(len(fields) + 1)]
    return [state.with_side(side, end, state.kept[side]) for end in ends]


def part_in(kind, arguments):
    """the part of a message that a call sends"""
    if kind in LISTS:
        return LISTS[kind], arguments[1]
    if kind == "body":
        return "content", len(arguments[1])
    return ("end", 0) if kind == "finish" else None


def sent(state, event):
    """the answer of a call that lacks no memory, and the state behind it"""
    kind, side, arguments = event
    after, part = state.copy(), part_in(kind, arguments)
    right = answered(after.ends, *event)
    if part and right.startswith(("ok", "refused TooLarge")):
        why = state.broken(SENDS, side, arguments[0], part)
        if why:
            return f"refused Malformed {why}", state
    if right == "ok" and part:
        after.count(SENDS, side, arguments[0], part)
    return right, after


def called(state, event, line):
    """sends, cancellations and what a side shows"""
    kind, side, arguments = event
    if kind == "show":
        return [state] if line == answered(state.ends, *event) else []
    right, after = sent(state, event)
    if line != OUT_OF_MEMORY:
        return [after] if line == right else []
    if kind in ("finish", "reset"):
        return []
    if kind == "body":
        # its bytes are shared before the call is judged
        return [state]
    if kind in LISTS and right == "ok":
        return fronts_inserted(state, side, *arguments)
    # The fields of a header are listed before they are judged, and a list that is given is judged as it stands. Its size is judged last.
    is_listed = kind in ("head", "trailer") and right.startswith("refused Malformed")
    return [state] if is_listed or not right.startswith("refused") or right.startswith("refused TooLarge") else []


def states_behind(state, event, line):
    """what may stand behind an event that was answered so"""
    if event[0] in ("deliver", "end", "gone"):
        return handed_over(state, event, line)
    return pulled(state, event, line) if event[0] in PULLS else called(state, event, line)


# ---- scripts of the wider language


def again(state, event, first):
    """the states behind a first try that lacked memory, each with the second one, or None where none is made"""
    kind, side, arguments = event
    if first == KEPT:
        return [(it, (kind, side, [arguments[0], 0]) if kind == "deliver" else None) for it in states_behind(state, event, KEPT)]
    # a copy of the bytes that could not be made is not made again
    second = [(it, event) for it in states_behind(state, event, first)]
    return second + ([(state, None)] if kind == "deliver" else [])


def tried(state, event, first, line):
    """the states behind a line, where the first try lacked memory"""
    kind, side, arguments = event
    for after, second in again(state, event, first):
        if second is None:
            yield from [after] if line == first else []
        elif first != KEPT:
            yield from states_behind(after, second, line)
        elif line == OUT_OF_MEMORY:
            # the program then takes the bytes for ones that did not go over
            yield from [after.with_side(side, state.ends[side], after.kept[side])]
        else:
            yield from states_behind(after, second, "delivered 0" if line == f"delivered {arguments[1]}" else line)


def of_cases(state, event, line):
    """A line of h3_cases: a delivery, a pull and a cancellation that lack memory are made once more, and behind bytes that are kept come none. A line that was not read
    or not written tells nothing of its event."""
    if line == UNTOLD:
        return [state] + [it for told in (*MEMORY, right_line(state, event)) for it in of_cases(state, event, told)]
    kind = event[0]
    firsts = [NOT_PULLED] if kind in PULLS else [OUT_OF_MEMORY] if kind == "cancel" else [OUT_OF_MEMORY, KEPT] if kind in ("deliver", "end", "gone") else []
    found = [] if line in firsts else states_behind(state, event, line)
    return found + [it for first in firsts for it in tried(state, event, first, line)]


def right_line(state, event):
    """what an event is answered where no memory is refused"""
    kind, side, arguments = event
    if kind in ("deliver", "end", "gone"):
        after = caught_up(state, OTHER[side]) if is_there(state.ends[side], kind, *arguments) else state.copy()
        return answered(after.ends, *event)
    if kind not in PULLS:
        return sent(state, event)[0]
    after = state.copy() if is_settled(state.ends[side], arguments[0]) else caught_up(state, side)
    return printed(judged(after, side, kind, arguments[0], None))


def judges_of(line):
    """what each side of a script of the wider language judges"""
    words = {side: part.split() for side, part in zip((CLIENT, SERVER), line[len("config "):].split("/"))}
    limits = [(side, int(word.partition("=")[2])) for side in words for word in words[side] if word.startswith("unfinished_limit=")]
    return Judges(frozenset(side for side in words if "strict" in words[side]), tuple(limits))


def begin(line):
    """the first state of a script, and how its lines are read"""
    if "/" in line:
        return State(wide_setup(line), {CLIENT: (), SERVER: ()}, judges_of(line)), wide_event
    return State(setup(line), {CLIENT: (), SERVER: ()}), event_of


# ---- whole scripts


def distinct(states):
    return states if len(states) < 2 else list({(key(it.ends), it.kept[CLIENT], it.kept[SERVER], key(it.left)): it for it in states}.values())


class TooMany(Exception):
    """more states than are followed"""


def follow(script, answers, by_cases=False):
    """The number of the first event of a script, from 1, that is not answered as is allowed, or None. `by_cases`: h3_cases ran it, and memory was refused."""
    first, read = begin(script[0])
    behind = of_cases if by_cases else states_behind
    states = [first]
    for number, (line, answer) in enumerate(zip(script[1:], answers), 1):
        event = read(line)
        states = distinct([it for state in states for it in behind(state, event, answer)])
        if not states:
            return number
        if len(states) > MOST_STATES:
            raise TooMany(f"more than {MOST_STATES} states behind event {number}")
    return None
