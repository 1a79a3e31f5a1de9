#!/usr/bin/env python3
"""What the program writes to a script, by scripts/gate/independent_model.py: a client and a server of that model, and the bytes that the script
hands from one to the other.

    python3 scripts/gate/independent_talk.py SCRIPT            what is written
    python3 scripts/gate/independent_talk.py DIRECTORY COUNT [FIRST SEED]

makes so many scripts by chance, NAME and NAME.stdout: `rt try --steps 1 --cases DIRECTORY` in crates/h3_talk says whether the program
writes that. `wide` answers scripts of the wider language (crates/h3_cases/README.md) in which no message breaks a rule and no frame is above
a limit: the model has no rules of messages (scripts/gate/strict_messages.py asks them), and encodes each field in its one way.
"""
import os
import random
import re
import sys

sys.path.insert(0, os.path.dirname(os.path.abspath(__file__)))
from hostile_calls import CODES, escaped  # noqa: E402
from independent_model import CLIENT, GREATEST, SERVER, Endpoint, Malformed, has_pseudo, head_of  # noqa: E402

SIDES = {"c": CLIENT, "s": SERVER}
PULLS = ("pull", "pulls")  # with headers, and with lists of fields
CALLS = {"open": "open_request", "head": "send_head", "fields": "send_fields", "body": "send_body", "trailer": "send_trailer", "trailers": "send_trailer_fields",
         "pulls": "pull_fields"}
CANCELLED = 0x10C


class Refused(Exception):
    """a line that is no line of a script"""


def number(word, below):
    if not re.fullmatch("[0-9]+", word) or int(word) >= below:
        raise Refused
    return int(word)


def coded(word):
    return word.encode(errors="surrogateescape")


def pairs_of(words):
    """name=value words; names are written in any case and mean lower case (RFC 9114, 4.2)"""
    pairs = []
    for word in words:
        name, cut, value = word.partition("=")
        if not cut:
            raise Refused
        pairs.append((coded(name.lower()), coded(value)))
    return pairs


def checked(fields, trailer=False):
    try:
        head = head_of(fields)
    except Malformed:
        raise Refused from None
    if trailer and has_pseudo(head):
        raise Refused
    return head


def request(method, uri, fields):
    """RFC 9114, 4.3.1: an authority is in the target or in host, and alike where it is in both"""
    parts = re.fullmatch(r"(https?)://([A-Za-z0-9.-]+)(/[A-Za-z0-9/._~-]*)?", uri)
    bare = re.fullmatch(r"/[A-Za-z0-9/._~-]*", uri)
    hosts = [value for name, value in fields if name == b"host"]
    if not (parts or bare) or any(name[:1] == b":" for name, _ in fields):
        raise Refused
    authority = parts.group(2).encode() if parts else None
    if authority is None and not hosts or authority and hosts and authority != hosts[0]:
        raise Refused
    pseudo = [(b":method", method.encode()), (b":scheme", (parts.group(1) if parts else "https").encode())]
    pseudo += [(b":authority", authority)] if authority else []
    path = (parts.group(3) or "/") if parts else uri
    return checked(pseudo + [(b":path", path.encode())] + fields)


def event_of(line):
    """a line's event: what is done, the side and its arguments"""
    words = line.split(" ")
    kind, side = words[0], SIDES.get(words[1] if len(words) > 1 else "")
    if side is None:
        raise Refused
    if kind in ("open", "show"):
        arguments = []
    elif kind == "goaway":
        arguments = [number(words[2], GREATEST + 1)] if len(words) == 3 else None
    else:
        arguments = of_stream(kind, words[2:], line)
    if arguments is None or kind in ("open", "show") and len(words) > 2:
        raise Refused
    return kind, side, arguments


def of_stream(kind, words, line):
    if not words:
        raise Refused
    id, rest = number(words[0], GREATEST + 1), words[1:]
    if kind in ("finish", "reset", "cancel", "pull", "pulls", "end", "gone"):
        return None if rest else [id]
    if kind == "body":
        return [id, coded(line.split(" ", 3)[3])] if rest else None
    if kind == "deliver":
        return [id, number(rest[0], 2**64)] if len(rest) == 1 else None
    if kind == "trailer":
        return [id, checked(pairs_of(rest), True)]
    if kind != "head" or not rest:
        return None
    if re.fullmatch("[0-9]{3}", rest[0]):
        plain = pairs_of(rest[1:])
        if has_pseudo(checked(plain)):
            raise Refused
        return [id, checked([(b":status", rest[0].encode())] + plain)]
    return [id, request(rest[0], rest[1], pairs_of(rest[2:]))] if len(rest) > 1 else None


def setup(line):
    words = line.split(" ")
    if words[0] != "config" or len(words) != 7:
        raise Refused
    client, server = ([number(word, 2**64) for word in words[k:k + 3]] for k in (1, 4))
    for section, table, blocked in (client, server):
        if section > GREATEST or table >= 2**30 or blocked > 65535:
            raise Refused
    return {CLIENT: Endpoint(CLIENT, *client), SERVER: Endpoint(SERVER, *server)}


def handed(ends, kind, side, id, count=0):
    """bytes, the end or the reset of a stream, from the side that wrote"""
    own, other = ends[side], ends[SERVER if side == CLIENT else CLIENT]
    if not own.has_outgoing(id):
        return "no stream"
    waits = own.outgoing(id)[1]
    if kind == "deliver":
        if len(waits) < count:
            return f"short {len(waits)}"
        answer = other.deliver(id, waits[:count])
        if answer == ("done",):
            own.advance(id, count)
            return f"delivered {count}"
    elif kind == "end":
        answer = other.deliver_end(id) if own.is_finished(id) and not waits else ("early",)
    else:
        answer = other.deliver_reset(id, CANCELLED) if own.is_reset(id) else ("early",)
    return of_call(answer)


def named(answer):
    """the code of a connection fault by its name"""
    return tuple(CODES.get(word, word) if k and answer[k - 1] in ("Connection", "Closed") else word for k, word in enumerate(answer))


def of_call(answer):
    if answer[0] in ("done", "opened", "early", "shown"):
        return printed(answer)
    return " ".join(["refused"] + [str(word) for word in named(answer)])


def printed(answer):
    kind, rest = answer[0], list(answer[1:])
    if kind in ("Head", "Interim", "Trailer"):
        return " ".join([kind.lower()] + [f"{lossy(n)}={lossy(v)}" for n, v in rest[0]]) + ("" if rest[0] else " ")
    if kind in ("Body", "Raw"):
        return f"{kind.lower()} {lossy(rest[0])}"
    if kind == "shown":
        limits = ["-"] * 3 if rest[0] is None else rest[0]
        return "show " + " ".join(str(n) for n in [*limits, *rest[1:]])
    if kind == "Fault":
        return "fault " + " ".join(str(word).lower() if k == 0 else str(word) for k, word in enumerate(rest[1:]))
    plain = {"done": "ok", "early": "early", "End": "end", "Pending": "pending", "NoMessages": "no messages"}
    if kind in plain:
        return plain[kind]
    words = {"opened": "stream", "TooLarge": "too large", "Waiting": "waiting", "Session": "session"}
    return " ".join([words[kind]] + [str(n) for n in rest])


def lossy(text):
    return text.decode(errors="replace")


def answered(ends, kind, side, arguments):
    end = ends[side]
    if kind in ("deliver", "end", "gone"):
        return handed(ends, kind, side, *arguments)
    call = CALLS.get(kind, kind)
    answer = getattr(end, call)(*arguments)
    return printed(answer) if kind in PULLS else of_call(answer)


def talk(script):
    """what is written, and the status"""
    lines = script.split("\n")
    lines = lines[:-1] if lines[-1] == "" else lines
    ends, events = None, []
    for place, line in enumerate(lines, 1):
        if line == "" or line[:1] == "#":
            continue
        try:
            if ends is None:
                ends = setup(line)
            else:
                events.append(event_of(line))
        except Refused:
            return f"line {place}\n", 1
    if ends is None:
        return "line 1\n", 1
    return "".join(answered(ends, *event) + "\n" for event in events), 0


# ---- the wider language

# of h3_config_default, what a peer of the model can see
WIDE_DEFAULT = {"max_field_section_size": 65536, "table": 4096, "blocked": 16, "guard_secrets": 1, "strict_connection": 1}
HIDDEN = {"strict", "count_acknowledgments", "encoder_table", "economical_table", "unfinished_limit", "kept_ids", "reject_requests", "any_protocol", "shortest_strings", "priority_updates", "other_settings", "other_streams"}


def chosen(words):
    limits = {"max_field_section_size": GREATEST, "table": 0, "blocked": 0, "guard_secrets": 0, "strict_connection": 0}
    for word in words:
        name, _, value = word.partition("=")
        if name == "default":
            limits.update(WIDE_DEFAULT)
        elif name not in HIDDEN:
            limits[name] = int(value or 1)
    return list(limits.values())


def unescaped(text):
    return re.sub(rb"%([0-9A-F]{2})", lambda found: bytes([int(found[1], 16)]), text.encode())


def wide_list(words):
    fields = []
    for word in words:
        name, _, value = word.partition("=")
        times = re.fullmatch(r"([^*]*)\*([0-9]+)", value)
        fields.append((unescaped(name), unescaped(times[1]) * int(times[2]) if times else unescaped(value)))
    return fields


def wide_value(value):
    return f"{escaped(value[:1])}*{len(value)}" if len(value) > 100 and len(set(value)) == 1 else escaped(value)


def wide_setup(line):
    """the endpoints of a line `config CHOICES / CHOICES`"""
    client, server = (chosen(part.split()) for part in line[len("config "):].split("/"))
    return {CLIENT: Endpoint(CLIENT, *client), SERVER: Endpoint(SERVER, *server)}


def wide_event(line):
    """the event of a line that sends a list of fields, or of one of the narrow language"""
    kind, side, *rest = line.split(" ")
    return (kind, SIDES[side], [int(rest[0]), wide_list(rest[1:])]) if kind in ("fields", "trailers") else event_of(line)


def wide_item(answer):
    kind = answer[0]
    if answer[:2] == ("Fault", "Connection"):
        return f"fault {answer[2]}"
    if kind in ("Head", "Interim", "Trailer"):
        return " ".join([kind.lower()] + [f"{escaped(n)}={wide_value(v)}" for n, v in answer[1]])
    return f"{kind.lower()} {escaped(answer[1])}" if kind in ("Body", "Raw") else printed(answer)


def carried(ends, side, id):
    """all that waits, and the reset or the end"""
    own, other = ends[side], ends[SERVER if side == CLIENT else CLIENT]
    if not own.has_outgoing(id):
        return "no stream"
    waits = own.outgoing(id)[1]
    answer = other.deliver(id, waits)
    if answer == ("done",):
        own.advance(id, len(waits))
        if own.is_reset(id):
            answer = other.deliver_reset(id, CANCELLED)
        elif own.is_finished(id):
            answer = other.deliver_end(id)
    return of_call(answer)


def wide_call(end, command, id, *rest):
    """the calls that have no other end: `waits`, `deliver`, `end` and `gone`"""
    if command == "waits":
        return f"waits {end.outgoing(int(id))[1].hex() or '-'}"
    if command == "end":
        return of_call(end.deliver_end(int(id)))
    if command == "gone":
        return of_call(end.deliver_reset(int(id), int(rest[0])))
    return of_call(end.deliver(int(id), bytes.fromhex(rest[0].replace("-", ""))))


def wide_answer(ends, line):
    command, side, *rest = line.split(" ")
    side = SIDES[side]
    if command == "carry":
        return " ".join(carried(ends, side, id) for id in ([int(rest[0])] if rest else ends[side].ids))
    if command == "call":
        return wide_call(ends[side], *rest)
    if command in PULLS:
        ask = ends[side].pull if command == "pull" else ends[side].pull_fields
        return wide_item(named(ask(int(rest[0]))))
    return answered(ends, *wide_event(line))


def wide(script):
    """what is written to a script of the wider language"""
    ends, out = None, []
    for line in script.split("\n")[:-1]:
        if line == "" or line[:1] == "#":
            out.append(line)
        elif line.startswith("config "):
            ends = wide_setup(line)
            out.append("ok ok")
        else:
            out.append(wide_answer(ends, line))
    return "".join(line + "\n" for line in out)


# ---- scripts by chance

NAMES = ["x-a=1", "X-A=1", "x-a=2", "x-b=2", "accept=*/*", "server=s", "x-longer-name=and-a-value", "age=7", "cookie=", "x-c=a=b"]
BAD_SETUPS = ["strict", "plain plain", "", " ", "0", "0 0"]
BAD_LINES = ["deliver c 0", "open x", "open", "head c 0 GET", "head s 0 099", "trailer s 0 X A=1", "trailer s 0 :path=/", "goaway c 4611686018427387904", "pull c", "deliver c 0 -1", "body c 0", "show c ", "end s 4611686018427387904",
             "head c 0 GET /x", "head c 0 GET https://a.b/ host=c.d", "head s 0 200 x-a", "cancel  c 0", " show c", "config 1 1 1 1 1 1", "head c 0 GET https://a.b/ :path=/"]


def head_line(rng, side, id):
    fields = [rng.choice(NAMES) for _ in range(rng.choice([0, 0, 1, 2, 4]))]
    first = rng.choice(["GET https://a.b/", "POST https://www.example.com/sample/path", "GET https://a.b", "GET /x host=a.b", "PUT http://a.b/x host=a.b"]) if side == "c" else rng.choice(["200", "200", "404", "299", "103", "100", "199"])
    return " ".join([f"head {side} {id} {first}"] + fields)


def sent_lines(rng, side, id):
    """one message, mostly in its order"""
    lines = [head_line(rng, side, id) for _ in range(rng.choice([1, 1, 2, 3]) if side == "s" else 1)]
    lines += [f"body {side} {id} {rng.choice(['', 'hi', 'some more text', 'x' * 70])}" for _ in range(rng.randrange(3))]
    lines += [f"trailer {side} {id} {rng.choice(NAMES)}"] * (rng.random() < 0.3) + [f"finish {side} {id}"] * (rng.random() < 0.7)
    if rng.random() < 0.15:
        rng.shuffle(lines)
    return lines


def moved(rng, ends, ids):
    """a delivery of some of what waits somewhere, an end, a reset"""
    side = rng.choice("cs")
    own, other = ends[SIDES[side]], ends[SERVER if side == "c" else CLIENT]
    told = [i for i, s in other.incoming.items() if s.ended or s.reset is not None]
    if rng.random() < 0.2:
        closed = [i for i in ids if i not in told and (own.is_finished(i) and not own.outgoing(i)[1] or own.is_reset(i))]
        id = rng.choice(closed if closed and rng.random() < 0.9 else ids)
        return f"{'gone' if own.is_reset(id) and rng.random() < 0.9 else rng.choice(['end', 'end', 'gone'])} {side} {id}"
    id = rng.choice([i for i in own.ids + ids if own.has_outgoing(i) and own.outgoing(i)[1]] or ids)
    waits = len(own.outgoing(id)[1])
    return f"deliver {side} {id} {rng.choice([waits, waits, waits, rng.randrange(waits + 1), min(waits, rng.randrange(20)), waits + (rng.random() < 0.1)])}"


def next_line(rng, ends, ids, queues):
    """a line of a message whose stream is open, a movement, a pull, or a rare one"""
    choice, ready = rng.random(), [queue for queue in queues if queue and ends[SIDES[queue[0].split(" ")[1]]].is_open(int(queue[0].split(" ")[2]))]
    if choice < 0.3 and ready:
        return rng.choice(ready).pop(0)
    if choice < 0.6:
        return moved(rng, ends, ids)
    if choice < 0.95:
        return f"pull {rng.choice('cs')} {rng.choice(ids + [2, 3, 5, 16, 400] if rng.random() < 0.05 else ids)}"
    return rng.choice([f"show {rng.choice('cs')}"] * 3 + [f"{kind} {rng.choice('cs')} {rng.choice(ids + [2, 7])}" for kind in ("cancel", "reset", "finish")] + ["open c", "open s", f"goaway {rng.choice('cs')} {rng.choice([12, 8, 4, 5])}"])


def with_lists(lines):
    """every second pull asks for lists of fields"""
    pulls = [at for at, line in enumerate(lines) if line.startswith("pull ")]
    as_lists = {*pulls[1::2]}
    return [line.replace("pull", "pulls", 1) if at in as_lists else line for at, line in enumerate(lines)]


def script(seed):
    """The model is asked along, so that what is handed over is there."""
    rng = random.Random(seed)
    sizes = [rng.choice([41, 60, 160, 1000, GREATEST, 1000]), rng.choice([0, 0, 64, 100, 220, 400]), rng.choice([0, 1, 2, 10])]
    sizes += [rng.choice([41, 160, 200, 1000, GREATEST, 1000]), rng.choice([0, 64, 100, 220, 400, 4096]), rng.choice([0, 1, 2, 100])]
    lines = ["config " + " ".join(str(n) for n in sizes)]
    ends, ids = setup(lines[0]), list(range(0, 4 * rng.randrange(1, 9), 4))
    queues = [sent_lines(rng, side, id) for id in ids for side in "cs" if rng.random() < 0.9]
    events = ["open c" for _ in ids] + [f"deliver c {id} 0" for id in ids if rng.random() < 0.5]
    for line in events:
        answered(ends, *event_of(line))
    for _ in range(rng.randrange(40, 240)):
        events.append(next_line(rng, ends, ids, queues))
        answered(ends, *event_of(events[-1]))
    lines += with_lists(events) + ["show c", "show s"]
    if rng.random() < 0.03:
        lines[0] += " " + rng.choice(BAD_SETUPS)
    if rng.random() < 0.06:
        lines.insert(rng.randrange(1, len(lines)), rng.choice(BAD_LINES))
    if rng.random() < 0.1:
        lines.insert(rng.randrange(len(lines)), rng.choice(["", "# a word on it"]))
    return "\n".join(lines) + rng.choice(["\n", "\n", ""])


def main():
    if len(sys.argv) == 2:
        written, status = talk(open(sys.argv[1], encoding="utf8", errors="surrogateescape").read())
        sys.stdout.write(written)
        return status
    directory, count, first = sys.argv[1], int(sys.argv[2]), int(sys.argv[3]) if len(sys.argv) > 3 else 1
    for seed in range(first, first + count):
        text = script(seed)
        for ending, content in (("", text), (".stdout", talk(text)[0])):
            with open(f"{directory}/by_chance_{seed}{ending}", "w", encoding="utf8") as f:
                f.write(content)
    return 0


if __name__ == "__main__":
    sys.exit(main())
