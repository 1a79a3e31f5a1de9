#!/usr/bin/env python3
"""Hostile lists of calls for crates/h3_connection_rows: what scripts/gate/independent_model.py answers to them, as closed equations. A quarter of the
lists are made here, the others by scripts/gate/call_lists.py.

    python3 scripts/gate/connection_cases.py [CASES A SIDE] [FIRST SEED] [CRATE]

writes the files specs/ClientCases1.antt .., src/client_cases_1.rt .. and their proofs into the crate (default
crates/h3_connection_rows, 30 cases a side from seed 1), and the lines of src/lib.rt and specs/Lib.antt. `rt fmt` lays them out.
"""
import os
import random
import re
import sys

sys.path.insert(0, os.path.dirname(os.path.abspath(__file__)))
from independent_model import CLIENT, SERVER, Endpoint, Unsure  # noqa: E402
from independent_qpack import integer, varint  # noqa: E402

PER_FILE = 5
REQUEST = [(b":method", b"GET"), (b":scheme", b"https"), (b":authority", b"a.b"), (b":path", b"/")]
EXTRA = [(b"x-a", b"1"), (b"x-a", b"2"), (b"x-b", b"2"), (b"accept", b"*/*"), (b"server", b"s"), (b"x-longer-name", b"and a value")]


def fields_for(rng, side):
    first = list(REQUEST) if side == CLIENT else [(b":status", rng.choice([b"200", b"200", b"404", b"103", b"299"]))]
    return first + [rng.choice(EXTRA) for _ in range(rng.randrange(4))]


def spoiled_fields(rng, side):
    f = fields_for(rng, side)
    k = rng.randrange(8)
    if k == 0:
        f.append((b"X-A", b"1"))
    elif k == 1:
        f.append((b"x-a", b"a\nb"))
    elif k == 2:
        f.append((b":other", b"1"))
    elif k == 3:
        f = f[1:]
    elif k == 4:
        f.append((b":status", b"20"))
    elif k == 5:
        f.append((b"", b"1"))
    elif k == 6:
        f.append((b":authority", b""))
    else:
        f.append((b":status", b"200"))
    return f


def mutated(rng, data):
    data = bytearray(data)
    for _ in range(rng.choice([1, 1, 1, 2, 3])):
        k = rng.randrange(5)
        at = rng.randrange(len(data) + 1)
        if k == 0 and data:
            data[at % len(data)] = rng.choice([0, 1, 2, 4, 5, 7, 13, 64, 128, 192, 255, rng.randrange(256)])
        elif k == 1:
            data[at:at] = bytes([rng.randrange(256)])
        elif k == 2 and data:
            del data[at % len(data)]
        elif k == 3:
            data[at:at] = rng.choice([b"\x21\2zz", b"\0\0", b"\4\0", b"\7\1\0", b"\2\0", b"\x40\x41\4", b"\x0d\1\3", b"\3\1\1", b"\5\1\0", b"\0\2hi"])
        elif data:
            data = data[:at]
    return bytes(data)


def message_bytes(rng, peer, id, side):
    """what the peer sends on a request stream, perhaps none of HTTP"""
    k = rng.randrange(12)
    if k == 0:
        return b"\x40\x41" + varint(rng.choice([0, 4, 16383])) + b"raw bytes"
    if k == 1:
        return rng.choice([b"\x0d\1\0", b"\3\1\0", b"\4\0", b"\7\1\4", b"\5\1\0", b"\2\0", b"\1\2\0\0\0\1a", b"\0\1a"])
    sent = fields_for(rng, side) if rng.random() < 0.75 else spoiled_fields(rng, side)
    section, instructions = peer.sender.encode(id, sent)
    peer.own[peer.ids[1]] += instructions
    data = b"\1" + varint(len(section)) + section
    if side == SERVER and sent and sent[0][1][:1] == b"1":
        section, _ = peer.sender.encode(id, [(b":status", b"200")])
        data += b"\1" + varint(len(section)) + section
    for _ in range(rng.randrange(3)):
        body = bytes(rng.choice(b"abc") for _ in range(rng.randrange(4)))
        data += rng.choice([b"", b"", b"\x21\1x"]) + b"\0" + varint(len(body)) + body
    if rng.random() < 0.3:
        section, instructions = peer.sender.encode(id, [rng.choice(EXTRA + [(b":path", b"/")])])
        peer.own[peer.ids[1]] += instructions
        data += b"\1" + varint(len(section)) + section
    return data


def settings_bytes(rng):
    pairs = [(1, rng.choice([0, 64, 64, 220, 400])), (7, rng.choice([0, 1, 2, 10]))]
    if rng.random() < 0.4:
        pairs.append((6, rng.choice([41, 80, 1000])))
    if rng.random() < 0.1:
        pairs.append(rng.choice([(2, 0), (1, 7), (33, 9), (7, 70000)]))
    payload = b"".join(varint(i) + varint(v) for i, v in pairs)
    data = b"\0\4" + varint(len(payload)) + payload
    for _ in range(rng.randrange(3)):
        data += rng.choice([b"\7\1\x08", b"\7\1\4", b"\7\1\0", b"\x0d\1\5", b"\x21\1x", b"\x0d\1\7"])
    return data


def decoder_bytes(rng, ids):
    data = b""
    for _ in range(rng.randrange(4)):
        data += rng.choice([integer(7, 1, rng.choice(ids)), integer(6, 1, rng.choice(ids)), integer(6, 0, rng.choice([0, 1, 2, 3, 300]))])
    return data


def pieces(rng, data):
    out = []
    while data:
        n = rng.choice([1, 2, 3, 7, 20, len(data), len(data)])
        out.append(data[:n])
        data = data[n:]
    return out or [b""]


def calls(seed, side, spoiled=0.17):
    """the limits, and a list of calls; this share of the streams has bytes that were changed"""
    rng = random.Random(seed * 2 + (side == CLIENT))
    other = SERVER if side == CLIENT else CLIENT
    section, capacity, blocked = rng.choice([41, 60, 200, 1000, 1000]), rng.choice([0, 31, 64, 64, 100, 220, 400]), rng.randrange(4)
    end = Endpoint(side, section, capacity, blocked)
    peer = Endpoint(other, 1000, 0, 0)
    if rng.random() < 0.8:
        peer.sender.table.capacity, peer.sender.limit = capacity, rng.choice([blocked, blocked, blocked, blocked + 1])
        if capacity:
            peer.own[peer.ids[1]] += integer(5, 1, capacity)
    ids = [0, 4, 8]
    todo = []
    if side == CLIENT:
        todo += [("open_request",)] * rng.choice([1, 2, 3])
    control, encoder, decoder = peer.ids
    streams = []
    if rng.random() < 0.8:
        streams.append((rng.choice([control, control, 12 + control % 4]), settings_bytes(rng)))
    for id in ids[:rng.choice([1, 2, 3])]:
        streams.append((id, message_bytes(rng, peer, id, other)))
    written = peer.own[peer.ids[1]]
    if len(written) > 1 or rng.random() < 0.3:
        streams.append((encoder, written))
    if rng.random() < 0.3:
        streams.append((decoder, b"\3" + decoder_bytes(rng, ids)))
    if rng.random() < 0.25:
        streams.append((16 + control % 4, rng.choice([b"\x21abc", b"\x40\x54\4hi", b"\1\0", b"\0", b"\2", b"\x40", b"\x40\x54"])))
    queues = []
    for id, data in streams:
        if rng.random() < spoiled:
            data = mutated(rng, data)
        parts = [("deliver", id, p) for p in pieces(rng, data)]
        if id in ids and rng.random() < 0.6:
            parts.append(rng.choice([("deliver_end", id), ("deliver_end", id), ("deliver_reset", id, 268)]))
            if rng.random() < 0.1:
                parts.append(rng.choice([("deliver", id, b"x"), ("deliver_end", id), ("deliver_reset", id, 1)]))
        elif rng.random() < 0.04:
            parts.append(rng.choice([("deliver_end", id), ("deliver_reset", id, 7)]))
        queues.append(parts)
    if rng.random() < 0.5:
        queues.sort(key=lambda q: q[0][1] in ids)
    steps = []
    while any(queues):
        q = rng.choice([q for q in queues if q])
        steps.append(q.pop(0))
        if rng.random() < 0.4:
            steps.append(("pull", rng.choice(ids + [steps[-1][1]])))
        if rng.random() < 0.05:
            steps.append(rng.choice([("cancel", rng.choice(ids)), ("reset", rng.choice(ids)), ("goaway", rng.choice([0, 4, 8, 3])), ("show",), ("deliver", rng.choice([1, 2, 3]), b"")]))
        if rng.random() < 0.15:
            id = rng.choice(ids)
            steps.append(rng.choice([("send_head", id, fields_for(rng, side)), ("send_body", id, b"xy"), ("send_trailer", id, [rng.choice(EXTRA)]), ("finish", id), ("outgoing", id), ("send_head", id, fields_for(rng, side))]))
    todo += steps[:40]
    for id in ids:
        todo += [("pull", id)] * rng.choice([1, 2, 3])
    todo += [("outgoing", end.ids[1]), ("outgoing", end.ids[2]), ("show",)]
    return (section, capacity, blocked), todo


def case(seed, side):
    """the limits, and pairs of a call and its answer"""
    from call_lists import calls_of, sends_of  # it takes `mutated` from here

    limits, todo = calls(seed, side) if seed % 4 == 0 else sends_of(seed, side) if seed % 4 == 2 else calls_of(seed, side)
    end = Endpoint(side, *limits)
    return limits, [(call, getattr(end, call[0])(*call[1:])) for call in todo]


# ---- as text


def codes(data):
    return "[]" if not data else '(hex (codes "%s"))' % data.hex()


def listed(fields):
    each = " ∷ ".join("field %s %s" % (codes(n), codes(v)) for n, v in fields)
    return "(head (%s))" % (each + " ∷ []" if each else "[]")


CALLS = {
    "open_request": lambda: "OpenRequest", "send_head": lambda i, f: f"SendHead {i} {listed(f)}", "send_body": lambda i, b: f"SendBody {i} {codes(b)}",
    "send_trailer": lambda i, f: f"SendTrailer {i} {listed(f)}", "finish": lambda i: f"Finish {i}", "reset": lambda i: f"Reset {i}",
    "goaway": lambda i: f"Goaway {i}", "outgoing": lambda i: f"Outgoing {i}", "deliver": lambda i, b: f"Deliver {i} {codes(b)}",
    "deliver_end": lambda i: f"DeliverEnd {i}", "deliver_reset": lambda i, c: f"DeliverReset {i} {c}", "pull": lambda i: f"PullStream {i}",
    "cancel": lambda i: f"Cancel {i}", "show": lambda: "Show",
}


def answer_text(call, a):
    kind = a[0]
    if call[0] == "pull":
        heads = {"Head", "Interim", "Trailer"}
        if kind in heads:
            return f"Pulled (pulls.Item (item.{kind} {listed(a[1])}))"
        if kind in ("Body", "Raw"):
            return f"Pulled (pulls.Item (item.{kind} {codes(a[1])}))"
        if kind in ("TooLarge", "Session"):
            return f"Pulled (pulls.Item (item.{kind} {a[1]}))"
        if kind == "End":
            return "Pulled (pulls.Item item.End)"
        if kind == "Waiting":
            return f"Pulled (pulls.Waiting {a[1]})"
        if kind == "Fault":
            if a[1] == "Connection":
                return f"Pulled (pulls.Fault (fault.Connection {a[2]}))"
            inner = {"Reset": lambda: f"(stream_fault.Reset {a[3]})", "Canceled": lambda: "stream_fault.Canceled", "Malformed": lambda: f"(stream_fault.Malformed malformation.{a[3]})"}
            return f"Pulled (pulls.Fault (fault.Stream {inner[a[2]]()}))"
        return f"Pulled pulls.{kind}"
    if kind == "done":
        return "Done"
    if kind == "opened":
        return f"Opened {a[1]}"
    if kind == "waits":
        return f"Waits {codes(a[1])}"
    if kind == "shown":
        limits = "None" if a[1] is None else "(Some (record { capacity = %d; blocked = %d; section = %d }))" % a[1]
        return f"Shown {limits} (record {{ sending = {a[2]}; receiving = {a[3]} }}) {a[4]}"
    return f"Refused (refusal.{kind} {a[1]})" if len(a) > 1 else f"Refused refusal.{kind}"


HEAD = """-- Hostile lists of calls of a {side}, with what the model of scripts/ answers to them. Made by scripts/gate/connection_cases.py.
use Rattle.std.specs.Prelude.{{List, [], ◌∷◌, codes, Some, None}}
use Rattle.h3_proto.specs.declared.stream.Side.TheVariants.{{{Side}}}
use Rattle.h3_connection.specs.declared.event.Item.TheVariants as item
use Rattle.h3_connection.specs.declared.event.Pull.TheVariants as pulls
use Rattle.h3_connection.specs.declared.event.Refusal.TheVariants as refusal
use Rattle.h3_connection.specs.declared.event.Fault.TheVariants as fault
use Rattle.h3_connection.specs.declared.event.StreamFault.TheVariants as stream_fault
use Rattle.h3_connection.specs.declared.event.Malformation.TheVariants as malformation
use Rattle.h3_connection.specs.Endpoint.{{EndpointHistory, new_endpoint}}
use Rattle.h3_connection.specs.CallLists.{{Call, Result}}
use Rattle.h3_connection.specs.CallLists.Call.{{OpenRequest, SendHead, SendBody, SendTrailer, Finish, Reset, Goaway, Outgoing, Deliver, DeliverEnd, DeliverReset, PullStream, Cancel, Show}}
use Rattle.h3_connection.specs.CallLists.Result.{{Opened, Done, Refused, Waits, Pulled, Shown}}
use Rattle.h3_connection_rows.specs.Worked.{{hex, field, head, plain}}
"""


def unfolding(crate):
    """the imports and the unfoldings of the rows' proofs"""
    text = open(f"{crate}/proofs/table_rows/table_rows_compute/Answers.antt", encoding="utf8").read()
    return text.split("use Rattle.h3_connection_rows")[0], re.search(r"^unfolding (.*)$", text, re.M).group(1)


def write(path, text):
    os.makedirs(os.path.dirname(path), exist_ok=True)
    with open(path, "w", encoding="utf8") as f:
        f.write(text)


def emit(crate, side, number, cases):
    name, module = side.lower(), f"{side}Cases{number}"
    spec = HEAD.format(side=name, Side=side)
    for seed, (limits, done) in cases:
        calls = "".join(f"    {CALLS[c[0]](*c[1:])} ∷\n" for c, _ in done)
        told = "".join(f"    {answer_text(c, a)} ∷\n" for c, a in done)
        spec += f"\nabbrev pub case_{seed}_endpoint : EndpointHistory\ncase_{seed}_endpoint = new_endpoint {side} (plain {limits[0]} {limits[1]} {limits[2]})\n"
        spec += f"\nabbrev pub case_{seed} : List Call\ncase_{seed} =\n{calls}    []\n\nabbrev pub case_{seed}_answers : List Result\ncase_{seed}_answers =\n{told}    []\n"
    write(f"{crate}/specs/{module}.antt", spec)
    law, names = f"{name}_cases_{number}_compute", ", ".join(f"case_{s}_endpoint, case_{s}, case_{s}_answers" for s, _ in cases)
    text = f"//! Hostile lists of calls of a {name}. Made by scripts/gate/connection_cases.py.\n\nghost use Rattle.std.specs.Prelude.{{◌≡◌}};\nghost use Rattle.h3_connection.specs.CallLists.{{answers}};\n"
    text += f"ghost use Rattle.h3_connection_rows.specs.Worked.{{as_lists}};\nghost use Rattle.h3_connection_rows.specs.{module}.{{{names}}};\n\n/// They are answered as the model answers them.\npub fn {law}()\n"
    text += "".join(f"    ensures case_{s} {{ as_lists (answers case_{s}_endpoint case_{s}) ≡ case_{s}_answers }}\n" for s, _ in cases) + "{}\n"
    write(f"{crate}/src/{name}_cases_{number}.rt", text)
    imports, unfold = unfolding(crate)
    proof = f"{imports}use Rattle.h3_connection_rows.proofs.{name}_cases_{number}.{law}.Goals as goal\n"
    for s, _ in cases:
        g = f"returns-clause-case_{s}" if len(cases) > 1 else "returns"
        proof += f"\npub {g} : goal.{g}\nunfolding {unfold}\n{g} c = refl\n"
    write(f"{crate}/proofs/{name}_cases_{number}/{law}/Answers.antt", proof)
    return module, f"{name}_cases_{number}"


def made(side, count, seed):
    out = []
    while len(out) < count:
        try:
            out.append((seed, case(seed, side)))
        except Unsure:
            pass
        seed += 1
    return out


def main():
    count = int(sys.argv[1]) if len(sys.argv) > 1 else 30
    first = int(sys.argv[2]) if len(sys.argv) > 2 else 1
    top = os.path.join(os.path.dirname(os.path.abspath(__file__)), "..", "..")
    crate = sys.argv[3] if len(sys.argv) > 3 else os.path.join(top, "crates/h3_connection_rows")
    modules, files = [], []
    for side in (CLIENT, SERVER):
        cases = made(side, count, first)
        for k in range(0, count, PER_FILE):
            m, f = emit(crate, side, k // PER_FILE + 1, cases[k:k + PER_FILE])
            modules.append(m)
            files.append(f)
    for path, pattern, lines in ((f"{crate}/src/lib.rt", r"^pub mod \w+_cases_\d+;\n", [f"pub mod {f};\n" for f in files]), (f"{crate}/specs/Lib.antt", r"^pub mod \w+Cases\d+\n", [f"pub mod {m}\n" for m in modules])):
        text = re.sub(pattern, "", open(path, encoding="utf8").read(), flags=re.M)
        write(path, text + "".join(lines))


if __name__ == "__main__":
    main()
