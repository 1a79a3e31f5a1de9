#!/usr/bin/env python3
"""Draws the pictures of the pages, as SVG: pictures.py [--write].

    docs/streams.svg        the streams between a client and a server
    docs/performance.svg    a bar for each row of the table of docs/PERFORMANCE.md
    docs/sent.svg, received.svg, connection.svg
                            the states of docs/STATES.md, by the names of include/h3.h
    docs/crates.svg         which crate stands on which, of crates.txt

Without an argument it compares each with the file: a line 'ok ..' or 'failed ..'. --write writes them. docs/blocked.svg is drawn by draw.py."""
import os
import re
import sys
from xml.sax.saxutils import escape

ROOT = os.path.dirname(os.path.dirname(os.path.dirname(os.path.realpath(__file__))))
DARK, BLUE, PURPLE, GREEN, ORANGE, GREY, PALE = "#222", "#036", "#839", "#0a5", "#a60", "#999", "#f2f5f9"
# where the states stand, by their names in docs/STATES.md, and which have their own arrow below
SENT = {"nothing": (140, 170), "head": (430, 170), "trailer": (750, 170), "finished": (1020, 170), "reset": (580, 330)}
RECEIVED = {"before": (180, 210), "body": (570, 210), "behind": (920, 210), "over": (1180, 210), "session": (570, 370), "given": (375, 60)}
CONNECTION = {"unknown": (160, 120), "known": (470, 120), "away": (800, 120), "closed": (470, 270)}
LOOPS_BELOW = {"before", "body", "session"}
BENT = {("head", "finished"), ("body", "over")}
KINDS = {"Interim": "H3_INTERIM", "Head": "H3_HEAD", "TooLarge": "H3_TOO_LARGE_HEAD", "Body": "H3_BODY", "Trailer": "H3_TRAILER", "Session": "H3_SESSION",
         "Raw": "H3_RAW", "End": "H3_END", "Malformed": "H3_FAULT_MALFORMED"}
PLAIN = {"head sent": "header section sent", "trailer sent": "trailer section sent", "before the head": "before the header section",
         "behind the trailer": "after the trailer section", "after the trailer": "after the trailer section", "given up": "malformed"}


def read(path):
    with open(os.path.join(ROOT, path), encoding="utf-8") as file:
        return file.read()


def page(width, height, parts, font="sans-serif"):
    head = f'<svg xmlns="http://www.w3.org/2000/svg" width="{width}" height="{height}" viewBox="0 0 {width} {height}" font-family="{font}" font-size="13">'
    arrow = "".join(f'<marker id="{colour[1:]}" viewBox="0 0 10 10" refX="9" refY="5" markerWidth="7" markerHeight="7" orient="auto-start-reverse">'
                    f'<path d="M0 0L10 5L0 10z" fill="{colour}"/></marker>' for colour in (DARK, BLUE, PURPLE, GREY))
    return "\n".join([head, f"<defs>{arrow}</defs>", '<rect width="100%" height="100%" fill="white"/>', *parts, "</svg>"]) + "\n"


def text(x, y, words, colour=DARK, anchor="middle", more=""):
    return f'<text x="{x:g}" y="{y:g}" text-anchor="{anchor}" fill="{colour}"{more}>{escape(words)}</text>'


def line(path, colour=DARK, more=""):
    return f'<path d="{path}" fill="none" stroke="{colour}" marker-end="url(#{colour[1:]})"{more}/>'


def box(x, y, words, width, height=34):
    return (f'<rect x="{x - width / 2:g}" y="{y - height / 2:g}" width="{width:g}" height="{height}" rx="8" fill="{PALE}" stroke="{DARK}"/>'
            + text(x, y + 5, words))


def streams():
    rows = [("2", "control stream: SETTINGS, GOAWAY", ">", PURPLE), ("3", "control stream: SETTINGS, GOAWAY", "<", PURPLE),
            ("6", "encoder stream: fields for requests", ">", PURPLE), ("11", "decoder stream: acknowledgments", "<", PURPLE),
            ("7", "encoder stream: fields for responses", "<", PURPLE), ("10", "decoder stream: acknowledgments", ">", PURPLE),
            ("0", "request: header section, body, trailer section, end", ">", BLUE), ("0", "response: header section, body, trailer section, end", "<", BLUE),
            ("4, 8, ..", "further requests and responses", "=", BLUE)]
    parts, left, right = [], 150, 750
    for x, name in ((left, "client"), (right, "server")):
        parts += [f'<path d="M{x} 40V{70 + 40 * len(rows)}" stroke="{GREY}"/>', text(x, 28, name, more=' font-weight="bold"')]
    for number, (name, what, way, colour) in enumerate(rows):
        y = 75 + 40 * number
        start, end = (right, left) if way == "<" else (left, right)
        parts.append(line(f"M{start} {y}H{end}", colour, f' marker-start="url(#{colour[1:]})"' if way == "=" else ""))
        parts.append(text((left + right) / 2, y - 7, what, colour))
        side = right if way == "<" else left
        parts.append(text(side + (12 if side == right else -12), y + 4, f"stream {name}", colour, "start" if side == right else "end"))
    return page(900, 90 + 40 * len(rows), parts)


def performance():
    table = re.findall(r"^\| ([^|]+) \| [\d.]+ \| [\d.]+ \| [^|]+ \| ([\d.]+)\*? \| ([^|]+) \|$", read("docs/PERFORMANCE.md"), re.M)
    title = "How many times as fast as nghttp3 0.8.0 (of size and memory: how many times smaller)"
    parts, left, unit = [text(20, 24, title, anchor="start", more=' font-weight="bold"')], 370, 160
    end = 40 + 30 * len(table)
    parts.append(f'<path d="M{left + unit} 36V{end}" stroke="{DARK}" stroke-dasharray="4 3"/>')
    for number, (what, ratio, _) in enumerate(table):
        y, length = 56 + 30 * number, min(float(ratio), 2.2) * unit
        parts.append(text(left - 12, y + 5, what.strip(), anchor="end"))
        parts.append(f'<rect x="{left}" y="{y - 9}" width="{length:g}" height="18" fill="{GREEN if float(ratio) >= 1 else ORANGE}"/>')
        parts.append(text(left + length + 8, y + 5, ratio + (" (the bar is cut)" if float(ratio) > 2.2 else ""), anchor="start"))
    parts.append(text(left + unit, end + 18, "1: as fast as nghttp3"))
    return page(900, end + 34, parts)


def states_of(title):
    """the states of a diagram of docs/STATES.md with their texts, and its arrows"""
    diagram = re.search(rf"^## {title}\n.*?```mermaid\nstateDiagram-v2\n(.*?)```", read("docs/STATES.md"), re.S | re.M)[1]
    names = {name: PLAIN.get(words, words) for words, name in re.findall(r'state "([^"]+)" as (\w+)', diagram)}
    return names, re.findall(r"^ +(\w+) --> (\w+): (.+)$", diagram, re.M)


def by_header(words):
    """the words of an arrow, by the names of include/h3.h"""
    calls = set(re.findall(r"h3_(\w+)\(", read("include/h3.h"))) - {"connection"}
    return re.sub(r"\w+", lambda it: f"h3_{it[0]}" if it[0] in calls else KINDS.get(it[0], it[0]), words).replace("h3_reset, while", "h3_reset while")


def border(at, to, width, height=34):
    """where the line from the middle of a box to a point leaves the box"""
    dx, dy = to[0] - at[0], to[1] - at[1]
    scale = min(width / 2 / abs(dx) if dx else 9e9, height / 2 / abs(dy) if dy else 9e9)
    return at[0] + dx * scale, at[1] + dy * scale


def label(x, y, words):
    parts = words.split(", or ")
    if len(parts) == 2:
        return label(x, y, parts[0] + ",") + label(x, y + 24, "or " + parts[1])
    width = 7.2 * len(words)
    return f'<rect x="{x - width / 2:g}" y="{y - 12:g}" width="{width:g}" height="17" fill="white"/>' + text(x, y, words, BLUE)


def states(title, places, size):
    names, arrows = states_of(title)
    wide = {name: 30 + 7.4 * len(words) for name, words in names.items()}
    lines, labels = [], []
    for start, end, words in arrows:
        (x, y), (u, v), words = places[start], places[end], by_header(words)
        if start == end:
            down = 1 if start in LOOPS_BELOW else -1
            lines.append(line(f"M{x - 18} {y + 17 * down}C{x - 30} {y + 58 * down} {x + 30} {y + 58 * down} {x + 18} {y + 17 * down}"))
            labels.append(label(x, y + (64 if down > 0 else -52), words))
        elif (start, end) in BENT:
            lines.append(line(f"M{x + 30} {y - 17}C{x + 90} {y - 130} {u - 90} {v - 130} {u - 20} {v - 17}"))
            labels.append(label((x + u) / 2, y - 98, words))
        else:
            (a, b), (c, d) = border((x, y), (u, v), wide[start]), border((u, v), (x, y), wide[end])
            lines.append(line(f"M{a:g} {b:g}L{c:g} {d:g}"))
            labels.append(label((a + c) / 2, (b + d) / 2 + (-8 if b == d else 4), words))
    first = next(iter(places))
    lines.insert(0, f'<circle cx="{places[first][0] - wide[first] / 2 - 34:g}" cy="{places[first][1]}" r="6" fill="{DARK}"/>')
    lines.insert(1, line(f"M{places[first][0] - wide[first] / 2 - 28:g} {places[first][1]}H{places[first][0] - wide[first] / 2:g}"))
    return page(*size, lines + labels + [box(*places[name], words, wide[name]) for name, words in names.items()])


def graph():
    """the crates, and on which others each stands directly"""
    rows = [it.split(":") for it in read("crates.txt").split("\n") if ":" in it and not it.startswith("#")]
    below = {name.split()[0]: [] for name, _ in rows}
    for name, others in rows:
        below[name.split()[0]] = [it for it in others.split() if it in below]

    def all_below(name):
        return set(below[name]).union(*(all_below(it) for it in below[name]))

    return {name: [it for it in others if not any(it in all_below(other) for other in others)] for name, others in below.items()}


def levels_of(below):
    """the crates by levels: each directly below the lowest that stands on it, and one that nobody stands on above what it stands on"""
    above = {name: [it for it in below if name in below[it]] for name in below}
    level = {}
    for name in below:
        level[name] = 1 + max((level[it] for it in below[name]), default=-1)
    for name in reversed(list(below)):
        if above[name]:
            level[name] = min(level[it] for it in above[name]) - 1
    for name in below:
        if not above[name] and below[name]:
            level[name] = 1 + max(level[it] for it in below[name])
    return level


def with_turns(below, level):
    """the arrows from level to level: where one passes a level it has a turn there, named by its ends"""
    nodes, arrows = {name: level[name] for name in below}, []
    for name, others in below.items():
        for other in others:
            at = name
            for height in range(level[name] - 1, level[other], -1):
                turn = (name, other, height)
                nodes[turn] = height
                arrows.append((at, turn))
                at = turn
            arrows.append((at, other))
    return nodes, arrows


def in_order(nodes, arrows):
    """the nodes of each level, from left to right, each near those that it is joined to"""
    rows = [[it for it in nodes if nodes[it] == height] for height in range(max(nodes.values()) + 1)]
    near = {it: [b for a, b in arrows if a == it] + [a for a, b in arrows if b == it] for it in nodes}
    for sweep in range(24):
        place = {it: (at + 0.5) / len(row) for row in rows for at, it in enumerate(row)}
        for row in rows if sweep % 2 else reversed(rows):
            row.sort(key=lambda it: (sum(place[other] for other in near[it]) / len(near[it]) if near[it] else place[it]))
            place.update({it: (at + 0.5) / len(row) for at, it in enumerate(row)})
    return rows


def crates():
    below, width = graph(), 1060
    nodes, arrows = with_turns(below, levels_of(below))
    rows = in_order(nodes, arrows)
    size = {it: 60 + 7.4 * len(it) if isinstance(it, str) else 40 for it in nodes}
    places = {}
    for height, row in enumerate(rows):
        x, gap = 0, (width - sum(size[it] for it in row)) / (len(row) + 1)
        for it in row:
            x += gap + size[it]
            places[it] = (x - size[it] / 2, 30 + 70 * (len(rows) - 1 - height))
    parts = []
    for start, end in arrows:
        (x, y), (u, v), ends = places[start], places[end], isinstance(end, str)
        path = f"M{x:g} {y + (14 if isinstance(start, str) else 0):g}C{x:g} {y + 44:g} {u:g} {v - 44:g} {u:g} {v - (14 if ends else 0):g}"
        parts.append(line(path, GREY) if ends else f'<path d="{path}" fill="none" stroke="{GREY}"/>')
    parts += [box(*places[name], name, size[name] - 36, 28) for name in below]
    return page(width, 60 + 70 * (len(rows) - 1), parts)


def main():
    pictures = {"streams": streams(), "performance": performance(), "sent": states("A message that is sent", SENT, (1120, 370)),
                "received": states("A message that is received", RECEIVED, (1240, 450)), "connection": states("A connection", CONNECTION, (960, 310)),
                "crates": crates()}
    stale = []
    for name, picture in pictures.items():
        path = os.path.join(ROOT, "docs", f"{name}.svg")
        if sys.argv[1:] == ["--write"]:
            with open(path, "w", encoding="utf-8") as file:
                file.write(picture)
        elif not os.path.exists(path) or read(f"docs/{name}.svg") != picture:
            stale.append(name)
    for name in stale:
        print(f"failed docs/{name}.svg: it is not what pictures.py draws (python3 scripts/dev/pictures.py --write)")
    if not stale and sys.argv[1:] != ["--write"]:
        print(f"ok scripts/dev/pictures.py: {len(pictures)} pictures of docs are as it draws them")
    sys.exit(1 if stale else 0)


main()
