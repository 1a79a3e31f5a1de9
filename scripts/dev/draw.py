#!/usr/bin/env python3
"""Draws a run of the script language (crates/h3_script) as a sequence diagram: draw.py SCRIPT [ANSWERS] [--svg FILE] [--brief].

The client and the server are lifelines. An arrow is what went over on a stream, crossed where nothing did; streams of the connection's own (control, encoder,
decoder) are dashed. Beside a lifeline stands what that side did, and what a pull handed out. ANSWERS is what the program printed; without it `make run` is
asked. Mermaid goes to standard output, or with --svg a picture to FILE. --brief leaves out arrows over which nothing went, and states that were shown."""
import argparse
import dataclasses
import os
import re
import subprocess
import sys
import textwrap
from xml.sax.saxutils import escape

ROOT = os.path.dirname(os.path.dirname(os.path.dirname(os.path.realpath(__file__))))
SIDES = {"c": "client", "s": "server"}
OWN = {2: "control", 3: "control", 6: "encoder", 7: "encoder", 10: "decoder", 11: "decoder"}
GOOD = re.compile(r"(ok|stream \d+|delivered \d+)$")
LONGEST = 120  # characters of a text that are shown


@dataclasses.dataclass
class Step:
    """one line of a script and its answer: a note at a side, or an arrow from it to the other side"""

    side: str
    text: str
    kind: str  # of a note: did, item, pause, refused; of an arrow: request, own, nothing

    @property
    def is_arrow(self):
        return self.kind in ("request", "own", "nothing")


def shown(data):
    """a text of any bytes, in printable characters"""
    text = "".join(it if it.isprintable() else "\N{MIDDLE DOT}" for it in data.decode("utf-8", "replace"))
    return text if len(text) <= LONGEST else f"{text[:LONGEST]}.."


def stream_name(number):
    return f"{OWN[number]} stream" if number in OWN else f"stream {number}"


def arrow(side, number, what, answer, went):
    """`what` goes over on a stream, where the answer is `went`"""
    name = stream_name(number)
    if not re.fullmatch(went, answer):
        return Step(side, f"{name}: {what}: {answer}", "nothing")
    return Step(side, f"{name}: {what}", "own" if number in OWN else "request")


def pull_kind(answer):
    if answer.startswith("fault"):
        return "refused"
    return "pause" if re.match(r"pending|waiting|no messages", answer) else "item"


def did(side, what, answer):
    """a call of a side, and its answer where that is a refusal"""
    is_good = GOOD.match(answer) is not None
    return Step(side, what if is_good else f"{what}: {answer}", "did" if is_good else "refused")


def step(words, line, answer):
    """what a line of an event stands for, its words split by the first three blanks"""
    verb, side = words[0], words[1] if len(words) > 1 else ""
    if side not in SIDES:
        sys.exit(f"no event: {shown(line)}")
    rest = shown(line).split(" ", 3)[3:]
    number = int(words[2]) if len(words) > 2 else 0
    name = stream_name(number)
    if verb == "deliver":
        return arrow(side, number, f"{int(words[3])} bytes", answer, r"delivered \d+")
    if verb == "end":
        return arrow(side, number, "end", answer, "ok")
    if verb == "gone":
        return arrow(side, number, "reset", answer, "ok")
    if verb in ("pull", "pulls"):
        return Step(side, f"{verb} {number}: {answer}", pull_kind(answer))
    if verb == "show":
        return Step(side, answer, "did")
    if verb == "open":
        return did(side, f"opens {answer}" if GOOD.match(answer) else "opens a stream", answer)
    if verb == "body":
        return did(side, f"{name}: body of {len(line.split(b' ', 3)[3])} bytes", answer)
    texts = {"head": f"{name}: head {' '.join(rest)}", "trailer": f"{name}: trailer {' '.join(rest)}".rstrip(), "finish": f"{name}: finished",
             "reset": f"{name}: sending is reset", "cancel": f"{name}: canceled", "goaway": f"GOAWAY {number}"}
    if verb not in texts:
        sys.exit(f"no event: {shown(line)}")
    return did(side, texts[verb], answer)


def steps_of(script, answers):
    lines = [it for it in script.split(b"\n") if it and not it.startswith(b"#")]
    if re.fullmatch(r"line \d+", answers[0] if answers else ""):
        sys.exit(f"the script is refused: {answers[0]}")
    if len(lines) != len(answers) + 1:
        sys.exit(f"{len(lines) - 1} events and {len(answers)} answers: these are not the script's")
    return [step(line.decode("latin-1").split(" "), line, answer) for line, answer in zip(lines[1:], answers)]


def mermaid(steps):
    arrows = {"request": "->>", "own": "-->>", "nothing": "-x"}
    letters = {"c": "C", "s": "S"}
    lines = ["sequenceDiagram", "    participant C as client", "    participant S as server"]
    for it in steps:
        text = "".join({"#": "#35;", ";": "#59;"}.get(letter, letter) for letter in it.text)
        here, there = letters[it.side], letters["s" if it.side == "c" else "c"]
        place = "left of" if it.side == "c" else "right of"
        lines.append(f"    {here}{arrows[it.kind]}{there}: {text}" if it.is_arrow else f"    Note {place} {here}: {text}")
    return "\n".join(lines) + "\n"


class Picture:
    """the same as SVG: notes outside the two lifelines, arrows between them"""

    CLIENT, SERVER, WIDTH, LINE, CHARACTERS = 330, 670, 1000, 16, 44
    COLOURS = {"did": "#333", "item": "#0a5", "pause": "#a60", "refused": "#c22", "request": "#036", "own": "#839", "nothing": "#999"}

    def __init__(self):
        self.parts, self.y = [], 50

    def text(self, x, y, anchor, text, colour):
        self.parts.append(f'<text x="{x}" y="{y}" text-anchor="{anchor}" fill="{colour}">{escape(text)}</text>')

    def note(self, it):
        x, anchor = (self.CLIENT - 12, "end") if it.side == "c" else (self.SERVER + 12, "start")
        for line in textwrap.wrap(it.text, self.CHARACTERS) or [""]:
            self.text(x, self.y, anchor, line, self.COLOURS[it.kind])
            self.y += self.LINE
        self.y += 6

    def arrow(self, it):
        start, end = (self.CLIENT, self.SERVER) if it.side == "c" else (self.SERVER, self.CLIENT)
        back = 8 if end < start else -8
        colour = self.COLOURS[it.kind]
        for line in textwrap.wrap(it.text, self.CHARACTERS):
            self.text((start + end) // 2, self.y, "middle", line, colour)
            self.y += self.LINE
        y = self.y - 8
        if it.kind == "nothing":
            end = (start + end) // 2
            self.parts.append(f'<path d="M{end - 5} {y - 5}l10 10m0 -10l-10 10" stroke="{colour}"/>')
        else:
            self.parts.append(f'<path d="M{end + back} {y - 4}L{end} {y}L{end + back} {y + 4}" fill="none" stroke="{colour}"/>')
        dashes = ' stroke-dasharray="6 4"' if it.kind != "request" else ""
        self.parts.append(f'<path d="M{start} {y}H{end}" stroke="{colour}"{dashes}/>')
        self.y += 14

    def svg(self, steps):
        for it in steps:
            (self.arrow if it.is_arrow else self.note)(it)
        lines = [f'<path d="M{x} 30V{self.y}" stroke="#bbb"/>' for x in (self.CLIENT, self.SERVER)]
        names = [f'<text x="{x}" y="20" text-anchor="middle" font-weight="bold">{name}</text>'
                 for x, name in ((self.CLIENT, "client"), (self.SERVER, "server"))]
        size = f'width="{self.WIDTH}" height="{self.y + 10}" viewBox="0 0 {self.WIDTH} {self.y + 10}"'
        head = f'<svg xmlns="http://www.w3.org/2000/svg" {size} font-family="monospace" font-size="12">'
        return "\n".join([head, '<rect width="100%" height="100%" fill="white"/>', *lines, *names, *self.parts, "</svg>"]) + "\n"


def answers_to(script):
    """what `make run` prints for a script"""
    made = subprocess.run(["make", "-s", "--no-print-directory", "run", f"SCRIPT={os.path.abspath(script)}"], cwd=ROOT, stdout=subprocess.PIPE, check=False)
    if made.returncode not in (0, 1) or not made.stdout:
        sys.exit("make run gave no answers")
    return made.stdout


def main():
    words = argparse.ArgumentParser(description="Draws a run of a script as a sequence diagram.")
    words.add_argument("script")
    words.add_argument("answers", nargs="?", help="what the program printed (default: make run is asked)")
    words.add_argument("--svg", metavar="FILE", help="a picture, in place of Mermaid on standard output")
    words.add_argument("--brief", action="store_true", help="without arrows over which nothing went, and without states that were shown")
    given = words.parse_args()
    with open(given.script, "rb") as file:
        script = file.read()
    if given.answers:
        with open(given.answers, "rb") as file:
            answers = file.read()
    else:
        answers = answers_to(given.script)
    steps = steps_of(script, [shown(it) for it in answers.split(b"\n")[:-1]])
    if given.brief:
        steps = [it for it in steps if it.kind != "nothing" and not it.text.startswith("show ")]
    if given.svg:
        with open(given.svg, "w", encoding="utf-8") as file:
            file.write(Picture().svg(steps))
    else:
        sys.stdout.write(mermaid(steps))


main()
