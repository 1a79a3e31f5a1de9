#!/usr/bin/env python3
"""Runs the program h3_talk on a script, and says of a line that is refused why. A script whose first line has choices and a `/` is one of the
wider language, and h3_cases is run (crates/h3_cases/README.md, "Scripts").

    talk.py [SCRIPT]             the answers to a script (standard input: none), a line each, as the program writes them; its status
    talk.py --expand [SCRIPT]    the script with numbers in the place of `all` in lines `deliver SIDE ID all`; nothing is run
    talk.py --program NAME       the path of the program NAME, which is compiled first where none is there; nothing is run
    talk.py --help               this, and the language

Standard output and the status are the program's to the byte: 0, 1 where a line is refused (`line N` is written), 2 where a read or write failed or
memory was refused. Where line N is refused standard error says N, its text, and what was expected there. The proved program is run where `make build` left
one that is later than all sources, else one that was compiled without its proofs (build/unproved), which takes a minute where a source has changed since. What `all` is comes from a model in Python
(scripts/gate/independent_talk.py), which reads fewer forms of URIs.

The first line of a script is
    config SECTION TABLE BLOCKED SECTION TABLE BLOCKED   the limits of the client, then of the server
and each later one an event of a side, c or s. ID is a stream's id, below 2^62; words are parted by one blank; '#' begins a comment line:
    open c                                               show SIDE
    head SIDE ID METHOD URI [name=value ..]              head SIDE ID STATUS [name=value ..]
    body SIDE ID BYTES                                   trailer SIDE ID [name=value ..]
    finish, reset, cancel, pull, pulls SIDE ID           goaway SIDE NUMBER
    deliver SIDE ID COUNT                                end, gone SIDE ID
crates/h3_script/README.md says what each does, and what is answered."""
import os
import re
import shutil
import subprocess
import sys
import tempfile

sys.path.insert(0, os.path.join(os.path.dirname(os.path.dirname(os.path.abspath(__file__))), "gate"))
import independent_talk  # noqa: E402
import kit  # noqa: E402

ROOT = os.path.dirname(os.path.dirname(os.path.dirname(os.path.realpath(__file__))))
SECONDS = 1800  # it takes a minute or two where nothing else runs
PLAIN = {"open": "SIDE", "show": "SIDE", "finish": "SIDE ID", "reset": "SIDE ID", "cancel": "SIDE ID", "pull": "SIDE ID", "pulls": "SIDE ID", "end": "SIDE ID",
         "gone": "SIDE ID", "goaway": "SIDE NUMBER", "deliver": "SIDE ID COUNT"}
FORMS = {**PLAIN, "head": "SIDE ID METHOD URI [name=value ..], or SIDE ID STATUS [name=value ..]", "body": "SIDE ID BYTES, with a blank behind the id",
         "trailer": "SIDE ID [name=value ..]"}
SETUP = "`config` with six numbers: section, table, blocked of the client, then of the server"
BELOW = {"SIDE": None, "ID": 2**62, "NUMBER": 2**62, "COUNT": 2**64}


def wrong_word(word, kind):
    """what is wrong with a word that has to be a side or a number; None: nothing"""
    if kind == "SIDE":
        return None if word in ("c", "s") else f"'{word}' is no side: c or s"
    if not re.fullmatch("[0-9]+", word):
        return f"'{word}' is no number"
    return None if int(word) < BELOW[kind] else f"'{word}' is not below 2^{BELOW[kind].bit_length() - 1}"


def why_setup(words):
    if words[0] != "config" or len(words) < 7:
        return f"the first line has to be {SETUP}"
    if len(words) > 7:
        return "nothing stands behind the six numbers"
    for place, word in enumerate(words[1:7]):
        bound, what = ((2**62, "a section"), (2**30, "a table"), (65536, "blocked streams"))[place % 3]
        if not re.fullmatch("[0-9]+", word):
            return f"'{word}' is no number"
        if int(word) >= bound:
            return f"'{word}' is too large for {what}: below {bound:,}"
    return "the limits are refused"


def why_section(command, words):
    """of the words of a head, a trailer or a body behind its command"""
    wrong = [wrong_word(word, kind) for word, kind in zip(words, ("SIDE", "ID"))]
    if any(wrong) or command == "body":
        return next((it for it in wrong if it), "the line is refused")
    rest = words[2:]
    has_status = command == "head" and rest and re.fullmatch("[0-9]{3}", rest[0])
    if command == "head" and not has_status and len(rest) < 2:
        return f"expected: head {FORMS['head']}"
    if has_status and rest[0] < "100":
        return f"'{rest[0]}' is no status: 100 to 999"
    bare = [it for it in rest[0 if command == "trailer" else 1 if has_status else 2 :] if "=" not in it]
    if bare:
        return f"'{bare[0]}' is no name=value"
    if command == "trailer" or has_status:
        return "a name or a value is refused by its grammar, or a pseudo-header field stands here"
    if rest[1].startswith("/") and not any(it.lower().startswith("host=") for it in rest[2:]):
        return "a path alone needs a field host=.."
    return "the method, the URI, a name or a value is refused by its grammar, or host is not the URI's, or a pseudo-header field stands here"


def why(line, is_first):
    """what was expected in a line that is refused"""
    if line.endswith("\r"):
        return "the line ends with CR: lines end with LF alone"
    words = line.split(" ")
    if is_first:
        return why_setup(words)
    if words[0] == "config":
        return "`config` stands in the first line alone"
    if line.startswith(" "):
        return "the line begins with a blank"
    if words[0] not in FORMS:
        return f"'{words[0]}' is no command: {', '.join(sorted(FORMS))}"
    if "" in words[:4] and words[0] != "body" or "" in words[:3]:
        return "two blanks stand together, or one at an end: words are parted by one blank"
    if words[0] in PLAIN:
        kinds = PLAIN[words[0]].split(" ")
        if len(words) != len(kinds) + 1:
            return f"expected: {words[0]} {PLAIN[words[0]]}"
        wrong = [wrong_word(word, kind) for word, kind in zip(words[1:], kinds)]
        return next((it for it in wrong if it), "the line is refused")
    if len(words) < (3 if words[0] == "trailer" else 4):
        return f"expected: {words[0]} {FORMS[words[0]]}"
    return why_section(words[0], words[1:])


def says(line):
    return line != b"" and not line.startswith(b"#")


def explain(script, number):
    lines = script.split(b"\n")
    if not any(says(it) for it in lines[:-1] if lines[-1] == b"") and not any(says(it) for it in lines):
        return f"line 1: the script says nothing: its first line has to be {SETUP}"
    line = lines[number - 1]
    is_first = not any(says(it) for it in lines[: number - 1])
    return f"line {number}: {line.decode(errors='replace')}\n{why(line.decode(errors='surrogateescape'), is_first)}".encode(errors="replace").decode()


def expanded(script):
    """the script with numbers in the place of `all`"""
    out, ends = [], None
    for number, line in enumerate(script.decode(errors="surrogateescape").split("\n"), 1):
        found = re.fullmatch("deliver ([cs]) ([0-9]+) all", line)
        try:
            if found and ends:
                own = ends[independent_talk.SIDES[found[1]]]
                waits = own.outgoing(int(found[2]))[1] if own.has_outgoing(int(found[2])) else b""
                line = f"deliver {found[1]} {found[2]} {len(waits)}"
            if line and not line.startswith("#"):
                if ends is None:
                    ends = independent_talk.setup(line)
                else:
                    independent_talk.answered(ends, *independent_talk.event_of(line))
        except independent_talk.Refused:
            sys.exit(f"line {number}: {line}\nthe model does not take this line")
        out.append(line)
    return "\n".join(out).encode(errors="surrogateescape")


def is_later(program):
    """Is there a program that is later than all that it is made of?"""
    if not os.access(program, os.X_OK):
        return False
    made = os.stat(program).st_mtime
    parts = (os.path.join(at, it) for at, folders, names in os.walk(f"{ROOT}/crates") for it in names if f"{os.sep}out{os.sep}" not in f"{at}{os.sep}")
    return all(os.stat(it).st_mtime <= made for it in [f"{ROOT}/crates.txt", *(it for it in parts if it.endswith((".rt", ".antt")))])


def compiled(name):
    """compiles the program of this name without its proofs, and keeps it for later runs"""
    kept = f"{ROOT}/build/unproved/{name}"
    if shutil.which("rt") is None:
        sys.exit(subprocess.run(["bash", f"{ROOT}/scripts/dev/need.sh", "rt"], check=False).returncode)
    rt = kit.load_rt()
    print("compiling the program without its proofs: a minute or two, once for these sources", file=sys.stderr)
    with tempfile.TemporaryDirectory(prefix="talk-") as room:
        kit.wrapped_toolchain(rt, room, "ld.lld", f"""of=
for it in "$@"; do
  if [ "$of" = -o ]; then out=$it; fi
  of=$it
done
$tool "$@" && cp "$out" {room}/kept && mv {room}/kept {room}/program
exit 1
""")
        said = kit.tried(rt, ROOT, name, f"{ROOT}/crates/{name}", room, SECONDS)
        if not os.path.exists(f"{room}/program"):
            sys.exit(f"{said}the program was not compiled: `rt check` in the crate that is named says more")
        os.makedirs(os.path.dirname(kept), exist_ok=True)
        shutil.copy(f"{room}/program", f"{kept}.new")
        os.replace(f"{kept}.new", kept)
    return kept


def program_of(name):
    """the program of this name: the proved one, else one that was compiled without its proofs"""
    places = (f"{ROOT}/crates/{name}/out/{name}", f"{ROOT}/build/unproved/{name}")
    return next((it for it in places if is_later(it)), None) or compiled(name)


def run(script):
    """the status of the program, which has written its answers"""
    first = next((it for it in script.split(b"\n") if says(it)), b"")
    name = "h3_cases" if first.startswith(b"config ") and b"/" in first else "h3_talk"
    ran = subprocess.run([program_of(name)], input=script, stdout=subprocess.PIPE, check=False)
    sys.stdout.buffer.write(ran.stdout)
    sys.stdout.flush()
    refused = re.fullmatch(rb"line ([0-9]+)\n", ran.stdout)
    if ran.returncode == 1 and refused:
        print(explain(script, int(refused[1])), file=sys.stderr)
    return ran.returncode


def main():
    words = sys.argv[1:]
    if words and words[0] in ("--help", "-h"):
        print(__doc__)
        return 0
    if words[:1] == ["--program"] and len(words) == 2 and os.path.isdir(f"{ROOT}/crates/{words[1]}"):
        print(program_of(words[1]))
        return 0
    is_expanding = words[:1] == ["--expand"]
    files = words[1:] if is_expanding else words
    if len(files) > 1 or files and files[0].startswith("-"):
        sys.exit("talk.py [--expand] [SCRIPT]; --help says more")
    if files:
        try:
            with open(files[0], "rb") as file:
                script = file.read()
        except OSError as error:
            sys.exit(f"{files[0]}: {error.strerror}")
    else:
        script = sys.stdin.buffer.read()
    if not is_expanding:
        return run(script)
    sys.stdout.buffer.write(expanded(script))
    return 0


if __name__ == "__main__":
    sys.exit(main())
