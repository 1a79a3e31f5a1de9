"""The inputs at which wrong bodies are run (scripts/gate/witnesses.py), each by its name in the repository: what program reads it, and what the right
bodies answer, which is stored or what a model answers. A program of tests/c judges by itself, and ends with status 0 where all is right."""
import dataclasses
import glob
import os
import sys

sys.path.insert(0, os.path.dirname(os.path.abspath(__file__)))
import hostile_calls  # noqa: E402
import memory_schedules  # noqa: E402
import strict_messages  # noqa: E402
import variants  # noqa: E402

ROOT, BUILD = variants.ROOT, variants.BUILD
LISTS, SCHEDULES = 200, 40
REFUSED_TALK = {"tests/talk/again.talk", "examples/request.talk"}  # scripts in which memory is refused in a search
REFUSES = ["-Wl,--wrap=malloc,--wrap=realloc"]
FREES = ["-Wl,--wrap=malloc,--wrap=realloc,--wrap=free"]
# programs in C that judge by themselves: the flags that each is linked with, and its arguments
IN_C = {
    "tests/c/memory.c": (FREES, []), "tests/c/sizes.c": (REFUSES, []), "tests/c/schedules.c": ([], ["0", "200"]), "tests/c/unread.c": ([], []),
    "tests/c/small_pieces.c": (FREES, []), "tests/c/unknown.c": (FREES, []), "tests/c/instructions.c": ([], []), "tests/c/arguments.c": ([], ["unproved"]),
    "tests/c/limits.c": ([], []), "tests/c/priority.c": ([], []), "tests/c/by_priority.c": (REFUSES, []), "tests/c/given.c": ([], []), "tests/c/read.c": ([], ["0", "300"]),
    "tests/c/past.c": ([], ["1", "200"]), "tests/c/details.c": ([], []), "tests/c/defaults.c": ([], []), "tests/c/excess.c": (FREES, []),
    "tests/c/cancellations.c": (FREES, []), "tests/c/shutdown.c": ([], []), "tests/c/datagrams.c": ([], []),
    "tests/c/lists.c": ([], []), "tests/c/never_indexed.c": ([], []), "tests/c/streams.c": (REFUSES, []),
    "tests/c/strict_connection.c": ([], []), "tests/c/priority_updates.c": (REFUSES, []), "tests/c/over_streams.c": (FREES, []),
    "tests/c/frame_left.c": ([], []), "tests/c/other_settings.c": (REFUSES, []), "tests/c/other_streams.c": (REFUSES, []),
    "tests/c/remembered_settings.c": (REFUSES, []), "tests/c/sessions.c": (REFUSES, []),
    "tests/witness/far.c": ([], []), "tests/witness/over.c": ([], []), "tests/witness/lacking.c": (REFUSES, []),
}
CALLS, PRINTED, REFUSED, LAYERS = "tests/c/calls.c", "tests/c/in_memory.c", "tests/witness/refused.c", "tests/witness/layers.rattle"


@dataclasses.dataclass(frozen=True)
class Input:
    name: str
    words: tuple  # the command
    given: bytes = b""  # its standard input
    stored: object = None  # what the right bodies write, where that is stored
    is_test: bool = False  # Does the program judge by itself?
    is_refused: bool = False  # Is memory refused to it in a search?


def text_of(path):
    with open(f"{ROOT}/{path}", "rb") as it:
        return it.read()


def lines(them):
    return "".join(f"{it}\n" for it in them).encode("latin-1")


def stored(program, path, answers):
    return Input(path, (f"{BUILD}/{program}",), text_of(path), text_of(answers))


def scripts(program, *folders):
    paths = sorted(it for folder in folders for it in glob.glob(f"{folder}/*.talk", root_dir=ROOT))
    return [stored(program, it, it.replace(".talk", ".stdout")) for it in paths]


def of_cases():
    yield stored("cases", "crates/h3_cases/stdin", "crates/h3_cases/stdout")
    yield from scripts("cases", "tests/wide")
    messages = [line for row in strict_messages.rows() for line in strict_messages.calls(row)[0]]
    yield Input("tests/strict/messages.tsv", (f"{BUILD}/cases",), lines(messages))
    yield Input("tests/witness/refused.in", (f"{BUILD}/cases",), text_of("tests/witness/refused.in"), is_refused=True)
    for side in (hostile_calls.CLIENT, hostile_calls.SERVER):
        made = hostile_calls.lists(side, LISTS, 1)
        asked, told = ([line for it in made for line in it[which]] for which in (0, 1))
        yield Input(f"scripts/gate/hostile_calls.py {side.lower()}", (f"{BUILD}/cases",), lines(asked), lines(told))
    yield Input(LAYERS, (f"{BUILD}/layers",), b"", text_of("tests/witness/layers.stdout"), is_refused=True)


def of_talk():
    yield stored("talk", "crates/h3_talk/stdin", "crates/h3_talk/stdout")
    yield from (dataclasses.replace(it, is_refused=it.name in REFUSED_TALK) for it in scripts("talk", "examples", "tests/talk"))
    for seed in range(1, SCHEDULES + 1):
        yield Input(f"scripts/gate/memory_schedules.py {seed}", (f"{BUILD}/talk",), lines(memory_schedules.schedule(seed)))


def rows():
    """the calls of h3_cases that tests/c/calls.c makes through the header, as scripts/c/test-c.sh gives them"""
    pairs = zip(text_of("crates/h3_cases/stdin").split(b"\n"), text_of("crates/h3_cases/stdout").split(b"\n"))
    kept = [it for it in pairs if it[0].startswith((b"call ", b"# ")) and not it[0].startswith((b"call lends ", b"call goaways"))]
    return tuple(b"".join(it[which] + b"\n" for it in kept) for which in (0, 1))


def of_c(of_calls):
    yield Input(CALLS, (variants.in_c(CALLS),), *rows())
    yield from (dataclasses.replace(it, name=f"{CALLS} {it.name}", words=(variants.in_c(CALLS),)) for it in of_calls)
    yield Input(PRINTED, (variants.in_c(PRINTED),), b"", text_of("tests/c/in_memory.stdout"))
    yield Input(REFUSED, (variants.in_c(REFUSED),), is_refused=True)
    for path, (_, arguments) in IN_C.items():
        yield Input(path, (variants.in_c(path), *arguments), is_test=True)


def compile_c(rt):
    for path in (CALLS, PRINTED, REFUSED):
        variants.compile_c(rt, path, [])
    for path, (flags, _) in IN_C.items():
        variants.compile_c(rt, path, flags)


def every():
    """all of them, by their names"""
    cases = [*of_cases()]
    of_calls = [it for it in cases if ".py" in it.name or ".tsv" in it.name]  # all of their lines are calls
    return {it.name: it for made in (cases, of_talk(), of_c(of_calls)) for it in made}
