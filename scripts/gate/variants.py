"""Wrong bodies beside the right ones: one build holds all edits of crates/*/refused that a run can show, and a number says which one runs.

In a copy of the crates the body of a function with edits becomes

    { if crate::wrong_body::is(17) { WRONG } else if crate::wrong_body::is(18) { WRONG } else { RIGHT } }

and in the module for LLVM `is` becomes a comparison with the number that tests/witness/wrong.c reads. Nothing is proved. The build is one program: h3_cases, h3_talk and
the library for C, under which the programs of tests/c run, are libraries of it, and tests/witness/layers.rattle calls what none of these does. An edit with a line
`judged:` is one of these bodies, unless it changes what no run has (a definition or a law), or a constant, whose value is computed before. Edits that do not
compile are found by the places of the errors, and left out."""
import collections
import dataclasses
import glob
import hashlib
import os
import re
import shutil
import subprocess
import sys
import tempfile

import copies
import kit
import refused
import stubs

ROOT = refused.ROOT
sys.path.insert(0, f"{ROOT}/scripts/c")
import unproved  # noqa: E402

BUILD = f"{ROOT}/build/witness"
WHOLE = "witness"  # the program that is built: the crates that it calls, as in crates.txt
CALLS = "h3_c h3_cases h3_talk h3_script h3_session h3_world h3_requests h3_blocked h3_incoming h3_connection h3_capsule h3_unidirectional h3_streams h3_qpack h3_header h3_field h3_huffman h3_coding h3_proto h3_frames h3_wire h3_messages hex bytes"
PROGRAMS = ("layers", "cases", "talk")  # by their numbers in it; the library for C is behind them
SECONDS = 3600
SWITCH = """//! Which wrong body runs, and at the top which program.
pub fn is(number: u64) -> bool {
    number > 1000000
}
"""
IS = re.compile(r'^define (?:internal )?[^\n]*?i1 @"(\w+)::wrong_body::is"\([^\n]*\{\n.*?^\}\n', re.M | re.S)
COMPARES = """define internal i1 @"{crate}::wrong_body::is"(i64 %n) alwaysinline nounwind {{
  %at = getelementptr i8, ptr @wrong_asked, i64 %n
  store i8 1, ptr %at
  %w = load i64, ptr @{which}
  %is = icmp eq i64 %w, %n
  ret i1 %is
}}
"""
EXTERNAL = "\n@wrong_number = external global i64\n@wrong_program = external global i64\n@wrong_asked = external global [4096 x i8]\n"
ERROR = re.compile(r"(?m)^(?:\S*?/)?(crates/\w+/src/\S+?|src/\S+?):(\d+):(\d+): (error\S*.*)")
PLACE = re.compile(r"/\*(?:<(\d+)|(\d+)>)\*/")
WRAPS = "-Wl,--wrap=malloc,--wrap=realloc,--wrap=free"


@dataclasses.dataclass
class Variant:
    number: int
    edit: refused.Edit
    parts: list  # of each body that it changes: the file, the first byte, the end, and the bytes of the wrong one
    why: str = ""  # why no run can have it


def parts_of(source, edit):
    """the bodies that the edit changes, or why it cannot be one beside others"""
    of_body = collections.defaultdict(list)
    for file, first, end, new in edit.spans:
        if not file.startswith("src/"):
            return [], "no code"
        holding = [it for it in source.functions if it.file == file and it.opens < first and end <= it.end - 1]
        if not holding:
            return [], "outside of bodies"
        body = min(holding, key=lambda it: it.end - it.opens)
        if stubs.CONSTANT.search(source.data[file][body.first : body.opens]):
            return [], "a constant"
        of_body[file, body.opens, body.end].append((first - body.opens, end - body.opens, new))
    return [(file, opens, end, copies.replaced(source.data[file][opens:end], spans)) for (file, opens, end), spans in of_body.items()], ""


def every(rt):
    """the variants of all edits that a reader judged, and of each crate's sources what the kit reads of them"""
    bodies, made, sources = kit.load("rt-plant-bodies"), [], {}
    for crate in kit.crates_of(rt, ROOT):
        edits = [refused.read_edit(rt, crate, it) for it in refused.edits_of(crate)]
        if any(it.judged for it in edits):
            sources[crate.name] = refused.source_of(bodies, crate)
        for edit in (it for it in edits if it.judged):
            made.append(Variant(len(made) + 1, edit, *parts_of(sources[crate.name], edit)))
    return made, sources


def beside(text, variants):
    """the bytes of a body behind those of its wrong ones"""
    wrong = b"".join(b"if crate::wrong_body::is(%d) /*<%d*/ %s /*%d>*/ else " % (number, number, body, number) for number, body in variants)
    return b"{ " + wrong + text + b" }"


def write_tree(tree, variants, sources):
    """the crates with the variants, below the folder `tree`"""
    os.makedirs(tree)
    shutil.copy(f"{ROOT}/HANDLES", tree)
    for name in sorted(os.listdir(f"{ROOT}/crates")):
        for part in os.listdir(f"{ROOT}/crates/{name}"):
            if part == "src":
                shutil.copytree(f"{ROOT}/crates/{name}/src", f"{tree}/crates/{name}/src")
            elif part in ("specs", "proofs"):
                os.makedirs(f"{tree}/crates/{name}", exist_ok=True)
                os.symlink(f"{ROOT}/crates/{name}/{part}", f"{tree}/crates/{name}/{part}")
    write_whole(tree)
    of_body = collections.defaultdict(list)
    for it in variants:
        for file, opens, end, wrong in it.parts:
            of_body[it.edit.crate, file, opens, end].append((it.number, wrong))
    of_file = collections.defaultdict(list)
    for (crate, file, opens, end), wrong in of_body.items():
        of_file[crate, file].append((opens, end, beside(sources[crate].data[file][opens:end], wrong)))
    for (crate, file), spans in of_file.items():
        with open(f"{tree}/crates/{crate}/{file}", "wb") as it:
            it.write(copies.replaced(sources[crate].data[file], spans))
    for crate in {crate for crate, _ in of_file} | {WHOLE}:
        add_switch(f"{tree}/crates/{crate}/src")
    for crate in PROGRAMS[1:]:
        make_library(f"{tree}/crates/h3_{crate}/src")
    return make_callable(f"{tree}/crates/h3_c/src")


def write_whole(tree):
    """the program that holds all others; its file's name in tests/witness does not end in .rt, since `rt ci` wants each such file in a crate of crates.txt"""
    with open(f"{ROOT}/crates.txt", encoding="utf-8") as it:
        crates = it.read().replace("h3_c staticlib:", "h3_c:")
    with open(f"{tree}/crates.txt", "w", encoding="utf-8") as it:
        it.write(f"{crates}\n{WHOLE}: {CALLS}\n")
    os.makedirs(f"{tree}/crates/{WHOLE}/src")
    shutil.copyfile(f"{ROOT}/tests/witness/layers.rattle", f"{tree}/crates/{WHOLE}/src/main.rt")


def make_library(folder):
    """a program becomes a library that has its `main` as `started`"""
    with open(f"{folder}/main.rt", encoding="utf-8") as it:
        text = it.read()
    os.remove(f"{folder}/main.rt")
    with open(f"{folder}/lib.rt", "w", encoding="utf-8") as it:
        it.write(text.replace("\nfn main(rt: HostRuntime)", "\npub fn started(rt: HostRuntime)"))


def make_callable(folder):
    """a function of h3_c calls each export once, so that all are compiled; the names of the exports"""
    unproved.mark(os.path.dirname(folder))
    unproved.open_modules(folder)
    crate = unproved.Crate(folder)
    with open(f"{folder}/lib.rt", encoding="utf-8") as it:
        text = crate.program(it.read())
    with open(f"{folder}/lib.rt", "w", encoding="utf-8") as it:
        it.write(text.replace("fn main(rt: HostRuntime) -> ExitCode {\n    let alloc = rt.alloc();\n", "pub fn called(alloc: Global) -> ExitCode {\n"))
    return [name.rsplit("::", 1)[1] for name, _ in crate.exports]


def add_switch(folder):
    root = next(it for it in (f"{folder}/main.rt", f"{folder}/lib.rt") if os.path.exists(it))
    with open(root, "a", encoding="utf-8") as it:
        it.write("\nmod wrong_body;\n")
    with open(f"{folder}/wrong_body.rt", "w", encoding="utf-8") as it:
        it.write(SWITCH)


def in_error(said, tree):
    """the numbers of the variants in which errors lie that a trial told of, with what it said"""
    found = {}
    for path, line, column, error in ERROR.findall(said):
        at = f"{tree}/{path}" if path.startswith("crates/") else f"{tree}/crates/{WHOLE}/{path}"
        with open(at, encoding="utf-8") as it:
            lines = it.read().split("\n")
        before = "\n".join([*lines[: int(line) - 1], lines[int(line) - 1][: int(column) - 1]])
        last = (PLACE.findall(before) or [("", "")])[-1]
        if last[0]:
            found.setdefault(int(last[0]), error)
    return found


class Unbuilt(Exception):
    """what a trial said of sources that it refused"""


def module_of(rt, tree, room):
    """the text of the module, or the errors by the numbers of the variants that they lie in"""
    said = kit.keep_module(rt, tree, WHOLE, f"{tree}/crates/{WHOLE}", room, SECONDS)
    if said is not None:
        wrong = in_error(said, tree)
        if not wrong:
            raise Unbuilt(said)
        return None, wrong
    clang = [f"{rt.KIT}/toolchain/bin/clang", *unproved.TARGET]
    subprocess.run([*clang, "-S", "-emit-llvm", "-O0", "-Xclang", "-disable-llvm-passes", f"{room}/module.bc", "-o", f"{room}/module.ll"], check=True)
    with open(f"{room}/module.ll", encoding="utf-8") as it:
        return it.read(), {}


def make_object(rt, text, exports, room):
    """Compiles the module to an object file. -O1: with -O0 large values are copied, and a run takes forty times as long."""
    text = unproved.released(text, exports).replace("define internal i32 @unused_main(", f"define i32 @{WHOLE}_main(")
    which = lambda crate: "wrong_program" if crate == WHOLE else "wrong_number"
    text = IS.sub(lambda found: COMPARES.format(crate=found[1], which=which(found[1])), text) + EXTERNAL
    with open(f"{room}/switched.ll", "w", encoding="utf-8") as it:
        it.write(text)
    clang = [f"{rt.KIT}/toolchain/bin/clang", *unproved.TARGET]
    subprocess.run([*clang, "-O1", "-ffunction-sections", "-fdata-sections", "-c", f"{room}/switched.ll", "-o", f"{BUILD}/{WHOLE}.o"], check=True)


def link(rt):
    cc = ["cc", "-O1", "-Wall", "-Wextra", "-Werror", "-c", f"{ROOT}/tests/witness/wrong.c"]
    for name, flags in (("wrong", []), ("counting", ["-DWRAPPED"]), *((it, ["-DWRAPPED", f"-DPROGRAM={n}"]) for n, it in enumerate(PROGRAMS))):
        subprocess.run([*cc, *flags, "-o", f"{BUILD}/{name}.o"], check=True)
    for program in PROGRAMS:
        words = [f"{BUILD}/{WHOLE}.o", f"{BUILD}/{program}.o", f"-Wl,--gc-sections,--defsym=main={WHOLE}_main", WRAPS, *libraries(rt)]
        subprocess.run(["cc", "-o", f"{BUILD}/{program}", *words], check=True)
    os.makedirs(f"{BUILD}/beanwhile", exist_ok=True)
    shutil.copy(f"{ROOT}/include/h3.h", f"{BUILD}/beanwhile")


def libraries(rt):
    return [f"{rt.KIT}/c/libos_c.a", f"{rt.KIT}/c/liblibc_c.a", "-lpthread", "-lm"]


def in_c(path):
    """the program of a file in C"""
    return f"{BUILD}/c_{os.path.basename(path)[:-2]}"


def compile_c(rt, path, flags):
    """a program in C over the library: one that wraps the calls for memory itself counts none of them"""
    counts = not any("--wrap" in it for it in flags)
    words = ["-std=c11", "-O1", "-w", *flags, f"-I{BUILD}/beanwhile", f"-I{ROOT}/tests/c", "-o", in_c(path), f"{ROOT}/{path}", f"{BUILD}/{WHOLE}.o"]
    words += [f"{BUILD}/counting.o" if counts else f"{BUILD}/wrong.o", "-Wl,--gc-sections", *libraries(rt), *([WRAPS] if counts else [])]
    subprocess.run(["cc", *words], check=True)


def stamp(variants):
    """what a build is made of"""
    made = hashlib.sha256()
    folders = [at for top in ("crates", "tests/witness") for at, _, _ in os.walk(f"{ROOT}/{top}")]
    paths = [it for at in folders if at.split("/")[-1] != "proofs" for it in glob.glob(f"{at}/*.rt")]
    others = ["scripts/gate/variants.py", "scripts/c/unproved.py", "crates.txt", "tests/witness/layers.rattle"]
    for path in [*sorted(paths), *(f"{ROOT}/{it}" for it in others)]:
        with open(path, "rb") as it:
            made.update(path.encode() + b"\0" + it.read())
    made.update(repr([(it.edit.path, it.parts) for it in variants]).encode())
    return made.hexdigest()


def module_with(rt, variants, sources, room):
    """the module, the names that the library exports, and the variants that do not compile, by their numbers"""
    void = {}
    while True:
        tree = f"{room}/tree{len(void)}"
        exports = write_tree(tree, [it for it in variants if it.number not in void], sources)
        text, wrong = module_of(rt, tree, tempfile.mkdtemp(prefix="module-", dir=room))
        if text:
            return text, exports, void
        void.update(wrong)
        for it in (it for it in variants if it.number in wrong):
            print(f"{it.edit.label} does not compile: {wrong[it.number]}", file=sys.stderr, flush=True)


def build(rt, variants, sources):
    """Builds the programs, whose object file is there if it was made of the same sources; the variants that do not compile get their reason."""
    of_these, path = stamp(variants), f"{BUILD}/made_of"
    if os.path.exists(path):
        with open(path, encoding="utf-8") as it:
            written, *void = it.read().split("\n")
        if written == of_these:
            link(rt)
            return {int(number): why for number, _, why in (it.partition(" ") for it in void if it)}
        os.remove(path)
    os.makedirs(BUILD, exist_ok=True)
    runnable = [it for it in variants if it.parts]
    with tempfile.TemporaryDirectory(prefix="witness-") as room:
        text, exports, void = module_with(rt, runnable, sources, room)
        make_object(rt, text, exports, room)
    with open(path, "w", encoding="utf-8") as it:
        it.write("\n".join([of_these, *(f"{number} {why}" for number, why in void.items())]))
    link(rt)
    print(f"{len(runnable) - len(void)} wrong bodies in one build", file=sys.stderr)
    return void
