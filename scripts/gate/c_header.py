#!/usr/bin/env python3
"""Compares include/h3.h with the exports of crates/h3_c, which nothing else does: each declaration with the export of its name, each struct with the
`#[repr(C)]` struct that crosses, the numbers of refusals and kinds with those that the crate answers, each function that programs call with the
export that it calls, and all of these with what bindings/rust and bindings/python (python_binding.py) have of them by hand; and each call has to stand in
tests/c/sizes.c. Prints a line 'ok NAME' or 'failed NAME' for each of these."""
import glob
import re
import sys

import python_binding

TYPES = {"u8": "uint8_t", "u32": "uint32_t", "u64": "uint64_t", "usize": "size_t", "Handle": "h3_endpoint", "FieldSize": "h3_field_size",
         "PulledItem": "h3_item", "StreamState": "h3_stream_state", "ConnectionState": "h3_state", "ReaderState": "h3_capsule_reader",
         "CapsuleTold": "h3_capsule"}
ALLOCATOR = "Global"  # takes no bytes, so C passes nothing for it


def parameter(text):
    """the C types of a parameter"""
    kind = text.split(":", 1)[1].strip()
    if kind == ALLOCATOR:
        return []
    found = re.fullmatch(r"&(?:'static )?(mut )?\[(\w+)\]", kind)
    if found:
        return [("" if found[1] else "const ") + TYPES[found[2]] + " *", "size_t"]
    found = re.fullmatch(r"&(mut )?(\w+)", kind)
    if found:
        return [("" if found[1] else "const ") + TYPES[found[2]] + " *"]
    return [TYPES[kind]]


def exports():
    found = {}
    for path in sorted(glob.glob("crates/h3_c/src/exports/*.rt")):
        text = open(path).read()
        for name, given, result in re.findall(r'#\[unsafe\(no_mangle\)\]\npub extern "C" fn (\w+)\((.*?)\)(?: -> (\w+))?(?: \{)?\n', text, re.S):
            parts = [it.strip() for it in given.split(",") if it.strip()]
            found[name] = (TYPES[result] if result else "void", [it for part in parts for it in parameter(part)])
    return found


def declarations(text):
    found = {}
    for result, name, given in re.findall(r"^(\w+) (h3_raw_\w+)\(([^;{]*?)\);", text, re.M | re.S):
        parts = [re.sub(r"\s+", " ", it).strip() for it in given.split(",")]
        found[name] = (result, [] if parts == ["void"] else [re.fullmatch(r"(.*?)(\w+)", it)[1].strip() for it in parts])
    return found


def c_structs(text):
    found = {}
    for body, name in re.findall(r"^typedef struct \{\n(.*?)^\} (\w+);", text, re.M | re.S):
        body = re.sub(r"/\*.*?\*/", "", body, flags=re.S)
        fields = []
        for kind, names in re.findall(r"(\w+) ([\w, ]+);", body):
            fields += [(kind, it.strip()) for it in names.split(",")]
        found[name] = fields
    return found


def crate_structs():
    found = {}
    for path in sorted(glob.glob("crates/h3_c/src/*.rt") + glob.glob("crates/h3_capsule/src/*.rt")):
        for name, body in re.findall(r"#\[repr\(C\)\]\n(?:#\[[^\n]*\n)*pub struct (\w+) \{\n(.*?)^\}", open(path).read(), re.M | re.S):
            found[name] = [(TYPES[kind], field) for field, kind in re.findall(r"pub (\w+): (\w+),", body)]
    return found


RUST = {"FieldSize": "h3_field_size", "RawItem": "h3_item", "RawStream": "h3_stream_state", "RawConnection": "h3_state",
        "RawReader": "h3_capsule_reader", "RawCapsule": "h3_capsule"}
BINDING = "bindings/rust/src"


def rust_structs():
    """the structs of the crate for Rust, by their names in C: what is handed over has to have all fields"""
    found = {}
    for name, body in re.findall(r"#\[repr\(C\)\]\n(?:#\[[^\n]*\n)*pub\(crate\) struct (\w+) \{\n(.*?)^\}", open(f"{BINDING}/raw.rs").read(), re.M | re.S):
        found[RUST.get(name, name)] = [(TYPES[kind], field) for field, kind in re.findall(r"^    pub\(crate\) (\w+): (\w+),", body, re.M)]
    return found


def rust_declarations():
    """the exports as the crate for Rust declares them"""
    found = {}
    for name, given, result in re.findall(r"pub\(crate\) fn (h3_raw_\w+)\((.*?)\)(?: -> (\w+))?;", open(f"{BINDING}/raw.rs").read()):
        kinds = []
        for kind in re.findall(r": ([^,]+)", given):
            pointer = re.fullmatch(r"\*(const|mut) (\w+)", kind)
            base = pointer[2] if pointer else kind
            base = RUST.get(base) or TYPES[base]
            kinds.append({"const": f"const {base} *", "mut": f"{base} *"}[pointer[1]] if pointer else base)
        found[name] = (TYPES[result] if result else "void", kinds)
    return found


def rust_numbers(header):
    """what is wrong with the numbers that the crate for Rust reads and writes"""
    error, endpoint, config = (open(f"{BINDING}/{it}.rs").read() for it in ("error", "endpoint", "config"))
    answers, kinds, wrong = numbers(header, "h3_answer"), numbers(header, "h3_kind"), []
    told = {snake(name): int(n) for n, name in re.findall(r"^            (\d+) => Error::(\w+)", error, re.M)}
    told.update({f"H3_{name}": int(n) for name, n in re.findall(r"^const (KEPT): u32 = (\d+);", endpoint, re.M)})
    looked_at = {f"H3_{name}": int(n) for name, n in re.findall(r"^const (PENDING|WAITING|BODY_GIVEN): u32 = (\d+);", endpoint, re.M)}
    wrong += [it for it in told.items() if answers.get(it[0]) != it[1]]
    wrong += sorted(set(answers) - set(told) - {"H3_OK", "H3_NONE", "H3_ROOM", "H3_NO_ENDPOINT"})
    known = re.findall(r"Malformation::(\w+),", re.search(r"const KNOWN.*?\];", error, re.S)[0])
    wrong += sorted(set(numbers(header, "h3_malformation").items()) ^ {(snake(name), at) for at, name in enumerate(known)})
    arms = re.findall(r"^            (\d+) => .*?(?:Item::Fault\(|Next::Pause\()?(Item|Pause|Fault|Error)::(\w+)", endpoint, re.M)
    pulled = {snake(("Fault" if of in ("Fault", "Error") else "") + name): int(n) for n, of, name in arms}
    wrong += sorted(set(kinds.items()) ^ {*pulled.items(), *looked_at.items()})
    fields = [name for _, name in c_structs(header)["h3_config"]]
    read = [name for name, _ in sorted(re.findall(r"(\w+): numbers\[(\d+)\]", config), key=lambda it: int(it[1]))]
    written = re.findall(r"^            self\.(\w+)", config, re.M)
    return wrong if read == written == fields[1:] else [*wrong, fields, read, written]


def config(here):
    """what is wrong with h3_config: its numbers behind the size, those of GivenConfig, and those that are read and written of a row, in one order"""
    code = open("crates/h3_c/src/config.rt").read()
    count = int(re.search(r"const NUMBERS: usize = (\d+);", code)[1])
    fields = re.findall(r"    pub (\w+): u64,", re.search(r"pub struct GivenConfig \{(.*?)^\}", code, re.M | re.S)[1])
    read = re.findall(r"(\w+): number_or\(numbers, (\d+), default\.(\w+)\)", code)
    written = re.findall(r"^            self\.(\w+),", code, re.M)
    wanted = [(name, str(at), name) for at, name in enumerate(fields, 1)]
    is_well = here == [("uint64_t", it) for it in ["size", *fields]] and read == wanted and written == fields and count == len(fields) + 1
    return [] if is_well else [here, fields, read, written, count]


def texts(header, enum):
    """the names that an enum lacks in its function of texts, or the other way round"""
    told = re.findall(r'case (\w+): return "(\w+)";', re.search(r"\*%s_text\([^;{]*\{(.*?)^\}" % enum, header, re.M | re.S)[1])
    return sorted({(it, it) for it in numbers(header, enum)} ^ set(told))


def versions(header):
    """the version in all its forms"""
    code, definition = open("crates/h3_c/src/exports/version.rt").read(), open("crates/h3_c/specs/Numbers.antt").read()
    text = re.search(r'#define H3_VERSION_TEXT "(\d+)\.(\d+)\.(\d+)"', header)
    said = int(text[1]) << 16 | int(text[2]) << 8 | int(text[3])
    forms = [re.search(r"#define H3_VERSION (\w+)", header)[1], re.search(r"const VERSION: u32 = (\w+);", code)[1], re.search(r"^version = (\w+)$", definition, re.M)[1]]
    return [it for it in forms if int(it.replace("_", ""), 16) != said]


def numbers(text, enum):
    body = re.search(r"enum %s \{(.*?)\};" % enum, text, re.S)[1]
    return {name: int(n) for name, n in re.findall(r"(H3_\w+) = (\d+)", body)}


def snake(name):
    return "H3_" + re.sub(r"(?<!^)([A-Z])", r"_\1", name).upper()


NAMES = {"H3_OUT_OF_MEMORY": "H3_MEMORY"}
# are called where there is no endpoint
WITHOUT = ("h3_version", "h3_config_default", "h3_new", "h3_priority_read", "h3_read_capsule", "h3_capsule_ends", "h3_capsule_head",
           "h3_webtransport_code", "h3_webtransport_number")
bad = 0


def tell(is_well, what, why=""):
    global bad
    bad += not is_well
    print(f"{'ok' if is_well else 'failed'} h3.h: {what}{'' if is_well else ': ' + str(why)}")


def main():
    header = open("include/h3.h").read()
    made, declared = exports(), declarations(header)
    wrong = [(it, made.get(it), declared.get(it)) for it in sorted({*made, *declared}) if made.get(it) != declared.get(it)]
    tell(made and not wrong, f"its {len(declared)} declarations are the exports of h3_c", wrong)
    here, there = c_structs(header), crate_structs()
    wrong = [(it, there[it], here.get(TYPES[it])) for it in sorted(there) if it != "Handle" and there[it] != here.get(TYPES[it])]
    tell(len(there) == 7 and here["h3_endpoint"] == [] and not wrong, "its structs are those that cross", wrong)
    wrong = config(here["h3_config"])
    tell(not wrong, "the numbers of h3_config are those that are read and written", wrong)
    wrong = [it for enum in ("h3_answer", "h3_kind", "h3_malformation") for it in texts(header, enum)]
    tell(not wrong, "each answer, kind and malformation has its text", wrong)
    wrong = versions(header)
    tell(not wrong, "its version is that of the library", wrong)
    rust = rust_structs()
    wrong = [(it, rust.get(it), here[it]) for it in RUST.values() if rust.get(it) != here[it]]
    tell(not wrong, "the structs of bindings/rust have its fields", wrong)
    bound = rust_declarations()
    wrong = [(it, bound[it], declared.get(it)) for it in sorted(bound) if bound[it] != declared.get(it)]
    tell(len(bound) == len(declared) and not wrong, "the declarations of bindings/rust are its own", wrong)
    wrong = rust_numbers(header)
    tell(not wrong, "the numbers of bindings/rust are its own", wrong)
    wrong = [*python_binding.wrong_declarations(declared), *python_binding.wrong_structs(here)]
    tell(not wrong, "the declarations and structs of bindings/python are its own", wrong)
    wrong = python_binding.wrong_numbers(header, numbers, here)
    tell(not wrong, "the numbers of bindings/python are its own", wrong)
    code, answers = open("crates/h3_c/src/numbers.rt").read(), numbers(header, "h3_answer")
    told = {snake(name): int(n) for name, n in re.findall(r"Refusal::(\w+)(?:\(\w+\))? => (?:plain|with)\((\d+)", code)}
    told.update({f"H3_{name}": int(n) for name, n in re.findall(r"const (\w+): Told = Told \{\s+number: (\d+),", code)})
    wrong = {it: (n, answers.get(NAMES.get(it, it))) for it, n in told.items() if answers.get(NAMES.get(it, it)) != n}
    tell(len(told) >= 22 and not wrong, "its numbers of refusals are those that are answered", wrong)
    refusals = re.search(r"pub enum Refusal \{(.*?)^\}", open("crates/h3_connection/src/event.rt").read(), re.M | re.S)[1]
    order = [answers.get(NAMES.get(snake(it), snake(it))) for it in re.findall(r"^    (\w+)(?:\(\w+\))?,", refusals, re.M)]
    tell(order == [*range(1, 13), 27, *range(13, 19)], "its refusals stand in the core's order, and H3_MALFORMED behind", order)
    items, kinds = open("crates/h3_c/src/items.rt").read(), numbers(header, "h3_kind")
    used = sorted(int(n) for n in re.findall(r"(?:(?:plain|numbered|bytes_shown)\(|MessageKind::\w+ => )(\d+)", items))
    used += [int(n) for n in re.findall(r"kind: (\d+),", open("crates/h3_c/src/connection/reading.rt").read())]
    tell(used == sorted(kinds.values()) == list(range(1, 18)), "its kinds are those of items", used)
    for name in sorted(declared):
        short = name.replace("h3_raw_", "h3_", 1)
        calls = re.findall(r"^static inline \w+ %s\([^;{]*\{(.*?)^\}" % short, header, re.M | re.S)
        is_well = len(calls) == 1 and len(re.findall(r"\b%s\(" % name, calls[0])) == 1 and (short in WITHOUT or "endpoint->at" in calls[0])
        if not is_well:
            tell(False, f"{short} calls {name} where there is an endpoint", calls)
    sizes = open("tests/c/sizes.c").read()
    missing = [it for it in (name.replace("h3_raw_", "h3_", 1) for name in sorted(declared)) if f"{it}(" not in sizes]
    tell(not missing, "tests/c/sizes.c makes each of its calls", missing)
    path = "crates/h3_c/proofs/handle/Handle/TheSendSync/Send.antt"
    try:
        proof = open(path).read()
    except OSError:
        proof = ""
    tell("pub send : IsSend the_row" in proof, "that a handle may move between threads is proved", f"{path} is missing")
    return 1 if bad else 0


sys.exit(main())
