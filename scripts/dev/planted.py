#!/usr/bin/env python3
"""Do the stored inputs notice wrong bodies that nobody wrote? planted.py [--each N] FILE..

Each FILE is a source of a crate, as crates/h3_c/src/handle.rt. In the bodies of its functions one operator is turned at a time: a comparison, a condition, a
number, a sum, a truth value, or a statement that goes. All are in one build beside the right bodies, as the edits of crates/*/refused are
(scripts/gate/variants.py), and each runs at the inputs of scripts/gate/witness_inputs.py that ask for it, up to the first other answer. A line
'noticed PLACE: INPUT' or 'survives PLACE: WHAT' says of each what came of it, 'unasked PLACE: WHAT' if no input comes there. Nothing of this is a verdict: a
body that survives may mean the same. --each: at most N of each file, evenly spread."""
import collections
import concurrent.futures
import dataclasses
import re
import sys

sys.path.insert(0, __file__.rsplit("/", 2)[0] + "/gate")
import kit  # noqa: E402
import refused  # noqa: E402
import variants  # noqa: E402

variants.BUILD = f"{variants.ROOT}/build/planted"  # not that of the edits
import witness_inputs  # noqa: E402
import witnesses  # noqa: E402

# what no run has: comments, texts, and what is said for the prover
SAID = re.compile(rb'//[^\n]*|b?"(?:\\.|[^"\\])*"|\bghost\b[^;{]*(?:;|\{)|\b(?:invariant|decreases|assert|measure)\b[^{;\n]*\{[^{}]*(?:\{[^{}]*\}[^{}]*)*\}')
TURNS = (
    (rb" <= ", b" < "), (rb" >= ", b" > "), (rb" < ", b" <= "), (rb" > ", b" >= "), (rb" == ", b" != "), (rb" != ", b" == "),
    (rb" && ", b" || "), (rb" \|\| ", b" && "), (rb" \+ ", b" - "), (rb" - ", b" + "), (rb"\btrue\b", b"false"), (rb"\bfalse\b", b"true"),
    (rb"\.is_some\(\)", b".is_none()"), (rb"\.is_none\(\)", b".is_some()"), (rb"\.is_ok\(\)", b".is_err()"), (rb"\.is_err\(\)", b".is_ok()"),
    (rb"\.min\(", b".max("), (rb"\.max\(", b".min("), (rb"saturating_add", b"saturating_sub"), (rb"saturating_sub", b"saturating_add"),
    (rb"(?<=[( =])!(?=[a-z])", b""),
)  # fmt: skip
CONDITION = re.compile(rb"\b(if|while) (?!let\b)([^{}\n]+) \{")
NUMBER = re.compile(rb"(?<=[( ])(0x[0-9a-f]+|\d+)(?=[;,) .])(?! =>)")
STATEMENT = re.compile(rb"^ +(?:\*\w+|self\.[\w.]+(?:\([^\n]*\))?|\w+\.(?:push|clear|truncate|insert|extend)\([^\n]*\))(?: [-+]?= [^\n]*)?\??;$", re.M)


@dataclasses.dataclass
class Plant:
    """what scripts/gate/variants.py reads of an edit"""

    crate: str
    path: str
    label: str


def turns_of(body):
    """the places of a body in which an operator can be turned, each with what is there then"""
    code = SAID.sub(lambda it: re.sub(rb"[^\n]", b"\0", it[0]), body)
    for form, other in TURNS:
        yield from ((it.start(), it.end(), other) for it in re.finditer(form, code))
    for it in CONDITION.finditer(code):
        yield it.start(2), it.end(2), b"!(" + body[it.start(2) : it.end(2)] + b")"
    for it in NUMBER.finditer(code):
        yield it.start(), it.end(), b"%d" % (int(it[1], 0) + 1)
    for it in STATEMENT.finditer(code):
        yield it.start(), it.end(), b""


def is_innermost(functions, f, at):
    return f is min((it for it in functions if it.file == f.file and it.opens < at < it.end), key=lambda it: it.end - it.opens)


def plants_of(source, crate, file, most):
    """the variants of one file"""
    made = []
    for f in (it for it in source.functions if it.file == file):
        head, body = source.data[file][f.first : f.opens], source.data[file][f.opens : f.end]
        if variants.stubs.CONSTANT.search(head) or re.search(rb"\bghost\b", head.split(b"fn ")[0]):
            continue
        for first, end, new in sorted(turns_of(body)):
            if not is_innermost(source.functions, f, f.opens + first):
                continue
            line = source.data[file][: f.opens + first].count(b"\n") + 1
            label = f"crates/{crate}/{file}:{line} '{body[first:end].decode().strip()}' becomes '{new.decode()}'"
            wrong = body[:first] + new + body[end:]
            made.append(variants.Variant(0, Plant(crate, label, label), [(file, f.opens, f.end, wrong)]))
    step = max(1.0, len(made) / most)
    return [made[int(n * step)] for n in range(min(len(made), most))]


def every(rt, files, most):
    """the variants of all these files, numbered, and of each crate's sources what the kit reads of them"""
    bodies, sources, made = kit.load("rt-plant-bodies"), {}, []
    for crate in kit.crates_of(rt, variants.ROOT):
        mine = [it for it in files if it.startswith(f"crates/{crate.name}/")]
        if mine:
            sources[crate.name] = refused.source_of(bodies, crate)
        for path in mine:
            made += plants_of(sources[crate.name], crate.name, path.removeprefix(f"crates/{crate.name}/"), most)
    for number, it in enumerate(made, 1):
        it.number = number
    return made, sources


def outcome(runs, order, variant):
    """what came of a wrong body"""
    asking = [it for it in order if variant.number in runs.right(it).asked]
    for given in asking:
        if runs.shown(variant, given.name)[0]:
            return "noticed", given.name
    return ("survives", f"{len(asking)} inputs come there") if asking else ("unasked", "no input comes there")


def main():
    words = sys.argv[1:]
    most = int(words[1]) if words[:1] == ["--each"] else 10**6
    files = words[2:] if words[:1] == ["--each"] else words
    if not files:
        sys.exit(__doc__)
    rt = kit.load_rt()
    made, sources = every(rt, files, most)
    void = variants.build(rt, made, sources)
    witness_inputs.compile_c(rt)
    runs, counted = witnesses.Runs(witness_inputs.every()), collections.Counter()
    with concurrent.futures.ThreadPoolExecutor(witnesses.LANES) as pool:
        list(pool.map(runs.right, runs.inputs.values()))
        order = sorted(runs.inputs.values(), key=lambda it: runs.right(it).seconds)
        left = [it for it in made if it.number not in void]
        for variant, (what, why) in zip(left, pool.map(lambda it: outcome(runs, order, it), left)):
            counted[what] += 1
            print(f"{what} {variant.edit.label}: {why}", flush=True)
    print(f"{len(left)} wrong bodies: {', '.join(f'{count} {what}' for what, count in counted.most_common())}; {len(void)} do not compile")


if __name__ == "__main__":
    main()
