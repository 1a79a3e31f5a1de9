"""edits.py CRATE: does each edit in the crate's refused/ and must-fail/ apply, so that each of its `old:` texts stands in its file exactly once,
and does each in refused/ name one function that is there? Where the search cannot tell that one is refused (scripts/gate/refused.py), or a run
shows it for less, a line `judged: WHY` says in a sentence why no proof of that body can exist, and the next line is `witness: INPUT`, the run that
shows it (scripts/gate/witnesses.py), or `unseen: WHY`, why none can. Says how many edits are well, and ends with an error, after a line for each
that is not, where there is one. Without a crate it says how many edits there are, and what refuses them."""
import functools
import pathlib
import re
import sys


ROOT = pathlib.Path(__file__).resolve().parents[2]
WORDS = 6  # that a judgement has at least


class NotApplied(Exception):
    """Why an edit does not apply."""


def edited(edit, crate):
    """The texts of the files that the edit changes, by their paths in the crate, as it leaves them."""
    path, old, pairs, texts = None, None, 0, {}
    for line in edit.read_text().split("\n"):
        if line.startswith("file: "):
            path = line[len("file: ") :].strip()
            if not (crate / path).is_file():
                raise NotApplied(f"there is no file {path}")
            texts.setdefault(path, (crate / path).read_text())
        elif line.startswith("old: "):
            old = line[len("old: ") :]
        elif line.startswith("new:"):
            if path is None or not old:
                raise NotApplied("a line new: with no file: or old: before it")
            found = texts[path].count(old)
            if found != 1:
                raise NotApplied(f"{path} has the text of an old: {found} times: {old}")
            texts[path] = texts[path].replace(old, line[len("new:") :].removeprefix(" "))
            old, pairs = None, pairs + 1
    if pairs == 0:
        raise NotApplied("it changes nothing")
    return texts


def edits_of(crate):
    """What stands in the folders of edits: refused/, which scripts/gate/refused.py tries, and must-fail/, which `rt ci` does."""
    return [it for folder in ("refused", "must-fail") for it in sorted(crate.glob(f"{folder}/*"))]


def summary():
    """how many edits there are in all crates, and what refuses them, in the words of the pages"""
    texts = [it.read_text() for it in ROOT.glob("crates/*/refused/*.edit")]
    judged, shown = (sum(bool(re.search(form, it, re.M)) for it in texts) for form in (r"^judged:", r"^witness:"))
    return f"{len(texts)} edits: {len(texts) - judged} by the prover, {shown} by a run, {judged - shown} by a reader"


@functools.cache
def names_of(crate):
    """the names of the crate's functions and laws"""
    return {name for it in crate.glob("src/**/*.rt") for name in re.findall(r"\b(?:fn|law|lemma) (\w+)", it.read_text())}


@functools.cache
def is_run(path):
    """Of a program in C: is it among those at which wrong bodies run?"""
    return not path.endswith(".c") or f'"{path}"' in (ROOT / "scripts/gate/witness_inputs.py").read_text()


def problem(edit, crate):
    text = edit.read_text()
    named = re.findall(r"(?m)^function: (\S+)$", text)
    if edit.parent.name == "refused" and len(named) != 1:
        return f"{edit}: one line 'function: NAME' says whose contract refuses it"
    if edit.parent.name == "refused" and named[0].split("::")[-1] not in names_of(crate):
        return f"{edit}: the crate has no function {named[0]}"
    judged = re.findall(r"(?m)^judged:(.*)$", text)
    if len(judged) > 1 or any(not it.startswith(" ") or len(it.split()) < WORDS for it in judged):
        return f"{edit}: a line 'judged: WHY' has one sentence, and stands once at most"
    shown = re.findall(r"(?m)^(?:witness|unseen):", text)
    if len(judged) != len(shown) or len(shown) != len(re.findall(r"(?m)^judged:.*\n(?:witness|unseen): \S", text)):
        return f"{edit}: one line 'witness: INPUT' or 'unseen: WHY' is next to the line 'judged: WHY'"
    at = re.findall(r"(?m)^witness: ([^, \n]+)", text)
    if at and not ((ROOT / at[0]).exists() and is_run(at[0])):
        return f"{edit}: there is no input {at[0]}"
    try:
        edited(edit, crate)
    except NotApplied as why:
        return f"{edit}: {why}"
    return None


def main():
    if len(sys.argv) == 1:
        print(summary())
        return
    crate = pathlib.Path(sys.argv[1])
    edits = edits_of(crate)
    wrong = [f"{it}: not a name of an edit" for it in edits if not re.fullmatch(r"[A-Za-z0-9_-][A-Za-z0-9_.-]*\.edit", it.name)]
    names = [it.name for it in edits]
    wrong += [f"{it}: the name stands in both folders" for it in edits if names.count(it.name) > 1]
    wrong += filter(None, (problem(it, crate) for it in edits))
    if wrong:
        sys.exit("\n".join(wrong))
    print(f"{len(edits)} edits apply")


if __name__ == "__main__":
    main()
