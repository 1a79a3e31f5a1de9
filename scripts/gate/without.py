"""The declarations of an Answers.antt, and the file without some of them: a check of a wrong body takes away the answers that no longer fit, so that the
prover's own search decides."""
import re

DECLARED = re.compile(r"(?:abbrev |unfoldable )?(?:pub )?(?:(?:record|data) (\S+)|([^\s:]+) : )")
# A search that is as good as the check's own: it lists names alone, so nothing of what the body is, and one of the sets by which arithmetic is tried too. (`omega`
# reads numbers alone.)
SEARCH = re.compile(r"(?:λ [^.]+\. )?(?:search|grind) (?:(rules|arith)|\((?:[^\s().,]+, )*(?:rules|arith)(?:, [^\s().,]+)*\))")
# What the check tries itself at a goal that has no answer.
OWN = ("search", "search rules", "grind (arith, common_steps)")
USES = re.compile(r"use (\S+)\.\{(.*)\}")


def declarations(text):
    """(name, first line, line behind the last) of each declaration, in order; lines count from 1"""
    lines, begun = text.split("\n"), []
    for number, line in enumerate(lines, 1):
        declared = DECLARED.match(line)
        if declared:
            begun.append((declared[1] or declared[2], number))
    ends = [number for _, number in begun[1:]] + [len(lines) + 1]
    return [(name, first, end) for (name, first), end in zip(begun, ends)]


def name_at(text, number):
    """the declaration that has this line; None on a line above them"""
    return next((name for name, first, end in declarations(text) if first <= number < end), None)


def text_of(text, name):
    lines = text.split("\n")
    return next("\n".join(lines[first - 1 : end - 1]) for at, first, end in declarations(text) if at == name)


def body_of(text, name):
    _, _, body = text_of(text, name).partition(" =")
    return " ".join(body.split())


def is_search(text, name):
    """Is this answer no more than a search?"""
    return bool(SEARCH.fullmatch(body_of(text, name)))


def answers(text):
    """the goals that the file answers"""
    return [name for name, *_ in declarations(text) if re.search(rf"(?m)^pub {re.escape(name)} : goal\.", text)]


def needless(text):
    """The answers that say what the check would try without them. They save it time, and tell less than its own search where that fails."""
    is_own = lambda name: body_of(text, name) in OWN and "unfolding" not in text_of(text, name)
    return frozenset(name for name in answers(text) if is_own(name) and with_users(text, {name}) == {name})


def mentions(text, word):
    return re.search(rf"(?<![^\s(){{}},.]){re.escape(word)}(?![^\s(){{}},.])", text)


def with_users(text, names):
    """these names, and the declarations that use one of them, directly or through others"""
    found, added = {*names}, {*names}
    while added:
        uses_one = lambda name: any(mentions(text_of(text, name), it) for it in added)
        added = {name for name, *_ in declarations(text) if name not in found and uses_one(name)}
        found |= added
    return found


def without(text, names):
    """The file without these declarations, and without these names in its `use` lines; None where no answer is left."""
    lines = text.split("\n")
    for name, first, end in declarations(text):
        if name in names:
            lines[first - 1 : end - 1] = [None] * (end - first)
    kept = "\n".join(cut_use(it, names) for it in lines if it is not None)
    return kept if answers(kept) else None


def cut_use(line, names):
    uses = USES.fullmatch(line)
    if not uses:
        return line
    left = [it for it in uses[2].split(", ") if it not in names]
    return f"use {uses[1]}.{{{', '.join(left)}}}" if left else ""
