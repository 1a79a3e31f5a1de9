"""Copies of a function, in which one check tries further wrong bodies of it. A copy stands behind its function, with the same attributes and the same contract
under a name of its own, and has the function's proof files under that name. So it is proved if and only if the function would be with its body."""
import functools
import os


def name_of(name, number):
    """The copy's name; number 0 is the function itself."""
    return f"{name}_copy_{number}" if number else name


def folder_of(function):
    return f"proofs/{function.replace('::', '/')}"


def antt_of(function):
    """the module of the function's goals, as proof files name it"""
    return f"proofs.{function.replace('::', '.')}."


def text_of(path):
    with open(path, encoding="utf-8") as it:
        return it.read()


@functools.cache
def proofs_of(folder):
    """the proof files of a crate, by their paths"""
    paths = [f"{at}/{name}" for at, _, names in os.walk(f"{folder}/proofs") for name in names]
    return {os.path.relpath(it, folder): text_of(it) for it in paths}


def own_proofs(crate, function):
    own = folder_of(function)
    return {path: text for path, text in proofs_of(crate.folder).items() if os.path.dirname(path) == own}


def stands_alone(crate, function, body):
    """Does nothing but its calls depend on the function, as its contract states it? The method of a trait, a symbol and a part of a cycle of calls are named otherwise too;
    so is a function whose goals another proof names, or with a closure that has proof files of its own."""
    if body.name != function.split("::")[-1] or body.in_trait or body.in_cycle:
        return False
    with open(f"{crate.folder}/{body.file}", "rb") as it:
        head = it.read()[body.first : body.opens]
    own, proofs = folder_of(function), proofs_of(crate.folder)
    of_closures = [it for it in proofs if it.startswith(f"{own}+") or os.path.dirname(it).startswith(f"{own}/")]
    is_named = any(antt_of(function) in text for it, text in proofs.items() if os.path.dirname(it) != own)
    return b"no_mangle" not in head and not of_closures and not is_named


def replaced(text, spans):
    """the text with new bytes in these places"""
    for first, end, new in sorted(spans, reverse=True):
        text = text[:first] + new + text[end:]
    return text


def copy_of(text, body, spans, number):
    """the copy, with its wrong body: `spans` are places of the file's text"""
    own = [(first - body.first, end - body.first, new) for first, end, new in [*spans, (*body.named, name_of(body.name, number).encode())]]
    return b"\n\n" + replaced(text[body.first : body.end], own)


def proof_files(crate, function, number):
    """the copy's proof files, by their paths"""
    copied = name_of(function, number)
    moved = lambda path: f"{folder_of(copied)}/{os.path.basename(path)}"
    return {moved(path): text.replace(antt_of(function), antt_of(copied)) for path, text in own_proofs(crate, function).items()}
