#!/usr/bin/env python3
"""The imports of definitions and lemmas.

    python3 scripts/gate/imports.py            does each file of specs/ or proofs/ that an import names have the names that it takes? One line 'ok CRATE' or 'failed
                                               CRATE' a crate. A second: for whoever moves a definition, long before a check comes to it
    python3 scripts/gate/imports.py --unused   lists the names that a file imports and does not use
    python3 scripts/gate/imports.py --write    takes these out of the files

A crate's name behind these words: of that crate alone. Names that the check writes (`declared`, the goals of a function) and those of std and of the kit are not looked up."""
import collections
import os
import re
import sys

from texts import ROOT, read, write

IMPORT = re.compile(r"^([ \t]*)((?:pub )?(?:ghost )?use) ([\w.]+)\.\{([^}]*)\}(;?)[ \t]*\n", re.M)
ITEM = re.compile(r"^(?:[ \t]+|)(?:(?:abbrev|unfoldable|pub|record|data|ruleset) )+(\S+)", re.M)
CASE = re.compile(r"^[ \t]+(\S+) :", re.M)
WRITTEN = re.compile(r"\.(?:declared|contracts|TheSendSync|Statement)\b|\.(?:Goals|Given|Code|Invariants)$")


def files(crate):
    for part in ("src", "specs", "proofs"):
        for at, _, names in sorted(os.walk(f"{ROOT}/crates/{crate}/{part}")):
            yield from (f"{at}/{it}" for it in sorted(names) if it.endswith((".antt", ".rt")))


def without_comments(path, text):
    return re.sub(r"//[^\n]*" if path.endswith(".rt") else r"--[^\n]*", "", text)


def defined(path, seen={}):
    """the names that a file defines or hands on, each data type's cases among them"""
    if path not in seen:
        text = without_comments(path, read(path))
        names = set(ITEM.findall(text)) | set(CASE.findall(text))
        for _, word, _, taken, _ in IMPORT.findall(text):
            if word.startswith("pub"):
                names |= {shown(it) for it in names_of(taken)}
        seen[path] = names
    return seen[path]


def names_of(taken):
    return [it.strip() for it in taken.split(",") if it.strip()]


def shown(name):
    """an import's name as the file uses it"""
    return name.split(" as ")[-1].strip()


def lost_of(module, taken):
    """the names that an import takes and that its file does not have; all of them where there is no file"""
    parts = module.split(".")
    if parts[0] != "Rattle" or len(parts) < 4 or parts[2] not in ("specs", "proofs") or WRITTEN.search(module):
        return []
    if not os.path.isdir(f"{ROOT}/crates/{parts[1]}"):
        return []
    # a module, or a type within one
    for path in ("/".join(parts[2:]), "/".join(parts[2:-1])):
        source = f"{ROOT}/crates/{parts[1]}/{path}.antt"
        if os.path.isfile(source):
            there = defined(source)
            return [it for it in names_of(taken) if it.split(" as ")[0] not in there]
    return names_of(taken)


def missing(crate):
    for path in files(crate):
        for _, _, module, taken, _ in IMPORT.findall(without_comments(path, read(path))):
            lost = lost_of(module, taken)
            if lost:
                yield f"{os.path.relpath(path, ROOT)}: {module} has no {', '.join(lost)}"


def unused(path, text):
    """the imports of a file that name something unused, each with these names"""
    body = IMPORT.sub("", without_comments(path, text))
    words = collections.Counter(re.findall(r"[^\s(){},;.\[\]λ«»\"]+", body))
    words.update(re.findall(r"[\w'₀-₉]+(?:-[\w'₀-₉]+)*", body))
    for found in IMPORT.finditer(text):
        if found[2].startswith("pub") or (path.endswith(".rt") and "ghost" not in found[2]):
            continue
        names = names_of(found[4])
        lost = []
        for name in names:
            pieces = [it for it in shown(name).strip("«»").split("◌") if it]
            is_there = (it in body if "◌" in name or it == "[]" else it in words for it in pieces)
            if not all(is_there):
                lost.append(name)
        if lost:
            yield found, names, lost


def written(path, text):
    """the text without names that are not used"""
    for found, names, lost in reversed(list(unused(path, text))):
        left = [it for it in names if it not in lost]
        line = f"{found[1]}{found[2]} {found[3]}.{{{', '.join(left)}}}{found[5]}\n" if left else ""
        text = text[: found.start()] + line + text[found.end() :]
    return text


def main():
    words = [it for it in sys.argv[1:] if it.startswith("--")]
    crates = re.findall(r"^(\w+)[^\n:]*:", read("crates.txt"), re.M)
    chosen = [it for it in sys.argv[1:] if it not in words] or crates
    bad = False
    for crate in chosen:
        if words:
            for path in files(crate):
                text = read(path)
                for found, _, lost in unused(path, text):
                    print(f"{os.path.relpath(path, ROOT)}: {found[3]}: {', '.join(lost)}")
                if words == ["--write"] and written(path, text) != text:
                    write(path, written(path, text))
            continue
        lost = list(missing(crate))
        print(f"failed {crate}: imports of names that are not there" if lost else f"ok {crate}: each name that it imports is there")
        print("".join(f"  {it}\n" for it in lost), end="")
        bad |= bool(lost)
    sys.exit(1 if bad else 0)


main()
