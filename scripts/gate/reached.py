#!/usr/bin/env python3
"""The definitions and lemmas that something needs.

    python3 scripts/gate/reached.py           is each definition and lemma of specs/ and proofs/ reached? One line 'ok CRATE' or 'failed CRATE' a crate
    python3 scripts/gate/reached.py --write   takes those out that are not; behind it `scripts/gate/imports.py --write` takes out imports that nothing needs

Reached is what a contract or a hint of src/ names, what an answer to a goal of a function names, each worked row (files `..Rows`), what a page names, and what
any of these needs. Names are looked up as the files import them, or as they write them in full. A module with parameters counts as one definition."""
import os
import re
import sys

from texts import ROOT, read, write

IMPORT = re.compile(r"^[ \t]*(pub )?(?:ghost )?use ([\w.\-'+]+?)\.\{([^}]*)\};?[ \t]*$", re.M)
ALIAS = re.compile(r"^[ \t]*(?:pub )?(?:ghost )?use ([\w.\-'+]+) as ([\w\-]+);?[ \t]*$", re.M)
NAMED = re.compile(r"^(?:(?:abbrev|unfoldable|pub|record|data|ruleset) )*([^\s:=({\[«]+|«[^»]*»)(?=[ \n(:{\[])")
WITHIN = re.compile(r"^[ \t]+(?:(?:abbrev|unfoldable|pub|record|data) )*([^\s:=({\[«]+)(?= :)", re.M)
DATA = re.compile(r"(?:\w+ )*data ")
HINT = re.compile(r"(crate|\w+)::(specs|proofs)::([\w:]+)::([\w-]+)")
FULL = re.compile(r"(Rattle(?:\.[\w\-+']+)+)\.([\w\-']+)")
WORD = re.compile(r"[^\s(){},;.\[\]λ«»\"]+")
PIECES = re.compile(r"[\w'₀-₉]+")
# files that the check itself reads, whoever names them
ASKED = {"Answers", "Invariants", "Proof", "Send", "Sync", "Lib"}


def files(crate):
    for part in ("src", "specs", "proofs"):
        for at, _, names in sorted(os.walk(f"{ROOT}/crates/{crate}/{part}")):
            yield from (f"{at}/{it}" for it in sorted(names) if it.endswith((".antt", ".rt")))


def begins(line, number):
    """what begins in a line: a definition's name, that of the module with this number, or nothing new"""
    if not line or line[0].isspace() or line[0] in ")]}" or line.startswith(("--", "unfolding", "use ", "pub use ")):
        return None
    if line.startswith("module"):
        return f"module {number}"
    found = NAMED.match(line)
    return found[1] if found else None


def cut(text):
    """the lines of a file, each with the definition to which it belongs; a comment belongs to the line below it"""
    lines, marks, at = text.split("\n"), [], None
    for line in lines:
        if line.startswith(("use ", "pub use ")) or not line.strip():
            marks.append("")
            continue
        at = begins(line, len(marks)) or at
        marks.append(at if not line.startswith("--") else "--")
    for at in range(len(lines) - 1, -1, -1):
        if marks[at] == "--":
            marks[at] = marks[at + 1] if at + 1 < len(lines) else ""
    return list(zip(lines, marks))


def words_of(text):
    words = set(WORD.findall(text))
    return words | {piece for it in words for piece in PIECES.findall(it)}


class File:
    """a file: what it imports, and of each of its definitions the text (of a source: one text of all)"""

    def __init__(self, crate, path):
        self.crate, self.path, self.is_source = crate, path, path.endswith(".rt")
        text = re.sub(r"//[^\n]*" if self.is_source else r"(?m)(?:^|(?<=\s))--[^\n]*", "", read(path))
        below = os.path.relpath(path, f"{ROOT}/crates")
        self.module = "Rattle." + re.sub(r"\.\w+$", "", below).replace("/", ".")
        name = os.path.basename(path).split(".")[0]
        self.is_asked = name in ASKED or name.endswith("Rows")
        self.imports = [(bool(m[1]), m[2], [it.strip() for it in m[3].split(",") if it.strip()]) for m in IMPORT.finditer(text)]
        self.aliases = [(m[2], m[1]) for m in ALIAS.finditer(text)]
        body = ALIAS.sub("", IMPORT.sub("", text))
        self.texts = {"": body} if self.is_source else self.parts(body)
        self.holders = {}
        for name, it in self.texts.items():
            if name.startswith("module ") or DATA.match(it):
                self.holders.update((inner, name) for inner in WITHIN.findall(it))
        self.holders.update((name, name) for name in self.texts)

    @staticmethod
    def parts(body):
        parts = {}
        for line, mark in cut(body):
            parts[mark] = parts.get(mark, "") + line + "\n"
        return parts


class Tree:
    def __init__(self, crates):
        self.files = [File(crate, path) for crate in crates for path in files(crate)]
        self.modules = {it.module: it for it in self.files if not it.is_source}

    def find(self, module, name, depth=0):
        """where a module, or a type within one, has a name: a file and a definition of it"""
        name = name.strip("«» ")
        file = self.modules.get(module)
        if file is None:
            above, _, kind = module.rpartition(".")
            return self.find(above, kind, depth + 1) if above in self.modules and depth < 6 else None
        if name in file.holders:
            return file.module, file.holders[name]
        for is_public, other, taken in file.imports:
            for it in taken if is_public and depth < 6 else []:
                if it.split(" as ")[-1].strip() == name:
                    return self.find(other, it.split(" as ")[0], depth + 1)
        return None

    def scope(self, file):
        """what each name of a file stands for"""
        names = {} if file.is_source else {it: (file.module, holder) for it, holder in file.holders.items()}
        for _, module, taken in file.imports:
            for it in taken:
                names[it.split(" as ")[-1].strip("«» ")] = self.find(module, it.split(" as ")[0])
        return names

    def named(self, file, scope, text):
        words = words_of(text)
        for name, it in scope.items():
            if it and (all(piece in text for piece in name.split("◌") if piece) if "◌" in name else name in words):
                yield it
        for alias, module in file.aliases:
            above, _, kind = module.rpartition(".")
            if alias in words and self.find(above, kind):
                yield self.find(above, kind)
            for name in re.findall(rf"(?<![\w.]){re.escape(alias)}\.([^\s(){{}},;.\[\]λ]+)", text):
                yield from filter(None, [self.find(module, name)])
        for module, name in FULL.findall(text):
            yield from filter(None, [self.find(module, name)])
        for crate, part, path, name in HINT.findall(text) if file.is_source else []:
            module = ".".join(["Rattle", file.crate if crate == "crate" else crate, part, *path.split("::")])
            yield from filter(None, [self.find(module, name)])

    def lost(self):
        """the definitions that nothing needs"""
        needs, left = {}, []
        pages = words_of("\n".join(named_on(it) for it in pages_of(ROOT)))
        for file in self.files:
            scope = self.scope(file)
            for name, text in file.texts.items():
                needs[file.module, name] = set(self.named(file, scope, text))
                is_page = name in pages
                if file.is_source or file.is_asked or not name or is_page:
                    left.append((file.module, name))
        seen = set()
        while left:
            it = left.pop()
            if it not in seen:
                seen.add(it)
                left += needs.get(it, ())
        return [(file, name) for file in self.files for name in file.texts if (file.module, name) not in seen]


def pages_of(folder):
    for at, folders, names in os.walk(folder):
        folders[:] = sorted(set(folders) - {".git", "out", "build"})
        yield from (f"{at}/{it}" for it in names if it.endswith((".md", ".edit")))


def named_on(page):
    """the code of a page; an edit is code"""
    return read(page) if page.endswith(".edit") else "\n".join(re.findall(r"`([^`\n]+)`", read(page)))


def take_out(file, names):
    kept = [line for line, mark in cut(read(file.path)) if mark not in names]
    text = re.sub(r"\n{3,}", "\n\n", "\n".join(kept)).rstrip("\n") + "\n"
    if any(begins(line, 0) for line in text.split("\n")):
        write(file.path, text)
        return
    os.remove(file.path)
    _, crate, part, *rest = file.module.split(".")
    lib = f"crates/{crate}/{part}/Lib.antt"
    write(lib, re.sub(rf"(?m)^(?:pub )?mod {re.escape('.'.join(rest))}\n", "", read(lib)))


def main():
    crates = list(dict.fromkeys(re.findall(r"^(\w+)[^\n:]*:", read("crates.txt"), re.M)))
    lost = Tree(crates).lost()
    for crate in crates:
        here = [(file, name) for file, name in lost if file.crate == crate]
        print(f"failed {crate}: definitions that nothing needs" if here else f"ok {crate}: something needs each definition and lemma")
        print("".join(f"  {os.path.relpath(file.path, ROOT)}: {name}\n" for file, name in here), end="")
    if "--write" in sys.argv:
        for file in {file.path: file for file, _ in lost}.values():
            take_out(file, {name for it, name in lost if it is file})
    sys.exit(1 if lost else 0)


main()
