#!/usr/bin/env python3
"""The contracts that the pages crates/NAME/CALLING.md quote, taken from the sources.

    python3 scripts/gate/calling.py           compares: one line 'ok ..' or 'failed ..' a page
    python3 scripts/gate/calling.py --write   writes the quoted contracts anew; what stands above them stays

A page is written by hand up to its heading '## Contracts'; code that it quotes below a line 'From `PATH`:' has to stand in that file so. Below the heading stand the public functions of the crate's public modules, each with its
`requires` and `ensures`, in the order of the sources. A clause is joined to one line, and wrapped where that is too long. What is private, `pub(crate)` or
a law is left out.
"""
import os
import re
import sys
import textwrap

TOP = os.path.dirname(os.path.dirname(os.path.dirname(os.path.abspath(__file__))))
HEADING = "## Contracts"
LONGEST = 140
INTRODUCTION = """
These are quoted from `src/` by `scripts/gate/calling.py`. In a clause `x.old` and `x.new` are what a borrowed value is at the call and at
the return, and `x.now` what a shared one is; `IfOk result P` says P of the value where the result is `Ok`, `OnOk result F` says F where
it is. The words stand in `specs/`: the `ghost use` lines of each source say where.
"""
# Files of a crate that hold no public call, and its laws and examples.
NO_CALLS = {"laws", "examples"}
FUNCTION = re.compile(r"^( *)(?:pub |final )*(?:const )?(?:unsafe )?fn ")
CLAUSE = re.compile(r"^(requires|ensures\*?)\b")


def public_files(crate):
    """the files of the modules that lib.rt makes public, or takes public items from, and of those below them"""
    src = f"{TOP}/crates/{crate}/src"
    found = []

    def follow(file, folder, name):
        found.append((file, name))
        text = open(file, encoding="utf8").read()
        public = re.findall(r"^pub mod (\w+);", text, re.M)
        lent = re.findall(r"^pub use (?:self::|crate::)?(\w+)::", text, re.M)
        private = re.findall(r"^(?:pub\(\w+\) )?mod (\w+);", text, re.M)
        # the files of one type's calls are private modules below that type's module
        parts = private if name else [it for it in private if it in lent]
        for module in public + parts:
            if module in NO_CALLS:
                continue
            path = f"{folder}/{module}.rt"
            if os.path.isfile(path):
                follow(path, f"{folder}/{module}", module)

    follow(f"{src}/lib.rt", src, "")
    return [file for file, name in found if name]


def joined(lines):
    """the lines of a signature or a clause as one"""
    text = " ".join(it.strip() for it in lines)
    text = re.sub(r"\(\s+", "(", text)
    return re.sub(r",?\s+\)", ")", text)


def contracts_of(file):
    """the public functions of a file: the type or trait that each belongs to, its signature, its clauses"""
    lines = open(file, encoding="utf8").read().split("\n")
    owner, is_trait, at = "", False, 0
    while at < len(lines):
        line = lines[at]
        block = re.match(r"^(pub )?(unsafe )?(trait|impl)\b(.*?)\{?$", line)
        if block:
            is_trait = block[3] == "trait" and bool(block[1])
            named = re.sub(r"^<.*?>\s+", "", block[4].strip()) if block[3] == "impl" else block[4].strip()
            # an implementation of a trait has the contracts of the trait
            owner = None if re.search(r"\bfor\b", named) else re.match(r"\w+", named)[0]
        elif line == "}":
            owner, is_trait = "", False
        begins = FUNCTION.match(line)
        is_public = begins and (line.strip().startswith("pub fn ") or line.strip().startswith("pub const fn ") or is_trait)
        if not is_public or owner is None:
            at += 1
            continue
        parts = [[]]
        while at < len(lines):
            text = lines[at].strip()
            if text == "{":
                break
            if text.startswith("//"):
                at += 1
                continue
            if CLAUSE.match(text):
                parts.append([])
            ended = text.endswith(("{", ";")) and len(parts) == 1 and not CLAUSE.match(text) or len(parts) > 1 and text.endswith("};")
            parts[-1].append(re.sub(r"\s*[{;]$", "", text) if ended else text)
            at += 1
            if ended:
                break
        signature = re.sub(r"^(pub |final |const )+", "", joined(parts[0]))
        if owner:
            signature = signature.replace("fn ", f"fn {owner}::", 1)
        yield signature, [re.sub(r"\};$", "}", joined(it)) for it in parts[1:]]
        at += 1


def wrapped(line, indent):
    return textwrap.wrap(line, LONGEST, subsequent_indent=indent, break_long_words=False, break_on_hyphens=False)


def quoted(crate):
    written = []
    for file in public_files(crate):
        lines = []
        for signature, clauses in contracts_of(file):
            lines += wrapped(signature, "    ")
            lines += [line for it in clauses for line in wrapped(f"  {it}", "      ")]
        if lines:
            path = os.path.relpath(file, f"{TOP}/crates/{crate}/src")
            written += [f"`{path}`:", "", "```text", *lines, "```", ""]
    return "\n".join(written).rstrip("\n") + "\n"


def strange_quotes(by_hand):
    """the files named by a page in which what it quotes does not stand"""
    for path, code in re.findall(r"^From `([\w./]+)`:\n\n```rust\n(.*?)^```", by_hand, re.M | re.S):
        strip = lambda text: "\n".join(it.strip() for it in text.strip().split("\n"))
        file = f"{TOP}/{path}"
        if not os.path.isfile(file) or strip(code) not in strip(open(file, encoding="utf8").read()):
            yield path


def main():
    is_writing = sys.argv[1:] == ["--write"]
    crates = sorted(it for it in os.listdir(f"{TOP}/crates") if os.path.isfile(f"{TOP}/crates/{it}/CALLING.md"))
    failed = not crates
    for crate in crates:
        page = f"{TOP}/crates/{crate}/CALLING.md"
        text = open(page, encoding="utf8").read()
        by_hand = text.partition(HEADING)[0]
        strange = [*strange_quotes(by_hand)]
        wanted = f"{by_hand}{HEADING}\n{INTRODUCTION}\n{quoted(crate)}"
        if strange:
            print(f"failed crates/{crate}/CALLING.md: what it quotes does not stand so in {' '.join(strange)}")
            failed = True
        if is_writing:
            with open(page, "w", encoding="utf8") as it:
                it.write(wanted)
        elif text == wanted and not strange:
            print(f"ok crates/{crate}/CALLING.md: each contract stands as it is quoted")
        elif text != wanted:
            print(f"failed crates/{crate}/CALLING.md: quotes contracts that do not stand so (python3 scripts/gate/calling.py --write)")
            failed = True
    return failed


if __name__ == "__main__":
    sys.exit(main())
