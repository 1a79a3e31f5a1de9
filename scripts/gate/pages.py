#!/usr/bin/env python3
"""Are the pages of this repository as a reader needs them?

    python3 scripts/gate/pages.py           compares: one line 'ok ..' or 'failed ..' for each of these
    python3 scripts/gate/pages.py --write   writes the counts of edits anew

- No link of a page is dead: neither its file nor its heading.
- No line of a page is longer than 140 characters (in rows of tables the targets of links are not counted, and the tables of WIDE_TABLES may be
  wider), and no page has more than 300 lines, README at most 80, QUICKSTART 330. The pages of WHOLE are left aside, code that is quoted from a file, and the
  contracts that a CALLING.md quotes.
- A block of code behind a line `<!-- from PATH -->` stands in that file, line by line; in the pages SNIPPETS every block of C, Rust, Go and Mermaid has such a line.
- Each page of docs has a paragraph below its title, and ends with a line 'Next: ..'.
- Each record of docs/decisions begins with its decision in bold, and has at most LONGEST_RECORD lines.
- docs/C_API.md has each call of include/h3.h, and names none that is not there.
- scripts/README.md has each file of scripts/.
- README, docs/PROVED.md and docs/GATE.md say how many edits there are, and what refuses them, as scripts/gate/edits.py counts them."""
import os
import re
import sys

import edits
from texts import ROOT, read, say, write

WHOLE = ["docs/RFC.md", "bench/RESULTS.md", "bench/COSTS.md"]  # one table each, or nearly
WIDE_TABLES = ["docs/ARCHITECTURE.md", "docs/DIFFERENCES.md", "crates/h3_cases/README.md", "crates/h3_examples/README.md", "crates/h3_script/README.md",
               "crates/h3_session/README.md", "docs/model/connection.md", "SECURITY.md", "docs/C_API.md", "docs/GATE.md"]
LONGEST = 140
MOST_LINES = {"README.md": 80, "docs/QUICKSTART.md": 330}  # a quick start has a whole file in each of four languages
MOST_OF_OTHERS = 300
SNIPPETS = ["README.md", "docs/QUICKSTART.md", "docs/GUIDE.md", "docs/C_API.md", "crates/h3_session/README.md"]
COUNTING = ["README.md", "docs/PROVED.md", "docs/GATE.md"]
LANGUAGES = {"c", "rust", "go", "mermaid"}
INDEX = "scripts/README.md"
LONGEST_RECORD = 25
LINK = re.compile(r"\[((?:[^\[\]]|\[[^\]]*\])*)\]\(([^()\s]+)\)")
FENCE = re.compile(r"^( *)```(\w*)\n(.*?)^\1```$", re.M | re.S)
QUOTED = re.compile(r"^<!-- from \S+ -->\n\n?```\w*\n.*?^```$", re.M | re.S)
LEFT_OUT = {".git", "out", "build", "__pycache__"}


def files(folder):
    """the files below a folder that are no output, by their paths from the top"""
    for at, folders, names in os.walk(os.path.join(ROOT, folder)):
        folders[:] = sorted(set(folders) - LEFT_OUT)
        yield from (os.path.relpath(os.path.join(at, name), ROOT) for name in sorted(names))


def without_code(text):
    """a page without its blocks and words of code, in which nothing is a link"""
    return re.sub(r"``[^`]+``|`[^`\n]+`", "", FENCE.sub("", text))


def anchors(text):
    """the names of a page's headings, as they are linked"""
    found = set()
    for heading in re.findall(r"^#+ +(.*?) *$", FENCE.sub("", text), re.M):
        words = LINK.sub(r"\1", heading).lower()
        found.add(re.sub(r"[^\w\- ]", "", words).replace(" ", "-"))
    return found


def dead_links(page, text):
    for _, target in LINK.findall(re.sub(r"`([^`\n]+)`(?=[^\[\]]*\]\()", r"\1", FENCE.sub("", text))):
        if re.match(r"[a-z]+:", target):
            continue
        path, _, anchor = target.partition("#")
        to = os.path.normpath(os.path.join(os.path.dirname(page), path)) if path else page
        if not os.path.exists(os.path.join(ROOT, to)):
            yield f"{page}: {target}"
        elif anchor and (not to.endswith(".md") or anchor not in anchors(read(to))):
            yield f"{page}: {target} (no such heading)"


def count_of_links(text):
    return len(LINK.findall(FENCE.sub("", text)))


def long_lines(page):
    # what stands so in a source is as long as it is there
    quoted = FENCE if page.endswith("/CALLING.md") else QUOTED
    text = quoted.sub(lambda it: re.sub(r"[^\n]+", "", it[0]), read(page))
    for number, line in enumerate(text.split("\n"), 1):
        shown = LINK.sub(r"[\1]", line) if line.startswith("|") else line
        if len(shown) > LONGEST and not (line.startswith("|") and page in WIDE_TABLES):
            yield f"{page}:{number} has {len(shown)} characters"


def too_many_lines(page):
    text = read(page)
    if page.endswith("/CALLING.md"):
        text = text.partition("\n## Contracts\n")[0]
    most = MOST_LINES.get(page, MOST_OF_OTHERS)
    if text.count("\n") > most:
        yield f"{page} has {text.count(chr(10))} lines, more than {most}"


def stands_in(block, lines):
    """Do the lines of the block stand in the file, one behind the other, perhaps further to the right?"""
    for start in range(len(lines) - len(block) + 1):
        if not lines[start].endswith(block[0]):
            continue
        indent = lines[start][: len(lines[start]) - len(block[0])]
        if not indent.strip() and all(indent + want == have or (not want and not have) for want, have in zip(block, lines[start:])):
            return True
    return False


def snippets(page):
    """how many blocks were found in their files, and what is wrong with the others"""
    text, found, wrong = read(page), 0, []
    for block in FENCE.finditer(text):
        named = re.search(r"<!-- from (\S+) -->\n\n?$", text[: block.start()])
        line = text[: block.start()].count("\n") + 1
        if named is None:
            if page in SNIPPETS and block[2] in LANGUAGES:
                wrong.append(f"{page}:{line} is from no file")
        elif not os.path.exists(os.path.join(ROOT, named[1])):
            wrong.append(f"{page}:{line}: there is no {named[1]}")
        elif not stands_in(block[3].rstrip("\n").split("\n"), read(named[1]).split("\n")):
            wrong.append(f"{page}:{line} does not stand in {named[1]}")
        else:
            found += 1
    return found, wrong


def not_in_index():
    linked = {os.path.normpath(os.path.join("scripts", target)) for _, target in LINK.findall(read(INDEX))}
    for path in files("scripts"):
        if path != INDEX and not any(path == it or path.startswith(f"{it}/") for it in linked):
            yield path


def form_of(summary):
    """the summary of edits with any numbers, and wrapped in any way"""
    return re.compile(re.sub(r"\d+", r"\\d+", re.escape(summary)).replace("\\ ", r"\s+"))


def with_counts(found):
    """the same text, broken into the same lines, with the numbers of the summary"""
    numbers = iter(re.findall(r"\d+", edits.summary()))
    return re.sub(r"\d+", lambda _: next(numbers), found[0])


def miscounted():
    """which of the pages of COUNTING say another number of edits than there are"""
    for page in COUNTING:
        found = form_of(edits.summary()).search(read(page))
        if found is None or found[0].split() != edits.summary().split():
            yield f"{page}: {edits.summary()}, and it says '{found and found[0]}' (python3 scripts/gate/pages.py --write)"


def without_frame():
    """pages of docs that have no purpose below their title, or no link to the next at their end"""
    for page in sorted(it for it in files("docs") if it.endswith(".md")):
        parts = read(page).strip().split("\n\n")
        if not re.match(r"# [^\n]+$", parts[0]) or not re.match(r"\w", parts[1]):
            yield f"{page} has no sentence below its title that says what it is for"
        if not re.match(r"Next: \[", parts[-1]):
            yield f"{page} has no line 'Next: [..](..).' at its end"


def bad_records():
    """records of docs/decisions that do not begin with a sentence in bold, or are longer than LONGEST_RECORD"""
    for page in sorted(it for it in files("docs/decisions") if it.endswith(".md")):
        for record in re.findall(r"^- .*(?:\n +\S.*)*", read(page), re.M):
            if not record.startswith("- **"):
                yield f"{page}: {record[:60]}.. does not begin with its decision in bold"
            if record.count("\n") >= LONGEST_RECORD:
                yield f"{page}: {record[:60]}.. has more than {LONGEST_RECORD} lines"


def api():
    """where docs/C_API.md lacks a call of the header, or names what is not there"""
    header, page = read("include/h3.h"), read("docs/C_API.md")
    calls = set(re.findall(r"^static inline [\w ]+?\*?(h3_(?!raw_)\w*[a-z])\(", header, re.M))
    named = set(re.findall(r"\b[hH]3_\w+", re.sub(r"\]\([^)]*\)", "", page)))
    yield from (f"it has no {it}" for it in sorted(calls - named))
    yield from (f"h3.h has no {it}" for it in sorted(named - set(re.findall(r"\w+", header))))


def main():
    pages = [it for it in files(".") if it.endswith(".md")]
    if sys.argv[1:] == ["--write"]:
        for page in COUNTING:
            write(page, form_of(edits.summary()).sub(with_counts, read(page)))
        return
    links = sum(count_of_links(read(it)) for it in pages)
    fine = say([it for page in pages for it in dead_links(page, read(page))], f"pages: {links} links of {len(pages)} pages lead somewhere", "pages, a dead link")
    judged = [page for page in pages if page not in WHOLE]
    too_long = [it for page in judged for it in [*long_lines(page), *too_many_lines(page)]]
    fine &= say(too_long, f"pages: {len(judged)} have no line above {LONGEST} characters, and none too many lines", "pages, too long")
    found = [snippets(page) for page in pages]
    wrong = [it for _, them in found for it in them]
    fine &= say(wrong, f"pages: {sum(count for count, _ in found)} snippets stand in their files", "pages, a snippet")
    fine &= say(list(miscounted()), f"{', '.join(COUNTING)} count the edits", "pages, a count of edits")
    fine &= say(list(without_frame()), "docs: each page says what it is for, and which page comes next", "docs")
    fine &= say(list(bad_records()), f"docs/decisions: each record begins with its decision, and has at most {LONGEST_RECORD} lines", "docs/decisions")
    fine &= say(list(api()), "docs/C_API.md has each call of include/h3.h", "docs/C_API.md")
    fine &= say(list(not_in_index()), f"{INDEX} has each file of scripts", INDEX)
    sys.exit(0 if fine else 1)


main()
