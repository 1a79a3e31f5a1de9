#!/usr/bin/env python3
"""Do the pages use the standards' words, in short sentences? The list of terms is the table of CONTRIBUTING.md below "Words": what to say, and what not.

    python3 scripts/gate/words.py     for each file of COVERED 'ok FILE', or 'failed FILE:LINE ..' for each word that it may not have, and for each
                                      sentence of more than LONGEST_SENTENCE words (of pages, not of the header)
    python3 scripts/gate/words.py FILE..  the same words, in the comments and texts of sources of C, C++, Go, Python and Rust

Of a page its text is read, of include/h3.h its comments: code, names between backticks and the targets of links are left out. A phrase is
found across the end of a line too. Its first letter may be a capital one: `head` finds Head and not HEAD. The column "Fine" has phrases in
which the word may stand. No comment of include/h3.h makes a line longer than LONGEST_COMMENT.

COVERED are the pages for users (user_pages.py), the header, and the pages for provers (PROVERS, PROVER_FOLDERS). Not in it:
crates/*/README.md, which quote statements and names of definitions. Of SOURCES the comments alone are read, with one line 'ok FOLDER' for each
folder. LATER has the names whose comments in include/h3.h are not mended yet."""
import os
import re
import sys

import user_pages
from texts import ROOT, read

LIST = "CONTRIBUTING.md"
HEADER = "include/h3.h"
COVERED = [*user_pages.PAGES, HEADER]
LATER = {"h3_malformation"}
LONGEST_COMMENT = 100
LONGEST_SENTENCE = 30
FENCE = re.compile(r"^( *)```\w*\n.*?^\1```$", re.M | re.S)
LEFT_OUT = [FENCE, re.compile(r"<!--.*?-->", re.S), re.compile(r"``[^`]+``|`[^`]*`"), re.compile(r"\]\([^()\s]+\)")]
# the pages of docs for provers, and folders of such pages
PROVERS = ["ARCHITECTURE.md", "DECISIONS.md", "GATE.md", "HEADLINE.md", "MESSAGES.md", "MODEL.md", "NOT_PROVED.md", "PROOFS.md", "PROVED.md", "STATES.md"]
PROVER_FOLDERS = ["decisions", "headline", "model", "proofs"]
COVERED += [f"docs/{page}" for page in PROVERS]
COVERED += [f"docs/{it}/{page}" for it in PROVER_FOLDERS for page in sorted(os.listdir(f"{ROOT}/docs/{it}")) if page.endswith(".md")]
# folders whose comments are read, in files of these kinds
SOURCES = [f"crates/{it}/src" for it in sorted(os.listdir(f"{ROOT}/crates"))] + ["bindings/go", "bindings/rust/src"]
KINDS = (".rt", ".go", ".rs")


def blank(text):
    """as many lines, with nothing on them"""
    return re.sub(r"[^\n]", " ", text)


def terms(page):
    """the rows of the list: what to say, a pattern for what not, and one for the phrases that are fine"""
    table = re.search(r"^\| Say \| Not \| Fine \|\n\|[-|]+\|\n((?:\|.*\n)+)", page, re.M)
    if table is None:
        sys.exit(f"failed {LIST}: it has no table '| Say | Not | Fine |'")
    rows = [[cell.strip() for cell in row.strip("|").split("|")] for row in table[1].strip().split("\n")]
    return [(say, pattern(wrong), pattern(fine) if fine else None) for say, wrong, fine in rows]


def pattern(phrases):
    """finds each of the phrases, as whole words, with any space or end of line between them"""
    found = []
    for phrase in phrases.split(", "):
        first, rest = re.escape(phrase[0]), re.escape(phrase[1:]).replace("\\ ", r"\s+")
        found.append((f"[{phrase[0]}{phrase[0].upper()}]" if phrase[0].isalpha() else first) + rest)
    return re.compile(rf"(?<![\w-])(?:{'|'.join(found)})(?![\w-])")


def page_text(page):
    text = read(page)
    if page == LIST:  # it names the words
        text = re.sub(r"^\| Say \| Not \| Fine \|\n(?:\|.*\n)+", lambda it: blank(it[0]), text, flags=re.M)
    for form in LEFT_OUT:
        text = form.sub(lambda it: blank(it[0]), text)
    return text


def comments(header):
    """the comments of the header, each with the name that it stands at: in front of it on its line, else the next that is declared"""
    for it in re.finditer(r"/\*.*?\*/|//[^\n]*", header, re.S):
        line = header[header.rfind("\n", 0, it.start()) + 1 : it.start()]
        before = re.findall(r"\w+(?= = \d+,?\s*$|;\s*$)", line) or re.findall(r"enum (\w+)", line)
        after = re.match(r"(?:static inline [\w ]+?\*?(?=\w+\()|enum |typedef struct \{.*?\} )(\w+)", header[it.end() :].lstrip(), re.S)
        yield it, before[-1] if before else after[1] if after else ""


def is_later(it, name, header):
    """Is the comment, or the list of constants that it stands in, to be mended yet?"""
    within = re.findall(r"^enum (\w+) \{[^}]*\Z", header[: it.start()], re.M)
    return name in LATER or bool(within) and within[-1] in LATER


def header_text(header):
    text = list(blank(header))
    for it, name in comments(header):
        if not is_later(it, name, header):
            text[it.start() : it.end()] = re.sub(r"(?m)^ *\*", lambda star: " " * len(star[0]), it[0])
    return re.sub(r"/\*|\*/|//", "  ", "".join(text))


def source_text(source, is_python):
    """the comments and texts of a source"""
    form = r'""".*?"""|#[^\n]*|"[^"\n]*"' if is_python else r'//[^\n]*|/\*.*?\*/|"[^"\n]*"'
    text = list(blank(source))
    for it in re.finditer(form, source, re.S):
        text[it.start() : it.end()] = it[0]
    return re.sub(r"`[^`]*`", lambda it: blank(it[0]), "".join(text))


def comment_text(source):
    """the comments of a source that have a line of their own, without the code in them"""
    text = "\n".join(it.strip().lstrip("/!") if it.lstrip().startswith("//") else "" for it in source.split("\n"))
    for form in LEFT_OUT:
        text = form.sub(lambda it: blank(it[0]), text)
    return text


def sources_below(folder):
    for at, _, files in sorted(os.walk(f"{ROOT}/{folder}")):
        yield from (os.path.relpath(f"{at}/{it}", ROOT) for it in sorted(files) if it.endswith(KINDS))


def wrong_words(text, terms):
    for say, wrong, fine in terms:
        for it in wrong.finditer(fine.sub(lambda it: blank(it[0]), text) if fine else text):
            yield text.count("\n", 0, it.start()) + 1, f"'{' '.join(it[0].split())}' (say: {say})"


def long_comments(header):
    """lines of the header that are longer than LONGEST_COMMENT because of a comment"""
    for it, name in comments(header):
        if is_later(it, name, header):
            continue
        first, end = header.count("\n", 0, it.start()), header.count("\n", 0, it.end())
        for number in range(first, end + 1):
            length = len(header.split("\n")[number])
            if length > LONGEST_COMMENT:
                yield number + 1, f"a comment on a line of {length} characters, more than {LONGEST_COMMENT}"


def blocks(text):
    """paragraphs, items of lists and cells of tables, each with its first line; headings and code are left out"""
    text = re.sub(r"<!--.*?-->|^    [^\n]*$", lambda it: blank(it[0]), FENCE.sub(lambda it: blank(it[0]), text), flags=re.S | re.M)
    for it in re.finditer(r"(?ms)^ *(?:(?:[-*]|\d+\.) )?\S.*?(?=\n *\n|\n *(?:[-*]|\d+\.) |\n[|#]|\Z)", text):
        line = text.count("\n", 0, it.start()) + 1
        if it[0].startswith("|"):
            yield from ((line, cell) for cell in it[0].strip("|").split("|"))
        elif not it[0].startswith("#"):
            yield line, re.sub(r"^ *(?:[-*]|\d+\.) ", "", it[0])


def long_sentences(text):
    """sentences of more than LONGEST_SENTENCE words; one ends at a stop, and at a colon or semicolon in front of a capital letter or a quotation"""
    for line, block in blocks(text):
        plain = re.sub(r"\]\([^()\s]+\)", "]", block)
        for sentence in re.split(r"(?<=[.?!])[)\"]?\*{0,2}\s+|(?<=[:;])\s+(?=[A-Z0-9`*\[\"(])", plain):
            count = len(re.findall(r"\S*\w\S*", sentence))
            if count > LONGEST_SENTENCE:
                yield line, f"a sentence of {count} words, more than {LONGEST_SENTENCE}: {' '.join(sentence.split()[:8])} .."


def main():
    table, bad = terms(read(LIST)), 0
    for file in sys.argv[1:] or COVERED:
        header = read(file) if file == HEADER else ""
        if file not in COVERED:
            text, long = source_text(read(file), file.endswith(".py")), []
        elif header:
            text, long = header_text(header), long_comments(header)
        else:
            text, long = page_text(file), long_sentences(read(file))
        wrong = sorted([*wrong_words(text, table), *long])
        for line, why in wrong:
            print(f"failed {file}:{line}: {why}")
        if not wrong:
            print(f"ok {file}: {len(text.split())} words, and none that {LIST} replaces")
        bad |= bool(wrong)
    for folder in [] if sys.argv[1:] else SOURCES:
        files = [*sources_below(folder)]
        wrong = [(file, line, why) for file in files for line, why in wrong_words(comment_text(read(file)), table)]
        for file, line, why in wrong:
            print(f"failed {file}:{line}: {why}")
        if not wrong:
            print(f"ok {folder}: comments of {len(files)} files")
        bad |= bool(wrong)
    return bad


sys.exit(main())
