#!/usr/bin/env python3
"""Does what the pages for users show still work? (Their words and sentences are words.py's, their links and counts pages.py's.)

    python3 scripts/gate/user_pages.py     a line 'ok ..' or 'failed ..' for each of these, and 'skipped ..' for a compiler that is not there

- Each program that a page shows, or of which it shows a part (`<!-- from FILE -->`), compiles: C and C++ against include/h3.h, Rust against
  bindings/rust, each with warnings as errors; Go is parsed, and its names of the package stand in bindings/go; so are those of Python.
- Each block of commands is one that bash reads, and each `make TARGET` of a page is a target of the Makefile.
- Each name of h3.h that a page has is there, and README has the figures of docs/PERFORMANCE.md.
- The tasks of a new user (TASKS) are found from README in two clicks: it links to the guide, whose first table has a link for each."""
import ast
import glob
import os
import re
import shutil
import subprocess
import sys
import tempfile

from texts import ROOT, read, say

PAGES = ["README.md", "CONTRIBUTING.md", "SECURITY.md", "CHANGELOG.md", "docs/INSTALL.md", "docs/QUICKSTART.md", "docs/GUIDE.md", "docs/C_API.md", "docs/DATAGRAMS.md",
         "docs/WEBTRANSPORT.md", "docs/EXTENSIONS.md", "docs/RFC.md", "docs/DIFFERENCES.md", "docs/PERFORMANCE.md", "bindings/go/README.md", "bindings/rust/README.md", "bindings/python/README.md",
         "examples/c/README.md", "examples/go/README.md", "examples/rust/README.md", "examples/PEERS.md", "compat/nghttp3/README.md",
         "bench/COSTS.md", "bench/LOAD.md"]
TASKS = ["install", "first request", "first response", "read fields", "body with back-pressure", "trailers", "reset, cancel", "WebSocket", "priorities",
         "shut down", "out of memory", "tune limits"]
NEEDS_MORE = re.compile(r"^#include \"(?!h3\.h)|<(?:ngtcp2|gnutls)", re.M)  # these compile by `make examples`
BLOCK = re.compile(r"(?:<!-- (from|start) (\S+) -->\n\n?)?^```(\w*)\n(.*?)^```$", re.M | re.S)
INDENTED = re.compile(r"(?:\A|(?<=\n\n))((?:    \S[^\n]*\n(?:\n(?=    \S))?)+)", re.M)
NO_COMMANDS = re.compile(r"\s*(?:\[|\(|require |replace |[\w-]+ = )")


def run(*words, **more):
    made = subprocess.run(words, cwd=ROOT, stdout=subprocess.PIPE, stderr=subprocess.STDOUT, text=True, check=False, **more)
    lines = [it for it in made.stdout.split("\n") if it.strip()]
    return made.returncode == 0, next((it for it in lines if "error" in it), lines[0] if lines else "")


def programs():
    """what the pages show: for each language the files, and blocks that are from no file, each with the page that shows it"""
    files, loose = {}, []
    for page in PAGES:
        for it in BLOCK.finditer(read(page)):
            mark, path, language, code = it.groups()
            if language not in ("c", "cpp", "rust", "go", "python"):
                continue
            if mark == "from":
                files.setdefault((language, path), page)
            else:
                loose.append((language, page, code))
    return files, loose


def compile_c(path, folder, language="c"):
    if NEEDS_MORE.search(read(path)):
        return None
    compiler, standard = (os.environ.get("CC", "cc"), "c11") if language == "c" else (os.environ.get("CXX", "c++"), "c++17")
    if not shutil.which(compiler):
        return None
    return run(compiler, f"-std={standard}", "-fsyntax-only", "-Wall", "-Wextra", "-Werror", "-Iinclude", f"-I{folder}", path)


def compile_rust(path, folder):
    if not shutil.which("rustc"):
        return None
    library = os.path.join(folder, "libbeanwhile_h3.rmeta")
    if not os.path.exists(library):
        flags = ["--edition", "2021", "--crate-type", "lib", "--crate-name", "beanwhile_h3", "--emit", "metadata"]
        good, why = run("rustc", *flags, "-o", library, "bindings/rust/src/lib.rs")
        if not good:
            return good, why
    flags = ["--edition", "2021", "--emit", "metadata", "-D", "warnings", "--extern", f"beanwhile_h3={library}"]
    return run("rustc", *flags, "-o", os.path.join(folder, "program.rmeta"), path)


def check_go(path, _):
    words = set(re.findall(r"\w+", "".join(read(it) for it in glob.glob("bindings/go/*.go", root_dir=ROOT))))
    missing = sorted(set(re.findall(r"\bh3\.([A-Z]\w*)", read(path))) - words)
    if missing:
        return False, f"bindings/go has no {', '.join(missing)}"
    return run("gofmt", "-e", "-l", path) if shutil.which("gofmt") else None


def check_python(code):
    words = set(re.findall(r"\w+", "".join(read(it) for it in glob.glob("bindings/python/beanwhile_h3/*.py", root_dir=ROOT))))
    try:
        tree = ast.parse(code)
    except SyntaxError as error:
        return False, str(error)
    names = [name.name for it in ast.walk(tree) if isinstance(it, ast.ImportFrom) and (it.module or "").startswith("beanwhile_h3") for name in it.names]
    missing = [it for it in names if it not in words]
    return not missing, f"bindings/python has no {', '.join(missing)}"


def compiles(folder):
    files, loose = programs()
    good, skipped, wrong = 0, [], []
    checks = {"c": compile_c, "cpp": lambda path, at: compile_c(path, at, "cpp"), "rust": compile_rust, "go": check_go,
              "python": lambda path, _: check_python(read(path))}
    for (language, path), page in files.items():
        came = checks[language](path, folder)
        if came is None:
            skipped.append(path)
        elif not came[0]:
            wrong.append(f"{page}: {path} does not compile: {came[1]}")
        good += bool(came and came[0])
    for language, page, code in loose:
        came = check_python(code) if language == "python" else (False, f"a block of {language} is from no file")
        good += came[0]
        wrong += [] if came[0] else [f"{page}: {came[1]}"]
    return good, skipped, wrong


def commands():
    """blocks of commands: how many bash reads, and what is wrong with the others"""
    targets = set(re.findall(r"^([\w-]+):", read("Makefile"), re.M))
    count, wrong = 0, []
    for page in PAGES:
        text = read(page)
        blocks = [it[4] for it in BLOCK.finditer(text) if it[1] == "start" or it[3] in ("sh", "bash")]
        blocks += [it for it in INDENTED.findall(BLOCK.sub("", text)) if not NO_COMMANDS.match(it)]
        for block in blocks:
            good, why = run("bash", "-n", input=re.sub(r"^    ", "", block, flags=re.M))
            count += good
            wrong += [] if good else [f"{page}: bash does not read a block of commands: {why}"]
        for target in re.findall(r"(?:^ +|`|&& |; )make ([a-z][\w-]*)", text, re.M):
            if target not in targets:
                wrong.append(f"{page}: there is no make {target}")
    return count, wrong


def names():
    """names of the header that a page has and the header has not"""
    known = {"H3_DATAGRAM_ERROR"} | set(re.findall(r"\w+", read("include/h3.h"))) | set(re.findall(r"^\w+", read("crates.txt"), re.M))
    known |= {os.path.splitext(it)[0] for _, _, files in os.walk(os.path.join(ROOT, "bindings")) for it in files}
    known |= set(re.findall(r"\w+", read("scripts/interop/interop_bindings.sh"))) | set(re.findall(r"\w+", read("examples/rust/Makefile")))
    count, wrong = 0, []
    for page in PAGES:
        for name in sorted(set(re.findall(r"(?<![\w/.-])[hH]3_[A-Za-z]\w*(?![\w-]*/)", re.sub(r"\]\([^)]*\)", "", read(page))))):
            count += name in known
            wrong += [] if name in known or name.endswith("_") else [f"{page}: h3.h has no {name}"]
    return count, wrong


def tasks():
    rows = re.findall(r"\| ([^|]+) \| (\[[^|]+\)) (?=\|)", read("docs/GUIDE.md").partition("\n## ")[0])
    linked = {name.strip() for name, _ in rows}
    wrong = [f"docs/GUIDE.md: its first table has no link for '{it}'" for it in TASKS if it not in linked]
    return wrong + ([] if "](docs/GUIDE.md)" in read("README.md") else ["README.md has no link to docs/GUIDE.md"])


def speed():
    """what README says of the speed of exchanges, beside the rows of docs/PERFORMANCE.md"""
    ratios = [float(it) for it in re.findall(r"^\| request and response, (?:small|7,000 bytes each), in C \|(?:[^|]*\|){3} ([\d.]+)", read("docs/PERFORMANCE.md"), re.M)]
    least, most = (round(100 * (1 - 1 / it)) for it in (min(ratios), max(ratios)))
    words = f"take {least} to {most} % less processor time than with nghttp3"
    return [] if words in " ".join(read("README.md").split()) else [f"README.md: by docs/PERFORMANCE.md requests '{words}'"]


def main():
    with tempfile.TemporaryDirectory() as folder:
        os.symlink(os.path.join(ROOT, "include"), os.path.join(folder, "beanwhile"))
        good, skipped, wrong = compiles(folder)
    fine = say(wrong, f"user pages: {good} programs that they show compile")
    for path in skipped:
        print(f"skipped {path}: its compiler or a library of it is not here")
    count, wrong = commands()
    fine &= say(wrong, f"user pages: {count} blocks of commands are read by bash, and each make target is there")
    count, wrong = names()
    fine &= say(wrong, f"user pages: {count} names of h3.h are there")
    fine &= say(speed(), "README: its figures of speed are those of docs/PERFORMANCE.md")
    fine &= say(tasks(), f"user pages: {len(TASKS)} tasks are found from README in two clicks")
    sys.exit(0 if fine else 1)


if __name__ == "__main__":
    main()
