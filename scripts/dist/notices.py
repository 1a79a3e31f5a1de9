"""What the library has of the kit beside the crates of this repository, and the licences that the kit gives for these parts: the text of the
file THIRD-PARTY in each artefact."""
import collections
import glob
import itertools
import os
import re
import subprocess
import sys

CRATE = "h3_c"  # what the archive is made of
SHIM = "the C shims of malloc and free (libbeanwhile_h3_shim.a)"


def kit_folder():
    said = subprocess.run(["rt", "doc"], check=True, capture_output=True, text=True).stdout.strip()
    return os.path.dirname(said)


def read(path):
    with open(path, encoding="utf-8") as file:
        return file.read()


def own_crates(root):
    """the crates of this repository, with those that each uses"""
    lines = (it.split("#", 1)[0] for it in read(f"{root}/crates.txt").splitlines())
    return {it.split(":")[0].split()[0]: it.split(":")[1].split() for it in lines if ":" in it}


def parts(root, kit):
    """the kit's libraries that the archive is compiled from: those that its crates use, and those below them"""
    own, todo, found = own_crates(root), [CRATE, "std", "core"], set()
    while todo:
        name = todo.pop()
        if name in found:
            continue
        found.add(name)
        below = f"{kit}/rlibs/{name}.rlib/below"
        todo += own[name] if name in own else os.listdir(below) if os.path.isdir(below) else []
    names = sorted(found - set(own))
    missing = [it for it in names if not os.path.isdir(f"{kit}/rattle/{it}")]
    if missing:
        sys.exit(f"make dist: {kit}/rattle has no {', '.join(missing)}")
    return names


FILES_OF_LICENCES = ("LICEN", "COPYING", "COPYRIGHT", "NOTICE", "AUTHORS", "UNLICENSE")
WORDS_OF_LICENCES = re.compile(r"licen[cs]e|copyright|spdx", re.I)


def texts_below(folder):
    """the text files of a folder, by their paths in it, with what is not text left out"""
    for path in sorted(glob.glob("**/*", root_dir=folder, recursive=True)):
        try:
            yield path, read(f"{folder}/{path}")
        except (IsADirectoryError, UnicodeDecodeError):
            continue


def is_of_licences(path):
    return os.path.basename(path).upper().startswith(FILES_OF_LICENCES) and not path.endswith((".rt", ".antt"))


def licences(kit, name):
    return [(path, text) for path, text in texts_below(f"{kit}/rattle/{name}") if is_of_licences(path)]


def heads(kit, name):
    """the comments at the heads of a part's files that speak of a licence. A word of one elsewhere is refused: it would not be passed on"""
    found = []
    for path, text in texts_below(f"{kit}/rattle/{name}"):
        if not WORDS_OF_LICENCES.search(text):
            continue
        lines = list(itertools.takewhile(lambda it: it.startswith("//"), text.splitlines()))
        if not WORDS_OF_LICENCES.search("\n".join(lines)):
            sys.exit(f"make dist: {name}/{path} of the kit speaks of a licence, and not in its head: scripts/dist/notices.py does not pass it on")
        found.append((path, "\n".join(it[2:].removeprefix(" ") for it in lines)))
    return found


def judge_pages(kit):
    """what this file says of the kit as a whole: that it states no licence"""
    pages = [*glob.glob(f"{kit}/*"), *glob.glob(f"{kit}/c/*"), *glob.glob(f"{kit}/rattle/*.md"), *glob.glob(f"{kit}/rattle/docs/**/*.md", recursive=True)]
    for path in pages:
        if is_of_licences(path) or (path.endswith(".md") and WORDS_OF_LICENCES.search(read(path))):
            sys.exit(f"make dist: {path} speaks of a licence, and scripts/dist/notices.py says that no such file does")


def named_in(archive):
    """how many functions of each crate the archive has under a name of their own"""
    said = subprocess.run(["nm", archive], check=True, capture_output=True, text=True).stdout
    return collections.Counter(re.findall(r" [tT] (\w+)::", said))


class Notices:
    def __init__(self, root, archive):
        kit = kit_folder()
        names = parts(root, kit)
        judge_pages(kit)
        self.kit = read(f"{kit}/KIT-ID").split()[0]
        self.given = {it: licences(kit, it) for it in names if licences(kit, it)}
        self.without = [it for it in names if it not in self.given]
        self.files = {it: heads(kit, it) for it in self.without}
        self.named = {it: count for it, count in sorted(named_in(archive).items()) if it in names}

    @property
    def summary(self):
        return f"""The library is compiled from the crates of Beanwhile (LICENSE) and from parts of {self.kit}, the compiler's kit.
The kit gives a licence for its crates {', '.join(self.given)}.
The kit states no licence for {', '.join(self.without)}, and {SHIM},
but for files that name one: {', '.join(f"{it}/{path}" for it in self.files for path, _ in self.files[it]) or "none"}.
Neither a file of licences lies in the folders of these parts or at the kit's top, nor does a page of the kit have a word of one.
Of these parts the archive has functions by their names: {', '.join(f"{it} {count}" for it, count in self.named.items())}.
What the compiler put into other functions has no name there.
"""

    def text(self):
        """the summary, and the texts. One that several parts have stands once."""
        under = {}
        for part, files in [*self.given.items(), *self.files.items()]:
            for name, text in files:
                under.setdefault(text.strip(), []).append(f"{part} ({name})")
        return self.summary + "".join(f"\n---- {', '.join(heads)}\n\n{text}\n" for text, heads in under.items())
