#!/usr/bin/env python3
"""Which definitions the contract of `h3_session::run` reaches, and whether docs/MESSAGES.md, docs/HEADLINE.md and docs/headline name them.

    python3 scripts/gate/headline.py           compares: one line 'ok ..' or 'failed ..' for each part of the pages
    python3 scripts/gate/headline.py --write   writes the rows of the pages anew: their lines and names. A row's second column stays

From each name of the contract the `use` lines of the specs are followed, from definition to definition; a type of the code is taken from
its crate's src. These types and those of the signature are followed through the fields that a contract sees of them (scripts/gate/code_types.py), to
each `impl Model` and the definitions that its view names. What the kit gives (lists, numbers, std) is not followed, and neither are laws or proofs.
A name that is bound in a definition and stands for another one elsewhere counts as that other one: so the list may be too long.
"""
import os
import re
import sys

sys.path.insert(0, os.path.dirname(os.path.abspath(__file__)))
import code_types  # noqa: E402
import rules  # noqa: E402

TOP = os.path.dirname(os.path.dirname(os.path.dirname(os.path.abspath(__file__))))
CRATES = f"{TOP}/crates"
CONTRACT = f"{CRATES}/h3_session/src/run.rt"
# The parts: their headings, and from which names each part goes on, a name with dots by its module. The last one takes what is left.
OF_LISTS = "h3_connection.specs.Lists"
WORLD_LISTS = "h3_world.specs.Lists"
PARTS = (
    ("## All that it rests on", ("Faithful", "AreSmall")),
    ("## How a list of fields is read", (f"{WORLD_LISTS}.as_flagged", f"{OF_LISTS}.pull_of", "h3_connection.specs.Pulling.is_for")),
    ("## Which lists are malformed", (f"{WORLD_LISTS}.unreadable", f"{OF_LISTS}.list_of")),
    ("## What is answered", ("Run", "Happens", "empty_world", "ArePlain")),
    ("## The endpoints that are returned", ("RunsInWorld",)),
    ("## What each call leaves", ("RunsByCalls", "new_ends")),
    ("## One world", None),
)
# Behind these the values of the code: a heading, and from which types of the signature its rows come, and from those that which parts list.
VALUES = (
    ("## The values in the answers", ("Setup", "Event", "Answer"), PARTS[:4]),
    ("## The values that are returned", ("Outcome",), PARTS[4:]),
)
# The pages, each with its parts in their order there.
PAGES = {
    "docs/MESSAGES.md": (PARTS[0][0],),
    "docs/headline/lists.md": (PARTS[1][0], PARTS[2][0]),
    "docs/HEADLINE.md": (PARTS[3][0], PARTS[6][0]),
    "docs/headline/endpoints.md": (VALUES[0][0], PARTS[4][0], VALUES[1][0]),
    "docs/headline/calls.md": (PARTS[5][0],),
}
# how many lines the first parts may have: a sitting each
MOST = {PARTS[0][0]: 500, PARTS[1][0]: 90, PARTS[3][0]: 1500}
# the parts in which no name stands for two definitions: what each side gets, and the plain world
SITTINGS = (*(heading for heading, _ in PARTS[:4]), VALUES[0][0])
# but for these: the Rust crate h3 has a type of that name in two modules, and so have the ports of them; and a contract sees a `Setup` of the
# code as that of the definitions
OF_TWO_MODULES = ("Settings", "Setup")
WIDTH = 140
WORD = re.compile(r"[^\s(){}\[\],;.]+")
USE = re.compile(r"^\s*(?:pub |ghost )?use Rattle\.([\w.]+?)(?:\.\{(.*)\}| as (\w+))?;?$")
STARTS = re.compile(r"^(?:(?:abbrev|unfoldable|opaque|pub|record|data) )*([^\s(:{]+)")


def imports(lines):
    """the names that `use` lines bring, each with its module and its name there; and the modules that have a short name"""
    names, modules = {}, {}
    for line in lines:
        found = USE.match(line)
        if found:
            path, listed, short = found.groups()
            for name in (listed or "").split(", ") if listed else ():
                there, _, here = name.partition(" as ")
                names[here or there] = (path, there)
            if not listed:
                modules[short or path.split(".")[-1]] = path
    return names, modules


class Module:
    """A file of specs: its definitions, each with its lines and the comment in front of them."""

    def __init__(self, path):
        self.lines = open(f"{CRATES}/{path.replace('.', '/')}.antt", encoding="utf8").read().split("\n")
        self.names, self.modules = imports(self.lines)
        self.definitions, self.constructors = {}, {}
        inside, comment, current = False, [], None
        for number, line in enumerate(self.lines):
            if USE.match(line):
                comment, current = [], None
                continue
            if line.startswith("module "):
                inside, comment, current = True, [], None
                continue
            if line and not line[0].isspace():
                inside = False
            text = line[2:] if inside else line
            if not text.strip():
                comment, current = [], None
            elif rules.MARK.match(text):  # of a rule: it counts for no definition
                current = None
            elif text.startswith("--"):
                comment, current = comment + [number], None
            elif not text[0].isspace():
                current = STARTS.match(text).group(1)
                self.definitions.setdefault(current, [])
                self.definitions[current] += comment + [number]
                comment = []
            elif current:
                self.definitions[current].append(number)
        for name, numbers in self.definitions.items():
            if re.match(r"^(pub )?data ", self.text(name)):
                for found in re.finditer(r"^  ([A-Z]\w*) :", self.text(name), re.M):
                    self.constructors[found.group(1)] = name

    def text(self, name):
        return "\n".join(self.lines[n] for n in self.definitions[name] if not self.lines[n].lstrip().startswith("--"))


class Specs:
    def __init__(self):
        self.kept = {}

    def module(self, path):
        if path not in self.kept:
            self.kept[path] = Module(path)
        return self.kept[path]

    def is_module(self, path):
        return os.path.isfile(f"{CRATES}/{path.replace('.', '/')}.antt")

    def resolve(self, path, name):
        """the module and the name of a definition, or nothing where it is the kit's"""
        if not os.path.isdir(f"{CRATES}/{path.split('.')[0]}"):
            return None
        if ".declared." in path:
            return (re.sub(r"\.TheVariants$", "", path).rpartition(".")[0], re.sub(r"\.TheVariants$", "", path).rpartition(".")[2])
        if not self.is_module(path):
            # the constructors of a type
            return self.resolve(*path.rpartition(".")[::2])
        module = self.module(path)
        if name in module.definitions:
            return (path, name)
        if name in module.constructors:
            return (path, module.constructors[name])
        if name in module.names:
            return self.resolve(*module.names[name])
        raise SystemExit(f"headline.py: {path} has no {name}")

    def reached_from(self, names, modules, text):
        """what a text names directly, by these imports"""
        words = set(WORD.findall(text))
        found = [self.resolve(*names[word]) for word in sorted(words) if word in names]
        found += [self.resolve(modules[a], b) for a, b in sorted(set(re.findall(r"(\w+)\.(\w+)", text))) if a in modules]
        return [it for it in found if it]

    def direct(self, path, name):
        if ".declared." in path:
            return []
        module = self.module(path)
        text = module.text(name)
        words = set(WORD.findall(text))
        here = [(path, it) for it in sorted(words) if it in module.definitions and it != name]
        here += [(path, module.constructors[it]) for it in sorted(words) if it in module.constructors and module.constructors[it] != name]
        return self.reached_from(module.names, module.modules, text) + here

    def closure(self, roots, known):
        """all that the roots reach and that is not known yet, in the order in which it is met"""
        order, waiting = [], list(roots)
        while waiting:
            it = waiting.pop(0)
            if it not in known:
                known.add(it)
                order.append(it)
                waiting += self.direct(*it)
        return order


def source_of(path):
    """the file of a module of the code"""
    crate, _, module = path.partition(".specs.declared.")
    parts = module.split(".")
    while parts and not os.path.isfile(f"{CRATES}/{crate}/src/{'/'.join(parts)}.rt"):
        parts.pop()
    return f"{crate}/src/{'/'.join(parts)}.rt"


def type_lines(path, name):
    lines = open(f"{CRATES}/{source_of(path)}", encoding="utf8").read().split("\n")
    start = next(n for n, line in enumerate(lines) if re.match(rf"pub(?:\(\w+\))? (enum|struct) {name}\b", line))
    if not lines[start].endswith("{"):
        return 1
    return next(n for n in range(start, len(lines)) if lines[n] == "}") - start + 1


def parts(specs):
    """for each part its rows: the name of the module, its lines, and its definitions"""
    text = open(CONTRACT, encoding="utf8").read()
    names, modules = imports(text.split("\n"))
    contract = text[text.index("pub fn run("):]
    contract = contract[:contract.index("\n{\n")]
    roots = specs.reached_from(names, modules, contract)
    named = {name: (path, name) for path, name in roots}
    for path, name in list(named.values()):
        named.update({there: (module, there) for module, there in specs.direct(path, name) if there not in named})
    known, out = set(), []
    for heading, wanted in PARTS:
        rows = {}
        for path, name in specs.closure(roots if wanted is None else [named.get(it) or tuple(it.rsplit(".", 1)) for it in wanted], known):
            if ".declared." in path:
                row, count = f"`{source_of(path)}`", type_lines(path, name)
            else:
                crate, _, module = path.partition(".specs.")
                row, count = f"`{crate}` `{module}`", len(specs.module(path).definitions[name])
            lines, listed = rows.get(row, (0, []))
            rows[row] = (lines + count, listed + [name])
        out.append((heading, rows))
    return out + values(specs, known, dict(out))


def types_in(rows):
    """the types of the code in these rows, each with its file"""
    return [(row.strip("`"), name) for row, (_, names) in rows.items() if row.endswith(".rt`") for name in names]


def values(specs, known, rows_of):
    """for each part of the values its rows: types that no part before lists, views, and the definitions that these name"""

    def seen_by(view):
        return specs.reached_from(*imports(view.split("\n")), "\n".join(it for it in view.split("\n") if not USE.match(it)))

    def behind(view):
        return "\n".join(specs.module(path).text(name) for path, name in seen_by(view) if ".declared." not in path)

    listed = {it for rows in rows_of.values() for it in types_in(rows)}
    out, met, file = [], set(), os.path.relpath(CONTRACT, CRATES)
    for heading, signature, before in VALUES:
        rows = {}
        roots = [(code_types.defined(file, it), it) for it in signature] + [it for part, _ in before for it in types_in(rows_of[part])]

        def add(row, count, name):
            lines, names = rows.get(row, (0, []))
            rows[row] = (lines + count, names + [name])

        for it in code_types.reached(roots, behind):
            count = code_types.model_text(*it).count("\n") + 1 if code_types.model_text(*it) else 0
            if it not in listed:
                count += code_types.type_text(*it).count("\n") + 1
            if it in met or not count:
                continue
            met.add(it)
            add(f"`{it[0]}`", count, it[1])
            for path, name in specs.closure(seen_by(code_types.view_text(*it)), known):
                if ".declared." not in path:
                    crate, _, module = path.partition(".specs.")
                    add(f"`{crate}` `{module}`", len(specs.module(path).definitions[name]), name)
        out.append((heading, rows))
    return out


def row_lines(row, about, found):
    """a row of a table; where it is too long its names go on in rows with nothing in front of them"""
    lines, listed = found
    out, line = [], f"| {row} | {about} | {lines} |"
    for place, name in enumerate(listed):
        word = f" `{name}`" + ("," if place + 1 < len(listed) else "")
        if len(line) + len(word) + 2 > WIDTH:
            out.append(f"{line} |")
            line = "| | | |"
        line += word
    return out + [f"{line} |"]


def sections(page, headings):
    """the page from each part's heading up to the next part, with the text in front of the first"""
    starts = [page.index(heading) for heading in headings]
    return page[: starts[0]], [page[a:b] for a, b in zip(starts, starts[1:] + [len(page)])]


def rows_in(section):
    """the rows of a part, each with the rows that go on with its names"""
    rows = []
    for line in section.split("\n"):
        if line.startswith("| `"):
            rows.append([line])
        elif line.startswith("| | | |") and rows:
            rows[-1].append(line)
    return rows


def name_of(rows):
    return rows[0][2:].split(" | ")[0]


def about(rows):
    return rows[0].split(" | ")[1]


def compare(found, page, heading, section):
    rows = found[heading]
    total = sum(lines for lines, _ in rows.values())
    there = {name_of(it): it for it in rows_in(section)}
    wrong = sorted(row for row in rows if row not in there or row_lines(row, about(there[row]), rows[row]) != there[row])
    wrong += sorted(set(there) - set(rows))
    wrong += [f"{name} has a ? for its sections" for name, it in there.items() if about(it) == "?"]
    if f"{total:,} lines" not in section:
        wrong.append(f"the sum, {total:,} lines")
    if total > MOST.get(heading, total):
        wrong.append(f"more than {MOST[heading]:,} lines")
    state = "failed" if wrong else "ok"
    print(f"{state} {page}, {heading[3:]}: {total:,} lines in {len(rows)} modules{': ' if wrong else ''}{', '.join(wrong[:8])}")
    return not wrong


def has_one_meaning_each(found):
    """whether no name of the first sittings stands for two definitions"""
    places = {}
    for heading in SITTINGS:
        for row, (_, names) in found[heading].items():
            for name in names:
                places.setdefault(name, []).append(row)
    twice = [f"{name} ({' and '.join(rows)})" for name, rows in sorted(places.items()) if len(rows) > 1 and name not in OF_TWO_MODULES]
    print(f"{'failed' if twice else 'ok'} {len(places)} names of the first {len(SITTINGS)} parts stand for one definition each{': ' if twice else ''}{', '.join(twice)}")
    return not twice


def written(rows, section):
    """a part with its rows anew, and what it says of their sum"""
    left, lines, known = dict(rows), [], {it[0]: it for it in rows_in(section)}
    for line in section.split("\n"):
        if line in known:
            name = name_of(known[line])
            if name in left:
                lines += row_lines(name, about(known[line]), left.pop(name))
        elif not line.startswith("| | | |"):
            lines.append(line)
    behind = max(place for place, line in enumerate(lines) if line.startswith("|")) + 1
    lines[behind:behind] = [it for row, of in left.items() for it in row_lines(row, "?", of)]
    total = sum(count for count, _ in rows.values())
    return re.sub(r"[\d,]+ lines", f"{total:,} lines", "\n".join(lines), count=1)


def main():
    found, fine = dict(parts(Specs())), True
    for page, headings in PAGES.items():
        with open(f"{TOP}/{page}", encoding="utf8") as file:
            front, there = sections(file.read(), headings)
        if sys.argv[1:] == ["--write"]:
            with open(f"{TOP}/{page}", "w", encoding="utf8") as file:
                file.write(front + "".join(written(found[heading], section) for heading, section in zip(headings, there)))
        else:
            fine &= all([compare(found, page, heading, section) for heading, section in zip(headings, there)])
    if sys.argv[1:] != ["--write"]:
        fine &= has_one_meaning_each(found)
    return 0 if fine else 1


if __name__ == "__main__":
    sys.exit(main())
