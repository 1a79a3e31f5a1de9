"""The types of the code that a contract reads: from the types of a signature on, through their fields.

A contract sees a type with an `impl Model` by its view alone, so only the fields that the view names (`it.field`) are followed; of any
other type all are. Types of the kit are not. `scripts/gate/headline.py` lists what this finds.
"""
import functools
import glob
import os
import re

CRATES = os.path.dirname(os.path.dirname(os.path.dirname(os.path.abspath(__file__)))) + "/crates"
USED = re.compile(r"^(?:pub(?:\(crate\))? )?use ([\w:]+?)(?:::\{([^}]*)\})?;", re.M)


@functools.lru_cache(None)
def source(file):
    return open(f"{CRATES}/{file}", encoding="utf8").read()


@functools.lru_cache(None)
def files_of(crate):
    return sorted(os.path.relpath(it, CRATES) for it in glob.glob(f"{CRATES}/{crate}/src/**/*.rt", recursive=True))


def block(text, start):
    """from here to the line that closes what is opened: lines of one item stand at the margin only at its ends"""
    first = text[start:].split("\n", 1)[0]
    if not first.endswith("{") and not first.endswith("("):
        return first
    return text[start:start + re.search(r"^[})].*$", text[start:], re.M).end()]


def type_text(file, name):
    found = re.search(rf"^(?:pub(?:\(\w+\))? )?(?:enum|struct) {name}\b", source(file), re.M)
    return block(source(file), found.start()) if found else None


def model_text(file, name):
    """its `impl Model`, or nothing where a contract sees it as it is"""
    found = re.search(rf"^impl(?:<[^>]*>)? Model for {name}\b", source(file), re.M)
    return block(source(file), found.start()) if found else ""


def view_text(file, name):
    """what a contract sees of it: the lines of its view and of what they bring, without its invariant"""
    model = model_text(file, name)
    return "\n".join(re.findall(r"^    ghost use .*", model, re.M) + re.findall(r"^    ghost (?:Value|view) = .*(?:\n {6}.*)*(?:\n    }.*)?", model, re.M))


def imported(file):
    """the names that a file brings, each with the crate that it is of"""
    out = {}
    for path, listed in USED.findall(source(file)):
        crate = path.split("::")[0]
        own = crate in ("crate", "self", "super") or re.search(rf"^(?:pub )?mod {crate};", source(file), re.M)
        crate = file.split("/")[0] if own else crate
        if os.path.isdir(f"{CRATES}/{crate}"):
            for name in re.findall(r"\w+", listed) if listed else [path.split("::")[-1]]:
                out[name] = crate
    return out


def defined(file, name):
    """the file in which a name of this file is defined as a type of these crates, or nothing where it is the kit's"""
    if type_text(file, name):
        return file
    crate = imported(file).get(name)
    found = [it for it in files_of(crate) if type_text(it, name)] if crate else []
    if len(found) > 1:
        # the module that the `use` line names
        modules = [path for path, listed in USED.findall(source(file)) if re.search(rf"\b{name}\b", listed or path)]
        found = [it for it in found if any("/" + path.replace(f"::{name}", "").split("::")[-1] + ".rt" in it for path in modules)]
    if crate and len(found) > 1:
        raise SystemExit(f"code_types.py: {name} of {file} is defined in {found}")
    return found[0] if found else None


def fields(file, name, behind):
    """the parts of its text that name the types of the fields that a contract sees"""
    body = re.sub(r"//.*|#\[.*\]", "", type_text(file, name)).partition(name)[2]
    view = view_text(file, name)
    named = re.findall(r"^\s*(?:pub(?:\(\w+\))? )?(\w+): (.*),$", body, re.M)
    # the numbers of a tuple are not told apart
    if not view or not named:
        return [body]
    seen = set(re.findall(r"\.(\w+)", re.sub(r"ghost use .*", "", view) + behind(view)))
    return [kind for field, kind in named if field in seen]


def reached(roots, behind):
    """The types that these, each with its file, reach, themselves among them, in the order in which they are met. `behind` gives the text of
    the definitions that a view names."""
    order, waiting = [], list(roots)
    while waiting:
        it = waiting.pop(0)
        if it in order:
            continue
        order.append(it)
        words = [word for part in fields(*it, behind) for word in re.findall(r"\b[A-Z]\w*", part)]
        waiting += [(file, word) for word in words for file in [defined(it[0], word)] if file]
    return order
