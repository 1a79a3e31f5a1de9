"""What a check says of a function that has a wrong body: which goals it leaves open, and why, and which answers of the function's own proof files do not fit.
From that, of what kind the refusal is."""
import dataclasses
import re

import copies
import without

# Why a goal is open: the search came to its end; the check gives values at which it is false; or the search met one of its limits, which says nothing.
NO, FALSE, LIMIT = "no", "false", "limit"
OPEN, BODY, GAVE_UP = "open goal", "by the body", "search gave up"

NOTE = re.compile(r"note: (?:\./)?(src/\S+?):\d+:\d+: it is not proved .*?\((`[^()]*`(?:, `[^()]*`)*)[^()]*\)(.*)")
ERROR = re.compile(r"(?:\./)?proofs/(\S+)/(\w+)\.antt:(\d+):\d+: error: (.*)")
UNSOLVED = re.compile(r"`search` did not prove (.*)")
AT_LIMIT = re.compile(r"gave up at|broke off|stopped at (?:its own|one of)|[Ii]t stopped \d+|goal may hold|builds no proof|could not check its values|ran out of")
WITH_VALUES = re.compile(r"may be false|values at which")
# What an answer `refl` is refused for where the goal's two sides compute to two values: two Booleans stand at one place of them, and all else is constructors.
APART = re.compile(r"computed as far as they go, the two types (?:differ only where one has|are) `mathlib\.Core\.Bool\.(?:true|false)`\s+\(expected\)\s+and (?:the other has )?`mathlib\.Core\.Bool\.(?:true|false)`")
SIDES = re.compile(r"(?m)^\s*expected type `mathlib\.Core\.Path\.◌≡◌ (?:\{A = [^{}]*\} )?([^`]*)`")
VALUE = re.compile(r"(?:[()\s]|mathlib\.Core\.(?:Bool\.(?:true|false)|List\.(?:◌∷◌|\[\]))(?=[\s()]|$))*")
# An error that names what the edit took away.
NAMES = re.compile(r"has no field|is not in scope|has no `|was not admitted")


@dataclasses.dataclass
class Told:
    line: str  # what the check says of the function
    goals: dict = dataclasses.field(default_factory=dict)  # the goals that are open, and why
    unfit: set = dataclasses.field(default_factory=set)  # what of its answers does not fit, with the answers that stand on that
    gone: set = dataclasses.field(default_factory=set)  # the sorts of the goals among which one may be that had an answer under another name
    elsewhere: bool = False  # does its invariant not fit, or a proof of a closure in it?

    @property
    def is_proved(self):
        return self.line.startswith(("no holes", "depends on a hole in"))

    @property
    def is_not_judged(self):
        """Is the function proved, or did no check judge it? (One that the borrow checker does not cover has goals that nobody asked.)"""
        return self.is_proved or not self.line.startswith(("not proved", "no proof", "could not tell")) or "does not cover" in self.line

    @property
    def is_in_doubt(self):
        """Does it say no more than that another function is not proved?"""
        return not (self.is_proved or self.goals or self.unfit or self.elsewhere) and "it calls" in self.line


WAYS = re.compile(r"\b(?:if|match|return|while|for|break|continue)\b|\?|=>|&&|\|\|")


def adds_ways(old, new):
    """Does the new text have ways that the old one has not, with goals of their own?"""
    return len(WAYS.findall(new)) > len(WAYS.findall(old))


def sort(goal):
    """What the goal asks: the rest of its name says where in the body, which an edit may turn."""
    turn = re.search(r"-(?:init|preserved|smaller)\b", goal)
    return "turn" if turn else "requires" if "-requires" in goal else goal.split("-")[0]


def proved_sorts(text):
    """the sorts of the goals that these answers prove by more than a search"""
    return {sort(it) for it in without.answers(text) if not without.is_search(text, it)}


def is_of_contract(goal):
    """Does it ask what the contract says, or an invariant, and not whether a step of the body may be made?"""
    return sort(goal) in ("returns", "turn", "invariant_of")


def why(text):
    return FALSE if WITH_VALUES.search(text) else LIMIT if AT_LIMIT.search(text) else NO


def named(text):
    return re.findall(r"`([^`]+)`", text)


def is_inside(name, function):
    """Is it the function, or a closure in it? (A closure has its function's last names in its own.)"""
    return name == function or "::".join([*function.split("::")[-2:], ""]) in name


def lines_of(printed, crate):
    """each function of which the check speaks, what it says, and the notes on goals above that"""
    notes = []
    for line in printed.split("\n"):
        said = re.match(rf"\w+ {crate}::(\S+): (.*)", line)
        if said:
            yield said[1], said[2], notes
            notes = []
        elif NOTE.match(line):
            notes.append(NOTE.match(line))


def errors_of(printed):
    """each error in a proof file: the folder, the file, the line, and all that it says"""
    lines = printed.split("\n")
    for at, line in enumerate(lines):
        error = ERROR.match(line)
        if error:
            end = next((it for it in range(at + 1, len(lines)) if not lines[it].startswith("  ")), len(lines))
            yield error[1], error[2], int(error[3]), "\n".join([error[4], *lines[at + 1 : end]])


def told(printed, crate, function, text):
    """what a check printed of the function, whose Answers.antt has this text"""
    made = Told("")
    for name, line, notes in lines_of(printed, crate):
        if is_inside(name, function):
            made.line = line if name == function else made.line
            made.goals.update({goal: why(note[3]) for note in notes for goal in named(note[2])})
        if name == function and UNSOLVED.search(line):
            made.goals.update({goal: NO for goal in named(UNSOLVED.search(line)[1].split("; ")[0]) if goal not in made.goals})
    own = copies.folder_of(function).removeprefix("proofs/")
    for folder, file, number, error in errors_of(printed):
        if folder == own and file == "Answers":
            read_error(made, text, number, error)
        elif folder == own or folder.startswith((f"{own}+", f"{own}/")):
            made.elsewhere = True
    refused = re.findall(r"\.Answers\.([^`\s]+)`", made.line)
    made.unfit |= {it for it in refused if it not in made.goals}
    made.unfit = without.with_users(text, made.unfit) if made.unfit else made.unfit
    return made


def computes_apart(error):
    """Does it say that the two sides of an equation are values, lists of Booleans, and not the same? Then no answer proves it."""
    sides = SIDES.search(error)
    return bool(sides and VALUE.fullmatch(sides[1]) and APART.search(error))


def read_error(made, text, number, error):
    """one error in the function's answers"""
    name = without.name_at(text, number)
    if name is None:
        made.unfit.update(it for it in named(error) if without.mentions(text.split("\n")[number - 1], it))
    elif without.is_search(text, name) and not NAMES.search(error):
        made.goals[name] = why(error)
    elif without.body_of(text, name) == "refl" and computes_apart(error):
        made.goals[name] = FALSE
    else:
        made.unfit.add(name)
        if re.search(rf"\.Goals` has no `{re.escape(name)}`", error):
            made.gone.add(sort(name))


def kind(goals):
    """Of what kind a refusal is for these open goals: None for none of them."""
    sure = [goal for goal, reason in goals.items() if reason != LIMIT]
    if any(map(is_of_contract, sure)):
        return OPEN
    return BODY if sure else GAVE_UP if goals else None
