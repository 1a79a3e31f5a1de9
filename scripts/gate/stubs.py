"""Functions that a check of wrong bodies need not prove again. `rt ci` proves them, and what calls them rests on their contracts alone. So where no edit of a check
touches a function, its body is `unreachable!()` in the check's copy of the crate, and its proof a hole, which stands for the one that `rt ci` finds."""
import re

import copies

BODY = b"{ unreachable!() }"
HOLE = """use Rattle.{crate}.proofs.{module}.Statement.{{statement}}

pub {name}_spec : {{M : Type 1}} → statement M
{name}_spec = ?
"""
# The value of a constant is computed by the body of such a function.
CONSTANT = re.compile(rb"\bconst (unsafe )?fn\b")


def name_of(source, body):
    """the function as a check prints it, below the crate; None where that is not plain"""
    if not body.block:
        return "::".join([*body.module, body.name])
    declared = source.declared.get(body.owner, [])
    arguments = {it for it in body.block.ty if it.isidentifier()} - {body.owner, *body.block.generics}
    is_plain = len(declared) == 1 and not arguments
    return "::".join([*declared[0][0], body.owner, body.name]) if is_plain else None


def may_be_made(crate, source, function, body):
    head = source.data[body.file][body.first : body.opens]
    is_plain = body.has_body and "impl" not in body.ret and not CONSTANT.search(head)
    return is_plain and copies.stands_alone(crate, function, body)


class Stubs:
    """The functions of a crate that may be stubs, by their names."""

    def __init__(self, crate, source):
        named = {name_of(source, it): it for it in source.functions}
        self.crate = crate
        self.bodies = {name: it for name, it in named.items() if name and may_be_made(crate, source, name, it)}

    def beside(self, edits):
        """the stubs of a check that has these edits"""
        spans = [(file, first, end) for edit in edits for file, first, end, _ in edit.spans]
        is_edited = lambda body: any(body.file == file and body.first <= end and first <= body.end for file, first, end in spans)
        named = {it.function for it in edits}
        return {name: body for name, body in self.bodies.items() if name not in named and not is_edited(body)}

    def proof_files(self, stubs):
        """the proof files of these, by their paths: None for one that goes"""
        made = {path: None for name in stubs for path in copies.own_proofs(self.crate, name)}
        for name, body in stubs.items():
            hole = HOLE.format(crate=self.crate.name, module=name.replace("::", "."), name=body.name)
            made[f"{copies.folder_of(name)}/Proof.antt"] = hole
        return made
