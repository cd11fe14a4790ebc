"""How edits are tried and judged."""

import re
from dataclasses import dataclass

from checks import PROVED, REFUSED, compiled, could_not_be_read, failures, proved
from copies import STEM, Copies, fits
from edits import apply
from source import is_of, path_of


@dataclass
class Verdict:
    """What came of an edit: whether the prover refused it, and what to say of it."""

    edit: object
    refused: bool
    text: str


def unread(edit, why):
    return Verdict(edit, False, f"BAD EDIT: it does not compile: {why[:200]}")


class Trial:
    """Tries edits of one crate, whose sources are these."""

    def __init__(self, checker, crate, sources):
        self.checker, self.crate, self.sources = checker, crate, sources

    def verdicts(self, edits):
        """Returns a verdict on each edit. Those whose copies a check of all together does not plainly refuse, as where a
        control is not proved, are tried alone, and so are those that cannot be tried in a copy."""
        beside = self.beside([it for it in edits if fits(it, self.sources)])
        return [beside.get(it.label()) or self.alone(it) for it in edits]

    def beside(self, edits):
        """Tries edits in one check, in copies beside the real functions. Returns the verdicts on those that are refused,
        and on those that do not compile."""
        found = {}
        while edits:
            copies = Copies(self.crate, self.sources, edits)
            _, lines = self.checker.check(self.crate, copies.sources, copies.names_to_check(), copies.proofs)
            bad = copies.unread(lines)
            if not bad:
                return found | self.refused(edits, copies, lines)
            found |= {edit.label(): unread(edit, why) for edit, why in bad}
            edits = [it for it in edits if it.label() not in found]
        return found

    def refused(self, edits, copies, lines):
        """Returns the verdicts on those that a check of copies refuses at a goal of the copy, where the control of the
        same function is proved."""
        if could_not_be_read(lines):
            return {}
        found, well = failures(self.crate.name, lines), proved(lines)
        refused = {}
        for edit in edits:
            own = [it for it in found if copies.names[edit.label()] in it.split("::")]
            if own and any(copies.controls[edit.function] == it.split("::")[-1] for it in well):
                at = re.sub(rf"{STEM}\d+", "", own[0])
                refused[edit.label()] = Verdict(edit, True, f"refused at {at}")
        return refused

    def alone(self, edit):
        """Tries an edit by itself, in place."""
        changed = apply(edit.changes, self.sources)
        status, lines = self.checker.check(self.crate, changed, self.paths_of(edit.function) if edit.function else ())
        if status == PROVED:
            return Verdict(edit, False, "NOT REFUSED: the crate is still proved with this edit")
        why = could_not_be_read(lines)
        if why:
            return unread(edit, why)
        found = failures(self.crate.name, lines)
        own = [it for it in sorted(found) if edit.function and is_of(edit.function, self.crate.name, it)]
        if status == REFUSED and (own or found and not edit.function):
            return Verdict(edit, True, f"refused at {(own or sorted(found))[0]}, alone")
        said = [it for it in lines if re.match(r"\S+:\d+:\d+: error|rattle: no verdict", it)] or lines[-2:]
        return Verdict(edit, False, f"NOT REFUSED at a goal of its function: {said[0][:200]}")

    def paths_of(self, function):
        """Returns what names the function in a check of it alone: its path; or where it stands in an impl of a trait,
        those of the names that rattle prints that are its own, or its module where these are not known."""
        if not function.trait:
            return [path_of(function, self.sources)]
        own = [it for it in compiled(self.crate) if "::fn::" not in it and is_of(function, self.crate.name, it)]
        return sorted(own) or [it for it in (function.module(),) if it]
