"""Copies of functions beside the real ones, so that one check tries many wrong bodies: of each edit its function with
the change made, and of each edited function one as it stands, the control, which must be proved."""

import os
import re

from edits import apply
from source import functions_of, path_of, with_attributes

STEM = "_tried_"
ERROR = re.compile(r"^(?:\./)?(src/\S+\.rt):(\d+):\d+: error(.*)")


def fits(edit, sources):
    """Returns whether the edit can be tried in a copy: not where a copy would be no member of its trait, or would
    stand outside of a cycle of calls."""
    of = edit.function
    if not of or of.trait or of.owner and re.search(rf"(?m)^\s*(?:pub )?trait {of.owner}\b", sources[of.file]):
        return False
    place = next(it for it in functions_of(of.file, sources[of.file]) if it.function == of)
    return "#[cycle" not in sources[of.file][with_attributes(sources[of.file], place) : place.start]


class Copies:
    """The copies for these edits, in a crate with these sources."""

    def __init__(self, crate, sources, edits):
        self.crate, self.texts = crate, sources
        functions = dict.fromkeys(it.function for it in edits)
        self.controls = {it: f"{it.name}{STEM}{n}" for n, it in enumerate(functions)}
        self.names = {it.label(): f"{it.function.name}{STEM}{n}" for n, it in enumerate(edits, len(functions))}
        self.owners, self.sources, self.proofs = {}, {}, {}
        for file in {it.file for it in functions}:
            self.write(file, [it for it in edits if it.function.file == file])

    def write(self, file, edits):
        """Writes a file with the copies behind their functions, and notes whose line each of theirs is."""
        text, written, end = self.texts[file], "", 0
        for place in sorted((it for it in functions_of(file, text) if it.function in self.controls), key=lambda it: it.end):
            of = place.function
            written, end = written + text[end : place.end], place.end
            mine = [(it, apply(it.changes, self.texts)[file], self.names[it.label()]) for it in edits if it.function == of]
            for edit, source, name in [(None, text, self.controls[of]), *mine]:
                written += "\n"
                first = written.count("\n") + 1
                written += copied(source, place, name)
                self.owners.update({(file, line): edit for line in range(first, written.count("\n") + 2)})
                self.proofs.update(self.proof_of(of, name))
        self.sources[file] = written + text[end:]

    def proof_of(self, function, name):
        """Returns the files of a function's proof, as those of a copy of this name."""
        path = path_of(function, self.texts)
        folder = f"proofs/{path.replace('::', '/')}"
        to = f"{os.path.dirname(folder)}/{name}"
        module = re.compile(rf"\bRattle\.{self.crate.name}\.{re.escape(folder.replace('/', '.'))}(?=\.)")
        found = {}
        for at, _, files in os.walk(f"{self.crate.folder}/{folder}"):
            for file in files:
                with open(f"{at}/{file}", encoding="utf-8") as it:
                    text = module.sub(f"Rattle.{self.crate.name}.{to.replace('/', '.')}", it.read())
                found[to + f"{at}/{file}".removeprefix(f"{self.crate.folder}/{folder}")] = text
        return found

    def names_to_check(self):
        """Returns the names of the copies, the controls first."""
        return [*self.controls.values(), *self.names.values()]

    def unread(self, lines):
        """Returns the edits in whose copies a line of the compiler says that there is an error, each with that line."""
        found = {}
        for line in lines:
            at = ERROR.match(line)
            edit = self.owners.get((at[1], int(at[2]))) if at else None
            if edit:
                found.setdefault(edit.label(), (edit, line))
        return [*found.values()]


def copied(source, place, name):
    """Returns the text of the function that begins at this place of a source, under another name."""
    now = next(it for it in functions_of(place.function.file, source) if it.start == place.start)
    text = source[with_attributes(source, now) : now.end]
    return re.sub(rf"\bfn\s+{place.function.name}\b", f"fn {name}", text, count=1)
