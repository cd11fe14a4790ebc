"""Edits that turn a right body into a wrong one: how a file of one is read, and where it changes what."""

import os
from dataclasses import dataclass

from source import functions_of


class BadEdit(Exception):
    """Why an edit cannot be applied."""


@dataclass(frozen=True)
class Change:
    file: str
    old: str
    new: str


@dataclass
class Edit:
    """A wrong body. `function` is the one whose body it changes, or None where it changes more than one, or what is no
    function."""

    crate: str
    name: str
    changes: list
    function: object = None

    def label(self):
        return f"{self.crate}/{self.name}"


def read_changes(text):
    """Reads lines `file: PATH`, and after each pairs `old: TEXT` and `new: TEXT`. A line `promise: TEXT` is for the
    reader alone."""
    file, old, changes = "", None, []
    for line in text.split("\n"):
        word, _, rest = line.partition(":")
        rest = rest.removeprefix(" ")
        if word == "file":
            file = rest.strip()
            if os.path.normpath(file) != file or not file.startswith("src/"):
                raise BadEdit("a 'file:' line names no file below src/")
        elif word == "old":
            old = rest
        elif word == "new":
            if not file or not old:
                raise BadEdit("a 'new:' line stands before any 'file:' or 'old:' line")
            changes.append(Change(file, old, rest))
            old = None
        elif line.strip() and word != "promise":
            raise BadEdit(f"the line '{line[:60]}' is none of 'promise:', 'file:', 'old:' and 'new:'")
    if not changes or old:
        raise BadEdit("it has no 'old:' and 'new:' pair, or an 'old:' without its 'new:'")
    return changes


def apply(changes, sources):
    """Returns the sources with the changes made, each at the one place where its old text stands."""
    sources = dict(sources)
    for change in changes:
        if change.file not in sources:
            raise BadEdit(f"there is no file {change.file}")
        text = sources[change.file]
        if text.count(change.old) != 1:
            raise BadEdit(f"an 'old:' text stands in {change.file} {text.count(change.old)} times, and not once")
        sources[change.file] = text.replace(change.old, change.new)
    return sources


def function_at(change, text):
    """Returns the function in whose body the change lies, or None."""
    at = text.index(change.old)
    front = len(os.path.commonprefix([change.old, change.new]))
    back = len(os.path.commonprefix([change.old[front:][::-1], change.new[front:][::-1]]))
    start, end = at + front, at + len(change.old) - back
    inside = [it for it in functions_of(change.file, text) if it.body < start and end < it.end]
    return max(inside, key=lambda it: it.body).function if inside else None


def function_of(changes, sources):
    """Returns the one function that the changes change, each with those before it made, or None."""
    found = set()
    for change in changes:
        after = apply([change], sources)
        found.add(function_at(change, sources[change.file]))
        sources = after
    return found.pop() if len(found) == 1 else None


def read_edits(crate, folder, sources):
    """Returns the edits in a crate's folder of them, and those that cannot be applied with the reason."""
    edits, bad = [], []
    for name in sorted(os.listdir(folder)) if os.path.isdir(folder) else []:
        edit = Edit(crate, name.removesuffix(".edit"), [])
        try:
            if not name.endswith(".edit"):
                raise BadEdit("an edit is a file whose name ends in .edit")
            with open(f"{folder}/{name}", encoding="utf-8") as it:
                edit.changes = read_changes(it.read())
            edit.function = function_of(edit.changes, sources)
            edits.append(edit)
        except (BadEdit, OSError, UnicodeDecodeError) as why:
            bad.append((edit, str(why)))
    return edits, bad
