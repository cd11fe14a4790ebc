"""Checks of a crate with some of its bodies replaced, and what they say."""

import json
import os
import re
import shutil
import subprocess
import tempfile
from dataclasses import dataclass

PARTS = ("src", "specs", "proofs")
# rattle's exit statuses: the crate is proved, and it is not.
PROVED, REFUSED = 0, 1
FUNCTION = re.compile(r"^fn (\S+): (no proof|not proved|could not tell)(.*)$")
# Not the prover: the compiler, or antt where it cannot read what was edited.
UNREAD = re.compile(r"^error(\[|:)|^(\./)?(src|specs)/\S+:\d+:\d+: error|^\S+\.rt:\d+:\d+: error")
# A proof file that names what an edit took away says little of the contract.
NAMES = re.compile(r"has no field|is not in scope|has no `|was not admitted|is no name")


def kit():
    page = subprocess.run(["rt", "doc"], capture_output=True, text=True, check=True).stdout.strip()
    return os.path.dirname(page)


@dataclass
class Crate:
    """A crate of the repository: its folder, the libraries that it names, and all those of the repository that
    stand below it."""

    name: str
    folder: str
    of_kit: list
    named: list
    below: list

    def root_file(self):
        return "src/main.rt" if os.path.isfile(f"{self.folder}/src/main.rt") else "src/lib.rt"

    def library(self):
        """Returns where 'rt ci' leaves what it proved of a library."""
        return f"{self.folder}/out/rlib/{self.name}.rlib"

    def sources(self):
        found = {}
        for at, _, names in os.walk(f"{self.folder}/src"):
            for name in names:
                if name.endswith(".rt"):
                    path = f"{at}/{name}"
                    with open(path, encoding="utf-8") as it:
                        found[os.path.relpath(path, self.folder)] = it.read()
        return found


def crates_of(root):
    """Returns the crates that crates.txt lists, by name."""
    lists = {}
    with open(f"{root}/crates.txt", encoding="utf-8") as it:
        for line in it:
            name, colon, libraries = line.partition("#")[0].partition(":")
            if colon:
                lists[name.split()[0]] = libraries.split()

    def below(name):
        found = []
        for it in lists[name]:
            found += [lower for lower in [*(below(it) if it in lists else []), it] if it in lists and lower not in found]
        return found

    crates = {}
    for name, libraries in lists.items():
        of_kit, named = [it for it in libraries if it not in lists], [it for it in libraries if it in lists]
        crates[name] = Crate(name, f"{root}/crates/{name}", ["std", *of_kit], named, below(name))
    return crates


class Checker:
    """Checks crates whose libraries were proved and built, by their names in `crates`. What a check proves of a crate it
    keeps, in the folder `scratch`, for the next one of that crate, which begins once it has ended."""

    def __init__(self, crates, scratch):
        self.crates, self.scratch, self.kit = crates, scratch, kit()

    def words(self, crate):
        words = [f"{self.kit}/bin/rattle", "check", "--crate-name", crate.name, crate.root_file()]
        for name in crate.of_kit:
            words += ["--extern", f"{name}={self.kit}/rlibs/{name}.rlib"]
        for name in crate.named:
            words += ["--extern", f"{name}={self.crates[name].library()}"]
        for folder in [f"{self.kit}/rlibs", *(os.path.dirname(self.crates[it].library()) for it in crate.below)]:
            words += ["-L", f"dependency={folder}"]
        words += ["--antt-project", f"{self.kit}/rattle/logic/antt-project.json", "--logic-built", f"{self.kit}/logic_built"]
        return [*words, "--links", f"{crate.name}=", "--jobs", "1", "--incremental", f"{self.scratch}/{crate.name}"]

    def check(self, crate, sources, only, proofs={}):
        """Checks a copy of the crate with these sources and files of proofs; of it only the named functions and what
        they call, where there are any. Returns the exit status and the lines that were printed."""
        with tempfile.TemporaryDirectory(prefix=f"{crate.name}-", dir=self.scratch) as room:
            for part in PARTS:
                if os.path.isdir(f"{crate.folder}/{part}"):
                    shutil.copytree(f"{crate.folder}/{part}", f"{room}/{part}")
            for path, text in {**sources, **proofs}.items():
                os.makedirs(os.path.dirname(f"{room}/{path}"), exist_ok=True)
                with open(f"{room}/{path}", "w", encoding="utf-8") as it:
                    it.write(text)
            words = [*self.words(crate), *(it for path in only for it in ("--only", path))]
            how = {"cwd": room, "stdin": subprocess.DEVNULL, "stdout": subprocess.PIPE, "stderr": subprocess.STDOUT}
            ran = subprocess.run(words, errors="replace", **how)
            return ran.returncode, ran.stdout.split("\n")


def proved(lines):
    """Returns the printed names of the functions that are proved."""
    return [it[1] for it in map(re.compile(r"fn (\S+): proved").match, lines) if it]


def compiled(crate):
    """Returns the printed names of the functions of a built library."""
    file = f"{crate.library()}/toolchain/mir.json"
    if not os.path.isfile(file):
        return []
    with open(file, encoding="utf-8") as it:
        return [name for name, _ in json.load(it)]


def failures(crate, lines):
    """Returns the printed names of the functions that are not proved at a goal of their own: that a function calls one
    which is not proved says nothing."""
    proofs = {}
    for line in lines:
        at = re.match(r"(?:\./)?proofs/(\S+)/[^/\s]+:\d+:\d+: error: (.*)", line)
        if at and not NAMES.search(at[2]):
            proofs[at[1]] = line
    found = []
    for line in lines:
        said = FUNCTION.match(line)
        if not said:
            continue
        folder = said[1].removeprefix(f"{crate}::").replace("::", "/")
        is_own = "did not prove" in said[3] if said[2] == "no proof" else said[2] == "not proved" and folder in proofs
        if is_own:
            found.append(said[1])
    return found


def could_not_be_read(lines):
    """Returns the first line that says that the edited text was not read, or nothing where the prover came to it."""
    bad = next((it for it in lines if UNREAD.match(it)), "")
    if bad or not any(it.startswith("fn ") for it in lines):
        return bad or next((it for it in lines if "error" in it), "it did not reach the prover")
    return ""
