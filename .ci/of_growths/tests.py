"""Tests in Rattle, each of which makes again what was refused."""

import re
import subprocess
import sys

from .runs import Case

BASE = "nothing_grows"


class Test(Case):
    """A test of a binary that `rt ci` left."""

    def __init__(self, binary, name):
        self.name = f"test {name}"
        self.command = [str(binary), name]
        self.grows = not name.endswith(BASE)

    def fault_of(self, run, _ample):
        if run.status != 0 or b"test result: ok" not in run.out:
            return "the test fails"
        if self.grows != (run.growths > 0):
            return f"{run.growths} growths are counted: they are not those of the test alone"
        if answers(run.out) != run.refused:
            return f"{run.refused} growths were refused, and {answers(run.out)} calls answered Memory"
        return None


def answers(text):
    """How many answers Memory were seen."""
    found = re.findall(rb"^refused growths: ([0-9]+)$", text, re.MULTILINE)
    return int(found[0]) if len(found) == 1 else None


def tests_of(binary):
    listed = subprocess.run([binary, "--list"], capture_output=True, text=True, check=True)
    names = [line.removesuffix(": test") for line in listed.stdout.splitlines() if line.endswith(": test")]
    if not any(name.endswith(BASE) for name in names):
        sys.exit(f"refused-growths: {binary} has no test {BASE}")
    return [Test(binary, name) for name in names]
