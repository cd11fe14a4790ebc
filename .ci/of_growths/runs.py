"""Runs of a command, with one of its growths refused."""

import os
import pathlib
import struct
import subprocess
import tempfile

ROOT = pathlib.Path(__file__).resolve().parent.parent.parent
SHIM = ROOT / "tests/refused_growths/refuse_growth.c"
SECONDS = 60
MEMORY = b"error: memory\n"


class Shim:
    """The shim, compiled into a scratch folder, and files for its counts."""

    def __init__(self, folder):
        self.folder = folder
        self.path = f"{folder}/refuse_growth.so"
        compiler = os.environ.get("CC", "cc")
        flags = ["-O2", "-Wall", "-Wextra", "-shared", "-fPIC"]
        subprocess.run([compiler, *flags, "-o", self.path, str(SHIM)], check=True)

    def environment(self, counts, refused):
        """What the shim is told: where it counts, and which growth it refuses."""
        counts.write(bytes(16))
        counts.flush()
        return {"LD_PRELOAD": self.path, "REFUSE_GROWTH": str(refused), "GROWTHS_FILE": counts.name}

    def counts(self):
        return tempfile.NamedTemporaryFile(dir=self.folder)


def counted(counts):
    """How many growths there were, and how many of them were refused, so far."""
    return struct.unpack("=QQ", os.pread(counts.fileno(), 16, 0))


def refusals(counts):
    """How many growths were refused so far."""
    return counted(counts)[1]


class Run:
    """What a run of a command wrote, how it ended, and what the shim counted."""

    def __init__(self, shim, command, refused):
        with shim.counts() as counts:
            self.fill(command, shim.environment(counts, refused))
            self.growths, self.refused = counted(counts)

    def fill(self, command, environment):
        try:
            ended = subprocess.run(
                command,
                env=environment,
                stdin=subprocess.DEVNULL,
                capture_output=True,
                timeout=SECONDS,
                check=False,
            )
            self.status, self.out, self.err = ended.returncode, ended.stdout, ended.stderr
        except subprocess.TimeoutExpired as late:
            self.status, self.out, self.err = None, late.stdout or b"", late.stderr or b""

    def end(self):
        return self.status, self.out, self.err

    def says(self):
        """Its end and the last of what it wrote, on one line."""
        wrote = " | ".join((self.out[-300:] + b"\n" + self.err[-300:]).decode(errors="replace").split("\n"))
        return f"status {self.status}: {wrote}"


class Case:
    """A command with a name, and what is wrong with a run of it: of one with ample memory, and of one beside that."""

    # Whether a run may make other growths than another: what comes over sockets and pipes comes in pieces that differ.
    may_differ = False
    # What the growths that are refused have to be of, as far as no run has shown it yet.
    unseen = ()

    def run(self, shim, refused):
        return Run(shim, self.command, refused)
