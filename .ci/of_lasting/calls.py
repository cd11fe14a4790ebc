"""The calls of the system on a file, as the preloaded library notes them."""

import os
import struct
import subprocess
from pathlib import Path
from typing import NamedTuple

SOURCE = Path(__file__).resolve().parent.parent.parent / "tests/lasting/file_calls.c"
# The kinds of calls, by the numbers of the library.
PREAD, PWRITE, FDATASYNC, FSYNC = 1, 2, 3, 4
NUMBERS = struct.Struct("=QqQqQ")


class Note(NamedTuple):
    """A call with its answer, or an errno below zero; whether that was made up; and what it was to write. Behind the
    note the log had so many bytes."""

    kind: int
    offset: int
    length: int
    answer: int
    is_made_up: int
    data: bytes
    end: int


class Library:
    """The library, compiled into a scratch folder."""

    def __init__(self, folder):
        self.path = os.path.join(folder, "file_calls.so")
        flags = ["-O2", "-Wall", "-Wextra", "-shared", "-fPIC"]
        subprocess.run([os.environ.get("CC", "cc"), *flags, "-o", self.path, str(SOURCE)], check=True)

    def environment(self, path, log, fault=None):
        """What it is told: the file whose calls it notes, where, and the numbers of a fault, where there is one."""
        told = {"LD_PRELOAD": self.path, "FILE_CALLS_PATH": path, "FILE_CALLS_LOG": log.path}
        return told | ({"FILE_CALLS_FAULT": " ".join(map(str, fault))} if fault else {})


class Log:
    """The notes of a program, which the library adds to a file."""

    def __init__(self, path):
        self.path = path
        Path(path).write_bytes(b"")

    def length(self):
        return os.stat(self.path).st_size

    def notes(self, start=0):
        """The notes from this length of it on."""
        held = Path(self.path).read_bytes()
        found, at = [], start
        while at < len(held):
            numbers = NUMBERS.unpack_from(held, at)
            at += NUMBERS.size
            data = held[at : at + numbers[2]] if numbers[0] == PWRITE else b""
            at += len(data)
            found.append(Note(*numbers, data, at))
        return found
