"""Power cuts at many moments of loads: a target over what each may leave of a file has all that lasts."""

import os
import random

from of_sockets.files import UNIT, scratch, served_file
from of_sockets.served import check

from .calls import FDATASYNC, FSYNC, PWRITE, Log
from .loads import UNITS, check_left, loaded, may_be_left, unit_of

LOADS = 4
COMMANDS = 150
# Of each load.
CUTS = 50
# The share of units of which a power cut keeps some write since the latest sync.
SHARES = 0, 0.5, 1


def power_cuts(program, library):
    """A case for each load and each cut: its name, the test, and what that is told."""
    for seed in range(LOADS):
        draws = random.Random(seed)
        with scratch() as folder:
            load = NotedLoad(folder, draws)
            yield f"load {seed}", load.run, program, library
            for place in sorted(draws.sample(range(len(load.notes)), CUTS if load.notes else 0)):
                words = f"load {seed}, a power cut behind call {place + 1} of {len(load.notes)}"
                yield words, load.check_cut, program, place


def written(folder, name, data):
    """The path of a new file."""
    path = os.path.join(folder, name)
    with open(path, "wb") as file:
        file.write(data)
    return path


class NotedLoad:
    """A load over a file, all of whose commands are answered, and the notes of its calls."""

    def __init__(self, folder, draws):
        self.folder = folder
        self.draws = draws
        self.opening = draws.randbytes(UNITS * UNIT)
        self.asked, self.notes = [], []

    def run(self, program, library):
        path, log = written(self.folder, "disk", self.opening), Log(os.path.join(self.folder, "log"))
        with loaded(program, path, self.draws, library.environment(path, log), log.length) as (_, load):
            load.send(range(COMMANDS))
            load.take_all()
        notes = log.notes()
        check(len(notes) > CUTS, f"only {len(notes)} calls are noted")
        self.asked, self.notes = load.asked, notes

    def check_cut(self, program, place):
        """A target over what a power cut behind this call may leave."""
        path = written(self.folder, "left", self.left_by_cut(self.notes[: place + 1]))
        with served_file(program, path, UNITS, ("--quiet",)) as (_, io):
            check_left(io.read(0, UNITS), may_be_left(self.opening, self.asked, self.notes[place].end))

    def left_by_cut(self, notes):
        """Of each unit what the latest sync found, or anything that it got since."""
        stands, synced = bytearray(self.opening), self.opening
        # Of each unit what it got since the latest sync.
        since = {}
        for note in notes:
            if note.kind == PWRITE and note.answer > 0:
                end = note.offset + note.answer
                stands[note.offset : end] = note.data[: note.answer]
                for unit in range(note.offset // UNIT, (end + UNIT - 1) // UNIT):
                    since.setdefault(unit, []).append(bytes(unit_of(stands, unit)))
            elif note.kind in (FDATASYNC, FSYNC) and note.answer == 0:
                synced, since = bytes(stands), {}
        left, share = bytearray(synced), self.draws.choice(SHARES)
        for unit, those in since.items():
            if self.draws.random() < share:
                left[unit * UNIT : (unit + 1) * UNIT] = self.draws.choice(those)
        return left
