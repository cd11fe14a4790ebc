"""A session with a disk in a file, in which each call of the system in turn fails or answers short."""

import errno
import itertools
import os

from of_sockets.files import UNIT, content, in_file, made, scratch
from of_sockets.host import Queue, queues
from of_sockets.served import Served, check, check_equal, free_ports

from .calls import FDATASYNC, PREAD, PWRITE, Log
from .hosts import COMPARE, FLUSH, READ, WRITE, WRITING, ZEROES, Asked, Host
from .loads import named, named_units, unit_of

UNITS = 64
OTHER = b"nqn.2026-01.test:h2"
# Write Fault, Unrecovered Read Error, and Compare Failure, each with DNR.
WRITE_FAULT, READ_FAULT, COMPARE_FAILURE = 0x4280, 0x4281, 0x4285
# The faults of each kind of call: an errno, or 0 for a short answer; and the errno of the next, where that is to fail.
FAULTS = {
    PWRITE: ("pwrite", ((errno.EIO,), (errno.ENOSPC,), (0,), (0, errno.EIO))),
    PREAD: ("pread", ((errno.EIO,), (0,), (0, errno.EIO))),
    FDATASYNC: ("fdatasync", ((errno.EIO,), (errno.ENOSPC,))),
}
# More calls than the session makes.
CALLS = 100


def failing_calls(program, library):
    """A case for each session with a fault; of each fault up to the first session that does not meet it."""
    for kind, (name, faults) in FAULTS.items():
        for fault in faults:
            words = " and then ".join(errno.errorcode.get(it, "short") for it in fault)
            for number in range(1, CALLS):
                notes = []
                yield f"{name} {number} {words}", check_fault, program, library, (kind, number, *fault), notes
                if not any(it.is_made_up for it in notes):
                    break


def check_fault(program, library, fault, found):
    """The session with this fault, whose notes are added to those that are found."""
    with scratch() as folder:
        path, log = made(folder, UNITS), Log(os.path.join(folder, "log"))
        [port] = free_ports(1)
        edits = [*in_file(port, 0, UNITS), *(in_file(port, disk, UNITS, disk + 1)[-1] for disk in (1, 2))]
        options = ("--file", path, "--memory", str(UNITS), "--file", made(folder, UNITS, "other"))
        try:
            with Served(program, edits, options=options, environment=library.environment(path, log, fault)) as target:
                if fault[:2] == (FDATASYNC, 1):
                    check_does_not_begin(target)
                else:
                    serve(target, port, Session(log), path)
        finally:
            found += log.notes()


def check_does_not_begin(target):
    """Where the sync at the start fails, the program ends."""
    check_equal("the exit status", target.ended(), 1)
    check_equal("the first line of standard error", target.err().split(b"\n")[0], b"error: io")


def commands():
    """What the session asks for, in its order."""
    numbers = itertools.count(1)

    def write(first, blocks, is_fua=False):
        return Asked(WRITE, first, blocks, is_fua, named_units(next(numbers), first, blocks))

    # The data of the third are asked for, in two parts.
    for asked in (write(0, 1), write(8, 5, True), write(16, 40)):
        yield asked
        yield Asked(READ, asked.first, asked.blocks)
        yield Asked(COMPARE, asked.first, min(asked.blocks, 16), data=asked.data[: 16 * UNIT])
    yield from (Asked(FLUSH), Asked(ZEROES, 20, 3), Asked(READ, 0, UNITS), Asked(FLUSH), Asked(FLUSH))
    yield from (Asked(ZEROES, 8, 2, True), Asked(FLUSH), write(4, 2), Asked(COMPARE, 30, 1, data=named(9, 30)))
    yield from (write(0, 4), Asked(FLUSH), write(9, 1, True), Asked(READ, 0, UNITS))


def serve(target, port, session, path):
    """The session, on two connections in turn. Between its commands another host uses a disk in memory, or one in
    another file, and behind it every connection is there."""
    admin, io = queues(target, port)
    lines = [io, Queue(target, port, 2, admin.controller)]
    other_admin = Queue(target, port, host=OTHER)
    other_admin.enable()
    other_io = Queue(target, port, 1, other_admin.controller, host=OTHER)
    host, others = Host(lines), [Host([other_io, *lines], nsid) for nsid in (2, 3)]
    check_equal("the calls at the start", [it.kind for it in session.log.notes()], [FDATASYNC])
    for number, asked in enumerate(commands()):
        session.ask(host, asked, number % 2)
        check_other(others[number % 2], number, 0, session.log)
    for line in range(3):
        check_other(others[0], UNITS - 1, line, session.log)
    for each in (admin, other_admin):
        each.enable()
    check(target.is_running(), "the program ended")
    check(session.is_torn or session.holds(content(path), 0), "the file has other bytes")


def check_other(other, unit, line, log):
    """A host writes, flushes and reads another disk, which makes no call on the file."""
    start, data = log.length(), named(1000 + unit, unit)
    for asked in (Asked(WRITE, unit, 1, data=data), Asked(FLUSH), Asked(READ, unit, 1)):
        check_equal(f"the status of a {asked} of another disk", other.ask(asked, line).status, 0)
    check(asked.returned == data, "other bytes are read of another disk")
    check_equal("the length of the log behind commands for another disk", log.length(), start)


class Session:
    """What is known of the disk in the file."""

    def __init__(self, log):
        self.log = log
        # Of each unit what it may have.
        self.held = [{bytes(UNIT)} for _ in range(UNITS)]
        # How many syncs a Flush may make.
        self.syncs = {0}
        # Whether each command is to fail, and whether a write failed within a unit.
        self.is_dead = self.is_torn = False

    def ask(self, host, asked, line):
        """Asks for one command, whose answer and calls have to be as the disk is."""
        start = self.log.length()
        host.ask(asked, line)
        notes = self.log.notes(start)
        failed = [it for it in notes if it.answer < 0]
        if self.is_dead or failed:
            wanted = [READ_FAULT if asked.opcode in (READ, COMPARE) else WRITE_FAULT]
        else:
            wanted = self.compared(asked) if asked.opcode == COMPARE else [0]
        words = f"a {asked} of which {len(failed)} of {len(notes)} calls failed"
        check(asked.status in wanted, f"{words}: status {asked.status:#x}, wanted {' or '.join(map(hex, wanted))}")
        if self.is_dead:
            check_equal(f"the calls of a {asked} behind a fault that stays", notes, [])
            return
        if not failed:
            self.check_calls(asked, [it.kind for it in notes])
        self.follow(asked, notes)
        self.is_torn = any(it.kind == PWRITE and it.offset % UNIT for it in failed)
        self.is_dead = self.is_torn or any(it.kind == FDATASYNC for it in failed)

    def compared(self, asked):
        """The statuses that a Compare may have."""
        units = range(asked.first, asked.first + asked.blocks)
        pairs = [(unit_of(asked.data, unit - asked.first), self.held[unit]) for unit in units]
        if all(those == {data} for data, those in pairs):
            return [0]
        return [0, COMPARE_FAILURE] if all(data in those for data, those in pairs) else [COMPARE_FAILURE]

    def check_calls(self, asked, kinds):
        """A command that meets no fault makes these calls alone."""
        syncs = kinds.count(FDATASYNC)
        moves = PWRITE if asked.opcode in WRITING else PREAD
        check_equal(f"the calls of a {asked}", kinds, [moves] * (len(kinds) - syncs) + [FDATASYNC] * syncs)
        if asked.opcode == FLUSH:
            check(len(kinds) == syncs and syncs in self.syncs, f"a Flush makes {kinds}, where it may sync {self.syncs}")
        else:
            check(len(kinds) > syncs, f"a {asked} makes no call that moves data")
            check_equal(f"the syncs of a {asked}", syncs, int(asked.is_fua))

    def follow(self, asked, notes):
        """What the disk may have behind a command."""
        if asked.opcode in WRITING:
            for unit in range(asked.first, asked.first + asked.blocks):
                kept = set() if asked.status == 0 else self.held[unit]
                self.held[unit] = kept | {asked.given(unit)}
            is_sure = any(it.kind == PWRITE and it.answer > 0 for it in notes)
            self.syncs = {1} if is_sure else self.syncs | {1}
        if any(it.kind == FDATASYNC and it.answer == 0 for it in notes):
            self.syncs = {0}
        if asked.opcode == READ and asked.status == 0:
            check_equal(f"the length of a {asked}", len(asked.returned), asked.blocks * UNIT)
            check(self.holds(asked.returned, asked.first), f"a {asked} has other bytes")

    def holds(self, data, first):
        """Whether these bytes may stand from a unit on; then they do."""
        for unit in range(first, first + len(data) // UNIT):
            found = unit_of(data, unit - first)
            if found not in self.held[unit]:
                return False
            self.held[unit] = {found}
        return True
