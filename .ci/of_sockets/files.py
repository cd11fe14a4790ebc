"""Disks in files: what hosts write stays, and a file has one target."""

import contextlib
import os
import subprocess
import tempfile

from .host import command, queues
from .served import NQN, Served, check, check_equal, eventually, free_ports, one_disk

MEMORY = b"disks in memory: what is written to them is lost at the end"
UNIT = 512


def in_file(port, disk, units, nsid=1):
    """The edits of a target with a namespace on this disk."""
    uuid = b"11111111-1111-4111-8111-%012d" % disk
    return [*one_disk(port)[:-1], b"ns add %s %d %d %d 512 %s 1" % (NQN, nsid, disk, units, uuid)]


@contextlib.contextmanager
def served_file(program, path, units, options=()):
    """A target over a file of so many units, and an I/O queue of it."""
    [port] = free_ports(1)
    with Served(program, in_file(port, 0, units), options=("--file", str(path), *options)) as target:
        _, io = queues(target, port)
        yield target, io


def flush(io):
    check_equal("the status of a Flush", io.answer(command(0, io.next(), 1))[0], 0)


def zero(io, block, blocks):
    """A Write Zeroes."""
    words = block.to_bytes(8, "little") + (blocks - 1).to_bytes(2, "little")
    check_equal("the status of a Write Zeroes", io.answer(command(8, io.next(), 1, words=words))[0], 0)


def made(folder, units, name="disk"):
    """The path of a new file of so many units of zeros."""
    path = os.path.join(folder, name)
    with open(path, "wb") as file:
        file.truncate(units * UNIT)
    return path


def scratch():
    return tempfile.TemporaryDirectory(prefix="files-")


def content(path):
    with open(path, "rb") as file:
        return file.read()


def what_is_written_to_a_file_stays(program):
    with scratch() as folder:
        path = made(folder, 64)
        wanted = bytearray(64 * UNIT)
        with served_file(program, path, 64) as (_, io):
            for block, blocks, byte in ((0, 1, b"a"), (63, 1, b"b"), (8, 16, b"c"), (20, 8, b"d")):
                io.write(block, byte * blocks * UNIT)
                wanted[block * UNIT : (block + blocks) * UNIT] = byte * blocks * UNIT
            zero(io, 12, 3)
            wanted[12 * UNIT : 15 * UNIT] = bytes(3 * UNIT)
            flush(io)
            check(content(path) == wanted, "the file has not what was written")
        # The target was killed.
        check(content(path) == wanted, "the file lost what was written")
        with served_file(program, path, 64) as (_, io):
            check(io.read(0, 64) == wanted, "a Read gives not what was written")


def a_file_has_one_target(program):
    with scratch() as folder:
        path = made(folder, 8)
        with served_file(program, path, 8) as (target, io):
            io.write(0, b"a" * UNIT)
            [port] = free_ports(1)
            with Served(program, in_file(port, 0, 8), options=("--file", path)) as second:
                check_equal("the exit status", second.ended(), 1)
                text = b"error: io\n%s: another target uses this disk\n" % path.encode()
                check_equal("standard error", second.err(), text)
                check_equal("standard output", second.out(), b"")
            # A check looks at its size alone.
            words = [program, "check", target.path("EDITS"), "--file", path]
            run = subprocess.run(words, stdout=subprocess.PIPE, check=False)
            check_equal("what a check prints", run.stdout, b"ok\n")
            check_equal("a Read of the first target", io.read(0, 1), b"a" * UNIT)
            io.write(1, b"b" * UNIT)
            check_equal("the file", content(path), b"a" * UNIT + b"b" * UNIT + bytes(6 * UNIT))


def disks_have_the_order_in_which_they_are_given(program):
    with scratch() as folder:
        paths = [made(folder, units, name) for units, name in ((3, "three"), (5, "five"))]
        words = ("--memory", "2", "--file", paths[0], "--memory", "4", "--file", paths[1], "--memory", "6")
        [port] = free_ports(1)
        edits = one_disk(port)[:-1] + [in_file(port, disk, disk + 2, disk + 1)[-1] for disk in range(5)]
        with Served(program, edits, options=words) as target:
            _, io = queues(target, port)
            for disk in range(5):
                io.write(disk + 1, b"%d" % disk * UNIT, disk + 1)
            check_equal("the first file", content(paths[0]), bytes(2 * UNIT) + b"1" * UNIT)
            check_equal("the second file", content(paths[1]), bytes(4 * UNIT) + b"3" * UNIT)
            check_equal("whole disks", target.editor().edit(b"ns size %s 2 4" % NQN), b"refused BadValue Blocks")


def a_disk_in_memory_is_told(program):
    with scratch() as folder:
        path = made(folder, 8)
        check_is_told(program, ("--memory", "8", "--file", path), 1)
        check_is_told(program, ("--disks", "2"), 1)
        check_is_told(program, ("--file", path), 0)
        check_is_told(program, ("--memory", "8", "--quiet"), 0)


def check_is_told(program, options, times):
    """So many lines say that what is written to disks in memory does not last."""
    [port] = free_ports(1)
    with Served(program, in_file(port, 0, 8), options=options) as target:
        queues(target, port)
        if "--quiet" not in options:
            eventually(lambda: check(b", queue 1: success" in target.err(), "no Connect is told"))
        check_equal(f"with {options}", target.err().split(b"\n").count(MEMORY), times)


def a_file_that_was_cut_is_a_fault_of_a_read(program):
    with scratch() as folder:
        path = made(folder, 8)
        with served_file(program, path, 8) as (_, io):
            io.write(0, b"a" * 8 * UNIT)
            os.truncate(path, 4 * UNIT + 100)
            check_equal("a Read before the end", io.read(0, 4), b"a" * 4 * UNIT)
            # Unrecovered Read Error.
            check_equal("the status of a Read", io.answer(io.reading(3, 2))[0] >> 1 & 0x7FF, 0x281)
            check_equal("a Read before the end", io.read(1, 2), b"a" * 2 * UNIT)


TESTS = [
    what_is_written_to_a_file_stays,
    a_file_has_one_target,
    disks_have_the_order_in_which_they_are_given,
    a_disk_in_memory_is_told,
    a_file_that_was_cut_is_a_fault_of_a_read,
]
