"""The lab, which starts a target and two hosts. Of these no growth is counted or refused: the shim takes itself out of
the environment that they get. A target that is none shows it, by what it prints of its environment."""

import pathlib
import subprocess

from of_sockets.labs import lab
from of_sockets.served import free_ports

from .runs import MEMORY, Case, counted

PATH = "/usr/bin:/bin"
WANTED, FAULT = MEMORY.splitlines(), [b"error: lab"]
# What its processes print, in the order in which it is echoed.
WORKED = [
    *[b"control: ok"] * 6,
    b"host 1: held",
    b"host 2: " + b"0" * 1024,
    b"host 1: ok",
    b"target: listening on 127.0.0.1:PORT, control",
    b"target: disks in memory: what is written to them is lost at the end",
    b'target: edit "port add 1 ipv4 127.0.0.1 PORT": ok',
    b"target: listening on 127.0.0.1:PORT, port 1",
    b'target: edit "subsys add nqn.2026-01.test:a SN-A closed": ok',
    b'target: edit "host add nqn.2026-01.test:h1": ok',
    b'target: edit "allow add nqn.2026-01.test:a nqn.2026-01.test:h1": ok',
    b'target: edit "link add 1 nqn.2026-01.test:a": ok',
    b'target: edit "ns add nqn.2026-01.test:a 1 0 2048 512 11111111-1111-4111-8111-111111111111 1": ok',
]
# What a target says of its connections comes in another order in each run, and is cut off where the lab ends.
OF_CONNECTIONS = b"target: connection "
NO_TARGET = """#!/bin/sh
echo "with ${LD_PRELOAD-nothing} in it"
echo "in $PATH"
echo "no target" >&2
exit 1
"""
ENDED = [b"target: with nothing in it", b"target: in " + PATH.encode(), b"target: no target", *FAULT]


class LabRun:
    """A lab of which one growth is refused: how it ends, what it prints, and whether a process is left behind it."""

    def __init__(self, shim, host, target, refused):
        ports = free_ports(2)
        self.status, self.out, self.lines, self.fault = None, b"", [], None
        with shim.counts() as counts:
            # What else is in its environment it copies for what it starts.
            environment = {**shim.environment(counts, refused), "PATH": PATH}
            try:
                self.status, self.out, lines = lab(host, target, ports, environment=environment)
                self.lines = [without_ports(line, ports) for line in lines if not line.startswith(OF_CONNECTIONS)]
            except (AssertionError, OSError, subprocess.TimeoutExpired) as why:
                self.fault = str(why)
            self.growths, self.refused = counted(counts)

    def end(self):
        return self.status, self.out, self.lines

    def says(self):
        lines = " | ".join(line[-80:].decode(errors="replace") for line in self.lines)
        return f"status {self.status}, {self.out!r}: {lines}"


def without_ports(line, ports):
    for port in ports:
        line = line.replace(b"127.0.0.1:%d," % port, b"127.0.0.1:PORT,")
        line = line.replace(b'127.0.0.1 %d"' % port, b'127.0.0.1 PORT"')
    return line


def are_parts(lines, whole):
    """Whether each of these lines is a part of one of the others, of the same process and in their order."""
    left = iter(whole)
    return all(any(is_part(line, each) for each in left) for line in lines)


def is_part(line, whole):
    name, _, text = line.partition(b": ")
    of, _, words = whole.partition(b": ")
    return name == of and text in words


class Lab(Case):
    """A lab. Its arguments are read before it begins: where one of these growths is refused it says `error: memory`,
    and has started nothing. After that it says `error: lab`, as of all that goes otherwise. What its processes printed
    is echoed until then, and once they are killed what is left of it, so of a line that was being read the end.

    A lab that passes over a refusal is found by its `lab ok`, or by what a process prints only where something went
    wrong; one that does not end a process where it is refused memory, by the process that is left in its group. Two
    that were made wrong so were found."""

    may_differ = True

    def __init__(self, name, host, target, end):
        self.name = name
        self.programs = host, target
        self.end = end

    def run(self, shim, refused):
        return LabRun(shim, *self.programs, refused)

    def fault_of(self, run, _ample):
        if run.fault:
            return run.fault
        if not run.refused:
            is_done = run.growths > 0 and run.end() == self.end
            return None if is_done else "the lab ends otherwise than with ample memory, or no growth is counted"
        if run.status == 0:
            return "the lab ends with status 0: the refusal was swallowed"
        told, last = run.lines[:-1], run.lines[-1:]
        if run.status != 1 or run.out or last not in (WANTED, FAULT):
            return "the lab does not end with status 1 and `error: memory` or `error: lab`"
        if last == WANTED:
            return "something was started" if told else None
        return None if are_parts(told, self.end[2]) else "a process prints what it does not with ample memory"


def labs(host, target, scratch):
    no_target = pathlib.Path(scratch, "no_target")
    no_target.write_text(NO_TARGET)
    no_target.chmod(0o755)
    return [
        Lab("nvt_host lab", host, target, (0, b"lab ok\n", WORKED)),
        Lab("nvt_host lab without a target", host, no_target, (1, b"", ENDED)),
    ]
