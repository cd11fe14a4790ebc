"""`nvt_host lab`: a target and two hosts, each a process of its own, which are ended whatever comes."""

import contextlib
import os
import signal
import socket
import subprocess
import tempfile
from pathlib import Path
from shlex import quote

from .served import SECONDS, check, check_equal, free_ports

ENDED = (1, b"", [b"error: lab"])
TURNS = 2_000_000


def lab(host, target, ports, turns=TURNS, environment=None):
    """Runs the lab in a process group of its own, in this environment, where it is not the usual one: its exit status,
    what it prints, and the lines of standard error. No process of the group is left behind it; where one is, it is
    ended and the test fails."""
    words = [host, "lab", target, "--port", str(ports[0]), "--control", str(ports[1]), "--turns", str(turns)]
    pipes = {"stdin": subprocess.DEVNULL, "stdout": subprocess.PIPE, "stderr": subprocess.PIPE}
    with subprocess.Popen(words, **pipes, env=environment, start_new_session=True) as process:
        try:
            out, err = process.communicate(timeout=6 * SECONDS)
        finally:
            is_left = ends_group(process.pid)
    check(not is_left, "a process is left")
    return process.returncode, out, err.splitlines()


def ends_group(group):
    """Whether there was a process of the group, which is ended."""
    try:
        os.killpg(group, signal.SIGKILL)
    except ProcessLookupError:
        return False
    return True


@contextlib.contextmanager
def script(text):
    """A program of these lines of a shell."""
    with tempfile.TemporaryDirectory(prefix="sockets-") as folder:
        path = Path(folder, "target")
        path.write_text(f"#!/bin/sh\n{text}\n")
        path.chmod(0o755)
        yield path


def check_ended(ran):
    status, out, lines = ran
    check_equal("how it ends", (status, out, lines[-1:]), ENDED)


def a_held_write_changes_nothing_that_is_read(program, host):
    status, out, lines = lab(host, program, free_ports(2))
    check_equal("how it ends", (status, out), (0, b"lab ok\n"))
    hosts = [line for line in lines if line.startswith(b"host")]
    check_equal("what the hosts print", hosts, [b"host 1: held", b"host 2: " + b"0" * 1024, b"host 1: ok"])


def a_target_that_ends_ends_the_lab(_, host):
    check_ended(lab(host, "/bin/false", free_ports(2)))


def a_target_that_is_no_program_ends_the_lab(_, host):
    check_ended(lab(host, "/nonexistent/nvt_target", free_ports(2)))


def a_target_that_does_not_listen_ends_the_lab(_, host):
    with script("exec sleep 60") as silent:
        check_ended(lab(host, silent, free_ports(2), turns=200))


def a_port_that_is_taken_ends_the_lab(program, host):
    # The target has all turns, not the lab's: as few as host 1 waits for are over while it starts.
    with socket.create_server(("127.0.0.1", 0)) as taken, script(f"exec {quote(str(program))} $1 $2 $3 $4") as target:
        [control] = free_ports(1)
        ran = lab(host, target, (taken.getsockname()[1], control), turns=10_000)
        check(b"target: port 1: cannot listen" in ran[2], f"the target says that the port is taken: {ran[2]}")
        check(b"host 1: error: turns" in ran[2], f"host 1 waits for its turns: {ran[2]}")
        check_ended(ran)


TESTS = [
    a_held_write_changes_nothing_that_is_read,
    a_target_that_ends_ends_the_lab,
    a_target_that_is_no_program_ends_the_lab,
    a_target_that_does_not_listen_ends_the_lab,
    a_port_that_is_taken_ends_the_lab,
]
