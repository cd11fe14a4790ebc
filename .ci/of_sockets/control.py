"""The control port, and what the program says: editors that are silent, ports that cannot be listened to, output that
nobody takes, and the end of a run."""

import contextlib
import fcntl
import os
import socket
import time

from .host import Queue, queues
from .lines import PORT_2, served
from .played import QUIET_SECONDS
from .served import NQN, Served, check, check_equal, connected, eventually, free_ports, is_closed, one_disk
from .turns import turns_for, until_turns_end
from .unread import SMALL, ask_until_it_waits, queues_of_many, read_to_its_end

EDITORS = 16
COMPLAINT = b"port 1: cannot listen\n"
# The least that a pipe holds, and how to ask for it.
PIPE = 4096
F_SETPIPE_SZ = 1031
# What is to be seen before the turns of a target end takes less.
AWAKE = 3
# How much waits in the target, as it is asked for.
WAITS = 200_000
# How soon a run ends that cannot begin.
SOON = 3
# How long a run goes on after its turns, to send what it kept.
LINGERS = 4


def one_more_editor_takes_the_place_of_the_most_silent(program):
    with served(program) as target:
        editors = [target.editor() for _ in range(EDITORS)]
        time.sleep(QUIET_SECONDS)
        check_equal("a 17th that edits", target.editor().edit(b""), b"line 0 Empty")
        check(is_closed(editors[0].peer), "the first of those who said nothing is not closed")
        for editor in editors[1:]:
            check_equal("another that edits", editor.edit(b""), b"line 0 Empty")


def one_that_edits_keeps_its_place(program):
    with served(program) as target:
        editors = [target.editor() for _ in range(EDITORS)]
        # The fourth is the one that edited first, and so is silent the longest.
        for editor in editors[3:] + editors[:3]:
            check_equal("one that edits", editor.edit(b""), b"line 0 Empty")
            time.sleep(0.01)
        more = target.editor()
        check_equal("a 17th that edits", more.edit(b""), b"line 0 Empty")
        check(is_closed(editors.pop(3).peer), "the one that was silent the longest is not closed")
        for editor in [*editors, more]:
            check_equal("another that edits", editor.edit(b""), b"line 0 Empty")


def three_thousand_that_come_and_go_delay_no_edit(program):
    with served(program) as target:
        editor = target.editor()
        check_equal("an edit", editor.edit(b""), b"line 0 Empty")
        for _ in range(3000):
            connected(target.control).close()
        began = time.monotonic()
        check_equal("an edit behind them", editor.edit(b""), b"line 0 Empty")
        check_equal("one of another editor", target.editor().edit(b""), b"line 0 Empty")
        seconds = time.monotonic() - began
        check(seconds < 2, f"an edit behind 3,000 connections takes {seconds:.1f} seconds")


def a_port_that_cannot_be_listened_to_is_named_once(program):
    [other] = free_ports(1)
    with socket.create_server(("127.0.0.1", 0)) as taken:
        port = taken.getsockname()[1]
        with Served(program, one_disk(port)) as target:
            editor = target.editor()
            for line in (b"host add " + NQN, b"host del " + NQN, b"host add " + NQN):
                check_equal("an edit", editor.done(line), b"ok")
            check_complaints(target, 1)
            taken.close()
            check_equal("an edit", editor.done(b"host del " + NQN), b"ok")
            Queue(target, port).close()
            check_complaints(target, 1)
            check_equal("port set", editor.done(b"port set 1 ipv4 127.0.0.1 %d" % other), b"ok")
            with retaken(port):
                check_equal("port set", editor.done(b"port set 1 ipv4 127.0.0.1 %d" % port), b"ok")
                check_equal("an edit", editor.done(b"host add " + NQN), b"ok")
                check_complaints(target, 2)


def a_port_that_is_added_again_is_named_again(program):
    with socket.create_server(("127.0.0.1", 0)) as taken:
        port = taken.getsockname()[1]
        add = b"port add 1 ipv4 127.0.0.1 %d" % port
        with Served(program, [add]) as target:
            editor = target.editor()
            check_equal("an edit", editor.done(b"host add " + NQN), b"ok")
            check_complaints(target, 1)
            taken.close()
            check_equal("an edit", editor.done(b"host del " + NQN), b"ok")
            target.connect(port).close()
            check_equal("port del", editor.done(b"port del 1"), b"ok")
            with retaken(port):
                check_equal("port add", editor.done(add), b"ok")
                check_equal("an edit", editor.done(b"host add " + NQN), b"ok")
                check_complaints(target, 2)


def check_complaints(target, count):
    """So often port 1 was named on standard output, and nothing else was said there."""
    time.sleep(QUIET_SECONDS)
    check_equal("standard output", target.out(), COMPLAINT * count)


def retaken(port):
    """A listener at a port that was listened to."""
    return eventually(lambda: socket.create_server(("127.0.0.1", port)))


def one_address_of_two_families_is_listened_to_once(program):
    [port] = free_ports(1)
    with Served(program, one_disk(port)[1:2]) as target:
        editor = target.editor()
        check_equal("port add", editor.done(b"port add 1 ipv4 0.0.0.0 %d" % port), b"ok")
        check_equal("link add", editor.done(b"link add 1 " + NQN), b"ok")
        check_equal("port add", editor.done(b"port add 2 ipv6 :: %d" % port), b"ok")
        check_equal("standard output", target.out(), b"port 2: cannot listen\n")
        Queue(target, port).close()


@contextlib.contextmanager
def full_pipe():
    """The end of a small pipe that is written to; nobody reads the other."""
    reads, writes = os.pipe()
    fcntl.fcntl(writes, F_SETPIPE_SZ, PIPE)
    try:
        yield writes
    finally:
        os.close(reads)


@contextlib.contextmanager
def taken_places():
    """Two port numbers that somebody listens to."""
    with socket.create_server(("127.0.0.1", 0)) as one, socket.create_server(("127.0.0.1", 0)) as other:
        yield one.getsockname()[1], other.getsockname()[1]


def output_that_nobody_reads_stops_nothing(program):
    first, second = free_ports(2)
    with full_pipe() as out, taken_places() as places:
        edits = [*one_disk(first), b"port add 2 ipv4 127.0.0.1 %d" % second, b"link add 2 " + NQN]
        with Served(program, edits, turns=turns_for(program, AWAKE), out=out) as target:
            _, io = queues(target, first)
            editor = target.editor()
            for number in range(2 * PIPE // len(COMPLAINT)):
                line = b"port set 2 ipv4 127.0.0.1 %d" % places[number % 2]
                check_equal("an edit", editor.edit(line), b"ok")
            io.read(0, 8)
            Queue(target, first).close()
            check_equal("a new editor", target.editor().edit(b""), b"line 0 Empty")
            check(target.is_running(), "its turns ended too soon")
            until_turns_end(target, first)
            check_equal("the exit status", target.ended(), 1)
            check_equal("the last line", target.err().split(b"\n")[-2], b"error: io")


def a_first_word_that_cannot_be_written_ends_the_program(program):
    with socket.create_server(("127.0.0.1", 0)) as taken:
        with Served(program, one_disk(taken.getsockname()[1]), out="/dev/full") as target:
            check_equal("the exit status without standard output", target.ended(SOON), 1)
            check_equal("the last line", target.err().split(b"\n")[-2:], [b"error: io", b""])
    [port] = free_ports(1)
    with Served(program, one_disk(port), err="/dev/full") as target:
        check_equal("the exit status without standard error", target.ended(SOON), 1)


def what_waits_at_the_end_of_a_connection_is_sent(program):
    first, second = free_ports(2)
    edits = [*one_disk(first), PORT_2 % second, b"link add 2 " + NQN]
    with Served(program, edits, options=("--disks", "1")) as target:
        deaf = queues_of_many(target, second, 2, **SMALL)[1]
        host = ask_until_it_waits(deaf, WAITS)
        editor = target.editor()
        check_equal("link del", editor.edit(b"link del 2 " + NQN), b"ok")
        check_equal("port del", editor.edit(b"port del 2"), b"ok")
        read_to_its_end(host)
        check(host.owed.is_paid(), f"the connection ends: {host.owed.left()}")


def what_waits_at_the_end_of_the_turns_is_sent(program):
    [port] = free_ports(1)
    with Served(program, one_disk(port), options=("--disks", "1"), turns=turns_for(program, AWAKE)) as target:
        deaf = queues_of_many(target, port, 2, **SMALL)[1]
        host = ask_until_it_waits(deaf, WAITS)
        check(target.is_running(), "its turns ended too soon")
        until_turns_end(target, port)
        began = time.monotonic()
        read_to_its_end(host)
        check(host.owed.is_paid(), f"the run ends: {host.owed.left()}")
        check_equal("the exit status", target.ended(), 0)
        seconds = time.monotonic() - began
        check(seconds < LINGERS, f"the program ends {seconds:.1f} seconds after its turns")


def one_that_reads_nothing_delays_no_end(program):
    [port] = free_ports(1)
    with Served(program, one_disk(port), options=("--disks", "1"), turns=turns_for(program, AWAKE)) as target:
        deaf = queues_of_many(target, port, 2, **SMALL)[1]
        ask_until_it_waits(deaf, WAITS)
        check(target.is_running(), "its turns ended too soon")
        until_turns_end(target, port)
        check_equal("the exit status", target.ended(LINGERS), 0)


TESTS = [
    one_more_editor_takes_the_place_of_the_most_silent,
    one_that_edits_keeps_its_place,
    three_thousand_that_come_and_go_delay_no_edit,
    a_port_that_cannot_be_listened_to_is_named_once,
    a_port_that_is_added_again_is_named_again,
    one_address_of_two_families_is_listened_to_once,
    output_that_nobody_reads_stops_nothing,
    a_first_word_that_cannot_be_written_ends_the_program,
    what_waits_at_the_end_of_a_connection_is_sent,
    what_waits_at_the_end_of_the_turns_is_sent,
    one_that_reads_nothing_delays_no_end,
]
