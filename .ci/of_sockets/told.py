"""What `run` tells on standard error: who connects, how its Connect is answered, how a connection ends, and each edit."""

import contextlib
import os
import re
import select
import socket
import struct
import time

from .control import full_pipe
from .host import ANY_CONTROLLER, HOST, Queue, capsule, command, connect_data, initialized, queues
from .hosts import on_one_port, reset_when_closed
from .served import NQN, Served, check, check_equal, connected, eventually, free_ports, is_closed, one_disk
from .slots import OTHER, on_port_2

# Hosts of a flood, the lines of each, and how many lines may be printed in a second.
FLOOD = 1000
LINES_EACH = 2
LINES_A_SECOND = 100
LEFT_OUT = rb"lines left out: (\d+)"
# How the lines of the start begin: of the listeners, and of disks in memory.
OF_START = b"listening on ", b"disks in memory: "
# Lines of 4 KiB that nobody reads: more than a pipe and the program hold.
UNREAD = 500


def told(target):
    """The lines so far, but for those of the start."""
    return [line for line in target.err().split(b"\n")[:-1] if not line.startswith(OF_START)]


def check_told(target, wanted):
    eventually(lambda: check_equal("standard error", told(target), wanted))


def opened(number, name, port=1):
    """The line of a connection from this address."""
    address, service = name
    return b"connection %d: %s:%d connected to port %d" % (number, address.encode(), service, port)


def answered(number, qid, answer, host=HOST, subsystem=NQN):
    words = number, host, subsystem, qid, answer
    return b"connection %d: Connect of %s to %s, queue %d: %s" % words


@on_one_port
def a_connection_is_told_from_its_beginning_to_its_end(target, port):
    admin, io = queues(target, port)
    names = admin.peer.getsockname(), io.peer.getsockname()
    io.read(0, 8)
    begun = [
        opened(1, names[0]),
        answered(1, 0, b"success, CNTLID 1"),
        opened(2, names[1]),
        answered(2, 1, b"success, CNTLID 1"),
    ]
    check_told(target, begun)
    io.close()
    ended = [*begun, b"connection 2: closed by the host"]
    check_told(target, ended)
    admin.close()
    check_told(target, [*ended, b"connection 1: closed by the host"])


def connects(peer, cid, subsystem=NQN, host=HOST, qid=0, controller=ANY_CONTROLLER):
    """Sends a Connect."""
    words = struct.pack("<HHHHI", 0, qid, 31, 0, 0)
    peer.sendall(capsule(command(0x7F, cid, 1, 1024, 1, words), connect_data(controller, subsystem, host)))


def a_connect_that_is_refused_is_told_with_its_status(program):
    first, second = free_ports(2)
    with Served(program, [*one_disk(first), *on_port_2(second)]) as target:
        peer = initialized(target, second)
        connects(peer, 1, OTHER, b"nqn.2026-01.test:h2")
        connects_are = [
            opened(1, peer.getsockname(), 2),
            answered(1, 0, b"connect invalid host", b"nqn.2026-01.test:h2", OTHER),
        ]
        check_told(target, connects_are)
        connects(peer, 2, NQN)
        connects_are += [answered(1, 0, b"connect invalid parameters, at byte 256 of the data")]
        check_told(target, connects_are)
        connects(peer, 3, OTHER, qid=1, controller=7)
        connects_are += [answered(1, 1, b"connect invalid parameters, at byte 16 of the data", subsystem=OTHER)]
        check_told(target, connects_are)
        connects(peer, 4, OTHER)
        connects_are += [answered(1, 0, b"success, CNTLID 1", subsystem=OTHER)]
        check_told(target, connects_are)


@on_one_port
def a_name_that_is_none_is_told_in_hex(target, port):
    peer = initialized(target, port)
    connects(peer, 1, host=b'nqn.\x1b[31m"\\\xff')
    shown = rb"nqn.\x1B[31m\x22\x5C\xFF"
    words = b"connect invalid parameters, at byte 512 of the data"
    check_told(target, [opened(1, peer.getsockname()), answered(1, 0, words, shown)])


@on_one_port
def a_connect_behind_other_commands_is_told(target, port):
    peer = initialized(target, port)
    keep_alive = capsule(command(0x18, 1))
    peer.sendall(keep_alive * 3)
    connects(peer, 1, qid=0)
    check_told(target, [opened(1, peer.getsockname()), answered(1, 0, b"success, CNTLID 1")])


@on_one_port
def how_a_connection_ends_is_told(target, port):
    lines = []
    for number, act in enumerate((resets, sends_no_pdu, sends_half_a_header), 1):
        peer = target.connect(port)
        lines.append(opened(number, peer.getsockname()))
        check_told(target, lines)
        lines.append(b"connection %d: %s" % (number, act(peer)))
        check_told(target, lines)


def resets(peer):
    reset_when_closed(peer)
    peer.close()
    return b"reset"


def sends_no_pdu(peer):
    peer.sendall(b"\x99" * 8)
    return b"ended by the target: C2HTermReq invalid header field, at byte 0"


def sends_half_a_header(peer):
    peer.sendall(b"\0\0\x80")
    peer.shutdown(socket.SHUT_WR)
    return b"closed by the host"


@on_one_port
def what_is_sent_before_an_end_does_not_hide_it(target, port):
    admin, io = queues(target, port)
    io.read(0, 256)
    io.peer.sendall(capsule(io.reading(0, 256)) * 3 + b"\4\0\x48\0\7\0\0\0")
    ended = b"connection 2: ended by the target: C2HTermReq invalid header field, at byte 4"
    while io.pdu()[0] != 3:
        pass
    eventually(lambda: check_equal("the last line", told(target)[-1], ended))
    admin.enable()


def an_edit_that_ends_a_connection_is_told(program):
    first, second = free_ports(2)
    with Served(program, [*one_disk(first), *on_port_2(second)], options=("--disks", "2")) as target:
        host = Queue(target, second, subsystem=OTHER)
        line = b"allow del %s %s" % (OTHER, HOST)
        check_equal("a reply", target.editor().edit(line), b"ok")
        lines = [
            opened(1, host.peer.getsockname(), 2),
            answered(1, 0, b"success, CNTLID 1", subsystem=OTHER),
            b'edit "%s": ok' % line,
            b"connection 1: ended by the target",
        ]
        check_told(target, lines)


@on_one_port
def each_edit_is_told_with_its_reply(target, _):
    editor = target.editor()
    lines = [
        (b"host add " + HOST, b"ok", b"host add " + HOST),
        (b"host add " + HOST, b"refused Exists Host", b"host add " + HOST),
        (b"", b"line 0 Empty", b""),
        (b"port \x07\xe9", b"line 5 UnknownWord", rb"port \x07\xE9"),
        (b"\\" * 1024, b"line 0 UnknownWord", rb"\x5C" * 1024),
    ]
    for line, reply, _ in lines:
        check_equal("a reply", editor.edit(line), reply)
    check_told(target, [b'edit "%s": %s' % (shown, reply) for _, reply, shown in lines])


@on_one_port
def a_65th_host_is_told(target, port):
    hosts = [target.connect(port) for _ in range(64)]
    eventually(lambda: check_equal("the number of lines", len(told(target)), 64))
    more = target.connect(port)
    name = more.getsockname()
    check(is_closed(more), "a 65th is not closed")
    line = opened(0, name).split(b": ", 1)[1] + b", and was closed: 64 hosts are connected"
    eventually(lambda: check_equal("the last line", told(target)[-1], line))
    check(len(hosts) == 64, "64 hosts are there")


def nothing_is_told_where_that_is_asked_for(program):
    [port] = free_ports(1)
    with Served(program, one_disk(port), options=("--quiet",)) as target:
        admin, io = queues(target, port)
        io.read(0, 8)
        editor = target.editor()
        check_equal("a reply", editor.edit(b"host add " + HOST), b"ok")
        admin.close()
        io.close()
        check_equal("another", editor.edit(b"port del 9"), b"refused NoSuch Port")
        check_equal("standard error", target.err(), b"")


def flood(target, port):
    """Many hosts come and go, each of which is heard: one that is gone before it is accepted may never be."""
    for _ in range(FLOOD):
        with initialized(target, port) as peer:
            peer.shutdown(socket.SHUT_WR)
            check(is_closed(peer), "a host that sends no more is not closed")


@on_one_port
def a_flood_is_told_in_part(target, port):
    began = time.monotonic()
    flood(target, port)
    # Once all are gone and a second has passed, one more line tells how many were left out.
    Queue(target, port).close()
    time.sleep(1.5)
    seconds = time.monotonic() - began
    check_equal("a reply", target.editor().edit(b"port del 9"), b"refused NoSuch Port")
    last = b'edit "port del 9": refused NoSuch Port'
    eventually(lambda: check_equal("the last line", told(target)[-1], last))
    lines = told(target)
    counts = [int(found[1]) for line in lines if (found := re.fullmatch(LEFT_OUT, line))]
    printed = len(lines) - len(counts)
    check_equal("lines, with those left out", printed + sum(counts), LINES_EACH * FLOOD + 3 + 1)
    check(printed <= LINES_A_SECOND * (int(seconds) + 2), f"{printed} lines in {seconds:.1f} seconds")


def a_log_that_nobody_reads_stops_nobody(program):
    [port] = free_ports(1)
    with full_pipe() as err, Served(program, one_disk(port), err=f"/dev/fd/{err}") as target:
        eventually(lambda: connected(port).close())
        admin, io = queues(target, port)
        editor = target.editor()
        for number in range(300):
            check_equal("a reply", editor.edit(b"x" * 1024), b"line 0 UnknownWord")
            if number % 10 == 0:
                time.sleep(0.1)
            io.read(0, 8)
        began = time.monotonic()
        admin.enable()
        Queue(target, port).close()
        seconds = time.monotonic() - began
        check(seconds < 2, f"a host waits for {seconds:.1f} seconds")


def what_found_no_room_is_counted(program):
    """Lines for which there was no room, while nobody read, are counted once somebody does."""
    [port] = free_ports(1)
    reads, writes = os.pipe()
    with contextlib.ExitStack() as stack:
        stack.callback(os.close, reads)
        with Served(program, one_disk(port), err=f"/dev/fd/{writes}") as target:
            os.close(writes)
            eventually(lambda: connected(target.control).close())
            editor = target.editor()
            for number in range(UNREAD):
                check_equal("a reply", editor.edit(b"\1" * 1024), b"line 0 UnknownWord")
                if number % 50 == 49:
                    time.sleep(0.6)
            held = taken(reads)
            check_equal("one more", editor.edit(b"port del 9"), b"refused NoSuch Port")
            lines = [line for line in (held + taken(reads)).split(b"\n")[:-1] if not line.startswith(OF_START)]
    counts = [int(found[1]) for line in lines if (found := re.fullmatch(LEFT_OUT, line))]
    check(counts, "none was left out")
    check_equal("lines, with those left out", len(lines) - len(counts) + sum(counts), UNREAD + 1)


def taken(reads):
    """What comes on a pipe, until nothing comes for a while."""
    held = b""
    while select.select([reads], [], [], 1)[0]:
        held += os.read(reads, 65_536)
    return held


TESTS = [
    a_connection_is_told_from_its_beginning_to_its_end,
    a_connect_that_is_refused_is_told_with_its_status,
    a_name_that_is_none_is_told_in_hex,
    a_connect_behind_other_commands_is_told,
    how_a_connection_ends_is_told,
    what_is_sent_before_an_end_does_not_hide_it,
    an_edit_that_ends_a_connection_is_told,
    each_edit_is_told_with_its_reply,
    a_65th_host_is_told,
    nothing_is_told_where_that_is_asked_for,
    a_flood_is_told_in_part,
    a_log_that_nobody_reads_stops_nobody,
    what_found_no_room_is_counted,
]
