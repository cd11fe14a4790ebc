"""Fair shares: hosts and editors that send without end leave others their share of the answers."""

import contextlib
import multiprocessing
import os
import signal
import socket
import struct
import time

from .host import capsule, command, io_command, queues
from .hosts import on_one_port, reads_in
from .kernel import ends, far_place
from .owed import data_pdu
from .served import SECONDS, Served, check, check_equal, free_ports, one_disk, received

UNKNOWN_OPCODE = 0x7A
# So many looks are made, of which the best counts: more where other work takes processors away.
LOOKS_MIN = 3
LOOKS_MAX = 24
LOOK_SECONDS = 0.3


@contextlib.contextmanager
def flooding(flood, *words):
    """A process beside, which floods until the block ends; it ends what it began to send."""
    fork = multiprocessing.get_context("fork")
    stops = fork.Event()
    process = fork.Process(target=flood_on, args=(flood, stops, *words), daemon=True)
    process.start()
    try:
        yield process
        check(process.is_alive(), "the flood ended")
    finally:
        stops.set()
        process.join(SECONDS / 2)
        process.kill()
        process.join(SECONDS / 2)


def flood_on(flood, stops, *words):
    with contextlib.suppress(OSError, AssertionError):
        flood(stops, *words)


def send_on(stops, peer, data):
    """Sends this again and again."""
    while not stops.is_set():
        peer.sendall(data)


def ask_on(stops, peer, text, replies):
    """Sends this twice, and again each time one is answered by so many bytes."""
    peer.sendall(text)
    while not stops.is_set():
        peer.sendall(text)
        check(len(received(peer, replies)) == replies, "the connection ends")


def check_share(target, port, peer, flood, *words):
    """Beside this flood over a connection a host has over a third of its Reads a second while the flood is held."""
    _, io = queues(target, port)
    place = far_place(peer)
    alone, beside = [], []
    with flooding(flood, *words) as process:
        for look in range(LOOKS_MAX):
            os.kill(process.pid, signal.SIGSTOP)
            until_taken(place)
            alone.append(reads_in(io, LOOK_SECONDS))
            os.kill(process.pid, signal.SIGCONT)
            time.sleep(0.2)
            beside.append(reads_in(io, LOOK_SECONDS))
            # Other work takes processors away now and then, so the best of some looks counts.
            if look + 1 >= LOOKS_MIN and 3 * max(beside) > max(alone):
                return
    check(False, f"beside the flood there are {max(beside)} Reads, of {max(alone)} alone")


def until_taken(place):
    """Waits until the target took all that was sent to it."""
    until = time.monotonic() + SECONDS
    while time.monotonic() < until:
        found = ends()
        if found[place].unread + found[place[::-1]].unsent == 0:
            time.sleep(0.1)
            return
        time.sleep(0.05)
    check(False, f"what was sent to it is not taken in {SECONDS} seconds")


@on_one_port
def one_that_sends_no_data_without_end_leaves_others_their_share(target, port):
    _, io = queues(target, port)
    io.peer.sendall(capsule(io_command(1, 9, 0, 256)))
    kind, pdu = io.pdu()
    cid, tag, start, _ = struct.unpack("<HHII", pdu[8:20])
    check_equal("an R2T", (kind, cid, start), (9, 9, 0))
    # What waits in between is taken soon, once the flood is held.
    io.peer.setsockopt(socket.SOL_SOCKET, socket.SO_SNDBUF, 1 << 18)
    nothing = data_pdu(cid, tag, 0, b"", False) * 4000
    check_share(target, port, io.peer, send_on, io.peer, nothing)
    check_equal("the data that are wanted still", write_all(io, cid, tag), 0)


def write_all(io, cid, tag):
    """Sends the data of the Write, whose status comes."""
    for offset in range(0, 131_072, 16_384):
        io.peer.sendall(data_pdu(cid, tag, offset, bytes(16_384), offset == 114_688))
    kind, pdu = io.pdu()
    check_equal("the response", (kind, pdu[20:22]), (5, struct.pack("<H", cid)))
    return struct.unpack("<H", pdu[22:24])[0]


@on_one_port
def one_whose_commands_are_refused_leaves_others_their_share(target, port):
    _, io = queues(target, port)
    entries = b"".join(capsule(command(UNKNOWN_OPCODE, cid, 1)) for cid in range(4000))
    check_share(target, port, io.peer, ask_on, io.peer, entries, 4000 * 24)


def an_editor_without_end_leaves_hosts_their_share(program):
    check_edits(program, little_configured, host_edits)


def an_editor_that_moves_a_port_without_end_leaves_hosts_their_share(program):
    check_edits(program, little_configured, port_edits)


def an_editor_of_much_leaves_hosts_their_share(program):
    check_edits(program, much_configured, host_edits)


def an_editor_that_moves_a_port_of_many_leaves_hosts_their_share(program):
    check_edits(program, much_configured, port_edits)


def host_edits(_):
    """Adds a host, and removes it."""
    return [b"host add nqn.x", b"host del nqn.x"]


def port_edits(places):
    """Moves port 16 from one of its two places to the other."""
    return [b"port set 16 ipv4 127.0.0.1 %d" % place for place in places[:-3:-1]]


def check_edits(program, configured, lines_at):
    """The same beside one that sends two lines, many ahead of their replies."""
    places = free_ports(17)
    with Served(program, configured(places), options=("--disks", "1")) as target:
        peer = target.connect(target.control)
        text = b"".join(line + b"\n" for line in lines_at(places) * 50)
        check_share(target, places[0], peer, ask_on, peer, text, len(b"ok\n") * 2 * 50)
        check(target.is_running(), "the program ended")


def an_editor_that_is_shown_much_leaves_hosts_their_share(program):
    places = free_ports(17)
    edits = much_configured(places)
    with Served(program, edits, options=("--disks", "1")) as target:
        peer = target.connect(target.control)
        # Each of the edits is a line of what is shown.
        shown = sum(len(line) + 1 for line in [*edits, b"ok"])
        check_share(target, places[0], peer, ask_on, peer, b"show\n" * 4, 4 * shown)
        check(target.is_running(), "the program ended")


def little_configured(places):
    """The edits of two ports, at the first and the last but one of these places."""
    return [*one_disk(places[0]), b"port add 16 ipv4 127.0.0.1 %d" % places[15]]


def much_configured(places):
    """The edits of 16 ports at these places, of 31 subsystems more, and of 200 hosts, of which eight may use each."""
    edits = one_disk(places[0])
    edits += [b"port add %d ipv4 127.0.0.1 %d" % (number, places[number - 1]) for number in range(2, 17)]
    names = [b"nqn.2026-01.test:b%d" % number for number in range(31)]
    edits += [b"subsys add %s SN-B closed" % name for name in names]
    edits += [b"host add nqn.2026-01.test:h%d" % number for number in range(200)]
    edits += [b"allow add %s nqn.2026-01.test:h%d" % (name, number) for name in names for number in range(8)]
    return edits + [b"link add %d %s" % (number, name) for number in range(1, 17) for name in names[:8]]


TESTS = [
    one_that_sends_no_data_without_end_leaves_others_their_share,
    one_whose_commands_are_refused_leaves_others_their_share,
    an_editor_without_end_leaves_hosts_their_share,
    an_editor_that_moves_a_port_without_end_leaves_hosts_their_share,
    an_editor_of_much_leaves_hosts_their_share,
    an_editor_that_moves_a_port_of_many_leaves_hosts_their_share,
    an_editor_that_is_shown_much_leaves_hosts_their_share,
]
