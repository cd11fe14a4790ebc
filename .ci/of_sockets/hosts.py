"""Hosts that behave badly: each harms its own connection alone."""

import random
import socket
import struct
import time

from .host import IC_REQ, LAST, Queue, capsule, queues
from .served import NQN, SECONDS, Served, check, check_equal, eventually, free_ports, is_closed, one_disk, received

SLOTS = 64
# What is answered where a first PDU is no ICReq: 24 bytes, and the header.
TERMINATION = struct.pack("<BBBBIHI", 3, 0, 24, 0, 96, 2, 0)


def on_one_port(test):
    """A test of a target with one port, and one disk."""

    def run(program):
        [port] = free_ports(1)
        with Served(program, one_disk(port), options=("--disks", "1")) as target:
            test(target, port)
            check(target.is_running(), "the program ended")

    run.__name__ = test.__name__
    return run


@on_one_port
def random_bytes_end_their_connection(target, port):
    admin, io = queues(target, port)
    draws = random.Random(28)
    for _ in range(50):
        peer = target.connect(port)
        peer.sendall(b"\xff" + draws.randbytes(draws.randrange(8, 5000)))
        answer = received(peer, 32)
        check_equal("a C2HTermReq", answer[:8], struct.pack("<BBBBI", 3, 0, 24, 0, 32))
        check(is_closed(peer), "it is not closed")
        peer.close()
        io.read(0, 8)
    admin.enable()


@on_one_port
def half_a_pdu_and_silence_stall_nobody(target, port):
    silent = target.connect(port)
    silent.sendall(IC_REQ[:64])
    _, io = queues(target, port)
    for block in range(100):
        io.read(block, 8)
    silent.sendall(IC_REQ[64:])
    check_equal("the ICResp", received(silent, 128)[0], 1)


@on_one_port
def a_pdu_of_32_kib_comes_byte_by_byte(target, port):
    peer = target.connect(port)
    for byte in IC_REQ:
        peer.sendall(bytes([byte]))
    check_equal("the ICResp", received(peer, 128)[0], 1)
    # It says that it brings more than 8,192 bytes of data, which is seen once all of it is there.
    pdu = struct.pack("<BBBBI", 4, 0, 72, 72, 32_768) + bytes(32_760)
    for byte in pdu:
        peer.send(bytes([byte]))
    answer = received(peer, 96)
    check_equal("a C2HTermReq", answer[:14], struct.pack("<BBBBIHI", 3, 0, 24, 0, 96, 5, 0))
    check(is_closed(peer), "it is not closed")


@on_one_port
def what_ends_a_connection_is_not_lost(target, port):
    for extra in (0, 1, 100, 30_000, 300_000):
        peer = target.connect(port)
        first = capsule(bytes(64))
        peer.sendall(first + bytes(extra))
        answer = received(peer, 96)
        check_equal(f"a C2HTermReq before {extra} bytes", answer, TERMINATION.ljust(24, b"\0") + first)
        check(is_closed(peer), "it is not closed")
        peer.close()


@on_one_port
def one_that_never_reads_stalls_nobody(target, port):
    _, io = queues(target, port)
    io.read(0, 256)
    before = target.memory()
    _, deaf = queues(target, port)
    deaf.peer.setblocking(False)
    shares = []
    # Other work takes processors away now and then, so the best of some looks counts.
    for _ in range(8):
        ask_without_reading(deaf)
        beside = reads_in(io, 0.2)
        shares.append(beside / reads_alone(target.program))
        if shares[-1] > 1 / 3:
            break
    check(max(shares) > 1 / 3, f"beside one that does not read, at most {max(shares):.2f} of the Reads")
    check(target.memory() - before < 8 << 20, "its memory grows")


def reads_alone(program):
    """How many Reads of 4 KiB are answered in the same time by a target that nobody else talks to."""
    [port] = free_ports(1)
    with Served(program, one_disk(port)) as target:
        return max(reads_in(queues(target, port)[1], 0.2), 1)


def reads_in(io, seconds):
    """How many Reads of 4 KiB are answered, one after another."""
    until = time.monotonic() + seconds
    count = 0
    while time.monotonic() < until:
        io.read(count % 1024, 8)
        count += 1
    return count


def ask_without_reading(deaf):
    """Asks for 128 KiB again and again, while its commands go at once."""
    for _ in range(30):
        try:
            deaf.peer.send(capsule(deaf.reading(0, 256)))
        except BlockingIOError:
            return


@on_one_port
def ten_thousand_connections_leave_no_trace(target, port):
    for number in range(10_000):
        peer = target.connect(port)
        if number % 4 == 1:
            peer.sendall(IC_REQ)
        if number % 4 == 2:
            reset_when_closed(peer)
        if number % 4 == 3:
            peer.sendall(IC_REQ[:5])
            reset_when_closed(peer)
        peer.close()
    eventually(lambda: all_slots_are_free(target, port))


def reset_when_closed(peer):
    peer.setsockopt(socket.SOL_SOCKET, socket.SO_LINGER, struct.pack("ii", 1, 0))


def all_slots_are_free(target, port):
    """64 hosts are served, and the next one is closed at once."""
    hosts = [Queue(target, port) for _ in range(32)]
    more = [target.connect(port) for _ in range(32)]
    for peer in more:
        peer.sendall(IC_REQ)
        check_equal("the ICResp", received(peer, 128)[:1], b"\1")
    began = time.monotonic()
    check(is_closed(target.connect(port)), "a 65th is not closed")
    check(time.monotonic() - began < 2, "a 65th waits")
    for host in hosts:
        host.enable()


@on_one_port
def sixty_four_hosts_at_once(target, port):
    all_slots_are_free(target, port)


@on_one_port
def one_that_goes_ends_its_own_connection_alone(target, port):
    _, io = queues(target, port)
    for way in ("reset", "half", "unread"):
        admin, other = queues(target, port)
        other.peer.sendall(capsule(other.reading(0, 256)) * 3)
        if way == "reset":
            reset_when_closed(other.peer)
        elif way == "half":
            other.peer.shutdown(socket.SHUT_WR)
        other.close()
        io.read(0, 8)
        admin.enable()
        admin.close()
    eventually(lambda: check_equal("the number of a new controller", Queue(target, port).controller, 2))


def a_port_is_deleted_under_load(program):
    first, second = free_ports(2)
    edits = [*one_disk(first), b"port add 2 ipv4 127.0.0.1 %d" % second, b"link add 2 " + NQN]
    with Served(program, edits) as target:
        _, stays = queues(target, first)
        loads = [queues(target, second)[1] for _ in range(4)]
        for load in loads:
            load.peer.sendall(b"".join(capsule(load.reading(0, 256)) for _ in range(20)))
        editor = target.editor()
        check_equal("link del", editor.edit(b"link del 2 " + NQN), b"ok")
        check_equal("port del", editor.edit(b"port del 2"), b"ok")
        for load in loads:
            drain(load.peer)
        stays.read(0, 256)
        check(target.is_running(), "the program ended")


def drain(peer):
    """Reads until the other side closes."""
    until = time.monotonic() + SECONDS
    while received(peer, 1 << 16):
        check(time.monotonic() < until, "it is not closed")


@on_one_port
def what_is_written_is_read(target, port):
    _, io = queues(target, port)
    blocks = [bytes([number]) * 4096 for number in range(200)]
    for number, block in enumerate(blocks):
        io.write(number * 8, block)
    for number, block in enumerate(blocks):
        check(io.read(number * 8, 8) == block, f"block {number} is another")
    whole = io.read(0, 256)
    check(whole == b"".join(blocks)[: 256 * 512], "a Read of 128 KiB is another")


@on_one_port
def many_commands_at_once_are_all_answered(target, port):
    _, io = queues(target, port)
    for _ in range(20):
        entries = [io.reading(0, 8) for _ in range(31)]
        io.peer.sendall(b"".join(capsule(entry) for entry in entries))
        for _ in entries:
            kind, data = io.pdu()
            check_equal("the data", (kind, data[1] & LAST), (7, LAST))
            check_equal("the response", io.pdu()[0], 5)


TESTS = [
    random_bytes_end_their_connection,
    half_a_pdu_and_silence_stall_nobody,
    a_pdu_of_32_kib_comes_byte_by_byte,
    what_ends_a_connection_is_not_lost,
    one_that_never_reads_stalls_nobody,
    ten_thousand_connections_leave_no_trace,
    sixty_four_hosts_at_once,
    one_that_goes_ends_its_own_connection_alone,
    a_port_is_deleted_under_load,
    what_is_written_is_read,
    many_commands_at_once_are_all_answered,
]
