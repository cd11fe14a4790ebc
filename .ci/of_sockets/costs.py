"""What serving costs: processor time while nothing comes, the delay of a first command, and memory."""

import contextlib
import multiprocessing
import socket
import time

from .host import Queue, capsule, queues
from .hosts import on_one_port
from .kernel import ends, far_place, is_held
from .served import NQN, Served, check, free_ports, one_disk
from .unread import SMALL, ask_for_much, queues_of_many, until_nothing_moves

# Hosts that take nothing are given up later.
GIVEN_UP_AFTER = 29
# What a disk in memory takes where it is first written: a piece, and its place in a table of such.
PIECE = 64 << 10
TABLE = 32 << 10
# The most disks that there may be, each as large as `--units` lets it be, in units of 512 bytes.
DISKS = 256
UNITS = 1 << 20


def idle_share(target):
    """The share of a processor that it takes while nothing comes."""
    [share] = idle_shares(target)
    return share


def idle_shares(*targets):
    """The share of a processor that each takes while nothing comes, in the same two seconds."""
    time.sleep(0.3)
    before = [it.processor_time() for it in targets]
    time.sleep(2)
    return [(it.processor_time() - taken) / 2 for it, taken in zip(targets, before)]


@on_one_port
def idle_hosts_cost_little(target, port):
    hosts = [Queue(target, port) for _ in range(8)]
    check_idle(target, 8, 0.05)
    hosts += [target.connect(port) for _ in range(56)]
    check_idle(target, 64, 0.1)


def check_idle(target, count, most):
    """So many idle connections take less of a processor. Other work makes it slower now and then, so the best of some
    looks counts."""
    shares = []
    for _ in range(3):
        shares.append(idle_share(target))
        if shares[-1] < most:
            return
    check(False, f"{count} idle connections take {min(shares):.1%} of a processor")


@on_one_port
def a_first_command_after_silence_is_answered_soon(target, port):
    _, io = queues(target, port)
    check_is_soon(io, 0.003, 0.5)


def check_is_soon(io, most, silence):
    """A Read after so many seconds of silence is answered in so many, or in twice what a byte takes that a plain process
    sends back: where other work holds the processors, that takes long too."""
    delays, plain = [], []
    with sending_back() as peer:
        # Other work takes processors away now and then, so the best of some looks counts.
        for _ in range(40):
            delays.append(delay_after(lambda: io.read(0, 8), silence))
            plain.append(delay_after(lambda: (peer.send(b"?"), peer.recv(1)), silence))
            if min(delays) < max(most, 2 * min(plain)):
                return
    check(False, f"it is answered after {min(delays) * 1000:.1f} ms at best, a byte after {min(plain) * 1000:.1f}")


def delay_after(act, silence):
    time.sleep(silence)
    began = time.monotonic()
    act()
    return time.monotonic() - began


@contextlib.contextmanager
def sending_back():
    """A socket to a process that looks at it each millisecond, and sends back what came."""
    near, far = socket.socketpair()
    process = multiprocessing.get_context("fork").Process(target=send_back, args=(far,), daemon=True)
    process.start()
    try:
        yield near
    finally:
        process.kill()
        process.join()
        near.close()
        far.close()


def send_back(peer):
    peer.setblocking(False)
    while True:
        with contextlib.suppress(BlockingIOError):
            peer.send(peer.recv(1))
        time.sleep(0.001)


def unread_output_costs_little(program):
    with serving(program) as (idle, hosts), serving(program, **SMALL) as (target, others):
        delay = min(delay_after(lambda: hosts[-1].read(0, 8), 0.2) for _ in range(10))
        *deaf, io = others
        asked = time.monotonic()
        for queue in deaf:
            ask_for_much(queue)
        time.sleep(1.5)
        until_nothing_moves(queue.peer for queue in deaf)
        check_share(target, idle, 0.01)
        check_is_soon(io, delay + 0.003, 0.2)
        # After half a minute without taking a byte they are given up.
        check(time.monotonic() < asked + GIVEN_UP_AFTER, "it was looked at for too long")
        found = ends()
        check(all(is_held(far_place(queue.peer), found) for queue in deaf), "a connection ended too soon")


@contextlib.contextmanager
def serving(program, **room):
    """A target, and 64 connections to it."""
    [port] = free_ports(1)
    with Served(program, one_disk(port), options=("--disks", "1")) as target:
        yield target, queues_of_many(target, port, 64, each=8, **room)


def check_share(target, idle, more):
    """It takes at most so much more of a processor than an idle one beside it: what else runs takes from both."""
    for _ in range(5):
        share, most = idle_shares(target, idle)
        if share <= most + more:
            return
    check(False, f"63 with unread output take {share:.1%} of a processor, 64 idle ones {most:.1%}")


@on_one_port
def memory_stays_the_same(target, port):
    _, io = queues(target, port)
    serve_many(io, 200)
    before = target.memory()
    serve_many(io, 2000)
    check(target.memory() - before < 1 << 20, f"it grows by {target.memory() - before} bytes")


def serve_many(io, rounds):
    """Reads in groups of 31."""
    for _ in range(rounds):
        io.peer.sendall(b"".join(capsule(io.reading(0, 8)) for _ in range(31)))
        for _ in range(62):
            io.pdu()


def memory_is_taken_as_it_is_written(program):
    [port] = free_ports(1)
    began = time.monotonic()
    with Served(program, many_disks(port), options=("--disks", str(DISKS), "--units", str(UNITS))) as target:
        target.connect(port).close()
        waited = time.monotonic() - began
        check(waited < 1, f"it listens after {waited:.1f} seconds")
        check(target.memory() < 300 << 20, f"it begins with {target.memory()} bytes")
        _, io = queues(target, port)
        check_takes(target, io, 0, PIECE + TABLE)
        check_takes(target, io, PIECE // 512, PIECE)
        check_takes(target, io, 8, 0)


def many_disks(port):
    """The edits of a target with a namespace on each of its disks."""
    namespace = b"ns add %s %d %d %d 512 11111111-1111-4111-8111-%012d 1"
    return [*one_disk(port)[:-1], *(namespace % (NQN, disk + 1, disk, UNITS, disk) for disk in range(DISKS))]


def check_takes(target, io, block, most):
    """A Write of 4 KiB to this block of each disk takes at most so many bytes of memory for each, and 1 MiB beside."""
    before = target.memory()
    for disk in range(DISKS):
        io.write(block, b"x" * 4096, disk + 1)
    taken = target.memory() - before
    check(taken <= DISKS * most + (1 << 20), f"a Write of 4 KiB to each disk takes {taken} bytes")


TESTS = [
    idle_hosts_cost_little,
    a_first_command_after_silence_is_answered_soon,
    unread_output_costs_little,
    memory_stays_the_same,
    memory_is_taken_as_it_is_written,
]
