"""Hosts that read or send slowly stall nobody, and get all that they are owed, byte by byte."""

import itertools
import random
import socket
import struct
import time

from .beside import Others
from .host import DISCOVERY, Queue, capsule, command, initialized, queues
from .kernel import ends, far_place
from .owed import OwedRefusals
from .served import ETHERNET, SECONDS, Served, check, check_equal, free_ports, one_disk
from .slow import EvenPace, Pace, SlowHost, run_all, slow_host

# So many blocks that hosts read are filled; the blocks behind them are written.
FILLED = 1024
PAGE = 131_072
DISCOVERY_LOG = 0x70
ANA_LOG = 0x0C
KEEP_ALIVE = 0x18
# How the hosts that hang a target read: 32 KiB every 30 ms, after 2 seconds.
STEADY = EvenPace(reads=32_768, pause=0.03, begins=2.0)
# What 8 MB take at that pace, and as long again.
STEADY_SECONDS = 20


def on_filled_disk(blocks=2048):
    """A test of a target with one port, and a disk of so many blocks whose first ones are filled with bytes of no
    pattern, which the test gets."""

    def made(test):
        def run(program):
            [port] = free_ports(1)
            options = ("--disks", "1", "--units", str(blocks))
            with Served(program, one_disk(port, blocks), options=options) as target:
                test(target, port, filled(target, port))
                check(target.is_running(), "the program ended")

        run.__name__ = test.__name__
        return run

    return made


def filled(target, port):
    """Fills the first blocks, and answers their bytes."""
    data = random.Random(41).randbytes(FILLED * 512)
    admin, io = queues(target, port)
    for block in range(0, FILLED, 8):
        io.write(block, data[block * 512 : (block + 8) * 512])
    io.close()
    admin.close()
    return data


@on_filled_disk()
def one_that_reads_the_discovery_page_slowly_stalls_nobody(target, port, _):
    queue = Queue(target, port, size=63, subsystem=DISCOVERY, buffer=65_536)
    queue.enable()
    page = queue.page(DISCOVERY_LOG, PAGE)
    check_equal("the number of records and their format", page[8:18], struct.pack("<QH", 1, 0))
    host = slow_host(queue, STEADY)
    for _ in range(60):
        host.will_page(DISCOVERY_LOG, page)
    with Others(target, port, FILLED) as beside:
        run_all([host], STEADY_SECONDS, beside)


@on_filled_disk()
def one_that_is_not_connected_and_reads_slowly_stalls_nobody(target, port, _):
    peer = initialized(target, port, 16_384, ETHERNET)
    peer.setsockopt(socket.SOL_SOCKET, socket.SO_SNDBUF, 32_768)
    with Others(target, port, FILLED) as beside:
        owed, unsent = keep_alives_until_full(peer, beside)
        host = SlowHost(peer, owed, EvenPace(reads=8192, pause=0.03))
        host.unsent += unsent
        run_all([host], STEADY_SECONDS, beside)


def keep_alives_until_full(peer, beside):
    """Sends Keep Alives until none goes and none is taken for 1.5 seconds, and answers what is owed, and what of the
    last is not sent."""
    peer.setblocking(False)
    owed = OwedRefusals()
    whole = b"".join(capsule(command(KEEP_ALIVE, cid)) for cid in range(65_536))
    place = far_place(peer)
    sent = 0
    stands = None
    last = time.monotonic()
    until = last + 2 * STEADY_SECONDS
    while time.monotonic() - last < 1.5 and time.monotonic() < until:
        beside.check_fault()
        sent += sent_at_once(peer, memoryview(whole)[sent % len(whole) :][:65_536])
        if stands != (sent, ends()[place].unread):
            stands = (sent, ends()[place].unread)
            last = time.monotonic()
    owed.sent = -(-sent // 72)
    return owed, whole[sent % len(whole) :][: owed.sent * 72 - sent]


def sent_at_once(peer, data):
    """How many bytes go; a moment is waited where none does."""
    try:
        return peer.send(data)
    except BlockingIOError:
        time.sleep(0.01)
        return 0


@on_filled_disk()
def one_that_reads_large_blocks_slowly_stalls_nobody(target, port, data):
    _, io = queues(target, port, size=63)
    host = slow_host(io, STEADY)
    for number in range(63):
        read_some(host, data, number * 37 % (FILLED - 256), 256)
    with Others(target, port, FILLED) as beside:
        run_all([host], STEADY_SECONDS, beside)


def read_some(host, data, block, blocks):
    host.will_read(block, data[block * 512 : (block + blocks) * 512])


class Kind:
    """A kind of slow host: how it reads, its buffer, its depth, and how many blocks its commands move. With a buffer of
    its own it has short segments too, so that little is kept in between."""

    def __init__(self, reads, buffer, depth, blocks, sends=0):
        self.reads = reads
        self.buffer = buffer
        self.depth = depth
        self.blocks = blocks
        # So many bytes of a Write go at most at a time, or none where it reads alone.
        self.sends = sends
        self.place = {"size": depth, "buffer": buffer, "segment": ETHERNET if buffer else None}

    def __str__(self):
        does = f"sends {self.sends} bytes" if self.sends else f"reads {self.reads}"
        commands = f"{self.depth} commands of {self.blocks} blocks"
        return f"one that {does} at a time, with a buffer of {self.buffer} and {commands}"

    def count(self):
        """How many commands it sends, so that all of a kind take a like time."""
        whole = min(self.reads * 400, 1 << 20 if self.buffer else 1 << 22)
        if self.sends:
            return 2
        return max(1, min(whole // (self.blocks * 512), 2 * self.depth + 1))

    def host(self, queue, pause, seed):
        draws = random.Random(seed)
        pace = Pace(self.reads, self.sends or 1 << 20, pause, draws.uniform(0, 0.5), draws)
        return slow_host(queue, pace, self.depth)

    def give_work(self, host, data, place):
        """Its commands; the data of its Writes go to blocks of its own, and are answered with their first block."""
        draws = host.pace.draws
        written = []
        for number in range(self.count()):
            if self.sends:
                block = FILLED + 8 + (place * 2 + number) * self.blocks
                written.append((block, draws.randbytes(self.blocks * 512)))
                host.will_write(*written[-1])
            else:
                read_some(host, data, draws.randrange(FILLED - self.blocks), self.blocks)
        return written


def kinds():
    """All kinds: each way to read, each buffer, each depth, and each size that ends in time."""
    every = itertools.product((1, 100, 4096, 65_536), (None, 4096), (1, 8, 63), (1, 8, 256))
    for reads, buffer, depth, blocks in every:
        if blocks * 512 <= reads * 1500:
            yield Kind(reads, buffer, depth, blocks)
    for sends, buffer, depth in itertools.product((100, 2000, 20_000), (None, 4096), (1, 8)):
        yield Kind(65_536, buffer, depth, 32 if sends == 100 else 256, sends)


@on_filled_disk(blocks=65_536)
def one_slow_host_of_each_kind_gets_all_that_it_is_owed(target, port, data):
    with Others(target, port, FILLED) as beside:
        for place, kind in enumerate(kinds()):
            admin, io = queues(target, port, **kind.place)
            host = kind.host(io, 0.0005, place)
            host.begins = 0
            written = kind.give_work(host, data, place)
            try:
                run_all([host], SECONDS, beside)
            except AssertionError as why:
                raise AssertionError(f"{kind}: {why}") from why
            io.close()
            admin.close()
            check_written(target, port, written)


def check_written(target, port, written):
    """What was written to these blocks is read."""
    admin, io = queues(target, port)
    for block, data in written:
        check(io.read(block, len(data) // 512) == data, f"other bytes were written to block {block}")
    io.close()
    admin.close()


@on_filled_disk(blocks=65_536)
def sixty_two_slow_hosts_get_all_that_they_are_owed(target, port, data):
    page = learnt_page(target, port)
    with Others(target, port, FILLED, has_visits=False) as beside:
        hosts = []
        written = []
        for place, (queue, kind) in enumerate(sixty_two(target, port)):
            host = kind.host(queue, 0.004, place)
            if queue.qid:
                written += kind.give_work(host, data, place)
            else:
                for _ in range(kind.count()):
                    host.will_page(ANA_LOG, page[: kind.blocks * 512])
            hosts.append(host)
        run_all(hosts, 4 * SECONDS, beside)
        for host in hosts:
            host.peer.close()
    check_written(target, port, written)


def learnt_page(target, port):
    """The log page of ANA groups, and zeros behind it."""
    admin = Queue(target, port)
    admin.enable()
    page = admin.page(ANA_LOG, PAGE)
    check_equal("the number of groups", page[8:10], b"\1\0")
    admin.close()
    return page


def sixty_two(target, port):
    """The queues of seven controllers, each with the kind of its host; admin queues have hosts that only read."""
    of_io = list(kinds())
    random.Random(62).shuffle(of_io)
    of_admin = [kind for kind in of_io if not kind.sends]
    for number in range(7):
        kind = of_admin.pop()
        admin = Queue(target, port, **kind.place)
        admin.enable()
        yield admin, kind
        for qid in range(1, 8 + (number < 6)):
            kind = of_io.pop()
            yield Queue(target, port, qid, admin.controller, **kind.place), kind


TESTS = [
    one_that_reads_the_discovery_page_slowly_stalls_nobody,
    one_that_is_not_connected_and_reads_slowly_stalls_nobody,
    one_that_reads_large_blocks_slowly_stalls_nobody,
    one_slow_host_of_each_kind_gets_all_that_it_is_owed,
    sixty_two_slow_hosts_get_all_that_they_are_owed,
]
