"""Hosts that read and send slowly, each in pieces with pauses, and many of them beside one another."""

import heapq
import random
import time
from dataclasses import dataclass, field

from .host import capsule, io_command, page_command
from .owed import Owed, SUCCESS
from .served import check

# How soon is looked again where nothing comes or goes.
LOOK_SECONDS = 0.002


@dataclass
class Pace:
    """How fast a host is: so many bytes it reads at most at a time, so many it sends, and the longest pause between."""

    reads: int = 65_536
    sends: int = 1 << 20
    pause: float = 0.0
    # Nothing is read before so many seconds.
    begins: float = 0.0
    draws: random.Random = field(default_factory=lambda: random.Random(7))

    def next_pause(self):
        return self.draws.uniform(0, self.pause)

    def next_send(self):
        return self.draws.randint(1, self.sends)


class EvenPace(Pace):
    """One with pauses of one length."""

    def next_pause(self):
        return self.pause


class SlowHost:
    """A host with a queue, which has at most so many commands outstanding."""

    def __init__(self, peer, owed, pace, depth=63):
        self.peer = peer
        self.peer.setblocking(False)
        self.owed = owed
        self.pace = pace
        self.depth = depth
        self.commands = []
        self.unsent = bytearray()
        self.begins = time.monotonic() + pace.begins
        self.sends_from = 0.0
        self.cid = 0

    def next_cid(self):
        self.cid = self.cid % 65_535 + 1
        return self.cid

    def will_read(self, block, data):
        """It is to read blocks that have these bytes."""
        cid = self.next_cid()
        self.commands.append((cid, io_command(2, cid, block, len(data) // 512), data, False))

    def will_write(self, block, data):
        cid = self.next_cid()
        self.commands.append((cid, io_command(1, cid, block, len(data) // 512), data, True))

    def will_page(self, log, data):
        """It is to read a log page that has these bytes."""
        cid = self.next_cid()
        self.commands.append((cid, page_command(cid, log, len(data)), data, False))

    def is_done(self):
        return not self.commands and not self.unsent and self.owed.is_paid()

    def turn(self):
        """Sends and reads a piece, and answers in how many seconds it goes on."""
        now = time.monotonic()
        self.fill()
        goes = self.send(now) if now >= self.sends_from else False
        if now < self.begins:
            return min(LOOK_SECONDS * 5, self.begins - now)
        try:
            piece = self.peer.recv(self.pace.reads)
        except BlockingIOError:
            return max(self.sends_from - now, 0.0) if goes else LOOK_SECONDS
        check(piece, f"the connection ends: {self.owed.left()}")
        self.owed.take(piece)
        return self.pace.next_pause()

    # Makes commands, as many as may be outstanding, and data that are asked for.
    def fill(self):
        while self.commands and len(self.owed.waiting) < self.depth:
            cid, entry, data, is_write = self.commands.pop(0)
            if is_write:
                self.owed.owe_write(cid, data)
            else:
                self.owed.owe(cid, data, SUCCESS)
            self.unsent += capsule(entry)
        self.unsent += self.owed.asked
        self.owed.asked.clear()

    # Sends a piece, and answers whether one went.
    def send(self, now):
        if not self.unsent:
            return False
        try:
            n = self.peer.send(self.unsent[: self.pace.next_send()])
        except BlockingIOError:
            return False
        del self.unsent[:n]
        self.sends_from = now + self.pace.next_pause()
        return True


def run_all(hosts, seconds, beside=None):
    """Lets hosts go on until each has all that it is owed. Fails after so many seconds, and where one beside fails."""
    until = time.monotonic() + seconds
    due = [(0.0, number) for number in range(len(hosts))]
    while due:
        now = time.monotonic()
        if beside:
            beside.check_fault()
        if now > until:
            late = hosts[due[0][1]]
            raise AssertionError(f"{len(due)} of {len(hosts)} wait after {seconds} seconds, one: {late.owed.left()}")
        if due[0][0] > now:
            time.sleep(min(due[0][0] - now, 0.05))
            continue
        _, number = heapq.heappop(due)
        pause = hosts[number].turn()
        if not hosts[number].is_done():
            heapq.heappush(due, (time.monotonic() + pause, number))
    for host in hosts:
        check_nothing_more(host.peer)


def check_nothing_more(peer):
    """Nothing is there to be read."""
    try:
        more = peer.recv(64)
    except BlockingIOError:
        return
    check(not more, f"more comes than is owed: {more.hex()}")


def slow_host(queue, pace, depth=63):
    """A host of a queue that was connected, whose responses so far are those of its Connect and of what followed."""
    return SlowHost(queue.peer, Owed(queue.size, queue.responses), pace, depth)
