"""Hosts that ask for much, and read nothing for a while."""

import time

from .host import Queue, capsule, io_command, page_command
from .kernel import ends, far_place, on_its_way
from .owed import Owed
from .served import ETHERNET, SECONDS, check
from .slow import Pace, SlowHost

ANA_LOG = 0x0C
# What a host reads that has a small buffer: such a one is soon full.
SMALL = {"buffer": 4096, "segment": ETHERNET}
# A Read of 4 KiB, and its bytes on the way with those of its response.
BLOCKS = 8
READ_BYTES = 4096 + 24 + 24
BATCH = 8


def ask_for_much(queue):
    """Asks for some MB, and does not wait for them."""
    for _ in range(queue.size):
        entry = queue.reading(0, 256) if queue.qid else page_command(queue.next(), ANA_LOG, 131_072)
        queue.peer.sendall(capsule(entry))


def queues_of_many(target, port, count, each=9, kato=0, **more):
    """So many queues, of controllers with up to so many each."""
    found = []
    while len(found) < count:
        admin = Queue(target, port, kato=kato, **more)
        admin.enable()
        found.append(admin)
        for qid in range(1, min(each, count - len(found) + 1)):
            found.append(Queue(target, port, qid, admin.controller, **more))
            # Its connection stays open as long as those.
            found[-1].admin = admin
    return found


def until_nothing_moves(peers, seconds=2 * SECONDS):
    """Waits until as much is on its way to these as a moment before."""
    places = [far_place(peer) for peer in peers]
    until = time.monotonic() + seconds
    before = None
    while time.monotonic() < until:
        found = ends()
        now = [on_its_way(place, found) for place in places]
        if now == before:
            return
        before = now
        time.sleep(0.4)


def ask_until_it_waits(queue, least):
    """Reads 4 KiB of zeros again and again, until at least so many bytes that are owed are not on their way. Answers
    the host, which is to read all."""
    host = SlowHost(queue.peer, Owed(queue.size, queue.responses), Pace())
    place = far_place(queue.peer)
    count = 0
    until = time.monotonic() + 2 * SECONDS
    while count * READ_BYTES - on_its_way(place) < least:
        check(time.monotonic() < until, "the sockets take more and more")
        for _ in range(BATCH):
            cid = host.next_cid()
            host.owed.owe(cid, bytes(BLOCKS * 512))
            host.unsent += capsule(io_command(2, cid, 0, BLOCKS))
        host.send(time.monotonic())
        count += BATCH
        settled(place)
    return host


def settled(place):
    """Waits until the target took all commands that it takes, and no more of what it owes is on its way."""
    before = None
    until = time.monotonic() + SECONDS
    while time.monotonic() < until:
        found = ends()
        now = on_its_way(place, found), found[place].unread
        if now == before and now[0]:
            return
        before = now
        time.sleep(0.1)


def read_to_its_end(host, seconds=SECONDS):
    """Lets a host read until the other side closes."""
    host.peer.settimeout(seconds)
    while True:
        try:
            piece = host.peer.recv(65_536)
        except OSError as why:
            raise AssertionError(f"{why}: {host.owed.left()}") from None
        if not piece:
            return
        host.owed.take(piece)
