"""Loads of writes that are drawn from a seed, and what may be left of each unit behind them."""

import contextlib
import struct

from of_sockets.files import UNIT, in_file
from of_sockets.host import Queue, queues
from of_sockets.served import Served, check, check_equal, free_ports

from .hosts import FLUSH, WRITE, WRITING, ZEROES, Asked, Host

UNITS = 256
BLOCKS = 64
# How many commands wait at a time; this is drawn anew behind so many commands.
DEPTHS = 1, 2, 4, 8
ANEW = 16
# A unit that a Write of this number gives: its number and the unit's, again and again.
NAMED = struct.Struct("<QQ")


def named(number, unit):
    return NAMED.pack(number, unit) * (UNIT // NAMED.size)


def named_units(number, first, blocks):
    return b"".join(named(number, unit) for unit in range(first, first + blocks))


def unit_of(data, unit):
    return data[unit * UNIT : (unit + 1) * UNIT]


def drawn(draws, number):
    """A Flush, Write or Write Zeroes."""
    opcode = draws.choices((FLUSH, WRITE, ZEROES), (3, 10, 2))[0]
    if opcode == FLUSH:
        return Asked(FLUSH)
    blocks = draws.randint(1, draws.choice((4, BLOCKS)))
    first = draws.randrange(UNITS - blocks + 1)
    data = named_units(number, first, blocks) if opcode == WRITE else b""
    return Asked(opcode, first, blocks, draws.random() < 0.15, data)


@contextlib.contextmanager
def loaded(program, path, draws, environment=None, log_length=lambda: 0):
    """A target over a file, until the block ends, and the load of a host with two connections to it."""
    [port] = free_ports(1)
    options = ("--file", path, "--quiet")
    with Served(program, in_file(port, 0, UNITS), options=options, environment=environment) as target:
        _, io = queues(target, port)
        lines = [io, Queue(target, port, 2, io.admin.controller)]
        yield target, Load(Host(lines, log_length=log_length), draws)


class Load:
    """Commands that a host sends, and all that it sent."""

    def __init__(self, host, draws):
        self.host = host
        self.draws = draws
        self.asked = []

    def send(self, numbers):
        """Sends a command for each of these numbers; some still wait behind that."""
        depth = 1
        for place, number in enumerate(numbers):
            if place % ANEW == 0:
                depth = self.draws.choice(DEPTHS)
            while sum(map(len, self.host.waiting)) >= depth:
                self.take()
            self.asked.append(drawn(self.draws, number))
            self.host.send(self.asked[-1], self.draws.randrange(2))

    def take(self):
        asked = self.host.take(self.draws.choice(self.host.busy()))
        check_equal(f"the status of a {asked}", asked.status, 0)

    def take_all(self):
        while self.host.busy():
            self.take()


def may_be_left(opening, asked, cut=0, is_killed=False):
    """Of each unit all that a power cut may leave of it when the log of calls has so many bytes: what is to last, and
    what was sent since; before that what it opened with. A write is to last once it is answered and has FUA, or a Flush
    that was sent behind its response is answered too. Where the program is killed, each is that was answered."""
    flushed = max((it.sent for it in asked if it.opcode == FLUSH and it.answered_at <= cut), default=-1)
    left = []
    for unit in range(UNITS):
        writes = [it for it in asked if it.opcode in WRITING and it.sent_at <= cut and it.has(unit)]
        answered = [it for it in writes if it.answered_at <= cut]
        lasting = [it for it in answered if is_killed or it.is_fua or it.answered < flushed]
        # Those that were answered before one was sent that is to last are no longer there.
        sent = max((it.sent for it in lasting), default=-1)
        found = {it.given(unit) for it in writes if it.answered > sent}
        left.append(found if lasting else found | {unit_of(opening, unit)})
    return left


def check_left(found, left):
    """Each unit that is found is one that may be left."""
    for unit, those in enumerate(left):
        data = unit_of(found, unit)
        if data not in those:
            names = " or ".join(sorted(name_of(it) for it in those))
            check(False, f"unit {unit} has {name_of(data)}, and not {names}")


def name_of(data):
    """What a unit has, in words."""
    if data == bytes(UNIT):
        return "zeros"
    number, unit = NAMED.unpack(data[: NAMED.size])
    return f"that of Write {number}" if data == named(number, unit) else f"other bytes ({data[:8].hex()} ..)"
