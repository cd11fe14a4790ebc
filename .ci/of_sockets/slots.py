"""Slots come back: of hosts that do not begin, of those that take nothing, and of those whose connection ended."""

import contextlib
import select
import time

from .host import ANY_CONTROLLER, HOST, Queue, capsule, command, connect_data, initialized, queues
from .kernel import KEEP_ALIVE_TIMER, ends, far_place, is_held, on_its_way
from .served import ETHERNET, SECONDS, Served, check, check_equal, free_ports, is_closed, one_disk, received
from .turns import turns_for, until_turns_end
from .unread import SMALL, ask_for_much, queues_of_many, until_nothing_moves

OTHER = b"nqn.2026-01.test:b"
SLOTS = 64
# How long a host may be without a Connect, or take nothing, and when it is given up at the latest.
PATIENCE = 30
LATEST = 33
LATEST_UNREAD = 34
# How long the hosts are watched.
WATCHED = 36
# A slot is free after so long, whatever its host does.
FREED = 5


class Watched:
    """A connection, and when the other side closed it, since it opened or last took something."""

    def __init__(self, what, peer, reads=True):
        self.what = what
        self.peer = peer
        self.place = far_place(peer)
        self.reads = reads
        self.since = time.monotonic()
        self.after = None
        self.taken = -1

    def look(self, found):
        """Looks whether it is closed."""
        if self.after is not None:
            return
        if self.reads:
            closed = select.select([self.peer], [], [], 0)[0] and is_closed(self.peer)
        else:
            closed = not is_held(self.place, found)
            if not closed and on_its_way(self.place, found) != self.taken:
                self.taken = on_its_way(self.place, found)
                self.since = time.monotonic()
        if closed:
            self.after = time.monotonic() - self.since

    def fault(self):
        """Why it is not closed in time, or nothing."""
        latest = LATEST if self.reads else LATEST_UNREAD
        if self.after is None:
            return f"{self.what} is not closed after {time.monotonic() - self.since:.1f} seconds"
        if not PATIENCE - 0.5 <= self.after <= latest:
            return f"{self.what} is closed after {self.after:.1f} seconds"
        return None


def refused(target, port):
    """A connection whose Connect was refused: there is no such subsystem."""
    peer = initialized(target, port)
    words = b"\0\0\0\0\x1f\0"
    data = connect_data(ANY_CONTROLLER, OTHER, HOST)
    peer.sendall(capsule(command(0x7F, 1, 1, 1024, 1, words), data))
    check_equal("the status of a Connect", received(peer, 24)[22:], b"\x04\x83")
    return peer


class Silent:
    """A target all of whose slots have hosts that send nothing."""

    def __init__(self, target, port):
        self.target = target
        self.port = port
        self.watched = [Watched("one that sends nothing", target.connect(port)) for _ in range(SLOTS)]
        check(is_closed(target.connect(port)), "a 65th is not closed")

    def turn(self):
        pass

    def end(self):
        peers = queues_of_many(self.target, self.port, SLOTS)
        for queue in peers:
            queue.close()


class Mixed:
    """A target with hosts of each kind."""

    def __init__(self, target, port):
        self.target = target
        self.idle = [*queues(target, port), Queue(target, port)]
        self.deaf = queues(target, port, **SMALL)[1]
        self.slow = queues(target, port, buffer=65_536, segment=ETHERNET)[1]
        self.place = far_place(self.slow.peer)
        self.slow.peer.setblocking(False)
        self.reads_at = time.monotonic() + 5
        kinds = {
            "one that sends nothing": lambda: target.connect(port),
            "one without a Connect": lambda: initialized(target, port),
            "one whose Connect was refused": lambda: refused(target, port),
        }
        self.watched = [Watched(what, make()) for what, make in kinds.items() for _ in range(5)]
        self.watched.append(Watched("one that reads nothing", self.deaf.peer, reads=False))
        ask_for_much(self.deaf)
        ask_for_much(self.slow)

    def turn(self):
        """The slow one reads 64 KiB every 5 seconds."""
        if time.monotonic() > self.reads_at:
            self.reads_at += 5
            with contextlib.suppress(BlockingIOError):
                self.slow.peer.recv(65_536)

    def end(self):
        """The idle ones and the slow one are not given up."""
        check(is_held(self.place), "one that reads 64 KiB every 5 seconds is given up")
        for queue in self.idle:
            queue.answer(command(0x18 if queue.qid == 0 else 0, queue.next(), 1))


class Counted:
    """A target whose turns end, and which says then how many it gave up."""

    def __init__(self, target, port):
        self.target = target
        self.port = port
        self.deaf = queues(target, port, **SMALL)[1]
        ask_for_much(self.deaf)
        self.watched = [
            Watched("one that sends nothing", target.connect(port)),
            Watched("one without a Connect", initialized(target, port)),
            Watched("one that reads nothing", self.deaf.peer, reads=False),
        ]

    def turn(self):
        pass

    def end(self):
        check(self.target.is_running(), "its turns ended too soon")
        until_turns_end(self.target, self.port)
        check_equal("the exit status", self.target.ended(), 0)
        last = self.target.err().split(b"\n")[-2]
        check_equal("the last line", last, b"given up: 2 without a Connect, 1 that took nothing, 0 that were gone")


def hosts_that_do_not_go_on_are_given_up(program):
    """What waits half a minute, side by side."""
    with contextlib.ExitStack() as stack:
        parts = []
        for kind, turns in ((Silent, 2**64 - 1), (Mixed, 2**64 - 1), (Counted, turns_for(program, 3, WATCHED + 4))):
            [port] = free_ports(1)
            options = ("--disks", "1")
            target = stack.enter_context(Served(program, one_disk(port), options=options, turns=turns))
            parts.append(kind(target, port))
        watched = [each for part in parts for each in part.watched]
        watch(parts, watched)
        faults = [each.fault() for each in watched]
        faults += [fault_of_end(part) for part in parts]
        check(not any(faults), "; ".join(sorted({fault for fault in faults if fault})))


def watch(parts, watched):
    until = time.monotonic() + WATCHED
    while time.monotonic() < until:
        found = ends()
        for each in watched:
            each.look(found)
        for part in parts:
            part.turn()
        time.sleep(0.1)


def fault_of_end(part):
    """What is wrong at the end, or nothing."""
    try:
        part.end()
    except (AssertionError, OSError) as why:
        return f"{type(part).__name__}: {why}"
    return None


def nothing_is_said_where_none_is_given_up(program):
    [port] = free_ports(1)
    with Served(program, one_disk(port), turns=turns_for(program, 1)) as target:
        until_turns_end(target, port)
        check_equal("the exit status", target.ended(), 0)
        lines = target.err().split(b"\n")
        check(not any(b"given up" in line for line in lines), f"standard error has {lines}")


def slots_are_free_after(program, act, kato=0):
    """62 hosts of port 2 read nothing of much. Once `act` ended their connections, as many hosts connect to port 1."""
    first, second = free_ports(2)
    with Served(program, [*one_disk(first), *on_port_2(second)], options=("--disks", "2")) as target:
        editor = target.editor()
        _, stays = queues(target, first)
        deaf = queues_of_many(target, second, SLOTS - 2, kato=kato, subsystem=OTHER, **SMALL)
        for queue in deaf:
            ask_for_much(queue)
        until_nothing_moves(queue.peer for queue in deaf)
        check(kato or all(is_held(far_place(queue.peer)) for queue in deaf), "a connection ended too soon")
        act(editor)
        began = time.monotonic()
        connects_62(target, first, began)
        stays.read(0, 8)
        check(target.is_running(), "the program ended")


def on_port_2(service):
    """The edits of another subsystem, on port 2, which one host may use."""
    return [
        b"port add 2 ipv4 127.0.0.1 %d" % service,
        b"subsys add %s SN-B closed" % OTHER,
        b"host add %s" % HOST,
        b"allow add %s %s" % (OTHER, HOST),
        b"link add 2 %s" % OTHER,
        b"ns add %s 1 1 2048 512 22222222-2222-4222-8222-222222222222 1" % OTHER,
    ]


def connects_62(target, port, began):
    """Connects 62 hosts, as soon as there are slots for them, and fails where that takes too long."""
    found = []
    for number in range(7):
        admin = once_free(lambda: Queue(target, port, seconds=SECONDS / 2), began)
        admin.enable()
        found.append(admin)
        for qid in range(1, 9 - (number == 6)):
            more = {"qid": qid, "controller": admin.controller, "seconds": SECONDS / 2}
            found.append(once_free(lambda: Queue(target, port, **more), began))
    check_equal("the hosts that connect", len(found), SLOTS - 2)


def once_free(make, began):
    """What is made once there is a slot for it."""
    while True:
        try:
            return make()
        except (AssertionError, OSError) as why:
            check(time.monotonic() < began + FREED, f"no slot is free after {FREED} seconds: {why}")
            time.sleep(0.1)


def edits(*lines):
    """Sends these edits, which are accepted."""

    def act(editor):
        for line in lines:
            check_equal("a reply", editor.edit(line), b"ok")

    return act


def slots_are_free_after_their_port_is_deleted(program):
    slots_are_free_after(program, edits(b"link del 2 " + OTHER, b"port del 2"))


def slots_are_free_after_a_permission_is_withdrawn(program):
    slots_are_free_after(program, edits(b"allow del %s %s" % (OTHER, HOST)))


def slots_are_free_after_a_keep_alive_timer_runs_out(program):
    slots_are_free_after(program, lambda _: time.sleep(4), kato=4000)


def connections_are_kept_alive(program):
    [port] = free_ports(1)
    with Served(program, one_disk(port)) as target:
        hosts = [*queues(target, port), Queue(target, port)]
        time.sleep(0.5)
        found = ends()
        timers = [found[far_place(host.peer)].timer for host in hosts]
        check_equal("the timers of idle connections", timers, [KEEP_ALIVE_TIMER] * 3)


TESTS = [
    hosts_that_do_not_go_on_are_given_up,
    nothing_is_said_where_none_is_given_up,
    slots_are_free_after_their_port_is_deleted,
    slots_are_free_after_a_permission_is_withdrawn,
    slots_are_free_after_a_keep_alive_timer_runs_out,
    connections_are_kept_alive,
]
