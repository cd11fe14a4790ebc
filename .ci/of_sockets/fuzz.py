"""Hosts that send anything, from a seed: bytes at random, sessions with one field of a PDU changed, sessions whose PDUs
are exchanged, and sessions that are cut or reset at any byte. Beside them one host writes and reads, and one makes
edits and reads its log pages: each of their commands is answered within a second, and by what is right."""

import contextlib
import os
import random
import socket
import struct
import time

from .beside import SOON, Beside
from .host import DISCOVERY, HOST, IC_REQ, Queue, capsule, command, connect_data, io_command, page_command, queues
from .hosts import reset_when_closed
from .owed import data_pdu
from .served import NQN, Served, check, check_equal, eventually, free_ports

# What the hosts that send anything connect to, and as which host: no field of it makes another name of it.
OTHER = b"nqn.2026-01.fuzz:elsewhere"
NOBODY = b"nqn.2026-01.fuzz:nobody"
# The seeds, and how many PDUs are sent for each; `FUZZ_SEEDS=1,2 FUZZ_PDUS=10000 .ci/sockets
# hosts_that_send_anything_harm_nobody` sends others. From one seed the same PDUs are sent again.
SEEDS = [int(it) for it in os.environ.get("FUZZ_SEEDS", "1,2,3").split(",")]
PDUS = int(os.environ.get("FUZZ_PDUS", "4000"))
# Sessions that are open at once.
AT_ONCE = 8
# Blocks of 512 bytes that the host beside writes and reads.
BLOCKS = 512
# Where nothing comes to any of them for so long, they go.
QUIET = 0.02
# How much its memory may grow by what the system's allocator keeps.
KEPT = 4 << 20
VALUES = (0, 1, 2, 3, 4, 8, 0x10, 0x18, 0x3F, 0x40, 0x48, 0x7F, 0x80, 0xFF)
# The lengths of the PDUs that the target sends, by their types; of data each is this long at least.
LENGTHS = {1: 128, 5: 24, 9: 24}


def session_of_discovery():
    """A host that reads the discovery log page, and waits for an event."""
    words = struct.pack("<HHHHI", 0, 0, 31, 0, 5000)
    return [
        IC_REQ,
        capsule(command(0x7F, 1, 1, 1024, 1, words), connect_data(0xFFFF, DISCOVERY, NOBODY)),
        *enabled(2),
        capsule(page_command(4, 0x70, 1024)),
        capsule(page_command(5, 0x70, 4096)),
        capsule(command(9, 6, words=struct.pack("<II", 0x0B, 1 << 31))),
        capsule(command(12, 7)),
        capsule(command(0x18, 8)),
    ]


def enabled(cid):
    """CC is set, and CSTS is read."""
    return [
        capsule(command(0x7F, cid, words=struct.pack("<IIQ", 0, 0x14, 0x00460001))),
        capsule(command(0x7F, cid + 1, 4, words=struct.pack("<II", 0, 0x1C))),
    ]


def session_of_admin():
    """A host that identifies what is there, sets features, and reads its log pages."""
    words = struct.pack("<HHHHI", 0, 0, 31, 0, 0)
    identify = [capsule(command(6, 10 + cns, nsid, 4096, words=bytes([cns]))) for cns, nsid in enumerate((1, 0, 0, 1))]
    return [
        IC_REQ,
        capsule(command(0x7F, 1, 1, 1024, 1, words), connect_data(0xFFFF, OTHER, NOBODY)),
        *enabled(2),
        *identify,
        capsule(command(9, 20, words=struct.pack("<II", 0x07, 0x70007))),
        capsule(command(9, 21, words=struct.pack("<II", 0x0B, 0x900))),
        *[capsule(command(12, 22 + number)) for number in range(5)],
        capsule(page_command(27, 0x0C, 80)),
        capsule(page_command(28, 0x04, 4096)),
        capsule(command(10, 29, words=struct.pack("<I", 0x0F))),
    ]


def session_of_io(controller):
    """A host that writes, compares and reads by an I/O queue of this controller."""
    words = struct.pack("<HHHHI", 0, 1, 31, 0, 0)
    block, long = bytes(512), bytes(16_384)
    return [
        IC_REQ,
        capsule(command(0x7F, 1, 1, 1024, 1, words), connect_data(controller, OTHER, NOBODY)),
        capsule(command(1, 2, 1, 512, 1, struct.pack("<QH", 0, 0)), block),
        capsule(io_command(1, 3, 0, 64)),
        data_pdu(3, 0, 0, long, False),
        data_pdu(3, 0, 16_384, long, True),
        capsule(command(5, 4, 1, 512, 1, struct.pack("<QH", 0, 0)), block),
        capsule(io_command(5, 5, 0, 32)),
        data_pdu(5, 0, 0, long, True),
        capsule(io_command(2, 6, 0, 256)),
        capsule(command(8, 7, 1, words=struct.pack("<QH", 0, 65_535))),
        capsule(command(0, 8, 1)),
        capsule(io_command(2, 9, 2047, 1)),
    ]


def changed(draws, pdu):
    """The PDU with one field of it another, of one to eight bytes, mostly of its headers."""
    at = draws.randrange(min(len(pdu), draws.choice((8, 24, 72, len(pdu)))))
    length = min(draws.choice((1, 2, 4, 8)), len(pdu) - at)
    value = bytes([draws.choice(VALUES)] * length) if draws.random() < 0.5 else draws.randbytes(length)
    return pdu[:at] + value + pdu[at + length :]


def hostile(draws, sessions):
    """PDUs of a host that sends anything, and whether it goes by a reset."""
    pdus, other = (list(draws.choice(sessions)) for _ in range(2))
    kind = draws.randrange(4)
    if kind == 0:
        at = draws.randrange(len(pdus) + 1)
        return pdus[:at] + [draws.randbytes(draws.randrange(1, 400))], False
    if kind == 1:
        at = draws.randrange(len(pdus))
        pdus[at] = changed(draws, pdus[at])
        return pdus, False
    if kind == 2:
        for _ in range(draws.randrange(1, 4)):
            pdus[draws.randrange(len(pdus))] = draws.choice(other)
        return pdus, False
    stream = b"".join(pdus)
    cut = stream[: draws.randrange(len(stream))]
    return [cut] if cut else pdus, draws.random() < 0.5


class Host:
    """A connection of a host that sends anything, and what it was sent."""

    def __init__(self, target, port, draws, sessions):
        self.pdus, self.is_reset = hostile(draws, sessions)
        self.peer = target.connect(port)
        self.came = bytearray()
        self.is_closed = False

    def send(self):
        """Sends all, as far as it is taken: the target may end the connection before."""
        with contextlib.suppress(ConnectionError):
            self.peer.sendall(b"".join(self.pdus))
        self.peer.setblocking(False)

    def take(self):
        """Whether something came, or the target closed."""
        if self.is_reset or self.is_closed:
            return False
        try:
            piece = self.peer.recv(1 << 18)
        except BlockingIOError:
            return False
        except ConnectionResetError:
            # What came before it may be lost.
            self.is_reset = True
            return True
        self.came += piece
        self.is_closed = not piece
        return True

    def is_owed(self):
        """Whether it has to be answered: it brought a PDU's header that is none, or a first PDU whole."""
        stream = b"".join(self.pdus)
        return not self.is_reset and not self.came and not self.is_closed and len(stream) >= len(IC_REQ)

    def end(self):
        """Goes. What came is PDUs, and nothing after a termination."""
        if self.is_reset:
            reset_when_closed(self.peer)
        else:
            check_pdus(self.came, self.is_closed)
        self.peer.close()


def check_pdus(data, is_closed):
    at = 0
    while len(data) - at >= 8:
        kind, length = data[at], struct.unpack_from("<I", data, at + 4)[0]
        is_length = {3: 24 <= length <= 152, 7: 24 < length <= 135_168}.get(kind, LENGTHS.get(kind) == length)
        check(is_length, f"a PDU comes that is none: {data[at : at + 24].hex()}")
        at += length
        check(kind != 3 or at >= len(data), "something comes after a termination")
    check(not is_closed or at == len(data), "the last PDU that comes is cut")


class Blocks(Beside):
    """A host that writes blocks at random, and reads what was written last."""

    def __init__(self, target, port, draws):
        super().__init__()
        self.draws = draws
        _, self.io = queues(target, port, seconds=3 * SOON)
        self.io.write(0, bytes(8192))
        self.plain = bytearray(self.reads(0, 256) + self.reads(256, 256))

    def act(self):
        at, count = self.draws.randrange(BLOCKS - 16), self.draws.randrange(1, 17)
        data = self.draws.randbytes(count * 512)
        self.timed("a Write", self.io.write, at, data)
        self.plain[at * 512 : (at + count) * 512] = data
        at, count = self.draws.randrange(BLOCKS - 64), self.draws.randrange(1, 65)
        check(self.reads(at, count) == self.plain[at * 512 : (at + count) * 512], "it reads other bytes")
        time.sleep(0.01)

    def reads(self, at, count):
        return self.timed("a Read", self.io.read, at, count)

    def check_end(self):
        whole = self.io.read(0, 256) + self.io.read(256, 256)
        check(whole == self.plain, "its blocks are others at the end")


class Pages(Beside):
    """A host that makes edits, and reads the log pages that they change."""

    def __init__(self, target, port, service):
        super().__init__()
        self.service = service
        self.editor = target.editor()
        self.admin = Queue(target, port, seconds=3 * SOON)
        self.admin.enable()
        self.discovery = Queue(target, port, subsystem=DISCOVERY, seconds=3 * SOON)
        self.discovery.enable()
        self.generation = struct.unpack("<Q", self.discovery.page(0x70, 8))[0]
        self.changes = 0
        check_equal("the list of changed namespaces", self.admin.page(0x04, 4096), bytes(4096))

    def act(self):
        self.makes(b"ref add 9 ipv4 127.0.0.9 8009")
        self.reads_records([referral(9, b"127.0.0.9", b"8009")])
        self.makes(b"ref del 9")
        self.reads_records([])
        self.makes(b"ns size %s 1 %d" % (NQN, 2048 - self.rounds % 2 - 1))
        listed = struct.pack("<I", 1).ljust(4096, b"\0")
        for page in (listed, bytes(4096)):
            check_equal("the list of changed namespaces", self.timed("its read", self.admin.page, 0x04, 4096), page)
        for word, state in ((b"non-optimized", 2), (b"optimized", 1)):
            self.makes(b"ana set 1 %s 1 %s" % (NQN, word))
            self.changes += 1
            page = struct.pack("<QHHI", self.changes, 1, 0, 0)
            page += struct.pack("<IIQB15xI", 1, 1, self.changes, state, 1)
            check_equal("the groups", self.timed("their read", self.admin.page, 0x0C, len(page)), page)
        time.sleep(0.02)

    def makes(self, line):
        check_equal("a reply", self.timed("an edit", self.editor.edit, line), b"ok")

    def reads_records(self, more):
        """The page has one change more, the two subsystems, and these."""
        self.generation += 1
        records = [subsystem(self.service, name) for name in sorted((NQN, OTHER))] + more
        page = struct.pack("<QQH", self.generation, len(records), 0).ljust(1024, b"\0") + b"".join(records)
        check_equal("the discovery log page", self.timed("its read", self.discovery.page, 0x70, len(page)), page)


def record(subtype, port, service, name, address):
    head = struct.pack("<BBBBHHH22x", 3, 1, subtype, 0, port, 0xFFFF, 32) + service.ljust(32, b" ")
    return head.ljust(256, b"\0") + name.ljust(256, b"\0") + address.ljust(256, b" ") + bytes(256)


def subsystem(service, name):
    return record(2, 1, b"%d" % service, name, b"127.0.0.1")


def referral(number, address, service):
    return record(1, number, service, DISCOVERY, address)


def edits_of(service):
    """A port with two subsystems, of a namespace each."""
    edits = [b"port add 1 ipv4 127.0.0.1 %d" % service]
    for disk, name in enumerate(sorted((NQN, OTHER), reverse=True)):
        digit = b"%d" % (disk + 1)
        uuid = digit * 8 + b"-" + digit * 4 + b"-4111-8111-" + digit * 12
        edits += [b"subsys add %s SN-%s open" % (name, digit), b"link add 1 " + name]
        edits.append(b"ns add %s 1 %d 2048 512 %s 1" % (name, disk, uuid))
    return edits


def descriptors(target):
    return len(os.listdir(f"/proc/{target.process.pid}/fd"))


def fuzz(program, seed, number):
    """Sends so many PDUs from a seed, beside the two hosts."""
    draws = random.Random(seed)
    [port] = free_ports(1)
    with Served(program, edits_of(port), options=("--disks", "2")) as target:
        with Pages(target, port, port) as pages, Blocks(target, port, random.Random(seed + 1)) as blocks:
            admin = Queue(target, port, subsystem=OTHER, host=NOBODY)
            admin.enable()
            sessions = [session_of_discovery(), session_of_admin(), session_of_io(admin.controller)]
            files = descriptors(target)
            # What the first ones leave of memory is not counted.
            send_some(target, port, draws, sessions, 500)
            memory = target.memory()
            while number > 0:
                number -= send_some(target, port, draws, sessions, min(number, 500))
                check(target.is_running(), "the program ended")
                pages.check()
                blocks.check()
            eventually(lambda: check_equal("how many files it has", descriptors(target), files))
            check(target.memory() - memory < KEPT, f"its memory grows by {target.memory() - memory} bytes")
            admin.close()


def send_some(target, port, draws, sessions, number):
    """Sends so many PDUs or more, a few hosts at once, and returns how many."""
    sent = 0
    while sent < number:
        hosts = [Host(target, port, draws, sessions) for _ in range(AT_ONCE)]
        for host in hosts:
            host.send()
        until = time.monotonic() + 3 * SOON
        time.sleep(QUIET)
        while any([host.take() for host in hosts]) or any(host.is_owed() for host in hosts):
            check(time.monotonic() < until, "a host is not answered, or answered without end")
            time.sleep(QUIET)
        for host in hosts:
            host.end()
        sent += sum(len(host.pdus) for host in hosts)
    return sent


def hosts_that_send_anything_harm_nobody(program):
    for seed in SEEDS:
        try:
            fuzz(program, seed, PDUS)
        except (AssertionError, OSError) as why:
            raise AssertionError(f"seed {seed}: {why}") from why


TESTS = [
    hosts_that_send_anything_harm_nobody,
]
