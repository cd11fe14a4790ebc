"""A host, as small as these tests need it: one command at a time, or many without an answer."""

import struct

from .served import NQN, SECONDS, check, check_equal, received

IC_REQ = struct.pack("<BBBBI", 0, 0, 128, 0, 128) + bytes(120)
HOST = b"nqn.2026-01.test:h1"
DISCOVERY = b"nqn.2014-08.org.nvmexpress.discovery"
ANY_CONTROLLER = 0xFFFF
LAST = 4


def capsule(command, data=b""):
    """A CapsuleCmd, with its data in it."""
    place = 72 if data else 0
    return struct.pack("<BBBBI", 4, 0, 72, place, 72 + len(data)) + command + data


def command(opcode, cid, nsid=0, length=0, kind=0x5A, words=b""):
    """A submission queue entry."""
    head = struct.pack("<BBHI", opcode, 0x40, cid, nsid) + bytes(16)
    return head + struct.pack("<QIBBBB", 0, length, 0, 0, 0, kind) + words.ljust(24, b"\0")


def connect_data(controller, subsystem, host):
    """The data of a Connect."""
    data = bytes(15) + b"\1" + struct.pack("<H", controller) + bytes(238)
    return data + subsystem.ljust(256, b"\0") + host.ljust(256, b"\0") + bytes(256)


def initialized(served, port, buffer=None, segment=None, seconds=SECONDS):
    """A connection whose ICReq was answered, and which waits for at most so many seconds."""
    peer = served.connect(port, buffer, segment)
    peer.settimeout(seconds)
    peer.sendall(IC_REQ)
    check_equal("the ICResp", received(peer, 128)[:8], struct.pack("<BBBBI", 1, 0, 128, 0, 128))
    return peer


class Queue:
    """A connection with a queue of a controller, of this SQSIZE, with a Keep Alive Timer of so many milliseconds."""

    def __init__(self, served, port, qid=0, controller=ANY_CONTROLLER, size=31, kato=0, **more):
        """More: the `subsystem`, `host`, `buffer`, `segment` and `seconds`, where they are not the usual ones."""
        subsystem, host = more.pop("subsystem", NQN), more.pop("host", HOST)
        self.peer = initialized(served, port, **more)
        self.cid = 0
        self.qid = qid
        self.size = size
        # How many responses came.
        self.responses = 0
        words = struct.pack("<HHHHI", 0, qid, size, 0, kato)
        data = connect_data(controller, subsystem, host)
        status, result, _ = self.answer(command(0x7F, self.next(), 1, 1024, 1, words), data)
        check_equal("the status of the Connect", status, 0)
        self.controller = result & 0xFFFF

    def next(self):
        self.cid = (self.cid + 1) % (self.size + 1)
        return self.cid

    def answer(self, entry, data=b""):
        """The status of a command, its result, and what it returns."""
        self.peer.sendall(capsule(entry, data))
        returned = b""
        while True:
            kind, pdu = self.pdu()
            if kind == 7:
                returned += pdu[pdu[3] :]
            elif kind == 5:
                result, _, _, status = struct.unpack("<QIHH", pdu[8:24])
                self.responses += 1
                return status, result, returned
            else:
                raise AssertionError(f"a PDU of type {kind} comes")

    def pdu(self):
        """The type of the next PDU, and all of it."""
        head = received(self.peer, 8)
        check(len(head) == 8, "the connection ends where a PDU is wanted")
        length = struct.unpack("<I", head[4:])[0]
        rest = received(self.peer, length - 8)
        check_equal("the length of a PDU", len(rest) + 8, length)
        return head[0], head + rest

    def enable(self):
        """Makes its controller ready."""
        words = struct.pack("<IIQ", 0, 0x14, 0x00460001)
        check_equal("the status of CC", self.answer(command(0x7F, self.next(), words=words))[0], 0)

    def read(self, block, blocks):
        """The bytes of so many blocks."""
        status, _, data = self.answer(self.reading(block, blocks))
        check_equal("the status of a Read", status, 0)
        check_equal("the length of a Read", len(data), blocks * 512)
        return data

    def reading(self, block, blocks):
        return io_command(2, self.next(), block, blocks)

    def write(self, block, data, nsid=1):
        """Writes blocks, whose data goes in the capsule."""
        words = struct.pack("<QH", block, len(data) // 512 - 1)
        entry = command(1, self.next(), nsid, len(data), 1, words)
        check_equal("the status of a Write", self.answer(entry, data)[0], 0)

    def page(self, log, length):
        """So many bytes of a log page."""
        status, _, data = self.answer(page_command(self.next(), log, length))
        check_equal("the status of a Get Log Page", status, 0)
        check_equal("the length of a log page", len(data), length)
        return data

    def close(self):
        self.peer.close()


def page_command(cid, log, length):
    """A Get Log Page of so many bytes."""
    return command(2, cid, 0, length, 0x5A, struct.pack("<I", log | (length // 4 - 1) << 16))


def io_command(opcode, cid, block, blocks):
    """A Read (2) or a Write (1) of so many blocks, whose data do not go in the capsule."""
    return command(opcode, cid, 1, blocks * 512, 0x5A, struct.pack("<QH", block, blocks - 1))


def queues(served, port, **kind):
    """The admin queue of a new controller that is ready, and an I/O queue of this kind."""
    admin = Queue(served, port)
    admin.enable()
    io = Queue(served, port, 1, admin.controller, **kind)
    # Its connection stays open as long as the other.
    io.admin = admin
    return admin, io
