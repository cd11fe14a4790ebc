"""Commands of hosts to disks in files, several at a time, each with when it was sent and when its response came."""

import itertools
import struct

from of_sockets.files import UNIT
from of_sockets.host import capsule, command
from of_sockets.owed import H2C_DATA_MAX, data_pdu
from of_sockets.served import check, check_equal

FLUSH, WRITE, READ, COMPARE, ZEROES = 0, 1, 2, 5, 8
# The opcodes of commands that write.
WRITING = WRITE, ZEROES
# What a capsule holds.
CAPSULE = 8192
# Of each count, one that is never reached.
NEVER = 2**64


class Asked:
    """A command. Counted among all that its host sent and got, it was `sent`, and its response came, where that is
    `answered`. The log of calls had so many bytes just before, `sent_at`, and just behind, `answered_at`."""

    def __init__(self, opcode, first=0, blocks=0, is_fua=False, data=b""):
        self.opcode = opcode
        self.first = first
        self.blocks = blocks
        self.is_fua = is_fua
        self.data = data
        self.returned = b""
        self.status = None
        self.sent = self.sent_at = self.answered = self.answered_at = NEVER

    def has(self, unit):
        """Whether the unit is one that it names."""
        return self.first <= unit < self.first + self.blocks

    def given(self, unit):
        """The bytes that it is to write to a unit that it names."""
        start = (unit - self.first) * UNIT
        return self.data[start : start + UNIT] if self.opcode == WRITE else bytes(UNIT)

    def entry(self, cid, nsid):
        """Its submission queue entry."""
        words = struct.pack("<QI", self.first, max(self.blocks - 1, 0) | self.is_fua << 30)
        length = self.blocks * UNIT if self.opcode in (WRITE, READ, COMPARE) else 0
        return command(self.opcode, cid, nsid, length, 1 if self.is_in_capsule() else 0x5A, words)

    def is_in_capsule(self):
        return 0 < len(self.data) <= CAPSULE

    def __repr__(self):
        names = {FLUSH: "Flush", WRITE: "Write", READ: "Read", COMPARE: "Compare", ZEROES: "Write Zeroes"}
        words = f"{names[self.opcode]} of {self.blocks} from {self.first} on" if self.blocks else names[self.opcode]
        return words + ", FUA" if self.is_fua else words


class Host:
    """A host with some queues, which counts what it sends and gets, and looks at the length of a log then."""

    def __init__(self, queues, nsid=1, log_length=lambda: 0):
        self.queues = queues
        self.nsid = nsid
        self.log_length = log_length
        self.counted = itertools.count()
        # Of each queue the commands that wait for their responses, by their CIDs.
        self.waiting = [{} for _ in queues]

    def send(self, asked, line=0):
        waiting, queue = self.waiting[line], self.queues[line]
        cid = next(number for number in range(queue.size) if number not in waiting)
        waiting[cid] = asked
        asked.sent, asked.sent_at = next(self.counted), self.log_length()
        queue.peer.sendall(capsule(asked.entry(cid, self.nsid), asked.data if asked.is_in_capsule() else b""))

    def take(self, line=0):
        """The next command of a queue whose response comes; what is asked for until then is sent."""
        waiting, queue = self.waiting[line], self.queues[line]
        while True:
            kind, pdu = queue.pdu()
            if kind == 5:
                cid, status = struct.unpack("<HH", pdu[20:24])
                check(cid in waiting, f"a response to CID {cid} comes, which was not asked")
                asked = waiting.pop(cid)
                asked.status = status >> 1
                asked.answered, asked.answered_at = next(self.counted), self.log_length()
                return asked
            cid, tag, start, length = struct.unpack("<HHII", pdu[8:20])
            if kind == 7:
                waiting[cid].returned += pdu[pdu[3] :]
            else:
                check_equal("the type of a PDU", kind, 9)
                queue.peer.sendall(asked_for(waiting[cid].data, cid, tag, start, start + length))

    def ask(self, asked, line=0):
        """Sends a command alone, and waits for its response."""
        self.send(asked, line)
        return self.take(line)

    def busy(self):
        """The queues with a command that waits."""
        return [line for line, waiting in enumerate(self.waiting) if waiting]


def asked_for(data, cid, tag, start, end):
    """The H2CData with what an R2T asks for."""
    pdus = []
    for at in range(start, end, H2C_DATA_MAX):
        piece = data[at : min(end, at + H2C_DATA_MAX)]
        pdus.append(data_pdu(cid, tag, at, piece, at + len(piece) == end))
    return b"".join(pdus)
