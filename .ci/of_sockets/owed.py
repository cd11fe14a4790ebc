"""What hosts are owed: each byte that comes is held against the commands that were sent."""

import struct

from .host import LAST
from .served import check, check_equal

H2C_DATA_MAX = 16_384
SUCCESS = 0


class Owed:
    """What the host of a connection is owed for its commands, and how much of it came.

    Its queue has this size, and so many responses went before."""

    def __init__(self, size=31, responses=1):
        self.size = size
        self.responses = responses
        # What is not answered yet, by its CID: the status, the data that are to come and how many came.
        self.waiting = {}
        # The data of Writes by their CID, and the PDUs that the target asked for.
        self.writes = {}
        self.asked = bytearray()
        self.held = bytearray()
        self.answered = 0

    def owe(self, cid, data=b"", status=SUCCESS):
        """A command was sent, which is answered with this status after these data."""
        check(cid not in self.waiting, f"CID {cid} is used twice")
        self.waiting[cid] = [status, memoryview(data), 0]

    def owe_write(self, cid, data):
        """A Write was sent, whose data are to be asked for."""
        self.owe(cid)
        self.writes[cid] = [data, 0]

    def take(self, piece):
        """These bytes came."""
        self.held += piece
        start = 0
        while len(self.held) - start >= 8:
            length = struct.unpack_from("<I", self.held, start + 4)[0]
            check(24 <= length <= 135_168, f"a PDU of {length} bytes comes: {self.held[start:start + 32].hex()}")
            if len(self.held) - start < length:
                break
            self.pdu(bytes(self.held[start : start + length]))
            start += length
        del self.held[:start]

    def pdu(self, pdu):
        if pdu[0] == 5:
            self.response(pdu)
        elif pdu[0] == 7:
            self.data(pdu)
        elif pdu[0] == 9:
            self.asks(pdu)
        else:
            raise AssertionError(f"a PDU of type {pdu[0]} comes: {pdu[:32].hex()}")

    def entry(self, cid, what):
        check(cid in self.waiting, f"{what} of CID {cid}, which waits for none")
        return self.waiting[cid]

    def response(self, pdu):
        check_equal("the header of a response", pdu[:8], struct.pack("<BBBBI", 5, 0, 24, 0, 24))
        head, zero, cid, status = struct.unpack("<HHHH", pdu[16:])
        wanted, data, came = self.entry(cid, "a response")
        check_equal(f"the status of CID {cid}", (status, zero), (wanted, 0))
        check(came == len(data), f"CID {cid} is answered after {came} of {len(data)} bytes")
        check(cid not in self.writes, f"the Write {cid} is answered before its data were sent")
        self.responses += 1
        check_equal(f"SQHD of response {self.responses}", head, self.responses % (self.size + 1) if self.size else 0)
        del self.waiting[cid]
        self.answered += 1

    def data(self, pdu):
        cid, _, start, length = struct.unpack("<HHII", pdu[8:20])
        entry = self.entry(cid, "data")
        check_equal("the offset of data", start, entry[2])
        entry[2] += length
        check(entry[2] <= len(entry[1]), f"CID {cid} is sent more than its {len(entry[1])} bytes")
        last = LAST if entry[2] == len(entry[1]) else 0
        head = struct.pack("<BBBBIHHII", 7, last, 24, 24, 24 + length, cid, 0, start, length)
        check_equal("the header of data", pdu[:24], head.ljust(24, b"\0"))
        check(pdu[24:] == entry[1][start : entry[2]], f"other bytes come for CID {cid} from {start} on")

    def asks(self, pdu):
        cid, tag, start, length = struct.unpack("<HHII", pdu[8:20])
        check_equal("the header of an R2T", pdu[:8], struct.pack("<BBBBI", 9, 0, 24, 0, 24))
        check(cid in self.writes, f"the data of CID {cid} are asked for, which is no Write")
        data, asked = self.writes[cid]
        check_equal("the offset of an R2T", start, asked)
        check(0 < length <= len(data) - start, f"an R2T of {length} bytes from {start} on")
        for offset in range(start, start + length, H2C_DATA_MAX):
            piece = data[offset : min(start + length, offset + H2C_DATA_MAX)]
            is_last = offset + len(piece) == start + length
            self.asked += data_pdu(cid, tag, offset, piece, is_last)
        self.writes[cid][1] += length
        if start + length == len(data):
            del self.writes[cid]

    def is_paid(self):
        """Whether all that is owed came."""
        return not self.waiting and not self.held

    def left(self):
        """What did not come, in words."""
        counts = f"{len(self.waiting)} commands are not answered, {self.answered} are"
        return f"{counts}, {len(self.held)} bytes of a PDU came"


def data_pdu(cid, tag, offset, data, is_last):
    """An H2CData."""
    flags = LAST if is_last else 0
    head = struct.pack("<BBBBIHHIII", 6, flags, 24, 24, 24 + len(data), cid, tag, offset, len(data), 0)
    return head + data


class OwedRefusals:
    """What the host of a connection without a Connect is owed for commands of rising CIDs: a refusal of each."""

    def __init__(self):
        self.sent = 0
        self.answered = 0
        self.held = bytearray()
        self.waiting = ()
        self.asked = bytearray()

    def take(self, piece):
        self.held += piece
        count = len(self.held) // 24
        wanted = b"".join(refusal(cid) for cid in range(self.answered, self.answered + count))
        came = bytes(self.held[: count * 24])
        check(came == wanted, f"other refusals come from {self.answered} on: {came[:48].hex()}")
        del self.held[: count * 24]
        self.answered += count
        check(self.answered <= self.sent, f"{self.answered} of {self.sent} commands are answered")

    def is_paid(self):
        return self.answered == self.sent

    def left(self):
        return f"{self.answered} of {self.sent} commands are answered"


def refusal(cid):
    """The response to a command of a connection without a Connect: SC 0Ch with DNR."""
    return struct.pack("<BBBBIQHHHH", 5, 0, 24, 0, 24, 0, 0, 0, cid % 65_536, 0x8018)
