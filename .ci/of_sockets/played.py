"""Conversations, played over sockets: each PDU comes as `replay` prints it."""

import re
import subprocess
import tempfile
import time
from pathlib import Path

from .served import SECONDS, Served, check, check_equal, free_ports, is_closed, received

CONVERSATIONS = Path(__file__).resolve().parent.parent.parent / "tests/conversations"
PORT = re.compile(rb"^(port add [0-9]+ ipv4 127\.0\.0\.1) ([0-9]+)$")
# A line that changes nothing, and whose reply marks the end of what the line before it printed.
MARK = b"edit "
MARKED = b"line 0 Empty"
# How long the target has for a line that nothing answers.
QUIET_SECONDS = 0.2


def on_free_ports(edits):
    """The edits with the services of their ports changed to free ones, and these by the ports' numbers."""
    found = [PORT.match(line) for line in edits]
    free = free_ports(sum(bool(match) for match in found))
    ports = {}
    changed = []
    for line, match in zip(edits, found):
        if match:
            service = free.pop()
            ports[int(line.split(b" ")[2])] = service
            line = match[1] + b" %d" % service
        changed.append(line)
    return changed, ports


def printed(program, edits, stream):
    """The lines that `replay` prints for each line of a stream."""
    marked = b"".join(line + b"\n" + MARK + b"\n" for line in stream)
    with tempfile.TemporaryDirectory(prefix="played-") as scratch:
        Path(scratch, "EDITS").write_bytes(b"".join(line + b"\n" for line in edits))
        Path(scratch, "STREAM").write_bytes(marked)
        words = ["nvt_target", "replay", "EDITS", "STREAM"]
        run = subprocess.run(
            words, executable=program, cwd=scratch, stdout=subprocess.PIPE, timeout=SECONDS, check=True
        )
    steps = [[]]
    for line in run.stdout.split(b"\n")[:-1]:
        if line == MARKED:
            steps.append([])
        else:
            steps[-1].append(line)
    check_equal("the lines that were marked", len(steps) - 1, len(stream))
    return steps[:-1]


class Player:
    """The hosts of a conversation, by the numbers of their connections."""

    def __init__(self, served, ports):
        self.served = served
        self.ports = ports
        self.hosts = {}
        self.editor = served.editor()

    def play(self, line, lines):
        """Does what a line of the stream says, and wants what `replay` printed for it."""
        word, _, rest = line.partition(b" ")
        lines = list(lines)
        if word == b"open":
            k = lines.pop(0).split(b" ")[0]
            self.hosts[k] = self.served.connect(self.ports[int(rest)])
        elif word == b"rx":
            k, _, digits = rest.partition(b" ")
            self.hosts[k].sendall(bytes.fromhex(digits.decode()))
        elif word == b"end":
            self.hosts.pop(rest).close()
        elif word == b"edit":
            wanted = lines.pop(0)
            check_equal("a reply", self.editor.edit(rest), b"ok" if wanted == b"edit ok" else wanted)
        else:
            raise ValueError(f"a line that cannot be played: {line[:40]!r}")
        for wanted in lines:
            self.expect(wanted)
        if word != b"edit" and not lines:
            time.sleep(QUIET_SECONDS)

    def expect(self, wanted):
        k, _, said = wanted.partition(b" ")
        if said == b"closed":
            check(is_closed(self.hosts.pop(k)), f"connection {k.decode()} is not closed")
            return
        pdu = bytes.fromhex(said.removeprefix(b"pdu ").decode())
        check_equal(f"a PDU of connection {k.decode()}", received(self.hosts[k], len(pdu)), pdu)


def play(program, name):
    folder = CONVERSATIONS / name
    edits, ports = on_free_ports(folder.joinpath("EDITS").read_bytes().split(b"\n")[:-1])
    stream = folder.joinpath("STREAM").read_bytes().split(b"\n")[:-1]
    steps = printed(program, edits, stream)
    with Served(program, edits) as served:
        player = Player(served, ports)
        for number, (line, lines) in enumerate(zip(stream, steps), 1):
            try:
                player.play(line, lines)
            except (AssertionError, OSError) as why:
                raise AssertionError(f"line {number}: {why}") from why


def a_discovery_is_played(program):
    play(program, "a_linux_host_discovers")


def writes_and_reads_are_played(program):
    play(program, "a_linux_host_writes_and_reads_its_disks")


def large_blocks_are_played(program):
    play(program, "a_linux_host_moves_large_blocks")


def edits_under_a_host_are_played(program):
    play(program, "a_linux_host_lives_through_edits")


TESTS = [
    a_discovery_is_played,
    writes_and_reads_are_played,
    large_blocks_are_played,
    edits_under_a_host_are_played,
]
