"""A program that serves, and connections to it."""

import errno
import itertools
import os
import random
import socket
import subprocess
import tempfile
import time
from pathlib import Path

# How long anything is waited for.
SECONDS = 10
NQN = b"nqn.2026-01.test:a"
# What a segment has on Ethernet.
ETHERNET = 1448
# Of the clocks of a process, that of the time for which it had a processor.
PROCESS_CLOCK = 2
# The first port that is given, and the one that follows the last: below those that a system gives out by itself.
PORTS = 10_000, 32_768


def check(holds, what):
    """Fails the test where this does not hold."""
    if not holds:
        raise AssertionError(what)


def check_equal(what, got, wanted):
    check(got == wanted, f"{what}: wanted {shown(wanted)}, got {shown(got)}")


def eventually(look):
    """Looks again and again, until what is checked holds or too much time has passed."""
    until = time.monotonic() + SECONDS
    while True:
        try:
            return look()
        except (AssertionError, OSError):
            if time.monotonic() > until:
                raise
        time.sleep(0.1)


def shown(value):
    text = repr(value)
    return text if len(text) < 300 else f"{text[:300]} .. ({len(value)} long)"


def port_numbers():
    """The numbers of ports, each in its turn, from any of them on."""
    numbers = [*range(*PORTS)]
    first = random.randrange(len(numbers))
    return itertools.cycle(numbers[first:] + numbers[:first])


NUMBERS = port_numbers()


def free_ports(count):
    """As many port numbers that nobody listens to now. None is tried that was given before, since who was given it may
    not listen to it yet."""
    numbers = []
    while len(numbers) < count:
        number = next(NUMBERS)
        if is_free(number):
            numbers.append(number)
    return numbers


def is_free(number):
    """Whether a port can be listened to. It is not listened to here: what is open here a process that another thread
    starts has open a moment longer."""
    with socket.socket() as trial:
        trial.setsockopt(socket.SOL_SOCKET, socket.SO_REUSEADDR, 1)
        try:
            trial.bind(("127.0.0.1", number))
        except OSError as why:
            if why.errno != errno.EADDRINUSE:
                raise
            return False
    return True


def one_disk(service, blocks=2048):
    """The edits of a target with one namespace, on port 1."""
    return [
        b"port add 1 ipv4 127.0.0.1 %d" % service,
        b"subsys add %s SN-A open" % NQN,
        b"link add 1 %s" % NQN,
        b"ns add %s 1 0 %d 512 11111111-1111-4111-8111-111111111111 1" % (NQN, blocks),
    ]


class Served:
    """`nvt_target run` on these edits, until the block ends, in this environment, where it is not the usual one. What it
    prints goes to files of its folder, or to others that are named."""

    def __init__(
        self, program, edits, control=None, options=(), turns=2**64 - 1, out=None, err=None, environment=None
    ):
        self.control = control or free_ports(1)[0]
        self.folder = tempfile.TemporaryDirectory(prefix="sockets-")
        Path(self.folder.name, "EDITS").write_bytes(b"".join(line + b"\n" for line in edits))
        words = ["nvt_target", "run", "EDITS", "--control", str(self.control)]
        self.words = [*words, "--turns", str(turns), *options]
        self.program = program
        self.environment = environment
        self.files = out or self.path("out"), err or self.path("err")
        self.process = None

    def __enter__(self):
        with open(self.files[0], "wb") as out, open(self.files[1], "wb") as err:
            self.process = subprocess.Popen(
                self.words,
                executable=self.program,
                cwd=self.folder.name,
                env=self.environment,
                stdin=subprocess.DEVNULL,
                stdout=out,
                stderr=err,
            )
        return self

    def __exit__(self, *_):
        self.process.kill()
        self.process.wait(SECONDS)
        self.folder.cleanup()

    def path(self, name):
        return os.path.join(self.folder.name, name)

    def out(self):
        return Path(self.path("out")).read_bytes()

    def err(self):
        return Path(self.path("err")).read_bytes()

    def ended(self, seconds=SECONDS):
        """The exit status of a program that ends by itself."""
        try:
            return self.process.wait(seconds)
        except subprocess.TimeoutExpired:
            raise AssertionError(f"the program does not end in {seconds} seconds") from None

    def is_running(self):
        return self.process.poll() is None

    def connect(self, port, buffer=None, segment=None):
        """A connection to a port that it listens to, or will in a moment; with a buffer of so many bytes for what
        comes, and so many bytes in a segment, where they are named."""
        until = time.monotonic() + SECONDS
        while True:
            try:
                return connected(port, buffer, segment)
            except ConnectionRefusedError:
                check(self.is_running(), f"the program ended: {self.err().decode()}")
                check(time.monotonic() < until, f"nobody listens to port {port}")
                time.sleep(0.01)

    def editor(self):
        """A connection for lines of edits."""
        return Editor(self.connect(self.control))

    def processor_time(self):
        """The seconds of processor time that it took so far."""
        # The clock of another process: that of its ticks is too coarse for one that takes a hundredth of a processor.
        return time.clock_gettime(~self.process.pid << 3 | PROCESS_CLOCK)

    def memory(self):
        """The bytes of memory that it has in use."""
        pages = Path(f"/proc/{self.process.pid}/statm").read_text().split()[1]
        return int(pages) * os.sysconf("SC_PAGE_SIZE")


def connected(port, buffer=None, segment=None):
    """A connection to a port of this machine. Where segments are short, as on Ethernet, little is kept in between."""
    peer = socket.socket()
    try:
        if buffer:
            peer.setsockopt(socket.SOL_SOCKET, socket.SO_RCVBUF, buffer)
        if segment:
            peer.setsockopt(socket.IPPROTO_TCP, socket.TCP_MAXSEG, segment)
        peer.settimeout(SECONDS)
        peer.connect(("127.0.0.1", port))
        peer.setsockopt(socket.IPPROTO_TCP, socket.TCP_NODELAY, 1)
    except OSError:
        peer.close()
        raise
    return peer


class Editor:
    """A connection for lines of edits."""

    def __init__(self, peer):
        self.peer = peer
        self.held = b""

    def send(self, data):
        self.peer.sendall(data)

    def reply(self):
        """The next line that comes, without its LF; nothing where the connection is closed."""
        while b"\n" not in self.held:
            data = piece_of(self.peer, 65_536)
            if not data:
                check(not self.held, f"a reply without LF: {self.held!r}")
                return None
            self.held += data
        line, self.held = self.held.split(b"\n", 1)
        return line

    def edit(self, line):
        """The reply to a line."""
        self.send(line + b"\n")
        return self.reply()

    def done(self, line):
        """The same, once listeners have followed the edit: before that no other line is answered."""
        answer = self.edit(line)
        check_equal("an empty line", self.edit(b""), b"line 0 Empty")
        return answer


def piece_of(peer, count):
    """Up to so many bytes that come, or none where the connection ends."""
    try:
        return peer.recv(count)
    except ConnectionResetError:
        return b""
    except TimeoutError:
        raise AssertionError(f"nothing comes for {peer.gettimeout():.1f} seconds") from None


def received(peer, count):
    """So many bytes that come, or fewer where the connection ends before."""
    data = bytearray()
    while len(data) < count:
        piece = piece_of(peer, count - len(data))
        if not piece:
            break
        data += piece
    return bytes(data)


def is_closed(peer):
    """Whether the other side closes the connection, and sends nothing before."""
    return piece_of(peer, 1) == b""
