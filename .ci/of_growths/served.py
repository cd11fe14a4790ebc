"""The programs over sockets: the commands of nvt_host against a served target, and a served target with hosts."""

import contextlib
import tempfile
import threading

from of_sockets.host import DISCOVERY, Queue, queues
from of_sockets.served import NQN, Served, check, check_equal, eventually, free_ports, one_disk

from .replays import ends_by_memory
from .runs import MEMORY, Case, counted

HOST = b"nqn.2026-01.test:h1"
# What the log says of a connection for which there is no memory.
TOLD = b": ended by the target\n"
COMMANDS = {
    "discover": [],
    "list": [NQN],
    "ana": [NQN],
    "changed": [NQN],
    "read": [NQN, b"1", b"0", b"2"],
    "write": [NQN, b"1", b"8", b"17", b"90"],
}


class Command(Case):
    """A command of nvt_host. How many growths there are is a matter of what comes at once: where the one that is
    refused is not made, all is as with ample memory."""

    may_differ = True

    def __init__(self, program, port, name, words):
        self.name = f"nvt_host {name}"
        subsystem = [word.decode() for word in words[:1]]
        more = [word.decode() for word in words[1:]]
        self.command = [str(program), name, "127.0.0.1", str(port), *subsystem, HOST.decode(), *more]

    def fault_of(self, run, ample):
        if not run.refused:
            is_done = run.growths > 0 and run.end() == (0, ample.out, b"") and run.out
            return None if is_done else "the command is not done with ample memory, or no growth is counted"
        return ends_by_memory(run, ample)


@contextlib.contextmanager
def commands(target, host):
    """The commands of nvt_host, and a target that is served while the block runs."""
    [port] = free_ports(1)
    with Served(target, one_disk(port)) as served, changing(served):
        served.connect(port).close()
        yield [Command(host, port, name, words) for name, words in COMMANDS.items()]


@contextlib.contextmanager
def changing(served):
    """The size of the namespace changes again and again while the block runs, so that who waits for it is told."""
    stops, editor = threading.Event(), served.editor()
    thread = threading.Thread(target=change_on, args=(stops, editor), daemon=True)
    thread.start()
    try:
        yield
    finally:
        stops.set()
        thread.join()
        editor.peer.close()


def change_on(stops, editor):
    size = 2048
    with contextlib.suppress(AssertionError, OSError):
        while not stops.wait(0.02):
            size = 2048 if size < 2048 else 2047
            editor.edit(b"ns size %s 1 %d" % (NQN, size))


class ServedRun:
    """A target that is served over these disks with one growth refused, and how a session with it went."""

    def __init__(self, shim, program, disks, refused):
        self.fault = self.why = None
        [port] = free_ports(1)
        with shim.counts() as counts:
            environment = shim.environment(counts, refused)
            with Served(program, one_disk(port), options=disks, environment=environment) as target:
                self.go_on(target, port)
                self.status, self.err = target.process.poll(), target.err()
            self.growths, self.refused = counted(counts)

    def go_on(self, target, port):
        """A session; where a connection of it is refused, and the log says so, another one, which is served whole."""
        try:
            session(target, port)
            return
        except (AssertionError, OSError) as why:
            self.why = str(why)
        try:
            if target.is_running():
                eventually(lambda: check(TOLD in target.err(), "the log does not say why a connection ended"))
                session(target, port)
        except (AssertionError, OSError) as why:
            self.fault = str(why)

    def says(self):
        return f"status {self.status}, {self.err[-300:]!r}; the session: {self.why}"


def session(target, port):
    """Edits, each made again where memory is refused, a host that reads its pages, and one that writes and reads."""
    editor = target.editor()
    for line in (b"ref add 7 ipv4 127.0.0.9 8009", b"ref del 7"):
        reply = editor.edit(line)
        check_equal("an edit", editor.edit(line) if reply == b"refused Memory" else reply, b"ok")
    discovery = Queue(target, port, subsystem=DISCOVERY)
    discovery.enable()
    check_equal("the records", discovery.page(0x70, 16)[8:], b"\1" + bytes(7))
    admin, io = queues(target, port)
    io.write(0, b"\xa5" * 4096)
    check(io.read(0, 256)[:4096] == b"\xa5" * 4096, "it reads other bytes")
    check_equal("the groups", admin.page(0x0C, 16)[8:], b"\1" + bytes(7))
    for each in (io, admin, discovery, editor.peer):
        each.close()


class Serving(Case):
    """A target that is served: what is refused is told, and all that is asked for is answered once it is asked again. A
    target that did not begin to serve ends."""

    name = "served target"
    may_differ = True
    disks = "--disks", "1"

    def __init__(self, program):
        self.program = program

    def run(self, shim, refused):
        return ServedRun(shim, self.program, self.disks, refused)

    def fault_of(self, run, _ample):
        if run.status is not None:
            is_told = run.refused and run.status == 1 and run.err == MEMORY
            return None if is_told else "the program ends otherwise than with status 1 and `error: memory`"
        if run.fault:
            return f"the session is made again: {run.fault}"
        if not run.refused and (run.why or run.growths == 0):
            return "the session is not served with ample memory, or no growth is counted"
        return None


class ServingFile(Serving):
    """.. of which a disk is in a file, and one in memory."""

    name = "served target, its disk in a file"

    def run(self, shim, refused):
        with tempfile.NamedTemporaryFile(prefix="disk-", dir=shim.folder) as file:
            file.truncate(1 << 20)
            return ServedRun(shim, self.program, ("--file", file.name, "--memory", "8"), refused)
