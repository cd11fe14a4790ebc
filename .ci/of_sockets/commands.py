"""The commands of `nvt_host`, each asked of a target that is served: what they print, whole, and how they end."""

import contextlib
import socket
import struct
import subprocess
import threading
import time

from .host import DISCOVERY
from .served import NQN, SECONDS, Served, check, check_equal, connected, eventually, free_ports, piece_of, received

HOST = b"nqn.2026-01.test:h1"
OTHER = b"nqn.2026-01.test:h2"
# As many blocks as disk 0 has of 512 bytes.
BLOCKS = 2048


def base(service):
    """The edits of a subsystem with one namespace, closed but to one host, and of another host that is known."""
    return [
        b"port add 1 ipv4 127.0.0.1 %d" % service,
        b"subsys add %s SN-A closed" % NQN,
        b"host add %s" % HOST,
        b"host add %s" % OTHER,
        b"allow add %s %s" % (NQN, HOST),
        b"link add 1 %s" % NQN,
        b"ns add %s 1 0 %d 512 11111111-1111-4111-8111-111111111111 1" % (NQN, BLOCKS),
    ]


# A namespace of 4,096-byte blocks, in group 2.
LARGE = b"ns add %s 7 1 256 4096 77777777-7777-4777-8777-777777777777 2" % NQN


class Commands:
    """Commands of a host, to one port of a target."""

    def __init__(self, host, service):
        self.host = host
        self.service = service

    def words(self, verb, *rest, of=HOST, to=NQN):
        peers = [of] if verb == "discover" else [to, of]
        return [b"nvt_host", verb.encode(), b"127.0.0.1", b"%d" % self.service, *peers, *(str(it).encode() for it in rest)]

    def start(self, *words, **peers):
        pipes = {"stdin": subprocess.DEVNULL, "stdout": subprocess.PIPE, "stderr": subprocess.PIPE}
        return subprocess.Popen(self.words(*words, **peers), executable=self.host, **pipes)

    def ends(self, wanted, *words, **peers):
        """Runs a command, which has to end with this status, and print this on standard output and standard error."""
        with self.start(*words, **peers) as process:
            check_ends(process, wanted, " ".join(map(str, words)))

    def prints(self, text, *words, **peers):
        self.ends((0, text, b""), *words, **peers)

    def fails(self, text, *words, **peers):
        self.ends((1, b"", b"error: %s\n" % text), *words, **peers)


def check_ends(process, wanted, what):
    try:
        out, err = process.communicate(timeout=SECONDS)
    except subprocess.TimeoutExpired:
        process.kill()
        raise
    check_equal(f"how {what} ends", (process.returncode, out, err), wanted)


def on_base(*more):
    """A test of commands to a target that has these edits beside its base."""

    def made(test):
        def run(program, host):
            [service] = free_ports(1)
            with Served(program, [*base(service), *more]) as target:
                target.connect(service).close()
                test(target, Commands(host, service))
                check(target.is_running(), "the program ended")

        run.__name__ = test.__name__
        return run

    return made


@on_base()
def discover_prints_its_records(_, commands):
    record = b"record 3 1 2 1 127.0.0.1 %d nqn.2026-01.test:a\n" % commands.service
    commands.prints(b"genctr 1 records 1\n" + record, "discover")
    commands.prints(b"genctr 0 records 0\n", "discover", of=OTHER)
    commands.prints(b"genctr 0 records 0\n", "discover", of=b"nqn.2026-01.test:never-added")


@on_base(b"ref add 7 ipv4 127.0.0.9 8009", b"ref set 7 ipv6 ::1 8010")
def discover_prints_referrals(_, commands):
    record = b"record 3 1 2 1 127.0.0.1 %d nqn.2026-01.test:a\n" % commands.service
    referral = b"record 3 2 1 7 ::1 8010 nqn.2014-08.org.nvmexpress.discovery\n"
    commands.prints(b"genctr 3 records 2\n" + record + referral, "discover")
    commands.prints(b"genctr 2 records 1\n" + referral, "discover", of=OTHER)


@contextlib.contextmanager
def toggling(target, pause):
    """Takes the link of subsystem A away and adds it again, each so long after the reply to the one before, until the
    block ends."""
    over = threading.Event()
    editor = target.editor()

    def toggle():
        while not over.is_set():
            for verb in (b"del", b"add"):
                check_equal("an edit", editor.edit(b"link %s 1 %s" % (verb, NQN)), b"ok")
                time.sleep(pause)

    beside = threading.Thread(target=toggle, daemon=True)
    beside.start()
    try:
        yield
        check(beside.is_alive(), "the edits ended")
    finally:
        over.set()
        beside.join(SECONDS)
        editor.peer.close()


def is_page(out, record):
    """Whether this is a page that the edits made: the record is there where the link was added last."""
    head, _, rest = out.partition(b"\n")
    words = head.split(b" ")
    check(words[0::2] == [b"genctr", b"records"], f"the first line: {head!r}")
    there = int(words[1]) % 2
    return int(words[3]) == there and rest == record * there


@on_base()
def discover_prints_a_page_of_one_moment(target, commands):
    record = b"record 3 1 2 1 127.0.0.1 %d nqn.2026-01.test:a\n" % commands.service
    for pause, least in ((0, 0), (0.05, 1)):
        pages = 0
        with toggling(target, pause):
            for _ in range(20):
                with commands.start("discover") as process:
                    out, err = process.communicate(timeout=SECONDS)
                is_unsettled = (process.returncode, out, err) == (1, b"", b"error: unsettled\n")
                pages += not is_unsettled
                check(is_unsettled or process.returncode == 0 and is_page(out, record), f"what is printed: {out!r} {err!r}")
        check(pages >= least, f"{pages} pages")


def is_read_of_records(pdu):
    """Whether it is a Get Log Page of the discovery log page, from behind its header on."""
    return pdu[0] == 4 and pdu[8] == 2 and pdu[48] == 0x70 and struct.unpack_from("<Q", pdu, 56)[0] >= 1024


def relay(peer, host):
    with peer, host:
        while piece := piece_of(peer, 65_536):
            host.sendall(piece)


@contextlib.contextmanager
def edited_between(target, service, times):
    """The number of a port whose connection goes on to this one; before each of so many reads of records there is an
    edit, which adds a referral or removes it."""
    editor, made = target.editor(), []

    def pass_on(listener):
        host, peer = listener.accept()[0], connected(service)
        host.settimeout(SECONDS)
        threading.Thread(target=relay, args=(peer, host), daemon=True).start()
        while len(head := received(host, 8)) == 8:
            pdu = head + received(host, struct.unpack("<I", head[4:])[0] - 8)
            if is_read_of_records(pdu) and len(made) < times:
                made.append(editor.edit((b"ref add 9 ipv4 127.0.0.9 8009", b"ref del 9")[len(made) % 2]))
            peer.sendall(pdu)
        peer.shutdown(socket.SHUT_RDWR)

    with socket.create_server(("127.0.0.1", 0)) as listener:
        threading.Thread(target=pass_on, args=(listener,), daemon=True).start()
        yield listener.getsockname()[1]
    check_equal("the edits", made, [b"ok"] * times)


@on_base()
def discover_tries_again_where_records_change_behind_their_header(target, commands):
    record = b"record 3 1 2 1 127.0.0.1 %d nqn.2026-01.test:a\n" % commands.service
    with edited_between(target, commands.service, 1) as port:
        referral = b"record 3 1 1 9 127.0.0.9 8009 %s\n" % DISCOVERY
        Commands(commands.host, port).prints(b"genctr 2 records 2\n" + record + referral, "discover")
    check_equal("an edit", target.editor().edit(b"ref del 9"), b"ok")
    with edited_between(target, commands.service, 8) as port:
        Commands(commands.host, port).fails(b"unsettled", "discover")
    commands.prints(b"genctr 11 records 1\n" + record, "discover")


@on_base(LARGE)
def list_prints_the_namespaces(target, commands):
    commands.prints(b"1\n7\n", "list")
    check_equal("an edit", target.editor().edit(b"ns del %s 1" % NQN), b"ok")
    commands.prints(b"7\n", "list")


@on_base(LARGE, b"ana set 1 %s 2 inaccessible" % NQN)
def ana_prints_the_groups(_, commands):
    commands.prints(b"change 0 groups 2\ngroup 1 1 0 1\ngroup 2 3 0 7\n", "ana")


@on_base(LARGE)
def changed_waits_for_an_edit(target, commands):
    editor = target.editor()
    sizes = iter(range(1, BLOCKS))
    with commands.start("changed") as process:

        def ends_after_an_edit():
            """Edits again, since the host may not wait yet."""
            check_equal("an edit", editor.edit(b"ns size %s 1 %d" % (NQN, next(sizes))), b"ok")
            check(process.poll() is not None, "it still waits")

        eventually(ends_after_an_edit)
        check_ends(process, (0, b"changed 1\n", b""), "changed")


@on_base(LARGE)
def blocks_that_are_written_are_read(_, commands):
    # In the capsule, asked for, the last block, as many bytes as a command may have, and blocks of 4,096 bytes.
    rows = [(1, 0, 1, 512, 5), (1, 3, 17, 512, 0xAB), (1, 2047, 1, 512, 255), (1, 0, 256, 512, 16), (7, 224, 32, 4096, 7)]
    for nsid, lba, count, size, byte in rows:
        commands.prints(b"ok\n", "write", nsid, lba, count, byte)
        lines = (b"%02x" % byte * size + b"\n") * count
        commands.prints(lines, "read", nsid, lba, count)
    commands.prints(b"00" * 512 + b"\n", "read", 1, 1000, 1)


@on_base(LARGE)
def refusals_are_told(_, commands):
    commands.fails(b"status 01 84", "list", of=OTHER)
    commands.fails(b"status 01 82", "list", to=b"nqn.2026-01.test:b")
    commands.fails(b"status 00 80", "read", 1, BLOCKS, 1)
    commands.fails(b"status 00 80", "write", 1, BLOCKS - 1, 2, 5)
    commands.fails(b"status 00 80", "write", 1, 2**64 - 1, 1, 5)
    commands.fails(b"status 00 0b", "read", 0, 0, 1)
    commands.fails(b"bad page", "read", 2, 0, 1)
    commands.fails(b"too large", "read", 7, 0, 33)
    commands.fails(b"too large", "write", 7, 0, 33, 5)
    commands.fails(b"turns", "list", "--turns", 3)


@on_base(b"ana set 1 %s 1 inaccessible" % NQN)
def a_namespace_that_is_inaccessible_is_not_read(_, commands):
    commands.fails(b"status 03 02", "read", 1, 0, 1)
    commands.fails(b"status 03 02", "write", 1, 0, 17, 5)


TESTS = [
    discover_prints_its_records,
    discover_prints_referrals,
    discover_prints_a_page_of_one_moment,
    discover_tries_again_where_records_change_behind_their_header,
    list_prints_the_namespaces,
    ana_prints_the_groups,
    changed_waits_for_an_edit,
    blocks_that_are_written_are_read,
    refusals_are_told,
    a_namespace_that_is_inaccessible_is_not_read,
]
