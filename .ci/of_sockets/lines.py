"""Lines of edits, and the ports that come and go with them."""

import socket
import time

from .host import Queue
from .served import NQN, SECONDS, Served, check, check_equal, free_ports, one_disk

PORT_2 = b"port add 2 ipv4 127.0.0.1 %d"
# A line that is refused, with its reply.
UNKNOWN = (b"port del 9", b"refused NoSuch Port")


def served(program):
    """A target without a port, where lines alone are looked at."""
    return Served(program, [b"subsys add %s SN-A open" % NQN])


def a_refused_line_of_edits_ends_the_program(program):
    [port] = free_ports(1)
    edits = [b"port add 1 ipv4 127.0.0.1 %d" % port, b"port del 2"]
    with Served(program, edits) as target:
        check_equal("the exit status", target.ended(), 1)
        check_equal("standard error", target.err(), b"error: line 2: refused NoSuch Port\n")
        check_equal("standard output", target.out(), b"")


def so_many_turns_are_served(program):
    with Served(program, [], turns=500) as target:
        check_equal("the exit status", target.ended(), 0)


def a_control_port_that_is_taken_ends_the_program(program):
    with socket.create_server(("127.0.0.1", 0)) as taken:
        [port] = free_ports(1)
        control = taken.getsockname()[1]
        with Served(program, one_disk(port), control) as target:
            check_equal("the exit status", target.ended(), 1)
            check_equal("standard error", target.err(), b"error: io\n")
            check_equal("standard output", target.out(), b"")


def listeners_are_named(program):
    [port] = free_ports(1)
    with Served(program, one_disk(port)) as target:
        Queue(target, port).close()
        named = sorted(line for line in target.err().split(b"\n") if line.startswith(b"listening on "))
        control = b"listening on 127.0.0.1:%d, control" % target.control
        check_equal("standard error", named, sorted([control, b"listening on 127.0.0.1:%d, port 1" % port]))


def an_address_that_is_none_cannot_be_listened_to(program):
    with Served(program, [b"port add 3 ipv4 here 4420"]) as target:
        check_equal("a reply", target.editor().edit(b""), b"line 0 Empty")
        check_equal("standard output", target.out(), b"port 3: cannot listen\n")


def ports_come_move_and_go(program):
    first, second, third = free_ports(3)
    with Served(program, one_disk(first)) as target:
        editor = target.editor()
        check_equal("port add", editor.done(PORT_2 % second), b"ok")
        check_equal("link add", editor.edit(b"link add 2 " + NQN), b"ok")
        old = Queue(target, second)
        check_equal("port set", editor.done(b"port set 2 ipv4 127.0.0.1 %d" % third), b"ok")
        Queue(target, third).close()
        old.enable()
        is_refused(target, second)
        Queue(target, first).close()
        check_equal("link del", editor.edit(b"link del 2 " + NQN), b"ok")
        check_equal("port del", editor.done(b"port del 2"), b"ok")
        is_refused(target, third)
        Queue(target, first).close()


def is_refused(target, port):
    """Nobody listens to the port."""
    try:
        socket.create_connection(("127.0.0.1", port), SECONDS).close()
    except ConnectionRefusedError:
        check(target.is_running(), "the program ended")
        return
    raise AssertionError(f"port {port} is listened to")


def each_line_is_answered(program):
    with served(program) as target:
        editor = target.editor()
        check_equal("an empty line", editor.edit(b""), b"line 0 Empty")
        check_equal("a refused line", editor.edit(UNKNOWN[0]), UNKNOWN[1])
        check_equal("an unknown word", editor.edit(b"port ad 1"), b"line 5 UnknownWord")
        check_equal("a line with CR", editor.edit(b"port del 9\r"), b"line 9 BadNumber")
        check_equal("a line of 1,024 bytes", editor.edit(b"x" * 1024), b"line 0 UnknownWord")
        check_equal("a line of 1,025 bytes", editor.edit(b"x" * 1025), b"line 0 TooLong")
        check_equal("a line of 100,000 bytes", editor.edit(b"x" * 100_000), b"line 0 TooLong")
        check_equal("the next line", editor.edit(b"host add " + NQN), b"ok")


def lines_come_in_any_pieces(program):
    with served(program) as target:
        editor = target.editor()
        editor.send(b"\n" + UNKNOWN[0] + b"\nhost add " + NQN + b"\n")
        check_equal("three in one packet", [editor.reply() for _ in range(3)], [b"line 0 Empty", UNKNOWN[1], b"ok"])
        for byte in UNKNOWN[0] + b"\n":
            editor.send(bytes([byte]))
            time.sleep(0.002)
        check_equal("one in many packets", editor.reply(), UNKNOWN[1])


def a_last_line_without_lf_is_none(program):
    with served(program) as target:
        editor = target.editor()
        editor.send(UNKNOWN[0] + b"\nhost add " + NQN)
        editor.peer.shutdown(socket.SHUT_WR)
        check_equal("the whole line", editor.reply(), UNKNOWN[1])
        check_equal("the line without LF", editor.reply(), None)
        check_equal("the same edit", target.editor().edit(b"host add " + NQN), b"ok")


def one_that_sends_no_more_gets_its_replies(program):
    with served(program) as target:
        editor = target.editor()
        editor.send((UNKNOWN[0] + b"\n") * 5000)
        editor.peer.shutdown(socket.SHUT_WR)
        replies = [editor.reply() for _ in range(5001)]
        check(replies == [UNKNOWN[1]] * 5000 + [None], "not each line was answered once")


def several_are_answered_each_on_its_own(program):
    with served(program) as target:
        editors = [target.editor() for _ in range(8)]
        for number, editor in enumerate(editors):
            editor.send(b"port add 1" + b"0" * number + b"\n")
        for number, editor in enumerate(editors):
            check_equal("a reply", editor.reply(), b"line %d Missing" % (10 + number))


def one_that_reads_no_reply_stalls_nobody(program):
    with served(program) as target:
        deaf = target.connect(target.control)
        deaf.setblocking(False)
        flood(deaf, UNKNOWN[0] + b"\n")
        before = target.memory()
        editor = target.editor()
        for _ in range(100):
            check_equal("a reply to another", editor.edit(b""), b"line 0 Empty")
        flood(deaf, UNKNOWN[0] + b"\n")
        check(target.memory() - before < 4 << 20, "its memory grows")


def flood(peer, line):
    """Sends lines until no more go for a while."""
    quiet = time.monotonic() + SECONDS / 2
    last = time.monotonic()
    while time.monotonic() < quiet and time.monotonic() - last < 0.3:
        try:
            peer.send(line * 1000)
            last = time.monotonic()
        except BlockingIOError:
            time.sleep(0.01)


TESTS = [
    a_refused_line_of_edits_ends_the_program,
    so_many_turns_are_served,
    a_control_port_that_is_taken_ends_the_program,
    listeners_are_named,
    an_address_that_is_none_cannot_be_listened_to,
    ports_come_move_and_go,
    each_line_is_answered,
    lines_come_in_any_pieces,
    a_last_line_without_lf_is_none,
    one_that_sends_no_more_gets_its_replies,
    several_are_answered_each_on_its_own,
    one_that_reads_no_reply_stalls_nobody,
]
