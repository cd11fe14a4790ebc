"""What an editor is shown: the lines that make the configuration that stands, at the moment of its `show`."""

import contextlib
import socket
import subprocess
import time

from .lines import UNKNOWN
from .served import NQN, SECONDS, Served, check, check_equal, free_ports, one_disk, received

# So many disks there are, and of so many units, where edits of each kind are made.
OPTIONS = ("--disks", "2", "--units", "2048")
# A configuration as it was made, each list with an item that was changed or that went.
MADE = b"""subsys add nqn.a SN-A open
subsys add nqn.c SN-C open
subsys add nqn.b SN-B closed
host add nqn.h
host add nqn.i
host del nqn.h
ns add nqn.b 7 1 16 512 22222222-2222-2222-2222-222222222222 2
ns add nqn.a 1 0 1 4096 11111111-1111-1111-1111-111111111111 1
ns view nqn.a 1 named
ns view nqn.b 7 named
port add 2 ipv4 127.0.0.1 %(first)d
port add 1 ipv4 127.0.0.1 %(second)d
link add 1 nqn.b
link add 2 nqn.a
ana set 2 nqn.a 1 inaccessible
ana set 2 nqn.a 3 non-optimized
allow add nqn.b nqn.i
ns show nqn.a 1 nqn.i
ref add 9 ipv4 10.0.0.9 8009
ref add 8 ipv6 ::1 8009
port set 2 ipv4 127.0.0.1 %(third)d
subsys set nqn.a closed
ns size nqn.b 7 8
ns group nqn.b 7 5
ns view nqn.b 7 all
ana set 2 nqn.a 3 optimized
subsys del nqn.c
ref del 9
"""
# .. and as it is shown.
SHOWN = b"""subsys add nqn.a SN-A closed
subsys add nqn.b SN-B closed
ns add nqn.b 7 1 8 512 22222222-2222-2222-2222-222222222222 5
ns add nqn.a 1 0 1 4096 11111111-1111-1111-1111-111111111111 1
ns view nqn.a 1 named
port add 2 ipv4 127.0.0.1 %(third)d
port add 1 ipv4 127.0.0.1 %(second)d
link add 1 nqn.b
link add 2 nqn.a
ana set 2 nqn.a 1 inaccessible
host add nqn.h
host del nqn.h
host add nqn.i
allow add nqn.b nqn.i
ns show nqn.a 1 nqn.i
ref add 8 ipv6 ::1 8009
"""
# How long the target may take to make the largest configuration, and to show it.
LONG = 600
# A name of 223 bytes, the most that one has.
LONGEST = 223


def texts():
    """The lines that make a configuration, and those that show it."""
    first, second, third = free_ports(3)
    places = {b"first": first, b"second": second, b"third": third}
    return MADE % places, SHOWN % places


def lines_of(text):
    return text.split(b"\n")[:-1]


def said(editor):
    """The lines up to `ok`, without it."""
    lines = []
    while (line := editor.reply()) != b"ok":
        check(line is not None, f"the connection ends after {len(lines)} lines")
        lines.append(line)
    return lines


def show(editor):
    editor.send(b"show\n")
    return said(editor)


def an_empty_target_shows_ok_alone(program):
    with Served(program, []) as target:
        editor = target.editor()
        check_equal("show", editor.edit(b"show"), b"ok")
        check_equal("the next line", editor.edit(b""), b"line 0 Empty")


def each_kind_of_line_is_shown(program):
    made, shown = texts()
    with Served(program, lines_of(made), options=OPTIONS) as target:
        check_equal("what was read", show(target.editor()), lines_of(shown))
    with Served(program, [], options=OPTIONS) as target:
        editor = target.editor()
        for line in lines_of(made):
            check_equal("an edit", editor.edit(line), b"ok")
        check_equal("what was edited", show(editor), lines_of(shown))


def what_is_shown_makes_the_same(program):
    made, shown = texts()
    with Served(program, lines_of(made), options=OPTIONS) as target:
        first = show(target.editor())
    check_equal("check", checked(program, first), b"ok\n")
    with Served(program, first, options=OPTIONS) as target:
        check_equal("what it shows", show(target.editor()), first)
        target.connect(int(lines_of(shown)[6].split()[-1])).close()


def checked(program, lines):
    """What `nvt_target check` prints of a file of these lines."""
    with Served(program, lines) as unused:
        words = ["nvt_target", "check", unused.path("EDITS"), *OPTIONS]
        return subprocess.run(words, executable=program, capture_output=True, timeout=SECONDS, check=True).stdout


def a_line_that_is_almost_show_is_no_edit(program):
    with Served(program, []) as target:
        editor = target.editor()
        for line in (b"show ", b"Show", b" show", b"shows", b"sho"):
            column = 1 if line.startswith(b" ") else 0
            word = b"Empty" if column else b"UnknownWord"
            check_equal(repr(line), editor.edit(line), b"line 0 " + word)


def each_is_shown_in_its_turn(program):
    with Served(program, []) as target:
        editor = target.editor()
        editor.send(b"host add nqn.x\nshow\nhost add nqn.y\nshow\nhost del nqn.x\nshow\n" + UNKNOWN[0] + b"\n")
        wanted = [b"ok", b"host add nqn.x", b"ok", b"ok", b"host add nqn.x", b"host add nqn.y", b"ok", b"ok"]
        wanted += [b"host add nqn.x", b"host del nqn.x", b"host add nqn.y", b"ok", UNKNOWN[1]]
        check_equal("the replies", [editor.reply() for _ in wanted], wanted)


def one_that_sends_no_more_is_shown_all(program):
    hosts = [b"host add nqn.h%d" % number for number in range(256)]
    with Served(program, hosts) as target:
        editor = target.editor()
        editor.send(b"show\n" * 20)
        editor.peer.shutdown(socket.SHUT_WR)
        for _ in range(20):
            check_equal("what is shown", said(editor), hosts)
        check_equal("the end", editor.reply(), None)


def two_are_shown_at_once(program):
    hosts = [b"host add nqn.h%d" % number for number in range(256)]
    with Served(program, hosts) as target:
        editors = [target.editor() for _ in range(2)]
        for editor in editors:
            editor.send(b"show\n" * 50)
        for _ in range(50):
            for editor in editors:
                check_equal("what is shown", said(editor), hosts)


def one_that_leaves_in_between_stops_nothing(program):
    hosts = [b"host add nqn.h%d" % number for number in range(256)]
    with Served(program, hosts) as target:
        for _ in range(40):
            peer = target.connect(target.control)
            peer.sendall(b"show\n" * 100)
            peer.close()
        check_equal("what another is shown", show(target.editor()), hosts)


def named(kind, number):
    """The longest name."""
    name = b"nqn.2026-01.test:%s%d" % (kind, number)
    return name + b"x" * (LONGEST - len(name))


def largest(places):
    """The lines of a configuration with as many of most items as there may be, in the order in which it is shown."""
    subsystems = [named(b"s", number) for number in range(32)]
    hosts = [named(b"h", number) for number in range(256)]
    lines = [b"subsys add %s SN closed" % name for name in subsystems]
    lines += [b"port add %d ipv4 127.0.0.1 %d" % (number + 1, place) for number, place in enumerate(places)]
    links = [(number + 1, name) for number in range(len(places)) for name in subsystems]
    lines += [b"link add %d %s" % link for link in links]
    lines += [b"ana set %d %s %d inaccessible" % (*link, group) for link in links for group in range(1, 33)]
    lines += [b"host add %s" % name for name in hosts]
    return lines + [b"allow add %s %s" % (name, host) for name in subsystems for host in hosts[:32]]


@contextlib.contextmanager
def largest_served(program):
    """A target of the largest configuration, and its lines."""
    lines = largest(free_ports(16))
    with Served(program, lines) as target:
        until = time.monotonic() + LONG
        while time.monotonic() < until and b", control" not in target.err():
            time.sleep(0.1)
        yield target, lines


def one_that_reads_slowly_is_shown_one_moment(program):
    with largest_served(program) as (target, lines):
        slow = target.connect(target.control, buffer=4096)
        slow.settimeout(LONG)
        slow.sendall(b"show\nhost del " + named(b"h", 254) + b"\n")
        editor = target.editor()
        editor.peer.settimeout(LONG)
        for line in (b"host del " + named(b"h", 255), b"subsys set " + named(b"s", 0) + b" open", b"port del 9"):
            editor.edit(line)
        check_equal("what another is shown", len(show(editor)), len(lines) + 1)
        text = b"".join(line + b"\n" for line in [*lines, b"ok", b"ok"])
        check(received(slow, len(text)) == text, "what it is shown is not of the moment of its show")
        after = show(editor)
        gone = [b"host del " + named(b"h", number) for number in (254, 255)]
        check_equal("what is shown behind it", [line for line in after if line.startswith(b"host del")], gone)
        check_equal("a changed line", after[0], b"subsys add " + named(b"s", 0) + b" SN open")


TESTS = [
    an_empty_target_shows_ok_alone,
    each_kind_of_line_is_shown,
    what_is_shown_makes_the_same,
    a_line_that_is_almost_show_is_no_edit,
    each_is_shown_in_its_turn,
    one_that_sends_no_more_is_shown_all,
    two_are_shown_at_once,
    one_that_leaves_in_between_stops_nothing,
    one_that_reads_slowly_is_shown_one_moment,
]
