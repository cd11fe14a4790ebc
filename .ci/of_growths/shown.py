"""A target that is served, and an editor that is shown its configuration before and after edits."""

import contextlib
import subprocess

from of_sockets.served import NQN, Served, check, check_equal, free_ports, one_disk

from .runs import MEMORY, Case, counted, refusals

REFUSED = b"refused Memory"
# What the growth that is refused may be of, once it is served. Of each of these there has to be one.
START, EDIT, COPY = "the copy at the start", "an edit", "the copy at an edit"
SHOWN, LINE = "the copy that is shown", "a line that is shown"
KINDS = {START, EDIT, COPY, SHOWN, LINE}
# Names of 223 bytes, the longest: with these hosts what is shown comes in pieces.
HOSTS = [b"host add " + (b"nqn.2026-01.test:h%d" % number).ljust(223, b"x") for number in range(10)]


class Lines:
    """The control port of a target, and what it owes for each line where one growth is refused.

    An edit for which memory is refused says so, and changes nothing. Where memory is refused for the copy of what stands
    alone, the edit is made and says `ok`, and each `show` says `refused Memory`, until an edit is made again. Where it is
    refused for the copy that a `show` takes, this one says so. While the lines are written nothing is said: none of them
    is lost, and none comes twice."""

    def __init__(self, target, counts, stands):
        self.editor, self.counts, self.stands = target.editor(), counts, stands
        self.kinds = set()
        check_equal("an empty line", self.editor.edit(b""), b"line 0 Empty")
        self.has_copy = self.refused() == 0
        if not self.has_copy:
            self.kinds.add(START)

    def refused(self):
        return refusals(self.counts)

    def edit(self, line, stands):
        """This edit, after which these lines make what stands."""
        before = self.refused()
        reply = self.editor.done(line)
        if reply == REFUSED:
            check(self.refused() > before, "an edit wants memory where none was refused")
            self.kinds.add(EDIT)
            self.show()
            before = self.refused()
            reply = self.editor.done(line)
        check_equal("an edit", reply, b"ok")
        self.has_copy, self.stands = self.refused() == before, stands
        if not self.has_copy:
            self.kinds.add(COPY)

    def show(self):
        """What stands is shown, or it is said that memory was refused for it."""
        before = self.refused()
        shown = self.shown()
        is_refused = self.refused() > before
        if not self.has_copy:
            check_equal("what is shown of no copy", shown, [REFUSED])
        elif shown == [REFUSED]:
            check(is_refused, "a show wants memory where none was refused")
            self.kinds.add(SHOWN)
            self.show()
        else:
            check_equal("what is shown", shown, [*self.stands, b"ok"])
            if is_refused:
                self.kinds.add(LINE)

    def shown(self):
        self.editor.send(b"show\n")
        lines = []
        while not lines or lines[-1] not in (b"ok", REFUSED, None):
            lines.append(self.editor.reply())
        return lines


class ShownRun:
    """A target that is served with one growth refused, and what an editor of it saw."""

    def __init__(self, shim, program, refused):
        self.fault, self.kinds = None, set()
        [port] = free_ports(1)
        made = [*one_disk(port), *HOSTS]
        with shim.counts() as counts:
            environment = shim.environment(counts, refused)
            with Served(program, made, options=("--disks", "1"), environment=environment) as target:
                self.go_on(target, counts, port)
                self.status, self.err = target.process.poll(), target.err()
            self.growths, self.refused = counted(counts)

    def go_on(self, target, counts, port):
        try:
            lines = Lines(target, counts, in_order(one_disk(port), HOSTS))
            self.kinds = lines.kinds
            session(lines, port)
        except (AssertionError, OSError) as why:
            self.fault = str(why)
            # One that ends for want of memory does so at once.
            with contextlib.suppress(subprocess.TimeoutExpired):
                target.process.wait(1)

    def says(self):
        return f"status {self.status}, {self.err[-300:]!r}; the editor: {self.fault}"


def in_order(edits, hosts, referrals=()):
    """The lines of a port, a subsystem, a link and a namespace, of hosts and of referrals, in the order in which they are
    shown."""
    port, subsystem, link, namespace = edits
    return [subsystem, namespace, port, link, *hosts, *referrals]


def session(lines, port):
    """What is shown before the first edit and behind each, the last of which is followed until it is shown whole."""
    edits, smaller = one_disk(port), one_disk(port, 1024)
    add, gone, referral = b"host add nqn.x", b"host del nqn.x", b"ref add 7 ipv4 127.0.0.9 8009"
    lines.show()
    lines.edit(add, in_order(edits, [*HOSTS, add]))
    lines.show()
    lines.edit(referral, in_order(edits, [*HOSTS, add], [referral]))
    lines.show()
    lines.edit(gone, in_order(edits, [*HOSTS, add, gone], [referral]))
    lines.show()
    lines.show()
    lines.edit(b"ns size %s 1 1024" % NQN, in_order(smaller, [*HOSTS, add, gone], [referral]))
    lines.show()
    lines.edit(b"ref del 7", in_order(smaller, [*HOSTS, add, gone]))
    lines.show()
    if not lines.has_copy:
        lines.edit(add, in_order(smaller, [*HOSTS, add]))
        lines.show()
    check(lines.has_copy, "no copy is kept of what stands")


class Showing(Case):
    """A target whose configuration is shown: each growth that is refused it once it is served is told in the call that
    wants it, or by the next `show`, or nothing is lost by it. One that did not begin to serve ends."""

    name = "served target, shown"
    may_differ = True

    def __init__(self, program):
        self.program = program
        self.unseen = set(KINDS)

    def run(self, shim, refused):
        return ShownRun(shim, self.program, refused)

    def fault_of(self, run, _ample):
        self.unseen -= run.kinds
        if run.status is not None:
            is_told = run.refused and run.status == 1 and run.err == MEMORY
            return None if is_told else "the program ends otherwise than with status 1 and `error: memory`"
        if run.fault:
            return "what an editor of it saw is not owed"
        if run.growths == 0:
            return "no growth is counted"
        return None if run.refused == len(run.kinds) else "a refusal is not known to be of anything"
