"""What goes on beside hosts that do what they like: a host that reads and writes, new hosts, and edits. None of them waits
long."""

import threading
import time

from .host import Queue, queues
from .served import SECONDS, check, check_equal

# What it waits for at most, before it gives up.
GIVES_UP = 3
# How long each answer may take.
SOON = 1
DATA = b"\xa5" * 4096


class Beside:
    """Something that acts in a thread of its own, again and again, while a `with` block runs."""

    def __init__(self):
        self.longest = {}
        self.rounds = 0
        self.fault = None
        self.stops = threading.Event()
        self.thread = threading.Thread(target=self.run, daemon=True)

    def __enter__(self):
        self.thread.start()
        return self

    def __exit__(self, kind, *_):
        self.stops.set()
        self.thread.join(2 * SECONDS)
        if kind is None:
            self.check()
            self.check_end()
            check(self.rounds > 0, "nothing was done beside")

    def run(self):
        try:
            while not self.stops.is_set():
                self.act()
                self.rounds += 1
        except (AssertionError, OSError) as why:
            self.fault = str(why)

    def timed(self, what, act, *words):
        """What an act answers; what fails says what it was."""
        began = time.monotonic()
        try:
            answer = act(*words)
        except (AssertionError, OSError) as why:
            raise AssertionError(f"{what}: {why}") from why
        self.longest[what] = max(self.longest.get(what, 0), time.monotonic() - began)
        return answer

    def check_fault(self):
        """Fails where it did."""
        check(self.fault is None, f"beside: {self.fault}")

    def check(self):
        """Fails where it did, or something waited for longer than it may."""
        self.check_fault()
        late = [f"{what} took {seconds:.2f} s" for what, seconds in dict(self.longest).items() if seconds > SOON]
        check(not late, f"beside: {', '.join(late)}")

    def check_end(self):
        """Fails where what is left is not right."""


class Others(Beside):
    """A host of a port that reads and writes 4 KiB every 20 ms, from this block on; every half second a new host
    connects, where it may, and the control port is asked."""

    def __init__(self, target, port, block, has_visits=True):
        super().__init__()
        self.target = target
        self.port = port
        self.block = block
        self.has_visits = has_visits
        self.visit = time.monotonic()

    def __enter__(self):
        self.admin, self.io = queues(self.target, self.port)
        self.editor = self.target.editor()
        self.io.peer.settimeout(GIVES_UP)
        self.editor.peer.settimeout(GIVES_UP)
        return super().__enter__()

    def act(self):
        self.timed("a Write", self.io.write, self.block, DATA)
        self.timed("a Read", lambda: check(self.io.read(self.block, 8) == DATA, "it reads other bytes"))
        if time.monotonic() > self.visit:
            self.visit = time.monotonic() + 0.5
            self.timed("an edit", lambda: check_equal("a reply", self.editor.edit(b""), b"line 0 Empty"))
            if self.has_visits:
                self.timed("a new host", lambda: Queue(self.target, self.port, seconds=GIVES_UP).close())
        time.sleep(0.02)

    def check_end(self):
        for each in (self.io, self.admin, self.editor.peer):
            each.close()
        check(len(self.longest) == 3 + self.has_visits, "nothing was done beside")
