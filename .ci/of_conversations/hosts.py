"""Conversations of the host: a controller plays a script to it."""

import os
import subprocess
import tempfile
from contextlib import closing
from pathlib import Path

from .controllers import Controller, Failed
from .folders import Case, Malformed, lines_of
from .printed import printed_fault
from .scripts import steps_of

WAYS = (("whole", None), ("bytes", 1), ("sevens", 7))
TURNS = b"--turns"
# What plays scripts to hosts with --turns runs first, and such a host only while that waits, on the same processor.
FIRST, SECOND = 2, 1
# So long a host may take to say why it ends, once a step of the script has failed.
SOON_SECONDS = 5


class HostCase(Case):
    """A case that nvt_host is run on."""

    FOLDER, PROGRAM, SECONDS = "host-conversations", "nvt_host", 120
    FILES = ("ARGS", "SCRIPT", "SINK", "OUT", "OUT_BEGINS", "ERR", "STATUS")

    def __init__(self, name, files, parts):
        if "ARGS" not in files:
            raise Malformed("ARGS has to be there")
        super().__init__(name, files)
        self.words = lines_of(files["ARGS"])
        self.steps = steps_of(files.get("SCRIPT", b""), parts)
        # Most of a case's time is that of its pauses. One that plays no script waits for nothing.
        self.has_turns = TURNS in self.words and bool(self.steps)
        self.stage, self.tries = ((2, 6), 8) if self.has_turns else ((1, 6), 1)

    def ways(self):
        """How it is run, by the name of the way: the size of the pieces that the host receives."""
        can_be_cut = not self.has_turns and any(step.word == b"rx" for step in self.steps)
        return WAYS if can_be_cut else WAYS[:1]

    def begin_stage(self):
        if self.has_turns:
            play_first()

    def fault(self, program, how):
        with tempfile.TemporaryDirectory(prefix="host-") as folder, closing(Controller(self.SECONDS)) as controller:
            host = Host(program, self, controller.port, folder)
            try:
                controller.play(self.steps, host, how)
                err = host.ended(controller.left())
                controller.check_rest()
                out = b"" if "SINK" in self.files else host.printed()
                return printed_fault(self.files, self.status, out, err, host.process.returncode)
            except Failed as why:
                err = host.end()
                return f"{why}; on standard error {err!r}" if err else str(why)
            finally:
                host.end()


def play_first():
    """Has this thread and those that it starts run before all that is not so scheduled, and on one processor, where that is
    allowed."""
    try:
        os.sched_setscheduler(0, os.SCHED_RR, os.sched_param(FIRST))
        os.sched_setaffinity(0, {max(os.sched_getaffinity(0))})
    except PermissionError:
        pass


def be_second():
    """Has a process that such a thread starts run behind them."""
    if os.sched_getscheduler(0) == os.SCHED_RR:
        os.sched_setscheduler(0, os.SCHED_RR, os.sched_param(SECOND))


class Host:
    """The program, as a process."""

    def __init__(self, program, case, port, folder):
        words = [str(port).encode() if word == b"PORT" else word for word in case.words]
        is_told = any(step.word == b"in" for step in case.steps)
        self.err, self.file = None, Path(folder, "out")
        with open(case.files["SINK"].rstrip(b"\n") if "SINK" in case.files else self.file, "wb") as out:
            how = {"cwd": folder, "stdin": subprocess.PIPE if is_told else subprocess.DEVNULL, "stdout": out}
            call = [case.PROGRAM, *words]
            before = be_second if case.has_turns else None
            self.process = subprocess.Popen(call, executable=program, stderr=subprocess.PIPE, preexec_fn=before, **how)

    def give(self, line):
        self.process.stdin.write(line)
        self.process.stdin.flush()

    def printed(self):
        return self.file.read_bytes()

    def has_ended(self):
        return self.process.poll() is not None

    def ended(self, seconds):
        """What it printed on standard error, once it has ended."""
        if self.err is None:
            self.err = self.process.communicate(timeout=seconds)[1]
        return self.err

    def end(self):
        """Ends it, where it does not end soon by itself: what it printed on standard error."""
        try:
            return self.ended(SOON_SECONDS)
        except subprocess.TimeoutExpired:
            self.process.kill()
            return self.ended(None)
