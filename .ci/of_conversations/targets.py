"""Conversations of the target: a stream is replayed, whole and in other pieces."""

import os
import re
import subprocess
import tempfile
from pathlib import Path

from .folders import Case, Malformed, lines_of
from .printed import broken, difference, printed_fault, shown, status_fault
from .scripts import replayed, steps_of

# As many bytes as a connection has room for.
JOINED = 32768
RECEIVE = re.compile(rb"^(rx (?:0|[1-9][0-9]*) )((?:[0-9a-fA-F]{2})+)$", re.MULTILINE)
# An edit that is none: it changes nothing, and its reply marks the end of what the line before it printed.
MARK, MARKED = [b"edit "], [b"line 0 Empty"]


class TargetCase(Case):
    """A case that nvt_target is run on."""

    FOLDER, PROGRAM, SECONDS = "conversations", "nvt_target", 60
    FILES = ("ARGS", "EDITS", "AGAIN", "STREAM", "SCRIPT", "SIZES", "SINK", "OUT", "OUT_BEGINS", "ERR", "STATUS")
    # Which cases come first, and how many are run at once.
    stage = (0, os.cpu_count())

    def __init__(self, name, files, parts):
        self.marked = None
        if "SCRIPT" in files:
            if files.keys() & {"STREAM", "OUT"}:
                raise Malformed("SCRIPT stands in the place of STREAM and OUT")
            steps = steps_of(files["SCRIPT"], parts)
            files, self.marked = files | replayed(steps), replayed(steps, MARK, MARKED)
        if "AGAIN" in files:
            files = files | {"EDITS": files.get("EDITS", b"") + again(files["AGAIN"])}
        super().__init__(name, files)
        self.words = lines_of(files.get("ARGS", b"replay\nEDITS\nSTREAM"))
        for line in lines_of(files.get("SIZES", b"")):
            if not re.fullmatch(rb"\w+ [0-9]+", line):
                raise Malformed("a line of SIZES is not `NAME BYTES`")

    def ways(self):
        """How it is run, by the name of the way: on what files, and what judges the run."""
        yield "whole", (self.files, printed_fault)
        replays = self.words[:1] == [b"replay"] and b"STREAM" in self.words
        # Its STREAM has to be its own, and its output seen.
        if replays and "STREAM" in self.files and not self.files.keys() & {"SINK", "SIZES", "OUT_BEGINS"}:
            for way, stream in cuts(self.files["STREAM"]).items():
                if stream != self.files["STREAM"]:
                    yield way, (self.files | {"STREAM": stream}, cut_fault)
        # A mark behind the end of a replay has no reply.
        if self.marked and not self.status:
            yield "marked", (self.files | self.marked, printed_fault)

    def fault(self, program, how):
        files, judge = how
        run = self.ran(program, files)
        return judge(files, self.status, run.stdout or b"", run.stderr, run.returncode)

    def ran(self, program, files):
        """Runs the program where these files are."""
        with tempfile.TemporaryDirectory(prefix="conversation-") as scratch:
            for name in files.keys() & {"EDITS", "STREAM"}:
                Path(scratch, name).write_bytes(files[name])
            for line in lines_of(files.get("SIZES", b"")):
                name, size = line.decode().split(" ")
                with open(Path(scratch, name), "wb") as file:
                    file.truncate(int(size))
            sink = os.open(files["SINK"].rstrip(b"\n"), os.O_WRONLY) if "SINK" in files else subprocess.PIPE
            try:
                how = {"cwd": scratch, "stdin": subprocess.DEVNULL, "stdout": sink, "stderr": subprocess.PIPE}
                return subprocess.run([self.PROGRAM, *self.words], executable=program, timeout=self.SECONDS, **how)
            finally:
                if sink != subprocess.PIPE:
                    os.close(sink)


def again(text):
    """Lines so many times as the first says."""
    times, _, lines = text.partition(b"\n")
    if not re.fullmatch(rb"[1-9][0-9]*", times) or not lines.endswith(b"\n"):
        raise Malformed("AGAIN is not a number and then lines")
    return int(times) * lines


def cuts(stream):
    """STREAM in other pieces, by the name of the way."""
    sizes = {"bytes": 1, "sevens": 7, "pages": 4096}
    return {way: cut(stream, 2 * size) for way, size in sizes.items()} | {"joined": joined(stream)}


def joined(stream):
    """STREAM with well-formed lines `rx K HEX` of one K that stand in a row as one line."""
    lines = []
    for line in stream.split(b"\n"):
        before, after = RECEIVE.fullmatch(lines[-1]) if lines else None, RECEIVE.fullmatch(line)
        if before and after and before[1] == after[1] and len(before[2] + after[2]) <= 2 * JOINED:
            lines[-1] += after[2]
        else:
            lines.append(line)
    return b"\n".join(lines)


def cut(stream, size):
    """STREAM with each well-formed line `rx K HEX` as lines of so many digits."""

    def pieces(line):
        return line[1] + (b"\n" + line[1]).join(re.findall(b".{1,%d}" % size, line[2]))

    return RECEIVE.sub(pieces, stream)


def cut_fault(files, status, out, _err, got):
    """What is wrong with a run whose STREAM was cut: its status, and the lines of each connection, of both its sides."""
    wanted, printed = by_connection(files.get("OUT", b"")), by_connection(out)
    for k in sorted(wanted.keys() | printed.keys()):
        fault = difference(f"the lines of {shown(k, 0)}", wanted.get(k, []), printed.get(k, []))
        if fault:
            return fault
    return status_fault(status, got)


def by_connection(out):
    """The lines that are printed for each connection but `K none`, by their first word. Of --explain those of its host are
    apart, since they stand before all that the target answers to a line; and left out where the connection is closed,
    behind which no piece is told."""
    lines, closed = {}, set()
    for line in broken(out):
        k, _, said = line.partition(b" ")
        if said.startswith(b"host # "):
            k += b" host"
        elif said == b"closed\n":
            closed.add(k + b" host")
        if said != b"none\n":
            lines.setdefault(k, []).append(line)
    return {k: lines[k] for k in lines.keys() - closed}
