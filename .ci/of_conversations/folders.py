"""Folders of conversations: their files, and a case for each row of a table."""

import re
import subprocess
import time

# Between two tries of a case: what kept the first from passing may be over then.
PAUSE_SECONDS = 0.5
ESCAPE = re.compile(rb"\\(?:x([0-9a-fA-F]{2})|(.?))", re.DOTALL)
ESCAPES = {b"n": b"\n", b"t": b"\t", b"r": b"\r", b"\\": b"\\"}


class Malformed(Exception):
    """Why a conversation's folder is none."""


class Case:
    """A case of a conversation: its files, with its row's cells in them. Those of a program say in what ways it is run,
    and what is wrong with one."""

    tries = 1

    def __init__(self, name, files):
        if not any(files.get(file) for file in ("OUT", "OUT_BEGINS", "ERR")) and "STATUS" not in files:
            raise Malformed(f"{name} expects nothing, without a STATUS that says so")
        if len(files.keys() & {"SINK", "OUT", "OUT_BEGINS"}) > 1:
            raise Malformed("only one of SINK, OUT and OUT_BEGINS can be there")
        if not re.fullmatch(rb"[0-9]{1,3}\n?", files.get("STATUS", b"0")):
            raise Malformed("STATUS is no exit status")
        self.name, self.files, self.status = name, files, int(files.get("STATUS", b"0"))

    def begin_stage(self):
        """Is called before the cases of this one's stage are run."""

    def faults(self, program):
        """What is wrong with each way of the case, in words; nothing where it passes."""
        faults = {}
        for way, how in self.ways():
            for number in range(self.tries):
                if number:
                    print(f"{self.FOLDER}/{self.name}, {way}: tried again: {faults[way]}", flush=True)
                    time.sleep(PAUSE_SECONDS)
                faults[way] = self.caught_fault(program, how)
                if not faults[way]:
                    break
        return [(way, fault) for way, fault in faults.items() if fault]

    def caught_fault(self, program, how):
        try:
            return self.fault(program, how)
        except subprocess.TimeoutExpired:
            return f"it has not ended after {self.SECONDS} s"
        except (OSError, ValueError) as error:
            return f"it cannot be run: {error}"


def lines_of(text):
    """The lines of a text, the last with or without LF."""
    lines = text.split(b"\n")
    return lines[:-1] if lines[-1] == b"" else lines


def chosen_cases(tests, kinds, names):
    """The cases of the conversations of these kinds and names, or of all of these kinds."""
    try:
        parts = {path.name.encode(): path.read_bytes() for path in (tests / "parts").glob("*")}
        found = [(kind, folder) for kind in kinds for folder in sorted((tests / kind.FOLDER).iterdir())]
    except OSError as error:
        raise Malformed(error) from error
    for kind in {*kinds} - {kind for kind, _ in found}:
        raise Malformed(f"{tests / kind.FOLDER} holds no conversation")
    for name in {*names} - {folder.name for _, folder in found}:
        raise Malformed(f"no conversation is named {name}")
    chosen = [(kind, folder) for kind, folder in found if not names or folder.name in names]
    return [case for kind, folder in chosen for case in read_conversation(folder, kind, parts)]


def read_conversation(folder, kind, parts):
    """The cases of a folder."""
    try:
        files = {path.name: path.read_bytes() for path in sorted(folder.iterdir())}
        for name in files:
            if name not in (*kind.FILES, "SHOWS", "CASES"):
                raise Malformed(f"no file of a conversation is named {name}")
        shows, table = files.pop("SHOWS", b""), files.pop("CASES", None)
        if len(lines_of(shows)) != 1 or not shows.strip():
            raise Malformed("SHOWS has to be there, with one line")
        rows = [(folder.name, [])] if table is None else table_rows(folder.name, files, table)
        return [kind(name, filled(files, [unescaped(cell) for cell in row]), parts) for name, row in rows]
    except (Malformed, OSError) as why:
        raise Malformed(f"{folder.name}: {why}") from why


def table_rows(name, files, table):
    """The rows of CASES: what the case of each is called, and its cells."""
    head, *rows = [line.split(b"\t") for line in lines_of(table)] or [[]]
    if not rows or not head[0].startswith(b"# "):
        raise Malformed("CASES has no row, or its first line does not name the cells")
    if any(len(row) != len(head) for row in rows):
        raise Malformed("the rows of CASES have not all as many cells")
    used = {number for text in files.values() for number in cells_named(text)}
    unused = [cell for number, cell in enumerate(head, 1) if number not in used]
    if unused not in ([], [b"note"]):
        raise Malformed(f"no file uses the cell {unused[0].decode()} of CASES")
    notes = [row[head.index(b"note") if unused else 0][:60].decode("ascii", "backslashreplace") for row in rows]
    return [(f"{name}, row {at} ({note})", row) for at, (note, row) in enumerate(zip(notes, rows), 1)]


def cells_named(text):
    """The numbers of the cells that stand in a text."""
    return [int(number) for number in re.findall(rb"\{([0-9]+)\}", text)]


def filled(files, cells):
    """Files with the cells in their places."""
    if any(not 1 <= number <= len(cells) for text in files.values() for number in cells_named(text)):
        raise Malformed("a {n} has no cell in CASES")
    return {name: re.sub(rb"\{([0-9]+)\}", lambda it: cells[int(it[1]) - 1], text) for name, text in files.items()}


def unescaped(cell):
    """A cell with the bytes that its escapes stand for."""
    try:
        return ESCAPE.sub(lambda it: bytes.fromhex(it[1].decode()) if it[1] else ESCAPES[it[2]], cell)
    except KeyError as why:
        raise Malformed("a cell of CASES has a \\ that begins no escape") from why
