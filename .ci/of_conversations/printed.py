"""What a program printed, beside what it is to print."""

import os
import re

SHOWN = 200


def printed_fault(files, status, out, err, got):
    """What is wrong with what a program printed and with its exit status, in words; nothing where all is right."""
    wanted = files.get("OUT_BEGINS", files.get("OUT", b""))
    if "SINK" in files:
        out = wanted
    elif "OUT_BEGINS" in files:
        out = out[: len(wanted)]
    return (
        difference("standard output", broken(wanted), broken(out))
        or difference("standard error", broken(files.get("ERR", b"")), broken(err))
        or status_fault(status, got)
    )


def status_fault(wanted, got):
    return None if got == wanted else f"exit status: wanted {wanted}, got {got}"


def broken(text):
    """The lines of a text, each with its LF if it has one."""
    return re.findall(rb"[^\n]*\n|[^\n]+", text)


def difference(what, wanted, got):
    """The first line that differs, in words."""
    for at in range(max(len(wanted), len(got))):
        line, other = (lines[at] if at < len(lines) else None for lines in (wanted, got))
        if line != other:
            column = len(os.path.commonprefix([line or b"", other or b""]))
            return f"{what}, line {at + 1}:\n  wanted {shown(line, column)}\n  got    {shown(other, column)}"
    return None


def shown(line, column):
    """A line to be read, or what stands round the column of a long one."""
    if line is None:
        return "(no line)"
    start = max(0, min(column - SHOWN // 2, len(line) - SHOWN))
    part = line[start : start + SHOWN].decode("latin-1").encode("unicode_escape").decode()
    front = f"(from byte {start}) " if start else ""
    return front + part + (" .." if start + SHOWN < len(line) else "")
