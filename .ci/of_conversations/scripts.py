"""Scripts: what a host sends, and what it is answered."""

import re
from collections import namedtuple

from .folders import Malformed, lines_of

# Steps about a connection and bytes, about a connection, and about a line of text.
OF_BYTES, OF_CONNECTION, OF_TEXT = (b"tx", b"rx", b"burst"), (b"end",), (b"in", b"out")
CONNECTION = re.compile(rb"0|[1-9][0-9]?")
# What a replay reads and prints for a step: what comes on a connection, what is sent there, and that it is ended.
LINES = {b"tx": "rx {k} {hex}", b"rx": "{k} pdu {hex}", b"end": "{k} closed"}
DEPTH_MAX = 8
# Of a row of bytes: hex digits; a text in quotes, with what fills it up; so many times a word; words in brackets.
HEX, APART = rb"(?:[0-9a-fA-F]{2})+", rb"(?<![^\s(*])%s(?=[\s)]|$)"
ROW = re.compile(rb"\s*(?:%s(?:\s+|$))*" % HEX)
TEXT = re.compile(APART % rb"'([^']*)'(?:([/_])([0-9]+))?")
TIMES = re.compile(APART % rb"([1-9][0-9]*)\*(%s)" % HEX)
GROUP = re.compile(APART % rb"\((\s*(?:%s(?:\s+|(?=\))))*)\)" % HEX)
PADS = {b"/": b"\0", b"_": b" "}
# One step of a script: its word, the number of its connection if it has one, and its bytes or its text.
Step = namedtuple("Step", "word k data", defaults=(0, b""))


def steps_of(text, parts, depth=0):
    """The steps of a script, those of the parts that it plays in their places."""
    if depth > DEPTH_MAX:
        raise Malformed("a part of a script plays itself")
    steps = []
    for line in lines_of(text):
        word, _, rest = line.partition(b" ")
        if word == b"play" and rest not in parts:
            raise Malformed(f"no part of a script is named {rest.decode(errors='replace')}")
        if word == b"play":
            steps += steps_of(parts[rest], parts, depth + 1)
        elif line and not line.startswith(b"#"):
            steps.append(step_of(line, word, rest))
    return steps


def step_of(line, word, rest):
    k, _, row = rest.partition(b" ")
    if word in OF_TEXT:
        return Step(word, data=rest)
    if word in OF_BYTES and CONNECTION.fullmatch(k):
        return Step(word, int(k), bytes_of(row))
    if word in OF_CONNECTION and CONNECTION.fullmatch(rest):
        return Step(word, int(rest))
    raise Malformed(f"a line of a script is none: {line[:60].decode(errors='replace')}")


def bytes_of(row):
    """The bytes that a row of words stands for: texts become digits, and then what is innermost, until all are."""
    digits, before = TEXT.sub(text_digits, row), None
    while digits != before:
        before = digits
        digits = TIMES.sub(lambda it: int(it[1]) * it[2], GROUP.sub(lambda it: b"".join(it[1].split()), digits))
    if not ROW.fullmatch(digits):
        raise Malformed(f"no bytes: {row[:60].decode(errors='replace')}")
    return bytes.fromhex(digits.decode())


def text_digits(word):
    text, pad, size = word.groups()
    if pad and len(text) > int(size):
        raise Malformed(f"a text is longer than its field: {text.decode(errors='replace')}")
    return (text.ljust(int(size), PADS[pad]) if pad else text).hex().encode()


def replayed(steps, mark=(), marked=()):
    """The files of a replay that a script stands for, STREAM and OUT; the mark stands round each line that comes, and
    what is printed for it."""
    stream, out = [], []
    for step in steps:
        if step.word == b"burst":
            raise Malformed("a script of the target has no burst")
        line = step.data if step.word in OF_TEXT else LINES[step.word].format(k=step.k, hex=step.data.hex()).encode()
        if step.word in (b"tx", b"in"):
            stream += [*mark, line]
            out += marked
        else:
            out.append(line)
    texts = {"STREAM": [*stream, *mark], "OUT": [*out, *marked]}
    return {name: b"".join(line + b"\n" for line in lines) for name, lines in texts.items()}
