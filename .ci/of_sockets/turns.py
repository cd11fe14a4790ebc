"""The turns of a target, and their end."""

import functools
import time

from .host import Queue, command
from .served import Served, check, free_ports, one_disk

KEEP_ALIVE = 0x18
# After so long an answer does not come any more.
SILENCE = 0.5
# An idle turn takes as long at most, nearly.
IDLE_TURNS = 1000
# What a look at the turns of a program begins with, and takes at least.
LOOK_TURNS = 4000
LOOK_SECONDS = 0.4


def until_turns_end(target, port, seconds=60):
    """Keeps a target awake, so that its turns are short, until it answers no more."""
    until = time.monotonic() + seconds
    try:
        queue = Queue(target, port, seconds=SILENCE)
        while time.monotonic() < until:
            queue.answer(command(KEEP_ALIVE, queue.next()))
            time.sleep(0.002)
    except (AssertionError, OSError):
        return
    check(False, f"the turns do not end in {seconds} seconds")


@functools.cache
def turns_a_second(program):
    """About how many turns a target has in a second while hosts keep it awake."""
    turns = LOOK_TURNS
    while True:
        [port] = free_ports(1)
        began = time.monotonic()
        with Served(program, one_disk(port), turns=turns) as target:
            until_turns_end(target, port)
            target.ended()
        took = time.monotonic() - began
        if took > LOOK_SECONDS:
            return turns / took
        turns *= 4


def turns_for(program, awake, idle=0):
    """About as many turns as a target has that is awake for so many seconds, and idle for so many."""
    return int(turns_a_second(program) * awake) + IDLE_TURNS * idle
