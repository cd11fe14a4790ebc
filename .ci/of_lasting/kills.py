"""A target that is killed again and again under load, each time over the file that it left."""

import contextlib
import itertools
import random
import time

from of_sockets.files import UNIT, scratch, served_file
from of_sockets.served import SECONDS, check_equal

from .loads import UNITS, check_left, loaded, may_be_left
from .power_cuts import written

KILLS = 20
COMMANDS = 60
# How long at most what was sent last is there before the program is killed.
PAUSE = 0.001


def kills(program, _):
    """A case for each kill."""
    draws, numbers = random.Random(9), itertools.count(1)
    with scratch() as folder:
        path = written(folder, "disk", draws.randbytes(UNITS * UNIT))
        for place in range(KILLS):
            yield f"kill {place + 1}", kill, program, path, draws, numbers


def kill(program, path, draws, numbers):
    """Every Write that was answered is there behind a kill."""
    with open(path, "rb") as file:
        opening = file.read()
    with loaded(program, path, draws) as (target, load):
        load.send(itertools.islice(numbers, draws.randint(1, COMMANDS)))
        time.sleep(draws.random() * PAUSE)
        target.process.kill()
        target.process.wait(SECONDS)
        take_what_came(load.host)
    for asked in load.asked:
        check_equal(f"the status of a {asked}", asked.status or 0, 0)
    with served_file(program, path, UNITS, ("--quiet",)) as (_, io):
        check_left(io.read(0, UNITS), may_be_left(opening, load.asked, is_killed=True))


def take_what_came(host):
    """The responses that came before the end of each connection."""
    for line in host.busy():
        with contextlib.suppress(AssertionError, OSError):
            while True:
                host.take(line)
