"""What the system knows of connections of this machine."""

from pathlib import Path
from typing import NamedTuple

ESTABLISHED = 1
CLOSE_WAIT = 8
# The timer of an idle connection that is kept alive.
KEEP_ALIVE_TIMER = 2


class End(NamedTuple):
    """One end of a connection."""

    state: int
    # The bytes that were sent and not acknowledged, and that came and were not read.
    unsent: int
    unread: int
    timer: int
    # 0 where no process has it any more.
    inode: int


def ends():
    """Each end of each connection, by its own port and that of the other end."""
    found = {}
    for line in Path("/proc/net/tcp").read_text().splitlines()[1:]:
        words = line.split()
        places = tuple(int(words[at].split(":")[1], 16) for at in (1, 2))
        unsent, unread = (int(digits, 16) for digits in words[4].split(":"))
        found[places] = End(int(words[3], 16), unsent, unread, int(words[5].split(":")[0], 16), int(words[9]))
    return found


def far_place(peer):
    """Where the other end of a connection stands among all ends."""
    return peer.getpeername()[1], peer.getsockname()[1]


def on_its_way(place, found=None):
    """The bytes that the other end's program sent, and this one did not read."""
    found = ends() if found is None else found
    return found[place].unsent + found[place[::-1]].unread


def is_held(place, found=None):
    """Whether the program at the other end still has the connection."""
    end = (ends() if found is None else found).get(place)
    return end is not None and end.inode != 0 and end.state in (ESTABLISHED, CLOSE_WAIT)
