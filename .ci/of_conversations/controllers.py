"""A controller that plays a script to the connections of a host."""

import socket
import time

# What a host may send behind the script's end is read up to here.
REST_MAX = 1 << 16
# How often a host is looked at that opens no connection.
LOOK_SECONDS = 0.2


class Failed(Exception):
    """What the host did otherwise than the script says."""


class Controller:
    """Listens, and plays a script. A host's connections are numbered in the order in which it opens them."""

    def __init__(self, seconds):
        self.until = time.monotonic() + seconds
        self.listener = socket.create_server(("127.0.0.1", 0), backlog=16)
        self.port = self.listener.getsockname()[1]
        self.peers, self.told = [], b""

    def close(self):
        for each in (self.listener, *self.peers):
            each.close()

    def left(self):
        """The seconds that are left."""
        return max(self.until - time.monotonic(), 0.001)

    def peer(self, k, host):
        """The connection of this number, once the host has opened it."""
        while len(self.peers) <= k:
            has_ended = host.has_ended()
            self.listener.settimeout(LOOK_SECONDS)
            try:
                self.accept()
            except TimeoutError as why:
                if has_ended or time.monotonic() > self.until:
                    raise Failed(f"the host does not open connection {k}") from why
        self.peers[k].settimeout(self.left())
        return self.peers[k]

    def accept(self):
        peer, _ = self.listener.accept()
        peer.setsockopt(socket.IPPROTO_TCP, socket.TCP_NODELAY, 1)
        self.peers.append(peer)

    def play(self, steps, host, size=None):
        """Plays the steps; what the host receives comes in pieces of so many bytes, or whole."""
        for number, step in enumerate(steps, 1):
            try:
                self.take(step, host, size)
            except Failed as why:
                raise Failed(f"step {number} ({step.word.decode()} {step.k}): {why}") from why

    def take(self, step, host, size):
        if step.word == b"tx":
            self.expect(self.peer(step.k, host), step.data)
        elif step.word in (b"rx", b"burst"):
            is_cut = size and step.word == b"rx"
            self.send(self.peer(step.k, host), step.data, size if is_cut else max(len(step.data), 1))
        elif step.word == b"end":
            self.peer(step.k, host).shutdown(socket.SHUT_WR)
        elif step.word == b"in":
            host.give(step.data + b"\n")
        else:
            self.told += step.data + b"\n"
            self.await_told(host)

    def send(self, peer, data, size):
        try:
            for at in range(0, len(data), size):
                peer.sendall(data[at : at + size])
        except OSError as why:
            raise Failed(f"the host takes no more: {why}") from why

    def expect(self, peer, data):
        """Wants exactly these bytes next."""
        got = self.received(peer, len(data))
        if got != data:
            at = next((at for at, pair in enumerate(zip(got, data)) if pair[0] != pair[1]), len(got))
            more = got[at : at + 16].hex() or "nothing more"
            raise Failed(f"from byte {at} on wanted {data[at : at + 16].hex()}, got {more}")

    def received(self, peer, count):
        """So many bytes, or fewer where the host sends no more."""
        data, piece = b"", b"any"
        while len(data) < count and piece:
            try:
                piece = peer.recv(count - len(data))
            except (ConnectionResetError, TimeoutError):
                break
            data += piece
        return data

    def await_told(self, host):
        """Waits until the host has printed the lines so far."""
        while host.printed() != self.told:
            if not self.told.startswith(host.printed()) or time.monotonic() > self.until:
                raise Failed(f"wanted {self.told!r} to be printed by now, got {host.printed()!r}")
            time.sleep(0.002)

    def check_rest(self):
        """Wants nothing more on any connection, once the host has ended."""
        self.listener.setblocking(False)
        try:
            while True:
                self.accept()
        except BlockingIOError:
            pass
        for k, peer in enumerate(self.peers):
            peer.settimeout(self.left())
            rest = self.received(peer, REST_MAX)
            if rest:
                raise Failed(f"connection {k}: {len(rest)} bytes more than wanted, {rest[:16].hex()} first")
