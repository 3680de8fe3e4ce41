"""A proxy that cuts a connection at a byte."""
import contextlib
import select
import socket
import threading

from harness.checks import until
from harness.printers import reset, Serving

# The two directions of a connection.
REQUESTS, REPLIES = "requests", "replies"


class Cutter(Serving):
    """Passes the bytes of each connection to `listener` on to one that `connect` makes, during a `with`. `cut` chooses where the next cut is, and
    `passed` counts the bytes of each direction. With `is_abrupt` a cut resets the connection.
    """

    def __init__(self, listener, connect, is_abrupt=False):
        super().__init__(listener)
        self.connect, self.is_abrupt = connect, is_abrupt
        self.lock = threading.Lock()
        self.side, self.left = None, 0
        self.passed = {REQUESTS: 0, REPLIES: 0}

    def __exit__(self, *fault):
        super().__exit__()
        self.cut_all()

    def serve(self, client):
        """Passes the bytes of a client and of its server on, until an end or the cut."""
        with contextlib.suppress(OSError):
            with self.connect() as server:
                ways = {client: (REQUESTS, server), server: (REPLIES, client)}
                while all(self.passes(source, *ways[source]) for source in select.select(list(ways), [], [])[0]):
                    pass
                for end in (client, server) if self.is_abrupt else ():
                    reset(end)
        client.close()
        self.clients.remove(client)

    def passes(self, source, side, target):
        """Passes on the bytes that have come. Returns whether the connection continues."""
        piece = source.recv(65_536)
        with self.lock:
            is_cut = self.side == side and self.left <= len(piece)
            allowed = self.left if is_cut else len(piece)
            self.left -= allowed if self.side == side else 0
            self.side = None if is_cut else self.side
            self.passed[side] += allowed
        target.sendall(piece[:allowed])
        return bool(piece) and not is_cut

    def cut(self, side, count):
        """Cuts the connection after this number of further bytes of this direction, or not at all."""
        with self.lock:
            self.side, self.left = side, count

    def cut_all(self):
        """Cuts each connection now, and waits for that."""
        for client in list(self.clients):
            with contextlib.suppress(OSError):
                client.shutdown(socket.SHUT_RDWR)
        until("the ends of the connections", lambda: not self.clients)
