"""Network printers, simulated on the loopback address, and other servers of a test."""
import contextlib
import socket
import struct
import threading

from harness.checks import LONGEST
from harness.service import listening


class Printer(threading.Thread):
    """Listens on the loopback address, or at the path of a socket, and runs the given function for each connection."""

    def __init__(self, serve, times=1, host="127.0.0.1", path=None):
        super().__init__(daemon=True)
        family = socket.AF_INET6 if ":" in host else socket.AF_INET
        self.listener = listening(path) if path else socket.create_server((host, 0), family=family)
        self.listener.settimeout(LONGEST)
        self.port = None if path else self.listener.getsockname()[1]
        self.serve, self.times, self.got, self.accepted = serve, times, [], 0
        self.start()

    def run(self):
        with self.listener, contextlib.suppress(TimeoutError):
            for _ in range(self.times):
                connection, _ = self.listener.accept()
                self.accepted += 1
                connection.settimeout(LONGEST)
                with connection:
                    try:
                        self.got.append(self.serve(connection))
                    except OSError as error:
                        self.got.append(error)

    def all(self):
        self.join(LONGEST)
        return self.got


class Serving:
    """Serves each connection to `listener` by `serve`, in a thread of its own, during a `with`. `clients` has all that were accepted."""

    def __init__(self, listener):
        self.listener, self.clients = listener, []

    def __enter__(self):
        self.accepting = threading.Thread(target=self.accept, daemon=True)
        self.accepting.start()
        return self

    def __exit__(self, *fault):
        # A thread that still waits would accept the clients of the next listener, whose descriptor may be the same.
        self.listener.shutdown(socket.SHUT_RDWR)
        self.accepting.join(LONGEST)
        self.listener.close()

    def accept(self):
        with contextlib.suppress(OSError):
            while True:
                self.clients.append(self.listener.accept()[0])
                threading.Thread(target=self.serve, args=(self.clients[-1],), daemon=True).start()


def take(connection, most=1 << 30):
    """The data on a connection up to its end, or up to `most` bytes of it."""
    taken = bytearray()
    while len(taken) < most and (piece := connection.recv(min(65_536, most - len(taken)))):
        taken += piece
    return bytes(taken)


def reset(connection):
    connection.setsockopt(socket.SOL_SOCKET, socket.SO_LINGER, struct.pack("ii", 1, 0))


def reset_after(count):
    """Resets the connection after `count` bytes have arrived."""

    def serve(connection):
        taken = take(connection, count)
        reset(connection)
        return taken

    return serve


def counting(mark):
    """Reads everything. Returns how many bytes these are, and how often the mark is among them."""

    def serve(connection):
        taken, found, kept = 0, 0, b""
        while piece := connection.recv(1 << 20):
            taken += len(piece)
            found += (kept + piece).count(mark)
            kept = (kept + piece)[1 - len(mark):]
        return taken, found

    return serve
