"""A proxy between a client of the service and the service, which sees each command and may answer it."""
import contextlib
import select

from harness.printers import Serving
from harness.service import Client

# What a rule may return in place of a reply: the connection is lost before the command, or after it.
LOST_BEFORE, LOST_AFTER = "lost before", "lost after"


def first_command(data):
    """The first whole command in these bytes, or None."""
    line, feed, rest = data.partition(b"\n")
    if not feed:
        return None
    words = line.split()
    length = int(words[2]) + 1 if words[:1] == [b"send"] else 0
    return data[: len(line) + 1 + length] if len(rest) >= length else None


class Between(Serving):
    """Passes the commands of each connection to `listener` on to the service of a folder, each after the last one, during a `with`. `rule` is called with the
    first word of each, and returns None to pass it on, a reply, or how the connection is lost. `together` has the first words of the commands
    that came together.
    """

    def __init__(self, listener, folder, rule=lambda word: None):
        super().__init__(listener)
        self.folder, self.rule = folder, rule
        self.together = []

    def serve(self, line):
        """Serves a connection until it ends or is lost."""
        with line, contextlib.suppress(OSError):
            service, held = Client(self.folder), b""
            while held is not None and line in select.select([line, service.connection], [], [])[0]:
                piece = line.recv(1_048_576)
                held = self.pass_on(line, service, held + piece) if piece else None

    def pass_on(self, line, service, data):
        """Passes on the whole commands in these bytes. Returns the rest, or None if the connection is lost."""
        commands = []
        while command := first_command(data):
            commands.append(command)
            data = data[len(command) :]
        words = [command.split()[0].decode() for command in commands]
        if words:
            # Before the replies, after which a test may look.
            self.together.append(words)
        for word, command in zip(words, commands):
            if not self.serves(line, service, word, command):
                return None
        return data

    def serves(self, line, service, word, command):
        """Answers a command. Returns whether the connection continues."""
        ruled = self.rule(word)
        if ruled == LOST_BEFORE:
            return False
        if ruled not in (None, LOST_AFTER):
            line.sendall(ruled)
            return True
        service.say(command)
        reply = service.read_to("ok", "error")
        if ruled == LOST_AFTER:
            return False
        line.sendall("".join(f"{row}\n" for row in reply).encode())
        return True
