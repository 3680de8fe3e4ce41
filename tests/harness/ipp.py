"""The IPP front of a service in the folder of a test, its clients, and the messages that they send."""
import contextlib
import os
import socket
import struct
import subprocess

from harness.checks import holds, listens, LONGEST, same, until
from harness.programs import IPP
from harness.service import listening

# The tags of groups and values that tests use (RFC 8010, 3.5).
OPERATION, JOB, END = 1, 2, 3
INTEGER, BOOLEAN, ENUM, NAME, KEYWORD, URI, CHARSET, LANGUAGE, MIME = 0x21, 0x22, 0x23, 0x42, 0x44, 0x45, 0x47, 0x48, 0x49

# The numbers of operations (RFC 8011, 5.4.15).
PRINT_JOB, VALIDATE_JOB, CREATE_JOB, SEND_DOCUMENT, CANCEL_JOB, GET_JOB, GET_JOBS, GET_PRINTER = 2, 4, 5, 6, 8, 9, 10, 11
RELEASE_JOB, PAUSE_PRINTER = 13, 16

# Some statuses (RFC 8011, appendix B).
OK, BAD, FORBIDDEN, NOT_AUTHORIZED, NOT_POSSIBLE, NOT_FOUND = 0x0000, 0x0400, 0x0401, 0x0403, 0x0404, 0x0406
VALUES, NO_OPERATION, VERSION = 0x040B, 0x0501, 0x0503


def free_port():
    with socket.create_server(("127.0.0.1", 0)) as free:
        return free.getsockname()[1]


class Ipp:
    """The front of a service's folder. `local` is its socket for all users, `operators` that of operators, and `service` that of the service."""

    def __init__(self, folder, *words):
        self.folder = folder
        self.port = free_port()
        self.address = f"127.0.0.1:{self.port}"
        self.local, self.operators = folder.at("ipp.sock"), folder.at("operators.sock")
        self.service = folder.socket
        self.end_file = folder.at("ipp.end")
        self.words = list(words)
        self.running = None

    @classmethod
    @contextlib.contextmanager
    def behind(cls, folder, proxy):
        """A front whose connections to the service pass through a proxy, and this proxy, which `proxy` makes from the socket that listens."""
        folder.open("q", scheme="keeps")
        front = cls(folder)
        front.service = folder.at("between.sock")
        with listening(front.service) as listener, proxy(listener) as made:
            yield front, made

    def start(self):
        words = ["--service", self.service, "--listen", self.address, "--socket", self.local, "--operators-socket", self.operators]
        with open(self.folder.at("ipp.log"), "ab") as log:
            self.running = subprocess.Popen([IPP, *words, "--end", self.end_file, *self.words], stdin=subprocess.DEVNULL, stderr=log)
        until("the IPP front", self.serves)

    def serves(self):
        same("the front", self.running.poll(), None)
        # It listens there last.
        return listens(self.operators)

    def connect(self):
        return socket.create_connection(("127.0.0.1", self.port), timeout=LONGEST)

    def stop(self):
        """Asks it to end, and waits for that."""
        self.folder.write("ipp.end", "")
        same("status", self.running.wait(LONGEST), 0)

    def kill(self):
        self.running.kill()
        self.running.wait()

    def __enter__(self):
        self.start()
        return self

    def __exit__(self, *fault):
        if self.running.poll() is None:
            self.kill()

    def uri(self, queue="q"):
        return f"ipp://{self.address}/printers/{queue}"

    def run(self, *words, server=None, status=0, data=None):
        """Runs a program of CUPS against it, and returns what it prints."""
        environment = {**os.environ, "CUPS_SERVER": server or self.address, "LC_ALL": "C.UTF-8"}
        ran = subprocess.run(words, input=data, capture_output=True, timeout=60, env=environment)
        said = (ran.stdout + ran.stderr).decode()
        holds(f"{' '.join(words)} ended with {ran.returncode}: {said}", ran.returncode == status)
        return said

    def lp(self, *words, server=None, status=0, data=None):
        """Prints by lp(1), and returns the number of the job, or the error."""
        said = self.run("lp", *words, server=server, status=status, data=data)
        if status:
            return said
        holds(f"lp printed {said}", "request id is " in said)
        return int(said.split("request id is ")[1].split()[0].rsplit("-", 1)[1])

    def ask(self, operation, *attributes, document=b"", path="/", **more):
        """Sends a request over a connection of its own. Returns its status and its groups."""
        with Connection(self.connect()) as line:
            return line.ask(message(operation, self.uri(), *attributes, **more) + document, path)


def head_of(length, path="/"):
    """The head of a request of HTTP whose body has this length."""
    return f"POST {path} HTTP/1.1\r\nHost: localhost\r\nContent-Type: application/ipp\r\nContent-Length: {length}\r\n\r\n".encode()


class Connection:
    """A connection of a client, as requests and replies of HTTP."""

    def __init__(self, connection):
        self.connection = connection
        self.held = b""

    def __enter__(self):
        return self

    def __exit__(self, *fault):
        self.connection.close()

    def say(self, data):
        self.connection.sendall(data)

    def post(self, body, path="/"):
        self.say(head_of(len(body), path) + body)

    def more(self):
        piece = self.connection.recv(65_536)
        self.held += piece
        return bool(piece)

    def reply(self):
        """The status and the content of the next reply of HTTP, or None if the connection ends before it."""
        while b"\r\n\r\n" not in self.held:
            if not self.more():
                return None
        head, self.held = self.held.split(b"\r\n\r\n", 1)
        lines = head.decode().split("\r\n")
        status = int(lines[0].split()[1])
        fields = dict(line.lower().split(": ", 1) for line in lines[1:])
        if status == 100:
            return self.reply()
        length = int(fields.get("content-length", 0))
        while len(self.held) < length:
            holds("the reply is whole", self.more())
        content, self.held = self.held[:length], self.held[length:]
        return status, content

    def ask(self, body, path="/"):
        """Sends a message of IPP. Returns the status and the groups of the answer."""
        self.post(body, path)
        reply = self.reply()
        holds("the request is answered", reply is not None)
        same("status of HTTP", reply[0], 200)
        return read(reply[1])


# ---- messages

def attribute(tag, name, *values):
    out = b""
    for at, value in enumerate(values):
        if tag in (INTEGER, ENUM):
            data = struct.pack(">i", value)
        elif tag == BOOLEAN:
            data = bytes([value])
        else:
            data = value.encode()
        shown = b"" if at else name.encode()
        out += struct.pack(">BH", tag, len(shown)) + shown + struct.pack(">H", len(data)) + data
    return out


LAST = attribute(BOOLEAN, "last-document", True)


def message(operation, uri, *attributes, user="anna", version=(1, 1), number=1, job=()):
    """A message with these operation attributes, and these attributes of the job."""
    head = attribute(CHARSET, "attributes-charset", "utf-8") + attribute(LANGUAGE, "attributes-natural-language", "en")
    head += attribute(URI, "printer-uri", uri) + attribute(NAME, "requesting-user-name", user)
    parts = [struct.pack(">BBHi", *version, operation, number), bytes([OPERATION]), head, *attributes]
    parts += [bytes([JOB]), *job] if job else []
    return b"".join(parts) + bytes([END])


def read(body):
    """The status and the groups of an answer: the tag of each, and its values by name."""
    status = struct.unpack(">H", body[2:4])[0]
    groups, at, name = [], 8, ""
    while body[at] != END:
        tag, at = body[at], at + 1
        if tag < 0x10:
            groups.append((tag, {}))
            continue
        length = struct.unpack(">H", body[at : at + 2])[0]
        name = body[at + 2 : at + 2 + length].decode() if length else name
        at += 2 + length
        length = struct.unpack(">H", body[at : at + 2])[0]
        data = body[at + 2 : at + 2 + length]
        at += 2 + length
        value = struct.unpack(">i", data)[0] if tag in (INTEGER, ENUM) else data.decode("utf-8", "replace")
        groups[-1][1].setdefault(name, []).append(value)
    return status, groups


def job_of(answer):
    """The number of the job of an answer."""
    return next(group["job-id"][0] for tag, group in answer[1] if tag == JOB)
