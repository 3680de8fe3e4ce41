"""Tries the backends of docs/STOCK.md, each with a receiver for its output."""
import contextlib
import os
import pty
import select
import subprocess
import tty

from harness.cups import Cups
from harness.files import read
from harness.printers import Printer, take
from harness.stock_documents import TEXT

AS_IS, LISTS, NO = "as it is", "lists devices", "no"

# The backends that print to a socket: each with its URI, in which PORT represents the port.
SOCKETS = {
    "socket": "socket://127.0.0.1:PORT/?waiteof=false",
    "beh": "beh:/0/1/1/socket://127.0.0.1:PORT/?waiteof=false",
    "lpd": "lpd://127.0.0.1:PORT/queue?reserve=none",
}
# Those that print to an IPP printer, which is a queue of CUPS.
PRINTERS = ("ipp", "ipps", "http", "https")
# Those that print to a device, which a terminal represents.
DEVICES = {"parallel": "parallel:DEVICE", "serial": "serial:DEVICE?baud=9600+bits=8+parity=none+flow=none"}
HOME = os.path.expanduser("~root/BRF")
LISTERS = ("driverless", "driverless-fax", "snmp")

# The seconds that a backend has to report that there is no device.
FEW_SECONDS = 6


def take_from_lpd(connection):
    """The text, if it is among the descriptions of the job that lpd sends, or else all data. A printer answers each part with a byte 0."""
    taken = b""
    with contextlib.suppress(ConnectionError):
        # The client need not wait for the last answer.
        while piece := connection.recv(65_536):
            taken += piece
            connection.sendall(b"\0")
    return TEXT if TEXT in taken else taken


def result_of(end, printer, message, wanted=TEXT):
    """Whether a job ended well and its printer has got exactly this, and the messages."""
    got = printer.all()
    return end.startswith("9 ") and got == [wanted], f"{end}, {got!r:.100}, {message}"


def printed(place, name, uri, user="ann"):
    """How a job by this backend ends."""
    programs = f"backend {name} {place.backends}/{name}\n"
    return place.run(programs, "text/plain document\n", "", uri, "text/plain", TEXT, user=user)


def to_socket(place, name):
    printer = Printer(take_from_lpd if name == "lpd" else take)
    end, message = printed(place, name, SOCKETS[name].replace("PORT", str(printer.port)))
    return result_of(end, printer, message)


def to_printer(place, name):
    """The queue of CUPS sends the document on to a socket."""
    printer = Printer(take)
    with Cups() as cups:
        cups.queue("got", f"socket://127.0.0.1:{printer.port}/?waiteof=false")
        end, message = printed(place, name, f"{name}://localhost:{cups.port}/printers/got")
        return result_of(end, printer, message)


def to_device(place, name):
    """A terminal, which passes on its input unchanged."""
    mine, other = pty.openpty()
    tty.setraw(mine)
    tty.setraw(other)
    end, message = printed(place, name, DEVICES[name].replace("DEVICE", os.ttyname(other)))
    got = b""
    while select.select([mine], [], [], 1)[0]:
        got += os.read(mine, 65_536)
    os.close(mine)
    os.close(other)
    return end.startswith("9 ") and got == TEXT, f"{end}, {got!r:.100}, {message}"


def to_home(place, name):
    """cups-brf writes into the folder BRF of the job's user, here root's, which is removed again."""
    end, message = printed(place, name, "cups-brf:/", "root")
    got = b""
    if os.path.isdir(HOME):
        for file in os.listdir(HOME):
            got += read(os.path.join(HOME, file))
            os.remove(os.path.join(HOME, file))
        os.rmdir(HOME)
    return end.startswith("9 ") and got == TEXT, f"{end}, {got!r:.100}, {message}"


def ended(words, environment):
    """The status of a program that has a few seconds, or None if it takes longer."""
    program = subprocess.Popen(words, env=environment, stdin=subprocess.DEVNULL, stdout=subprocess.DEVNULL, stderr=subprocess.DEVNULL)
    try:
        return program.wait(FEW_SECONDS)
    except subprocess.TimeoutExpired:
        program.kill()
        program.wait()
        return None


def missing(place, name):
    """The requirement of a backend that is missing, or None."""
    path = os.path.join(place.backends, name)
    if not os.path.isfile(path):
        return "it is not installed"
    if not os.access(path, os.X_OK) or (name in (*PRINTERS, "cups-brf", "serial", "lpd") and os.geteuid()):
        return "this user may not run it"
    if name == "cups-brf" and os.path.exists(HOME):
        return f"{HOME} exists, and is not changed"
    return f"it needs {Cups.missing()}" if name in PRINTERS and Cups.missing() else None


def seen(place, name):
    """How a backend runs, and its messages."""
    if name in LISTERS:
        status = ended([os.path.join(place.backends, name)], {"PATH": "/usr/bin:/bin"})
        return LISTS, f"its list ends with {status}" if status is not None else f"its list takes more than {FEW_SECONDS} s"
    for names, way in ((PRINTERS, to_printer), (SOCKETS, to_socket), (DEVICES, to_device), (("cups-brf",), to_home)):
        if name in names:
            runs, said = way(place, name)
            return AS_IS if runs else NO, said
    path, document = os.path.join(place.backends, name), place.write("document", TEXT)
    status = ended([path, "1", "ann", "A page", "1", "", document], {"PATH": "/usr/bin:/bin", "DEVICE_URI": f"{name}://nothing/"})
    return AS_IS if status == 0 else NO, f"without its device it ends with {status}"


ANSWER = b"@PJL USTATUS DEVICE\r\nCODE=10001\r\nONLINE=TRUE\r\n"


def answer(connection):
    """A printer that reports its status again and again while it receives a job."""
    taken = b""
    for _ in range(3):
        connection.sendall(ANSWER)
        taken += connection.recv(65_536)
    taken += take(connection)
    connection.sendall(ANSWER)
    return taken


def answered(place):
    """How a job ends whose later stage is the backend `socket`, to a printer that answers, and what the printer has got."""
    first = place.write("first", "#!/bin/sh\nhead -c 960000 /dev/zero | tr '\\0' x\n")
    os.chmod(first, 0o755)
    printer = Printer(answer)
    uri = f"socket://127.0.0.1:{printer.port}/?waiteof=true"
    programs = f"filter first {first}\nbackend socket {place.backends}/socket\n"
    end, message = place.run(programs, "text/plain document\n", "text/plain test/printer 1 first\n", uri, "test/printer", TEXT)
    return f"{end}, {message}", printer.all()
