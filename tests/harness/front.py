"""The front end by each of its names, a service that a test simulates, and a terminal."""
import contextlib
import itertools
import os
import pty
import select
import subprocess
import threading
import time

from harness.allocations import counted, variables_for
from harness.checks import Difference, holds, LONGEST, same
from harness.programs import FRONT
from harness.service import listening

# The names under which the program is run.
NAMES = ["spool", "lp", "lpr", "lpstat", "cancel", "lpq", "lprm", "lpoptions", "lpmove", "cupsenable", "cupsdisable", "cupsaccept", "cupsreject"]


class Front:
    """The program, in the folder of a test."""

    program = FRONT

    def __init__(self, folder, patience=5):
        self.folder = folder
        self.environment = {"SPOOL_SOCKET": folder.socket, "SPOOL_PATIENCE": str(patience), "USER": "ann", "PATH": os.environ["PATH"]}
        self.bin = folder.at("bin")
        os.makedirs(self.bin, exist_ok=True)
        for name in NAMES:
            if not os.path.lexists(os.path.join(self.bin, name)):
                os.symlink(self.program, os.path.join(self.bin, name))

    def command(self, words):
        return [os.path.join(self.bin, words[0]), *words[1:]]

    def run(self, *words, text=b"", environment=None, **more):
        """Runs the program under this name with these arguments."""
        env = {**self.environment, **(environment or {})}
        return subprocess.run(self.command(words), input=text, capture_output=True, env=env, timeout=LONGEST * 4, **more)

    def ended(self, *words, status, **more):
        """A run that ends with `status`."""
        ended = self.run(*words, **more)
        same(f"status of {words}, with the output {ended.stderr!r}", ended.returncode, status)
        return ended

    def says(self, *words, status=0, **more):
        """Its output, if it ends with `status`."""
        return self.ended(*words, status=status, **more).stdout.decode()

    def fails(self, *words, status=1, **more):
        """Its standard error, if it ends with `status`."""
        return self.ended(*words, status=status, **more).stderr.decode()

    def start(self, *words, **more):
        streams = {"stdin": subprocess.DEVNULL, "stdout": subprocess.PIPE, "stderr": subprocess.PIPE, **more}
        return subprocess.Popen(self.command(words), env=self.environment, **streams)

    @contextlib.contextmanager
    def watching(self, *words):
        """A task of `spool` that runs meanwhile."""
        child = self.start("spool", *words)
        try:
            yield child
        finally:
            child.kill()
            child.communicate()

    def on_terminal(self, *words, columns=80):
        """Its output on a terminal of `columns` columns, and its status."""
        ours, theirs = pty.openpty()
        env = {**self.environment, "COLUMNS": str(columns)}
        child = subprocess.Popen(self.command(words), stdin=theirs, stdout=theirs, stderr=theirs, env=env)
        os.close(theirs)
        text = b""
        while True:
            ready, _, _ = select.select([ours], [], [], LONGEST)
            if not ready:
                child.kill()
                raise Difference(f"{words} writes nothing for {LONGEST} s")
            try:
                piece = os.read(ours, 65_536)
            except OSError:
                break
            if not piece:
                break
            text += piece
        os.close(ours)
        return text.decode(), child.wait(LONGEST)


def in_browser(folder, address):
    """The page that Debian's package chromium shows, which has the title of a hostile client as a text."""
    words = ["--headless", "--no-sandbox", "--disable-gpu", f"--user-data-dir={folder.at('browser')}", "--dump-dom"]
    shown = subprocess.run(["chromium", *words, address], capture_output=True, timeout=LONGEST).stdout.decode()
    holds(shown, "&lt;b&gt;bold&lt;/b&gt;" in shown and "<script" not in shown)
    return shown


def first_line(child, change):
    """The first line of a program that watches. It may begin only later, so the change is repeated."""
    while not select.select([child.stdout], [], [], 0.5)[0]:
        change()
    return child.stdout.readline().decode()


def number_of(text):
    """The job number in `request id is QUEUE-N (1 file(s))`."""
    words = text.split()
    same("the request", words[:3], ["request", "id", "is"])
    return int(words[3].rsplit("-", 1)[1])


def each_refused(folder):
    """The number and the variables of a run in which this allocation is refused, as long as one was refused."""
    log = folder.at("counted")
    for refused in itertools.count(1):
        yield refused, variables_for(log, refused)
        if not counted(log)[1]:
            return
        os.remove(log)


class Played:
    """A service that a test simulates: for each connection a list of steps. A step is the prefix of the expected command, and the reply, or
    None if the connection is closed instead, and perhaps the seconds before the reply. After the last list no connection is served. `bytes`
    are those of all documents.

    It is an older service: the words of `UNKNOWN` are answered `error syntax`, unless a step expects them.
    """

    UNKNOWN = ("i-am\n", "now\n", "room\n", "printers\n", "find ", "stop ", "why ", "list")

    def __init__(self, folder, connections):
        self.heard = []
        self.bytes = b""
        self.fault = None
        self.token = ""
        self.path = folder.socket
        self.listener = listening(self.path)
        self.thread = threading.Thread(target=self.serve, args=(connections,), daemon=True)
        self.thread.start()

    def serve(self, connections):
        try:
            for steps in connections:
                line, _ = self.listener.accept()
                line.settimeout(LONGEST)
                with line, line.makefile("rb") as stream:
                    self.serve_steps(line, stream, steps)
        except (Difference, OSError, IndexError, ValueError) as fault:
            self.fault = fault
        self.listener.close()
        os.remove(self.path)

    def serve_steps(self, line, stream, steps):
        for wanted, reply, *seconds in steps:
            said = stream.readline().decode()
            while said.startswith(self.UNKNOWN) and not said.startswith(wanted):
                line.sendall(b"error syntax\n")
                said = stream.readline().decode()
            holds(f"said {said!r} in place of {wanted!r}", said.startswith(wanted))
            self.heard.append(said.strip())
            if said.startswith("create"):
                self.token = said.split("submission=")[1].split('"')[0]
            if said.startswith("send"):
                self.bytes += stream.read(int(said.split()[2]) + 1)[:-1]
            time.sleep(sum(seconds))
            if reply is None:
                return
            line.sendall(reply.replace("TOKEN", self.token).encode())
        # No more commands are expected.
        rest = stream.read()
        holds(f"said {rest[:100]!r} after the last reply", not rest)

    def end(self):
        self.thread.join(LONGEST)
        holds(f"the simulated service: {self.fault!r}", not self.fault)
        holds("not all expected commands were sent", not self.thread.is_alive())
