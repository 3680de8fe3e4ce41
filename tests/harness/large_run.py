"""Runs the built programs with huge inputs, and with too little memory: a folder for each part, and scripts with their expected replies.

The peak memory of a program is the `ru_maxrss` that is returned at its end (getrusage(2)). The kernel counts the pages of the process that
starts a program as the program's own, so a small shell starts each program and ends at once. Then this process becomes its parent
(PR_SET_CHILD_SUBREAPER of prctl(2)) and waits for it.
"""
import contextlib
import ctypes
import itertools
import os
import shutil
import signal
import subprocess
import tempfile
import threading
from pathlib import Path

import pytest

from harness import files
from harness.checks import quoted, same, same_lines
from harness.programs import is_sanitized, SHELL, TOOLS

# The greatest number of seconds for a run of a program, and of one that was built with checks.
LONGEST = 3_600 if is_sanitized(SHELL) else 600

# The files of a part are in memory if this many bytes are free there: each event is synced twice, which takes a disk some milliseconds.
MEMORY = "/dev/shm"
ROOMY = 4 << 30

# Starts a program with at most the given KiB of address space, and writes its process number to a file. The program waits for a line on its
# standard input, which it gets when this shell has ended: otherwise the shell might receive its end.
START = 'ulimit -v "$1"; started=$2; shift 2; exec 3<&0; { read -r line <&3; exec "$@" <&3 3<&-; } & echo $! >"$started"'

SUBREAPER = 36

SEND = 65_536

# The type of a document if no rule gives another one.
TYPE = "application/octet-stream"

# A backend that writes a text to standard error. The text may be longer than a document, so it is in a file that the title names.
REPORTS = 'cat "$3" >&2\n'


def pieces_of(document):
    """The pieces of a document, each for one `send`."""
    return [document[at : at + SEND] for at in range(0, len(document), SEND)]


def adopt(all_left=True):
    """Makes this process the parent of the processes that its children leave, or ends this."""
    if ctypes.CDLL(None).prctl(SUBREAPER, int(all_left), 0, 0, 0):
        raise OSError("prctl refuses PR_SET_CHILD_SUBREAPER")


class Ran:
    """A run that has ended: its output, its status, its processor seconds, and its peak memory in KiB."""

    def __init__(self, output, errors, status, usage):
        self.output = output
        self.errors = errors
        self.status = status
        self.seconds = usage.ru_utime + usage.ru_stime
        self.memory = usage.ru_maxrss


def write_pieces(file, pieces):
    """Writes each piece by calls of its own, until the reader has closed the pipe."""
    with contextlib.suppress(BrokenPipeError):
        with file:
            for piece in pieces:
                left = memoryview(piece)
                while left:
                    left = left[file.write(left) :]


def read_into(file, found):
    with file:
        while piece := file.read(1 << 20):
            found.append(piece)


def run(words, folder, pieces=(), limit=None, longest=LONGEST):
    """Runs a program in a folder, with these pieces as standard input, in an address space of `limit` KiB."""
    started = os.path.join(folder, "started")
    most = "unlimited" if limit is None else str(limit)
    pipe = subprocess.PIPE
    starter = subprocess.Popen(
        ["/bin/sh", "-c", START, "sh", most, started, *words], cwd=folder, stdin=pipe, stdout=pipe, stderr=pipe, bufsize=0
    )
    same("the start of a program", starter.wait(), 0)
    number = int(Path(started).read_text())
    too_long = threading.Timer(longest, os.kill, (number, signal.SIGKILL))
    too_long.start()
    output, errors = [], []
    writing = threading.Thread(target=write_pieces, args=(starter.stdin, itertools.chain([b"\n"], pieces)))
    listening = threading.Thread(target=read_into, args=(starter.stderr, errors))
    writing.start()
    listening.start()
    try:
        read_into(starter.stdout, output)
        _, status, usage = os.wait4(number, 0)
    except BaseException:
        # The reader of its output has closed the pipe.
        os.kill(number, signal.SIGKILL)
        raise
    finally:
        too_long.cancel()
    writing.join()
    listening.join()
    return Ran(b"".join(output), b"".join(errors), os.waitstatus_to_exitcode(status), usage)


class Script:
    """Commands, and their expected replies."""

    def __init__(self):
        self.given = []
        self.wanted = []

    def ask(self, command, *replies):
        self.given.append(command.encode() + b"\n")
        self.wanted += [reply.encode() + b"\n" for reply in replies]

    def send(self, number, piece, reply):
        self.given += [b"send %d %d\n" % (number, len(piece)), piece, b"\n"]
        self.wanted.append(reply.encode() + b"\n")

    def pieces(self):
        """The text of the commands, in pieces of about a mebibyte."""
        held, length = [], 0
        for piece in self.given:
            held.append(piece)
            length += len(piece)
            if length >= 1 << 20:
                yield b"".join(held)
                held, length = [], 0
        yield b"".join(held)

    def document(self, number, document):
        """Sends a document in pieces."""
        size = 0
        for piece in pieces_of(document):
            size += len(piece)
            self.send(number, piece, f"ok bytes {size}")

    def submit(self, number, queue, document=b"", title="", name="page", closed=f"{TYPE} stages 1"):
        """Creates a job, sends its document, and closes it with this type and number of stages."""
        self.ask(f'create {queue} ann {quoted(title)} 1 50 ""', f"ok job {number}")
        self.document(number, document)
        self.ask(f"close {number} {name}", f"ok type {closed}")


class Place(files.Place):
    """The folder of a part and of its programs, which run in an address space of `limit` KiB."""

    def __init__(self, limit=None):
        self.limit = limit
        # The peak memory of a program so far, in KiB.
        self.memory = 0
        super().__init__(tempfile.mkdtemp(prefix="spool-large-", dir=roomy_folder()))
        os.mkdir(self.at("spool"))
        self.lines = []

    def read(self, name):
        return Path(self.at(name)).read_bytes()

    def fresh_spool(self):
        """Removes the spool."""
        shutil.rmtree(self.at("spool"))
        os.mkdir(self.at("spool"))

    def tool(self, kind, name):
        """Adds one of the small tools to the programs file."""
        self.lines.append(f"{kind} {name} {TOOLS} {name}")

    def script(self, kind, name, text):
        """Adds a program in `sh` to the programs file. Its file need not be executable: files in memory often cannot be."""
        self.write(f"{kind}-{name}", text.encode())
        self.lines.append(f"{kind} {name} /bin/sh {self.at(f'{kind}-{name}')}")

    def run(self, words, pieces=()):
        ran = run(words, self.path, pieces, self.limit, LONGEST)
        self.memory = max(self.memory, ran.memory)
        return ran

    def serve(self, script, *words, root=True, status=0, errors=b""):
        """Serves a script over the spool of this folder, or over one in memory, and compares the replies. Log lines about failed stages are
        ignored.
        """
        folder = ["--root", "spool"] if root else []
        ran = self.run([SHELL, *folder, *words], script.pieces())
        same_lines("replies", ran.output, b"".join(script.wanted))
        log = b"".join(line for line in ran.errors.splitlines(True) if not line.startswith(b"spool: job "))
        same("the end", (ran.status, log), (status, errors))
        return ran

    def print_all(self, script, *words, **how):
        """Serves a script with the programs and files of this folder."""
        if self.lines:
            self.write("programs", "".join(f"{line}\n" for line in self.lines))
        there = [name for name in ("types", "convs", "programs") if os.path.exists(self.at(name))]
        files = [word for name in there for word in (f"--{name}", name)]
        return self.serve(script, *files, *words, **how)


def roomy_folder():
    """A folder in memory, if there is room, or None."""
    try:
        with open("/proc/meminfo") as lines:
            available = next(1024 * int(line.split()[1]) for line in lines if line.startswith("MemAvailable:"))
        room = min(available, shutil.disk_usage(MEMORY).free)
        return MEMORY if room >= ROOMY and os.access(MEMORY, os.W_OK) else None
    except (OSError, StopIteration):
        return None


# ---- jobs and documents of several parts

DONE = "9 job-completed-successfully"


def listed(number, queue, shown, size, pages=0, title=""):
    return f'job {number} {queue} {shown} "ann" {size} {pages} {quoted(title)}'


def ask_jobs(script, jobs):
    script.ask("jobs", *jobs, f"ok {len(jobs)}")


def same_file(place, name, wanted):
    """Compares a printed file, which is far too long to be shown."""
    found = place.read(name) if os.path.exists(place.at(name)) else None
    if found != wanted:
        at = next((at for at, (one, other) in enumerate(zip(found or b"", wanted)) if one != other), None)
        length = None if found is None else len(found)
        same(f"the printed file {name}: its length, and the first difference", (length, at), (len(wanted), None))


def bytes_of(seed, length):
    """Bytes of all kinds, different ones for each seed."""
    turn = bytes((seed * 7 + at * at * 3 + at // 256) % 256 for at in range(4_099))
    return (turn * (length // len(turn) + 1))[:length]


# ---- tests

def within(need=None):
    """A test whose programs run with unlimited memory, and then in an address space of twice the KiB that they need."""
    limits = [None] if need is None else [None, 2 * need]
    names = ["free" if limit is None else f"{limit} KiB" for limit in limits]
    return pytest.mark.parametrize("place", limits, indirect=True, ids=names)
