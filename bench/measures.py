"""Shared by the benchmarks: arguments, a shell that is asked one command at a time, scripts, floors, and services that run."""
import contextlib
import os
import shutil
import subprocess
import sys
import tempfile
import threading
import time

from harness.checks import until
from harness.files import write
from harness.programs import compiled, SHELL
from harness.service import Folder, memory_of, PIECE
from harness.written_spools import spool

QUEUE = b"queue lab spoolfile:/out application/octet-stream abort-job\n"
CREATE = b'create lab ann "A title" 1 50 ""\n'

# The time in seconds until a large spool is open.
LONGEST = 300
# The room that a written spool has for events, in addition to the bytes of its rows again.
ROOM = 1_048_576


# ---- arguments

def needed(program):
    """The absolute path of a program, which must have been built."""
    if not os.path.exists(program):
        sys.exit(f"no program {program}: run `rt run` in its crate first")
    return os.path.abspath(program)


def given_program(place, usual=SHELL):
    """The program that the argument in this place names, or the usual one."""
    return needed(sys.argv[place] if len(sys.argv) > place else usual)


def run_parts(*parts, words=()):
    """Runs these parts with these words, or those that the further arguments name, with the load of the machine before and after."""
    named = {part.__name__: part for part in parts}
    print(f"load of the machine: {os.getloadavg()[0]:.1f}")
    for name in sys.argv[2:] or named:
        print(name, flush=True)
        named[name](*words)
    print(f"load of the machine: {os.getloadavg()[0]:.1f}", flush=True)


def grown(measure, places, by_step=False):
    """Each place with its measure, and the ratio of this to that of the first place, or of the one before. Most should be near 1."""
    before = None
    for place in places:
        took = measure(place)
        yield place, took, took / (before or took)
        before = took if by_step else before or took


# ---- the shell

class Shell:
    """A shell that is asked one command at a time, during a `with`. An error in place of a reply ends the benchmark."""

    def __init__(self, *words, program=SHELL, cwd=None):
        self.running = subprocess.Popen([program, *words], cwd=cwd, stdin=subprocess.PIPE, stdout=subprocess.PIPE)

    def __enter__(self):
        return self

    def __exit__(self, *fault):
        self.running.stdin.close()
        self.running.stdout.close()
        if self.running.wait() and not any(fault):
            sys.exit("the program failed")

    def write(self, text):
        self.running.stdin.write(text)
        self.running.stdin.flush()

    def read(self, lines):
        """The last of the next lines."""
        line = b""
        for _ in range(lines):
            line = self.running.stdout.readline()
            if not line or line.startswith(b"error"):
                sys.exit(f"a reply was {line!r}")
        return line

    def ask(self, command, lines=1):
        """The seconds from a command to the last of the lines of its reply, which is kept as `last`."""
        start = time.perf_counter()
        self.write(command)
        self.last = self.read(lines)
        return time.perf_counter() - start

    def send(self, job, length):
        """Sends a document of this length. Returns the seconds of its pieces."""
        return sum(self.ask(b"send %d %d\n%b\n" % (job, PIECE, bytes(PIECE))) for _ in range(length // PIECE))

    def serve(self, script):
        """The seconds of a script, each line of which is a command with a reply of one line. It is written while the replies are read."""
        start = time.perf_counter()
        writing = threading.Thread(target=self.write, args=(script,))
        writing.start()
        self.read(script.count(b"\n"))
        took = time.perf_counter() - start
        writing.join()
        return took

    def memory(self, field="VmHWM"):
        """The peak memory so far in KiB, or with `VmRSS` the resident memory."""
        return memory_of(self.running.pid, field)


def served(script, *words, program=SHELL, cwd=None):
    """The seconds of a shell that serves a script, and its replies, none of which is an error. The script is read from a file, because
    Python fills a pipe slowly.
    """
    with tempfile.TemporaryFile() as file:
        file.write(script)
        file.flush()
        os.fsync(file.fileno())
        file.seek(0)
        start = time.perf_counter()
        replies = subprocess.run([program, *words], cwd=cwd, stdin=file, stdout=subprocess.PIPE, check=True).stdout
        took = time.perf_counter() - start
    if b"error" in replies:
        sys.exit("a reply was an error")
    return took, replies


def least_served(script, *words, times=3, **how):
    """The shortest time of some runs of a script, and its replies."""
    return min(served(script, *words, **how) for _ in range(times))


def written(folder, contents):
    """A new folder below this one, with a spool of these bytes, which are synced."""
    root = tempfile.mkdtemp(dir=folder)
    with open(os.path.join(root, "spool.disk"), "wb") as file:
        file.write(contents)
        file.flush()
        os.fsync(file.fileno())
    return root


@contextlib.contextmanager
def spool_folder(folder, contents):
    """The same, which is removed at the end of the `with`."""
    root = written(folder, contents)
    try:
        yield root
    finally:
        shutil.rmtree(root)


# ---- floors

def floor(folder, events, length):
    """The seconds of an event of this length by the plain program of floors.c: two writes and two syncs."""
    words = [compiled("floors.c", "-O2"), os.path.join(folder, "floor.disk"), str(events), str(length)]
    return float(subprocess.run(words, stdout=subprocess.PIPE, check=True).stdout) / events


# ---- the service

def worked(folder):
    """The processor time in milliseconds of a service in ten seconds."""
    before = folder.work()
    time.sleep(10)
    return folder.work() - before


@contextlib.contextmanager
def service(*words, payloads=None):
    """The folder of a service that runs, over a spool with these payloads or over a new one."""
    folder = Folder()
    try:
        if payloads is not None:
            rows = list(payloads)
            # The service accepts no job if less than its reserve is left, which is a part of an area.
            write(folder.at("spool", "spool.disk"), spool(rows, sum(map(len, rows)) + ROOM))
        folder.launch("--quiet", *words)
        until("the service", folder.serves, LONGEST)
        yield folder
    finally:
        folder.end()
        folder.remove()
