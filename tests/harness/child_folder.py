"""The folder of a test of real children, which the shell starts."""
import contextlib
import os
import re
import shutil
import subprocess
import tempfile
from pathlib import Path

from harness.checks import LONGEST, same, until, words_of_faults
from harness.files import Place
from harness.large_run import pieces_of
from harness.programs import SHELL

TYPES = "a/a txt\n"
CONVS = "a/a b/b 10 first\n"

# The start of each Python program: it reports its findings in the file `NAME.WORD` of the test's folder.
PYTHON = """#!/usr/bin/python3 -ES
import os, socket, stat, sys, time
word = sys.argv[1]
here = os.path.dirname(os.path.abspath(__file__))
def report(text, name=None):
    with open(os.path.join(here, "report." + (name or word)), "a") as file:
        file.write(text + "\\n")
"""

# The side channel as a child in Python uses it.
CHANNEL = PYTHON + """
side = os.environ["SPOOL_SIDE"]
def call():
    line = socket.socket(socket.AF_UNIX, socket.SOCK_STREAM)
    line.settimeout(20)
    line.connect(side)
    return line
def ask(line, request):
    line.sendall(request)
    answer = b""
    while len(answer) < 4 or len(answer) < 4 + int.from_bytes(answer[2:4], "big"):
        piece = line.recv(4096)
        if not piece:
            return "cut " + answer.hex()
        answer += piece
    return answer.hex()
"""

SIDE_END = """#!/usr/bin/python3 -ES
import socket, sys
line = socket.socket(socket.AF_UNIX, socket.SOCK_STREAM)
line.connect(sys.argv[-1])
line.sendall(b"\\xff\\0\\0\\0")
"""


# The file whose lock makes a program the owner of the folder.
LOCK = "spool.lock"

# The log lines about a stage, or about a program of the programs file.
LOG_LINE = re.compile(r"spool: (job \d+ attempt \d+ stage \d+( \S+)?|filter \S+|backend \S+|side program): .")


class Shell:
    """A running shell, which gets commands one by one."""

    def __init__(self, words, folder=None, env=None):
        pipe = subprocess.PIPE
        self.child = subprocess.Popen(words, cwd=folder, env=env, stdin=pipe, stdout=pipe, stderr=pipe)

    def give(self, text):
        self.child.stdin.write(text if isinstance(text, bytes) else text.encode())
        self.child.stdin.flush()

    def line(self):
        """The next line of its output, or a part of it if it has ended."""
        return self.child.stdout.readline().decode()

    def kill(self):
        """SIGKILL, as in a crash. Returns the output that was not read until then, and the error messages."""
        self.child.kill()
        return self.end()

    def finish(self):
        """Ends its input. Returns the output that was not read until then, the error messages, and its status."""
        with contextlib.suppress(BrokenPipeError):
            self.child.stdin.close()
        return (*self.end(), self.child.returncode)

    def end(self):
        self.child.wait()
        left = self.child.stdout.read().decode(), self.child.stderr.read().decode()
        for stream in (self.child.stdin, self.child.stdout, self.child.stderr):
            with contextlib.suppress(BrokenPipeError):
                stream.close()
        return left


class Folder(Place):
    """The folder of a test: the files of the shell, its programs, and their reports."""

    def __init__(self):
        super().__init__(tempfile.mkdtemp(prefix="spool-children-"))
        self.root = "spool"
        self.size = 16_777_216
        os.mkdir(self.at(self.root))
        self.lines = []
        self.write("types", TYPES)
        self.write("convs", CONVS)

    def read(self, name):
        return Path(self.at(name)).read_bytes()

    def program(self, kind, name, text, word="", file=None):
        """Writes a program, and adds it to the programs file."""
        file = file or f"{kind}-{name}"
        self.write(file, text, 0o755)
        self.lines.append(f"{kind} {name} {self.at(file)} {word}".rstrip())

    def side(self, text=SIDE_END, word=""):
        self.write("side-program", text, 0o755)
        self.lines.append(f"side {self.at('side-program')} {word}".rstrip())

    def words(self):
        self.write("programs", "".join(line + "\n" for line in self.lines))
        files = [word for name in ("types", "convs", "programs") for word in (f"--{name}", name)]
        return [SHELL, "--root", self.root, "--size", str(self.size), *files]

    def run(self, script, status=0, log=None, **how):
        """The replies to a script. Standard error must be `log`, or else have only lines about stages and programs."""
        ended, replies, errors = self.outcome(script, **how)
        same("status", ended, status)
        lines = words_of_faults(errors).splitlines()
        same("standard error", lines, log if log is not None else [line for line in lines if LOG_LINE.match(line)])
        return replies

    def prints(self, script, wanted, by="drain 5", **how):
        """The replies to a script that prints. Then its jobs are in these states."""
        replies = self.run(script + f"{by}\njobs\n".encode(), **how)
        same("jobs", states(replies), wanted)
        return replies

    def outcome(self, script, *before, **how):
        """The status of a run over a script, with these words before the program's, its replies, and its standard error."""
        run = subprocess.run([*before, *self.words()], input=script, cwd=self.path, capture_output=True, timeout=LONGEST, **how)
        return run.returncode, run.stdout.decode().splitlines(), run.stderr.decode()

    def outcome_with(self, script, *words):
        """The same of a run under strace, with these words."""
        return self.outcome(script, "strace", "-qq", "-o", self.at("calls"), *words)

    def launch(self, script):
        """A shell that gets a script, and runs."""
        shell = Shell(self.words(), self.path)
        shell.give(script)
        return shell

    def new_spool(self):
        """Removes the spool and the names of its programs."""
        self.lines = []
        shutil.rmtree(self.at(self.root))
        os.mkdir(self.at(self.root))

    def report(self, name):
        file = self.at("report." + name)
        if not os.path.exists(file):
            return []
        return Path(file).read_text().splitlines()

    def until_no_child_runs(self):
        """Waits until no process runs in the folder any more: the child of a killed shell continues."""
        until("no child runs", lambda: not any(map(self.has_process, filter(str.isdigit, os.listdir("/proc")))))

    def has_process(self, number):
        try:
            return os.readlink(f"/proc/{number}/cwd") == self.path
        except OSError:
            return False

    def left(self):
        """The contents of the spool's folder, except the lock file, which remains."""
        return sorted(name for name in os.listdir(self.at(self.root)) if name != LOCK)


def printed(queue, uri, target="a/a", policy="abort-job", number=1, document=b"", title='""', user="ann", options='""', copies=1, name="page.txt"):
    """The script that prints a document on a queue of its own: with the target type b/b through the filter `first`."""
    head = f"queue {queue} {uri} {target} {policy}\ncreate {queue} {user} {title} {copies} 50 {options}\n"
    pieces = b"".join(f"send {number} {len(piece)}\n".encode() + piece + b"\n" for piece in pieces_of(document))
    return head.encode() + pieces + f"close {number} {name}\n".encode()


def states(replies):
    """The state and the reason of each job in the last listing."""
    found = {}
    for line in replies:
        words = line.split(" ")
        if words[0] == "job":
            found[int(words[1])] = f"{words[3]} {words[4]}"
    return found


def queue_states(replies):
    return {line.split(" ")[1]: line.split(" ")[2] for line in replies if line.startswith("queue ")}


def stage_event(number, attempt, stage, end):
    """The journal's bytes for the end of a stage."""
    return b"\x0d" + number.to_bytes(4, "big") + attempt.to_bytes(4, "big") + bytes([stage]) + end


# A backend that accepts all input, and ends with the status in its URI. A filter that writes the number of zeros in the title.
EXIT = '#!/bin/sh\ncat >/dev/null\nexit "${DEVICE_URI##*/}"\n'
COPIES = "#!/bin/sh\nhead -c \"$3\" /dev/zero\n"
