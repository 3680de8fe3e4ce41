"""A spool with arbitrary bytes, and the commands that the shell runs on it."""
import os
import re
import subprocess
import tempfile
from pathlib import Path

from harness import journal
from harness.checks import LONGEST, same, words_of_faults
from harness.journal import cancel, close, Head, image, Job, places, Queue, REOPEN, start, waiting
from harness.programs import SHELL
from harness.spool_model import read_row

SIZE = 8_192  # of a spool if a test does not specify it
GREATEST = 2 ** 32 - 1
GREATEST_NUMBER = 2 ** 31 - 1

# The log line about a stage whose program is not in the programs file.
NO_PROGRAM = re.compile(r"spool: job \d+ attempt \d+ stage \d+ \S+: not listed in the programs file\n")

# The backend of the scheme `s`: it stores its input document.
BACKEND = '#!/bin/sh\ncat "$6" > "$0.$1"\n'


class Spool:
    """A folder of its own with a spool of these bytes, or with none, and the program that serves it."""

    # The log lines that are no errors.
    notice = NO_PROGRAM

    def __init__(self, folder, content=None, program=SHELL):
        self.root = tempfile.mkdtemp(dir=folder)
        self.file = os.path.join(self.root, "spool.disk")
        self.program = program
        if content is not None:
            self.write(content)

    def write(self, content):
        Path(self.file).write_bytes(content)

    def content(self):
        return Path(self.file).read_bytes()

    def served(self, script, words=()):
        """The lines of the replies to a script, the words of the errors, and the status."""
        done = subprocess.run([self.program, "--root", self.root, *words], input=script, capture_output=True, timeout=LONGEST)
        lines = [line for line in words_of_faults(done.stderr.decode()).splitlines(True) if not self.notice.fullmatch(line)]
        return done.stdout.decode().splitlines(), "".join(lines), done.returncode

    def lines(self, commands, words=(), status=0, errors=""):
        """The lines of the replies to commands. The status and standard error must be these, except for log lines about stages, which have
        no program here.
        """
        script = b"".join(command if isinstance(command, bytes) else command.encode() + b"\n" for command in commands)
        replies, *end = self.served(script, words)
        same("standard error and status", end, [errors, status])
        return replies

    def says(self, *rows, words=()):
        """Sends the commands of the rows. Each row is a command and the line, or the lines, of its reply."""
        wanted = []
        for _, reply in rows:
            wanted += [reply] if isinstance(reply, str) else reply
        same("replies", self.lines([command for command, _ in rows], words), wanted)

    def is_refused(self, fault):
        """The program opens nothing, sends no reply and changes nothing."""
        before = self.content()
        same("replies", self.lines(["jobs"], status=1, errors=f"spool: {fault}\n"), [])
        same("the file is unchanged", self.content() == before, True)

    def listing(self):
        """The rows that a checkpoint writes, in the newest version."""
        _, before = journal.current(self.content())
        self.says(("checkpoint", "ok"))
        payloads, epoch = journal.current(self.content())
        same("the epoch", epoch, before + 1)
        same("the version", journal.current_version(self.content()), journal.NEWEST)
        rows = [read_row(payload) for payload in payloads]
        same("the encoded rows", [row.payload() for row in rows], payloads)
        return rows

    def with_file(self, name, words, mode=0o600):
        """A file in its folder."""
        path = Path(self.root, name)
        path.write_text(words, encoding="utf-8")
        path.chmod(mode)
        return str(path)

    def options(self, **files):
        """The arguments that name files of types, of conversions and of programs."""
        return [word for option, words in files.items() for word in (f"--{option}", self.with_file(option, words))]

    def printed(self, job):
        """The document that the backend gets for a job in a round."""
        backend = self.with_file("backend", BACKEND, 0o700)
        self.says(("round", "ok started 1 finished 1"), words=self.options(programs=f"backend s {backend}\n"))
        return Path(f"{backend}.{job}").read_bytes()


def spelled(payload, version=journal.NEWEST):
    return payload if isinstance(payload, bytes) else payload.payload(version)


class Story:
    """The rows and events of a spool's journal, in an area of this version."""

    def __init__(self, folder, *payloads, size=SIZE, version=journal.NEWEST):
        self.folder = folder
        self.size = size
        self.version = version
        self.payloads = self.spelled(payloads)

    def spelled(self, payloads):
        return [spelled(payload, self.version) for payload in payloads]

    def image(self, *more):
        """The file of these, and of further ones."""
        return image(self.size, self.payloads + self.spelled(more), version=self.version)

    def spool(self, *more):
        """A spool of these, and of further ones."""
        return Spool(self.folder, self.image(*more))

    def takes(self, *payloads):
        """The journal continues with these, and the program opens it. It writes nothing except a reopening."""
        self.payloads = self.payloads + self.spelled(payloads)
        spool = self.spool()
        same("replies", spool.lines([]), [])
        same("the file is unchanged, or reopened", spool.content() in (self.image(), self.image(REOPEN)), True)

    def refuses(self, *payloads):
        """Each of these alone, after the others, is damage at its gate."""
        for payload in payloads:
            self.spool(payload).is_refused(f"damaged {places(self.payloads)[-1]}")

    def lists(self, *rows):
        """The listing is these rows."""
        same("the listing", self.spool().listing(), list(rows))

    def has(self, *rows):
        """The listing has these rows."""
        found = self.spool().listing()
        for row in rows:
            same(f"{row!r} is in {found!r}", row in found, True)

    def starts(self, job, *others):
        """This job may be started next, and no other."""
        same("replies", self.spool(start(job)).lines([]), [])
        self.refuses(*map(start, others))

    def is_short(self):
        """It ends within a document, which is reported at the gate after it."""
        self.spool().is_refused(f"damaged {places(self.payloads)[-1]}")

    def runs(self, *jobs):
        """The jobs may be started only in this order, if each is canceled before the next."""
        copy = Story(self.folder, *self.payloads, size=self.size, version=self.version)
        for at, job in enumerate(jobs):
            copy.starts(job, *jobs[at + 1:])
            copy.takes(start(job), cancel(job))


Q = Queue("q")
LAB = Queue("lab", policy="retry-job")
HALL = Queue("hall", policy="retry-job")


def of_q(number, **fields):
    return Job(number, "q", **fields)


def of_lab(number, **fields):
    return Job(number, "lab", **fields)


def closed_job(number, filters=(), **fields):
    """The events of a job of the queue lab whose document is complete."""
    return of_lab(number, **fields).event(), close(number, filters)


# A queue, its job, and the end of the job's document, of 26, 23 and 17 bytes with their frames. The gate after them is at 82.
FIRST = (Q.event(), of_q(1).event(), close(1))

# The rows that list them.
FIRST_ROWS = (Head(1), Q, of_q(1, media="a/b", phase=waiting()))

# The commands that create the first two.
QUEUE = "queue q s:/ a/b abort-job"
CREATE = 'create q u "" 1 50 ""'

QUEUES = ['queue q 3 accepting a/b abort-job 30 5 none ""', "ok 1"]
