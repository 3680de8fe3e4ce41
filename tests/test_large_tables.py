"""Tables with more queues and jobs than an office needs, listed, checkpointed and opened again.

This module computes the table by its own rules, and reads the rows of a checkpoint from the file: a listing shows no options, copies or
priorities.
"""
import pytest

from harness import journal
from harness.checks import quoted, same
from harness.large_run import Script, TYPE, within

pytestmark = [pytest.mark.alone, pytest.mark.needs("spool_shell", "spool_tools")]

QUEUES = 64
JOBS = 10_000
NOW = 1_000_000
SIZE = 1 << 27

# A type that no filter converts to.
ELSEWHERE = "application/x-elsewhere"


class Queue:
    """A queue as the command creates it."""

    def __init__(self, turn):
        self.name = f"q{turn:02}" + "-" * (turn * 2 - 4 if turn > 2 else 0)
        self.uri = f"spoolfile:/out/{turn}"
        self.target = ELSEWHERE if turn % 7 == 6 else TYPE
        self.policy = ["abort-job", "retry-job", "retry-current-job", "stop-printer"][turn % 4]
        self.interval = turn * 1_350
        self.limit = turn * 1_023
        self.info = "i" * (turn * 2)
        self.location = "Room " + "x" * turn
        self.stopped = turn % 5 == 4

    def ask(self, script):
        script.ask(f"queue {self.name} {self.uri} {self.target} {self.policy} {self.interval} {self.limit}", "ok")
        script.ask(f"info {self.name} {quoted(self.info)} {quoted(self.location)}", "ok")
        if self.stopped:
            script.ask(f"disable {self.name}", "ok")

    def listed(self):
        state = 5 if self.stopped else 3
        return f'queue {self.name} {state} accepting {self.target} {self.policy} {self.interval} {self.limit} none ""'

    def row(self):
        asked = (self.name, self.uri, self.target, self.policy, self.interval, self.limit, self.info, self.location)
        return journal.Queue(*asked, stopped=self.stopped).payload()


def title_of(number):
    """A title of 0 to 255 bytes, with all characters that must be escaped."""
    return ('"\\ä' * 63)[: number % 189] + "t" * (number % 4)


def options_of(number):
    """Options of 0 to 2,048 bytes, as they are printed."""
    if number % 256 == 0:
        return ""
    value = f"o{number}="
    return value + "v" * max(0, number % 256 * 8 + 8 - len(value))


def document_of(number):
    """A document: usually a short one, and sometimes one of more than a piece."""
    if number % 4:
        return b""
    length = {0: 65_536, 1: 65_537, 2: 131_073}.get(number // 4 % 500, number % 50)
    return (b"%d " % number * (length // 2 + 1))[:length]


class Job:
    """A job as the command creates it, and its outcome."""

    def __init__(self, number, queues):
        self.number = number
        self.queue = queues[number % len(queues)]
        self.user = "u" * (number % 255 + 1)
        self.title = title_of(number)
        self.copies = number % 9_999 + 1
        self.priority = number % 100 + 1
        self.options = options_of(number)
        self.document = document_of(number)
        # The start deadline, if any: it has passed, is now, or is in the future.
        self.by = {0: NOW - 1, 1: NOW, 2: NOW + number, 3: 4_000_000_000_000}.get(number % 6)
        # Incoming, closed, held, held until a moment that has passed or has not, canceled before or after it was closed.
        self.kind = number // 64 % 7

    def ask(self, script):
        words = f"{self.queue.name} {self.user} {quoted(self.title)} {self.copies} {self.priority} {quoted(self.options)}"
        script.ask(f"create {words}" if self.by is None else f"createby {words} {self.by}", f"ok job {self.number}")
        script.document(self.number, self.document)
        if self.kind not in (0, 5):
            self.ask_close(script)
        if self.unprintable():
            return
        if self.kind in (2, 3, 4):
            script.ask(f"hold {self.number} {self.held_until() or 'indefinite'}", "ok")
        if self.kind in (5, 6):
            script.ask(f"cancel {self.number}", "ok")

    def ask_close(self, script):
        way = "unprintable" if self.unprintable() else "stages 1"
        script.ask(f"close {self.number} page-{self.number}", f"ok type {TYPE} {way}")

    def unprintable(self):
        return self.kind not in (0, 5) and self.queue.target != TYPE

    def is_late(self):
        """Whether the clock cancels it once it waits."""
        return self.kind in (1, 2, 3, 4) and not self.unprintable() and self.by == NOW - 1

    def held_until(self):
        return {2: None, 3: NOW + self.number, 4: NOW}[self.kind]

    def shown(self):
        if self.unprintable():
            return "8 no-filter"
        if self.is_late():
            return "7 canceled"
        if self.kind in (2, 3):
            return "4 job-hold-until-specified"
        return {0: "4 job-incoming", 1: "3 none", 4: "3 none", 5: "7 canceled", 6: "7 canceled"}[self.kind]

    def listed(self):
        return f'job {self.number} {self.queue.name} {self.shown()} "{self.user}" {len(self.document)} 0 {quoted(self.title)}'

    def phase(self):
        if self.unprintable():
            return journal.aborted("no-filter")
        if self.kind == 0:
            return journal.incoming()
        if self.kind in (5, 6) or self.is_late():
            return journal.CANCELED
        until = journal.until
        return journal.waiting({1: journal.FREE, 2: journal.held(), 3: until(NOW + self.number), 4: until(NOW)}[self.kind])

    def rows(self):
        """Its row, and the pieces of its document if it has not ended."""
        asked = (self.number, self.queue.name, self.user, self.title, self.copies, self.priority, self.options)
        media = None if self.kind in (0, 5) else TYPE
        yield journal.Job(*asked, media, size=len(self.document), phase=self.phase(), by=self.by).payload()
        if self.shown()[0] in "34":
            for piece in journal.pieces(self.number, self.document):
                yield piece.payload()


def ask_jobs(script, jobs):
    script.ask("jobs", *(job.listed() for job in jobs), f"ok {len(jobs)}")


def ask_queues(script, queues):
    script.ask("queues", *(queue.listed() for queue in queues), f"ok {len(queues)}")


def check_rows(place, queues, jobs):
    """Whether the file's current area has exactly the rows of the table."""
    wanted = [journal.Head(len(jobs), NOW).payload()] + [queue.row() for queue in queues] + [row for job in jobs for row in job.rows()]
    found = journal.current_payloads(place.at("spool", "spool.disk"))
    for number, (row, want) in enumerate(zip(found, wanted), 1):
        same(f"row {number} of the checkpoint", row, want)
    same("rows of the checkpoint", len(found), len(wanted))


@within(57_000)
def test_jobs_and_queues(place):
    """10,000 jobs of 64 queues, with titles, options, moments and documents of all lengths: listed, checkpointed, opened again."""
    queues = [Queue(turn) for turn in range(QUEUES)]
    jobs = [Job(number, queues) for number in range(1, JOBS + 1)]
    script = Script()
    script.ask(f"clock {NOW}", "ok")
    for asked in queues + jobs:
        asked.ask(script)
    script.ask("queue more spoolfile:/out a/b abort-job", "error 3 TooManyQueues")
    # The clock moves back, and cancels the jobs that wait after their deadlines all the same.
    script.ask("clock 0", "ok")
    size = ("--size", str(SIZE))
    ask_jobs(script, jobs)
    place.serve(script, *size)
    # From the journal, then from a listing in the other area, and then from one in the first again.
    for _ in range(3):
        script = Script()
        ask_jobs(script, jobs)
        ask_queues(script, queues)
        script.ask("checkpoint", "ok")
        ask_jobs(script, jobs)
        place.serve(script)
        check_rows(place, queues, jobs)
    script = Script()
    script.ask('create q00 ann "" 1 50 ""', f"ok job {JOBS + 1}")
    script.ask("cancel 10000", "error 10 JobEnded" if jobs[-1].shown()[0] in "78" else "ok")
    place.serve(script)
