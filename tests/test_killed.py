"""Lives of the shell that are killed at random moments: the spool has everything that was acknowledged.

Each run begins with ten lives of the shell that are killed while they create the spool, of 4,096 bytes to 4 MiB, within the time that the
creation takes. Such a life gets a fresh folder, or one that a killed life left unfinished. A life after it must create or open the spool
there, with everything that was acknowledged.

Several lives follow in the last of these folders, in half of the runs with a spool of version 1, which a checkpoint converts to a newer
one. A life gets one command at a time, and is killed after some reply, inside the text of a command, or while a command is in progress. One
command in five is a checkpoint, a clock cancels some jobs after their start deadlines, and some ended jobs are purged. The `jobs` command
of the next life must list exactly the acknowledged jobs, and at most the one of the command in progress besides. The documents of the jobs
that have not ended must be on the disk, and the version must be that of the table. harness/spool_model.py computes the tables, and reads the
file. The moments of the kills depend on the machine, so Hypothesis could not find a smaller case.
"""
import copy
import os
import random
import string
import tempfile
import time
from pathlib import Path

import pytest

from harness import journal, spool_model as model
from harness.checks import Difference, holds
from harness.child_folder import Shell
from harness.programs import SHELL

pytestmark = pytest.mark.needs("spool_shell")


RUNS = 50
MAKINGS = 10
LIVES = 4
ROOM = 500_000  # a spool of this many bytes has room for these lives
TYPE = "application/octet-stream"
FIRST = ("queue", "lab")


def event_of(table, name, *words):
    """The event of a command, and its reply if it is accepted."""
    if name == "queue":
        return journal.Queue(words[0], "spoolfile:/out", TYPE).event(), "ok"
    if name in ("create", "createby"):
        title, by = (*words, None)[:2]
        return journal.Job(table.highest + 1, "lab", "ann", title, by=by).event(), f"ok job {table.highest + 1}"
    if name == "send":
        number, document = words
        return journal.send(number, document.encode()), f"ok bytes {len(table.jobs[number].document) + len(document)}"
    if name == "close":
        return journal.close(*words, media=TYPE), f"ok type {TYPE} stages 1"
    return {"clock": journal.clock, "cancel": journal.cancel, "purge": journal.purge}[name](*words), "ok"


def after(table, command):
    """The table after a command, and the command's reply."""
    changed = copy.deepcopy(table)
    if command == ("checkpoint",):
        changed.version = journal.NEWEST
        return changed, "ok"
    event, reply = event_of(table, *command)
    try:
        changed.apply(event)
        return changed, reply
    except model.Unfit:
        return table, "error 2 QueueExists" if command[0] == "queue" else "error 17 NeedsCheckpoint"


def text_of(name, *words):
    """A command as the shell reads it."""
    if name == "queue":
        return f"queue {words[0]} spoolfile:/out {TYPE} abort-job\n"
    if name in ("create", "createby"):
        title, *by = words
        return " ".join([name, "lab", "ann", f'"{title}"', "1", "50", '""', *map(str, by)]) + "\n"
    if name == "send":
        return f"send {words[0]} {len(words[1])}\n{words[1]}\n"
    if name == "close":
        return f"close {words[0]} page.txt\n"
    return " ".join([name, *map(str, words)]) + "\n"


def next_command(table, chance):
    """A command that the table accepts, or refuses because of its version."""
    if not table.queues:
        return FIRST
    if chance.random() < 0.2:
        return ("checkpoint",)
    if chance.random() < 0.1:
        return ("clock", chance.randrange(100))
    job = table.jobs.get(chance.randrange(table.highest + 1))
    if job and job.phase == "incoming":
        document = "".join(chance.choices(string.ascii_letters, k=chance.randrange(1, 3000)))
        return chance.choice([("send", job.number, document), ("close", job.number), ("cancel", job.number)])
    if job and job.phase == "waiting":
        return ("cancel", job.number)
    if job and chance.random() < 0.5:
        return ("purge", job.number)
    return new_job(table, chance)


def new_job(table, chance):
    title = f"Job {table.highest + 1}"
    return ("create", title) if chance.random() < 0.5 else ("createby", title, chance.randrange(120))


class Life(Shell):
    """A running shell. A spool that it creates has `size` bytes."""

    def __init__(self, root, size=4_194_304):
        super().__init__([SHELL, "--root", ".", "--size", str(size)], root)

    def give(self, text):
        try:
            super().give(text)
        except BrokenPipeError:
            raise Difference(f"it ended and wrote {self.child.stderr.read()!r}") from None

    def reply(self):
        line = self.line()
        if not line:
            raise Difference(f"it ended and wrote {self.child.stderr.read()!r}")
        return line.rstrip("\n")

    def jobs(self):
        self.give("jobs\n")
        lines = [self.reply()]
        while lines[-1].startswith("job "):
            lines.append(self.reply())
        return lines


def grow_old(root, tables):
    """Converts a spool to version 1, if it was created. It has no deadlines yet, so the byte in its header is all that differs."""
    path = os.path.join(root, "spool.disk")
    if os.path.exists(path):
        with open(path, "r+b") as file:
            file.seek(1)
            file.write(b"\1")
        for table in tables:
            table.version = 1


def of_disk(root, tables):
    """The tables whose version and documents are those on the disk."""
    found = model.stored_table(Path(root, "spool.disk").read_bytes())
    tables = [table for table in tables if table.version == found.version]
    holds(f"the disk has the version {found.version}", tables)
    documents = {job.number: job.document for job in found.jobs.values()}
    for job in tables[0].jobs.values():
        holds(f"job {job.number} has the document {documents.get(job.number)!r}, not {job.document!r}", documents.get(job.number) == job.document)
    return tables


def recognised(listed, tables):
    """The tables with this listing: several if a queue, a clock or a checkpoint was in progress, which `jobs` does not list."""
    found = [table for table in tables if table.jobs_reply() == listed]
    holds(f"listed {listed}, answered {tables[0].jobs_reply()}", found)
    return found


def live(root, tables, chance):
    """One life. Returns the tables that the next life may find."""
    life = Life(root)
    try:
        found = of_disk(root, recognised(life.jobs(), tables))
        for _ in range(chance.randrange(12)):
            command = next_command(found[0], chance)
            wanted = [after(table, command) for table in found]
            life.give(text_of(*command))
            answered = life.reply()
            found = [table for table, reply in wanted if reply == answered]
            holds(f"{command} was answered {answered!r}, not {wanted[0][1]!r}", found)
        if chance.random() < 0.3:
            return found
        command = next_command(found[0], chance)
        text = text_of(*command)
        if chance.random() < 0.2:
            life.give(text[: chance.randrange(len(text))])
            return found
        life.give(text)
        time.sleep(chance.random() * 0.004)
        return found + [after(table, command)[0] for table in found]
    finally:
        life.kill()


def whole_making():
    """The seconds until a life has created its spool and replies."""
    with tempfile.TemporaryDirectory() as root:
        start = time.perf_counter()
        life = Life(root)
        try:
            life.jobs()
            return time.perf_counter() - start
        finally:
            life.kill()


def making(root, size, seconds):
    """A life that creates a spool and gets one command, if it lives long enough. Returns the tables that the next life may find."""
    life = Life(root, size)
    try:
        life.give(text_of(*FIRST))
        time.sleep(seconds)
    finally:
        replies, complaints = life.kill()
    holds(f"a life that makes the spool answered {replies!r} and wrote {complaints!r}", not complaints and replies in ("", "ok\n"))
    made, _ = after(model.Table(), FIRST)
    return [made] if replies else [model.Table(), made]


def check_opened(root, tables):
    """A life that must create or open the spool, with everything that was acknowledged."""
    life = Life(root)
    try:
        recognised(life.jobs(), tables)
        life.give(text_of(*FIRST))
        answered = life.reply()
        holds(f"{FIRST} was answered {answered!r}", answered == "error 2 QueueExists" or answered == "ok" and len(tables) > 1)
    finally:
        life.kill()


def makings(folder, longest, chance):
    """Lives that are killed while they create a spool. Returns the last one's folder, and the tables that the next life may find."""
    root = None
    for turn in range(MAKINGS):
        if root is None:
            root = os.path.join(folder, str(turn))
            os.mkdir(root)
        last = turn == MAKINGS - 1
        size = int(4_096 * 1_024 ** chance.random())
        tables = making(root, max(size, ROOM) if last else size, chance.random() * longest)
        if not last and (os.path.exists(os.path.join(root, "spool.disk")) or chance.random() < 0.5):
            check_opened(root, tables)
            root = None
    return root, tables


def run(seed, longest):
    """Lives in one folder, after lives that create a spool, none longer than these seconds."""
    chance = random.Random(seed)
    with tempfile.TemporaryDirectory() as folder:
        root, tables = makings(folder, longest, chance)
        if chance.random() < 0.5:
            grow_old(root, tables)
        for _ in range(LIVES):
            tables = live(root, tables, chance)
        life = Life(root)
        recognised(life.jobs(), tables)
        life.kill()


@pytest.fixture(scope="module")
def longest():
    """The seconds that a creation takes."""
    return min(whole_making() for _ in range(5))


@pytest.mark.parametrize("turn", range(RUNS))
def test_lives_that_are_killed(turn, longest, seed):
    run(seed + turn, longest)
