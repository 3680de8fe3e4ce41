"""The reserve that the service keeps, and `spool_shell --reserve`.

A full spool keeps room for the events that free room: `create`, `createby`, `send` and `close` are answered `error full` before they take it,
and change nothing. The tests fill spools, and then hold, cancel and purge jobs, stop queues and make checkpoints. A shell without --reserve
executes each command that fits, as Script defines.
"""
import subprocess
import tempfile
import threading

import pytest

from harness.checks import holds, same, until
from harness.child_folder import Shell
from harness.programs import SHELL
from harness.service import Client, PIECE

pytestmark = pytest.mark.needs("spool_shell", "spool_service")

WHOLE = 600  # seconds for a program
DOCUMENT = 12 * 1_048_576
CREATE = 'create q u "t" 1 50 ""\n'
LATER = 4_000_000_000


class ShellClient(Client):
    """The client of a shell, which serves one command at a time."""

    def __init__(self, *words):
        self.shell = Shell([SHELL, *words])
        self.clock = threading.Timer(WHOLE, self.shell.child.kill)
        self.clock.start()

    def say(self, text):
        self.shell.give(text)

    def reply(self):
        line = self.shell.line()
        holds(f"a whole reply: {line!r}", line.endswith("\n"))
        return line[:-1]

    def end(self):
        """Ends the input, and waits for the end of the program."""
        same("status", self.shell.finish()[2], 0)
        self.clock.cancel()


class ShellSpool:
    """The spool of a shell with --reserve."""

    is_service = False

    def __init__(self, folder):
        self.folder, self.shell = folder, None

    def open(self, size=None):
        """Opens the spool for the first time, with this size, or again."""
        self.end()
        self.shell = ShellClient("--root", self.folder.at("spool"), "--reserve", *(["--size", str(size)] if size else []))
        return self.shell

    def end(self):
        if self.shell:
            self.shell.end()


class ServiceSpool:
    """The spool of a service."""

    is_service = True

    def __init__(self, folder):
        self.folder, self.end = folder, folder.end

    def open(self, size=None):
        self.end()
        self.folder.size = size or self.folder.size
        self.folder.start("--keep", "2000")
        return Client(self.folder)


@pytest.fixture(params=[ShellSpool, ServiceSpool], ids=["shell", "service"])
def spool(request, folder):
    made = request.param(folder)
    yield made
    made.end()


def begun(program):
    """A program of a new spool, with a stopped queue."""
    same("a queue", program.ask("queue q spoolfile:/dev/null application/octet-stream abort-job\n"), "ok")
    same("disable", program.ask("disable q\n"), "ok")
    return program


def send(program, job, count):
    return program.ask(b"send %d %d\n" % (job, count) + b"x" * count + b"\n")


def submit(program, count):
    """Submits a document of `count` bytes, and returns its job, and the first refusal, or None."""
    job = program.create("q")
    while 0 < count:
        piece = min(count, PIECE)
        reply = send(program, job, piece)
        if not reply.startswith("ok bytes "):
            return job, reply
        count -= piece
    reply = program.ask(f"close {job} f\n")
    return job, None if reply.startswith("ok type ") else reply


def fill(program, job):
    """Sends pieces to an incoming job, creates jobs, and sends smaller pieces, until nothing more fits, also after a checkpoint. Returns the
    created jobs.
    """
    jobs = []
    for _ in range(5):
        while send(program, job, PIECE).startswith("ok"):
            pass
        while (reply := program.ask(CREATE)) != "error full":
            jobs.append(int(reply.split()[2]))
        size = PIECE
        while 0 < size:
            if send(program, job, size) == "error full":
                size //= 2
        program.ask("checkpoint\n")
    return jobs


def room_of(client):
    return int(client.ask("room\n").split()[2])


# ---- the shell and the service

def test_a_full_spool_is_emptied(spool):
    """Two documents of 12 MiB wait, and further jobs fill a spool of 64 MiB. Then jobs are held, canceled and purged, queues are stopped, and
    checkpoints are made, also after a restart; and at last a document of 12 MiB is accepted again.
    """
    program = begun(spool.open(67_108_864))
    same("another queue", program.ask("queue other spoolfile:/dev/null application/octet-stream abort-job\n"), "ok")
    first, second = [submit(program, DOCUMENT) for _ in range(2)]
    same("two documents", (first[1], second[1]), (None, None))
    filling = program.create("q")
    jobs = fill(program, filling)
    print(f"  {len(jobs)} small jobs next to two documents of 12 MiB")
    for count in range(100):
        same("hold", program.ask(f"hold {first[0]} {LATER + count}\n"), "ok")
    same("a new job", program.ask(CREATE), "error full")
    holds("no room", not spool.is_service or room_of(program) == 0)
    for command in (f"release {first[0]}", "disable other", "checkpoint"):
        same(command, program.ask(f"{command}\n"), "ok")
    program = spool.open()
    same("a new job after a restart", program.ask(CREATE), "error full")
    for word in ("cancel", "purge"):
        for job in [first[0], filling, *jobs]:
            same(f"{word} {job}", program.ask(f"{word} {job}\n"), "ok")
    same("another checkpoint", program.ask("checkpoint\n"), "ok")
    holds("room for a document", not spool.is_service or DOCUMENT <= room_of(program))
    same("a document", submit(program, DOCUMENT)[1], None)
    same("the sizes of the jobs that are left", [row.split()[6] for row in program.listing("jobs\n")], [str(DOCUMENT)] * 2)


def test_the_reserve_is_left(spool):
    """Nothing that takes room takes it from the reserve. What is refused changes nothing, and thousands of other events find the reserve."""
    program = begun(spool.open(1_048_576))
    job = program.create("q")
    fill(program, job)
    rows = program.listing("jobs\n")
    refused = [f"close {job} f\n", CREATE, 'createby q u "t" 1 50 "" 4000000000\n', b"send %d 10\n0123456789\n" % job]
    for command in [*refused, *([f"close {job} f text/plain\n", f"closeat {job} 1 f\n"] if spool.is_service else [])]:
        same(f"{command}", program.ask(command), "error full")
    same("the rows", program.listing("jobs\n"), rows)
    for count in range(2_000):
        same("hold", program.ask(f"hold {job} {LATER + count}\n"), "ok")
    same("cancel", program.ask(f"cancel {job}\n"), "ok")


# ---- the shell alone

def test_without_the_word_all_room_is_taken(folder):
    """Without --reserve commands are executed as long as they fit, so at last a job cannot be canceled. With --reserve the same spool takes
    nothing more that needs room.
    """
    words = ["--root", folder.at("spool")]
    program = begun(ShellClient(*words, "--size", "1048576"))
    jobs = fill(program, program.create("q"))
    replies = [program.ask(f"cancel {job}\n") for job in jobs]
    print(f"  {replies.count('error full')} of {len(jobs)} cancels find no room")
    holds("a cancel is refused", "error full" in replies)
    program.end()
    program = ShellClient(*words, "--reserve")
    same("a new job", program.ask(CREATE), "error full")
    program.end()


SCRIPT = b"""queue q spoolfile:/dev/null application/octet-stream abort-job
create q ann "One" 2 70 "media=A4"
send 1 3
abc
close 1 f.txt
hold 1
# a remark
queue
createby q bo "Two" 1 50 "" 4000000000
cancel 7
jobs
queues
checkpoint
cancel 1
purge 1
jobs
send 2 5
ab"""


def test_other_replies_are_the_same(room):
    """While there is room, the replies with --reserve are those without it."""
    found = []
    for word in [[], ["--reserve"]]:
        for root in [[], ["--root", tempfile.mkdtemp(dir=room)]]:
            run = subprocess.run([SHELL, *root, *word], input=SCRIPT, capture_output=True, timeout=WHOLE)
            found.append((run.returncode, run.stdout, run.stderr))
    same("status", found[0][0], 0)
    holds("replies", 10 < found[0][1].count(b"\n"))
    same("the same four times", found[1:], found[:1] * 3)


def test_a_small_spool_in_memory():
    """A spool in memory has a reserve too: a quarter of its area of 2,048 bytes, which leaves room for no job."""
    for word, wanted in [[], "ok job 1"], [["--reserve"], "error full"]:
        program = ShellClient("--size", "4096", *word)
        same("a queue", program.ask("queue q spoolfile:/dev/null application/octet-stream abort-job\n"), "ok")
        same("a job", program.ask(CREATE), wanted)
        program.end()


# ---- the service alone

@pytest.fixture
def client(folder):
    """A client of a service whose spool has a stopped queue and 4 MiB."""
    return begun(ServiceSpool(folder).open(4_194_304))


def test_room_is_what_fits(client, folder):
    """A document that is as long as `room` says is accepted, and one that is a piece longer is not."""
    room = room_of(client)
    print(f"  room for {room} of {folder.size // 2} bytes of an area")
    holds("most of the area", folder.size // 2 - room < 100_000)
    job, refusal = submit(client, room + PIECE)
    same("a longer document", refusal, "error full")
    same("cancel", client.ask(f"cancel {job}\n"), "ok")
    same("purge", client.ask(f"purge {job}\n"), "ok")
    until("the room again", lambda: room <= room_of(client) + 100)
    same("a document", submit(client, room_of(client))[1], None)
    same("an argument", client.ask("room 7\n"), "error syntax")


def test_a_full_spool_is_looked_at(client):
    """Words that take no room are answered as before, also if the spool is full."""
    fill(client, client.create("q"))
    same("the greatest document", client.ask("room\n"), "ok room 0")
    same("a look", client.listing("queues\n")[0].split()[1], "q")
    same("an unknown word", client.ask("rooms\n"), "error syntax")
