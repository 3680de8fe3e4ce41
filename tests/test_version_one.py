"""A spool that a program of format version 1 wrote is opened and continued.

The spool is in tests/version_one.txt: the bytes of its file, and the replies of the program that wrote it, on a copy (LOOK). It has queues
of each error policy, jobs in each phase, documents, the rows of a checkpoint, and events after them; the program was killed while jobs were
processing. All of it is checked:

- The shell replies the same on a copy, and leaves the file that the model of harness/spool_model.py computes, in version 1.
- It accepts the events of version 1, and writes the records that harness/journal.py encodes; `createby` and `purge` are refused with `error
  17 NeedsCheckpoint`.
- Each job that has not ended is printed, with its document.
- A checkpoint writes the area 0 in version 2, with the rows that the model computes, and leaves the other one unchanged. Then `createby`
  creates a job, which the clock cancels and `purge` removes. All of this remains after further openings, and after a further checkpoint.

The environment's VERSION_ONE may name a program of version 1, built from the last commit that wrote it. Random commands are sent to both on
copies of the spool then: the replies and the files are the same. And it refuses the newer spool with `spool: damaged 0`, the place of the
header that it does not know. Run as a script, this file writes tests/version_one.txt with that program.
"""
import os
import random
import re
import shutil
import signal
import subprocess
import tempfile
from pathlib import Path

import pytest

from harness import journal, spool_model as model, stories
from harness.checks import holds, same
from harness.programs import SHELL, TESTS

pytestmark = pytest.mark.needs("spool_shell")

OLD = os.environ.get("VERSION_ONE")
STORED = os.path.join(TESTS, "version_one.txt")
SIZE = 16_384
HALF = SIZE // 2
SCRIPTS = 40  # that are given to both programs
COMMANDS = 40  # of each

# Log lines about stages, which are not errors of the shell.
NOTICE = re.compile(r"spool: job \d+ attempt \d+ .*\n")

# The commands for a copy. The round has no programs, so a stage that it starts ends as one that cannot be started.
LOOK = b"jobs\nqueues\nround\njobs\nqueues\n"

# ---- the spool

TYPES = "a/a x\nb/b y\n"
# The filter h is in no programs file.
CONVS = "a/a a/b 10 f\nb/b a/b 10 h\n"
FILTER = """#!/bin/sh
cat >&2 <<'END'
STATE: +media-empty,toner-low
PAGE: 1 2
PAGE: total 9
ATTR: marker-levels=5 marker-names='a b'
INFO: at work
END
cat "${6:--}"
"""
# It ends with the last part of the URI.
BACKEND = """#!/bin/sh
exit "${DEVICE_URI##*/}"
"""

DOCUMENTS = {
    1: b"hello, world\n",
    2: b"two\nlines\n",
    12: b"held and incoming",
    13: b"the first part, and more",
    14: bytes(range(256)),
    15: b"x",
    17: b"in its second stage",
    18: b"waits for its printer",
}
CUT = 16

# A line `SEND JOB FROM TO` sends these bytes of a job's document.
MADE = r"""clock 1000
queue aim s:/0 a/b abort-job
queue bay s:/6 a/b retry-job 60 5
queue cod s:/7 a/b retry-current-job 30 4
queue den s:/1 a/b stop-printer 10 0
queue elm s:/2 a/b abort-job
queue fig s:/3 a/b abort-job
queue gum s:/1 a/b retry-job 5 1
queue hub s:/1 x/y abort-job
queue ivy s:/1 a/b abort-job
info aim "A \"printer\"" "Room 1"
create aim ann "First page" 2 50 "media=A4 nocollate"
SEND 1 0 256
close 1 a.x
create bay bo "Résumé" 1 80 ""
SEND 2 0 256
close 2 b.x
create cod ann "" 1 1 ""
close 3 c.x
create den carl "Stops \\ all" 9999 100 "note=x"
close 4 d.x
create elm dora "Asks who" 1 50 ""
close 5 e.x
create fig dora "Is held" 1 50 ""
close 6 f.x
create gum dora "Tried once" 1 50 ""
close 7 g.x
create hub dora "Of no type" 1 50 ""
close 8 h
create ivy dora "Fails" 1 50 ""
close 9 i.x
round
create ivy dora "Has no filter" 1 50 ""
close 10 j.y
create ivy dora "Isn't wanted" 1 50 ""
cancel 11
create aim ann "Held" 1 50 ""
hold 12 indefinite
SEND 12 0 256
create aim ann "Coming" 1 50 ""
SEND 13 0 16
create aim ann "Later" 3 70 "a=b"
SEND 14 0 256
hold 14 5000
close 14 k.x
create aim ann "Some day" 1 70 ""
SEND 15 0 256
close 15 l.x
hold 15 indefinite
round
round
reject hub
create aim bo "Is lost" 1 50 ""
close 16 m.x
round
checkpoint
clock 1010
SEND 13 16 256
release 12
hold 12 4000
abandon 16
create aim bo "In its second stage" 1 90 ""
SEND 17 0 256
close 17 n.x
create den bo "Waits" 1 100 ""
SEND 18 0 256
close 18 o.x
disable fig
accept hub
reject elm
info bay "Front" ""
round
"""


def commands_of(text):
    """The commands of a script in order, each as bytes."""
    for line in text.splitlines():
        if line.startswith("SEND "):
            job, begin, end = map(int, line.split()[1:])
            part = DOCUMENTS[job][begin:end]
            yield b"send %d %d\n%b\n" % (job, len(part), part)
        else:
            yield line.encode() + b"\n"


class Spool(stories.Spool):
    """A copy of a spool in a folder of its own."""

    notice = NOTICE

    def options(self, backend=BACKEND):
        """The arguments that name files of types, of conversions and of programs."""
        programs = f"filter f {self.with_file('f', FILTER, 0o700)}\nbackend s {self.with_file('s', backend, 0o700)}\n"
        return super().options(types=TYPES, convs=CONVS, programs=programs)

    def answers(self, script, replies, words=()):
        same(f"the replies to {script!r}", self.served(script, words), (replies, "", 0))

    def versions(self):
        return [journal.version_of(half) for half in journal.halves(self.content())]


# ---- the stored file

def stored():
    """The bytes of the file, and the replies on a copy."""
    lines = [line for line in Path(STORED).read_text(encoding="utf-8").splitlines() if not line.startswith("#")]
    answers, bytes_from = lines.index("answers"), lines.index("bytes")
    content, at = bytearray(SIZE), 0
    for line in lines[bytes_from + 1:]:
        if line.startswith("at "):
            at = int(line.split()[1])
        else:
            part = bytes.fromhex(line)
            content[at:at + len(part)] = part
            at += len(part)
    return bytes(content), lines[answers + 1:bytes_from]


def hex_lines(base, part):
    """An area in lines of 48 bytes, without the zeros at its end."""
    part = part.rstrip(b"\0") + b"\0"
    yield f"at {base}"
    yield from (part[at:at + 48].hex() for at in range(0, len(part), 48))


def made_by(program, folder):
    """The file of a spool that a program was killed on."""
    spool = Spool(folder)
    words = [program, "--root", spool.root, "--size", str(SIZE), *spool.options()]
    pipe = subprocess.PIPE
    running = subprocess.Popen(words, stdin=pipe, stdout=pipe, stderr=subprocess.DEVNULL)
    for command in commands_of(MADE):
        running.stdin.write(command)
        running.stdin.flush()
        reply = running.stdout.readline()
        holds(f"{command!r} got the reply {reply!r}", reply.startswith(b"ok"))
    running.send_signal(signal.SIGKILL)
    running.wait()
    return spool.content()


def write_stored(program, folder):
    content = made_by(program, folder)
    replies, errors, status = Spool(folder, content, program).served(LOOK)
    same("the standard error and the status", (errors, status), ("", 0))
    lines = [
        "# A spool of version 1, which `tests/test_version_one.py --write OLD` created. OLD was built from the last commit that wrote version 1.",
        "# First that program's replies to `jobs`, `queues`, `round`, `jobs` and `queues` on a copy, and then the bytes of the file from",
        "# some places on. All others are zeros.",
        "answers", *replies, "bytes", *hex_lines(0, content[:HALF]), *hex_lines(HALF, content[HALF:]),
    ]
    Path(STORED).write_text("".join(f"{line}\n" for line in lines), encoding="utf-8")
    same("the file that is read again", stored(), (content, replies))


# ---- the checks

def has_all(content):
    """The spool has the contents that make the other checks meaningful."""
    table = model.stored_table(content)
    same("the versions", [journal.version_of(half) for half in journal.halves(content)], [1, 1])
    kinds = {payload[0] for half in journal.halves(content) for payload in journal.payloads_of(half)}
    same("the kinds of events and rows that are missing", {*range(1, 0x0F), *range(0x40, 0x44)} - kinds, set())
    same("the policies", {queue.policy for queue in table.queues.values()}, {0, 1, 2, 3})
    phases = {job.phase for job in table.jobs.values()}
    same("the phases", phases, {"incoming", "waiting", "processing", "completed", "canceled", "aborted"})
    reasons = {job.reason for job in table.jobs.values() if job.phase == "aborted"}
    same("the reasons", reasons, set(journal.ABORTS))
    holds = {job.hold for job in table.jobs.values() if job.phase == "waiting"}
    same("the holds", holds, {None, 0, 1, 2, (5_000,)})
    for number, document in DOCUMENTS.items():
        job = table.jobs[number]
        same(f"the document of job {number}", job.document, b"" if job.has_ended() else document)


def test_answers_the_same(room, content, replies):
    spool = Spool(room, content)
    spool.answers(LOOK, replies)
    it = model.opened(content)
    same("the listing of the model", it.table.jobs_reply() + it.table.queues_reply(), replies[:len(replies) // 2])
    model.round_without_programs(it)
    same("the file", spool.content() == it.file, True)
    # Opening it again writes nothing, since nothing is processing.
    spool.answers(b"", [])
    same("the file", spool.content() == it.file, True)


# Each event of version 1 that a command causes, with its reply. Job 15 waits, 12 is incoming, and the number of the new job is 19.
EVENTS = [
    ("queue new s:/0 a/b abort-job", "ok", journal.Queue("new", "s:/0", "a/b").event()),
    ('info new "i" "l"', "ok", journal.info("new", "i", "l")),
    ("reject new", "ok", journal.set_accept("new", False)),
    ("disable new", "ok", journal.set_stop("new", True)),
    ('create aim u "t" 1 50 ""', "ok job 19", journal.Job(19, "aim", title="t").event()),
    ("send 19 2\nhi", "ok bytes 2", journal.send(19, b"hi")),
    ("close 19 a.x", "ok type a/a stages 2", journal.close(19, ["f"], "a/a")),
    ("hold 19 7000", "ok", journal.hold(19, 7_000)),
    ("hold 15 indefinite", "ok", journal.hold(15)),
    ("release 15", "ok", journal.release(15)),
    ("cancel 12", "ok", journal.cancel(12)),
    ("clock 1011", "ok", journal.clock(1_011)),
]
CREATE_BY = 'createby aim ann "By then" 1 50 "" 8000'
NOT_YET = "error 17 NeedsCheckpoint"


def test_takes_the_events_of_version_one(room, content):
    spool = Spool(room, content)
    words = spool.options()
    it = model.opened(content)
    for command, reply, event in EVENTS:
        spool.answers(f"{CREATE_BY}\n{command}\npurge 1\npurge 99\n".encode(), [NOT_YET, reply, NOT_YET, NOT_YET], words)
        same("whether there is room", model.tried(it, event), True)
        same(f"the file after {command!r}", spool.content() == it.file, True)
    same("the versions", spool.versions(), [1, 1])
    spool.answers(b"jobs\nqueues\n", it.table.jobs_reply() + it.table.queues_reply())


# A backend that stores its input.
KEEPS = """#!/bin/sh
cat > "FOLDER/printed-$1"
"""


def test_prints_remaining_jobs(room, content):
    """Before a checkpoint, and after one."""
    for first in (b"", b"checkpoint\n"):
        spool = Spool(room, content)
        words = spool.options(KEEPS.replace("FOLDER", spool.root))
        script = first + b"close 12 p.x\nclose 13 q.x\nclock 6000\nrelease 15\nrelease 5\nrelease 6\nenable den\nenable fig\ndrain 20\n"
        lines, errors, status = spool.served(script, words)
        same("the standard error, the status, and faults", (errors, status, [line for line in lines if not line.startswith("ok")]), ("", 0, []))
        found = {int(it.name.removeprefix("printed-")): it.read_bytes() for it in Path(spool.root).glob("printed-*")}
        left = [number for number, job in model.opened(content).table.jobs.items() if not job.has_ended()]
        same("the printed documents", found, {number: DOCUMENTS.get(number, b"") for number in left})


def converts(folder, content):
    """The newer spool. After the checkpoint it has the same contents, and a job that the clock cancels."""
    spool = Spool(folder, content)
    it = model.opened(content)
    jobs, queues = it.table.jobs_reply(), it.table.queues_reply()
    spool.answers(b"jobs\nqueues\n", jobs + queues)
    before = it.file
    same("the reply to a checkpoint", model.checkpointed(it), "ok")
    spool.answers(CREATE_BY.encode() + b"\ncheckpoint\njobs\nqueues\n", [NOT_YET, "ok", *jobs, *queues])
    same("the file", spool.content() == it.file, True)
    same("the versions", spool.versions(), [2, 1])
    same("the area of version 1", spool.content()[HALF:], before[HALF:])
    spool.answers(b"jobs\nqueues\n", jobs + queues)
    newer = spool.content()
    timed = journal.Job(19, "aim", "ann", "By then", by=8_000)
    spool.answers(CREATE_BY.encode() + b"\n", ["ok job 19"])
    same("whether there is room", model.tried(it, timed.event()), True)
    same("the file", spool.content() == it.file, True)
    listed = it.table.jobs_reply()
    same("the jobs before it", listed[:-2], jobs[:-1])
    spool.answers(b"jobs\nqueues\n", listed + queues)
    # It is incoming, so the clock does not cancel it until it is closed.
    spool.answers(b"clock 8001\ncheckpoint\n", ["ok", "ok"])
    same("the versions", spool.versions(), [2, 2])
    spool.answers(b"close 19 a.x\nclock 8001\n", ["ok type a/a stages 2", "ok"], spool.options())
    for _ in range(2):
        found = spool.lines(["jobs"])
        same("the other jobs", [line.split()[:3] for line in found[:-2]], [line.split()[:3] for line in jobs[:-1]])
        same("the job that is late", found[-2:], ['job 19 aim 7 canceled "ann" 0 0 "By then"', "ok 19"])
        spool.says(("checkpoint", "ok"))
    spool.says(("purge 19", "ok"))
    left = spool.lines(["jobs"])
    same("the jobs without it", [line.split()[:3] for line in left[:-1]], [line.split()[:3] for line in jobs[:-1]])
    return newer, spool.content()


# ---- comparison with a program of version 1

def some_commands(chance):
    """Random commands, which version 1 has."""
    for _ in range(COMMANDS):
        job, queue = chance.randrange(1, 25), chance.choice(["aim", "bay", "cod", "den", "elm", "fig", "new", "nope"])
        document = chance.choice([b"", b"x", b"a\nb", bytes(chance.randrange(256) for _ in range(9))])
        yield chance.choice([
            b"create %b u \"t\" 1 %d \"\"" % (queue.encode(), chance.randrange(0, 102)),
            b"create %b u \"t\" 1 50 \"%b\"" % (queue.encode(), chance.choice([b"a=b", b"noa", b"a:b"])),
            b"send %d %d\n%b" % (job, len(document), document),
            b"close %d %b" % (job, chance.choice([b"a.x", b"a.y", b"a"])),
            b"hold %d %b" % (job, chance.choice([b"indefinite", b"900", b"1500", b"9000", b"4000000000000"])),
            b"release %d" % job,
            b"cancel %d" % job,
            b"abandon %d" % job,
            b"clock %d" % chance.randrange(900, 7_000),
            b"round",
            b"drain 2",
            b"%b %b" % (chance.choice([b"accept", b"reject", b"enable", b"disable"]), queue.encode()),
            b"queue %b s:/0 a/b retry-job" % queue.encode(),
            b"info %b i l" % queue.encode(),
            b"jobs",
            b"queues",
        ]) + b"\n"


def compares_programs(folder, content):
    """The same commands on both, each in one run or in several."""
    for turn in range(SCRIPTS):
        chance = random.Random(turn)
        both = [Spool(folder, content, program) for program in (SHELL, OLD)]
        words = both[0].options()
        commands = list(some_commands(chance))
        while commands:
            count = chance.randrange(1, len(commands) + 1)
            script, commands = b"".join(commands[:count]), commands[count:]
            one, other = (spool.served(script, words) for spool in both)
            same(f"the replies to {script!r}", one, other)
            same(f"the files after {script!r}", both[0].content() == both[1].content(), True)
        for spool in both:
            shutil.rmtree(spool.root)


@pytest.fixture(scope="module")
def replies():
    return stored()[1]


@pytest.fixture(scope="module")
def content():
    content = stored()[0]
    has_all(content)
    return content


def test_converts(room, content):
    converts(room, content)


@pytest.mark.skipif(not OLD, reason="it needs a program of version 1, which VERSION_ONE names")
def test_a_program_of_version_one(room, content):
    """It replies as the shell does, opens no newer spool, and leaves that unchanged."""
    compares_programs(room, content)
    for newer in converts(room, content):
        Spool(room, newer, OLD).is_refused("damaged 0")


if __name__ == "__main__":
    write_stored(OLD, tempfile.mkdtemp())
