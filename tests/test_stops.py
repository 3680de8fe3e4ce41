"""Each disk call of a script fails, alone or with all later calls, and the spool is opened.

The script has two queues, four jobs with documents and options, one of them with a start deadline and one that misses its deadline and is
purged, a round, a checkpoint and a drain. crates/spool_scripts serves it over a disk and children in memory, once for each call of the
disk: the disk fails from that call on, or only at that call. Then the spool is opened again. It must have the table after a prefix of the
accepted events, including each acknowledged one, changed by a reopening, and its documents: jobs that can start are then ordered with them,
and no stage that was ordered before is ordered again. A second form of the script runs without deadlines and purges, on a spool of version
1, which the checkpoint converts to a newer one.

The shell provides the listing of the table after a prefix, from a file that harness/journal.py writes. An event takes four calls, the last
of them the sync after its gate: if that one fails, the event is on the disk and was not acknowledged. A document that is read takes one. The
number of calls of a checkpoint is found by counting upwards.
"""
import os
import subprocess
import tempfile
from dataclasses import dataclass, replace

import pytest

from harness.checks import holds, LONGEST
from harness.files import write
from harness.journal import clock, close, image, Job, NEWEST, purge, Queue, send, stage, start
from harness.programs import SCRIPTS
from harness.stories import Spool

pytestmark = pytest.mark.needs("spool_scripts", "spool_shell")

SIZE = 4_096
OPENING = 4  # calls of the opening of a new spool
APPEND = 4  # calls of an event
T = "application/octet-stream"

LAB = Queue("lab", uri="spoolfile:/out", target=T)
HALL = Queue("hall", uri="s:/dev", policy="retry-job", interval=60, limit=3)
FIRST = Job(1, "lab", user="ann", title="First page")
SECOND = Job(2, "hall", user="bob", title="Two", copies=2, priority=80, options="collate=false note=a\\ b", by=2_000)
THIRD = Job(3, "lab", user="cyd", options="media=A4")
LATE = Job(4, "lab", user="cyd", by=1_999)
JOBS = {job.number: job for job in (FIRST, SECOND, THIRD)}
QUEUES = {queue.name: queue for queue in (LAB, HALL)}
DOCUMENTS = {1: "", 2: "hello", 3: "abc"}
MEDIA = {1: T, 2: "a/a", 3: T}
CONVERTED = "HELLO"


@dataclass(frozen=True)
class Child:
    """A child that is started: the stage of an attempt, its program, and its result."""

    job: int
    stage: int
    program: str
    end: str

    def order(self, finished):
        """The account's line about its order, after this number of other children have finished."""
        job = JOBS[self.job]
        queue = QUEUES[job.queue]
        words = [str(job.number), job.user, job.title, str(job.copies), job.options]
        given = f"bytes {CONVERTED}"
        if self.stage == 1:
            words.append(f"/r/in-{job.number}-1-1")
            given = f"document {DOCUMENTS[job.number]}"
        variables = ("CHARSET=utf-8", f"CONTENT_TYPE={MEDIA[job.number]}", "CUPS_FILETYPE=document", f"DEVICE_URI={queue.uri}",
                     f"FINAL_CONTENT_TYPE={queue.target}", "LANG=C", "PATH=/bin", f"PRINTER={queue.name}", "PRINTER_INFO=",
                     "PRINTER_LOCATION=", "TMPDIR=/r", "SPOOL_ATTEMPT=1", "SPOOL_SIDE=", f"SPOOL_STAGE={self.stage}")
        return (f"job {job.number} attempt 1 stage {self.stage} behind {finished}\n"
                f"{self.program} {quoted(words)}\nvariables {quoted(variables)}\n{given}\n")


def quoted(words):
    return " ".join('"' + word.replace("\\", "\\\\") + '"' for word in words)


FILTER = Child(2, 1, "filter f", f"exit 0\noutput 1 {CONVERTED}")
LAB_FIRST = Child(1, 1, "backend spoolfile", "exit 0")
BACKEND = Child(2, 2, "backend s", "exit 1")
LAB_THIRD = Child(3, 1, "backend spoolfile", "exit 0")

# The commands, their replies, and the steps of each in order: events, which are bytes, children that are started, documents that are read
# (READ), and the checkpoint.
CHECKPOINT = "checkpoint"
READ = "read"
STORY = (
    (f"queue lab spoolfile:/out {T} abort-job", "ok", [LAB.event()]),
    ('create lab ann "First page" 1 50 ""', "ok job 1", [FIRST.event()]),
    ("send 1 0\n", "ok bytes 0", [send(1, b"")]),
    ("close 1 page.txt", f"ok type {T} stages 1", [close(1, media=T)]),
    ("queue hall s:/dev a/b retry-job 60 3", "ok", [HALL.event()]),
    ("createby hall bob Two 2 80 \"nocollate note='a b'\" 2000", "ok job 2", [SECOND.event()]),
    ("send 2 5\nhello", "ok bytes 5", [send(2, b"hello")]),
    ("close 2 f.x", "ok type a/a stages 2", [READ, close(2, ["f"], media="a/a")]),
    ('create lab cyd "" 1 50 "media=A4"', "ok job 3", [THIRD.event()]),
    ("send 3 3\nabc", "ok bytes 3", [send(3, b"abc")]),
    ("close 3 p", f"ok type {T} stages 1", [READ, close(3, media=T)]),
    ('createby lab cyd "" 1 50 "" 1999', "ok job 4", [LATE.event()]),
    ("close 4 p", f"ok type {T} stages 1", [close(4, media=T)]),
    ("clock 2000", "ok", [clock(2_000)]),
    ("purge 4", "ok", [purge(4)]),
    ("round", "ok started 2 finished 2",
     [start(2), start(1), READ, FILTER, LAB_FIRST, stage(2, 1, 1, 0), stage(1, 1, 1, 0)]),
    ("checkpoint", "ok", [CHECKPOINT]),
    ("drain 3", "ok rounds 2", [start(3), BACKEND, READ, LAB_THIRD, stage(2, 1, 2, 1), stage(3, 1, 1, 0)]),
)
# The same without deadlines and without the purge, which version 1 does not have.
OLD_STORY = (
    *STORY[:5],
    ("create hall bob Two 2 80 \"nocollate note='a b'\"", "ok job 2", [replace(SECOND, by=None).event()]),
    *STORY[6:11],
    *STORY[15:],
)
STORIES = {NEWEST: STORY, 1: OLD_STORY}
AFTER = "jobs\nqueues\nround\njobs\n"


@dataclass
class Stopped:
    """The result of the script up to a call: the replies so far, the events that are on the disk, the children that were started with the
    number that had finished before each, and whether the disk failed.
    """

    replies: list
    events: list
    children: list
    failed: bool = True


def calls_of(step, checkpoint):
    """The number of calls of a step, given that of a checkpoint."""
    if isinstance(step, Child):
        return 0
    return {CHECKPOINT: checkpoint, READ: 1}.get(step, APPEND)


def calls_of_all(story, checkpoint=0):
    return OPENING + sum(calls_of(step, checkpoint) for _, _, steps in story for step in steps)


def stopped_at(story, call, checkpoint):
    """The result of the script if that call fails, counted from 0 at the opening."""
    done = Stopped([], [], [])
    left = call - OPENING
    finished = 0
    for number, (_, reply, steps) in enumerate(story):
        for step in steps:
            if isinstance(step, Child):
                done.children.append((step, finished))
                continue
            calls = calls_of(step, checkpoint)
            if left < calls:
                if isinstance(step, bytes) and left == APPEND - 1:
                    done.events.append(step)
                done.replies += ["error disk"] + ["error dead"] * (len(story) - number - 1)
                return done
            left -= calls
            if isinstance(step, bytes):
                done.events.append(step)
        finished = len(done.children)
        done.replies.append(reply)
    done.failed = False
    return done


def listed(folder, version, events):
    """The shell's replies to the last commands, on a spool whose journal has these events. It can start no child."""
    replies = Spool(folder, image(SIZE, events, version=version)).lines(AFTER.splitlines())
    return "".join(f"{line}\n" for line in replies)


def can_start(events):
    """The children of the jobs that the first round after an opening can start: for each queue the first job that was closed and never
    started.
    """
    first = {}
    for child in (FILTER, LAB_FIRST, LAB_THIRD):
        if is_closed(events, child.job) and start(child.job) not in events:
            first.setdefault(JOBS[child.job].queue, child)
    return [first[name] for name in sorted(first)]


def is_closed(events, job):
    return any(close(job, filters, media=MEDIA[job]) in events for filters in ([], ["f"]))


def write_case(folder, name, version, fuse, done, after):
    """A case of the stored scripts."""
    started, late = [child for child, _ in done.children], can_start(done.events)
    account = "the disk failed\n" if done.failed else ""
    account += "".join(child.order(finished) for child, finished in done.children)
    account += "".join(child.order(len(started)) for child in late)
    account += f"finished {len(started)}\n" if started else ""
    files = {
        "script": "".join(f"{command}\n" for command, _, _ in STORIES[version]) + "# reopen\n" + AFTER,
        "replies": "".join(f"{reply}\n" for reply in done.replies) + after,
        "types": "a/a x\n",
        "convs": "a/a a/b 10 f\n",
        "size": str(SIZE),
        "version": str(version),
        "children": "\n\n".join([child.end for child in started] + ["no start"] * len(late)) + "\n",
        "account": account,
        "fuse": fuse,
    }
    if not started + late:
        del files["children"]
    if version == NEWEST:
        # The spool remains as it was created.
        del files["version"]
    for kind, words in files.items():
        write(os.path.join(folder, f"{name}.{kind}"), words)


def served(folder):
    """The results of the stored scripts of a folder: those that pass, and the other lines."""
    done = subprocess.run([SCRIPTS, folder], capture_output=True, text=True, timeout=5 * LONGEST)
    lines = done.stdout.splitlines()
    return [line[:-3] for line in lines if line.endswith(" ok")], [line for line in lines if not line.endswith(" ok")]


def calls_of_checkpoint(folder, version):
    """The number of calls of the checkpoint: the least number that makes an event after it the first to fail."""
    story = STORIES[version]
    before = story[:[command for command, _, _ in story].index("checkpoint")]
    first = calls_of_all(before)
    room = tempfile.mkdtemp(dir=folder)
    done = stopped_at(story, first, 1)
    done.replies = [reply for _, reply, _ in before] + ["ok", "error disk"]
    done.events = []
    script = "".join(f"{command}\n" for command, _, _ in before) + "checkpoint\nclock 5\n"
    for calls in range(1, 100):
        name = f"c{calls:03}"
        write_case(room, name, version, f"{first + calls} {first + calls}\n", done, "")
        write(os.path.join(room, f"{name}.script"), script)
    passed, _ = served(room)
    holds(f"{len(passed)} numbers of calls for a checkpoint, in {room}", len(passed) == APPEND)
    return int(passed[0][1:])


@pytest.mark.parametrize("version", STORIES)
def test_each_call_of_the_disk_fails(version, room):
    """The script of a version is served with each of its calls stopped and failed."""
    story, checkpoint = STORIES[version], calls_of_checkpoint(room, version)
    events = [step for _, _, steps in story for step in steps if isinstance(step, bytes)]
    last = calls_of_all(story, checkpoint)
    after = {count: listed(room, version, events[:count]) for count in range(len(events) + 1)}
    cases = tempfile.mkdtemp(dir=room)
    for call in range(OPENING, last + 1):
        done = stopped_at(story, call, checkpoint)
        for kind, before in (("stop", ""), ("once", "once ")):
            write_case(cases, f"{kind}{call:03}", version, f"{before}{call} {call}\n", done, after[len(done.events)])
    passed, others = served(cases)
    holds(f"{others[0]}, in {cases}", len(others) == 1 and len(passed) == 2 * (last + 1 - OPENING))
