"""Each allocation of the running shell is refused in turn, with real children on a real file.

The shell runs with the library of harness/count_allocations.c, and serves one script, command by command: two queues, two jobs with documents
and options, one of them with a start deadline, `round`, `checkpoint`, `drain 3`. Its first allocation is refused, in a further run the
second, and so on until none is. The allocations of the children are not refused.

- A command of one event, or a checkpoint, that gets `error memory` leaves each byte of the file unchanged, and gets its reply when it is
  repeated. The table in the file, which the model of harness/spool_model.py reads, is the one after the acknowledged commands.
- A round or a drain that gets `error memory` is repeated until one is idle: a stage whose end could not be stored is not started a second
  time. In the round itself everything worked for at least one of the two queues. Only if memory ran out for one of the lists that a pass
  reserves first did it do nothing at all; that may be so for at most LISTS allocations of a round.
- A stage that runs out of memory in the launcher ends as one that could not be started or whose end is not known, so at most one job ends
  differently than without a refusal.
- A program that ends does so with `spool: memory` and status 1, and has sent no wrong reply. The file has everything that was acknowledged,
  and at most the command in progress besides.
- The spool is opened again and the jobs are printed to their end: no stage of an attempt runs twice, and no job that had ended.
"""
import os
import shutil

import pytest

from harness import real_children, spool_model as model
from harness.allocations import counted, variables_for
from harness.checks import holds
from harness.child_folder import Shell

pytestmark = pytest.mark.needs("gcc", "plain spool_shell")

# The tests, each of which refuses every so many allocations.
PARTS = 4
SIZE = 16_384

# The greatest number of allocations of a round that are those of its lists.
LISTS = 5

# The commands, each with its reply. The spool is created while the first waits.
SCRIPT = [
    ("jobs\n", "ok 0"),
    ("queue lab s:/0 a/b retry-job\n", "ok"),
    ("queue hall s:/0 a/b retry-job\n", "ok"),
    ('create lab ann "First page" 1 50 "media=A4"\n', "ok job 1"),
    ("send 1 5\nhello\n", "ok bytes 5"),
    ("close 1 page.x\n", "ok type a/a stages 2"),
    ("createby hall bo \"Second\" 2 60 \"nocollate note='a b'\" 90000\n", "ok job 2"),
    ("send 2 7\nothers,\n", "ok bytes 7"),
    ("close 2 page.x\n", "ok type a/a stages 2"),
    ("clock 1000\n", "ok"),
    ("round\n", "ok started 2 finished 2"),
    ("checkpoint\n", "ok"),
    ("drain 3\n", "ok rounds 2"),
]
ROUNDS = ("round\n", "drain 3\n")
JOBS = (1, 2)
MEMORY = "error memory"
IDLE = "ok started 0 finished 0"

# How a job of this script ends, also if the launcher ran out of memory: in a filter, or in the backend.
ENDED_WELL = "completed"
ENDED_ILL = ("aborted", "waiting")


class Ended(Exception):
    """The program ended instead of replying."""


class Run(real_children.ShellFolder):
    """A run with a refused allocation, in a folder of its own."""

    def __init__(self, folder, refused):
        super().__init__(folder, SIZE)
        self.log = os.path.join(folder, "counted")
        self.environment = {"PATH": "/bin", **variables_for(self.log, refused)}
        self.started = []

    def begin(self):
        self.shell = Shell(self.words, env=self.environment)

    def give(self, text):
        """The reply to a command, one line."""
        try:
            self.shell.give(text)
        except BrokenPipeError:
            raise Ended from None
        line = self.shell.line()
        if not line:
            raise Ended
        return line.rstrip("\n")

    def end(self):
        """Its output after the last reply, its standard error and its status."""
        left, errors, status = self.shell.finish()
        return left, real_children.faults_in(errors), status

    def take_stages(self):
        """The stages that were started since the last call."""
        stages = self.children.stages()
        self.started += stages
        return stages


# ---- one command

def is_through(job, before):
    """Whether a job's stage was ended in a round, and its end acknowledged."""
    return job.phase != "processing" or job.stage > before


def check_hindered(run, before):
    """After a round that ran out of memory: everything worked for one of the queues. Returns whether it did nothing at all."""
    stages = run.take_stages()
    table = run.table()
    if not stages and table.listing() == before.listing():
        return True
    stage = {number: before.jobs[number].stage for number in JOBS}
    through = [number for number in JOBS if is_through(table.jobs[number], stage[number])]
    holds(f"a round that ran out of memory ended no stage: {table.jobs_reply()}, started {stages}", through)
    return False


def serve_rounds(run, text):
    """Rounds until one is idle, after a first one. Returns whether that did nothing."""
    before = run.table()
    run.take_stages()
    got = run.give(text)
    is_idle = got == MEMORY and check_hindered(run, before)
    while got == MEMORY:
        got = run.give("round\n")
        while text != "round\n" and got not in (MEMORY, IDLE):
            got = run.give("round\n")
    holds(f"{text!r} got the reply {got!r}", got.startswith("ok "))
    return is_idle


def serve_event(run, text, reply):
    """A command of one event, or a checkpoint, which is repeated if it runs out of memory."""
    before = run.content()
    got = run.give(text)
    if got == MEMORY:
        holds(f"{text!r} got the reply {MEMORY}, and the file has changed", run.content() == before or text == "jobs\n")
        got = run.give(text)
    holds(f"{text!r} got the reply {got!r}, not {reply!r}", got == reply)


# ---- one run

def check_end(run):
    """Serves the script, as far as the program runs. Returns how many commands got replies, whether a round did nothing, and whether the
    program continued to the end of its input.
    """
    answered, idle = 0, False
    try:
        run.begin()
        for text, reply in SCRIPT:
            if text in ROUNDS:
                idle |= serve_rounds(run, text)
            else:
                serve_event(run, text, reply)
            answered += 1
    except Ended:
        left, errors, status = run.end()
        holds(f"it ended with {status} and {errors!r}", (errors, status) == ("spool: memory\n", 1))
        return answered, idle, False
    left, errors, status = run.end()
    if status == 0:
        holds(f"it wrote {errors!r}", not errors)
        return answered, idle, True
    holds(f"it ended with {status}, {errors!r} and {left!r}", (left, errors, status) == ("", "spool: memory\n", 1))
    return answered, idle, True


def check_tables(run, tables, answered, is_whole):
    """The table in the file is the one after the acknowledged commands, or also after the next one if the program ended there. For rounds
    only the jobs are compared.
    """
    first_round = next(at for at, (text, _) in enumerate(SCRIPT) if text in ROUNDS)
    if answered >= first_round:
        return
    fitting = tables[answered:answered + (1 if is_whole else 2)]
    holds(f"the file has {run.table().jobs_reply()}", run.table().listing() in [table.listing() for table in fitting])


def check_jobs(table):
    """At most one of the two jobs failed."""
    jobs = [table.jobs[number] for number in JOBS]
    well = [job for job in jobs if job.phase == ENDED_WELL]
    ill = [job for job in jobs if job.phase in ENDED_ILL]
    holds(f"the jobs have ended with {table.jobs_reply()}", len(well) + len(ill) == len(jobs) and len(ill) <= 1)


def check_again(run):
    """The spool is opened again, and printed to its end."""
    ended = run.ended()
    before = len(run.started) + len(run.take_stages())
    run.serve(b"clock 5000\ndrain 9\nclock 9000\ndrain 9\njobs\n")
    run.take_stages()
    again = [key for key in run.started[before:] if key[0] in ended] + [key for key in run.started if run.started.count(key) > 1]
    holds(f"stages ran again, or of a job that had ended: {again}", not again)


def check(tables, run):
    """One run. Returns whether an allocation was refused, and whether a round did nothing."""
    answered, idle, is_whole = check_end(run)
    run.take_stages()
    check_tables(run, tables, answered, is_whole)
    if answered == len(SCRIPT):
        check_jobs(run.table())
    check_again(run)
    is_refused = counted(run.log)[1] if os.path.exists(run.log) else True
    shutil.rmtree(run.folder)
    return is_refused, idle


def usual(room):
    """The number of allocations of a run, and the tables before and after each command."""
    run = Run(room, 0)
    run.begin()
    tables = [model.Table()]
    for text, reply in SCRIPT:
        got = run.give(text)
        holds(f"{text!r} got the reply {got!r}, not {reply!r}", got == reply)
        tables.append(run.table())
    holds("the run without a refusal fails", run.end() == ("", "", 0))
    stages = sorted(run.take_stages())
    holds(f"the run without a refusal starts {stages}", stages == [(job, 1, stage) for job in JOBS for stage in (1, 2)])
    check_jobs(run.table())
    holds("the run without a refusal leaves jobs", all(run.table().jobs[number].phase == ENDED_WELL for number in JOBS))
    count, _ = counted(run.log)
    shutil.rmtree(room)
    return count, tables


@pytest.mark.parametrize("part", range(PARTS))
def test_each_allocation_is_refused(part, memory_room, is_long):
    """In parts, so that they can run side by side. Usually every fourth allocation is refused."""
    passed, idle = 0, 0
    count, tables = usual(os.path.join(memory_room, "0"))
    for number in range(1 + part, count + 1, PARTS if is_long else 4 * PARTS):
        print(f"allocation {number} of {count} refused, in {memory_room}/{number}")
        is_refused, did_nothing = check(tables, Run(os.path.join(memory_room, str(number)), number))
        passed += is_refused
        idle += did_nothing
    rounds = sum(text in ROUNDS for text, _ in SCRIPT)
    holds(f"{idle} refusals kept a round from doing anything, in {rounds} rounds", idle <= LISTS * rounds)
    holds("some are refused", passed)
