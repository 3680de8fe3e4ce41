"""Each allocation of a script is refused, over a disk and children in memory.

The program of the stored scripts runs with the library of harness/count_allocations.c, and serves one script: two queues, two jobs with
documents and options, one of them with a start deadline, `round`, `checkpoint`, `drain 3`. The first allocation after that of the disk is
refused, in a further run the second, and so on until none is. Then the spool is opened again.

The program reports one difference from the expected output at a time. So the result of a script is found by expecting the last report.

- A command of one event, or a checkpoint, that gets `error memory` did nothing: the rest is as without that command. When it is repeated it
  gets its reply, and the rest is as without a refusal.
- After a round or a drain that gets `error memory` a stage of one of the two jobs has ended. Only if memory ran out for the lists of a pass
  did none, for at most LISTED allocations. Further rounds start no stage a second time, and at most one job ends differently than without a
  refusal.
- A run that ends because memory ran out may have acknowledged the events of one command without its reply. Further runs of the same engine
  reply as after that command, or as without it.
"""
import os
import re
import shutil
import subprocess
import tempfile
from dataclasses import dataclass

import pytest

from harness.allocations import counted, variables_for
from harness.checks import Difference, holds, LONGEST
from harness.files import write
from harness.programs import SCRIPTS

pytestmark = pytest.mark.needs("gcc", "plain spool_scripts")


# The greatest number of differences of a script, each of a line.
MOST_LOOKS = 1_000

# The length of the disk: no other allocation of the program has exactly this size.
SIZE = 20_011

# The greatest number of allocations of a round that are those of its lists: the queues that start nothing, twice, the jobs, the jobs
# without a running child, and the chosen jobs.
LISTED = 5

TYPES = "a/a x\n"
CONVS = "a/a a/b 10 f\n"
# Each child prints a page, so that a listing shows how many stages of a job were ended.
CHILD = "exit 0\noutput 1 CONVERTED\nline 1 PAGE: 1 1\nline 1 STATE: +toner-low-report\nline 1 ATTR: marker-levels=90"
CHILDREN = 12

# The commands, each with a reply of one line.
STORY = [
    "queue lab s:/0 a/b retry-job",
    "queue hall s:/0 a/b retry-job",
    'create lab ann "First page" 1 50 "media=A4"',
    "send 1 5\nhello",
    "close 1 page.x",
    "createby hall bo \"Second\" 2 60 \"nocollate note='a b'\" 5000",
    "send 2 7\nothers,",
    "close 2 page.x",
    "clock 5000",
    "round",
    "checkpoint",
    "drain 3",
]
ROUNDS = [place for place, command in enumerate(STORY) if command in ("round", "drain 3")]
LISTS = ["jobs", "queues"]
AGAIN = ["round", "round", "round", "round"]
CUT = "# reopen"
RUN = "# run"

MEMORY = "error memory"
NO_RUN = "a run ran out of memory"
FIRST_WAY = ", at once"
DIFFERS = re.compile(r"case differs at line (\d+)( of its account)?: wanted (.*), got (.*)" + FIRST_WAY)
ELSEWHERE = re.compile(r"case (ok|differs at line .*)")
# The program that serves the script ran out of memory, or the opening did: then nothing is served.
NO_WRITER = "the writer failed"
NO_HARNESS = re.compile(r"case (runs out of memory|cannot be opened: Memory|cannot be opened: NoMemory)")
ORDER = re.compile(r"job (\d+) attempt (\d+) stage (\d+) behind \d+")


@dataclass
class Result:
    """The result of a script."""

    replies: list
    account: list

    def stages(self):
        """The stages in the orders."""
        return [found.groups() for found in map(ORDER.fullmatch, self.account) if found]

    def without_run(self):
        """The same without the ends of runs."""
        return Result(self.replies, [line for line in self.account if line != NO_RUN])


def unescaped(text):
    return text.encode("latin-1").decode("unicode_escape")


def mend(lines, place, got):
    """The next expected output, after this line was reported in this position: an empty line means that nothing follows."""
    if not got:
        return lines[:place]
    later = lines.index(got, place + 1) if got in lines[place + 1:] else None
    return lines[:place] + (lines[later:] if later is not None else [got, *lines[place:]])


class Bench:
    """Serves scripts, each in a folder of its own."""

    def __init__(self, program, folder):
        self.program = program
        self.folder = folder

    def case(self, script):
        """A folder with the case of a script, without the expected output."""
        room = tempfile.mkdtemp(dir=self.folder)
        os.mkdir(os.path.join(room, "cases"))
        children = "\n\n".join([CHILD] * CHILDREN)
        write_case(room, script="".join(f"{line}\n" for line in script), types=TYPES, convs=CONVS, size=str(SIZE), children=f"{children}\n")
        return room

    def serve(self, room, wanted, refused):
        """The program's output for the case, with this expected output, and the number of its allocations."""
        write_case(room, replies="".join(f"{line}\n" for line in wanted.replies), account="".join(f"{line}\n" for line in wanted.account))
        log = os.path.join(room, "counted")
        environment = {"FROM": str(SIZE), **variables_for(log, refused)}
        words = [self.program, os.path.join(room, "cases")]
        done = subprocess.run(words, capture_output=True, text=True, env=environment, timeout=LONGEST)
        count, _ = counted(log)
        os.remove(log)
        return done.stdout.split("\n")[0], count

    def result_of(self, script, refused=0, first=Result([], [])):
        """The result of a script with an allocation refused; None if it was not served because memory ran out. The search begins with the
        known part of it.
        """
        room = self.case(script)
        result = Result(list(first.replies), list(first.account))
        for _ in range(MOST_LOOKS):
            line, _ = self.serve(room, result, refused)
            found = DIFFERS.fullmatch(line)
            if not found:
                holds(f"{line!r} in {room}", ELSEWHERE.fullmatch(line) or NO_HARNESS.fullmatch(line))
                shutil.rmtree(room)
                return None if NO_HARNESS.fullmatch(line) or NO_WRITER in result.account else result
            place, got = int(found[1]) - 1, unescaped(found[4])
            if found[2]:
                result.account = mend(result.account, place, got)
            else:
                result.replies = mend(result.replies, place, got)
        raise Difference(f"no end of differences, in {room}")

    def count(self, script):
        """The number of allocations of a script that is served once."""
        room = self.case(script)
        _, count = self.serve(room, Result(["no reply"], []), 0)
        shutil.rmtree(room)
        return count


def write_case(room, **files):
    for ending, text in files.items():
        write(os.path.join(room, "cases", f"case.{ending}"), text)


# ---- scripts

def in_one_run(commands):
    return [*commands, CUT, *LISTS, *AGAIN, *LISTS]


def in_runs(commands):
    return [line for command in commands for line in (command, RUN)] + in_one_run([])


def with_rounds(place):
    """The script with the jobs listed after a command, and with further rounds."""
    return in_one_run([*STORY[: place + 1], "jobs", *AGAIN, *STORY[place + 1:]])


def without(place):
    return [*STORY[:place], *STORY[place + 1:]]


def given_twice(place):
    return [*STORY[: place + 1], *STORY[place:]]


def with_line(result, place, line):
    return Result([*result.replies[:place], line, *result.replies[place:]], result.account)


def job_lines(replies):
    return [line for line in replies if line.startswith("job ")]


def pages_in(replies):
    """The number of pages of each listed job: one for each stage that was ended."""
    return [int(re.fullmatch(r'job .* "\w+" \d+ (\d+) ".*"', line)[1]) for line in job_lines(replies)]


# ---- the required results

class Trial:
    """All trials of the script in one form, and its result without a refusal."""

    def __init__(self, bench):
        self.bench = bench
        self.usual = bench.result_of(in_one_run(STORY))
        self.runs = bench.result_of(in_runs(STORY), first=self.usual)
        self.shorter = [bench.result_of(in_one_run(without(place)), first=self.usual) for place in range(len(STORY))]
        self.before = {place: bench.result_of(STORY[:place] + ["jobs"], first=self.usual) for place in ROUNDS}
        self.rounds = {place: bench.result_of(with_rounds(place), first=self.usual) for place in ROUNDS}
        holds(f"usually {self.usual.replies}", all(line.startswith("ok") for line in self.usual.replies[: len(STORY)]))
        holds(f"in runs {self.runs}, not {self.usual}", self.runs == self.usual)

    def check_stages(self, result):
        """No stage was ordered twice, and at most one job ended differently than usual."""
        stages = result.stages()
        holds(f"a stage was ordered twice: {stages}", len(stages) == len(set(stages)))
        usual = job_lines(self.usual.replies)[-2:]
        other = [line for line in job_lines(result.replies)[-2:] if line not in usual]
        holds(f"more than one job ended differently: {other}", len(other) <= 1)

    def one_run(self, refused):
        """A script in one run. Returns whether an allocation was refused that this form tests."""
        result = self.bench.result_of(in_one_run(STORY), refused, self.usual)
        if result is None or NO_RUN in result.account:
            return False
        replies = result.replies[: len(STORY)]
        if MEMORY not in replies:
            self.check_stages(result)
            return result != self.usual
        place = replies.index(MEMORY)
        if place in ROUNDS:
            return False
        wanted = with_line(self.shorter[place], place, MEMORY)
        holds(f"{STORY[place]!r} got the reply {MEMORY}, followed by {result}, not {wanted}", result == wanted)
        again = self.bench.result_of(in_one_run(given_twice(place)), refused, with_line(self.usual, place, MEMORY))
        holds(f"{STORY[place]!r} repeated: {again}", again == with_line(self.usual, place, MEMORY))
        return True

    def rounds_again(self, place, refused):
        """A round or a drain with further ones: whether no stage was ended by it, and None if it had its memory."""
        result = self.bench.result_of(with_rounds(place), refused, self.rounds[place])
        if result is None or result.replies[place:place + 1] != [MEMORY]:
            return None
        self.check_stages(result)
        before = pages_in(self.before[place].replies)
        return pages_in(result.replies)[: len(before)] == before

    def further_runs(self, refused):
        """A script in a run for each command. Returns whether a run ended."""
        result = self.bench.result_of(in_runs(STORY), refused, self.runs)
        if result is None or NO_RUN not in result.account:
            return False
        usual = self.usual
        done = [Result([*usual.replies[:place], *usual.replies[place + 1:]], usual.account) for place in range(len(STORY))]
        done += [Result(usual.replies[:place], usual.account) for place in range(len(STORY), len(usual.replies))]
        holds(f"a run ended, followed by {result}", result.without_run() in [*done, *self.shorter])
        return True


@pytest.fixture
def trial(memory_room):
    return Trial(Bench(SCRIPTS, memory_room))


def tried(task, script, bench, *words):
    """The results of a trial for each allocation of a script, in order: the first that fails is the smallest."""
    for number in range(1, bench.count(script) + 1):
        print(f"allocation {number} refused")
        yield task(*words, number)


def test_commands_in_one_run(trial):
    holds("some are refused", sum(tried(trial.one_run, in_one_run(STORY), trial.bench)))


@pytest.mark.parametrize("place", ROUNDS)
def test_further_rounds(trial, place):
    seen = [idle for idle in tried(trial.rounds_again, with_rounds(place), trial.bench, place) if idle is not None]
    holds(f"{sum(seen)} refusals kept both queues unchanged in {STORY[place]!r}", sum(seen) <= LISTED)
    holds("some are refused", seen)


def test_further_runs(trial):
    holds("some are refused", sum(tried(trial.further_runs, in_runs(STORY), trial.bench)))
