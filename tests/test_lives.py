"""Two hundred lives of one spool, with real children and kills of the shell at random moments.

Each life gets commands at random: new jobs for four queues, one of each error policy, some of them with a start deadline, rounds and drains
with real children, cancels, purges, clocks and checkpoints. The spool has version 1 at first, or the newest one, as the seed determines. A
life is killed at a random moment, whatever is in progress, and the next one opens the spool. Some jobs have two stages, a filter and a
backend. A backend ends as its job and its attempt determine: with success, with a failure, or with a request to be tried again.

Each child first copies the spool's file, and then writes its job, its attempt and its stage into one file, which it syncs before it does
anything else. So the following can be checked after the children of a killed life have ended too:

- No job, attempt and stage occurs twice, in all lives.
- No stage began before the start of its attempt was in the spool's file: the copy has it.
- No job whose end was acknowledged or listed begins again or is listed differently.
- No job begins an attempt after a clock that was acknowledged, if it waited and its start deadline had passed.
- Every acknowledged job is listed in all later lives, until it is purged, and no acknowledged cancel is lost.
- No job whose purge was acknowledged is listed again.

A kill does not lose data in the system's cache, so this shows nothing about a power cut. What the children do takes time, so a failure does
not always repeat with its seed, and Hypothesis could not find a smaller case.
"""
import os
import random
import signal
import threading
from pathlib import Path

import pytest

from harness import journal, spool_model as model
from harness.checks import Difference, holds
from harness.child_folder import Shell

pytestmark = pytest.mark.needs("spool_shell")


LIVES = 200
SIZE = 1_048_576
LONGEST = 0.6  # the seconds after its first reply within which a life is killed
OPENING = 0.2  # this share of the lives is killed within this many seconds of their start, many of them while they open
LEAST = 200  # fewer stages in all lives would test too little

QUEUES = {"abort": "abort-job", "later": "retry-job", "again": "retry-current-job", "stops": "stop-printer"}

# A child: its copy, its line, and then its work. The argument determines how long it takes and how it ends.
CHILD = """#!/bin/sh
cp "{root}/spool.disk" "{folder}/seen-$1-$SPOOL_ATTEMPT-$SPOOL_STAGE"
echo "$1 $SPOOL_ATTEMPT $SPOOL_STAGE" >>"{folder}/begun"
sync "{folder}/begun"
sleep 0.0$(( ($1 + SPOOL_ATTEMPT) % 4 ))
"""
FILTER = CHILD + """cat ${{6:+"$6"}}
"""
BACKEND = CHILD + """case $(( ($1 + 2 * SPOOL_ATTEMPT) % 5 )) in
1) exit 6;;
2) exit 7;;
3) exit 1;;
*) exit 0;;
esac
"""

CREATE, START, ROW = 0x05, 0x0C, 0x42


def attempts_in(content):
    """The number of attempts that a spool's file has for each job: those in its row, and the starts after it."""
    found, version = {}, journal.current_version(content)
    for payload in journal.current(content)[0]:
        if payload[0] == ROW:
            row = model.read_row(payload, version)
            found[row.number] = row.attempts
        elif payload[0] == START:
            number = int.from_bytes(payload[1:5], "big")
            found[number] = found.get(number, 0) + 1
    return found


class Life(Shell):
    """A running shell, which is killed."""

    killer = None

    def is_killed_after(self, seconds):
        self.killer = threading.Timer(seconds, self.child.send_signal, [signal.SIGKILL])
        self.killer.start()

    def asks(self, text):
        """The lines of the reply to a command; none if it was killed first."""
        try:
            self.give(text)
        except BrokenPipeError:
            return []
        lines = []
        while not lines or lines[-1].startswith(("job ", "queue ")):
            line = self.line()
            if not line.endswith("\n"):
                return []
            lines.append(line.rstrip("\n"))
        return lines


class Story:
    """The acknowledged commands and jobs of all lives."""

    def __init__(self, folder, chance):
        self.folder = folder
        self.chance = chance
        self.answered = 0  # the highest job number in a reply
        self.canceled = set()
        self.purged = set()  # the jobs whose purge was acknowledged
        self.purging = set()  # these, and the jobs whose purge was requested
        self.ended = {}  # with the number of begun stages when its end was seen
        self.shown = {}  # for jobs that were listed as ended, their state
        self.moment = 0
        self.by = {}  # for jobs with a start deadline, that moment
        self.late = 0  # the number of jobs that were listed as canceled after a clock that was acknowledged
        self.checked = 0  # the begun stages that were checked

    def begun(self):
        """The stages that children have begun, in order."""
        return [tuple(map(int, line.split())) for line in self.folder.read("begun").splitlines()]

    def sees_end(self, number):
        self.ended.setdefault(number, len(self.begun()))

    def hears_jobs(self, lines):
        """A listing of the jobs."""
        shown = {int(line.split()[1]): tuple(line.split()[3:5]) for line in lines[:-1]}
        listed = {number: words[0] for number, words in shown.items()}
        for number in range(1, self.answered + 1):
            holds(f"job {number} was acknowledged and is not listed", number in listed or number in self.purging)
        for number in self.purged & set(listed):
            raise Difference(f"job {number} was purged and is in state {listed[number]}")
        for number in self.canceled & set(listed):
            holds(f"job {number} was canceled and is in state {listed[number]}", listed[number] == "7")
        for number, before in self.shown.items():
            holds(f"job {number} had ended as {before} and is listed as {shown.get(number)}", shown.get(number, before) == before)
        for number, state in listed.items():
            if state in "789":
                self.sees_end(number)
                self.shown.setdefault(number, shown[number])
        return listed

    def live(self):
        """One life, from its opening to its kill."""
        life = Life(self.folder.words(), self.folder.path)
        try:
            if self.chance.random() < OPENING:
                life.is_killed_after(self.chance.random() * OPENING)
            listed = self.hears_jobs(lines) if (lines := life.asks("jobs\n")) else None
            if life.killer is None:
                life.is_killed_after(self.chance.random() * LONGEST)
            while listed is not None and self.acts(life, listed):
                pass
        finally:
            complaints = (life.end() if life.killer else life.kill())[1]
        holds(f"it wrote {complaints!r}", all(line.startswith("spool: job ") for line in complaints.splitlines()))
        self.folder.until_no_child_runs()
        self.check_stages()

    def acts(self, life, listed):
        """One command or a few. Returns whether their replies arrived."""
        chance = self.chance.random()
        if chance < 0.35:
            return self.makes_a_job(life)
        if chance < 0.65:
            return bool(life.asks(self.chance.choice(("round\n", "round\n", "drain 3\n"))))
        if chance < 0.73 and listed:
            return self.cancels(life, self.chance.choice(list(listed)))
        if chance < 0.78 and listed:
            return self.purges(life, self.chance.choice(list(listed)))
        if chance < 0.86:
            return self.sets_the_clock(life) and bool(life.asks("enable stops\n"))
        if chance < 0.92:
            return bool(life.asks("checkpoint\n"))
        lines = life.asks("jobs\n")
        return bool(lines) and bool(self.hears_jobs(lines))

    def sets_the_clock(self, life):
        """The clock advances. Jobs that wait then, and whose deadline has passed, are canceled and checked to have ended."""
        before = life.asks("jobs\n")
        if not before:
            return False
        self.hears_jobs(before)
        self.moment += self.chance.randrange(40)
        if not life.asks(f"clock {self.moment}\n"):
            return False
        waiting = [int(line.split()[1]) for line in before[:-1] if line.split()[4] in ("none", "retry-later")]
        for number in waiting:
            if self.by.get(number, self.moment) < self.moment:
                self.canceled.add(number)
                self.sees_end(number)
                self.late += 1
        return True

    def makes_a_job(self, life):
        queue = self.chance.choice(list(QUEUES))
        target = "b/b" if queue in ("again", "abort") else "a/a"
        if not life.asks(f"queue {queue} slow:/x {target} {QUEUES[queue]} 20 3\n"):
            return False
        by = self.moment + self.chance.randrange(-5, 60) if self.chance.random() < 0.3 else None
        is_timed = by is not None and by >= 0
        made = life.asks(f'createby {queue} ann "" 1 50 "" {by}\n' if is_timed else f'create {queue} ann "" 1 50 ""\n')
        if not made:
            return False
        if made[0] in ("error full", "error 17 NeedsCheckpoint"):
            return bool(life.asks("checkpoint\n"))
        number = int(made[0].removeprefix("ok job "))
        if is_timed:
            self.by[number] = by
        self.answered = max(self.answered, number)
        return bool(life.asks(f"send {number} 3\nabc\n")) and bool(life.asks(f"close {number} page.txt\n"))

    def cancels(self, life, number):
        replies = life.asks(f"cancel {number}\n")
        if replies == ["ok"]:
            self.canceled.add(number)
            self.sees_end(number)
        return bool(replies)

    def purges(self, life, number):
        """A command without a reply may have been executed. Then the next one finds no job."""
        was_asked = number in self.purging
        self.purging.add(number)
        replies = life.asks(f"purge {number}\n")
        if replies == ["ok"] or was_asked and replies == ["error 5 NoJob"]:
            self.purged.add(number)
            self.sees_end(number)
        elif replies:
            self.purging.discard(number)
        return bool(replies)

    def check_stages(self):
        """The stages that the children of the life have begun."""
        begun = self.begun()
        if len(set(begun)) != len(begun):
            raise Difference(f"begun twice: {sorted(key for key in set(begun) if begun.count(key) > 1)}")
        for place, (number, attempt, stage) in enumerate(begun[self.checked:], self.checked):
            holds(f"job {number} had ended, and attempt {attempt} begins stage {stage}", place < self.ended.get(number, place + 1))
            seen = self.folder.at(f"seen-{number}-{attempt}-{stage}")
            attempts = attempts_in(Path(seen).read_bytes())
            if attempts.get(number, 0) != attempt:
                raise Difference(f"attempt {attempt} at job {number} begins stage {stage}, and the file has {attempts.get(number, 0)} starts")
            os.remove(seen)
        self.checked = len(begun)


def test_lives_of_one_spool(child_folder, seed):
    folder, chance = child_folder, random.Random(seed)
    folder.size = SIZE
    for kind, name, text in (("filter", "first", FILTER), ("backend", "slow", BACKEND)):
        folder.program(kind, name, text.format(root=folder.at("spool"), folder=folder.path))
    folder.write("begun", "")
    if chance.random() < 0.5:
        Path(folder.at("spool/spool.disk")).write_bytes(journal.image(SIZE, version=1))
    story = Story(folder, chance)
    for turn in range(LIVES):
        print(f"life {turn + 1}")
        story.live()
    counts = f"{len(story.canceled)} jobs, {story.late} of them after their deadline, and purged {len(story.purged)}"
    holds(f"it began {story.checked} stages and canceled {counts}, which tests too little",
          story.checked >= LEAST and story.canceled and story.late and story.purged)
