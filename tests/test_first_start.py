"""Several shells that start at once on a fresh folder, whose jobs must all survive.

A trial starts 2, 4 or 8 of them together in one fresh folder, a hundred trials for each number, with spools of several sizes. Each program
creates the queue, if necessary, and ten jobs whose titles contain program and number. In every second trial the input of all stays open
until each program has replied or ended, so exactly one of them must own the folder. In the others it ends at once, so one may own the
folder after another.

Each program either replies to all its commands, or ends with status 1, sends no reply, and writes `spool: disk` and its cause `owned` to
standard error. One more start must list exactly the jobs that were acknowledged, each by its number and with its title, and the folder must
have only the spool's file and its lock file. With FIRST_START_FOLDERS in the
environment the folder is on these mounts of one volume; test_failover.py has two.
"""
import contextlib
import os
import re
import shutil
import subprocess
import tempfile

import pytest

from harness.checks import Difference, holds, words_of_faults
from harness.child_folder import Shell
from harness.programs import SHELL

pytestmark = pytest.mark.needs("spool_shell")


# The mounts of one volume, as several hosts have it. The fresh folder is in all, and the programs are distributed over them.
FOLDERS = os.environ.get("FIRST_START_FOLDERS", "").split()

COUNTS = (2, 4, 8)
TRIALS = 100  # for each of these counts
JOBS = 10

# The spool's size in bytes for each number of programs, with room for all their jobs; None is the default.
SIZES = {2: (4_096, 10_000, 65_536, None), 4: (8_192, 65_537, 300_000, None), 8: (16_384, 40_001, 1_000_000, None)}

# Waits for a line of its input, and then runs the program.
GATE = 'read -r open && exec "$@"'

QUEUE = "queue lab spoolfile:/out application/octet-stream abort-job\n"
LISTED = re.compile(r'job (\d+) lab 4 job-incoming "ann" 0 0 "(.*)"')


def title(program, number):
    return f"program {program} job {number}"


def script(program):
    """The commands of one program."""
    return QUEUE + "".join(f'create lab ann "{title(program, number)}" 1 50 ""\n' for number in range(JOBS))


class Program(Shell):
    """A program that waits for its gate to open."""

    def __init__(self, root, name, size):
        super().__init__(["sh", "-c", GATE, "sh", SHELL, "--root", "."] + (["--size", str(size)] if size else []), root)
        self.name = name
        self.replies = []

    def give(self, text):
        """Writes the text to it, unless the program has ended."""
        with contextlib.suppress(BrokenPipeError):
            super().give(text)

    def end_input(self):
        with contextlib.suppress(BrokenPipeError):
            self.child.stdin.close()

    def has_answered(self):
        """Whether it replies; otherwise it has ended."""
        line = self.line()
        self.replies += [line] if line else []
        return bool(line)

    def end(self):
        """Its last replies, its error messages and its status."""
        left, errors = super().end()
        self.replies += left.splitlines()
        self.complaints, self.status = words_of_faults(errors), self.child.returncode

    def jobs(self):
        """The job numbers in its replies, with the titles that it sent."""
        if self.status == 1 and self.complaints == "spool: disk\nspool: cause: owned\n" and not self.replies:
            return []
        queue, *created = [line.rstrip("\n") for line in self.replies] or [""]
        numbers = [re.fullmatch(r"ok job (\d+)", line) for line in created]
        whole = queue in ("ok", "error 2 QueueExists") and len(numbers) == JOBS and all(numbers)
        if self.status != 0 or self.complaints or not whole:
            raise Difference(
                f"program {self.name} ended with {self.status}, wrote {self.complaints!r} and answered {self.replies}"
            )
        return [(int(found[1]), title(self.name, number)) for number, found in enumerate(numbers)]


def started(root, count, size, held, folders):
    """The given number of programs, started together, after all have ended."""
    programs = [Program(seen_by(name, root, folders), name, size) for name in range(count)]
    try:
        for program in programs:
            program.give("open\n")
        for program in programs:
            program.give(script(program.name))
            if not held:
                program.end_input()
        owners = [program.name for program in programs if program.has_answered()]
        holds(f"the programs {owners} answered, not one", not held or len(owners) == 1)
        for program in programs:
            program.end_input()
        for program in programs:
            program.end()
    finally:
        for program in programs:
            program.child.kill()
            program.child.wait()
    return programs


def seen_by(number, root, folders):
    """The folder as the host of this number has it: the hosts alternate, each with a mount of the same volume."""
    return os.path.join(folders[number % len(folders)], os.path.basename(root)) if folders else root


def listing(root):
    """The jobs that one more start lists, with their titles."""
    words = [SHELL, "--root", "."]
    done = subprocess.run(words, cwd=root, input="jobs\n", capture_output=True, text=True)
    *rows, last = done.stdout.splitlines() or [""]
    found = [LISTED.fullmatch(row) for row in rows]
    if done.returncode != 0 or done.stderr or not all(found) or last != f"ok {len(rows)}":
        raise Difference(f"the next start ended with {done.returncode}, {done.stderr!r} and answered {done.stdout!r}")
    return [(int(row[1]), row[2]) for row in found]


def trial(root, count, size, held, folders=()):
    """Programs in one folder, and its contents afterwards."""
    answered = sorted(job for program in started(root, count, size, held, folders) for job in program.jobs())
    listed = listing(root)
    holds(f"listed {listed}, answered {answered}", answered and listed == answered)
    holds(f"numbers are given twice or left out: {listed}", [number for number, _ in listed] == list(range(1, len(listed) + 1)))
    holds(f"the folder has {os.listdir(root)}", sorted(os.listdir(root)) == ["spool.disk", "spool.lock"])


@pytest.mark.parametrize("held", [True, False], ids=["input held", "input ended"])
@pytest.mark.parametrize("count", COUNTS)
def test_programs_on_a_fresh_folder(count, held, room):
    for turn in range(TRIALS // 2):
        root = tempfile.mkdtemp(dir=FOLDERS[0] if FOLDERS else room)
        trial(root, count, SIZES[count][turn % 4], held, FOLDERS)
        shutil.rmtree(root)
