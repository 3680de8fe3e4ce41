"""The allocations of the built programs, counted, and each refused in turn.

No contract clause can say that a call allocates nothing, nor specify its result after one of its allocations was refused. Programs run with
the library of harness/count_allocations.c:

- Calls that must not allocate. A test may print `begin NAME` before such a call and `end NAME` after it, and no allocation may occur
  between the two.
- The tests of CRATES, with their first allocation refused, then with their second, and so on. Each must end with an error that reports this
  refusal. Any other end means that an answer changed because of the refusal. Some tests compare such an answer themselves (BY_ANSWER):
  their own assertion fails then. If std retries with a smaller size, nothing changes, here and in a script.
- The stored scripts of crates/spool_scripts/data that need no simulated children, disk or limits, served by the shell. Between the first
  write of an event and its last sync nothing is allocated, and from there to the reply only the reply is.
- Some of these scripts with each allocation refused in turn. A command that runs out of memory gets `error memory`, and all other replies
  are those to the script without that command; or the program replies to all earlier commands and ends with `spool: memory`. A start that
  runs out of memory while it looks for leftovers of killed programs logs nothing, and leaves them.

The number of allocations of each test and each script is compared with tests/allocations.txt, a line `NAME PART COUNT` for each. A call
that begins to allocate, or allocates more, shows as a greater count. With `--write` the file is written. The programs are the shell, and
crates/NAME/out/NAME_tests, which `rt test` builds.
"""
import concurrent.futures
import itertools
import os
import re
import shutil
import subprocess
import tempfile
import time

import pytest

from harness import stored_scripts as scripts
from harness import programs
from harness.allocations import variables_for
from harness.checks import LONGEST, same
from harness.files import read, write
from harness.programs import SHELL, TESTS

pytestmark = pytest.mark.needs("gcc")

STORED = os.path.join(TESTS, "allocations.txt")

SHELL_NAME = "shell"

# The crates whose tests run with refused allocations.
CRATES = ("decision_tests", "disk_tests", "spool_core_tests", "text_tests")

# The scripts whose allocations are refused, up to their first opening.
REFUSED_SCRIPTS = [
    "an_older_spool_needs_a_checkpoint_first",
    "checkpoints_over_openings",
    "conversions_with_faults",
    "documents_over_checkpoints",
    "held_jobs",
    "moments_of_several_queues",
    "queues_listed",
    "quotes_and_backslashes",
    "typed_by_bytes",
]

# Which allocations of a test are refused: the first FIRST, and then one in STEP. In a script all are refused. If that takes longer than
# BUDGET seconds, only every second or third one is.
FIRST = 100
STEP = 17
BUDGET = 30

# A test may end with one of these errors after a refused allocation: the error of std, with or without the returned value, that of a crate
# or of hex, or the test's own text for the call that failed. Another error, a failed assertion or no error at all means that an answer
# changed.
REFUSED = re.compile(r'^error: (?:AllocError|AllocFailed \{ \.\. \}|(?:\w+\()*Memory\)*|OutOfMemory|".*")$', re.M)

# Tests that compare the end of a run, with out of memory as one more possible answer, and one that compares changes, which are forgotten if
# memory runs out for a name: their own assertion fails then.
BY_ANSWER = {"changes_are_told", "driven_until_it_is_full", "write_that_fails_leaves_any_bytes"}


def is_right(name, status, text):
    """Whether a test may end like this after an allocation was refused."""
    return status != 0 and (bool(REFUSED.search(text)) or name in BY_ANSWER and "assertion" in text)


def program_of(crate):
    return os.path.join(programs.CRATES, crate, "out", f"{crate}_tests")


class Counting:
    """Runs programs with the counting library, in a folder of its own."""

    def __init__(self, room):
        self.room = room
        self.names = itertools.count()

    def fresh(self):
        """The path of a file or folder that does not exist yet."""
        return os.path.join(self.room, str(next(self.names)))

    def run(self, words, text=b"", refused=0, log=None):
        """The result of a program, with one allocation refused unless that number is 0. Its input is a file, which it reads in pieces of
        the same lengths each time.
        """
        environment = {"PATH": "/bin", "LANG": "C", **variables_for(log or "/dev/null", refused)}
        with tempfile.TemporaryFile(dir=self.room) as given:
            given.write(text)
            given.seek(0)
            return subprocess.run(words, stdin=given, env=environment, capture_output=True, cwd=self.room, timeout=LONGEST)

    def calls(self, words, text=b"", refused=0):
        """The result of a program, and its calls in order: the allocations before each, its name, its file and its text."""
        log = self.fresh()
        ended = self.run(words, text, refused, log)
        with open(log, encoding="utf-8", errors="replace") as file:
            lines = [line.rstrip("\n").split(" ", 3) for line in file]
        os.remove(log)
        return ended, [(int(count), word, file, text) for count, word, file, text in lines]


def in_time(chosen, seconds):
    """The chosen allocations that are refused, given the seconds that a run takes."""
    most = max(8, int(BUDGET / max(seconds, 0.001)))
    return chosen[:: 1 + len(chosen) // most]


def taken_between_marks(calls):
    """The allocations of the calls between two marks, each with its name."""
    for (before, _, _, begin), (after, _, _, end) in zip(calls, calls[1:]):
        if begin.startswith("begin ") and end == f"end {begin[6:]}":
            yield begin[6:], after - before


def refused_in_turn(counting, crate, test):
    """The number of allocations of a test, the number of calls without allocations that it marks, and the differences."""
    words = [program_of(crate), test]
    name = test.rsplit("::", 1)[-1]
    begun = time.monotonic()
    ended, calls = counting.calls(words)
    seconds = time.monotonic() - begun
    if ended.returncode:
        return 0, 0, [f"{crate} {name}: fails by itself: {ended.stderr[-200:]!r}"]
    marked = list(taken_between_marks(calls))
    differ = [f"{crate} {name}: {call} allocates {taken} times" for call, taken in marked if taken]
    count = calls[-1][0]
    for number in in_time([*range(1, min(count, FIRST) + 1), *range(FIRST + 1, count + 1, STEP)], seconds):
        ended, refused = counting.calls(words, b"", number)
        text = (ended.stdout + ended.stderr).decode(errors="replace")
        # A list that grows by a size hint retries with a smaller size.
        if ended.returncode == 0 and refused[-1][0] > count:
            continue
        if not is_right(name, ended.returncode, text):
            differ.append(f"{crate} {name}: allocation {number} refused: status {ended.returncode} {text[-200:]!r}")
    return count, len(marked), differ


def tests_of(counting, crate):
    listed = counting.run([program_of(crate), "--list"])
    return [line[: -len(": test")] for line in listed.stdout.decode().splitlines() if line.endswith(": test")]


def crate_counts(counting, crate, pool):
    """The lines of a crate for the stored file, and the differences."""
    tests = tests_of(counting, crate)
    lines, differ = [], []
    for test, (count, _, faults) in zip(tests, pool.map(lambda test: refused_in_turn(counting, crate, test), tests)):
        lines.append(f"{crate} {test.rsplit('::', 1)[-1]} {count}")
        differ += faults
    return lines, differ


def serve(counting, name, text, root, refused=0):
    """The result of the shell that serves a text as the script of this name in a fresh folder, and the number of its allocations."""
    ended, calls = counting.calls([SHELL, *scripts.words_of(name, root)], text, refused)
    shutil.rmtree(root)
    return ended, calls[-1][0]


def form(reply):
    """A reply without its variable parts: its first word, and the following words that are neither numbers nor names."""
    words = reply.split()
    return " ".join(word for word in words[:4] if word in ("ok", "job", "bytes", "type", "stages", "unprintable"))


def taken_by_events(calls, costs):
    """The differences in the calls of a run: allocations between the first write of an event and its last sync. Allocations from there to
    the reply are added to the costs, by the reply's form.
    """
    disk = []
    begun = False
    for count, word, file, text in calls:
        if word == "write" and file == "1":
            # The start of the program precedes the first event.
            disk = disk if begun else disk[-4:]
            begun = True
            counts = {before for before, _ in disk}
            is_event = [kind for _, kind in disk[-4:]] == ["write", "sync", "write", "sync"]
            if is_event and text.startswith("ok") and not re.match(r"ok (started|rounds)", text):
                if len(counts) > 1:
                    yield f"{text}: between the writes and syncs of its event memory was taken"
                costs.setdefault(form(text), set()).add(count - disk[-1][0])
            disk = []
        elif word in ("write", "sync") and file not in ("1", "2"):
            disk.append((count, word))


def script_counted(counting, name):
    """The number of allocations of a script, the allocations of its replies, and the differences."""
    root = counting.fresh()
    words = [SHELL, *scripts.words_of(name, root)]
    count, costs, differ, got = 0, {}, [], b""
    for part in scripts.parts(scripts.stored_file(name, "script")):
        ended, calls = counting.calls(words, part)
        got += ended.stdout
        count += calls[-1][0]
        differ += [f"{SHELL_NAME} {name}: {fault}" for fault in taken_by_events(calls, costs)]
    shutil.rmtree(root)
    if got != scripts.stored_file(name, "replies"):
        differ.append(f"{SHELL_NAME} {name}: other replies")
    return count, costs, differ


class Commands:
    """A script up to its first opening, each command with its replies."""

    def __init__(self, name):
        self.name = name
        stored = scripts.lines_of(scripts.stored_file(name, "replies"))
        self.commands, self.replies = [], []
        for text, is_answered, command in scripts.commands(next(scripts.parts(scripts.stored_file(name, "script")))):
            number = scripts.replies_to(command, stored) if is_answered else 0
            self.commands.append(text)
            self.replies.append(b"".join(stored[:number]))
            stored = stored[number:]
        self.text = b"".join(self.commands)

    def without(self, number):
        return b"".join(self.commands[:number] + self.commands[number + 1 :])

    def before(self, number):
        return b"".join(self.replies[:number])

    def beginnings(self):
        return {self.before(number) for number in range(len(self.commands) + 1)}


MEMORY = b"error memory\n"
UNREPORTED = "the refusal is not reported"

# The allocations of a start that looks for leftovers of killed programs: its folder has the spool's file and its lock.
LEFTOVERS = 6


def refused_reply(counting, script, number, others, usual):
    """The differences if an allocation of a script is refused, compared with the result without a refusal. The replies to the script
    without a command are cached.
    """
    ended, count = serve(counting, script.name, script.text, counting.fresh(), number)
    if ended.returncode:
        # The warnings about its files come first.
        warned = ended.stderr.removesuffix(b"spool: memory\n")
        if warned == ended.stderr or not usual[0].stderr.startswith(warned) or ended.stdout not in script.beginnings():
            return f"status {ended.returncode}, {ended.stderr[-100:]!r}, and then {ended.stdout[-100:]!r}"
        return None
    at = next((at for at in range(len(script.commands)) if ended.stdout[: len(script.before(at + 1))] != script.before(at + 1)), None)
    if at is None:
        # A list that grows by a size hint retries with a smaller size.
        return None if count > usual[1] else UNREPORTED
    if at not in others:
        others[at] = serve(counting, script.name, script.without(at), counting.fresh())[0].stdout
    wanted = script.before(at) + MEMORY + others[at][len(script.before(at)) :]
    return None if ended.stdout == wanted else f"not {wanted[len(script.before(at)) :][:100]!r}, but {ended.stdout[len(script.before(at)) :][:100]!r}"


def script_refused(counting, name):
    """The differences if the allocations of a script are refused in turn."""
    script = Commands(name)
    begun = time.monotonic()
    usual = serve(counting, name, script.text, counting.fresh())
    seconds = time.monotonic() - begun
    others = {}
    chosen = in_time(range(1, usual[1] + 1), seconds)
    faults = [(number, refused_reply(counting, script, number, others, usual)) for number in chosen]
    unreported = [number for number, fault in faults if fault == UNREPORTED]
    if unreported and unreported[-1] - unreported[0] < LEFTOVERS:
        faults = [it for it in faults if it[0] not in unreported]
    return [f"{SHELL_NAME} {name}: allocation {number} refused: {fault}" for number, fault in faults if fault]


def shell_counts(counting, pool):
    """The lines of the shell for the stored file, and the differences."""
    names = scripts.names()
    lines, differ, costs = [], [], {}
    for name, (count, taken, faults) in zip(names, pool.map(lambda name: script_counted(counting, name), names)):
        lines.append(f"{SHELL_NAME} {name} {count}")
        differ += faults
        for kind, counts in taken.items():
            costs.setdefault(kind, set()).update(counts)
    lines += [f"{SHELL_NAME} reply:{kind.replace(' ', '_')} {max(counts)}" for kind, counts in sorted(costs.items())]
    if len(costs.get("ok", ())) != 1:
        differ.append(f"{SHELL_NAME}: the reply `ok` to an event allocates {sorted(costs.get('ok', ()))} times")
    for faults in pool.map(lambda name: script_refused(counting, name), REFUSED_SCRIPTS):
        differ += faults
    return lines, differ


def stored_lines():
    return read(STORED).decode().splitlines()


def judge(request, name, lines, differ):
    """Compares the lines with the stored ones, or stores them."""
    stored = [line for line in stored_lines() if line.split()[0] == name]
    if request.config.getoption("--write"):
        others = [line for line in stored_lines() if line.split()[0] != name]
        write(STORED, "".join(line + "\n" for line in [*others, *lines]))
        stored = lines
    differ += [f"only now: {line}" for line in sorted(set(lines) - set(stored))]
    differ += [f"only stored: {line}" for line in sorted(set(stored) - set(lines))]
    same("the differences", differ, [])


@pytest.fixture
def counting(memory_room):
    return Counting(memory_room)


@pytest.fixture
def pool():
    with concurrent.futures.ThreadPoolExecutor(2) as made:
        yield made


@pytest.mark.needs("plain spool_shell")
def test_of_the_shell(request, counting, pool):
    judge(request, SHELL_NAME, *shell_counts(counting, pool))


@pytest.mark.parametrize("crate", CRATES)
def test_of_a_crate(request, counting, pool, crate):
    if not os.path.exists(program_of(crate)):
        pytest.skip(f"it needs its built tests: `rt test` in crates/{crate}")
    judge(request, crate, *crate_counts(counting, crate, pool))
