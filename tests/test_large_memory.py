"""Too little memory.

Each command works, or gets `error memory` and changes nothing; or the program ends with `spool: memory`. Everything that was acknowledged
is in the spool when it is opened with enough memory.
"""
import signal

import pytest

from harness.checks import holds, quoted, same
from harness.large_run import ask_jobs, bytes_of, DONE, listed, same_file, Script, TYPE
from harness.programs import SHELL

pytestmark = [pytest.mark.alone, pytest.mark.needs("spool_shell", "spool_tools")]

JOBS = 4_000
TITLE = "t" * 255
OPTIONS = "o=" + "v" * 2_046

# Sizes of the address space in KiB that are too small for the jobs. With the last of them the program can hardly start.
SCARCE = (24_000, 16_000, 10_000, 6_000)

REFUSED = b"error memory"


class Reader:
    """The replies of a run that had too little memory, one command at a time."""

    def __init__(self, ran):
        self.lines = ran.output.split(b"\n")[:-1]
        self.at = 0
        # Whether a command ran out of memory.
        self.met = False

    def ended(self):
        return self.at == len(self.lines)

    def is_served(self, *wanted):
        """Whether the next command has these replies. Otherwise it was refused because memory ran out, and has changed nothing."""
        if self.lines[self.at] == REFUSED:
            self.at += 1
            self.met = True
            return False
        found = self.lines[self.at : self.at + len(wanted)]
        same("the replies", found, [line.encode() for line in wanted])
        self.at += len(wanted)
        return True


class Table:
    """The jobs that were acknowledged."""

    def __init__(self, shown=()):
        self.shown = list(shown)

    def listed(self):
        lines = [f'job {number} lab {shown} "ann" 0 0 {quoted(TITLE)}' for number, shown in enumerate(self.shown, 1)]
        return [*lines, f"ok {len(lines)}"]

    def may_be(self):
        """The listings that are possible after a run that ended early: the last command may have been executed without its reply."""
        yield self.listed()
        yield Table([*self.shown, "4 job-incoming"]).listed()
        for number in CANCELED:
            if number <= len(self.shown):
                yield Table([*self.shown[: number - 1], "7 canceled", *self.shown[number:]]).listed()


# The jobs that are canceled: one before the listings and the checkpoint, and one after them.
CANCELED = (1, 2)


def script_of_jobs():
    script = Script()
    script.ask(f"queue lab spoolfile:/out {TYPE} abort-job")
    for _ in range(JOBS):
        script.ask(f'create lab ann {TITLE} 1 50 "{OPTIONS}"')
    for command in ("cancel 1", "jobs", "queues", "checkpoint", "cancel 2"):
        script.ask(command)
    return script


def replies_of_jobs(reader, table):
    """Reads the replies to that script as far as they exist, and stores the acknowledged jobs."""
    yield reader.is_served("ok")
    for _ in range(JOBS):
        served = reader.is_served(f"ok job {len(table.shown) + 1}")
        if served:
            table.shown.append("4 job-incoming")
        yield served
    yield cancel(reader, table, 1)
    yield reader.is_served(*table.listed())
    yield reader.is_served(f'queue lab 3 accepting {TYPE} abort-job 30 5 none ""', "ok 1")
    yield reader.is_served("ok")
    yield cancel(reader, table, 2)


def cancel(reader, table, number):
    there = number <= len(table.shown)
    served = reader.is_served("ok" if there else "error 5 NoJob")
    if served and there:
        table.shown[number - 1] = "7 canceled"
    return served


# If the stack does not fit into the address space, the system ends the program. No proof covers the stack.
NO_STACK = -signal.SIGSEGV


# The log of a child that the system did not start, because its address space has no room.
NOT_STARTED = b": not started: refused by the system\n"


def scarce_run(place, script, limit, *words):
    """A run in an address space of `limit` KiB, which may end with `spool: memory`, or because the stack has no room."""
    enough, place.limit = place.limit, limit
    ran = place.run([SHELL, "--root", "spool", *words], script.pieces())
    place.limit = enough
    errors = b"".join(line for line in ran.errors.splitlines(keepends=True) if not line.endswith(NOT_STARTED))
    if (ran.status, errors) not in ((0, b""), (1, b"spool: memory\n"), (NO_STACK, b"")):
        same("the end", (ran.status, errors), (0, b""))
    return ran


def found_afterwards(place):
    """The output of `jobs` with enough memory."""
    ran = place.run([SHELL, "--root", "spool"], [b"jobs\n"])
    same("the end", (ran.status, ran.errors), (0, b""))
    return ran.output.decode().splitlines()


def opened_scarcely(place, limit, wanted):
    """An opening with as little memory lists all jobs, ends with `spool: memory`, or replies with that error."""
    script = Script()
    script.ask("jobs")
    ran = scarce_run(place, script, limit)
    if ran.status == 0 and ran.output != REFUSED + b"\n":
        same("the listing", ran.output.decode().splitlines(), wanted)


def served_scarcely(place, limit):
    """Creates jobs with this little memory, and checks the spool afterwards. Returns whether memory ran out."""
    ran = scarce_run(place, script_of_jobs(), limit, "--size", str(1 << 26))
    reader, table = Reader(ran), Table()
    replies = replies_of_jobs(reader, table)
    while not reader.ended() and next(replies, None) is not None:
        pass
    same("the replies that are left", reader.lines[reader.at :], [])
    found = found_afterwards(place)
    wanted = table.listed()
    if ran.status:
        wanted = found if found in table.may_be() else wanted
    same(f"the jobs after a run in {limit} KiB", found, wanted)
    opened_scarcely(place, limit, wanted)
    same("the jobs afterwards", found_afterwards(place), wanted)
    return reader.met or ran.status != 0


def test_too_little_memory(place):
    """4,000 long jobs in address spaces that are too small for them."""
    met = []
    for limit in SCARCE:
        place.fresh_spool()
        met.append(served_scarcely(place, limit))
    holds(f"memory never ran out, not even in {SCARCE[-1]} KiB", any(met))


MANY = 8
LENGTH = 1_048_576

# The jobs that are closed with too little memory.
LATER = range(5, MANY + 1)

# Sizes in KiB that are too small to hold a document twice. With the last of them no child can be started.
SCARCE_ROUNDS = (6_000, 5_200, 5_000, 4_600, 4_200)


def test_scarce_rounds(place):
    """Eight long documents are closed and printed with too little memory, and then with enough: each is complete in the end."""
    place.tool("backend", "spoolfile")
    for limit in SCARCE_ROUNDS:
        place.fresh_spool()
        script = Script()
        for number in range(1, MANY + 1):
            script.ask(f"queue q{number} spoolfile:{place.at('printed')}-{number} {TYPE} retry-current-job 0 0", "ok")
            script.ask(f'create q{number} ann "" 1 50 ""', f"ok job {number}")
            script.document(number, bytes_of(number, LENGTH))
            if number not in LATER:
                script.ask(f"close {number} page", f"ok type {TYPE} stages 1")
        place.print_all(script, "--size", str(1 << 26))
        script = Script()
        for number in LATER:
            script.ask(f"close {number} page")
        for _ in range(3):
            script.ask("round")
        closed = close_and_print(place, script, limit)
        finish_printing(place, closed)


def close_and_print(place, script, limit):
    """The jobs that were closed, according to the replies."""
    ran = scarce_run(place, script, limit, "--programs", "programs")
    replies = ran.output.split(b"\n")[:-1]
    closed = {}
    for number, reply in zip(LATER, replies):
        if reply not in (REFUSED, f"ok type {TYPE} stages 1".encode()):
            same(f"close {number}", reply, REFUSED)
        closed[number] = reply != REFUSED
    for reply in replies[len(LATER) :]:
        if reply != REFUSED and not reply.startswith(b"ok started "):
            same("round", reply, REFUSED)
    return closed


def finish_printing(place, closed):
    """With enough memory the others are closed too, and all are printed."""
    found = [line.split(" ")[3] for line in found_afterwards(place)[:-1]]
    script = Script()
    for number in range(1, MANY + 1):
        holds(f"job {number} was closed, and is incoming", not closed.get(number) or found[number - 1] != "4")
        if found[number - 1] == "4":
            script.ask(f"close {number} page", f"ok type {TYPE} stages 1")
    place.print_all(script)
    # Jobs that were printed already start nothing more, so any number of starts is correct.
    place.run([SHELL, "--root", "spool", "--programs", "programs"], [b"drain 9\n"])
    script = Script()
    ask_jobs(script, [listed(number, f"q{number}", DONE, LENGTH) for number in range(1, MANY + 1)])
    place.print_all(script)
    for number in range(1, MANY + 1):
        same_file(place, f"printed-{number}", bytes_of(number, LENGTH))
