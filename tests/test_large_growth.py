"""Twice the input takes at most twice the time.

Only ratios are checked, of the best of three runs, in processor seconds, so that other load on the machine has little effect.
harness/written_spools.py writes the spools, byte by byte.
"""
import pytest

from harness import written_spools
from harness.checks import Difference
from harness.large_run import REPORTS, Script, TYPE

pytestmark = [pytest.mark.alone, pytest.mark.needs("spool_shell", "spool_tools")]


# Half of the greatest counts: of items to list or create, and of items to open, which takes far less time.
HALF = 20_000
HALF_OPENED = 50_000

RUNS = 3

# The greatest number of sets of three runs: they are repeated if other load may have slowed one of them, so it may take up to three times
# as long.
AGAIN = 3

# Seconds that do not count: the start of a program, and the error of the processor clock. A scan over 40,000 rows for each of them takes
# half a second and more.
FLOOR = 0.04


def keeps_pace(what, seconds, half=HALF):
    """Whether twice the input takes at most twice the time: `seconds` runs a size and returns the time."""
    best = {half: [], 2 * half: []}
    for _ in range(AGAIN):
        for size, times in best.items():
            times += [seconds(size) for _ in range(RUNS)]
        once, twice = (min(times) for times in best.values())
        if twice <= 2 * once + FLOOR:
            return
        if twice > 3 * once + FLOOR:
            break
    raise Difference(f"{what}: {twice:.3f} s for {2 * half}, and {once:.3f} s for {half}")


def over_spool(place, payloads, asked=()):
    """The seconds of a script on a spool of these payloads, by their number, as are the commands with their replies."""

    def run(size):
        script = Script()
        for ask in asked:
            script.ask(*ask(size))
        place.write("spool/spool.disk", written_spools.spool(payloads(size)))
        return place.serve(script).seconds

    return run


def listed_rows(size):
    """The output of `jobs` for these rows."""
    return [f'job {number} lab 3 none "ann" 0 0 "A title"' for number in range(1, size - 1)]


def test_openings_grow(place):
    """An opening of 100,000 rows, with deadlines or without, or of 100,000 events of three kinds."""
    for kind in (written_spools.rows, written_spools.timed_rows, written_spools.clocks, written_spools.jobs, written_spools.sends):
        keeps_pace(f"an opening of {kind.__name__}", over_spool(place, kind), HALF_OPENED)


def test_listings_grow(place):
    """`jobs`, `queues` and a checkpoint of 40,000 jobs, each three times. After the checkpoints the jobs are listed."""

    def jobs(size):
        return "jobs", *listed_rows(size), f"ok {size - 2}"

    def queues(_):
        return "queues", f'queue lab 3 accepting {TYPE} abort-job 30 5 none ""', "ok 1"

    def checkpoint(_):
        return "checkpoint", "ok"

    for asked in ([jobs] * 3, [queues] * 3, [checkpoint] * 3 + [jobs]):
        keeps_pace(asked[0].__name__, over_spool(place, written_spools.rows, asked))


def test_commands_grow(place):
    """Commands for 40,000 jobs: created, sent, closed, held, released and canceled, in memory."""

    def script_of(size, *commands):
        script = Script()
        script.ask(f"queue lab spoolfile:/out {TYPE} abort-job", "ok")
        for number in range(1, size + 1):
            script.ask('create lab ann "A title" 1 50 ""', f"ok job {number}")
            for command in commands:
                if command == "send":
                    script.send(number, b"hello", "ok bytes 5")
                elif command == "close":
                    script.ask(f"close {number} page", f"ok type {TYPE} stages 1")
                else:
                    script.ask(command.format(number), "ok")
        return script

    for commands in (("send", "close"), ("hold {} indefinite", "release {}"), ("close", "hold {} 100", "cancel {}")):
        keeps_pace(
            "create" + "".join(f", {command}" for command in commands),
            lambda size, chosen=commands: place.serve(script_of(size, *chosen), "--size", str(1 << 25), root=False).seconds,
        )


def test_files_grow(place):
    """A file of 40,000 types, and one of 40,000 conversions, with a document that needs the last of them."""

    def types(size):
        place.write("types", "".join(f"t/t{number} s{number}\n" for number in range(size)).encode())
        return typed(size, "unprintable")

    def convs(size):
        place.write("types", f"t/t{size - 1} s{size - 1}\n".encode())
        place.write("convs", "".join(f"t/t{number} t/target 10 f{number}\n" for number in range(size)).encode())
        return typed(size, "stages 2")

    def typed(size, way):
        place.fresh_spool()
        script = Script()
        script.ask("queue lab spoolfile:/out t/target abort-job", "ok")
        script.submit(1, "lab", name=f"page.s{size - 1}", closed=f"t/t{size - 1} {way}")
        return place.print_all(script, root=False).seconds

    keeps_pace("types", types)
    keeps_pace("conversions", convs)


# Bytes of standard error: all of them are read.
HALF_SAID = 500_000


def test_reports_grow(place):
    """About a mebibyte on standard error, in lines of each kind."""
    kinds = [b"PAGE: 1 2\n", b"STATE: +media-empty,toner-low\n", b"DEBUG: " + 60 * b"x" + b"\n", b"y\n"]
    place.script("backend", "says", REPORTS)
    script = Script()
    script.ask(f"queue lab says:/x {TYPE} abort-job", "ok")
    script.submit(1, "lab", title=place.at("said"))
    script.ask("round", "ok started 1 finished 1")

    def read(size, line):
        place.fresh_spool()
        place.write("said", line * (size // len(line)))
        return place.print_all(script).seconds

    for line in kinds:
        keeps_pace(f"lines {line[:12]!r}", lambda size, said=line: read(size, said), HALF_SAID)
