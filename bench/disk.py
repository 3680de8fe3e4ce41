#!/usr/bin/env python3
"""Measures the shell over spools on a disk: disk.py [PROGRAM [PART..]]

It runs crates/spool_shell/out/spool_shell (built by `rt run` in that crate) or PROGRAM in a new folder under the current one, mostly over
spools whose files it writes byte by byte. It prints the floor next to each time: two writes and two syncs for an event by a plain C program
(floors.c), or one write and sync of the same number of bytes.

- `events`: events, and the longest `send` commands, each of 65,536 bytes, sixteen for a document.
- `openings`: journals of 1,000 to 1,000,000 events, or rows of a listing, without the time of an opening without events. A ratio near 1
  means that the time is linear in the number of records.
- `checkpoints`: checkpoints of 1,000 to 1,000,000 jobs. A checkpoint writes its rows from one block and syncs three times. Its time should
  be a small multiple of the time to write its bytes, and its memory (VmHWM after it minus VmHWM before it) should not grow with them.
- `clocks`: `clock` while 10 to 1,000,000 jobs wait, without start deadlines, and with deadlines that are all different and in an order
  other than that of the jobs. A clock that cancels no job should take as long as any event. Then clocks cancel 1, 100 and 1,000 jobs, or
  the jobs that are left. A canceled job is removed from the list of waiting jobs, as by `cancel`, which moves no other job, so its time
  should hardly grow with their number.
- `purges`: a `clock` cancels up to 10,000 jobs anywhere among 1,000 to 1,000,000, and then each of them is purged: in ascending order, in
  descending order, and at random. A purge should take as long as any event.

Times depend on the machine and its disk, so only the ratios are of interest. In a folder in memory the syncs take no time, so the times show
the work of the program itself. No test checks them. With PART only these parts are run.
"""
import collections
import os
import random
import sys
import tempfile

from harness import journal
from harness.checks import timed
from harness.files import read
from harness.service import PIECE
from harness.written_spools import clocks as clock_events, jobs, rows, sends, spool, timed_rows
from measures import CREATE, floor, given_program, grown, least_served, QUEUE, run_parts, served, Shell, spool_folder, written

EVENTS = 2_000
PIECES = 16  # for a document of the greatest length
DOCUMENTS = 32
COUNTS = (1_000, 10_000, 100_000, 1_000_000)

CLOCK = 14  # bytes of a clock's record

CANCELED = (1, 100, 1_000)
PURGED = 10_000
TURNS = 200
# The first start deadline. The others follow, one a second.
FIRST = 1_000


def opened(program, folder, contents):
    """The shortest time of three openings of a spool with these bytes."""
    with spool_folder(folder, contents) as root:
        return least_served(b"", "--root", ".", program=program, cwd=root)[0]


def journal_end(root):
    """The offset after the last record of a spool that uses only its first area."""
    return journal.places(journal.current(read(os.path.join(root, "spool.disk")))[0])[-1]


def event_seconds(program, folder, before, script, count, size=1 << 22):
    """The seconds of one of the `count` events of a script, on a new spool of this size after other commands, and the bytes of its record."""
    words = {"program": program, "cwd": tempfile.mkdtemp(dir=folder)}
    served(before, "--root", ".", "--size", str(size), **words)
    start = journal_end(words["cwd"])
    took = served(script, "--root", ".", **words)[0] - least_served(b"", "--root", ".", **words)[0]
    return took / count, (journal_end(words["cwd"]) - start) // count


def events(program, folder):
    """Three times, in turn with the floor, which reads no input."""
    piece = bytes(PIECE)
    documents = range(1, DOCUMENTS + 1)
    longest = b"".join(b"send %d %d\n%b\n" % (job, PIECE, piece) for job in documents for _ in range(PIECES))
    for name, *words in (
        ("events", QUEUE, CREATE * EVENTS, EVENTS),
        ("sends", QUEUE + CREATE * DOCUMENTS, longest, DOCUMENTS * PIECES, 4 * len(longest)),
    ):
        for _ in range(3):
            took, length = event_seconds(program, folder, *words)
            least = floor(folder, words[2], length)
            print(f"  {words[2]:5} {name} of {length:6} bytes: {1 / took:8.0f} a second, the floor {1 / least:8.0f}, ratio {took / least:5.2f}")


def openings(program, folder):
    nothing = opened(program, folder, spool([]))
    for kind in (clock_events, jobs, sends, rows, timed_rows):
        print(f"  {kind.__doc__}")
        for count, each, ratio in grown(lambda count: (opened(program, folder, spool(kind(count))) - nothing) / count, COUNTS):
            print(f"    {count:9,} records: {count * each:8.3f} s, {1 / each:11,.0f} a second, ratio {ratio:5.2f}")


def checkpoints(program, folder):
    for count in COUNTS:
        contents = spool(rows(count + 2))
        length = len(contents) // 2
        with spool_folder(folder, contents) as root, Shell("--root", ".", program=program, cwd=root) as shell:
            shell.ask(b"clock 0\n")
            before = shell.memory()
            took = shell.ask(b"checkpoint\n")
            more = shell.memory() - before
        least, each = timed(lambda: written(folder, bytes(length))), count * floor(folder, EVENTS, length // count)
        print(f"  {count:9,} jobs: {1e3 * took:9.1f} ms, its bytes {1e3 * least:9.1f} ms, ratio {took / least:5.2f}, an event for each row "
              f"{1e3 * each:9.1f} ms, ratio {took / each:5.3f}, {more:7,} KiB more")


# ---- jobs that clocks cancel, and purges

def state_counts(shell):
    """The number of jobs in each state."""
    shell.write(b"jobs\n")
    counts = collections.Counter()
    while not (line := shell.read(1)).startswith(b"ok "):
        counts[line.split()[3]] += 1
    return counts


def with_clocks(folder, program, count, is_timed):
    """The seconds of a clock that cancels no job, and of each clock that cancels some: their number, and its seconds."""
    # A number that has no divisor in common with the count, so that each moment occurs once.
    step = 7_919
    by = (lambda number: FIRST + number * step % count) if is_timed else (lambda number: None)
    with spool_folder(folder, spool(rows(count + 2, by))) as root, Shell("--root", ".", program=program, cwd=root) as shell:
        shell.ask(b"clock 0\n")
        none = sum(shell.ask(b"clock %d\n" % moment) for moment in range(1, TURNS + 1)) / TURNS
        some, done = [], 0
        for canceled in CANCELED:
            canceled = min(canceled, count - done)
            if is_timed and canceled:
                done += canceled
                some.append((canceled, shell.ask(b"clock %d\n" % (FIRST + done))))
        found = state_counts(shell)
        if (found[b"7"], found[b"3"]) != (done, count - done):
            sys.exit(f"the jobs are in the states {found}, and {done} were canceled")
    return none, some


def clocks(program, folder):
    for is_timed in (False, True):
        print("  each job has a start deadline" if is_timed else "  no job has a start deadline")
        for count in (10, 1_000, 100_000, 1_000_000):
            least = floor(folder, TURNS, CLOCK)
            none, some = with_clocks(folder, program, count, is_timed)
            print(f"    {count:9,} jobs: {1e6 * none:8.1f} us, the floor {1e6 * least:8.1f} us, ratio {none / least:5.2f}")
            for canceled, took in some:
                print(f"      {canceled:9,} canceled: {1e3 * took:10.2f} ms, {1e6 * (took - none) / canceled:8.2f} us a job")


def purge_seconds(folder, program, count, numbers):
    """The seconds of a purge, for these jobs in this order."""
    ended = set(numbers)
    contents = spool(rows(count + 2, lambda number: FIRST if number in ended else None))
    # Room for the events after the listing.
    half, more = len(contents) // 2, bytes(32 * len(numbers))
    contents = contents[:half] + more + contents[half:] + more
    with spool_folder(folder, contents) as root, Shell("--root", ".", program=program, cwd=root) as shell:
        shell.ask(b"clock %d\n" % (FIRST + 1))
        return sum(shell.ask(b"purge %d\n" % number) for number in numbers) / len(numbers)


def purges(program, folder):
    for count in (1_000, 100_000, 1_000_000):
        least = floor(folder, TURNS, CLOCK)
        print(f"  {count:9,} jobs, the floor {1e6 * least:8.1f} us")
        shuffled = random.Random(1).sample(range(1, count + 1), min(PURGED, count // 2))
        for name, numbers in (("ascending", sorted(shuffled)), ("descending", sorted(shuffled, reverse=True)), ("at random", shuffled)):
            took = purge_seconds(folder, program, count, numbers)
            print(f"    {len(numbers):6,} purges {name:10}: {1e6 * took:8.1f} us each, ratio {took / least:5.2f}")


def main():
    with tempfile.TemporaryDirectory(dir=os.getcwd()) as folder:
        run_parts(events, openings, checkpoints, clocks, purges, words=(given_program(1), folder))


if __name__ == "__main__":
    main()
