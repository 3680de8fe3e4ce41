#!/usr/bin/env python3
"""Measures the shell by the length of its scripts, tables and files: shell.py [PROGRAM [PART..]]

It runs crates/spool_shell/out/spool_shell (built by `rt run` in that crate) or PROGRAM, except for `reports` on a spool in memory.

- `scripts`: scripts of growing length. A ratio near 1 means that a command takes no longer in a long script than in a short one.
- `queues`: the command `queues` with 64 queues and 10 to 300,000 jobs, from the command to its last line. The state of a queue is read from
  its lane, so the time should be the same whatever the number of jobs.
- `rounds`: a round by the number of queues with a job to run and by the number of held jobs. No child can be started, so each job ends in
  the round that starts it: a round is one Start, one order and one Stage for each queue. A queue chooses its next job from an index of its
  waiting jobs, which lists the startable ones separately (crates/queue_sched), so the time should hardly grow with the held jobs.
- `waiting`: an event and the choice of the next job with 10 to 1,000,000 jobs waiting in one queue, first none and then all but a few held:
  `clock` (which affects no job), `hold` and `release` of the job in the middle, `close` of a job of the highest priority (which is ordered
  before all others), and `round`. The memory is the growth of the resident set while the jobs are created, divided by their number,
  including the part of the spool's image that their events fill.
- `chains`: conversion files of growing length: the time to read the file, and the time of a close, which finds the cheapest chain to the
  queue's type, minus its time with the shortest file. The chain is the same 15 conversions in each. A close with 1,000 conversions should
  take well under a millisecond.
- `types`: the closing of a document, with a file of types whose rules each search the whole document for a text and do not find it. A ratio
  near 2 when the document or the file doubles means that the time is proportional to both.
- `reports`: a backend that writes up to 1,048,576 bytes to standard error. A ratio near 2 means that the time is linear in their number.

Times depend on the machine, so only the ratios are of interest. No test checks them. With PART only these parts are run.
"""
import os
import statistics
import sys
import tempfile

from harness.files import write
from measures import CREATE, given_program, grown, least_served, QUEUE, run_parts, Shell

MEBIBYTE = 1_048_576
QUEUES = 64
TURNS = 100


def queue(number):
    """The command that creates one of several queues."""
    return b"queue q%d spoolfile:/out application/octet-stream abort-job\n" % number


# ---- scripts

def jobs(count):
    """Jobs are created and canceled, each with a small document."""
    return QUEUE + b"".join(CREATE + b"send %d 5\nhello\ncancel %d\n" % (n, n) for n in range(1, count + 1)), 3 * count


def held(count):
    """Jobs are created, and each is held and released."""
    return QUEUE + CREATE * count + b"".join(b"hold %d indefinite\nrelease %d\n" % (n, n) for n in range(1, count + 1)), 3 * count


def listed(count):
    """Jobs are created, and listed once."""
    return QUEUE + CREATE * count + b"jobs\n", count


def sends(count):
    """`send` commands of the greatest length, sixteen to a job."""
    def of_job(job):
        return CREATE + b"send %d 65536\n%b\n" % (job, b"x" * 65_536) * 16 + b"cancel %d\n" % job

    return QUEUE + b"".join(of_job(job) for job in range(1, count // 16 + 1)), count


def remarks(count):
    """Long comments, which are skipped."""
    return (b"#" + b"x" * 999 + b"\n") * count, count


def scripts(program):
    """The shortest time of three runs, on a spool with room for all of a script."""
    small, large = (16, 160, 1_600), (1_000, 10_000, 100_000)
    for make, counts in ((jobs, large), (held, large), (listed, large), (sends, small), (remarks, large)):
        def each(count):
            script, commands = make(count)
            return least_served(script, "--size", str(max(4_194_304, 4 * len(script))), program=program)[0] / commands

        print(f"  {make.__doc__}")
        for count, took, ratio in grown(each, counts):
            print(f"    {count:7}: {took * 1e6:8.2f} us a command, ratio {ratio:5.2f}")


# ---- queues, rounds and waiting jobs

def queues(program):
    """The median time of some listings. Each job is in another queue than the one before."""
    def listing(count):
        with Shell("--size", str(1 << 28), program=program) as shell:
            shell.serve(b"".join(map(queue, range(QUEUES))) + b"".join(b'create q%d ann "A title" 1 50 ""\n' % (n % QUEUES) for n in range(count)))
            return statistics.median(shell.ask(b"queues\n", QUEUES + 1) for _ in range(20))

    for count, took, ratio in grown(listing, (10, 10_000, 300_000)):
        print(f"  {QUEUES} queues, {count:7} jobs: {took * 1e3:9.3f} ms, ratio {ratio:7.2f}", flush=True)


ROUNDS = 20


def before_rounds(count, held_jobs):
    """The queues, jobs that are held, and a job of each queue for every round."""
    lines = list(map(queue, range(count)))
    lines += [b'create q%d ann t 1 50 ""\nhold %d indefinite\nclose %d x\n' % (n % count, n + 1, n + 1) for n in range(held_jobs)]
    lines += [b'create q%d ann t 1 50 ""\nclose %d x\n' % (n % count, held_jobs + n + 1) for n in range(ROUNDS * count)]
    return b"".join(lines)


def rounds(program):
    """The shortest time of three runs."""
    def seconds(count, held_jobs):
        with Shell("--size", str(1 << 28), program=program) as shell:
            shell.serve(before_rounds(count, held_jobs))
            return shell.serve(b"round\n" * ROUNDS) / ROUNDS

    for count in (1, 8, 64):
        for held_jobs in (0, 1_000, 10_000, 100_000):
            took = min(seconds(count, held_jobs) for _ in range(3))
            print(f"  {count:3} queues, {held_jobs:6} jobs held: {1e6 * took:10.0f} us a round, {1e6 * took / count:8.1f} a queue")


# The jobs that are not held, and the number of jobs that are created at once.
FREE, PART = 5, 10_000


def made(first, last, is_held):
    """The jobs with these numbers, held or not."""
    hold = b"hold %d indefinite\n" if is_held else b""
    return b"".join((b'create lab ann t 1 50 ""\n' + hold + b"close %d x\n").replace(b"%d", b"%d" % job) for job in range(first, last + 1))


def waited(program, count, is_held):
    """The seconds of each command, by name, and the bytes of a job."""
    with Shell("--size", str(1 << 29), program=program) as shell:
        shell.ask(QUEUE)
        before = shell.memory("VmRSS")
        free = min(count, FREE)
        for first in range(1, count - free + 1, PART):
            shell.serve(made(first, min(first + PART - 1, count - free), is_held))
        shell.serve(made(count - free + 1, count, False))
        grew = 1024 * (shell.memory("VmRSS") - before)
        times = {"clock": shell.serve(b"".join(b"clock %d\n" % moment for moment in range(1, TURNS + 1))) / TURNS}
        middle = count // 2
        times["hold or release"] = shell.serve(b"hold %d indefinite\nrelease %d\n" % (middle, middle) * TURNS) / (2 * TURNS)
        if is_held:
            shell.ask(b"hold %d indefinite\n" % middle)
        shell.serve(b'create lab ann t 1 100 ""\n' * TURNS)
        times["urgent close"] = shell.serve(b"".join(b"close %d x\n" % job for job in range(count + 1, count + TURNS + 1))) / TURNS
        times["round"] = shell.serve(b"round\n" * free) / free
    return times, grew / count


def waiting(program):
    for is_held in (False, True):
        print(f"  all but {FREE} are held" if is_held else "  none is held")
        for count in (10, 1_000, 100_000, 1_000_000):
            times, memory = waited(program, count, is_held)
            columns = ", ".join(f"{name} {1e6 * seconds:7.1f} us" for name, seconds in times.items())
            print(f"    {count:9,} jobs: {columns}, {memory:5.0f} bytes a job")


# ---- files of conversions and of types

CLOSES = 500
CHAIN = 15


def steps(count):
    """Each line has its own source type."""
    return "".join(f"t/{line} t/{line + 1} 10 f{line}\n" for line in range(count))


def shared(count):
    """All lines share 16 source types, and the conversions after the chain are expensive."""
    return steps(CHAIN) + "".join(f"t/{line % 16} t/{line * 7 % 16} 9000 dear\n" for line in range(CHAIN, count))


def closing(program, folder, convs, closes):
    """The shortest time of three runs: jobs are created, held, closed and canceled, so that none of them starts."""
    job = b'create lab ann "A title" 1 50 ""\nhold N indefinite\nsend N 5\nhello\nclose N page.doc\ncancel N\n'
    script = b"queue lab spoolfile:/out t/%d abort-job\n" % CHAIN + b"".join(job.replace(b"N", b"%d" % n) for n in range(1, closes + 1))
    write(os.path.join(folder, "convs"), convs)
    took, replies = least_served(script, "--types", "types", "--convs", "convs", program=program, cwd=folder)
    if replies.count(b"ok type t/0 stages %d\n" % (CHAIN + 1)) != closes:
        sys.exit("a chain is not that of 15 filters")
    return took


def chains(program):
    with tempfile.TemporaryDirectory() as folder:
        write(os.path.join(folder, "types"), "t/0 doc\n")
        for make in (steps, shared):
            print(f"  {make.__doc__}")
            least = None
            for count in (CHAIN, 100, 1_000, 10_000):
                convs = make(count)
                opened = closing(program, folder, convs, 0)
                close = (closing(program, folder, convs, CLOSES) - opened) / CLOSES
                least = close if least is None else least
                print(f"    {count:6} lines: read {opened * 1e3:9.2f} ms, {(close - least) * 1e6:9.2f} us a close more than with {CHAIN}")


def document(size):
    """A document of `size` bytes is sent in pieces, and closed. Prefixes of the searched texts occur everywhere in it."""
    whole = (b"needles00000-" * (size // 13 + 1))[:size]
    pieces = (whole[at : at + 65_536] for at in range(0, size, 65_536))
    return b"queue lab spoolfile:/out a/b abort-job\n" + CREATE + b"".join(b"send 1 %d\n%s\n" % (len(it), it) for it in pieces) + b"close 1 page\n"


def types(program):
    def seconds(size, count):
        """The shortest time of three runs with this number of rules."""
        with tempfile.NamedTemporaryFile("w", suffix=".types") as file:
            file.write("".join(f"a/b contains(0,{MEBIBYTE},needles{n:06})\n" for n in range(count)))
            file.flush()
            return least_served(document(size), "--types", file.name, program=program)[0]

    for title, cases in (
        ("the document doubles", [(MEBIBYTE // 4, 400), (MEBIBYTE // 2, 400), (MEBIBYTE, 400)]),
        ("the file of types doubles", [(MEBIBYTE, 100), (MEBIBYTE, 200), (MEBIBYTE, 400)]),
    ):
        print(f"  {title}")
        for (size, count), took, ratio in grown(lambda case: seconds(*case) - seconds(case[0], 0), cases, by_step=True):
            print(f"    {size:>9,} bytes {count:>6,} rules {1000 * took:9.1f} ms, ratio {ratio:.2f}")


# ---- standard error

# Lines of each kind.
SAID = [
    b"INFO: a line that tells how far a filter is\n",
    b"PAGE: 1 2\n",
    b"STATE: +media-empty,toner-low\n",
    b'ATTR: marker-names="black cyan" marker-levels=10,20\n',
    b"DEBUG: " + 60 * b"x" + b"\n",
    1_500 * b"y" + b"\n",
]
PRINTS = b'queue lab says:/x application/octet-stream abort-job\ncreate lab ann "" 1 50 ""\nclose 1 page\nround\n'


def reported(program, size):
    """The shortest time of nine runs on a new spool, with a backend that writes `size` bytes."""
    turn = b"".join(SAID)
    with tempfile.TemporaryDirectory() as folder:
        said = write(f"{folder}/said", (turn * (size // len(turn) + 1))[:size])
        listed_in = write(f"{folder}/programs", f"backend says /bin/sh {write(f'{folder}/says', f'cat {said} >&2')}\n")
        times = []
        for _ in range(9):
            took, replies = least_served(PRINTS, "--root", tempfile.mkdtemp(dir=folder), "--programs", listed_in, program=program, times=1)
            times.append(took)
            if not replies.endswith(b"ok started 1 finished 1\n"):
                sys.exit(f"the backend was not run: {replies!r}")
    return min(times)


def reports(program):
    nothing = reported(program, 0)
    for size, took, ratio in grown(lambda size: reported(program, size) - nothing, [MEBIBYTE // 4, MEBIBYTE // 2, MEBIBYTE], by_step=True):
        print(f"  {size:>9,} bytes {1000 * took:9.1f} ms, ratio {ratio:.2f}")


if __name__ == "__main__":
    run_parts(scripts, queues, rounds, waiting, chains, types, reports, words=(given_program(1),))
