#!/usr/bin/env python3
"""Measures printing by the shell, and the memory of documents: printing.py [PROGRAM [PART..]]

It runs crates/spool_shell/out/spool_shell (built by `rt run` in that crate) or PROGRAM with `--root` in a new folder under the current one.

`rates` is the jobs printed per second, by one queue and by eight. Each job has one stage, a backend that does nothing (/bin/true). The times
are compared with two floors, which a C program (floors.c) runs. Both launch the same number of the same children, with the same number at
once, the same files and the same shell. A ratio is a floor's time divided by the spooler's, so 1 means that the spooler is as fast as the
floor.

- The first floor, `bare`, keeps no journal, reads no output, and gives its children no variables.
- The second, `whole`, does what any spooler must do to keep the same promises. An event is two writes and two syncs, and a printed job is
  two events, its start and its end. Syncs of one queue cannot overlap, because each event must be on the disk before the next step. So the
  launcher is measured against this floor.

The spooler's time is also printed minus the time of the same number of events of another kind (`hold`), next to the first floor. The time
of such an event includes a command and its reply, which the events of a round do not have. The jobs are printed in parts, and the floors run
before and after each part, so that other load on the machine affects all three. Each part is compared with the mean of the floor runs before
and after it. The script prints the median of the ratios and the range of their middle half.

`documents` is the peak memory of a program (VmHWM of /proc/PID/status), each row of a program of its own: with a document of the greatest
length that was sent, closed, handed to a small filter, and after a stage whose output is as long as the document; in a checkpoint; and with
eight documents in progress at once, on eight queues, also of a mebibyte. The second column divides the memory above that of a program with
no document by the length of the greatest document.

`closes` is the time to close such documents. The program reads the first bytes that the type rules inspect, so a close is measured without
rules, with a rule that inspects the first bytes, and with a rule that inspects all bytes.

Times depend on the machine and its disk, so only the ratios are of interest. No test checks them. With PART only these parts are run.
"""
import os
import statistics
import subprocess
import sys
import tempfile

from harness.files import write
from harness.programs import compiled
from measures import given_program, run_parts, Shell

PROGRAM = "/bin/true"
JOBS = 800
PART = 40  # jobs that are printed at once, between two runs of the floors
MEBIBYTE = 1_048_576


class Spooler(Shell):
    """A shell in a new folder, with these programs."""

    def __init__(self, shell, folder, programs, *more, size=67_108_864):
        os.mkdir(folder)
        listed = write(folder + ".programs", programs)
        super().__init__("--root", ".", "--size", str(size), "--programs", listed, *more, program=shell, cwd=folder)


# ---- rates

def fill(spooler, queues):
    """Creates all jobs, and one more, which is held."""
    for n in range(queues):
        spooler.ask(b"queue q%d nothing:/ application/octet-stream abort-job\n" % n)
    spooler.ask(b'create q0 ann t 1 50 ""\n')
    spooler.ask(b"hold 1 1\n")
    for job in range(2, JOBS + 2):
        spooler.ask(b'create q%d ann t 1 50 ""\n' % (job % queues))
        spooler.ask(b"close %d x\n" % job)


def printed(spooler, queues):
    """The seconds to print the jobs of a part, and of the same number of other events."""
    took = spooler.ask(b"drain %d\n" % (PART // queues))
    if spooler.last != b"ok rounds %d\n" % (PART // queues):
        sys.exit(f"not all jobs of a part were printed: {spooler.last!r}")
    return took, sum(spooler.ask(b"hold 1 %d\n" % (moment + 1)) for moment in range(2 * PART))


def launched(room, queues, *disk, jobs=PART):
    """The seconds of a floor: of the second one if a file for its events is given."""
    folder = os.path.join(room, "files")
    os.makedirs(folder, exist_ok=True)
    words = [compiled("floors.c", "-O2"), str(jobs), str(queues), folder, PROGRAM, *disk]
    return float(subprocess.run(words, stdout=subprocess.PIPE, check=True).stdout)


def floors(room, queues):
    """The seconds of both floors."""
    return launched(room, queues), launched(room, queues, os.path.join(room, "disk"))


def rates(shell, room):
    for queues in (1, 8):
        times = []
        with Spooler(shell, os.path.join(room, f"spool-{queues}"), f"backend nothing {PROGRAM}\n") as spooler:
            fill(spooler, queues)
            before = floors(room, queues)
            for _ in range(JOBS // PART):
                took, events = printed(spooler, queues)
                after = floors(room, queues)
                bare, whole = ((one + other) / 2 for one, other in zip(before, after))
                times.append((took, events, bare, whole))
                before = after
        print_medians(queues, times)


def print_medians(queues, times):
    """A part's jobs per second by the median, and the medians of the ratios with their middle halves."""
    took, events, bare, whole = ([PART / time for time in column] for column in zip(*times))
    print(
        f"{queues} queues: {statistics.median(took):.0f} jobs per second, bare floor {statistics.median(bare):.0f},"
        f" whole floor {statistics.median(whole):.0f}, the same number of events alone {statistics.median(events):.0f}"
    )
    ratios = {
        "to the bare floor": [bare / took for took, _, bare, _ in times],
        "to that without the events": [bare / (took - events) for took, events, bare, _ in times if took > events],
        "to the whole floor": [whole / took for took, _, _, whole in times],
        "of the whole floor to the bare one": [bare / whole for _, _, bare, whole in times],
    }
    for name, found in ratios.items():
        low, middle, high = statistics.quantiles(found, n=4)
        print(f"    ratio {name} {middle:.2f}, the middle half from {low:.2f} to {high:.2f}", flush=True)


# ---- documents

DOCUMENT = 16_777_216
SIZE = 1 << 29
QUEUES = 8
RUNS = 5

UNKNOWN = b"application/octet-stream"

# A filter that reads a document to its end and writes only its first bytes, one that writes all of it, and a backend that does nothing.
FILTERS = {"small": 'head -c 100 "$6"\ncat "$6" >/dev/null\n', "whole": 'cat "$6"\n'}

RULES = {"no rule": "", "a rule of the first bytes": "a/b string(0,%PDF)\n", "a rule of the whole": f"a/b contains(0,{DOCUMENT},needle)\n"}


def programs(room):
    """The list of programs."""
    lines = ["backend nothing /bin/true"]
    for name, text in FILTERS.items():
        path = write(os.path.join(room, f"filter-{name}"), "#!/bin/sh\n" + text, 0o755)
        lines.append(f"filter {name} {path}")
    return "".join(line + "\n" for line in lines)


class Case(Spooler):
    """A spooler with its own folder and files."""

    def __init__(self, shell, room, name, types="", convs=""):
        folder = os.path.join(room, name.replace(" ", "-"))
        words = []
        for kind, text in (("types", types), ("convs", convs)):
            words += [f"--{kind}", write(f"{folder}.{kind}", text)]
        super().__init__(shell, folder, programs(room), *words, size=SIZE)

    def submit(self, job, queue, target=UNKNOWN, length=DOCUMENT):
        """Creates a job on a queue of its own, and sends its document."""
        self.ask(b"queue %s nothing:/ %s abort-job\n" % (queue, target))
        self.ask(b'create %s ann t 1 50 ""\n' % queue)
        self.send(job, length)


def tell(name, memory, nothing):
    print(f"{name:<44} {memory:>8} KiB {(memory - nothing) * 1024 / DOCUMENT:6.2f} documents", flush=True)


def steps(shell, room, filter_name):
    """The peak memory after each step of a job that a filter and a backend print."""
    with Case(shell, room, filter_name, convs=f"application/octet-stream a/b 10 {filter_name}\n") as case:
        case.ask(b"jobs\n")
        nothing = case.memory()
        tell("nothing", nothing, nothing)
        case.submit(1, b"q", target=b"a/b")
        tell("a document was sent", case.memory(), nothing)
        case.ask(b"close 1 x\n")
        tell("and closed", case.memory(), nothing)
        case.ask(b"round\n")
        tell(f"handed to a filter with {filter_name} output", case.memory(), nothing)
        case.ask(b"round\n")
        tell("and its output to a backend", case.memory(), nothing)
    return nothing


def in_flight(shell, room, nothing, length):
    """Eight documents, handed to their backends at once."""
    with Case(shell, room, f"flight-{length}") as case:
        for n in range(QUEUES):
            case.submit(n + 1, b"q%d" % n, length=length)
            case.ask(b"close %d x\n" % (n + 1))
        tell(f"eight documents of {length:,} bytes, closed", case.memory(), nothing)
        case.ask(b"round\n")
        tell("all eight in flight", case.memory(), nothing)


def listed(shell, room, nothing, count):
    """Documents that a checkpoint lists."""
    with Case(shell, room, f"listed-{count}") as case:
        for n in range(count):
            case.submit(n + 1, b"q%d" % n)
        case.ask(b"checkpoint\n")
        tell(f"{count} in a checkpoint", case.memory(), nothing)


def documents(shell, room):
    nothing = steps(shell, room, "small")
    steps(shell, room, "whole")
    for length in (DOCUMENT, MEBIBYTE):
        in_flight(shell, room, nothing, length)
    for count in (1, QUEUES):
        listed(shell, room, nothing, count)


def closes(shell, room):
    """The shortest time of several closes of documents of the greatest length."""
    for name, rules in RULES.items():
        with Case(shell, room, name, types=rules) as case:
            times = []
            for job in range(1, RUNS + 1):
                case.submit(job, b"q%d" % job)
                times.append(case.ask(b"close %d x\n" % job))
        print(f"  close, by {name}: {1000 * min(times):.2f} ms at least, {1000 * max(times):.2f} at most", flush=True)


def main():
    with tempfile.TemporaryDirectory(dir=os.getcwd()) as room:
        run_parts(rates, documents, closes, words=(given_program(1), room))


if __name__ == "__main__":
    main()
