#!/usr/bin/env python3
"""Draws how the time of openings, listings, checkpoints and accepted jobs grows: plots.py [FOLDER]

It writes opening.svg, listing.svg, checkpoint.svg and accepted.svg into FOLDER (default: out/plots at the top of the repository), and prints
their points, each with the load of the machine. Openings, listings and checkpoints are in processor time of the program, which other load
changes little; accepted jobs are by the clock. Each picture has a dotted line of constant time for each record, or of the rate of one client.

It needs matplotlib (Debian's package python3-matplotlib), and takes some minutes.
"""
import os
import subprocess
import sys
import tempfile

import matplotlib

from harness.checks import at_once, timed
from harness.programs import ended, ROOT, SERVICE, SHELL
from harness.written_spools import jobs, rows, sends, spool
from measures import spool_folder
from service import ACCEPTED, RunningService, submit_some

matplotlib.use("svg")
from matplotlib import pyplot  # noqa: E402

COUNTS = (1_000, 3_000, 10_000, 30_000, 100_000)
CLIENTS = (1, 2, 4, 8, 16)


def processor_time(folder, contents, script):
    """The seconds of processor time of the shell that serves a script over a spool: the least of three."""
    took = []
    for _ in range(3):
        with spool_folder(folder, contents) as root, tempfile.TemporaryFile() as given:
            given.write(script)
            given.seek(0)
            status, usage = ended([SHELL, "--root", "."], cwd=root, stdin=given, stdout=subprocess.DEVNULL)
        if status:
            sys.exit(f"the shell ended with {status}")
        took.append(usage.ru_utime + usage.ru_stime)
    return min(took)


def openings(folder):
    """Openings of journals of jobs and of documents in pieces, and of a listing."""
    nothing = processor_time(folder, spool([]), b"")
    for name, kind in (("jobs", jobs), ("pieces of documents", sends), ("rows of a listing", rows)):
        yield name, [processor_time(folder, spool(kind(count)), b"") - nothing for count in COUNTS]


def listings(folder):
    """The replies to `jobs`, beyond the opening."""
    contents = [spool(rows(count)) for count in COUNTS]
    yield "jobs", [processor_time(folder, it, b"jobs\n") - processor_time(folder, it, b"") for it in contents]


def checkpoints(folder):
    """Checkpoints, beyond the opening."""
    contents = [spool(rows(count)) for count in COUNTS]
    yield "rows", [processor_time(folder, it, b"checkpoint\n") - processor_time(folder, it, b"") for it in contents]


def accepted():
    """Jobs of a KiB that a service accepts per second from some clients, on one queue that prints nothing."""
    with RunningService(1, 0) as service:
        service.say_to_all("disable")
        return [ACCEPTED / timed(lambda n=clients: at_once([lambda: submit_some(service, 0, ACCEPTED // n)] * n)) for clients in CLIENTS]


def draw(to, name, title, places, lines, label, across, floor):
    """A picture of some lines, with both axes in powers of ten, and the lines that begin at the same points and grow by `floor`."""
    _, axes = pyplot.subplots(figsize=(6, 4))
    for word, values in lines:
        drawn = axes.loglog(places, values, marker="o", label=word)[0]
        axes.loglog(places, [values[0] * floor(place / places[0]) for place in places], ":", color=drawn.get_color())
        print(f"{name}, {word}: " + ", ".join(f"{place:,} {value:.3g}" for place, value in zip(places, values)) + f" (load {os.getloadavg()[0]:.1f})", flush=True)
    axes.set(title=title, xlabel=across, ylabel=label)
    axes.legend()
    pyplot.tight_layout()
    pyplot.savefig(os.path.join(to, f"{name}.svg"))
    pyplot.close()


def main():
    to = sys.argv[1] if len(sys.argv) > 1 else os.path.join(ROOT, "out", "plots")
    os.makedirs(to, exist_ok=True)
    with tempfile.TemporaryDirectory() as folder:
        for name, title, kind in (("opening", "Openings", openings), ("listing", "The reply to `jobs`", listings), ("checkpoint", "Checkpoints", checkpoints)):
            draw(to, name, title, COUNTS, list(kind(folder)), "processor time in seconds", "records", lambda times: times)
    if os.path.exists(SERVICE):
        draw(to, "accepted", "Accepted jobs", CLIENTS, [("jobs of 1 KiB", accepted())], "jobs per second", "clients", lambda times: 1)
    else:
        print("accepted: left out, because spool_service is not built")


if __name__ == "__main__":
    main()
