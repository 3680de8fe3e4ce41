#!/usr/bin/env python3
"""Measures the load that one spool can take: scale.py [--costs FILE] [FOLDER [SHELL [SERVICE [ADMIN]]]]

It runs crates/spool_shell/out/spool_shell, crates/spool_service/out/spool_service and crates/spool_admin/out/spool_admin (built by `rt run`
in those crates), or the programs named, in new folders under FOLDER (default: the current folder), and prints

- `events`: events per second by one program, which waits for each sync of the disk, alternately with two writes and two syncs each by a
  plain C program (floors.c);
- `openings`: for spools of several numbers of waiting jobs, the seconds until the program replies, the seconds of a checkpoint, and the
  memory of the program;
- `queues`: the same with 64 queues, which share the jobs;
- `splits`: the seconds until half of these queues are a spool of their own, the processor seconds, and the memory of the program;
- `bytes`: documents of 16 MiB until a spool of the greatest file is full, and an opening and a checkpoint of it;
- `clients`: jobs of a KiB that are created, sent and closed per second, by 1 to 63 clients on 64 queues, next to the floor of their events.

With `--costs` the figures that `many_spools.py` reads are written to FILE. Times depend on the machine, its disk and its other load, so
each is printed next to its floor, measured just before and after it. No test checks them. The script takes about five minutes.
"""
import json
import os
import statistics
import sys
import tempfile
import time

from harness.checks import at_once, same, timed
from harness.programs import ADMIN, ended, SERVICE, SHELL
from harness.service import Folder, PIECE
from harness.written_spools import rows, spool
from disk import event_seconds
from measures import CREATE, floor, needed, QUEUE, Shell, written
from service import ACCEPTED, CLIENTS, RunningService, share_of, submit_some

QUEUES = 64
EVENTS = 2_000
TURNS = 3
COUNTS = (1_000, 10_000, 100_000, 1_000_000)
GREATEST = 1_073_741_824
DOCUMENT = 16_777_216


class TimedShell(Shell):
    """A shell over a spool, and the seconds until its first reply."""

    def __init__(self, program, root, *words):
        start = time.perf_counter()
        super().__init__("--root", root, *words, program=program)
        self.ask(b"clock 0\n")
        self.opened = time.perf_counter() - start


# ---- events


def events(folder, shell, costs):
    found = []
    for _ in range(TURNS):
        before = floor(folder, EVENTS, 60)
        took, _ = event_seconds(shell, folder, QUEUE, EVENTS * CREATE, EVENTS)
        after = floor(folder, EVENTS, 60)
        found.append((took, (before + after) / 2))
    took, least = (statistics.median(column) for column in zip(*found))
    print(f"  {1 / took:,.0f} events a second, the floor {1 / least:,.0f}, ratio {least / took:.2f}", flush=True)
    costs["event"], costs["event_floor"] = took, least


# ---- openings


def many_rows(count, queues):
    """The listing of `count` waiting jobs, shared among `queues` queues."""
    single = list(rows(count + 2))
    if queues == 1:
        return single
    names = [b"q%02d" % number for number in range(queues)]
    heads = [single[1].replace(b"\x00\x03lab", b"\x00\x03" + name, 1) for name in names]
    others = [row.replace(b"\x00\x03lab", b"\x00\x03" + names[at % queues], 1) for at, row in enumerate(single[2:])]
    return [single[0], *heads, *others]


def openings(folder, shell, costs, queues=1):
    for count in COUNTS:
        contents = spool(many_rows(count, queues))
        root = written(folder, contents)
        raw = timed(lambda: open(os.path.join(root, "spool.disk"), "rb").read())
        with TimedShell(shell, root) as running:
            took = running.ask(b"checkpoint\n")
            least = timed(lambda: written(folder, contents[: len(contents) // 2]))
            memory = running.memory() / 1024
        print(f"  {count:9,} jobs, {len(contents) // 2:,} bytes: opened in {running.opened:.2f} s (read in {raw:.2f} s), checkpoint {took:.2f} s"
              f" (its bytes in {least:.2f} s), {memory:,.0f} MiB", flush=True)
        costs.setdefault(f"opening_{queues}", {})[count] = running.opened
        costs.setdefault(f"checkpoint_{queues}", {})[count] = took


def of_queues(folder, shell, costs):
    openings(folder, shell, costs, QUEUES)


def splits(folder, admin, _costs):
    names = [f"q{number:02d}" for number in range(0, QUEUES, 2)]
    for count in COUNTS:
        contents = spool(many_rows(count, QUEUES))
        root, into = written(folder, contents), tempfile.mkdtemp(dir=folder)
        start = time.perf_counter()
        status, usage = ended([admin, "split", root, into, *names])
        took = time.perf_counter() - start
        same("the end of `split`", status, 0)
        raw = timed(lambda: written(folder, contents))
        print(f"  {count:9,} jobs: {took:.2f} s (its bytes written in {raw:.2f} s), {usage.ru_utime + usage.ru_stime:.2f} s of a processor,"
              f" {usage.ru_maxrss / 1024:,.0f} MiB", flush=True)


# ---- bytes


def of_bytes(folder, shell, costs):
    """Documents of the greatest length, until the greatest file is full."""
    root = tempfile.mkdtemp(dir=folder)
    with TimedShell(shell, root, "--size", str(GREATEST)) as running:
        running.ask(QUEUE)
        took, fits = 0, GREATEST // 2 // (DOCUMENT + DOCUMENT // PIECE * 14 + 200)
        for job in range(1, fits + 1):
            running.ask(CREATE)
            took += running.send(job, DOCUMENT)
        checkpoint = running.ask(b"checkpoint\n")
        memory = running.memory() / 1024
    least = floor(folder, 500, PIECE + 14)
    with TimedShell(shell, root) as again:
        opened = again.opened
    sent = fits * DOCUMENT / 2 ** 20
    print(f"  {fits} documents, {sent:,.0f} MiB: {sent / took:.0f} MiB a second (floor {PIECE / 2 ** 20 / least:.0f}),"
          f" checkpoint {checkpoint:.1f} s, opened in {opened:.2f} s, {memory:,.0f} MiB of memory", flush=True)
    costs["mebibyte"] = took / sent


# ---- clients


def clients(folder, shell, costs):
    # With the client that creates the queues, 63 is the greatest number that the service admits.
    for count in CLIENTS:
        with RunningService(QUEUES, 0) as office:
            office.say_to_all("disable")
            share = share_of(count)
            before = floor(folder, 3 * ACCEPTED, 400)
            tasks = [lambda n=n: submit_some(office, n * share, share) for n in range(count)]
            took = timed(lambda: at_once(tasks)) / (share * count)
            least = 3 * (before + floor(folder, 3 * ACCEPTED, 400)) / 2
        print(f"  {count:3} clients: {1 / took:,.0f} jobs a second, the floor {1 / least:,.0f}, ratio {least / took:.2f}", flush=True)
        costs.setdefault("job_accepted", {})[count] = took


def main():
    words = sys.argv[1:]
    file = None
    if words[:1] == ["--costs"]:
        file, words = words[1], words[2:]
    room, *programs = words or ["."]
    shell, Folder.service, admin = map(needed, [*programs, *(SHELL, SERVICE, ADMIN)[len(programs):]])
    costs = {}
    with tempfile.TemporaryDirectory(dir=room) as folder:
        parts = (("events", events, shell), ("openings", openings, shell), ("queues", of_queues, shell), ("splits", splits, admin),
                 ("bytes", of_bytes, shell), ("clients", clients, shell))
        for name, part, program in parts:
            print(name, flush=True)
            part(folder, program, costs)
    if file:
        with open(file, "w", encoding="ascii") as out:
            json.dump(costs, out, indent=1)


if __name__ == "__main__":
    main()
