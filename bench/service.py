#!/usr/bin/env python3
"""Measures the service with many clients while it prints: service.py [PROGRAM [PART..]]

It runs crates/spool_service/out/spool_service (built by `rt run` in that crate) or PROGRAM, with its spool in TMPDIR:

- `replies`: how long a client waits for a listing while eight queues print, with children that take 5 s (target: 99 of 100 under 50 ms),
  and while eight queues print jobs of 10 ms in turn;
- `accepted`: jobs of a KiB that are created, sent and closed per second, by 1 to 63 clients on one queue and on eight, while nothing
  prints. Each is three events, so six syncs, which it shares with the jobs of other clients in the same turns. With `together` a client
  sends the document and the close without waiting in between, as `spool` does, so a job is four syncs. Alternately with them, TIMES times, the same jobs are sent to a private CUPS
  (tests/harness/cups.py), if Debian's package `cups` is installed and the script runs as root. The script prints the median of each and the
  ratio of the service to CUPS (target: 5 times CUPS with syncs, and at least as much as CUPS without). CUPS's clients keep their
  connection, as those of the service do, and a job is one request, less than the service's three. The script sets two directives of CUPS,
  whatever its defaults: `SyncOnClose` (cups-files.conf(5)) and `DirtyCleanInterval` (cupsd.conf(5)). They are `No` and 30 for `no syncs`,
  `Yes` and 30 for `syncs`, and `Yes` and 0 for `syncs at once`, which is nearest to the promises of the service: with 30, CUPS may write
  its job data up to 30 s after the reply. Neither directive makes CUPS sync a document. With the program `lp` a job is a process of its
  own, with two requests;
- `printed`: jobs per second that one queue and eight queues print with a backend that does nothing, in TIMES runs. Before and after each
  run a C program does the same number of launches and syncs (the floor `whole` of floors.c); the target of the median ratio is 0.9. Ended
  jobs are kept, so the runs have no purges. Each run follows a pause, because ext4 creates new files more slowly if many were removed in
  the seconds before;
- `work`: processor time in ten seconds of the service, idle and with eight children that sleep;
- `memory`: of the service when it is new, with eight documents of a MiB, and while all of them are printed.

`ticks.py real` measures how a slow queue affects fast jobs. Times depend on the machine and its disk, so only the ratios are of interest.
No test checks them. The script prints the load of the machine before and after: on a busy machine the figures mean little. It takes about
five minutes. With PART only these parts are run.
"""
import functools
import os
import statistics
import tempfile
import time

import printing
from harness.checks import at_once, print_times, same, timed
from harness.cups import Cups
from harness.programs import SERVICE
from harness.service import Client, Folder, PIECE
from ipp_client import Connection
from measures import given_program, run_parts, worked

CLIENTS = (1, 4, 16, 63)
QUEUES = (1, 8)
# The number of jobs that are accepted in a run, and the number that are printed in a run, which also enables queues.
ACCEPTED = 192
PRINTED = printing.PART * 4
TIMES = 3
# The pause in seconds before a run. Afterwards files that were removed before no longer slow the file system.
REST = 6
DOCUMENT = "x" * 1_023 + "\n"
MEBIBYTE = 1_048_576


class RunningService:
    """A service in a folder of its own, with `queues` queues and a spool of `size` bytes, and with these further words."""

    def __init__(self, queues, seconds, program=None, size=67_108_864, words=()):
        self.folder = Folder()
        self.folder.size, self.folder.words = size, list(words)
        if program:
            self.folder.write("programs", f"backend slow {program}\n")
        self.names = [f"q{number}" for number in range(queues)]
        self.seconds = seconds

    def __enter__(self):
        self.folder.start("--quiet", "--keep", "1000000")
        self.client = Client(self.folder)
        for name in self.names:
            self.folder.queue(self.client, name, self.seconds)
        return self

    def __exit__(self, *fault):
        self.folder.end()
        self.folder.remove()

    def say_to_all(self, word):
        for name in self.names:
            same(word, self.client.ask(f"{word} {name}\n"), "ok")


# ---- replies


def replies():
    with RunningService(8, 5) as service:
        jobs = [service.client.submit(name) for name in service.names]
        service.client.until_ended(jobs, "5")
        times = ask_for(service, 4)
        print_times("replies while eight children sleep", times)
    with RunningService(8, 0.01) as service:
        for _ in range(40):
            for name in service.names:
                service.client.submit(name)
        print_times("replies while eight queues print", ask_for(service, 4))


def ask_for(service, seconds):
    """The time of each listing of a client that asks for `seconds` seconds."""
    client, times, end = Client(service.folder), [], time.time() + seconds
    while time.time() < end:
        times.append(timed(lambda: client.listing("queues\n")))
        time.sleep(0.005)
    return times


# ---- accepted and printed


def submit_some(service, first, count, together=False):
    client = Client(service.folder)
    for number in range(first, first + count):
        job = client.create(service.names[number % len(service.names)])
        if together:
            client.finish_at_once(job, DOCUMENT)
        else:
            client.finish(job, DOCUMENT)
    client.close()


def share_of(clients, count=ACCEPTED):
    """The jobs of each client, so that all have about this number."""
    return max(1, count // clients)


def accepted_by_service(queues, clients, together=False):
    """Jobs per second that the service accepts."""
    with RunningService(queues, 0) as service:
        service.say_to_all("disable")
        share = share_of(clients)
        tasks = [lambda n=n: submit_some(service, n * share, share, together) for n in range(clients)]
        return share * clients / timed(lambda: at_once(tasks))


def accepted_by_cups(queues, clients, syncs, interval, program=False):
    """Jobs per second that CUPS accepts, by requests or by the program lp."""
    with Cups(syncs, interval) as cups:
        for number in range(queues):
            cups.queue(f"q{number}")
            cups.hold(f"q{number}")
        share = share_of(clients, ACCEPTED // 4 if program else ACCEPTED)
        document = cups.write("document", DOCUMENT)

        def submit_share(first):
            connection = None if program else Connection(cups.socket)
            for number in range(first, first + share):
                queue = f"q{number % queues}"
                if program:
                    cups.run("lp", "-d", queue, document)
                else:
                    connection.submit(queue, DOCUMENT.encode())

        tasks = [lambda n=n: submit_share(n * share) for n in range(clients)]
        return share * clients / timed(lambda: at_once(tasks))


# One row of the comparison: its name, and the jobs per second that it accepts from `clients` clients on `queues` queues.
WAYS = {
    "the service": accepted_by_service,
    "the service, together": lambda queues, clients: accepted_by_service(queues, clients, True),
    "CUPS, no syncs": lambda queues, clients: accepted_by_cups(queues, clients, False, 30),
    "CUPS, syncs": lambda queues, clients: accepted_by_cups(queues, clients, True, 30),
    "CUPS, syncs at once": lambda queues, clients: accepted_by_cups(queues, clients, True, 0),
    "lp, no syncs": lambda queues, clients: accepted_by_cups(queues, clients, False, 30, True),
    "lp, syncs at once": lambda queues, clients: accepted_by_cups(queues, clients, True, 0, True),
}


def accepted():
    missing = Cups.missing()
    if missing:
        print(f"  left out: {missing}")
    ways = {name: way for name, way in WAYS.items() if not missing or name.startswith("the service")}
    for queues in QUEUES:
        here = {name: functools.partial(way, queues) for name, way in ways.items()}
        print_rates(f"jobs accepted per second on {queues} queues, by clients", CLIENTS, medians(here, CLIENTS))


def medians(ways, places):
    """The median of each way in each place. The ways take turns, so that other load on the machine affects all of them."""
    found = {name: [[] for _ in places] for name in ways}
    for _ in range(TIMES):
        for number, place in enumerate(places):
            for name, way in ways.items():
                found[name][number].append(way(place))
    return {name: [statistics.median(runs) for runs in rates] for name, rates in found.items()}


def print_rates(title, places, rates):
    """Prints the rates of each way in each place, and the ratios of the first way to the others."""
    first = next(iter(rates))
    for name, row in rates.items():
        shown = ", ".join(f"{place} {rate:,.1f}" for place, rate in zip(places, row))
        above = ", ".join(f"{mine / rate:.2f}" for mine, rate in zip(rates[first], row))
        print(f"  {title}: {name}: {shown}" + ("" if name == first else f"; ratio of {first} {above}"), flush=True)


def printed():
    with tempfile.TemporaryDirectory() as room:
        for queues in QUEUES:
            runs = [with_floors(room, queues) for _ in range(TIMES)]
            took, floor = (statistics.median(column) for column in zip(*runs))
            ratio = statistics.median(floor / took for took, floor in runs)
            print(f"  jobs printed per second by {queues} queues: {1 / took:.0f}, floor {1 / floor:.0f}, ratio {ratio:.2f}", flush=True)


def with_floors(room, queues):
    """The seconds of a job of the service, and of one of the floor."""
    disk = os.path.join(room, "disk")

    def floor():
        time.sleep(REST)
        return printing.launched(room, queues, disk, jobs=PRINTED)

    before = floor()
    time.sleep(REST)
    took = print_all(queues)
    after = floor()
    return took / PRINTED, (before + after) / 2 / PRINTED


def print_all(queues):
    """The seconds until `queues` queues have printed all their jobs."""
    with RunningService(queues, 0, printing.PROGRAM) as service:
        service.say_to_all("disable")
        submit_some(service, 0, PRINTED)
        waits = "".join(f"wait {job}\n" for job in range(1, PRINTED + 1))

        def print_them():
            service.say_to_all("enable")
            service.client.say(waits)
            for _ in range(2 * PRINTED):
                service.client.reply()

        return timed(print_them)


# ---- work and memory


def work():
    with RunningService(8, 15) as service:
        time.sleep(1)
        idle = work_of(service)
        jobs = [service.client.submit(name) for name in service.names]
        service.client.until_ended(jobs, "5")
        print(f"  processor time in 10 s: idle {idle:.0f} ms, with eight children {work_of(service):.0f} ms")


def work_of(service):
    return worked(service.folder)


def memory():
    with RunningService(8, 2) as service:
        nothing = service.folder.memory()
        for job, name in enumerate(service.names, 1):
            same("create", service.client.create(name), job)
            for _ in range(MEBIBYTE // PIECE):
                service.client.ask(f"send {job} {PIECE}\n" + PIECE * "x" + "\n")
        kept = service.folder.memory()
        for job in range(1, 9):
            service.client.ask(f"close {job} x\n")
        service.client.until_ended(range(1, 9), "5")
        print(f"  memory: {nothing} KiB, with eight documents of a MiB {kept} KiB, while they print {service.folder.memory()} KiB")


def main():
    Folder.service = given_program(1, SERVICE)
    run_parts(replies, accepted, printed, work, memory)


if __name__ == "__main__":
    main()
