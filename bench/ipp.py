#!/usr/bin/env python3
"""Measures the IPP front next to CUPS, by the same client: ipp.py [PROGRAM [PART..]]

It runs crates/spool_ipp/out/spool_ipp (built by `rt run` in that crate) or PROGRAM over crates/spool_service/out/spool_service, with the spool
in TMPDIR. In the same runs, in turn with it, the same requests are sent to a private CUPS (tests/harness/cups.py), if Debian's package `cups`
is installed and the script runs as root. Both are asked over their Unix sockets by a client that keeps its connection:

- `print_job`: documents that are accepted per second by Print-Job, of 1 to 4,096 KiB, on 1 to 32 connections, while nothing prints. The
  targets: the rate of CUPS without syncs on 8 and on 32 connections, 0.8 of it on one, and 5 times the rate of CUPS with syncs;
- `create_job`: the same by Create-Job and Send-Document, the two requests of the program lp;
- `printer`: answers to Get-Printer-Attributes per second, with all attributes;
- `listing`: answers to Get-Jobs per second for 500 and 10,000 jobs, with the attributes that `lpstat -o` requests;
- `memory`: the most memory that each has resident while 40 clients send documents of 16 MiB slowly. The target of the front is 256 KiB for
  each client. Only 12 MiB of each document are sent, because not all of them have room in the largest spool.

`no syncs`, `syncs` and `syncs at once` of CUPS are those of service.py. CUPS syncs no document with any of them, while the service syncs
each piece. The front makes three events of a job with a short document, with four syncs, which it shares with other jobs of the
same turns.

The script prints medians of several runs, and the ratios of the front to CUPS. Times depend on the machine and its disk, so only the ratios
are of interest. The requests of the first three parts are sent by ipp_load.c, one process that waits for all connections, so that the time of
the client hardly counts. No test checks the rates. The script prints the load of the machine before and after: on a busy machine the figures
mean little. It takes about half an hour. With PART only these parts are run.
"""
import contextlib
import functools
import os
import statistics
import subprocess
import tempfile
import time
from collections import namedtuple

from harness import ipp
from harness.checks import at_once, same, timed
from harness.cups import Cups
from harness.files import write
from harness.programs import compiled, IPP, SERVICE
from harness.service import memory_of, PIECE
from ipp_client import Connection, JOB_NUMBER
from measures import given_program, needed
from service import medians, print_rates, run_parts, RunningService, share_of, TIMES

CONNECTIONS = (1, 8, 32)
# The length of a document in KiB, and the number of documents in a run.
DOCUMENTS = {1: 960, 8: 960, 64: 480, 4_096: 32}
QUEUE = "q0"
SPOOL = 1_073_741_824
ANSWERS = 1_920
LISTED = {500: 24, 10_000: 4}
FILLING = 8
# The clients that send slowly, the length of a document, and the bytes of it that are sent, in pieces with a pause between them.
SLOW, LONG, SENT, PAUSE = 40, 16_777_216, 12_582_912, 0.05

# The attributes of a job that `lpstat -o` requests.
COLUMNS = (
    "job-id", "job-k-octets", "job-name", "job-originating-user-name", "job-printer-state-message", "job-printer-uri", "job-state-reasons",
    "time-at-creation",
)

# A server that runs: its socket, and its process.
Server = namedtuple("Server", "socket process")


@contextlib.contextmanager
def front():
    """The front of a service with a queue that prints nothing."""
    with RunningService(1, 0, size=SPOOL) as service:
        service.say_to_all("disable")
        with ipp.Ipp(service.folder) as started:
            yield Server(started.local, started.running.pid)


@contextlib.contextmanager
def cups(syncs, interval):
    """CUPS with a queue that prints nothing."""
    with Cups(syncs, interval) as started:
        started.queue(QUEUE)
        started.hold(QUEUE)
        yield Server(started.socket, started.program.pid)


SERVERS = {
    "the front": front,
    "CUPS, no syncs": lambda: cups(False, 30),
    "CUPS, syncs": lambda: cups(True, 30),
    "CUPS, syncs at once": lambda: cups(True, 0),
}


def servers(*names):
    """The servers with these names that this machine has, or all."""
    missing = Cups.missing()
    if missing:
        print(f"  left out: {missing}")
    return {name: way for name, way in SERVERS.items() if (not names or name in names) and (not missing or way is front)}


def rate(server, connections, count, act):
    """How often per second this many connections together do something, `count` times in all."""

    def share():
        connection = Connection(server.socket)
        for _ in range(share_of(connections, count)):
            act(connection)
        connection.close()

    return share_of(connections, count) * connections / timed(lambda: at_once([share] * connections))


def answered(server, requests, count, connections):
    """How often per second a server answers these requests on this many connections, `count` times in all."""
    each = share_of(connections, count)
    with tempfile.TemporaryDirectory() as room, server() as started:
        files = [write(os.path.join(room, str(number)), request) for number, request in enumerate(requests)]
        words = [compiled("ipp_load.c"), started.socket, str(connections), str(each), *files]
        seconds = float(subprocess.run(words, check=True, stdout=subprocess.PIPE).stdout)
    return each * connections / seconds


# ---- documents


def documents(name, requests_of):
    for kibibytes, count in DOCUMENTS.items():
        requests = requests_of(QUEUE, b"x" * (kibibytes * 1_024))
        ways = {key: functools.partial(answered, server, requests, count) for key, server in servers().items()}
        print_rates(f"documents of {kibibytes} KiB by {name} per second, by connections", CONNECTIONS, medians(ways, CONNECTIONS))


def print_job():
    documents("Print-Job", Connection.print_job)


def create_job():
    documents("Create-Job and Send-Document", Connection.create_job)


# ---- answers


def printer():
    requests = Connection.get_printer(QUEUE)
    ways = {name: functools.partial(answered, server, requests, ANSWERS) for name, server in servers("the front", "CUPS, no syncs").items()}
    print_rates("answers to Get-Printer-Attributes per second, by connections", CONNECTIONS, medians(ways, CONNECTIONS))


def listing():
    """The servers have the same jobs, which are created once, and answer in turn."""
    with contextlib.ExitStack() as stack:
        started = {name: stack.enter_context(server()) for name, server in servers("the front", "CUPS, no syncs").items()}
        before = 0
        for jobs, count in LISTED.items():
            for server in started.values():
                rate(server, FILLING, jobs - before, lambda connection: connection.submit(QUEUE, b"x"))
            before = before + (jobs - before) // FILLING * FILLING
            ways = {name: functools.partial(listed, server, before, count) for name, server in started.items()}
            print_rates(f"answers to Get-Jobs per second with {before} jobs, by connections", CONNECTIONS[:1], medians(ways, CONNECTIONS[:1]))


def listed(server, jobs, count, connections):
    return rate(server, connections, count, lambda connection: same("jobs", ask_for_jobs(connection), jobs))


def ask_for_jobs(connection):
    """The number of jobs of a listing."""
    return connection.exchange(ipp.GET_JOBS, QUEUE, ipp.attribute(ipp.KEYWORD, "requested-attributes", *COLUMNS)).count(JOB_NUMBER)


# ---- memory


def memory():
    for name, server in servers("the front", "CUPS, no syncs").items():
        idle, busy = zip(*(memory_of_slow(server) for _ in range(TIMES)))
        each = statistics.median(after - before for before, after in zip(idle, busy)) / SLOW
        shown = f"idle {statistics.median(idle)} KiB, with {SLOW} clients {statistics.median(busy)} KiB, {each:.0f} KiB a client"
        print(f"  memory of {name}: {shown}", flush=True)


def memory_of_slow(server):
    """The memory of a server in KiB, idle and while clients send documents slowly."""
    with server() as started:
        connection = Connection(started.socket)
        connection.exchange(ipp.GET_PRINTER, QUEUE)
        idle = memory_of(started.process)
        clients = [Connection(started.socket) for _ in range(SLOW)]
        for client in clients:
            client.begin(QUEUE, LONG)
        for _ in range(SENT // PIECE):
            for client in clients:
                client.connection.sendall(b"x" * PIECE)
            time.sleep(PAUSE)
        busy = memory_of(started.process, "VmHWM")
        for client in clients:
            client.close()
        return idle, busy


def main():
    ipp.IPP = given_program(1, IPP)
    needed(SERVICE)
    run_parts(print_job, create_job, printer, listing, memory)


if __name__ == "__main__":
    main()
