"""A service that fails over between two hosts of a replicated volume.

The volume is one of GlusterFS with three bricks on this machine, mounted twice as by two hosts (harness/failover_volume.py). So this tests
processes that die and a network that fails; it does not test power failures of a machine with its own disk. It needs Debian's packages
glusterfs-server, glusterfs-client and attr, root and /dev/fuse. All tests run in namespaces of their own, within test_in_namespaces.

- One host serves while jobs arrive and are printed. Then its service is killed, or the client of its mount, or a brick and the service, and
  the other host opens the spool: each acknowledged job exists, each reported end remains, no attempt prints twice, and a job is printed
  again only if an attempt was lost with its host.
- If both hosts start at once, one serves, and the other one fails with `owned`.
- Without a quorum of bricks the command in progress gets no reply, and nothing more is acknowledged. When the bricks are back,
  everything that was acknowledged before is on the volume, and nothing that was refused.
- A host that is cut off keeps the spool until the volume releases its locks. Then the other one opens it, and later writes of the first one
  are refused, because the volume has the option client.strict-locks. The same applies if the bricks are restarted in turn.

The seconds until the other host replies are printed. The environment's FAILOVER_TIMES is
the number of failovers. With FAILOVER_CARELESS the volume and its mounts are configured without the options that examples/office/failover
requires. Then `fast_alternation`, `a_host_that_is_cut_off` and `bricks_that_are_restarted` must be seen to fail: choose each of them alone,
with PYTEST_ADDOPTS="-k NAME".
"""
import contextlib
import os
import random
import shutil
import subprocess
import sys
import tempfile
import threading
import time
from pathlib import Path

import pytest

from harness import failover_volume
from harness.checks import Difference, holds, listens, LONGEST, same, until, words_of_faults
from harness.failover_volume import Volume
from harness.programs import SERVICE
from harness.service import Client, Gone, Submitter, TYPE
from test_first_start import COUNTS, SIZES, trial

pytestmark = pytest.mark.needs("spool_service")

SIZE = 8_388_608
OWNED = "spool: disk\nspool: cause: owned\n"
QUEUES = {"slow": 0.3, "quick": 0}

# The number of jobs that are created before the same number is printed.
AHEAD = 20

# The options of the volume: a client whose connection was lost may not write to a file that it had locked; a client that is silent for this
# number of seconds has lost its connection; and no client replies from its cache.
CARELESS = bool(os.environ.get("FAILOVER_CARELESS"))
OPTIONS = [("client.strict-locks", "on"), ("server.tcp-user-timeout", "10"), ("performance.quick-read", "off"),
           ("performance.stat-prefetch", "off"), ("performance.open-behind", "off")]

# The printers of both hosts are one file: the job, its attempt and the document.
BACKEND = """#!/bin/sh
sleep "${DEVICE_URI##*/}"
text=$(cat "${6:--}") || exit 1
echo "$1 $SPOOL_ATTEMPT $text" >>FOLDER/printed
"""

# The log of a device that has failed.
FAILED = ("error disk", "error dead")


class Seat:
    """The spool as one host serves it."""

    service = SERVICE

    def __init__(self, cluster, host):
        self.cluster, self.host = cluster, host
        self.socket = cluster.at(f"{host.name}.sock")
        self.log = cluster.at(f"{host.name}.log")
        self.running = None
        self.refused = 0

    def command(self):
        return [self.service, "--root", os.path.join(self.host.path, self.cluster.name), "--size", str(SIZE), "--listen", self.socket,
                "--programs", self.cluster.at("programs"), "--keep", "1000000", "--quiet"]

    def launch(self):
        with open(self.log, "wb") as log:
            streams = {"stdin": subprocess.DEVNULL, "stdout": subprocess.DEVNULL, "stderr": log}
            self.running = subprocess.Popen(self.command(), **streams)

    def fault_log(self):
        """Why it ended: the log lines about a fault."""
        with open(self.log, encoding="utf-8") as file:
            return words_of_faults("".join(line for line in file if line.startswith(("spool: disk\n", "spool: cause: "))))

    def serves(self):
        """Whether it replies. A service that fails because another program owns the folder is started again, as a systemd unit is."""
        if self.running.poll() is not None:
            holds(f"the service of {self.host.name} ended with {self.running.returncode}: {self.fault_log()}", self.fault_log() == OWNED)
            self.refused += 1
            self.launch()
        return listens(self.socket)

    def kill(self):
        self.running.kill()
        self.running.wait()

    def end(self):
        if self.running and self.running.poll() is None:
            self.kill()

    def refusal(self):
        """A start that ends at once: its status and its log."""
        done = subprocess.run(self.command(), capture_output=True, text=True, timeout=LONGEST)
        return done.returncode, words_of_faults(done.stderr)


class Cluster:
    """A spool on the volume, and the two hosts that may serve it."""

    def __init__(self, volume, name):
        self.volume, self.name = volume, name
        self.path = volume.at("local", name)
        os.mkdir(self.path)
        os.mkdir(os.path.join(volume.hosts[0].path, name))
        Path(self.at("backend")).write_text(BACKEND.replace("FOLDER", self.path))
        os.chmod(self.at("backend"), 0o755)
        Path(self.at("programs")).write_text(f"backend slow {self.at('backend')}\n")
        self.seats = [Seat(self, host) for host in volume.hosts]
        self.current = self.seats[0]

    def at(self, name):
        return os.path.join(self.path, name)

    @property
    def socket(self):
        """The socket of the host that serves, for clients."""
        return self.current.socket

    def other(self):
        return self.seats[1 - self.seats.index(self.current)]

    def open(self):
        """Starts the service on the spool's host. Returns the seconds until it replies."""
        began = time.monotonic()
        self.current.launch()
        until("the service", self.current.serves, 120)
        return time.monotonic() - began

    def make_queues(self):
        client = Client(self)
        for queue, seconds in QUEUES.items():
            client.does(f"queue {queue} slow:/{seconds} {TYPE} retry-current-job 0 0")
        client.close()

    def printed(self):
        """The output of the printers: the job, its attempt and its text for each page."""
        if not os.path.exists(self.at("printed")):
            return []
        with open(self.at("printed"), encoding="utf-8") as file:
            return [(int(job), int(attempt), text) for job, attempt, text in (line.split() for line in file)]

    def end(self):
        for seat in self.seats:
            seat.end()


def serving(volume, name):
    """A spool with its queues, which the first host serves."""
    cluster = Cluster(volume, name)
    cluster.open()
    cluster.make_queues()
    return cluster


# ---- jobs that arrive while hosts fail

class Clerk(Submitter):
    """A client that continues with the other host if the first one fails: each title becomes a job once."""

    def ask(self, command, how=Client.ask):
        reply = super().ask(command, how)
        if reply in FAILED:
            raise Gone
        return reply


class JobStream:
    """Jobs that are created until it is closed, and the replies about them."""

    def __init__(self, cluster):
        self.cluster = cluster
        self.accepted = {}  # the job and its text, once its close was acknowledged
        self.ended = {}  # the job and its attempts, once its end was reported
        self.open = True
        self.fault = None
        self.thread = threading.Thread(target=self.work)
        self.thread.start()

    def work(self):
        clerk = Clerk(self.cluster)
        try:
            while self.open:
                text = f"page-{len(self.accepted):05}."
                clerk.queue = list(QUEUES)[len(self.accepted) % len(QUEUES)]
                self.accepted[clerk.submit(text)] = text
                # Not many more than are printed.
                while self.open and len(self.cluster.printed()) + AHEAD < len(self.accepted):
                    time.sleep(0.1)
        except (Difference, OSError, ValueError) as fault:
            self.fault = fault

    def check_states(self):
        """The states of all jobs on the host that serves now. They must agree with all earlier replies."""
        if self.fault:
            raise self.fault
        accepted = dict(self.accepted)
        client = Client(self.cluster)
        rows = {int(row[1]): row for row in (line.split() for line in client.listing("jobs\n"))}
        lost = [job for job in accepted if job not in rows]
        same("accepted jobs that are lost", lost, [])
        for job, text in accepted.items():
            same(f"the title of job {job}", rows[job][-1].strip('"'), text)
        again = [job for job in self.ended if rows[job][3] != "9"]
        same("ended jobs that are listed as active", again, [])
        for job in accepted:
            if rows[job][3] == "9" and job not in self.ended:
                self.ended[job] = int(client.fields(job)["attempts"])
        client.close()

    def close(self):
        self.open = False
        self.thread.join()
        if self.fault:
            raise self.fault

    def check(self, failovers):
        """When all have ended: the printed pages."""
        client = Client(self.cluster)
        until("the ends of all jobs", lambda: client.are_in(self.accepted, "9"), 300)
        self.check_states()
        attempts = {job: int(client.fields(job)["attempts"]) for job in self.accepted}
        changed = {job: attempts[job] for job in self.ended if attempts[job] != self.ended[job]}
        same("ended jobs that were started again", changed, {})
        pages = self.cluster.printed()
        same("pages that an attempt printed twice", len(pages) - len({page[:2] for page in pages}), 0)
        for job, attempt, text in pages:
            wanted = self.accepted.get(job)
            same(f"the page of job {job}, attempt {attempt}", (text, attempt <= attempts.get(job, 0)), (wanted, True))
        counts = {job: sum(page[0] == job for page in pages) for job in self.accepted}
        same("jobs that were never printed", [job for job, count in counts.items() if not count], [])
        lost = sum(attempts.values()) - len(attempts)
        holds(f"{lost} attempts were lost in {failovers} failovers of {len(QUEUES)} queues", lost <= failovers * len(QUEUES))
        twice = sum(count - 1 for count in counts.values())
        print(f"  {len(counts)} jobs, {failovers} failovers, {lost} attempts lost with their hosts, {twice} pages again, 0 lost, 0 after their end")


def service_dies(cluster):
    began = time.monotonic()
    cluster.current.kill()
    return began


def client_dies(cluster):
    began = time.monotonic()
    cluster.current.host.kill_client()
    return began


def brick_and_service_die(cluster):
    cluster.volume.heal()
    cluster.volume.kill_brick(random.randrange(3))
    time.sleep(random.uniform(0, 0.4))
    return service_dies(cluster)


FAILURES = {"the service": service_dies, "the mount's client": client_dies, "a brick and the service": brick_and_service_die}

# The kind of the next failure. A brick takes seconds until it is in sync again.
ORDER = (*list(FAILURES)[:2] * 3, list(FAILURES)[2])


def print_seconds(what, seconds):
    seconds = sorted(seconds)
    print(f"  {what}: {len(seconds)} times, median {seconds[len(seconds) // 2]:.2f} s, worst {seconds[-1]:.2f} s")


def fail_over(cluster, fails):
    """The host that serves fails, and the other one opens the spool. Returns the seconds until it replies."""
    old, new = cluster.current, cluster.other()
    # A failure is timed from its start: bricks are healed before it.
    began = fails(cluster)
    cluster.current = new
    new.launch()
    until("the other host", new.serves, 120)
    seconds = time.monotonic() - began
    # A service whose mount has failed ends at its next event, and an idle one when it is fenced.
    old.end()
    return seconds


def repair(cluster, fails):
    old = cluster.other()
    if fails is client_dies:
        old.host.mount_again()
    if fails is brick_and_service_die:
        cluster.volume.start_bricks()


def test_failovers(volume, times):
    """The spool moves from host to host, while jobs arrive and are printed."""
    cluster = serving(volume, "spool")
    stream = JobStream(cluster)
    taken = {name: [] for name in FAILURES}
    try:
        for turn in range(times):
            name = ORDER[turn % len(ORDER)]
            fails = FAILURES[name]
            time.sleep(random.uniform(0.05, 0.9))
            taken[name].append(fail_over(cluster, fails))
            stream.check_states()
            repair(cluster, fails)
            if (turn + 1) % 20 == 0:
                print(f"  {turn + 1} so far, with {len(stream.accepted)} jobs, none of them lost", flush=True)
        stream.close()
        stream.check(times)
        volume.heal()
    finally:
        stream.open = False
        cluster.end()
    for name, seconds in taken.items():
        if seconds:
            print_seconds(f"until the other host replied, after the end of {name}", seconds)
    print_seconds("of all", [second for seconds in taken.values() for second in seconds])
    print(f"  starts that were refused as owned, and repeated: {sum(seat.refused for seat in cluster.seats)}")


def test_fast_alternation(volume, times):
    """The hosts alternate as fast as they can: each opens the file that the other one has just written, although it had the file itself a
    moment ago. A host that reads from its cache would miss events that were acknowledged since.
    """
    cluster = serving(volume, "alternation")
    made, lost, seconds = [], 0, []
    for turn in range(2 * times):
        client = Client(cluster)
        there = {int(row.split()[1]) for row in client.listing("jobs\n")}
        lost += len(set(made) - there)
        made = sorted(there) + [client.create("quick", f"turn-{turn}") for _ in range(3)]
        seconds.append(fail_over(cluster, service_dies))
    cluster.end()
    print_seconds("until the other host replied", seconds)
    same("acknowledged jobs that a host did not find", lost, 0)


# ---- both hosts at once

def test_one_host_has_it(volume):
    """While one host serves, the other one is refused, and so is a second start of the first."""
    cluster = serving(volume, "owned")
    for seat in (cluster.other(), cluster.current):
        same(f"a start on {seat.host.name}", seat.refusal(), (1, OWNED))
    same("the first one continues", Client(cluster).ask('create quick u "t" 1 50 ""\n'), "ok job 1")
    cluster.end()


@pytest.mark.needs("spool_shell")
def test_first_starts_on_two_hosts(volume, times):
    """Programs of both hosts start at once on a fresh folder: one serves, and its acknowledged jobs exist."""
    for turn in range(max(4, times // 2)):
        for count in COUNTS:
            root = tempfile.mkdtemp(dir=volume.hosts[0].path)
            trial(root, count, SIZES[count][turn // 2 % 4], turn % 2 == 0, [host.path for host in volume.hosts])
            shutil.rmtree(root)


# ---- a volume that cannot be written

def test_no_quorum(volume):
    """Two bricks of three have failed: the event in progress gets no reply, and nothing more is acknowledged."""
    cluster = serving(volume, "quorum")
    client = Client(cluster)
    jobs = [client.create("quick", f"title-{number}") for number in range(5)]
    for number in range(2):
        volume.kill_brick(number)
    replies = ask_until_gone(client, 'create quick u "refused" 1 50 ""\n')
    until("the end of the service", lambda: cluster.current.running.poll() is not None)
    same("its end", (cluster.current.running.returncode, cluster.current.fault_log()), (1, "spool: disk\nspool: cause: failed\n"))
    same("its replies", replies, [])
    status, log = cluster.other().refusal()
    holds(f"a start without a quorum ended with {status} and {log!r}", status == 1 and log.startswith("spool: disk\nspool: cause: "))
    volume.start_bricks()
    volume.heal()
    cluster.current = cluster.other()
    cluster.open()
    rows = [line.split() for line in Client(cluster).listing("jobs\n")]
    same("the acknowledged jobs", [int(row[1]) for row in rows if "title-" in row[-1]], jobs)
    refused = [row for row in rows if "refused" in row[-1]]
    holds(f"{len(refused)} jobs of the command in progress", len(refused) <= 1)
    cause = log.splitlines()[1]
    print(f"  replied {replies}; a start meanwhile reported `{cause}`; afterwards {len(jobs)} of {len(jobs)} jobs, and {len(refused)} of the command in progress")
    cluster.end()


def ask_until_gone(client, command, most=5):
    """The replies to a command that is sent `most` times, or until the service closes the connection."""
    replies = []
    with contextlib.suppress(OSError, Difference):
        while len(replies) < most:
            replies.append(client.ask(command))
    return replies


def test_a_host_that_is_cut_off(volume):
    """A host without a network keeps the spool until the volume releases its locks. Then the other host owns it. The first one has an event
    in progress, or none, and when it is back its writes are refused: it ends, and none of its writes is in the spool.
    """
    for is_asked in (True, False):
        cluster = serving(volume, f"cut-{is_asked}")
        cut_off(cluster, is_asked)
        cluster.end()


def cut_off(cluster, is_asked):
    first, client, replies = cluster.current, Client(cluster), []
    jobs = [client.create("quick", "before")]
    asks = threading.Thread(target=lambda: replies.extend(ask_until_gone(client, 'create quick u "late" 1 50 ""\n')))
    began = time.monotonic()
    first.host.cut()
    try:
        if is_asked:
            asks.start()
        cluster.current = cluster.other()
        cluster.current.launch()
        until("the other host", cluster.current.serves, 180)
        seconds = time.monotonic() - began
        second = Client(cluster)
        jobs += [second.create("quick", "after") for _ in range(5)]
    finally:
        first.host.mend()
    until("the first host's mount", first.host.is_mounted)
    if not is_asked:
        asks.start()
    asks.join(120)
    until("the end of the first host's service", lambda: first.running.poll() is not None)
    same("the log of the first host", first.fault_log(), "spool: disk\nspool: cause: failed\n")
    holds(f"the first host replied {replies}", not [reply for reply in replies if reply.startswith("ok")])
    jobs.append(second.create("quick", "last"))
    cluster.current.kill()
    cluster.open()
    rows = [line.split() for line in Client(cluster).listing("jobs\n")]
    same("the jobs", [int(row[1]) for row in rows], jobs)
    under_way = "an event" if is_asked else "nothing"
    print(f"  with {under_way} in progress: the other host replied after {seconds:.1f} s, {cluster.current.refused} times owned before; the first one {replies}")
    first.host.kill_client()
    first.host.mount_again()


def test_bricks_that_are_restarted(volume):
    """Bricks forget locks when they are restarted. Once most of them have, the host that served cannot write any more, and the other one
    opens the spool: at no time do both acknowledge.
    """
    cluster = serving(volume, "restarted")
    client = Client(cluster)
    jobs = []
    for number in range(3):
        volume.kill_brick(number)
        volume.start_bricks()
        volume.heal()
        # The clients reconnect to a brick after some seconds.
        time.sleep(5)
        reply = next(iter(ask_until_gone(client, f'create quick u "brick-{number}" 1 50 ""\n', 1)), "")
        if not reply.startswith("ok job "):
            break
        jobs.append(int(reply.split()[2]))
        same("a start on the other host", cluster.other().refusal(), (1, OWNED))
    holds(f"it replied {reply} after {len(jobs)} bricks", reply in ("", *FAILED))
    volume.heal()
    cluster.current.end()
    cluster.current = cluster.other()
    cluster.open()
    rows = [line.split() for line in Client(cluster).listing("jobs\n")]
    holds(f"the jobs {jobs} exist", set(jobs) <= {int(row[1]) for row in rows})
    print(f"  it continued after {len(jobs)} of 3 bricks were restarted, and then replied {reply!r}")
    cluster.end()


# ---- speed

# Each of the calls of an event goes to three bricks.
MOST_SLOWER = 100


def test_events_a_second(volume, times):
    """One client that waits for each reply: an event takes at most MOST_SLOWER times as long on the volume as on the local disk."""
    cluster = Cluster(volume, "speed")
    rates = {}
    for name in ("the volume", "the local disk"):
        if name == "the local disk":
            local = os.path.join(volume.at("local"), "plain")
            os.makedirs(os.path.join(local, cluster.name))
            host = type("Plain", (), {"path": local, "name": "plain"})()
            cluster.seats[0] = cluster.current = Seat(cluster, host)
        cluster.open()
        cluster.make_queues()
        client = Client(cluster)
        count, began = max(100, 5 * times), time.monotonic()
        for number in range(count):
            holds("create", client.ask(f'create quick u "t{number}" 1 50 ""\n').startswith("ok job"))
        rates[name] = count / (time.monotonic() - began)
        cluster.end()
    text = ", ".join(f"{rate:.0f} on {name}" for name, rate in rates.items())
    holds(f"events per second: {text}", rates["the local disk"] <= MOST_SLOWER * rates["the volume"])


# ---- in namespaces

IS_INSIDE = failover_volume.INSIDE in os.environ
LACKS = failover_volume.lacks()


@pytest.fixture(scope="module")
def volume():
    if not IS_INSIDE:
        pytest.skip("it runs within test_in_namespaces")
    if CARELESS:
        OPTIONS[:] = [option for option in OPTIONS if option[0].startswith("server.")]
        failover_volume.MOUNT.clear()
    made = Volume(OPTIONS)
    yield made
    made.remove()


@pytest.fixture(scope="session")
def times():
    """The number of failovers."""
    return int(os.environ.get("FAILOVER_TIMES", "20"))


@pytest.mark.root
@pytest.mark.alone
@pytest.mark.skipif(IS_INSIDE or bool(LACKS), reason=f"it needs {LACKS}" if LACKS else "it is within")
def test_in_namespaces():
    """Runs the other tests of this file. The first one that fails ends it, because its leftovers may disturb the next one."""
    words = [sys.executable, "-m", "pytest", "-x", "-p", "no:cacheprovider", "-p", "no:xdist", os.path.abspath(__file__)]
    ran = subprocess.run([*failover_volume.INTO, *words], env={**os.environ, failover_volume.INSIDE: "1"}, capture_output=True, text=True)
    print(ran.stdout)
    same("its status", ran.returncode, 0)
