"""Tests of the limits of the loop and of the launcher: how long it waits, how often it polls, and how many descriptors it leaves free."""
import os
import resource
import time

import pytest

from harness.checks import holds, LONGEST, same, until
from harness.programs import compiled
from harness.service import checkpoints, Client, WAITS

pytestmark = pytest.mark.needs("gcc")

# How many times as fast the monotonic clock of the service runs.
FASTER = 20

HOUR = 3_600


def watched(folder, **environment):
    """Lets the service load the library that watches its calls and changes its clocks."""
    library = compiled("fast_clock.c", "-shared", "-fPIC")
    folder.environment = {"LD_PRELOAD": library, **environment}


def calls(folder):
    """How often the service has polled and napped, and how many descriptors it has tested."""
    return [int(word) for word in folder.read("calls").split()]


# ---- how long it waits

# A command whose event takes much room.
INFO = f'info q "{"i" * 120}" "{"l" * 120}"\n'


def test_a_full_journal_is_emptied(folder):
    """If an event was refused because the journal is full, and the last checkpoint took so long that the next one must wait, that one is made
    in time although no client says anything.
    """
    watched(folder, SLOW_SYNCS=folder.at("slow"))
    folder.size = 16_384
    client = folder.open("q", words=["--room", "5"])

    def fill(made):
        """Writes events until this many checkpoints have been made. If the disk is slow, the journal may be full before the next one is due."""
        until(f"{made} checkpoints", lambda: client.ask(INFO) in ("ok", "error full") and made <= checkpoints(folder))

    fill(2)
    folder.write("slow", "")
    fill(3)
    os.remove(folder.at("slow"))
    made, took = 3, int(folder.log().rsplit("checkpoint took ", 1)[1].split()[0])
    ended, reply = time.time(), "ok"
    while reply == "ok":
        reply = client.ask(INFO)
    same("the journal", (reply, checkpoints(folder)), ("error full", made))
    client.close()
    until("a checkpoint", lambda: made < checkpoints(folder))
    waited = time.time() - ended
    print(f"  a checkpoint took {took} ms, and the next one was made {1000 * waited:.0f} ms later")
    holds("it was paid for", took / 100 <= waited + 0.05)
    holds("and made in time", waited <= took / 100 + 20)
    same("an event", Client(folder).ask(INFO), "ok")


def test_a_set_clock_is_noticed(folder):
    """If the system's clock is set forward while the service has nothing to do, it notices within a minute."""
    watched(folder, FASTER=str(FASTER), CLOCK_JUMP=folder.at("jump"))
    client = folder.open("q")
    job = client.create("q")
    client.does(f"hold {job} {int(time.time()) + HOUR}")
    client.finish(job)
    client.close()
    time.sleep(2)
    folder.write("jump", "")
    until("it is printed", lambda: folder.printed() != "", 60 / FASTER + 20)


def test_a_shutdown_waits_a_minute(folder):
    """A service that must end waits a minute for a child, and then ends. The job has lost its attempt."""
    watched(folder, FASTER=str(FASTER))
    client = folder.open("q", seconds=30, policy="abort-job")
    job = client.submit("q")
    client.until_state(job, "5")
    began = time.time()
    client.does("shutdown")
    same("status", folder.running.wait(LONGEST), 0)
    waited = (time.time() - began) * FASTER
    print(f"  it ended after {waited:.0f} s of its time")
    holds("a minute", 59 < waited < 300)
    folder.environment = {}
    folder.start()
    same("the job", Client(folder).state(job), "8 attempt-lost")


# ---- how often it polls

# The most polls and naps for a child of 30 ms that is alone. The service first polls it after 2 ms, then each time after a sixteenth of the time
# that it has run: 16 times until it has run for twice as long.
MOST_POLLS = 75
MOST_NAPS = 42


def test_polls_of_a_child(folder):
    """The service polls a child at pauses that grow with its time, sleeps meanwhile, and first polls a child after the time of the previous
    one.
    """
    count = 30
    watched(folder, WATCHED_CALLS=folder.at("calls"))
    folder.backend("short", "#!/bin/sh\nexec sleep 0.03\n")
    client = folder.open("q", scheme="short")
    polled, napped = [], []
    for _ in range(count):
        job = client.create("q")
        client.finish(job)
        before = calls(folder)
        client.say(f"wait {job}\n")
        same("the end", client.reply().split()[3], "9")
        same("the end of the rows", client.reply(), "ok 1")
        after = calls(folder)
        polled.append(after[0] - before[0])
        napped.append(after[1] - before[1])
    polled, napped = sorted(polled), sorted(napped)
    print(f"  {count} children of 30 ms: {polled[0]} to {polled[-1]} polls each, median {polled[count // 2]}, naps {napped[count // 2]}")
    holds("it sleeps between two polls", polled[count // 2] <= MOST_POLLS)
    holds("it waits with the first poll", napped[count // 2] <= MOST_NAPS)


# ---- the turns of queues

def test_queues_have_turns(folder):
    """If fewer children may run than queues have jobs, the queues have turns: none is passed over, whatever the name of the queue."""
    folder.backend("fast", '#!/bin/sh\ncat "${6:--}" >>FOLDER/printed\n')
    for most in (1, 2):
        folder.write("printed", "")
        names = ["a", "b", "c", "d", "e"]
        client = folder.open(*(names if most == 1 else []), words=["--children", str(most)], scheme="fast")
        client.does(*(f"disable {name}" for name in names))
        jobs = [client.submit(name, f"{name}\n") for _ in range(4) for name in names]
        client.say("".join(f"enable {name}\n" for name in names))
        same("enable", [client.reply() for _ in names], ["ok"] * len(names))
        client.until_ended(jobs)
        printed = folder.printed().split()
        counts = [[printed[:end].count(name) for name in names] for end in range(len(printed) + 1)]
        holds(f"no queue with {most} at once is ahead: {printed}", all(max(some) - min(some) <= most for some in counts))
        same("all are printed", counts[-1], [4] * len(names))
        folder.kill()


# ---- descriptors

# How many descriptors a start uses, how many remain for clients, for how many starts the service tests them at once, and how often a start
# opens the empty device.
START = 10
SPARE = 16
MOST_STARTS = 4
OPENED = 2


def leave_free(folder, count):
    """Limits the descriptors of the service so that it can open `count` more. None removes the limit."""
    used = sorted(int(name) for name in os.listdir(f"/proc/{folder.running.pid}/fd"))
    most = resource.prlimit(folder.running.pid, resource.RLIMIT_NOFILE)[1]
    limit = most
    if count is not None:
        free = [number for number in range(used[-1] + count + 2) if number not in used]
        limit = free[count]
    resource.prlimit(folder.running.pid, resource.RLIMIT_NOFILE, (limit, most))


def test_descriptors_for_a_start(folder):
    """A child is started if there are descriptors for a start, beyond those that remain for clients. What was seen of them is valid only for a
    moment. The next second is another attempt, also without a client.
    """
    folder.backend("counts", WAITS.replace("while", 'echo "$1" >>FOLDER/started\nwhile', 1))
    client = folder.open("a", "b", stopped=True, scheme="counts", policy="abort-job")
    for free, wanted in ((SPARE + START - 1, 0), (SPARE + START, 1)):
        folder.write("started", "")
        jobs = [client.submit(name) for name in ("a", "b")]
        leave_free(folder, free)
        client.say("enable a\nenable b\n")
        same("enable", (client.reply(), client.reply()), ("ok", "ok"))
        time.sleep(0.5)
        same(f"the starts with {free} free descriptors", len(folder.read("started").split()), wanted)
        leave_free(folder, None)
        until("both are started", lambda: len(folder.read("started").split()) == 2)
        folder.write("go", "")
        client.until_ended(jobs)
        os.remove(folder.at("go"))
        same("their attempts", {client.fields(job)["attempts"] for job in jobs}, {"1"})
        client.does(*(f"disable {name}" for name in ("a", "b")))
    folder.write("started", "")
    jobs = [client.submit(name) for name in ("a", "b")]
    client.does("enable a")
    until("the first", lambda: len(folder.read("started").split()) == 1)
    time.sleep(0.1)
    leave_free(folder, SPARE + START - 1)
    client.does("enable b")
    time.sleep(0.3)
    same("the starts after 0.1 s", len(folder.read("started").split()), 1)
    leave_free(folder, None)
    folder.write("go", "")
    client.until_ended(jobs)


def test_descriptors_are_tested_once(folder):
    """The starts of a tick share a test of the descriptors, for four starts and some for clients."""
    watched(folder, WATCHED_CALLS=folder.at("calls"))
    names = [f"q{number}" for number in range(MOST_STARTS)]
    client = folder.open(*names, scheme="ends")
    found = []
    for _ in range(5):
        client.does(*(f"disable {name}" for name in names))
        jobs = [client.submit(name) for name in names]
        before = calls(folder)[2]
        client.say("".join(f"enable {name}\n" for name in names))
        same("enable", [client.reply() for _ in names], ["ok"] * len(names))
        client.until_ended(jobs)
        found.append(calls(folder)[2] - before - OPENED * len(names))
    print(f"  four starts opened the empty device for tests {found} times")
    same("the descriptors of a test", min(found), SPARE + MOST_STARTS * START)
