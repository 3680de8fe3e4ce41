"""Tests of when the service acts, and of how much it works: next to a C program that does only the same."""
import random
import subprocess
import time

import pytest

from harness.checks import holds, LONGEST, same, until
from harness.programs import compiled
from harness.service import Client, meanwhile, work_of

pytestmark = [pytest.mark.alone, pytest.mark.needs("gcc")]

# How many times as much processor time, with a child that runs long and with short ones, and as much time until it sees an end, the service may
# take as the C program.
MOST_WORK = 12
MOST_SHORT_WORK = 5
MOST_DELAY = 3


def poll_child(folder):
    """The C program."""
    return compiled("poll_child.c")


def work_in(seconds, processes):
    """The processor time that each of these processes takes meanwhile, in nanoseconds."""
    before = [work_of(process) for process in processes]
    time.sleep(seconds)
    return [work_of(process) - begun for process, begun in zip(processes, before)]


@pytest.mark.needs("plain spool_service")
def test_processor_time(folder):
    """A service whose child runs takes little more processor time than a program that polls a child. An idle service, one of whose clients
    watches and one waits, takes less than that program.
    """
    program = poll_child(folder)
    client, watcher, waiter = folder.open("q", seconds=30), Client(folder), Client(folder)
    folder.queue(client, "held")
    held = client.create("held")
    client.does(f"hold {held} 4000000000")
    watcher.does("watch")
    waiter.say(f"wait {held}\n")
    with subprocess.Popen([program, "sleep", "120"], stdout=subprocess.DEVNULL) as poller:
        try:
            # After a second the pause between two polls is the longest one.
            time.sleep(3)
            idle, one = work_in(4, [folder.running.pid, poller.pid])
            job = client.submit("q")
            client.until_state(job, "5")
            time.sleep(2)
            busy, other = work_in(4, [folder.running.pid, poller.pid])
            same("it still prints", client.state(job)[0], "5")
        finally:
            poller.kill()
    print(f"  in 4 s: idle {idle / 1e6:.2f} ms, with a child {busy / 1e6:.2f} ms; the C program {one / 1e6:.2f} ms and {other / 1e6:.2f} ms")
    holds("the idle service works less than the C program with a child", idle <= one)
    holds("the service with a child works little more", busy <= MOST_WORK * other)


# A backend that sleeps as long as the title of its job says, and records when it ends.
TIMED = '#!/bin/sh\nsleep "$3"\ndate +%s.%N >FOLDER/ended-$1.new\nmv FOLDER/ended-$1.new FOLDER/ended-$1\n'


def test_ends_are_seen(folder):
    """The time between the end of a child and the reply to who waits for its job is not much longer than the time until the C program sees
    the end of the same child.
    """
    program, chance = poll_child(folder), random.Random(3)
    folder.backend("timed", TIMED)
    client = folder.open("q", scheme="timed")
    naps = [f"{chance.uniform(0.6, 1):.3f}" for _ in range(11)]
    seen, ours = [], []

    def poll(_stop):
        for at, nap in enumerate(naps):
            ran = subprocess.run([program, folder.at("backend-timed"), f"c{at}", "u", nap], capture_output=True, text=True, timeout=LONGEST)
            seen.append(float(ran.stdout.split()[0]))

    with meanwhile(poll):
        for nap in naps:
            job = client.submit("q", title=nap)
            same("its row", client.ask(f"wait {job}\n").split()[3], "9")
            ours.append(time.time() - float(folder.read(f"ended-{job}")))
            same("the end of the rows", client.reply(), "ok 1")
    theirs = [moment - float(folder.read(f"ended-c{at}")) for at, moment in enumerate(seen)]
    print(f"  {len(naps)} children of 0.6 to 1 s: {1_000 * sum(ours) / len(ours):.1f} ms, the C program {1_000 * sum(theirs) / len(theirs):.1f} ms")
    holds("ends are seen about as soon", sum(ours) <= MOST_DELAY * sum(theirs))


@pytest.mark.needs("plain spool_service")
def test_processor_time_of_short_children(folder):
    """While a child runs that lasts some milliseconds, the service sleeps between its checks, as the C program does."""
    program, count = poll_child(folder), 40
    folder.backend("short", "#!/bin/sh\nexec sleep 0.05\n")
    client = folder.open("q", stopped=True, scheme="short")
    jobs = [client.submit("q") for _ in range(count)]
    before = work_of(folder.running.pid)
    client.does("enable q")
    client.say(f"wait {jobs[-1]}\n")
    same("the last one", client.reply().split()[:4], ["job", str(jobs[-1]), "q", "9"])
    ours, theirs = (work_of(folder.running.pid) - before) / 1e6, 0
    for _ in range(count):
        ran = subprocess.run([program, folder.at("backend-short")], capture_output=True, text=True, timeout=LONGEST)
        theirs += float(ran.stdout.split()[1])
    print(f"  {count} children of 0.05 s: {ours:.1f} ms, the C program {theirs:.1f} ms")
    holds("it sleeps meanwhile", ours <= MOST_SHORT_WORK * theirs)


def test_holds_that_end(folder):
    """A job that is held after its `close`, until a moment, starts at that moment, while no client is connected: also if it was held
    indefinitely before, and if its hold was for longer.
    """
    client = folder.open()
    moment, jobs = int(time.time()) + 9, []
    for name, earlier in (("plain", None), ("indefinite", "indefinite"), ("longer", 4_000_000_000), ("shorter", int(time.time()) + 2)):
        folder.queue(client, name)
        client.does(f"disable {name}")
        job = client.submit(name, f"{name}\n")
        if earlier:
            client.does(f"hold {job} {earlier}")
        client.does(f"hold {job} {moment}", f"enable {name}")
        jobs.append(job)
    same("they are held", sorted(set(client.states().values())), ["4 job-hold-until-specified"])
    client.close()
    until("one is printed", lambda: folder.printed() != "")
    first = time.time()
    until("all are printed", lambda: len(folder.printed().split()) == len(jobs))
    print(f"  {len(jobs)} holds that ended were over {first - moment:.2f} to {time.time() - moment:.2f} s later")
    holds("not before the moment", moment <= first)
    # As soon as a job whose hold ends while it has no document: within a second, and the time of a start.
    holds("and soon", time.time() < moment + 20)
    client = Client(folder)
    client.until_ended(jobs)
    same("each by one attempt", {client.fields(job)["attempts"] for job in jobs}, {"1"})
