"""Tests of children: no child delays clients or other queues."""
import os
import time

import pytest

from harness.checks import holds, same, until
from harness.child_folder import CHANNEL, SIDE_END
from harness.service import Client, is_there, listings, started, TYPE, undelayed

# A backend that writes its process number and hangs, with a child of its own.
HANGS = """#!/bin/sh
echo $$ >>FOLDER/pids
sleep 1000 &
echo $! >>FOLDER/pids
wait
"""

# The same, and SIGTERM does not end it.
STAYS = """#!/bin/sh
trap '' TERM
echo $$ >>FOLDER/pids
while :; do sleep 1; done
"""

# A backend that reports its start and its end.
BOUNDED = """#!/bin/sh
echo "begins $PRINTER" >>FOLDER/turns
sleep 0.1
echo "ends $PRINTER" >>FOLDER/turns
"""


def test_a_job_prints_while_a_slow_one_does(folder):
    client = folder.open("slow", scheme="waits")
    folder.queue(client, "fast")
    usual = listings(client)
    slow = client.submit("slow", "slow\n")
    client.until_state(slow, "5")
    fast = client.submit("fast", "fast\n")
    client.until_state(fast, "9")
    undelayed("while a child runs", listings(client), usual)
    same("the slow one", client.state(slow)[0], "5")
    folder.write("go", "")
    client.until_state(slow, "9")
    same("printed", folder.printed(), "fast\nslow\n")


def test_at_most_two_at_once(folder):
    """With --children 2 no third child runs, and each of eight queues gets its turn."""
    folder.backend("bounded", BOUNDED)
    names = [f"q{number}" for number in range(8)]
    client = folder.open(*names, words=["--children", "2"], stopped=True, scheme="bounded")
    jobs = [client.submit(name) for _ in range(4) for name in names]
    client.does(*(f"enable {name}" for name in names))
    client.until_ended(jobs, "9", 120)
    running, most, begun = 0, 0, []
    for line in folder.read("turns").splitlines():
        word, name = line.split()
        running += 1 if word == "begins" else -1
        most = max(most, running)
        begun += [name] if word == "begins" else []
    turns = [[at for at, other in enumerate(begun) if other == name] for name in names]
    print(f"  at most {most} children ran at once; first turns {[turn[0] for turn in turns]}")
    same("the number of remaining jobs", running, 0)
    holds("at most two ran at once", most <= 2)
    same("the jobs of each queue", [len(turn) for turn in turns], [4] * 8)
    # Each queue has had a turn before any has its third.
    holds("all queues have their turn", max(turn[0] for turn in turns) < min(turn[2] for turn in turns))


def test_a_child_that_hangs(folder):
    """It delays neither a hundred jobs of other queues nor a client, and `end` ends it with all processes that it has started."""
    folder.backend("hangs", HANGS)
    client = folder.open("stuck", policy="abort-job", scheme="hangs")
    for number in range(4):
        folder.queue(client, f"q{number}")
    stuck, next_one = client.submit("stuck"), client.submit("stuck")
    client.until_state(stuck, "5")
    jobs = [client.submit(f"q{number % 4}", f"{number}\n") for number in range(100)]
    client.until_ended(jobs, "9", 120)
    same("printed", len(folder.printed().split()), 100)
    same("it hangs", (client.state(stuck)[0], client.state(next_one)[0]), ("5", "3"))
    pids = started(folder, 2)
    same("an end of a job that waits", client.ask(f"end {next_one}\n"), "error job")
    same("of a job that has ended", client.ask(f"end {jobs[0]}\n"), "error job")
    same("of no job", client.ask("end 999999\n"), "error job")
    same("its end", client.ask(f"end {stuck}\n"), "ok")
    client.until_state(stuck, "8")
    until("all processes that it had started have ended", lambda: not any(is_there(pid) for pid in pids))
    client.until_state(next_one, "5")
    same("another end", client.ask(f"end {next_one}\n"), "ok")
    client.until_state(next_one, "8")


def test_a_child_of_a_canceled_job(folder):
    """It blocks its queue until it has ended, and is ended by `end` as well."""
    folder.backend("hangs", HANGS)
    client = folder.open("stuck", scheme="hangs")
    first, second = client.submit("stuck"), client.submit("stuck")
    client.until_state(first, "5")
    pids = started(folder, 2)
    client.does(f"cancel {first}")
    same("purge while its child runs", client.ask(f"purge {first}\n"), "error 16 NotEnded")
    time.sleep(0.5)
    same("the next one waits", client.state(second)[0], "3")
    client.does(f"end {first}")
    client.until_state(second, "5")
    until("all processes that it had started have ended", lambda: not any(is_there(pid) for pid in pids))
    same("the canceled one", client.state(first), "7 canceled")
    same("purge after its end", client.ask(f"purge {first}\n"), "ok")
    same("an end of a purged job", client.ask(f"end {first}\n"), "error job")
    same("the other end", client.ask(f"end {second}\n"), "ok")


def test_a_child_that_ignores_its_end(folder):
    """It is killed ten seconds after it was asked to end."""
    folder.backend("stays", STAYS)
    client, other = folder.open("stuck", policy="abort-job", scheme="stays"), Client(folder)
    job = client.submit("stuck")
    pids, usual = started(folder, 1), listings(other)
    began = time.time()
    client.does(f"end {job}")
    same("again", client.ask(f"end {job}\n"), "ok")
    undelayed("while it is to end", listings(other), usual)
    client.until_state(job, "8")
    took = time.time() - began
    holds(f"ten seconds later: {took:.1f}", 9 < took < 40)
    same("it has ended", [pid for pid in pids if is_there(pid)], [])


# A backend that asks ten times for its device's state, with a short delay between.
ASKS = CHANNEL + """
line = call()
for _ in range(10):
    if ask(line, bytes.fromhex("05000000")) != "0501000107":
        raise SystemExit(1)
    time.sleep(0.02)
"""


def with_side_channels(folder):
    folder.write("side", SIDE_END, 0o755)
    folder.lines.append(f"side {folder.at('side')}\n")


def test_a_child_with_a_side_channel(folder):
    """It is ended too, although another process starts its session."""
    with_side_channels(folder)
    folder.backend("hangs", HANGS)
    client = folder.open("stuck", policy="abort-job", scheme="hangs")
    job = client.submit("stuck")
    pids = started(folder, 2)
    client.does(f"end {job}")
    client.until_state(job, "8")
    until("all processes that it had started have ended", lambda: not any(is_there(pid) for pid in pids))


def test_a_child_that_asks_while_it_runs(folder):
    """The side channels are served together with the clients: a child that waits for an answer does not hang."""
    with_side_channels(folder)
    folder.backend("asks", ASKS)
    client = folder.open("q", seconds="o?state=7", policy="abort-job", scheme="asks")
    client.until_state(client.submit("q"), "9")


# A backend that sends three requests of 65,535 bytes, each after the answer to the one before, then thirty of one byte, and writes how
# long each kind took.
ASKS_MUCH = CHANNEL + """
line = call()
line.settimeout(60)
def ask_often(times, length, status):
    began = time.monotonic()
    for _ in range(times):
        if not ask(line, b"\\5\\0" + length.to_bytes(2, "big") + bytes(length)).startswith(status):
            raise SystemExit(1)
    return time.monotonic() - began
took = f"{ask_often(3, 65_535, '0506')} {ask_often(30, 1, '0501')}"
with open("FOLDER/took", "w") as file:
    file.write(took)
"""

# How many times as long as in the shell long and short requests may take, and the least time that counts for the shell, in seconds.
MOST_TIMES = (10, 10)
LEAST_TIME = 0.02


def took(folder):
    """How long the long and the short requests took."""
    times = [float(word) for word in folder.read("took").split()]
    os.remove(folder.at("took"))
    return times


@pytest.mark.alone
@pytest.mark.needs("plain spool_service", "spool_shell")
def test_requests_as_quick_as_in_the_shell(folder):
    """Requests on the side channel, long ones and short ones, take the service little longer than the shell."""
    with_side_channels(folder)
    folder.backend("asks", ASKS_MUCH)
    replies = folder.by_shell(f'queue q asks:/ {TYPE} abort-job\ncreate q ann "" 1 50 ""\nclose 1 f\ndrain 2\njobs\n')
    holds(f"the job of the shell: {replies}", "job 1 q 9 " in replies)
    by_shell = took(folder)
    client = folder.open("q", words=["--children", "1"], policy="abort-job", scheme="asks")
    # A client that waits sends nothing, so that no turn of the service is due to it.
    client.connection.settimeout(300)
    same("the job of the service", client.ask(f"wait {client.submit('q')}\n").split()[3], "9")
    by_service = took(folder)
    for kind, ours, theirs, most in zip(("long", "short"), by_service, by_shell, MOST_TIMES):
        print(f"  {kind} requests: the service {1_000 * ours:.1f} ms, the shell {1_000 * theirs:.1f} ms")
        holds(f"{kind} requests take the service at most {most} times as long", ours <= most * max(theirs, LEAST_TIME))


# A backend that sends long requests as fast as it can, from three connections, until a file exists.
FLOODS = """#!/usr/bin/python3 -ES
import os, select, socket, time
lines = [socket.socket(socket.AF_UNIX, socket.SOCK_STREAM) for _ in range(3)]
for line in lines:
    line.connect(os.environ["SPOOL_SIDE"])
    line.setblocking(False)
request, sent, count = b"\\5\\0\\xff\\xff" + bytes(65_535), [0] * len(lines), 0
while not os.path.exists("FOLDER/enough"):
    readable, writable, _ = select.select(lines, lines, [], 1)
    for line in readable:
        count += len(line.recv(65_536)) // 4
    for line in writable:
        at = lines.index(line)
        sent[at] += line.send(request[sent[at] % len(request):])
with open("FOLDER/flooded", "w") as file:
    file.write(str(count))
"""


@pytest.mark.alone
def test_a_child_that_floods_its_side_channel(folder):
    """It delays no client: a turn serves the side channels for about a millisecond, whatever arrives."""
    with_side_channels(folder)
    folder.backend("floods", FLOODS)
    client = folder.open("q", policy="abort-job", scheme="floods")
    usual = listings(client, 100)
    job = client.submit("q")
    client.until_state(job, "5")
    time.sleep(0.5)
    times = listings(client, 100)
    same("it still floods", client.state(job)[0], "5")
    folder.write("enough", "")
    client.until_state(job, "9")
    holds("requests were answered", int(folder.read("flooded")) > 0)
    # A service that serves a channel as long as something arrives does not answer before the flood ends.
    undelayed("during the flood", times, usual)
    holds("no listing waits for the flood's end", max(times) < 5)


def test_few_descriptors(folder):
    """If the system has few descriptors for the service, fewer children run at once, and no job loses an attempt."""
    folder.limit_descriptors(64)
    names = [f"q{number:02}" for number in range(24)]
    client = folder.open(*names, seconds=0.3, policy="abort-job")
    jobs = [client.submit(name) for _ in range(3) for name in names]
    until("all have ended", lambda: all(state[0] in "789" for state in client.states().values()), 120)
    same("jobs that were not printed", [job for job, state in client.states().items() if state[0] != "9"], [])
    same("their attempts", {client.fields(job)["attempts"] for job in jobs}, {"1"})


STARTS = "clone,clone3,fork,vfork"


@pytest.mark.strace
def test_processes_that_are_refused(folder):
    """If the system refuses processes for a moment, at most four jobs lose an attempt, and nothing is started for two seconds. At most four
    children are started in a turn.
    """
    refusal = ["-e", f"trace={STARTS},epoll_wait,epoll_pwait", "-e", f"inject={STARTS}:error=EAGAIN:when=1..4"]
    names = [f"q{number:02}" for number in range(12)]
    with folder.under_strace(*refusal) as client:
        for name in names:
            folder.queue(client, name, policy="abort-job")
            client.does(f"disable {name}")
        jobs = [client.submit(name, f"{name}\n") for name in names]
        client.say("".join(f"enable {name}\n" for name in names))
        same("enable", [client.reply() for _ in names], ["ok"] * len(names))
        began = time.time()
        until("some have failed", lambda: "8" in [state[0] for state in client.states().values()])
        until("the others are printed", lambda: {state[0] for state in client.states().values()} <= {"8", "9"})
        took = time.time() - began
        found = [client.state(job) for job in jobs]
        same("the jobs", (found.count("8 backend-failed"), found.count("9 job-completed-successfully")), (4, 8))
        same("their attempts", {client.fields(job)["attempts"] for job in jobs}, {"1"})
        same("it is logged", folder.log().count("slow: not started: out of processes\n"), 4)
        print(f"  the others were printed {took:.2f} s later")
        holds("not before two seconds", 1.8 < took < 40)
        folder.shut_down()
    names = [line.partition("(")[0] for line in folder.read("calls").splitlines()]
    turns = "".join("," if name.startswith("epoll") else "s" * (name in STARTS.split(",")) for name in names).split(",")
    same("the most starts in a turn", max(len(turn) for turn in turns), 4)


def test_a_full_folder(folder, small_disk):
    """While the folder has no room nothing is started, and no job loses an attempt. Then all are printed."""
    disk = small_disk(folder.at("spool"), "24m")
    client = folder.open("q", policy="abort-job")
    folder.queue(client, "other", policy="retry-job")
    client.until_state(client.submit("q", "before\n"), "9")
    usual = listings(client)
    disk.fill()
    # Free space that was seen is relied on for a moment.
    time.sleep(0.2)
    jobs = [client.submit(name, f"{name}\n") for name in ("q", "other", "q", "other")]
    time.sleep(10 if folder.is_long else 3)
    same("they wait", [(client.state(job), client.fields(job)["attempts"]) for job in jobs], [("3 none", "0")] * 4)
    undelayed("without room", listings(client), usual)
    os.remove(disk.filler)
    client.until_ended(jobs)
    same("each by one attempt", [client.fields(job)["attempts"] for job in jobs], ["1"] * 4)
    same("printed", sorted(folder.printed().split()), ["before", "other", "other", "q", "q"])
