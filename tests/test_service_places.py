"""Tests of the places of clients: how many there are, which clients keep theirs, and how many listen."""
import contextlib
import resource
import subprocess
import time

import pytest

from harness.checks import Difference, holds, LONGEST, same, until
from harness.people import prove
from harness.service import admitted, Client, listings, undelayed, with_socket

BUSY = "error busy"


def silent(client, seconds=0.2):
    """Whether a client is connected, and is sent nothing."""
    return not client.held and client.says_nothing(seconds)


def is_served(folder):
    """Whether a new client is served at once."""
    try:
        client = Client(folder)
        reply = client.ask("queues\n")
        client.close()
    except (ConnectionError, Difference):
        return False
    return reply.startswith(("queue", "ok"))


def count_served(folder, seconds, pause=0.1, meanwhile=lambda: None):
    """How many new clients were served, and how many were not, during these seconds."""
    served, missed, end = 0, 0, time.time() + seconds
    while time.time() < end:
        if is_served(folder):
            served += 1
        else:
            missed += 1
        meanwhile()
        time.sleep(pause)
    return served, missed


# ---- other clients are served


def crowd(folder, job, count, words):
    """Clients that wait, watch or say nothing, in turn."""
    clients = []
    for number in range(count):
        with contextlib.suppress(OSError):
            client = Client(folder)
            clients.append(client)
            client.say(words[number % len(words)].format(job))
    return clients


def test_crowds_lock_nobody_out(folder):
    """Clients that wait, watch, or send an empty line every five seconds, more of them than there are places, lock out no other client."""
    first = folder.open("q")
    job = first.create("q")
    others = crowd(folder, job, 400, ["wait {}\n", "watch\n", "\n", "\n", "\n"])
    said = [time.time()]

    def say_nothing():
        if said[0] + 5 < time.time():
            said[0] = time.time()
            for number, other in enumerate(others):
                if number % 5 >= 2:
                    with contextlib.suppress(OSError):
                        other.say("\n")

    early = count_served(folder, 12, meanwhile=say_nothing)
    late = count_served(folder, 13, meanwhile=say_nothing)
    print(f"  served and not served: {early} in the first 12 s, {late} in the next 13 s")
    same("not served after that", late[1], 0)
    holds("many were served", 20 < late[0])


def test_empty_lines_are_no_sign_of_life(folder):
    """A client that sends empty lines alone is replaced after ten seconds. One that asks, sends a document or reads stays."""
    asks, sends, reads = folder.open("q", words=["--clients", "12"]), Client(folder), Client(folder)
    job = sends.create("q")
    sends.say(f"send {job} 1000\n")
    reads.does("watch")
    empty = [Client(folder) for _ in range(9)]
    end, sent = time.time() + 10.5, 0
    while time.time() < end:
        same("a reply", asks.ask("queues\n").split()[0], "queue")
        same("the end of the listing", asks.reply(), "ok 1")
        sends.say("x")
        sent += 1
        for client in empty:
            client.say("\n\n# nothing\n")
        time.sleep(0.5)
    newcomers = [Client(folder) for _ in range(9)]
    same("newcomers", [client.ask("find nothing\n") for client in newcomers], ["error job"] * 9)
    same("those of empty lines", [client.is_closed() for client in empty], [True] * 9)
    same("one that asks", asks.ask("find nothing\n"), "error job")
    reads.say("find nothing\n")
    until("one that watches", lambda: reads.reply() == "error job")
    sends.say("x" * (1000 - sent) + "\n")
    same("one that sends", sends.reply(), "ok bytes 1000")


# ---- clients that listen


def test_listeners_leave_a_quarter(folder):
    """Three quarters of the places are for clients that wait or watch. Another one gets `error busy` and stays."""
    client = folder.open("q", words=["--clients", "40"])
    job = client.create("q")
    waiting = [Client(folder) for _ in range(15)]
    for other in waiting:
        other.say(f"wait {job}\n")
    watching = [Client(folder) for _ in range(15)]
    for number, other in enumerate(watching):
        same("watch", other.ask("watch\n" if number % 2 else "watch 0\n"), "ok")
    late = Client(folder)
    for words in (f"wait {job}\n", "watch\n", "watch 7\n", "wait 999\n"):
        same(words.strip(), late.ask(words), BUSY)
    same("it stays", late.ask("find nothing\n"), "error job")
    # Who listens already takes no other place.
    watching[1].say(f"wait {job}\n")
    same("one that watches may wait", silent(watching[1]), True)
    same("and others are served", [is_served(folder) for _ in range(20)], [True] * 20)
    waiting[3].close()
    until("a place is free", lambda: late.ask("watch\n") == "ok")
    same("no more", client.ask("watch\n"), BUSY)
    # The end of the job ends fourteen waits, so their places are free.
    client.does(f"cancel {job}")
    for other in waiting[:3] + waiting[4:]:
        same("the end", other.reply().split()[:2], ["job", str(job)])
    same("a wait that is over at once", len(client.listing(f"wait {job}\n")), 1)
    same("another", client.ask("watch\n"), "ok")
    same("watch again", client.ask("watch\n"), "ok")


@pytest.mark.root
@pytest.mark.needs("useradd")
def test_users_have_a_share(folder, people):
    """The clients of one user have at most half of the places for listening, and so have all unproved ones together. Operators have no share."""
    operators = people.at("operators.sock")
    people.start(folder, "--clients", "40", "--operators-socket", operators)
    ann, bob, _ = people.users

    clients = []

    def watch(user):
        clients.append(Client(folder))
        if user:
            same("the proof", prove(clients[-1], user), f"ok user {user.name}")
        return clients[-1].ask("watch\n")

    def operator_watches():
        return with_socket(folder, operators, lambda: Client(folder).ask("watch\n"))

    same("of a user", [watch(ann) for _ in range(16)], ["ok"] * 15 + [BUSY])
    same("unproved", [watch(None) for _ in range(10)], ["ok"] * 10)
    same("of another user", [watch(bob) for _ in range(6)], ["ok"] * 5 + [BUSY])
    same("of an operator", operator_watches(), BUSY)
    for client in clients[:9]:
        client.close()
    until("a place is free", lambda: operator_watches() == "ok")
    same("the unproved have their share", [watch(None) for _ in range(6)], ["ok"] * 5 + [BUSY])


@pytest.mark.root
@pytest.mark.needs("useradd")
def test_operators_have_no_share(folder, people):
    operators = people.at("operators.sock")
    people.start(folder, "--clients", "40", "--operators-socket", operators)
    clients = with_socket(folder, operators, lambda: [Client(folder) for _ in range(31)])
    same("of operators", [client.ask("watch\n") for client in clients], ["ok"] * 30 + [BUSY])


# ---- their number


def test_as_many_places_as_given(folder):
    """`--clients N`: the next client gets `error busy`. The time of a listing with 1,000 clients is printed."""
    soft, hard = resource.getrlimit(resource.RLIMIT_NOFILE)
    holds("it needs 2,100 descriptors", hard >= 2_100)
    resource.setrlimit(resource.RLIMIT_NOFILE, (2_100, hard))
    try:
        usual = []
        for count in (1, 3, 1_000):
            folder.start("--clients", str(count))
            # The client of the start may still have a place.
            clients = [admitted(folder) for _ in range(count)]
            if count < 1_000:
                late = Client(folder)
                same("the next one", (late.reply(), late.is_closed()), (BUSY, True))
            usual = usual or listings(clients[0])
            undelayed(f"with {count} clients", listings(clients[0]), usual, 0.25)
            same("those that may listen", [client.ask("watch\n") for client in clients].count("ok"), count * 3 // 4)
            undelayed(f"with {count} clients of which three quarters listen", listings(clients[-1]), usual, 0.25)
            folder.kill()
            for client in clients:
                client.close()
    finally:
        resource.setrlimit(resource.RLIMIT_NOFILE, (soft, hard))


def test_wrong_numbers_are_refused(folder):
    for number in ("0", "1001", "-1", "x", ""):
        ended = subprocess.run(folder.command("--clients", number), capture_output=True, timeout=LONGEST, check=False)
        same(f"--clients {number!r}", ended.returncode, 2)
    folder.start("--clients", "2")
    until("a number in the range", lambda: is_served(folder))
