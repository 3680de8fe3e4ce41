"""Tests of clients: no client delays another one, and each uses at most the memory of its slot."""
import contextlib
import os
import random
import resource
import select
import signal
import socket
import threading
import time
from pathlib import Path

import pytest

from harness.checks import at_once, Difference, holds, LONGEST, same, until
from harness.service import admitted, answer, Client, listings, meanwhile, patient_client, undelayed

# The number of places that a test gives the service.
SLOTS = 64

PLACES = ["--clients", str(SLOTS)]

BUSY = "error busy"


# ---- one at a time


def test_a_client_that_stalls_in_a_send(folder):
    client, other = folder.open("q"), Client(folder)
    job, usual = client.create("q"), listings(other)
    client.say(b"send %d 60000\n" % job + b"y" * 30_000)
    undelayed("while it stalls", listings(other), usual)
    other.until_state(other.submit("q", "other\n"), "9")
    client.close()
    time.sleep(0.2)
    fields = other.fields(job)
    same("its job", (fields["state"], fields["size"]), ("4", "0"))


def test_a_client_that_never_reads(folder):
    client, other = folder.open(), Client(folder)
    for name in range(20):
        folder.queue(other, f"q{name}")
    client.connection.settimeout(2)
    sent, usual = 0, listings(other)
    with contextlib.suppress(TimeoutError):
        while sent < 40_000_000:
            sent += client.connection.send(b"queues\n" * 1_000)
    holds(f"it had to wait: {sent}", sent < 2_000_000)
    undelayed("while it does not read", listings(other), usual)
    # It has lost nothing: once it reads, it gets each reply.
    client.connection.settimeout(LONGEST)
    client.connection.shutdown(socket.SHUT_WR)
    got = []
    while piece := client.connection.recv(1_000_000):
        got.append(piece)
    replies = b"".join(got)
    print(f"  its replies, read in the end: {len(replies)} bytes; memory of the service {folder.memory()} kB")
    same("its replies", replies.count(b"\nok 20\n"), sent // 7)


def test_a_client_that_reads_slowly(folder):
    """It always leaves some bytes unread. The service frees the replies that it has read."""
    client, other = folder.open(), Client(folder)
    for name in range(50):
        folder.queue(other, f"q{name:02}")
    client.connection.setsockopt(socket.SOL_SOCKET, socket.SO_RCVBUF, 4_096)

    def ask(stop):
        with contextlib.suppress(OSError):
            while not stop.is_set():
                client.connection.send(b"queues\n" * 100)

    with meanwhile(ask):
        time.sleep(0.5)
        before, got, began = folder.memory(), 0, time.time()
        while got < 20_000_000 and time.time() - began < 15:
            got += len(client.connection.recv(20_000))
        after, took = folder.memory(), time.time() - began
        client.connection.shutdown(socket.SHUT_RDWR)
    # Under an address sanitizer freed memory is kept for a while, so the memory is only printed.
    print(f"  it took {got} bytes in {took:.1f} s; memory before {before} kB, after {after} kB")


def test_a_flood(folder):
    flooder, other = folder.open(), Client(folder)
    usual = listings(other, 100)

    def flood(stop):
        while not stop.is_set():
            flooder.say(b"cancel 999999\n" * 200)
            got = 0
            while got < 200:
                got += flooder.connection.recv(65_536).count(b"\n")

    with meanwhile(flood):
        undelayed("during the flood", listings(other, 100), usual)


@pytest.mark.strace
def test_thirty_two_commands_in_turn(folder):
    """After 32 commands of a client the other clients are served, and then its next ones."""
    with folder.under_strace("-s", "1000", "-e", "trace=sendto,sendmsg,write,writev") as flooder:
        others = [Client(folder), Client(folder)]
        for client in (flooder, *others):
            same("a reply", client.ask("queues\n"), "ok 0")
        service = int(Path(f"/proc/{folder.running.pid}/task/{folder.running.pid}/children").read_text().split()[0])
        os.kill(service, signal.SIGSTOP)
        flooder.say("cancel 999999\n" * 70)
        for other in others:
            other.say("queues\n")
        time.sleep(0.2)
        os.kill(service, signal.SIGCONT)
        same("its replies", [flooder.reply() for _ in range(70)], ["error 5 NoJob"] * 70)
        same("the others'", [other.reply() for other in others], ["ok 0", "ok 0"])
        folder.shut_down()
    sent = [(line.count("NoJob"), "ok 0" in line) for line in folder.read("calls").splitlines() if "NoJob" in line or "ok 0" in line]
    same("the replies in turn", sent[-5:], [(32, False), (0, True), (0, True), (32, False), (6, False)])


def test_a_client_that_leaves_while_it_waits(folder):
    client = folder.open("q", words=PLACES)
    job = client.create("q")
    time.sleep(0.2)
    before = folder.descriptors()
    others = [Client(folder) for _ in range(SLOTS - 1)]
    for other in others:
        other.say(f"wait {job}\n")
    until("all have a slot", lambda: folder.descriptors() == before + SLOTS - 1)
    for other in others:
        other.close()
    until("their slots are free", lambda: folder.descriptors() == before)
    same("another one", Client(folder).ask(f"job {job}\n"), f"job {job}")


def test_an_end_of_text(folder):
    client = folder.open()
    # A line without its line feed is no command: its sender may have been killed.
    client.say("queues\nqueues\nshutdown")
    client.connection.shutdown(socket.SHUT_WR)
    same("both are answered", (client.reply(), client.reply(), client.is_closed()), ("ok 0", "ok 0", True))
    same("it continues to serve", Client(folder).ask("queues\n"), "ok 0")


def test_a_line_cut_from_a_longer_one(folder):
    """A client that hangs up after the first bytes of `cancel 12` has not cancelled job 1."""
    client, other = folder.open("q", stopped=True), Client(folder)
    same("the job", other.create("q"), 1)
    client.say("jobs\ncancel 1")
    client.connection.shutdown(socket.SHUT_WR)
    same("its listing", (len(client.rest_of_listing()), client.is_closed()), (1, True))
    same("the job stays", other.fields(1)["state"], "4")


# ---- cut off at each byte


def conversation(job):
    """The commands about a new job, each with its replies."""
    row = f'job {job} q 3 none "u" 24 0 "t"'
    return [
        ('create q u "t" 1 50 ""\n', [f"ok job {job}"]),
        (f"send {job} 12\nend 1\njobs\ny\n", ["ok bytes 12"]),
        (f"send {job} 12\nhello\nworld\n\n", ["ok bytes 24"]),
        ("job 999999\n", ["error job"]),
        (f"hold {job} indefinite\n", ["ok"]),
        (f"close {job} f\n", ["ok type application/octet-stream stages 1"]),
        (f"release {job}\n", ["ok"]),
        (f"wait 999999\ncancel {job}\n", ["error job", "ok"]),
        (f"wait {job}\n", [row.replace("3 none", "7 canceled"), "ok 1"]),
    ]


def test_cut_at_each_byte(folder):
    """A session in two pieces, with another client's command between them, gets its replies wherever it is split."""
    # No job starts by itself.
    client, other = folder.open("q", stopped=True), Client(folder)
    cut, job = 0, 1
    while cut <= len(text_of(conversation(job))):
        said = conversation(job)
        text, wanted = text_of(said), [line for _, lines in said for line in lines]
        client.say(text[:cut])
        other.listing("queues\n")
        client.say(text[cut:])
        same(f"cut at byte {cut}", [client.reply() for _ in wanted], wanted)
        cut, job = cut + 1, job + 1
    print(f"  {cut} cuts")


def text_of(said):
    return "".join(text for text, _ in said)


# The state of the job after each of the commands, and the bytes of its document.
AFTER = [None, ("4", "0"), ("4", "12"), ("4", "24"), ("4", "24"), ("4", "24"), ("4", "24"), ("3", "24"), ("7", "24"), ("7", "24")]


def test_disconnected_at_each_byte(folder):
    """A client that disconnects within a command has changed nothing by it, and its acknowledged changes are in the spool."""
    other = folder.open("q", stopped=True)
    time.sleep(0.2)
    cut, job, before = 0, 1, folder.descriptors()
    while cut <= len(text_of(conversation(job))):
        whole = disconnect_at(folder, job, cut)
        until("its descriptor is closed", lambda: folder.descriptors() <= before)
        state = found(other, job)
        same(f"left at byte {cut}", state, AFTER[whole])
        cut, job = cut + 1, job + (state is not None)
    print(f"  {cut} cuts")


def disconnect_at(folder, job, cut):
    """A client sends the first `cut` bytes, reads the replies that it is owed, and disconnects. Returns how many of its commands were
    complete.
    """
    client, said, whole, length = Client(folder), conversation(job), 0, 0
    client.say(text_of(said)[:cut])
    for text, lines in said:
        length += len(text)
        if cut < length:
            break
        same(f"replies before byte {cut}", [client.reply() for _ in lines], lines)
        whole += 1
    client.close()
    return whole


def found(client, job):
    fields = client.fields(job)
    return (fields["state"], fields["size"]) if fields else None


# ---- many


def test_fifty_clients_at_once(folder):
    first = folder.open()
    for name in range(4):
        folder.queue(first, f"q{name}")

    def print_one(number):
        client = Client(folder)
        job = client.submit(f"q{number % 4}", f"{number}\n")
        client.until_state(job, "9", 120)

    at_once([lambda number=number: print_one(number) for number in range(50)])
    same("printed", sorted(folder.printed().split(), key=int), [str(number) for number in range(50)])


def test_the_65th_connection(folder):
    folder.start(*PLACES)
    clients = [Client(folder) for _ in range(SLOTS)]
    for client in clients:
        same("a reply", client.ask("queues\n"), "ok 0")
    late = Client(folder)
    same("the 65th", (late.reply(), late.is_closed()), (BUSY, True))
    clients[5].close()
    late = admitted(folder)
    time.sleep(10.2)
    for client in clients[:5] + clients[6:]:
        if client is not clients[40]:
            same("a reply", client.ask("queues\n"), "ok 0")
    same("a reply", late.ask("queues\n"), "ok 0")
    another = Client(folder)
    same("the 65th, with a client idle for 10 s", another.ask("queues\n"), "ok 0")
    same("the idle one", clients[40].is_closed(), True)
    same("another one", clients[0].ask("queues\n"), "ok 0")


def test_waiting_clients_stay_connected(folder):
    """A client that waits for a job, or watches, and reads its replies, is not disconnected for another one."""
    folder.start(*PLACES)
    clients = [Client(folder) for _ in range(SLOTS)]
    folder.queue(clients[0], "q")
    job = clients[0].create("q")
    waiting, watching, silent = clients[20], clients[30], clients[40]
    waiting.say(f"wait {job}\n")
    watching.does("watch")
    time.sleep(10.2)
    for client in clients:
        if client not in (waiting, watching, silent):
            same("a reply", len(client.listing("queues\n")), 1)
    another = Client(folder)
    same("the 65th", len(another.listing("queues\n")), 1)
    same("the silent client", silent.is_closed(), True)
    late = Client(folder)
    same("one more", (late.reply(), late.is_closed()), (BUSY, True))
    same("cancel", clients[0].ask(f"cancel {job}\n"), "ok")
    same("the waiting client", waiting.reply().split()[:2], ["job", str(job)])
    same("the watching client", watching.reply().split()[:2], ["job", str(job)])


def test_more_clients_than_slots(folder):
    """Clients that connect while the service is stopped all get replies, although they are more than it admits at a time."""
    folder.start(*PLACES)
    clients = [Client(folder) for _ in range(SLOTS)]
    for client in clients:
        same("a reply", client.ask("queues\n"), "ok 0")
    # Until it has nothing to do, and would sleep without a timeout.
    time.sleep(2)
    with folder.paused():
        late = [Client(folder) for _ in range(2 * SLOTS)]
    for client in late:
        same("a client without a slot", (client.reply(), client.is_closed()), (BUSY, True))
    same("an admitted client", clients[0].ask("queues\n"), "ok 0")


def test_clients_that_connect_and_disconnect(folder):
    first = folder.open()
    same("a reply", first.ask("queues\n"), "ok 0")
    began, before = time.time(), folder.descriptors()
    for number in range(1_000):
        client = Client(folder)
        if number % 3 == 0:
            holds("a reply", answer(client) in ("ok 0", BUSY))
        if number % 3 == 1:
            client.say("send 1 500\nabc")
        client.close()
    until("the descriptors", lambda: folder.descriptors() == before)
    print(f"  1000 in {time.time() - began:.2f} s; memory {folder.memory()} kB")


def test_a_thousand_connections(folder):
    """Each of a thousand clients that connect at once, and stay, is served or gets `error busy`."""
    soft, hard = resource.getrlimit(resource.RLIMIT_NOFILE)
    resource.setrlimit(resource.RLIMIT_NOFILE, (min(4_096, hard), hard))
    first = folder.open(words=PLACES)
    same("it serves, so it has opened all its files", first.ask("queues\n"), "ok 0")
    before = folder.descriptors() - 1
    first.close()
    began, clients = time.time(), []
    for _ in range(1_000):
        clients.append(Client(folder))
        with contextlib.suppress(ConnectionError):
            clients[-1].say("queues\n")
    replies = [client.reply() for client in clients]
    took = time.time() - began
    counts = {reply: replies.count(reply) for reply in sorted(set(replies))}
    print(f"  {counts} in {took:.2f} s; descriptors {folder.descriptors()}, memory {folder.memory()} kB")
    same("served, or refused", set(counts) <= {"ok 0", BUSY}, True)
    holds("at least one client for each slot was served", counts["ok 0"] >= SLOTS)
    until("its descriptors", lambda: folder.descriptors() <= before + SLOTS)
    # No client was idle for ten seconds, so none was disconnected.
    same("and no more", counts["ok 0"] == SLOTS or 10 < took, True)
    for client in clients:
        client.close()
    until("a slot for the next one", lambda: patient_client(folder).ask("queues\n") == "ok 0")
    until("the descriptors", lambda: folder.descriptors() <= before + 1)
    resource.setrlimit(resource.RLIMIT_NOFILE, (soft, hard))


def test_clients_beyond_the_descriptors(folder):
    """If the service has no descriptor for a client, it admits the client once it has one, and serves the others meanwhile."""
    folder.limit_descriptors(32)
    first = folder.open()
    others = [Client(folder) for _ in range(40)]
    for other in others:
        other.say("queues\n")
    until("it is logged", lambda: "cannot accept a client" in folder.log())
    time.sleep(0.3)
    same("the first one", first.ask("queues\n"), "ok 0")
    holds("and not repeatedly", folder.log().count("cannot accept a client") <= 5)
    for other in others:
        same("a reply", other.reply(), "ok 0")
        other.close()
    same("the first one", first.ask("queues\n"), "ok 0")


# ---- two hundred clients, each with different actions in turn


def says_nothing(client, chance):
    pass


def asks(client, chance):
    reply = client.ask(chance.choice(["queues\n", "jobs\n", "job 1\n", "nonsense\n", "watch\n"]))
    holds("it was answered", reply != "")


def stalls(client, chance):
    client.say(b"send 1 60000\n" + b"z" * chance.randrange(60_000))
    time.sleep(chance.uniform(0, 0.5))


def never_reads(client, chance):
    client.connection.setblocking(False)
    for _ in range(2_000):
        if not select.select([], [client.connection], [], 0.05)[1]:
            break
        client.connection.send(b"jobs\nqueues\n" * 50)


def floods(client, chance):
    client.say(b"cancel 999999\n" * chance.randrange(1, 400))
    client.connection.shutdown(socket.SHUT_WR)
    while client.connection.recv(65_536):
        pass


def is_cut(client, chance):
    text = text_of(conversation(1_000_000)).encode()
    client.say(text[: chance.randrange(len(text))])


def waits_for_ever(client, chance):
    client.say("wait 1\nwatch\n")
    time.sleep(chance.uniform(0, 0.5))


KINDS = [says_nothing, asks, stalls, never_reads, floods, is_cut, waits_for_ever]


def test_two_hundred_clients(folder):
    """They connect and disconnect, stall, flood, never read and are cut off, more of them than there are slots. Another client is served as
    if it were alone, and its jobs are printed.
    """
    good = folder.open("q", words=PLACES)
    # A job that waits for ever, that other clients wait for, and that no cut command may affect.
    same("the first job", good.create("q"), 1)
    time.sleep(0.2)
    before, stop = folder.descriptors(), threading.Event()

    def others(seed):
        chance = random.Random(seed)
        while not stop.is_set():
            try:
                with contextlib.closing(Client(folder)) as client:
                    chance.choice(KINDS)(client, chance)
            except (OSError, Difference):
                # It got `error busy`, or its connection was closed.
                time.sleep(0.01)

    threads = [threading.Thread(target=others, args=(seed,)) for seed in range(200)]
    for thread in threads:
        thread.start()
    try:
        jobs = jobs_with_others(good, 60 if folder.is_long else 6)
    finally:
        stop.set()
        for thread in threads:
            thread.join()
    # It has said nothing while the others ended, so one of them may have got its place.
    good.close()
    until("the descriptors", lambda: folder.descriptors() == before - 1)
    good = Client(folder)
    good.until_ended(jobs)
    same("each was printed once", sorted(folder.printed().split(), key=int), [str(n) for n in range(len(jobs))])
    same("the job that no command named", good.state(1), "4 job-incoming")


def jobs_with_others(client, seconds):
    """The jobs that a client creates during `seconds` seconds, between listings."""
    jobs, end = [], time.time() + seconds
    while time.time() < end:
        listings(client, 5)
        jobs.append(client.submit("q", f"{len(jobs)}\n"))
        time.sleep(0.02)
    return jobs
