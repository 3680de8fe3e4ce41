"""Tests of commands that come together: their events become durable with one pair of syncs, and then come their replies.

The service's calls are observed by strace, which also kills it at one of them.
"""
import re

import pytest

from harness.checks import holds, same
from harness.front import Front
from harness.service import Client, served_clients

pytestmark = pytest.mark.strace

# The words of strace.
SYNCS = ("-f", "-e", "trace=fsync,fdatasync,sendto,write")


def submission(job, text=b"hello\n"):
    """The commands that create, fill and close a job of this number."""
    return b'create q u "t" 1 50 ""\nsend %d %d\n%s\nclose %d f\n' % (job, len(text), text, job)


def held_queue(folder):
    """A client of a service whose queue prints nothing yet, and the number of the next job."""
    client = folder.open("q", stopped=True)
    return client, client.create("q") + 1


def calls_in(folder):
    """The syncs of the spool and the writes to sockets, in order: `sync` or `reply`."""
    calls = []
    for line in folder.read("calls").splitlines():
        if re.search(r"f(data)?sync\(\d+<[^>]*spool\.disk", line):
            calls.append("sync")
        elif re.search(r"(sendto|write)\(\d+<(socket|UNIX)", line):
            calls.append("reply")
    return calls


def say_at_once(folder, clients, jobs):
    """Each client sends a document and closes its job, and one turn serves all of them."""
    with folder.paused():
        for client, job in zip(clients, jobs):
            client.say(b"send %d 6\nhello\n\nclose %d f\n" % (job, job))


def test_one_pair_of_syncs(folder):
    """A submission that is sent at once costs two syncs, and its replies come after them."""
    client, job = held_queue(folder)
    with folder.traced(*SYNCS):
        client.say(submission(job))
        replies = [client.reply() for _ in range(3)]
    same("replies", replies, [f"ok job {job}", "ok bytes 6", "ok type application/octet-stream stages 1"])
    calls = calls_in(folder)
    same("syncs", calls[:2], ["sync", "sync"])
    holds(f"its replies: {calls}", "reply" in calls and "sync" not in calls[2:])


def test_a_last_piece_with_its_close(folder):
    """The last piece of a document and `closeat`, sent at once, cost two syncs, and their replies come after these. A refused one costs none."""
    client, job = held_queue(folder)
    same("job", client.create("q"), job)
    with folder.traced(*SYNCS):
        client.say(b"send %d 6\nhello\n\ncloseat %d 6 f\n" % (job, job))
        replies = [client.reply() for _ in range(2)]
    same("replies", replies, ["ok bytes 6", "ok type application/octet-stream stages 1"])
    calls = calls_in(folder)
    same("syncs", calls[:2], ["sync", "sync"])
    holds(f"its replies: {calls}", "reply" in calls and "sync" not in calls[2:])
    other = client.create("q")
    with folder.traced(*SYNCS):
        same("another size", client.ask(f"closeat {other} 6 f\n"), "error size")
    same("syncs of a refusal", calls_in(folder).count("sync"), 0)


def test_clients_share_a_pair_of_syncs(folder):
    """Commands of 16 clients that come at the same time cost two syncs, and no client gets a reply before these."""
    first, _ = held_queue(folder)
    clients, jobs = served_clients(folder, 16), [first.create("q") for _ in range(16)]
    with folder.traced(*SYNCS):
        say_at_once(folder, clients, jobs)
        for client in clients:
            same("replies", [client.reply(), client.reply()], ["ok bytes 6", "ok type application/octet-stream stages 1"])
    calls = calls_in(folder)
    same("syncs before the first reply", calls[:2], ["sync", "sync"])
    same("the others are replies", set(calls[2:]), {"reply"})


@pytest.mark.needs("spool_front")
def test_turns_of_a_large_submission(folder):
    """`spool` submits a mebibyte over one connection in no more turns than it sends pieces: what the service writes to it is one turn's."""
    held_queue(folder)
    folder.write("document", bytes(range(256)) * 4_096)
    with folder.traced(*SYNCS, "-s", "4096"):
        Front(folder).says("spool", "submit", "q", folder.at("document"))
    replies = [line for line in folder.read("calls").splitlines() if re.search(r"sendto\(\d+<(socket|UNIX)", line)]
    pieces = "".join(replies).count("ok bytes ")
    holds(f"pieces of at most 64 KiB: {pieces}", pieces >= 16)
    holds(f"{len(replies)} turns for {pieces} pieces: {replies}", len(replies) <= pieces)


def test_separate_commands(folder):
    """Commands that wait for the reply of the one before cost two syncs each."""
    client, job = held_queue(folder)
    with folder.traced(*SYNCS):
        same("job", client.create("q"), job)
        client.finish(job)
    same("syncs", calls_in(folder).count("sync"), 6)


@pytest.mark.parametrize("number", [1, 2])
def test_a_kill_at_a_sync(folder, number):
    """A service that is killed at a sync of a batch leaves none of its events or all of them, and sent no reply."""
    client, job = held_queue(folder)
    with folder.traced(*SYNCS, "-e", f"inject=fsync,fdatasync:signal=KILL:when={number}"):
        client.say(submission(job))
        same("it sends nothing", client.is_closed(), True)
        folder.running.wait()
    client = folder.open()
    fields = client.fields(job)
    holds(f"none or all: {fields}", not fields or (fields["size"], fields["state"]) == ("6", "3"))
    if fields:
        client.does("enable q")
        client.until_state(job, "9")
        same("printed", folder.printed(), "hello\n")


@pytest.mark.parametrize("call, number", [*(("pwrite64", number) for number in (1, 2, 7, 16, 31)), ("fdatasync", 1), ("fdatasync", 2)])
def test_a_call_that_fails_in_a_batch(folder, call, number):
    """If the disk fails within a turn, no client gets a reply, and none of the turn's events remains or all."""
    first, _ = held_queue(folder)
    clients, jobs = served_clients(folder, 8), [first.create("q") for _ in range(8)]
    with folder.traced("-f", "-e", f"trace={call}", "-e", f"inject={call}:error=EIO:when={number}"):
        say_at_once(folder, clients, jobs)
        for client in clients:
            same("it sends nothing", client.is_closed(), True)
        same("it ends", folder.running.wait(), 1)
    folder.start()
    states = {tuple(Client(folder).fields(job)[name] for name in ("size", "state")) for job in jobs}
    holds(f"none or all: {states}", states in ({("0", "4")}, {("6", "3")}))


def test_a_refused_command_among_others(folder):
    """A command that is refused changes nothing, and the commands around it are done."""
    client, job = held_queue(folder)
    client.say(b"close 999 f\n" + submission(job) + b"cancel 999\n")
    replies = [client.reply() for _ in range(5)]
    same("the refusals", [replies[0][:6], replies[4][:6]], ["error ", "error "])
    same("the others", [reply.split()[0] for reply in replies[1:4]], ["ok"] * 3)
    same("after a kill", folder.reopen().fields(job)["size"], "6")
