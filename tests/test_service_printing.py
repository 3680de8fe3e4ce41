"""Tests of what the service prints: whole documents, the words and the results of children, and the children that it ends."""
import contextlib
import os
import random
import re
import time

import pytest

from harness.checks import Difference, holds, same, until
from harness.service import Client, is_there, kept, send_piece, started, TYPE

def test_large_documents(folder):
    """Two documents above 1 MiB, sent in turn by two clients, are printed whole: by a backend, and by a filter and a backend."""
    folder.two_stages(0)
    folder.start()
    clients, chance = [Client(folder), Client(folder)], random.Random(20)
    folder.queue(clients[0], "q", scheme="keeps")
    folder.queue(clients[1], "f", scheme="keeps", target="a/b")
    documents = [chance.randbytes(1_048_577), chance.randbytes(3_000_001)]
    jobs = [clients[0].create("q"), clients[1].create("f")]
    sent = [0, 0]
    while sent != [len(data) for data in documents]:
        for at, data in enumerate(documents):
            if sent[at] < len(data):
                sent[at] = send_piece(clients[at], jobs[at], data, sent[at])
    same("close", clients[0].ask(f"close {jobs[0]} f\n"), f"ok type {TYPE} stages 1")
    same("close", clients[1].ask(f"close {jobs[1]} f.x\n"), "ok type a/a stages 2")
    clients[0].until_ended(jobs)
    for job, data in zip(jobs, documents):
        holds(f"document {job} of {len(data)} bytes was printed whole", kept(folder, job) == data)
        same("its size", clients[0].fields(job)["size"], str(len(data)))


# ---- the same children, by the shell and by the service

# A filter and a backend that record their words and variables, and report pages, reasons and messages. The backend ends as the last part of
# the device's URI says.
RECORDS = """#!/bin/sh
{
    for word; do echo "$word"; done
    env | sort
    ls -l /proc/self/fd | wc -l
} >FOLDER/words-$1-$SPOOL_ATTEMPT-$SPOOL_STAGE
"""
TELLS_FIRST = RECORDS + """
echo 'STATE: +toner-low,media-low' >&2
echo 'PAGE: 1 2' >&2
echo 'INFO: half' >&2
cat "${6:--}"
"""
TELLS_LAST = RECORDS + """
echo 'STATE: -media-low' >&2
echo 'PAGE: 2 3' >&2
echo "ERROR: the end of $3" >&2
cat "${6:--}" >FOLDER/kept-$1
how=${DEVICE_URI##*/}
case $how in
    signal) kill -KILL $$ ;;
    total) echo 'PAGE: total 40' >&2; exit 0 ;;
    much) yes 'DEBUG: on and on' | head -c 1100000 >&2; echo 'STATE: +media-jam' >&2; exit 0 ;;
    *) printf 'ATTR: marker-levels=5' >&2; exit "$how" ;;
esac
"""

ENDS = ["0", "1", "2", "3", "4", "5", "6", "7", "99", "255", "signal", "total", "much"]


def ends_script():
    """A queue and a job for each end, with one filter and without; at most two attempts."""
    lines, job = [], 0
    for number, how in enumerate(ENDS):
        for target in (TYPE, "a/b"):
            job += 1
            name, policy = f"q{job:02}", "retry-job" if number % 2 else "abort-job"
            lines.append(f"queue {name} tells:/x/{how} {target} {policy} 0 2\n")
            lines.append(f"create {name} u{job} \"A 'title' $HOME {job}\" {1 + job} 50 \"media=A{job} note='a b'\"\n")
            document = f"document {job}\n"
            lines.append(f"send {job} {len(document)}\n{document}\n")
            lines.append(f"close {job} f{'.x' if target == 'a/b' else ''}\n")
    return lines, job


def results(folder):
    """The words and variables of the children, and the documents that they printed, by the name of the file, without the path of the folder."""
    names = sorted(name for name in os.listdir(folder.path) if re.fullmatch(r"(words|kept)-[\d-]+", name))
    found = {name: folder.read(name).replace(folder.path, "FOLDER") for name in names}
    for name in names:
        os.remove(folder.at(name))
    return found


@pytest.mark.needs("spool_shell")
def test_children_as_in_the_shell(folder):
    """The same jobs have the same ends, pages, reasons and messages as in the shell, and their children get the same words, variables,
    descriptors and documents.
    """
    folder.two_stages(0, TELLS_FIRST)
    folder.backend("tells", TELLS_LAST)
    lines, jobs = ends_script()
    replies = folder.by_shell("".join(lines) + "drain 20\njobs\nqueues\n")
    by_shell = results(folder)
    rows = [line for line in replies.splitlines() if line.startswith(("job ", "queue "))]
    client = folder.open()
    for line in lines:
        holds(line, client.ask(line).startswith("ok"))
    found = []

    def are_the_same():
        found[:] = client.listing("jobs\n") + client.listing("queues\n")
        return found == rows

    with contextlib.suppress(Difference):
        until("the same rows", are_the_same)
    same("rows", found, rows)
    by_service = results(folder)
    same("the files of children", sorted(by_service), sorted(by_shell))
    for name, text in by_shell.items():
        same(name, by_service[name], text)
    print(f"  {jobs} jobs, {len([name for name in by_shell if name.startswith('words')])} children")


# ---- ends

# A backend that records a SIGTERM and fails then, and that otherwise prints after some time.
RECORDS_END = """#!/bin/sh
trap 'echo "$PRINTER" >>FOLDER/terminated; exit 1' TERM
echo $$ >>FOLDER/pids
for turn in 1 2 3 4 5 6 7 8 9 10 11 12 13 14 15 16 17 18 19 20; do sleep 0.1; done
cat "${6:--}" >>FOLDER/printed
"""


def test_one_of_several_children_is_ended(folder):
    """`end` of one child sends the others no signal, and they print."""
    folder.backend("records", RECORDS_END)
    names = ["a", "b", "c"]
    client = folder.open(*names, policy="abort-job", scheme="records")
    for ended in (1, 0, 2):
        jobs = [client.submit(name, f"{name}\n") for name in names]
        client.until_ended(jobs, "5")
        until("their processes", lambda: len(folder.read("pids").split()) == 3)
        client.does(f"end {jobs[ended]}")
        client.until_state(jobs[ended], "8")
        others = [job for job in jobs if job != jobs[ended]]
        same("the others run", [client.state(job)[0] for job in others], ["5", "5"])
        client.until_ended(others)
        same("terminated", folder.read("terminated"), f"{names[ended]}\n")
        same("printed", sorted(folder.printed().split()), [name for name in names if name != names[ended]])
        same("their attempts", {client.fields(job)["attempts"] for job in jobs}, {"1"})
        for name in ("pids", "terminated", "printed"):
            os.remove(folder.at(name))


# A backend that ends when it is terminated, and leaves a process of its group that ignores SIGTERM.
LEAVES = """#!/bin/sh
sh -c 'trap "" TERM; echo $$ >>FOLDER/pids; exec sleep 30' &
trap 'exit 1' TERM
while :; do sleep 0.1; done
"""


def test_a_group_whose_child_has_ended(folder):
    """After the child has ended, no further signal is sent to its process group: a process that it has left is not killed."""
    folder.backend("leaves", LEAVES)
    client = folder.open("q", policy="abort-job", scheme="leaves")
    job = client.submit("q")
    client.until_state(job, "5")
    left = started(folder, 1)
    client.does(f"end {job}")
    client.until_state(job, "8")
    same("an end of a child that has ended", client.ask(f"end {job}\n"), "error job")
    # Turns of the service after the time when a child that has not ended is killed.
    time.sleep(11)
    for _ in range(5):
        same("a turn", client.state(job)[0], "8")
        time.sleep(0.1)
    same("the process that it left", [is_there(pid) for pid in left], [True])
    for pid in left:
        os.kill(pid, 9)
