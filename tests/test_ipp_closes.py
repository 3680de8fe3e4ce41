"""Tests of the commands that the IPP front sends together: the last piece of a document, its close, and the command for the answer."""
import contextlib
import re
import select
import socket
import time

import pytest

from harness.between import Between, LOST_AFTER, LOST_BEFORE
from harness.checks import at_once, holds, LONGEST, same, until
from harness.ipp import (
    attribute, BOOLEAN, Connection, CREATE_JOB, GET_JOB, GET_JOBS, INTEGER, Ipp, job_of, KEYWORD, LAST, message, NAME, NOT_AUTHORIZED, OK,
    PRINT_JOB, read, SEND_DOCUMENT,
)
from harness.service import all_kept, Client

pytestmark = pytest.mark.needs("spool_ipp")

BATCH = ["send", "closeat", "job"]


@contextlib.contextmanager
def between(folder, rule=lambda word: None):
    """The front of a service, and the proxy between them."""
    with Ipp.behind(folder, lambda listener: Between(listener, folder, rule)) as (front, proxy), front:
        yield front, proxy


class Once:
    """A rule: answers the commands with this first word so, each once, and passes all others on."""

    def __init__(self, word, *replies):
        self.word, self.replies = word, list(replies)

    def __call__(self, word):
        if word != self.word or not self.replies:
            return None
        reply = self.replies.pop(0)
        return reply() if callable(reply) else reply


def is_printed_once(folder, data):
    """Exactly one job is printed, with this document."""
    until("the document is printed", lambda: all_kept(folder))
    until("the job has ended", lambda: all(state.startswith(("7", "8", "9")) for state in Client(folder).states().values()))
    same("the documents", all_kept(folder), [data])


# ---- commands that are sent together

@pytest.mark.parametrize("length", [1, 1_024, 30_000, 100_000, 300_000])
def test_sent_together(folder, length):
    """The close and the command for the answer are sent together with the last piece of a document."""
    with between(folder) as (front, proxy):
        data = b"x" * length
        answer = front.ask(PRINT_JOB, document=data)
        same("status", answer[0], OK)
        same("the number", answer[1][1][1]["job-id"], [1])
        pieces = len(proxy.together) - 3
        same("the commands", proxy.together, [["queue"], ["create"], *[["send"]] * pieces, BATCH])
        holds(f"{pieces} pieces before the last one", length // 65_537 <= pieces <= length // 40_000)
        is_printed_once(folder, data)


def test_last_document(folder):
    """So are those of a document that is sent by Send-Document, if it is the only one."""
    with between(folder) as (front, proxy):
        number = attribute(INTEGER, "job-id", job_of(front.ask(CREATE_JOB)))
        same("status", front.ask(SEND_DOCUMENT, number, LAST, document=b"only")[0], OK)
        same("the commands", proxy.together[-1], BATCH)
        is_printed_once(folder, b"only")


def test_further_documents(folder):
    """A job of several documents, and one that is held, are closed by a command of their own after all documents are whole."""
    with between(folder) as (front, proxy):
        number = attribute(INTEGER, "job-id", job_of(front.ask(CREATE_JOB)))
        for last, data in ((False, b"first"), (True, b"second")):
            words = attribute(BOOLEAN, "last-document", last)
            same("status", front.ask(SEND_DOCUMENT, number, words, document=data)[0], OK)
        held = attribute(KEYWORD, "job-hold-until", "indefinite")
        same("status", front.ask(PRINT_JOB, job=[held], document=b"held")[0], OK)
        words = [word for words in proxy.together for word in words]
        same("closes", (words.count("closeat"), words.count("close")), (0, 3))


def test_end_that_comes_later(folder):
    """If the end of a document is known only after its last piece, the close is sent alone."""
    with between(folder) as (front, proxy), Connection(front.connect()) as line:
        body = message(PRINT_JOB, front.uri()) + b"late"
        line.say(b"POST / HTTP/1.1\r\nHost: localhost\r\nContent-Type: application/ipp\r\nTransfer-Encoding: chunked\r\n\r\n")
        line.say(b"%x\r\n%s\r\n" % (len(body), body))
        until("the piece is sent", lambda: ["send"] in proxy.together)
        line.say(b"0\r\n\r\n")
        same("status", read(line.reply()[1])[0], OK)
        same("the commands", proxy.together[-2:], [["close"], ["job"]])
        is_printed_once(folder, b"late")


# ---- connections that are lost, and refusals

def prints_once(folder, rule, commands=None):
    """A document is printed once whatever the rule answers, and the client is told so. `commands` are those after the creation of the job."""
    with between(folder, rule) as (front, proxy):
        same("status", front.ask(PRINT_JOB, document=b"whole")[0], OK)
        same("the commands", proxy.together[2:], commands or proxy.together[2:])
        is_printed_once(folder, b"whole")


@pytest.mark.parametrize("lost", [LOST_BEFORE, LOST_AFTER])
@pytest.mark.parametrize("word", ["queue", "create", *BATCH])
def test_lost_at_each_command(folder, word, lost):
    """The connection to the service is lost before or after each command."""
    prints_once(folder, Once(word, lost))


@pytest.mark.parametrize("lost", [LOST_BEFORE, LOST_AFTER])
@pytest.mark.parametrize("word", BATCH)
def test_killed_at_each_command(folder, word, lost):
    """The service is killed before or after each command, and starts again."""

    def kill():
        folder.kill()
        folder.start()
        return LOST_BEFORE

    # After LOST_AFTER the command was executed by a connection of its own: the next commands of the front have no other effect than this one.
    prints_once(folder, Once(word, kill) if lost == LOST_BEFORE else Once(word, LOST_AFTER, kill))


ALONE = [BATCH, ["close"], ["job"]]


@pytest.mark.parametrize("word, replies, commands", [
    # A piece that the service puts off is sent again with its close.
    ("send", [b"error full\n"] * 2, [BATCH] * 3),
    ("send", [b"error memory\n"] * 2, [BATCH] * 3),
    # A close that the service refuses after the piece is sent again, alone.
    ("closeat", [b"error full\n"], ALONE),
    ("closeat", [b"error memory\n"], ALONE),
    ("closeat", [b"error size\n"], ALONE),
    # After an unclear reply to the close the state of the job is asked for.
    ("closeat", [b"error disk\n"], None),
])
def test_refused_and_sent_again(folder, word, replies, commands):
    prints_once(folder, Once(word, *replies), commands)


def test_client_gone_before_the_replies(folder):
    """A document that is whole is printed though its client has left, because it is closed already."""
    leaving = []

    def leave():
        leaving.pop().connection.close()
        return LOST_AFTER

    with between(folder, Once("closeat", leave)) as (front, proxy):
        leaving.append(Connection(front.connect()))
        leaving[0].post(message(PRINT_JOB, front.uri()) + b"whole")
        is_printed_once(folder, b"whole")


def test_older_service(folder):
    """A service that does not know `closeat` prints the document by `close`."""
    with between(folder, lambda word: b"error syntax\n" if word == "closeat" else None) as (front, proxy):
        for data in (b"first", b"second" * 20_000):
            same("status", front.ask(PRINT_JOB, document=data)[0], OK)
        same("the commands", proxy.together[-3:], [BATCH, ["close"], ["job"]])


def test_refused(folder):
    """If the piece is refused, the client gets the error of the piece, not that of the close, and the job is canceled."""
    with between(folder, Once("send", b"error denied\n")) as (front, proxy):
        same("status", front.ask(PRINT_JOB, document=b"whole")[0], NOT_AUTHORIZED)
        same("the commands", proxy.together[2:], [BATCH, ["cancel"]])
        same("the job", Client(folder).state(1)[:1], "7")


def test_unshown_job(folder):
    """A job that was accepted is answered with success though the service does not show it."""
    with between(folder, Once("job", b"error job\n")) as (front, proxy):
        answer = front.ask(PRINT_JOB, document=b"whole")
        same("status", (answer[0], [tag for tag, _ in answer[1]]), (OK, [1]))
        is_printed_once(folder, b"whole")


# ---- output that waits

@pytest.mark.strace
def test_slow_reader(folder, ipp):
    """A connection is watched for writing only while an answer waits, which does not fit into its buffer, until the rest is written."""
    Client(folder).does("disable q")
    name = attribute(NAME, "job-name", "n" * 250)
    at_once([lambda: [ipp.ask(PRINT_JOB, name, document=b"x") for _ in range(60)]] * 4)
    words = ["-f", "-e", "trace=epoll_wait,epoll_ctl,sendto"]
    with folder.traced(*words, process=ipp.running.pid), Connection(socket.socket(socket.AF_UNIX)) as line:
        line.connection.settimeout(LONGEST)
        line.connection.connect(ipp.local)
        line.post(message(GET_JOBS, ipp.uri(), attribute(KEYWORD, "requested-attributes", "all")))
        select.select([line.connection], [], [])
        time.sleep(0.5)
        status, content = line.reply()
        same("jobs", (status, len(read(content)[1])), (200, 241))
        same("another", line.ask(message(GET_JOB, ipp.uri(), attribute(INTEGER, "job-id", 1)))[0], OK)
    calls = folder.read("calls").splitlines()
    changes = [re.search(r"EPOLL_CTL_MOD.*events=([A-Z|]*)", call) for call in calls]
    changes = ["EPOLLOUT" in change[1] for change in changes if change]
    holds(f"changes {changes}", changes and changes == [True, False] * (len(changes) // 2))
    waits = sum("EAGAIN" in call for call in calls if "sendto" in call)
    reports = sum("EPOLLOUT" in call for call in calls if "epoll_wait" in call)
    holds(f"{waits} writes would wait, {reports} reports", len(changes) // 2 <= waits and 0 < reports <= waits)


def test_slow_service(folder):
    """Pieces that wait while the service reads nothing are sent once it reads again."""
    waits = []

    def pause():
        waits.append(time.sleep(1))

    with between(folder, Once("send", pause, pause)) as (front, proxy):
        documents = [bytes([65 + number]) * 60_000 for number in range(12)]
        at_once([lambda data=data: same("status", front.ask(PRINT_JOB, document=data)[0], OK) for data in documents])
        until("all", lambda: len(all_kept(folder)) == len(documents))
        same("the documents", all_kept(folder), documents)
