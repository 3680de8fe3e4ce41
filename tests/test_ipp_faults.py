"""Tests of the IPP front with connections that are cut, programs that are killed, damaged requests, and more clients than it serves."""
import contextlib
import itertools
import os
import random
import socket
import subprocess
import threading
import time
from collections import Counter
from concurrent.futures import ProcessPoolExecutor

import pytest

from harness.checks import at_once, Difference, holds, LONGEST, same, timed, until
from harness.cutter import Cutter, REPLIES, REQUESTS
from harness.front import in_browser
from harness.ipp import (
    attribute, CANCEL_JOB, Connection, CREATE_JOB, GET_JOB, GET_JOBS, GET_PRINTER, INTEGER, Ipp, job_of, KEYWORD, LAST, message, MIME,
    NAME, OK, PRINT_JOB, read, SEND_DOCUMENT, VALIDATE_JOB,
)
from harness.service import all_kept, Client, kept, MOST_DELAY, SLACK

pytestmark = pytest.mark.needs("spool_ipp")


def documents_at_rest(folder):
    """Waits until no job is printed or is about to be. Returns how many jobs have been printed with each document."""
    client = Client(folder)
    until("all jobs have ended", lambda: not any(state.startswith(("3", "5")) for state in client.states().values()))
    return Counter(all_kept(folder))


def answered(line, body):
    """The answer to a message, or None if the connection ends before it is whole."""
    try:
        line.post(body)
        reply = line.reply()
    except (OSError, Difference):
        return None
    return read(reply[1]) if reply and reply[0] == 200 else None


# ---- a connection that is cut at each byte


def print_at_once(ipp, line, data):
    """Prints a document by one request. Returns whether it was accepted."""
    answer = answered(line, message(PRINT_JOB, ipp.uri()) + data)
    return answer is not None and answer[0] == OK


def print_by_two(ipp, line, data):
    """Prints a document by two requests, and sends the second one again if it is not answered. Returns whether it was accepted."""
    answer = answered(line, message(CREATE_JOB, ipp.uri()))
    if answer is None:
        return False
    number = attribute(INTEGER, "job-id", job_of(answer))
    sent = answered(line, message(SEND_DOCUMENT, ipp.uri(), number, LAST) + data)
    if sent is None:
        sent = ipp.ask(SEND_DOCUMENT, number, LAST, document=data)
    return sent[0] == OK


def told_at_cuts(cutter, prints, is_long):
    """Prints a document while each connection is cut, at each byte that a document takes or at some. Returns what `prints` says of each."""
    before, whole = dict(cutter.passed), text_of("whole", 0)
    told = {whole: prints(whole)}
    for side in (REQUESTS, REPLIES):
        for count in range(0, cutter.passed[side] - before[side] + 4, 1 if is_long else 61):
            cutter.cut(side, count)
            told[text_of(side, count)] = prints(text_of(side, count))
    cutter.cut(None, 0)
    return told


def text_of(side, count):
    """A document of its own for each cut, always of the same length."""
    return f"{side:8} {count:5}".encode()


@pytest.mark.parametrize("end", ["closed", "reset"])
@pytest.mark.parametrize("act", [print_at_once, print_by_two])
def test_cut_between_client_and_front(folder, ipp, is_long, act, end):
    """Each acknowledged document is printed once and each other one at most once, wherever the connection is cut. None is printed in part."""

    def prints(data):
        with Connection(socket.create_connection(listener.getsockname(), timeout=LONGEST)) as line:
            return act(ipp, line, data)

    with socket.create_server(("127.0.0.1", 0)) as listener, Cutter(listener, ipp.connect, end == "reset") as cutter:
        told = told_at_cuts(cutter, prints, is_long)
    same("the front serves", ipp.ask(GET_PRINTER)[0], OK)
    ipp.stop()
    judge(folder, told)


def judge(folder, told):
    """The documents that were printed, and whether each that was sent was acknowledged."""
    found = documents_at_rest(folder)
    print(f"{len(told)} documents, {sum(told.values())} acknowledged, {sum(found.values())} printed")
    same("documents that nobody sent", set(found) - set(told), set())
    same("documents that were printed again", {data: count for data, count in found.items() if count > 1}, {})
    same("acknowledged documents that were not printed", {data for data, is_told in told.items() if is_told} - set(found), set())


@pytest.mark.parametrize("act", [print_at_once, print_by_two])
def test_cut_between_front_and_service(folder, is_long, act):
    """The front connects again and continues: each document is acknowledged and printed once, wherever its connection to the service is cut."""

    def prints(data):
        with Connection(front.connect()) as line:
            return act(front, line, data)

    with Ipp.behind(folder, lambda listener: Cutter(listener, lambda: Client(folder).connection)) as (front, cutter), front:
        told = told_at_cuts(cutter, prints, is_long)
        judge(folder, told)
        same("documents that were refused", {data for data, is_told in told.items() if not is_told}, set())


# ---- programs that are killed


class Killer:
    """Kills the service and the front in turn, after some more documents each time, and starts them again, during a `with`. `kills` are the
    times of the front's kills.
    """

    def __init__(self, folder, ipp, seed, found):
        self.folder, self.ipp, self.random, self.found = folder, ipp, random.Random(seed), found
        self.stopping = threading.Event()
        self.kills = []
        self.thread = threading.Thread(target=self.run)

    def __enter__(self):
        self.thread.start()
        return self

    def __exit__(self, *fault):
        self.stopping.set()
        self.thread.join()

    def run(self):
        for victim in itertools.cycle((self.folder, self.ipp)):
            due = len(self.found) + self.random.randint(2, 12)
            while len(self.found) < due:
                if self.stopping.wait(self.random.uniform(0, 0.1)):
                    return
            if victim is self.ipp:
                self.kills.append(time.monotonic())
            victim.kill()
            victim.start()

    def killed_front(self, began, ended):
        """Whether the front was killed between these times."""
        return any(began <= at <= ended for at in self.kills)


def print_some(folder, ipp, numbers, seed, found):
    """Prints documents by lp, from standard input or from a file. Notes the output of lp, and when it began and ended."""
    chance = random.Random(seed)
    environment = {**os.environ, "CUPS_SERVER": ipp.address, "LC_ALL": "C.UTF-8"}
    for number in numbers:
        data, name = b"document %d\n" % number * chance.choice((1, 100, 20_000)), f"document-{number}"
        folder.write(name, data.decode())
        words = ["lp", "-d", "q", "-U", "anna"] + ([folder.at(name)] if chance.random() < 0.5 else [])
        until("the front", lambda: is_reachable(ipp))
        began = time.monotonic()
        with open(folder.at(name), "rb") as file:
            ran = subprocess.run(words, stdin=file, capture_output=True, timeout=LONGEST, env=environment, text=True)
        found.append((data, ran, began, time.monotonic()))
        os.remove(folder.at(name))


def is_reachable(ipp):
    try:
        ipp.connect().close()
        return True
    except OSError:
        return False


@pytest.mark.needs("lpstat")
def test_killed_at_random(folder, ipp, seed, is_long):
    """For each `request id is` of lp there is exactly one job with the document, and none is printed twice, while the service and the front are
    killed at random. Only for a document during which the front was killed may there be none (spool_ipp(8), ANSWERS).
    """
    numbers, found = iter(range(1_000 if is_long else 40)), []
    with Killer(folder, ipp, seed, found) as killer:
        at_once([lambda n=n: print_some(folder, ipp, numbers, seed + n, found) for n in range(4)])
    ipp.stop()
    printed, lost = documents_at_rest(folder), 0
    for data, ran, began, ended in found:
        holds(f"{data[:20]} was printed {printed[data]} times: {ran}", printed[data] <= 1)
        if ran.returncode == 0 and not printed[data]:
            holds(f"{data[:20]} was lost: {ran}", killer.killed_front(began, ended))
            lost += 1
        if ran.returncode == 0 and printed[data]:
            job = ran.stdout.split("request id is ")[1].split()[0].rsplit("-", 1)[1]
            same(f"job {job}", kept(folder, job), data)
    accepted = sum(ran.returncode == 0 for _, ran, _, _ in found)
    print(f"{len(found)} documents, {accepted} accepted by lp, {lost} lost by kills of the front, which was killed {len(killer.kills)} times")


# ---- damaged requests


def requests(ipp):
    """Requests that clients send, with their heads."""
    number = attribute(INTEGER, "job-id", 1)
    hold = [attribute(KEYWORD, "job-hold-until", "indefinite"), attribute(INTEGER, "copies", 2)]
    bodies = [
        message(PRINT_JOB, ipp.uri(), attribute(NAME, "job-name", "title"), attribute(MIME, "document-format", "text/plain")) + b"document",
        message(PRINT_JOB, ipp.uri(), job=hold) + b"held",
        message(VALIDATE_JOB, ipp.uri(), job=hold),
        message(CREATE_JOB, ipp.uri()),
        message(SEND_DOCUMENT, ipp.uri(), number, LAST) + b"document",
        message(CANCEL_JOB, ipp.uri(), number),
        message(GET_JOB, ipp.uri(), number, attribute(KEYWORD, "requested-attributes", "job-id", "job-name")),
        message(GET_JOBS, ipp.uri(), attribute(KEYWORD, "which-jobs", "completed")),
        message(GET_PRINTER, ipp.uri(), attribute(KEYWORD, "requested-attributes", "all", "media-col-database")),
    ]
    head = "POST /printers/q HTTP/1.1\r\nHost: localhost\r\nContent-Type: application/ipp\r\n"
    whole = [f"{head}Content-Length: {len(body)}\r\n\r\n".encode() + body for body in bodies]
    pieces = [f"{head}Transfer-Encoding: chunked\r\n\r\n{len(body):x}\r\n".encode() + body + b"\r\n0\r\n\r\n" for body in bodies]
    return [*whole, *pieces, b"GET /printers/q HTTP/1.1\r\nHost: localhost\r\n\r\n"]


def damaged(chance, data):
    """The data with up to eight bytes changed, removed or added."""
    data = bytearray(data)
    for _ in range(chance.randint(1, 8)):
        at = chance.randrange(len(data))
        kind = chance.randrange(4)
        if kind == 0:
            data[at] = chance.randrange(256)
        elif kind == 1:
            data[at] ^= 1 << chance.randrange(8)
        elif kind == 2:
            del data[at]
        else:
            data.insert(at, chance.randrange(256))
    return bytes(data)


def replies_to(ipp, data):
    """The replies of HTTP to these bytes, after which the client sends nothing more."""
    with Connection(ipp.connect()) as line:
        line.say(data)
        line.connection.shutdown(socket.SHUT_WR)
        found = []
        while reply := line.reply():
            found.append(reply)
        return found


def test_damaged_requests(folder, ipp, seed, is_long):
    """Each is answered, the front and the service continue, and each answer that names a new job has one of its own."""
    chance, jobs = random.Random(seed), []
    good = requests(ipp)
    for number in range(5_000 if is_long else 400):
        data = damaged(chance, chance.choice(good))
        replies = replies_to(ipp, data)
        holds(f"request {number} is answered: {data!r}", replies and all(100 < status < 600 for status, _ in replies))
        jobs += [job for status, content in replies if status == 200 for job in new_jobs(data, content)]
        if number % 50 == 0:
            same("a good client", ipp.ask(GET_PRINTER)[0], OK)
    same("jobs that two answers name", {job: count for job, count in Counter(jobs).items() if count > 1}, {})
    newest = Client(folder).create("q")
    same("jobs that nobody made", [job for job in jobs if job >= newest], [])
    same("queues", [line.split()[1] for line in Client(folder).listing("queues\n")], ["q"])


def new_jobs(data, content):
    """The job that an answer to this request names, if the request makes one."""
    head, _, body = data.partition(b"\r\n\r\n")
    body = body.partition(b"\r\n")[2] if b"chunked" in head.lower() else body
    if int.from_bytes(body[2:4], "big") not in (PRINT_JOB, CREATE_JOB) or content[2:4] not in (b"\0\0", b"\0\1"):
        return []
    return [job_of(read(content))]


# ---- framing


def test_framing_of_bodies(folder, ipp):
    """A body whose length is given twice or in two ways is refused, and leaves no job."""
    body = message(PRINT_JOB, ipp.uri()) + b"x"
    length = f"Content-Length: {len(body)}\r\n"
    rows = [
        (length + "Transfer-Encoding: chunked\r\n", 400),
        ("Transfer-Encoding: chunked\r\n" + length, 400),
        (length + f"Content-Length: {len(body) + 1}\r\n", 400),
        (f"Content-Length: {len(body)}, {len(body)}\r\n", 400),
        (f"Content-Length: +{len(body)}\r\n", 400),
        ("Content-Length: -1\r\n", 400),
        ("Content-Length: 99999999999999999999\r\n", 400),
        ("Transfer-Encoding: gzip, chunked\r\n", 501),
        ("Transfer-Encoding: chunked, gzip\r\n", 400),
    ]
    for fields, status in rows:
        with Connection(ipp.connect()) as line:
            line.say(f"POST / HTTP/1.1\r\nHost: localhost\r\nContent-Type: application/ipp\r\n{fields}\r\n".encode() + body)
            same(fields, line.reply()[0], status)
            holds("the connection ends", not line.connection.recv(100))
    same("no jobs", Client(folder).states(), {})


# ---- more clients than are served


class Asking:
    """A client that asks again and again. It connects again if its place was taken, which counts as a part of the reply."""

    def __init__(self, ipp):
        self.ipp, self.line, self.losses = ipp, None, -1

    def asked(self):
        """The seconds until the reply."""
        return timed(self.ask)

    def ask(self):
        answer = None
        while answer is None:
            if self.line is None:
                self.line, self.losses = Connection(self.ipp.connect()), self.losses + 1
            answer = answered(self.line, message(GET_PRINTER, self.ipp.uri()))
            self.line = self.line if answer else None
        same("status", answer[0], OK)


def connect_for_nothing(port, count, stride):
    """Makes connections in turn, and keeps `stride` of them open. Some send a part of a request, others nothing."""
    held = []
    for number in range(count):
        held.append(socket.create_connection(("127.0.0.1", port), timeout=LONGEST))
        # There may be no place for it.
        with contextlib.suppress(ConnectionError):
            held[-1].sendall((b"", b"POST / HT", b"POST / HTTP/1.1\r\nHost: localhost\r\n", b"\x16\x03\x01")[number % 4])
        if len(held) == stride:
            held.pop(0).close()
    for connection in held:
        connection.close()


@pytest.mark.alone
def test_thousands_of_connections(ipp, is_long):
    """While 10,000 other clients connect, 99 of 100 replies to a client take hardly longer than usually."""
    client, meanwhile, count = Asking(ipp), [], 1_000 if is_long else 50
    usual = [client.asked() for _ in range(count)]
    with ProcessPoolExecutor(1) as others:
        flood = None
        while flood is None or not flood.done() or len(meanwhile) < count:
            if flood is None or flood.done():
                flood = others.submit(connect_for_nothing, ipp.port, 10_000 if is_long else 500, 40)
            meanwhile.append(client.asked())
        flood.result()
    ours, theirs = (sorted(times)[len(times) * 99 // 100] for times in (meanwhile, usual))
    print(f"{len(meanwhile)} replies, 99 of 100 within {1000 * ours:.1f} ms, usually {1000 * theirs:.1f} ms; connected again {client.losses} times")
    holds("replies meanwhile", ours <= MOST_DELAY * theirs + SLACK)


# ---- a browser


@pytest.mark.needs("chromium")
def test_page_in_a_browser(folder, ipp):
    """It shows the cells of the page that the front serves, and no markup of a title."""
    ipp.lp("-d", "q", "-t", "<script>document.title='run'</script><b>bold</b>", "-H", "indefinite", data=b"x")
    for path in ("/", "/printers/q"):
        in_browser(folder, f"http://{ipp.address}{path}")
