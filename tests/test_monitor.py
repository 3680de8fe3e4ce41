"""What an administrator asks about a service that runs for years.

examples/office/job-log.py finds the lines about a job in files and compressed files, with times before the lines, and in the journal of
systemd, here a program in its place; without a line it says so. With a service: the cause of a failure, with the lines of its backend.

examples/office/watch-spool.py says what its page says: of a simulated service with stopped queues, queues that reject jobs, jobs that wait or
print for long, or little room, of no service at all, and of a real one. Its numbers for Prometheus are those.
"""
import gzip
import os
import re
import shutil
import subprocess
import time
from pathlib import Path

import pytest

from harness.checks import holds, LONGEST, same, until
from harness.printers import Printer
from harness.programs import ROOT
from harness.service import PIECE, send_document

OFFICE = os.path.join(ROOT, "examples", "office")


def run(script, *words, **more):
    ended = subprocess.run([os.path.join(OFFICE, script), *words], capture_output=True, text=True, timeout=LONGEST, **more)
    return ended.stdout, ended.stderr, ended.returncode


# ---- the log of a job

LINES = [
    "spool: job 5 attempt 1 stage 2 hall: ended with status 1, queue hall, user ann, title T",
    "spool: job 5 attempt 1 stage 2 hall: ERROR: no toner",
    "spool: job 55 attempt 1 stage 1 texttoprn: ended",
    "spool: job 15 attempt 1 stage 1 x: spool: job 6 attempt 1 stage 1 forged by a child",
    "spool: job 5 canceled: its client disconnected before it was closed",
    "spool: checkpoint took 5 ms",
]
OF_FIVE = [LINES[0], LINES[1], LINES[4]]


def text_of(lines, before=""):
    return "".join(f"{before}{line}\n" for line in lines)


def test_lines_about_a_job(room):
    old, new = os.path.join(room, "log.1.gz"), os.path.join(room, "log")
    before = "2025-11-30T02:00:00 host "
    with gzip.open(old, "wt") as file:
        file.write(text_of(LINES, before))
    Path(new).write_text(text_of(LINES))
    with open(old, "rb") as file, open(f"{old}.cut", "wb") as copy:
        copy.write(file.read()[:-9])
    same("a file", run("job-log.py", "--log", new, "5"), (text_of(OF_FIVE), "", 0))
    same("two files", run("job-log.py", "--log", old, "--log", new, "hall-5"), (text_of(OF_FIVE, before) + text_of(OF_FIVE), "", 0))
    same("two jobs", run("job-log.py", "--log", new, "55", "x-y-15")[0].count("\n"), 2)
    same("no line", run("job-log.py", "--log", new, "7"), ("", "job-log: no line about it\n", 1))
    same("no file, and a cut one", [run("job-log.py", "--log", it, "5")[2] for it in (f"{new}x", f"{old}.cut")], [1, 1])
    for word in ("", "x", "5x", "-1", "5-", "hall 5"):
        same(f"the job {word!r}", run("job-log.py", "--log", new, "--", word)[2], 2)


# A program in the place of journalctl, which selects as that does.
JOURNALCTL = """#!/usr/bin/env python3
import re, sys
words = sys.argv[1:]
assert words[:2] == ["--unit", "cegmandi"] and "--no-pager" in words and "short-iso" in words, words
lines = [line for line in LINES if "--grep" not in words or re.search(words[words.index("--grep") + 1], line)]
print("".join("BEFORE" + line + "\\n" for line in lines), end="")
sys.exit(0 if lines else 1)
"""


def test_lines_of_the_journal(room):
    before = "2025-11-30T02:00:00+0000 host spool_service[9]: "
    program = Path(room, "journalctl")
    program.write_text(JOURNALCTL.replace("LINES", repr(LINES)).replace("BEFORE", before))
    program.chmod(0o755)
    env = {**os.environ, "PATH": f"{room}:{os.environ['PATH']}"}
    same("the journal", run("job-log.py", "5", env=env), (text_of(OF_FIVE, before), "", 0))
    none = "job-log: no line about it; the journal begins 2025-11-30T02:00:00+0000\n"
    same("nothing in the journal", run("job-log.py", "6", env=env), ("", none, 1))


@pytest.mark.skipif(not shutil.which("journalctl"), reason="it needs journalctl (Debian's package systemd)")
def test_options_of_the_journal():
    """The words are those of the real program."""
    text = subprocess.run(["journalctl", "--help"], capture_output=True, text=True).stdout
    for option in ("--unit", "--output", "--quiet", "--no-pager", "--case-sensitive", "--grep"):
        holds(f"journalctl has no {option}", option in text)


# ---- the monitor

class Answering(Printer):
    """A service that gives fixed answers."""

    def __init__(self, path, answers):
        self.answers, self.asked = answers, set()
        super().__init__(self.answer, 100, path=path)

    def answer(self, connection):
        with connection.makefile("r") as commands:
            for command in map(str.strip, commands):
                self.asked.add(command.split()[0])
                connection.sendall((self.answers.get(command, "error syntax") + "\n").encode())


NOW = 1_800_000_000
QUEUE = 'queue hall {} {} application/octet-stream retry-job 30 5 none "a \\"message\\""\n'
GOOD = QUEUE.format(3, "accepting")
WAITS = 'job 7 hall 3 none "ann" 5 0 "T"\n'
PRINTS = 'job 6 hall 5 job-printing "ann" 5 0 "T"\n'


def job(number, created, attempts=0, started=None):
    fields = [f"job {number}", "queue hall", f"attempts {attempts}", f"created {created}"]
    return "\n".join(fields + ([f"started {started}"] if started else [])) + "\n"


def answers(queues="", jobs="", room=16_777_216, **lists):
    given = {"now": f"ok now {NOW}", "jobs": f"{jobs}ok {jobs.count(chr(10))}", "printers": f"{queues}ok {queues.count(chr(10))}",
             "incoming": "ok 0", "room": f"ok room {room}"}
    given.update({f"list queue hall state {state[1:]} most 100": f"{text}ok {text.count('job ')}" for state, text in lists.items()})
    return given


# What a service answers, the words of the script, its status and its line.
SERVICES = {
    "quiet": (answers(GOOD), [], 0, "OK: all queues print"),
    "no queue": (answers(), [], 0, "OK: all queues print"),
    "stopped without jobs": (answers(QUEUE.format(5, "accepting")), [], 0, "OK: all queues print"),
    "stopped": (answers(QUEUE.format(5, "accepting"), WAITS, _3=job(7, NOW - 9)), [], 1, "WARNING: hall is stopped, and 1 jobs wait"),
    "rejecting": (answers(QUEUE.format(3, "rejecting")), [], 1, "WARNING: hall rejects jobs"),
    "waiting": (answers(GOOD, WAITS, _3=job(7, NOW - 1800)), [], 0, "OK: all queues print"),
    "waiting long": (answers(GOOD, WAITS, _3=job(7, NOW - 1801)), [], 1, "WARNING: a job of hall waits for 1801 s"),
    "waiting too long": (answers(GOOD, WAITS, _3=job(7, NOW - 41) + job(8, NOW - 2)), ["--age", "10"], 2, "CRITICAL: a job of hall waits for 41 s"),
    "printing long": (answers(GOOD, PRINTS, _5=job(6, NOW - 9999, 1, NOW - 3601)), [], 1, "WARNING: a job of hall prints since 3601 s"),
    "little room": (answers(GOOD, room=16_777_215), [], 1, "WARNING: the longest document has 16777215 bytes"),
    "no room": (answers(GOOD, room=0), [], 2, "CRITICAL: the longest document has 0 bytes"),
    "busy": ({"now": "error busy"}, [], 3, "UNKNOWN: SOCKET: now: error busy"),
}


@pytest.mark.parametrize("name", SERVICES)
def test_a_simulated_service(room, name):
    given, words, level, text = SERVICES[name]
    path, numbers = os.path.join(room, "socket"), os.path.join(room, "numbers.prom")
    service = Answering(path, given)
    shown = run("watch-spool.py", "--socket", path, "--prometheus", numbers, *words)
    same("its output", shown, (f"SPOOL {text.replace('SOCKET', path)}\n", "", level))
    same("commands that change something", service.asked - {"now", "jobs", "printers", "list", "incoming", "room"}, set())
    lines = numbers_of(numbers)
    same("it is up", f"cegmandi_up {int(level != 3)}" in lines, True)
    if name == "waiting too long":
        wanted = {'cegmandi_jobs{queue="hall",state="waiting"} 1', 'cegmandi_oldest_waiting_seconds{queue="hall"} 41', "cegmandi_room_bytes 16777216"}
        same("numbers that are missing", wanted - {*lines}, set())


def numbers_of(path):
    """The lines for Prometheus: each has the form that it reads, and the lines of a name follow its type."""
    lines = Path(path).read_text().splitlines()
    names = []
    for line in lines:
        if line.startswith("# TYPE "):
            names.append(line.split()[2])
            continue
        found = re.fullmatch(r'(cegmandi_[a-z_]+)(\{[a-z]+="[^"]*"(?:,[a-z]+="[^"]*")*\})? -?[0-9.]+', line)
        same(f"the name of {line!r}", found and found[1], names[-1])
    same("each name once", len(set(names)), len(names))
    return lines


def test_no_service(room):
    path = os.path.join(room, "socket")
    same("its output", run("watch-spool.py", "--socket", path), (f"SPOOL UNKNOWN: {path}: [Errno 2] No such file or directory\n", "", 3))


# ---- with a service

def test_a_service(folder):
    folder.backend("fails", "#!/bin/sh\necho 'ERROR: the drum is worn' >&2\nexit 1\n")
    folder.size = 4_194_304
    client = folder.open()
    for name, scheme, policy in (("fails", "fails", "abort-job"), ("slow", "slow", "abort-job"), ("again", "fails", "retry-job")):
        folder.queue(client, name, 1000, policy, scheme, interval=30)
    jobs = [client.submit(name) for name in ("fails", "slow", "slow", "again")]
    client.until_state(jobs[0], "8")
    until("the last was tried", lambda: client.state(jobs[3]) == "3 retry-later")
    text = run("job-log.py", "--log", folder.at("log"), "fails-1")[0]
    for wanted in ("job 1 attempt 1 stage 1 fails: ended with status 1", "ERROR: the drum is worn"):
        holds(f"the log of job 1: {text}", wanted in text)
    same("other jobs", "job 4" in text, False)
    time.sleep(1.5)
    root, numbers = folder.at("spool"), folder.at("numbers.prom")
    limits = ["--age", "1", "--prints", "1", "--room", "1"]
    out, _, level = run("watch-spool.py", "--socket", folder.socket, "--root", root, *limits, "--prometheus", numbers)
    holds(f"the monitor says {out}", level in (1, 2) and "a job of slow waits" in out and "a job of slow prints" in out)
    lines = "\n".join(numbers_of(numbers))
    for wanted in ('jobs{queue="slow",state="processing"} 1', 'jobs{queue="slow",state="waiting"} 1', 'jobs{queue="fails",state="aborted"} 1',
                   'jobs_tried_again{queue="again"} 1', 'queue_stopped{queue="slow"} 0'):
        holds(f"no {wanted} in {lines}", f"cegmandi_{wanted}" in lines)
    free = float(re.search(r"cegmandi_journal_free_percent ([0-9.]+)", lines)[1])
    holds(f"the free part of an empty journal is {free}", 90 < free <= 100)
    send_document(client, client.create("slow"), b"x" * 8 * PIECE)
    out, _, level = run("watch-spool.py", "--socket", folder.socket, "--root", root, "--free", "99")
    holds(f"the monitor says {out}", level >= 1 and "% of the journal is free" in out)
    client.does(f"end {jobs[1]}")
