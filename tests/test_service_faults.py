"""Tests of a service whose disk, memory or start is faulty, and of a folder whose files a child removes."""
import os
import random
import re
import resource
import signal
import subprocess
import time
from pathlib import Path

import pytest

from harness.allocations import counted, variables_for
from harness.checks import Difference, holds, LONGEST, same, until, words_of_faults
from harness.programs import path_of, ROOT
from harness.service import Client, Folder, Gone, kept, patient_client, send_document, Submitter, TYPE

# ---- the name of the spool

LOCK = "spool.lock"

# The unit of the service for systemd.
UNIT = os.path.join(ROOT, "examples", "office", "cegmandi.service")

# More than a mebibyte of the spool is in use.
DOCUMENT = 1_500_000


def identity(path):
    """The file that has a name."""
    found = os.stat(path)
    return found.st_dev, found.st_ino


def test_names_that_are_taken_away(folder):
    """If the spool's file loses its name, by a removal or a rename, the next change gives the name to a copy. The copy has everything, before
    and after a checkpoint, which changes the half of the journal.
    """
    client, chance = folder.open("q", scheme="keeps"), random.Random(5)
    disk, documents = folder.at("spool", "spool.disk"), {}
    for turn, take in enumerate((os.remove, lambda path: os.rename(path, folder.at("elsewhere")), os.remove, os.remove)):
        done = client.submit("q", f"{turn}\n")
        client.until_state(done, "9")
        job, data = client.create("q"), chance.randbytes(DOCUMENT)
        documents[job] = data
        client.does(f"hold {job} indefinite")
        send_document(client, job, data)
        holds("close", client.ask(f"close {job} f\n").startswith("ok type"))
        # The first is taken away in the first half, and the others after checkpoints, in both halves.
        if turn:
            client.does("checkpoint")
        before, size = identity(disk), os.stat(disk).st_size
        take(disk)
        if turn == 3:
            os.remove(folder.at("spool", LOCK))
        same("a change", client.ask("accept q\n"), "ok")
        holds("another file has the name", identity(disk) != before)
        same("its size and mode", (os.stat(disk).st_size, oct(os.stat(disk).st_mode)), (size, "0o100600"))
        same("the names", sorted(name for name in os.listdir(folder.at("spool")) if name.startswith("spool.")), ["spool.disk", LOCK, "spool.sock"])
        second = subprocess.run([folder.service, "--root", folder.at("spool")], capture_output=True, text=True, timeout=LONGEST)
        same("a second service", (second.returncode, words_of_faults(second.stderr)), (1, "spool: disk\nspool: cause: owned\n"))
        same("the end of an ended job", client.state(done)[0], "9")
        rows = client.listing("jobs\n")
        folder.kill()
        os.remove(folder.at(f"kept-{done}"))
        client = folder.open()
        same("the jobs after a kill", client.listing("jobs\n"), rows)
    client.does(*(f"release {job}" for job in documents))
    client.until_ended(documents)
    for job, data in documents.items():
        holds(f"document {job} is printed whole", kept(folder, job) == data)
    again = [name for name in os.listdir(folder.path) if name.startswith("kept-") and name not in [f"kept-{job}" for job in documents]]
    same("ended jobs that were printed again", again, [])


CALLS = "open,openat,flock,pwrite64,fsync,fdatasync,rename,renameat,renameat2,write,writev,sendto,sendmsg"


@pytest.mark.strace
def test_a_name_is_restored_in_order(folder):
    """The copy is locked, written, synced and renamed, and the folder is synced, in this order and before the reply. So after a power cut the
    name belongs to the copy too, with everything acknowledged.
    """
    with folder.under_strace("-y", "-s", "16", "-e", f"trace={CALLS}") as client:
        folder.queue(client, "q")
        job = client.create("q")
        send_document(client, job, bytes(DOCUMENT))
        os.remove(folder.at("spool", "spool.disk"))
        same("a change", client.ask("reject q\n"), "ok")
        folder.shut_down()
    lines = folder.read("calls").splitlines()
    root = os.path.realpath(folder.at("spool"))
    begun = max(at for at, line in enumerate(lines) if line.startswith("open") and "spool.disk.new" in line and "O_EXCL" in line)
    told = next(at for at, line in enumerate(lines) if at > begun and '"ok\\n"' in line)
    shown = re.compile(rf"(\w+)\((?:\d+<{re.escape(root)}(/spool\.disk(?:\.new)?)?>|\"{re.escape(folder.at('spool', 'spool.disk.new'))}\")")
    found = [shown.match(line) for line in lines[begun + 1 : told]]
    kinds = [f"{match[1]} {match[2] or ''}".rstrip() for match in found if match]
    order = [kind for at, kind in enumerate(kinds) if kinds[at - 1 : at] != [kind]]
    copied = ["flock /spool.disk.new", "pwrite64 /spool.disk.new", "fsync /spool.disk.new", "rename", "fsync"]
    same("the calls up to the reply", order, [*copied, "fdatasync /spool.disk", "pwrite64 /spool.disk", "fdatasync /spool.disk"])


# ---- a device that fails

# A backend that records its start and its end, and that lasts for some seconds.
LASTS = """#!/bin/sh
echo $$ >>FOLDER/pids
echo "begins $1 $SPOOL_ATTEMPT" >>FOLDER/turns
sleep 4
cat "${6:--}" >>FOLDER/printed
echo "ends $1 $SPOOL_ATTEMPT" >>FOLDER/turns
"""


def fail(folder, use):
    """Takes the name of the spool away so that the service cannot restore it: its device fails as `use` writes to it. Then the name is
    restored.
    """
    disk, unfinished = folder.at("spool", "spool.disk"), folder.at("spool", "spool.disk.new")
    os.mkdir(unfinished)
    os.rename(disk, folder.at("kept.disk"))
    use()
    status = folder.running.wait(LONGEST)
    same("its end", (status, words_of_faults(folder.log()).splitlines()[-2:]), (1, ["spool: disk", "spool: cause: failed"]))
    same("the socket", os.path.exists(folder.socket), False)
    os.rename(folder.at("kept.disk"), disk)
    os.rmdir(unfinished)


def change(client):
    client.say("reject later\n")
    same("a change gets no reply", client.is_closed(), True)


def processing_jobs(folder):
    """A client, and two jobs whose children run: one is printed again if its attempt is lost, and one is not."""
    folder.backend("lasts", LASTS)
    client = folder.open("later")
    folder.queue(client, "again", policy="retry-job", scheme="lasts")
    folder.queue(client, "once", policy="abort-job", scheme="lasts")
    jobs = [client.submit(name, f"{name}\n") for name in ("again", "once")]
    client.until_ended(jobs, "5")
    until("the children", lambda: folder.read("turns").count("begins") == 2)
    return client, jobs


def test_a_device_that_fails(folder):
    """The service sends no reply, disconnects all clients and ends with status 1. Its children continue. The next start reports them, and does
    not wait.
    """
    client, jobs = processing_jobs(folder)
    other = Client(folder)
    same("another client", len(other.listing("queues\n")), 3)
    fail(folder, lambda: change(client))
    same("it is disconnected", other.is_closed(), True)
    holds("it is logged", "spool: disk failed\n" in folder.log())
    client = folder.open()
    same("whether the queue rejects", client.listing("queues\n")[1].split()[1:4], ["later", "3", "accepting"])
    client.until_state(jobs[0], "9")
    same("the attempts", [client.fields(job)["attempts"] for job in jobs], ["2", "1"])
    same("the lost attempt", client.state(jobs[1]), "8 attempt-lost")
    until("the first children", lambda: folder.read("turns").count("ends") == 3)
    same("printed", sorted(folder.printed().split()), ["again", "again", "once"])
    lines = [f"spool: job {job} attempt 1 stage 1: a child of an earlier run is still running" for job in jobs]
    same("it is logged", [line for line in folder.log().splitlines() if "earlier" in line], lines)


def running_groups():
    """The groups of all processes that run."""
    found = set()
    for name in os.listdir("/proc"):
        try:
            state, _, group = Path(f"/proc/{name}/stat").read_text(errors="replace").rsplit(") ", 1)[1].split()[:3]
        except (OSError, IndexError):
            continue
        found |= {int(group)} if state != "Z" else set()
    return found


def test_a_device_that_fails_under_a_supervisor(folder):
    """If the remaining processes are ended before the next start, as the unit for systemd does, nothing prints next to them."""
    client, jobs = processing_jobs(folder)
    fail(folder, lambda: change(client))
    groups = {int(word) for word in folder.read("pids").split()}
    for group in groups:
        os.killpg(group, signal.SIGKILL)
    until("their ends", lambda: not groups & running_groups())
    client = folder.open()
    client.until_state(jobs[0], "9")
    same("the lost attempt", client.state(jobs[1]), "8 attempt-lost")
    turns = folder.read("turns").split("\n")
    same("the turns", sorted(turns[:2]) + turns[2:], ["begins 1 1", "begins 2 1", "begins 1 2", "ends 1 2", ""])
    same("printed", folder.printed(), "again\n")
    same("nothing is left", "earlier" in folder.log(), False)
    holds("the unit ends the children", "KillMode=control-group\n" in Path(UNIT).read_text(encoding="utf-8"))


def test_a_device_that_fails_without_a_command(folder):
    """The service also ends if the device fails while it records the end of a child, or the time. Nothing is acknowledged then."""
    client, jobs = processing_jobs(folder)
    waiter = Client(folder)
    waiter.say(f"wait {jobs[0]}\n")
    fail(folder, lambda: until("an end", lambda: "ends" in folder.read("turns")))
    same("who waits", waiter.is_closed(), True)
    until("both ends", lambda: folder.read("turns").count("ends") == 2)
    client = folder.open()
    client.until_state(jobs[0], "9")
    same("the lost attempts", (client.fields(jobs[0])["attempts"], client.state(jobs[1])), ("2", "8 attempt-lost"))
    same("printed", sorted(folder.printed().split()), ["again", "again", "once"])
    held = client.create("later")
    client.does(f"hold {held} {int(time.time()) + 2}")
    fail(folder, lambda: None)
    folder.start()
    Client(folder).until_state(held, "4 job-incoming")


# ---- standard streams

CLOSES = ["sh", "-c", 'exec "$@" <&- >&- 2>&-', "sh"]


def test_closed_streams(folder):
    """A program that is started without standard streams writes neither its log nor its errors into a file of the spool."""
    client = folder.open("q", seconds=1)
    held = client.create("q")
    folder.shut_down()
    usual = folder.before
    folder.before = [*usual, *CLOSES]
    client = folder.open(words=["--verbose"])
    job = client.submit("q")
    client.until_state(job, "9")
    rows = client.listing("jobs\n")
    numbers = {os.readlink(f"/proc/{folder.running.pid}/fd/{number}") for number in range(3)}
    same("the files of its streams", numbers, {os.devnull})
    folder.kill()
    for name, words in (("spool_shell", ["--root", folder.at("spool")]), ("spool_admin", ["grow", folder.at("spool"), "4096"])):
        program = path_of(name)
        if os.path.exists(program):
            subprocess.run([*CLOSES, program, *words], timeout=LONGEST, check=False)
    same("the lock's file", folder.read(os.path.join("spool", LOCK)), "")
    folder.before = usual
    client = folder.open()
    same("the jobs", (client.listing("jobs\n"), client.state(held)[0]), (rows, "4"))


# ---- ends of children that cannot be known


def test_ignored_child_signals(folder):
    """If SIGCHLD is ignored at the start, a service with a programs file serves nothing; without one it works as usual. If the unit, or `env`,
    restores the default, the ends of children arrive.
    """
    folder.backend("ends", '#!/bin/sh\nexit "${DEVICE_URI##*/}"\n')
    folder.before = ["env", "--ignore-signal=CHLD"]
    folder.launch()
    status = folder.running.wait(LONGEST)
    same("its end", (status, folder.log().splitlines()[0], os.path.exists(folder.socket)), (1, "spool: sigchld-ignored", False))
    os.remove(folder.at("log"))
    usual = folder.before
    folder.before = [*usual, "env", "--default-signal=CHLD"]
    client = folder.open()
    states = {0: "9 job-completed-successfully", 1: "8 backend-failed", 3: "4 held-by-backend", 5: "7 canceled"}
    jobs = {}
    for status in states:
        folder.queue(client, f"q{status}", status, "abort-job", scheme="ends")
        jobs[status] = client.submit(f"q{status}")
    for status, job in jobs.items():
        client.until_state(job, states[status])
    folder.kill()
    # Without a programs file no child is started.
    words = [*usual, folder.service, "--root", folder.at("spool")]
    with open(folder.at("log"), "ab") as log:
        folder.running = subprocess.Popen(words, stdin=subprocess.DEVNULL, stderr=log)
    until("the service", folder.serves)
    same("the jobs", Client(folder).states(), {job: states[status] for status, job in jobs.items()})


# ---- refused memory

# A listing of this many jobs is longer than any other block of memory that the service allocates in this test.
MANY = 4_000


def grows(folder, most):
    """Limits the memory that the service may still take from the system to `most` bytes; None for no limit."""
    limit = resource.RLIM_INFINITY
    if most is not None:
        limit = int(Path(f"/proc/{folder.running.pid}/statm").read_text().split()[0]) * resource.getpagesize() + most
    resource.prlimit(folder.running.pid, resource.RLIMIT_AS, (limit, resource.RLIM_INFINITY))


def test_memory_for_one_reply(folder):
    """A client whose reply finds no memory gets an error or is disconnected. The others are served, and it too once there is memory again."""
    folder.size = 67_108_864
    client, other = folder.open("q", stopped=True), Client(folder)
    text = "".join(f'create q u "{"t" * 250}" 1 50 ""\n' for _ in range(100))
    for _ in range(MANY // 100):
        client.say(text)
        holds("jobs", all(client.reply().startswith("ok job") for _ in range(100)))
    rows = client.listing("jobs\n")
    same("rows", len(rows), MANY)
    client.close()
    client, other = folder.reopen(), Client(folder)
    for turn in range(3):
        same("a reply", other.ask("hold 1 indefinite\n"), "ok")
        cut_off = folder.log().count("out of memory: 1 clients disconnected\n")
        grows(folder, 0)
        client.say("jobs\n")
        # Once it has had the memory for such a reply, it may still have it.
        is_whole = try_listing(client) == rows
        holds("it is disconnected", is_whole or client.is_closed())
        until("it is logged", lambda: folder.log().count("out of memory: 1 clients disconnected\n") == cut_off + (not is_whole))
        holds("at first there is no memory", turn or not is_whole)
        same("another client", other.ask("release 1\n"), "ok")
        same("a new client", len(Client(folder).listing("queues\n")), 1)
        grows(folder, None)
        client = Client(folder)
        holds("the rows", client.listing("jobs\n") == rows)
    same("it runs", folder.running.poll(), None)


def try_listing(client):
    """The lines of a listing, or None if the client is disconnected."""
    try:
        return client.rest_of_listing()
    except (Difference, OSError):
        return None


@pytest.mark.needs("gcc", "plain spool_service")
def test_refused_allocations(folder):
    """Each of many allocations is refused, one in each run. The service disconnects the client, repeats the tick, counts the child as not
    started, or ends with `spool: memory`; in each case every acknowledged change is kept, and the job is printed in the end.
    """
    first, last = conversation(folder, 0)
    count = 1_000 if folder.is_long else 48
    chance = random.Random(first + last)
    numbers = sorted(chance.sample(range(first + 1, last + 1), min(count, last - first)))
    ends = []
    for number in numbers:
        try:
            ends.append(conversation(folder, number))
        except Difference as difference:
            raise Difference(f"allocation {number} refused: {difference}") from None
    kinds = {end: ends.count(end) for end in sorted(set(ends))}
    print(f"  {len(numbers)} of {last - first} allocations refused: {kinds}")
    holds("the service usually continues", ends.count("the service ended") < len(ends) / 2)


def conversation(folder, refused):
    """A conversation during which this allocation is refused. Returns what it did; without one the numbers of the first and the last
    allocation.
    """
    room = Folder(folder.path)
    log = room.at("counted")
    room.environment = variables_for(log, refused)
    try:
        room.start()
        first, _ = counted(log)
        other, submitter = Persistent(room), Persistent(room)
        other.until("queues\n", [])
        submitter.converse()
        last, _ = counted(log)
        other.until("queues\n", [f'queue q 3 accepting {TYPE} retry-job 0 0 none ""'])
        said = room.log()
        holds("it is reported once", said.count("out of memory") + said.count("spool: memory") + said.count("not started") <= 1)
    finally:
        room.end()
        room.remove()
    if not refused:
        return first, last
    has_ended, repeated = other.has_ended or submitter.has_ended, other.repeated + submitter.repeated
    words = {"clients disconnected": "a client was disconnected", "will be retried": "the tick was repeated", "not started": "the stage was repeated"}
    found = [what for word, what in words.items() if word in said]
    return "the service ended" if has_ended else found[0] if found else "a command was repeated" if repeated else "nothing"


class Persistent(Submitter):
    """A client that reconnects, and repeats what found no memory. If the service ends, it is started again, and nothing is refused."""

    has_ended = False
    repeated = 0

    def ask(self, command, how=Client.ask):
        try:
            reply = super().ask(command, how)
        except Gone:
            self.start_again()
            raise
        if reply != "error memory":
            return reply
        self.repeated += 1
        return super().ask(command, how)

    def start_again(self):
        """Starts the service again if it has ended."""
        time.sleep(0.1)
        if self.folder.running.poll() in (None, 0):
            return
        same("its end", (self.folder.running.returncode, self.folder.log().splitlines()[-1]), (1, "spool: memory"))
        holds("it ended once", not self.has_ended)
        self.has_ended = True
        self.folder.environment = {}
        self.folder.start()

    def until(self, command, wanted, how=Client.listing):
        """Repeats a command until it has this reply."""
        reply, end = None, time.time() + LONGEST
        while reply != wanted:
            holds(f"{command!r} got {reply!r}", time.time() < end)
            try:
                self.client = self.client or patient_client(self.folder)
                reply = self.ask(command, how)
            except Gone:
                self.client = None

    def converse(self):
        """A queue, and two jobs that are printed."""
        self.until(f"queue q slow:/0 {TYPE} retry-job 0 0\n", "error 2 QueueExists", Client.ask)
        for title in ("one", "two"):
            job = self.submit(title)
            self.until(f"wait {job}\n", [f'job {job} q 9 job-completed-successfully "u" 4 0 "{title}"'])
            holds("printed", title in self.folder.printed().split())
