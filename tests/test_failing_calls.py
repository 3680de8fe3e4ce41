"""Each system call of the shell fails once, with each possible error.

The shell runs under strace, which returns an error in place of one call; the call is not made. The calls that fail are those on its files,
its folder, its children, its sockets and its streams (ERRORS), one in each run, in several scenes: a first start, an opening while a job is
processing, events, a checkpoint, the first one of a spool of version 1, and rounds of two queues with filters, backends and side channels.

`outcome` is a table of the required results, by the call and its object:

- `same`: everything is as without the failure.
- `file`, `disk`: no command is served, `spool: file NAME` or `spool: disk` is logged, and the status is 1.
- `dead`: the command gets `error disk`, each later one `error dead`, and `spool: disk` is logged at the end.
- `stage`: one stage ends as its queue's policy says; the other job is printed as usual.
- `blind`: the end of a child cannot be known; its stage ends accordingly, and no other stage is started in this run. If the program only
  polled whether the child runs, the failure has no effect.
- `read`, `write`: the stream failed; `spool: read` or `spool: write` is logged, and the status is 1.

An error that means out of memory may be logged as `spool: memory` before the commands are served.

After each run the file has everything that was acknowledged, and at most the command in progress besides. Then the spool is opened again,
without a failure, and the jobs are printed to their end: no stage of an attempt runs twice, and none of a job that had ended.
"""
import os
import re
import shutil
import sys
from dataclasses import dataclass

import pytest

from harness import journal, real_children, traces
from harness.checks import holds
from harness.files import write

pytestmark = [pytest.mark.strace, pytest.mark.long, pytest.mark.needs("spool_shell")]

SIZE = 16_384
DISK = ("spool.disk", "spool.disk.new")
LOCK = "spool.lock"
# The files and the folder of the program itself. The folder has its name in the test.
OWN = (*DISK, LOCK, "r")
OPTIONS = ("types", "convs", "programs")
PROGRAMS = ("f", "s")

# The calls, each with the errors that fit.
NO_ROOM = ["EIO", "ENOSPC", "EDQUOT"]
NO_FILE = ["EACCES", "EIO", "EMFILE", "ENOMEM"]
NO_NAME = ["EACCES", "EIO", "EROFS"]
ERRORS = {
    "open": NO_FILE, "openat": NO_FILE, "close": ["EIO"],
    "read": ["EIO"], "pread64": ["EIO"], "write": NO_ROOM, "pwrite64": NO_ROOM,
    "fsync": NO_ROOM, "fdatasync": NO_ROOM, "flock": ["EAGAIN", "ENOLCK"],
    "statx": ["EACCES", "EIO", "ENOMEM"], "rename": NO_NAME, "renameat2": NO_NAME, "unlink": NO_NAME, "unlinkat": NO_NAME,
    "chmod": ["EPERM", "EROFS"], "fchmodat": ["EPERM", "EROFS"],
    "clone": ["EAGAIN", "ENOMEM"], "clone3": ["EAGAIN", "ENOMEM"], "vfork": ["EAGAIN", "ENOMEM"], "wait4": ["ECHILD"],
    "socket": ["EMFILE", "ENOBUFS", "ENOMEM"], "bind": ["EACCES", "EADDRINUSE", "ENOSPC"], "listen": ["EADDRINUSE"],
    "fcntl": ["EMFILE"], "setsockopt": ["EDOM", "ENOMEM"], "accept4": ["ECONNABORTED", "EMFILE", "ENOMEM"],
    "recvfrom": ["ECONNRESET"], "sendto": ["ECONNRESET", "EPIPE"],
}
STARTS = ("clone", "clone3", "vfork")
SHORTAGES = ("EAGAIN", "EDQUOT", "EMFILE", "ENOSPC")
TRIED_AGAIN = ("bind", "fcntl", "open", "openat", "socket", "write")

# The log of a disk that failed, without the cause that follows.
DISK_FAULT = "spool: disk\nspool: cause: CAUSE\n"
CAUSE = re.compile(r"(?<=\nspool: cause: )[a-z -]+(?=\n)")
SOCKETS = ("socket", "bind", "listen", "fcntl", "setsockopt", "accept4", "recvfrom", "sendto")

# The program that ends a side channel: it asks one question first.
SIDE = """#!PYTHON
import socket, sys
try:
    it = socket.socket(socket.AF_UNIX)
    it.settimeout(2)
    it.connect(sys.argv[1])
    it.sendall(b"\\3\\0\\0\\0")
    it.recv(5)
    it.sendall(b"\\377\\0\\0\\0")
except OSError:
    pass
"""

QUEUES = [("queue lab s:/0 a/b retry-job\n", "ok"), ("queue hall s:/0 a/b retry-job\n", "ok")]
FIRST = [('create lab ann "First" 1 50 "media=A4"\n', "ok job 1"), ("send 1 5\nhello\n", "ok bytes 5"),
         ("close 1 a.x\n", "ok type a/a stages 2")]
SECOND = [('create hall bo "Second" 2 60 ""\n', "ok job 2"), ("send 2 6\nothers\n", "ok bytes 6"),
          ("close 2 b.x\n", "ok type a/a stages 2")]
ROUND = [("round\n", "ok started 2 finished 2")]
TIMED = [('createby lab bo "Late" 1 50 "" 999\n', "ok job 2"), ("close 2 b.x\n", "ok type a/a stages 2")]
HOLDS = [("hold 1 indefinite\n", "ok"), ("release 1\n", "ok"), ("clock 1000\n", "ok"), ("reject hall\n", "ok"), ("cancel 1\n", "ok"),
         ("purge 1\n", "ok")]
NOT_YET = [('createby lab bo "Late" 1 50 "" 999\n', "error 17 NeedsCheckpoint"), ("purge 1\n", "error 17 NeedsCheckpoint")]

# The scenes: the commands before, and the commands whose calls fail, each with its reply.
SCENES = {
    "start": ([], QUEUES[:1] + FIRST[:1]),
    "opening": (QUEUES + FIRST + SECOND + ROUND, [("clock 1\n", "ok")]),
    "events": (QUEUES[:1], QUEUES[1:] + FIRST + TIMED + HOLDS),
    # After an event the documents are read again.
    "checkpoint": (QUEUES + FIRST + SECOND + [("checkpoint\n", "ok")], [("clock 4\n", "ok"), ("checkpoint\n", "ok"), ("clock 5\n", "ok")]),
    "older": (QUEUES + FIRST, NOT_YET + [("checkpoint\n", "ok")] + TIMED + HOLDS[2:3]),
    "rounds": (QUEUES + FIRST + SECOND, ROUND * 2 + [("clock 5\n", "ok")]),
}
# The scenes that start from a spool of version 1. Their earlier commands have no deadlines and no checkpoint.
OF_VERSION_ONE = ("older",)
ENDED_ILL = ("aborted", "waiting")


def text_of(commands):
    return "".join(text for text, _ in commands).encode()


def replies_to(commands):
    return [reply for _, reply in commands]


class Place(real_children.ShellFolder):
    """A folder with a spool, and the programs of its children."""

    def __init__(self, folder):
        side = os.path.join(folder, "side")
        super().__init__(folder, SIZE, f"side {side}\n")
        write(side, SIDE.replace("PYTHON", sys.executable), 0o700)

    def begin(self, scene):
        """Serves the commands before a scene. Returns their replies."""
        lines = self.serve(text_of(SCENES[scene][0]))
        if scene in OF_VERSION_ONE:
            with open(self.file, "r+b") as file:
                file.seek(1)
                file.write(b"\1")
        return lines

    def traced(self, commands, inject=None):
        return traces.run(self.words, None, text_of(commands), os.path.join(self.folder, "trace"), ERRORS, inject)

    def stored_table(self):
        """The table of the file, and its payloads."""
        content = self.content()
        return self.table(), journal.current(content)[0] if content else []


# ---- the required results of a failure

def name_of(call):
    """The name that a call is about: that of a file in the folder, `.` for the folder, or None for anything else."""
    for path in call.paths():
        name = os.path.basename(path.removesuffix("(deleted)").removesuffix("/."))
        if name:
            return name
    return ""


def outcome(call, is_serving, clients):
    """The required result of a call that fails: before the commands or while they are served, given the descriptors of clients of side
    channels. None if the call is not one of the program's own.
    """
    name = name_of(call)
    # A start waits for a resource that is short for a moment.
    is_reply = call.name == "write" and call.descriptor() == 1
    if is_serving and not is_reply and call.error in SHORTAGES and (call.name in STARTS or call.name in TRIED_AGAIN and name not in OWN):
        return "same"
    if call.name == "wait4":
        return "blind"
    if call.name in STARTS:
        return "stage"
    if call.name in SOCKETS and name not in OWN:
        is_client = call.name in ("accept4", "recvfrom", "sendto") or call.name != "socket" and call.descriptor() in clients
        return "same" if is_client else "stage"
    if call.name == "read" and call.descriptor() == 0:
        return "read"
    if call.name == "write" and call.descriptor() == 1:
        return "write"
    own = name in (*OPTIONS, *OWN, *PROGRAMS, "null") or name.startswith(("in-", "out-", "err-", "side-"))
    if not own:
        return None
    if call.name == "close" or call.name == "unlink" and name.startswith(("in-", "out-", "err-")):
        return "same"
    # A start logs which programs cannot be run, and looks for leftovers of killed programs.
    if not is_serving and (name in PROGRAMS or name.startswith(("in-", "out-", "err-", "side-"))):
        return "same"
    # A program that cannot be read may still be run.
    if name in PROGRAMS and call.error == "EACCES" and call.name != "statx":
        return "same"
    # The write that probes for free space after a child's output only detects that there is none. It counts for a filter's output, and if
    # something was written; the backend, stage 2, writes nothing.
    if name.startswith(("out-", "err-")) and call.name in ("statx", "pwrite64"):
        is_lost = call.name == "pwrite64" and call.error != "EIO" and not name.endswith("-2")
        return "stage" if is_lost else "same"
    # Locks are tried for a second. If folders cannot be locked, the lock file decides. A second lock on that file must be refused.
    if call.name == "flock" and name in OWN and (call.error == "EAGAIN" or name == "r"):
        return "same"
    if name in OPTIONS:
        return "file"
    if name in OWN:
        return "dead" if is_serving else "disk"
    # The name of a socket is freed before it is bound, and removed when the child has ended.
    return "unbound" if call.name == "unlink" else "stage"


@dataclass
class Failure:
    """A call that fails, by its name, its number and its error."""
    call: object
    error: str

    def inject(self):
        return self.call.name, self.call.number, self.error

    def __str__(self):
        return f"{self.call} fails by {self.error}"


@dataclass
class Ended:
    """The result of a run with a failed call: that call, the number of replies before it, and the required result."""
    lines: list
    errors: str
    status: int
    call: object
    answered: int
    outcome: str


def failed_in(done, calls):
    """The result of a run, from its calls."""
    answered, clients, is_serving = 0, set(), False
    for call in calls:
        if call.is_injected:
            come = outcome(call, is_serving, clients)
            if come == "unbound":
                come = "same" if is_finishing(calls, call) else "stage"
            errors = CAUSE.sub("CAUSE", real_children.faults_in(done.stderr.decode()))
            return Ended(done.stdout.decode().splitlines(), errors, done.returncode, call, answered, come)
        if call.name == "read" and call.descriptor() == 0:
            is_serving = True
        if call.name == "accept4" and call.result >= 0:
            clients.add(call.result)
        if call.name == "fcntl" and call.result >= 0 and call.descriptor() in clients:
            clients.add(call.result)
        if call.name == "close":
            clients.discard(call.descriptor())
        if call.name == "write" and call.descriptor() == 1:
            answered += call.data().count(b"\n")
    return None


def is_finishing(calls, failed):
    """Whether a call that removes a socket's name follows its child's end."""
    before = calls[:calls.index(failed)]
    return any(call.name == "bind" and name_of(call) == name_of(failed) for call in before)


# ---- one run

def check_replies(end, usual):
    """The required replies, standard error and status."""
    logs = {"disk": DISK_FAULT, "dead": DISK_FAULT, "read": "spool: read\n", "write": "spool: write\n"}
    if end.outcome == "file":
        logs["file"] = f"spool: file {end.call.paths()[0]}\n"
    errors = {logs.get(end.outcome, "")}
    if end.outcome in ("file", "disk") and end.call.error == "ENOMEM":
        errors.add("spool: memory\n")
    status = 1 if end.outcome in logs else 0
    holds(f"it ended with {end.status} and {end.errors!r}: {end.lines}", end.errors in errors and end.status == status)
    before, later = usual[:end.answered], usual[end.answered + 1:]
    wanted = {
        "same": usual, "file": [], "disk": [], "read": before, "write": before,
        "dead": [*before, "error disk", *["error dead"] * len(later)],
    }
    if end.outcome not in ("stage", "blind"):
        holds(f"it replied {end.lines}, not {wanted[end.outcome]}", end.lines == wanted[end.outcome])
    else:
        holds(f"it replied {end.lines}", len(end.lines) == len(usual) and all(line.startswith("ok") for line in end.lines))


def check_stage(table):
    """One job of two failed, and the other one was printed."""
    ill = [job for job in table.jobs.values() if job.phase in ENDED_ILL]
    well = [job for job in table.jobs.values() if job.phase == "completed"]
    holds(f"the jobs are {table.jobs_reply()}", len(ill) == 1 and len(well) == 1)


def check_file(place, end, commands, kept, first):
    """The file has everything that was acknowledged, and at most the command in progress besides. Before the commands it may be unchanged.
    """
    table, payloads = place.stored_table()
    answered = len(commands) if end.outcome in ("same", "stage", "blind") else end.answered
    tables = [found for found, _ in kept[answered:answered + 2]]
    if end.outcome in ("file", "disk"):
        tables = [first, kept[0][0]]
    is_round = commands[answered:answered + 1] == ROUND
    _, before = kept[answered]
    if end.outcome == "blind":
        return
    if end.outcome == "stage":
        check_stage(table)
        return
    begins = payloads[:len(before)] == before
    holds(f"the file has {table.jobs_reply()}, in version {table.version}", table.contents() in tables or is_round and begins)


def check_again(place, before):
    """The spool is opened again and printed to its end."""
    ended = place.ended()
    place.serve(b"clock 100000\ndrain 9\nclock 200000\ndrain 9\n")
    after = place.children.stages()
    again = [key for key in after if key[0] in ended or key in before or after.count(key) > 1]
    holds(f"stages ran again, or of jobs that had ended: {again}", not again)


def check(folder, scene, kept, failure):
    """One run with a failing call. Returns whether it failed: calls that wait for children differ from run to run."""
    earlier, commands = SCENES[scene]
    place = Place(folder)
    place.begin(scene)
    if not earlier:
        shutil.rmtree(place.root)
        os.mkdir(place.root)
    before, first = place.children.stages(), place.table().contents()
    done, calls = place.traced(commands, failure.inject())
    end = failed_in(done, calls)
    if end and end.outcome:
        check_replies(end, replies_to(commands))
        check_file(place, end, commands, kept, first)
        check_again(place, before + place.children.stages())
    shutil.rmtree(folder)
    return bool(end and end.outcome)


def usual(folder, scene):
    """The calls of a scene without a failure, and for each number of its commands the table in the file, as rows, and its payloads."""
    earlier, commands = SCENES[scene]
    kept = []
    for number in range(len(commands) + 1):
        place = Place(os.path.join(folder, f"{scene}{number}"))
        lines = place.begin(scene) if earlier else []
        holds(f"{scene}: before it, it replied {lines}", lines == replies_to(earlier))
        done, calls = place.traced(commands[:number])
        holds(f"{scene}: {done}", done.stdout.decode().splitlines() == replies_to(commands[:number]) and not done.returncode)
        table, payloads = place.stored_table()
        kept.append((table.contents(), payloads))
        shutil.rmtree(place.folder)
    return calls, kept


def failures(calls):
    """The calls that fail, each with each error."""
    is_serving = False
    for call in calls:
        if call.name == "read" and call.descriptor() == 0:
            is_serving = True
        if outcome(call, is_serving, set()):
            for error in ERRORS[call.name]:
                yield Failure(call, error)


@pytest.mark.parametrize("scene", SCENES)
def test_each_call_fails(scene, memory_room):
    calls, kept = usual(memory_room, scene)
    done, tried = 0, 0
    for tried, failure in enumerate(failures(calls), 1):
        print(f"{failure}, in {memory_room}/{scene[0]}{tried}")
        done += check(os.path.join(memory_room, f"{scene[0]}{tried}"), scene, kept, failure)
    holds(f"only {done} of {tried} calls could be made to fail", done > tried * 9 // 10)
