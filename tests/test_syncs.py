"""The system calls that store the shell's spool, in order, and each of them failing once.

No contract covers the effect of a file's sync, so the calls themselves are checked, under strace, at a first start on a fresh folder and at a
second one on the same:

- the folder is locked before any name in it is touched, and then the lock file before any other; a second opening of that file is refused
  its lock; both stay locked to the end, and that file has its name;
- a first start writes the file with zeros to its whole length, turns it into a spool, syncs it and renames it, and opens only its first
  gate, after a sync of all else;
- each start syncs the folder, after the rename, and the file, before it reads it, and writes nothing more, all before the first byte of a
  reply;
- an event is one write of its record followed by a closed gate, a sync, one write of the open gate, a sync, and then its reply; a refused
  command, a listing or a comment causes no write and no sync;
- at the end the file has the records that were written, and zeros.

Calls that fail, one in each run: strace returns EIO or ENOSPC in its place, and the call is not made:

- of an event, and of a close also the read of its document: it gets `error disk`, each later one `error dead`, `jobs` still gets its reply,
  and the program ends with status 1 and `spool: disk`; the folder can be opened again, with the acknowledged jobs, and possibly the one in
  progress;
- of a start: `spool: disk`, status 1 and no reply; the folder has no `spool.disk` or a complete one, and no file except the lock file if
  there was no room for its bytes; a later start serves it.
"""
import itertools
import os
import shutil
import struct
import subprocess
import tempfile
from pathlib import Path

import pytest

from harness import traces
from harness.checks import Difference, holds, LONGEST, words_of_faults
from harness.programs import SHELL

pytestmark = [pytest.mark.strace, pytest.mark.needs("spool_shell")]


SIZE = 150_000  # more than two of the blocks that fill the file
HEADER = 16  # bytes of an area's header
OPEN = b"\xa5"  # an open gate
FILE = "spool.disk"
LOCK = "spool.lock"
TYPE = "application/octet-stream"
# The log of a run whose device has failed, and of a start with a failed call.
DISK = [(1, "spool: disk\nspool: cause: failed\n")]
START = [*DISK, (1, "spool: disk\nspool: cause: no room\n")]
WORDS = [SHELL, "--root", ".", "--size", str(SIZE)]

KINDS = {
    "open": "open openat creat",
    "close": "close",
    "lock": "flock",
    "read": "read pread64",
    "write": "write pwrite64",
    "seek": "lseek",
    "sync": "fsync fdatasync",
    "length": "ftruncate",
    "rename": "rename renameat renameat2",
    "remove": "unlink unlinkat",
    "look": "stat lstat fstat newfstatat statx access faccessat faccessat2",
    # calls that could change the file unnoticed, or seem to sync it
    "unknown": "writev pwritev pwritev2 mmap sendfile copy_file_range fallocate truncate link linkat sync_file_range",
}
KIND_OF = {call: kind for kind, calls in KINDS.items() for call in calls.split()}


class Command:
    """A command, its reply, whether it is an event, and how its job is listed from then on: without a row it is no longer listed."""

    def __init__(self, text, reply, event=False, job=None):
        self.text = text + "\n"
        self.reply = reply
        self.event = event
        self.job = job

    def reply_when_dead(self):
        """Its reply after the device has failed."""
        keeps = self.text == "jobs\n" or self.reply in ("", "error syntax")
        return self.reply if keeps else "error dead"


def script(turn):
    """The commands of one start, without the listings at its beginning and its end."""
    lab, first, second, third = f"lab{turn}", 3 * turn + 1, 3 * turn + 2, 3 * turn + 3

    def event(text, reply="ok", number=first, shown=None, size=5, title="First"):
        row = f'job {number} {lab} {shown} "ann" {size} 0 "{title}"'
        return Command(text, reply, event=True, job=(number, row) if shown else None)

    return [
        event(f"queue {lab} spoolfile:/out {TYPE} abort-job"),
        Command(f"queue {lab} spoolfile:/out {TYPE} abort-job", "error 2 QueueExists"),
        Command("# no command", ""),
        event(f'info {lab} "A printer" "Room 1"'),
        event(f'create {lab} ann "First" 1 50 ""', f"ok job {first}", shown="4 job-incoming", size=0),
        event(f"send {first} 5\nhello", "ok bytes 5", shown="4 job-incoming"),
        event(f"close {first} page.txt", f"ok type {TYPE} stages 1", shown="3 none"),
        event(f"hold {first} indefinite", shown="4 job-hold-until-specified"),
        event(f"release {first}", shown="3 none"),
        Command(f"release {first}", "error 15 NotHeld"),
        Command("nonsense", "error syntax"),
        event(f'create {lab} ann "Second" 2 60 ""', f"ok job {second}", second, "4 job-incoming", 0, "Second"),
        event(f"cancel {second}", "ok", second, "7 canceled", 0, "Second"),
        event(f'createby {lab} ann "Third" 1 50 "" 999', f"ok job {third}", third, "4 job-incoming", 0, "Third"),
        event(f"close {third} page.txt", f"ok type {TYPE} stages 1", third, "3 none", 0, "Third"),
        event(f"clock {1000 + turn}", "ok", third, "7 canceled", 0, "Third"),
        Command(f"purge {second}", "ok", event=True, job=(second, None)),
        event(f"reject {lab}"),
        event(f"accept {lab}"),
        event(f"disable {lab}"),
        event(f"enable {lab}"),
    ]


def listed(commands):
    """The reply to `jobs` after these commands."""
    last = dict(command.job for command in commands if command.job)
    rows = [last[number] for number in sorted(last) if last[number]]
    return "\n".join(rows + [f"ok {len(rows)}"])


def with_listings(before, commands):
    """The commands between two listings; earlier starts have replied to those before."""
    return [Command("jobs", listed(before)), *commands, Command("jobs", listed(before + commands))]


def names_in(call, root):
    """The names inside the folder in a call's arguments. They are relative to the folder, which itself is `.`"""
    paths = call.files
    if call.kind in ("open", "rename", "remove", "look") and call.texts:
        bases = itertools.cycle(call.files or [root])
        paths = [os.path.normpath(os.path.join(base, os.fsdecode(text))) for base, text in zip(bases, call.texts)]
    return [os.path.relpath(path, root) for path in paths if path == root or path.startswith(root + os.sep)]


def place_calls(calls):
    """Adds to each read and write its offset in its file."""
    places = {}
    for call in calls:
        call.at = None
        if call.result < 0:
            continue
        if call.kind == "open":
            places[call.result] = 0
        elif call.kind == "seek":
            places[call.descriptor()] = call.result
        elif call.name in ("pread64", "pwrite64"):
            call.at = call.last_number()
        elif call.kind in ("read", "write"):
            call.at = places.get(call.descriptor(), 0)
            places[call.descriptor()] = call.at + call.result


def on_folder(calls, root):
    """The calls on the folder, with their kinds and files, and the writes of replies as calls of the kind `reply`."""
    for call in calls:
        call.kind = KIND_OF[call.name]
        call.names = names_in(call, root)
        call.file = call.names[0] if call.names else None
        holds(f"{call} is a call that this script cannot follow", call.kind != "unknown" or not call.names)
    place_calls(calls)
    for call in calls:
        if call.kind == "write" and call.descriptor() == 1:
            call.kind = "reply"
    return [call for call in calls if call.names or call.kind == "reply"]


class Run:
    """A run of the program over the folder, traced, and with one call failing if one is named."""

    def __init__(self, root, commands, failing=None, error=None):
        inject = failing and (failing.name, failing.number, error)
        text = "".join(command.text for command in commands)
        with tempfile.NamedTemporaryFile() as trace:
            done, calls = traces.run(WORDS, root, text.encode(), trace.name, KIND_OF, inject)
        self.calls = on_folder(calls, root)
        self.replies = done.stdout.decode()
        self.ending = (done.returncode, words_of_faults(done.stderr.decode()))
        failed = [(call.kind, call.names) for call in self.calls if call.is_injected]
        holds(f"strace let {failed} fail, not {failing}", not failing or failed == [(failing.kind, failing.names)])

    def answers(self, replies, endings=((0, ""),)):
        """Requires these replies, and this end."""
        wanted = "".join(reply + "\n" for reply in replies if reply)
        holds(f"answered {self.replies!r}, not {wanted!r}", self.replies == wanted)
        holds(f"ended with {self.ending}, not {endings}", self.ending in endings)


def first_index(calls, kind, name=None):
    """The position of the first such call."""
    for index, call in enumerate(calls):
        if call.kind == kind and name in (None, call.file):
            return index
    raise Difference(f"no {kind} of {name or 'any file'}")


def has_sync(calls, name):
    return any(call.kind == "sync" and call.file == name and call.result == 0 for call in calls)


def check_lock(calls):
    """The folder and the lock's file are locked before any other name is touched, and to the end."""
    first = check_locked(calls, ".", ["."])
    second = check_locked(calls, LOCK, [".", LOCK])
    again = [call for call in calls[second + 1 :] if (call.kind, call.file) == ("lock", LOCK)]
    refused = [call for call in again if "EAGAIN" in call.rest and call.descriptor() != calls[second].descriptor()]
    holds("no second lock of its file is refused", first < second and len(again) == len(refused) == 1)


def check_locked(calls, name, known):
    """This name is locked before any unknown name is touched, and to the end. Returns the position of that call."""
    at = first_index(calls, "lock", name)
    lock = calls[at]
    holds(f"{name} is not locked by {lock}", "LOCK_EX" in lock.words and lock.result == 0)
    for call in calls[:at]:
        holds(f"{call} precedes the lock of {name}", set(call.names) <= set(known))
    last = max(index for index, call in enumerate(calls) if call.kind != "close")
    for call in calls[at:last]:
        let_go = call.kind == "close" or call.kind == "lock" and "LOCK_UN" in call.words
        holds(f"the lock of {name} is released before the end", not let_go or call.descriptor() != lock.descriptor())
    return at


def check_fill(writes):
    """The zeros that come first, to the file's whole length. Returns the other writes."""
    filled = 0
    while filled < SIZE:
        holds(f"the file is filled to {filled} bytes, not to {SIZE}", writes)
        write = writes.pop(0)
        zeros = write.kind == "write" and write.at == filled and not any(write.data())
        holds(f"{write} precedes the zeros up to the end of the file, from {filled} on", zeros and write.result > 0)
        filled += write.result
    holds(f"the file is filled to {filled} bytes, not to {SIZE}", filled == SIZE)


def check_making(calls):
    """The file is written, completed and synced under another name, and then renamed. Returns the calls after that."""
    at = first_index(calls, "rename")
    rename = calls[at]
    holds(f"{rename} does not give the file its name", rename.names[-1] == FILE and rename.result == 0)
    made = [call for call in calls[:at] if call.file == rename.file and call.kind in ("write", "sync")]
    holds("a call failed while the spool was created", all(call.result >= 0 for call in made))
    check_fill(made)
    kinds = [call.kind for call in made]
    holds("the file is not synced, as the last call, before its rename", kinds[-1:] == ["sync"])
    holds("the bytes after the first header's gate are not synced before it", kinds[-3:] == ["sync", "write", "sync"])
    gate = made[-2]
    holds(f"{gate} is not the first header's gate", gate.at == 0 and gate.data() == OPEN)
    return calls[at + 1 :]


def check_opening(calls):
    """The folder is synced before the first reply, and the file before it is read; nothing is written."""
    holds("the folder is not synced before the first reply", has_sync(calls, "."))
    for call in calls:
        changes = call.kind in ("write", "length", "rename", "remove") and call.result >= 0
        holds(f"{call} occurs in an opening", not changes)
    read = first_index(calls, "read", FILE)
    holds("the file is not synced before it is read", has_sync(calls[:read], FILE))


class Journal:
    """The calls from the first reply on, in order."""

    def __init__(self, calls, gate):
        self.calls = [call for call in calls if call.kind not in ("read", "look", "seek", "close")]
        self.gate = gate
        self.records = b""
        self.replied = b""

    def take(self, kind, what):
        """The next call, which must be of this kind."""
        holds(f"no call instead of {what}", self.calls)
        call = self.calls.pop(0)
        fits = call.kind == kind and call.file in (FILE, None) and call.result >= 0
        holds(f"{call} instead of {what}", fits)
        return call

    def take_event(self, text):
        """The record with the closed gate and a sync, then the gate and a sync."""
        holds(f"{self.replied!r} is replied before the record of {text!r}", not self.replied)
        record = self.take("write", f"the record of {text!r}")
        data = record.data()
        whole = record.at == self.gate + 1 and len(data) == record.result and len(data) > 5
        holds(f"{record} is no record after {self.gate}", whole and struct.unpack(">I", data[:4])[0] == len(data) - 5)
        holds(f"{record} leaves the next gate open", data[-1:] == b"\0")
        self.take("sync", f"the sync of the record of {text!r}")
        gate = self.take("write", f"the gate of {text!r}")
        holds(f"{gate} does not open the gate at {self.gate}", gate.at == self.gate and gate.data() == OPEN)
        self.take("sync", f"the sync of the gate of {text!r}")
        self.records += OPEN + data[:-1]
        self.gate = record.at + len(data) - 1

    def take_reply(self, reply):
        """One reply. The replies to several commands that are no events may be written at once."""
        wanted = (reply + "\n").encode()
        while len(self.replied) < len(wanted):
            call = self.take("reply", f"the reply {reply!r}")
            self.replied += call.data()[: call.result]
        holds(f"{self.replied!r} is replied, not {reply!r}", self.replied.startswith(wanted))
        self.replied = self.replied[len(wanted) :]


def check_commands(calls, commands, gate):
    """Each command's calls, up to its reply. Returns the journal."""
    journal = Journal(calls, gate)
    for command in commands:
        if command.event:
            journal.take_event(command.text)
        if command.reply:
            journal.take_reply(command.reply)
    for call in journal.calls:
        raise Difference(f"{call} comes after the last reply")
    return journal


def check_file(root, records):
    """The file is a spool with these records, and zeros."""
    header = OPEN + b"\x02" + struct.pack(">Q", 1) + bytes(6)
    disk = Path(root, FILE).read_bytes()
    holds("the file has other bytes than were written", disk == (header + records).ljust(SIZE, b"\0"))
    holds(f"the folder has {os.listdir(root)}", sorted(os.listdir(root)) == [FILE, LOCK])


def check_order(root, kept):
    """Both starts, each call in its place. Returns their runs, and copies the spool between them."""
    runs = []
    before = []
    gate, records = HEADER, b""
    for turn in range(2):
        commands = with_listings(before, script(turn))
        run = Run(root, commands)
        run.answers([command.reply for command in commands])
        reply = first_index(run.calls, "reply")
        opening = run.calls[:reply]
        check_lock(run.calls)
        check_opening(check_making(opening) if turn == 0 else opening)
        journal = check_commands(run.calls[reply:], commands, gate)
        gate, records = journal.gate, records + journal.records
        check_file(root, records)
        if turn == 0:
            for name in (FILE, LOCK):
                shutil.copy(os.path.join(root, name), kept)
        before += script(turn)
        runs.append(run)
    return runs


def fresh():
    """A new folder, by its only name."""
    return os.path.realpath(tempfile.mkdtemp())


def check_served(root, before, others=()):
    """A start on the folder lists the jobs of these commands, or of these and the others, and takes an event."""
    text = f"jobs\nqueue later spoolfile:/out {TYPE} abort-job\n"
    done = subprocess.run(WORDS, cwd=root, input=text, capture_output=True, text=True, timeout=LONGEST)
    wanted = [listed(before) + "\nok\n", listed([*before, *others]) + "\nok\n"]
    served = done.returncode == 0 and not done.stderr and done.stdout in wanted
    holds(f"afterwards it ended with {done.returncode}, {done.stderr!r} and answered {done.stdout!r}", served)


def event_fails(root, place, failing, error):
    """One run with a failing call of the event in this position."""
    commands = with_listings([], script(0))
    before = commands[:place]
    commands[-1] = Command("jobs", listed(before))
    late = [command.reply_when_dead() for command in commands[place + 1 :]]
    run = Run(root, commands, failing, error)
    run.answers([command.reply for command in before] + ["error disk"] + late, DISK)
    check_served(root, before, [commands[place]])


def start_fails(root, before, failing, error):
    """One run with a failing call of its start, after a start with these commands or none."""
    run = Run(root, with_listings(before, script(1 if before else 0)), failing, error)
    run.answers([], START)
    files = os.listdir(root)
    holds(f"the folder has {files}", error != "ENOSPC" or files == [LOCK])
    if FILE in files:
        holds("the spool is not complete", os.path.getsize(os.path.join(root, FILE)) == SIZE)
    check_served(root, before)


def failing_events(run):
    """For each event its position among the commands, and the four calls that may fail."""
    calls = [call for call in run.calls if call.kind in ("write", "sync", "reply")]
    calls = calls[first_index(calls, "reply") :]
    calls = [call for call in calls if call.kind != "reply"]
    places = [place for place, command in enumerate(with_listings([], script(0))) if command.event]
    for index, place in enumerate(places):
        for call in calls[4 * index : 4 * index + 4]:
            yield place, call


def failing_reads(run):
    """The position of the first close among the commands, and the read of its document."""
    calls = run.calls[first_index(run.calls, "reply") :]
    read = calls[first_index(calls, "read", FILE)]
    for place, command in enumerate(with_listings([], script(0))):
        if command.text.startswith("close"):
            yield place, read
            return


def failing_starts(run):
    """The calls of a start that may fail, each with its error."""
    synced = first_index(run.calls, "sync", ".")
    for place, call in enumerate(run.calls[: first_index(run.calls, "reply")]):
        if call.kind == "close" or (call.kind, call.file) == ("look", "."):
            continue
        # If folders cannot be locked, the lock file decides, so the start continues.
        if (call.kind, call.file) == ("lock", "."):
            continue
        # The folder is listed for leftovers. If that fails, they remain.
        if synced < place and (call.kind, call.file) == ("open", "."):
            continue
        yield call, "EIO"
        if call.kind == "write":
            yield call, "ENOSPC"


@pytest.fixture(scope="module")
def in_order(tmp_path_factory):
    """The calls of a first and of a second start, and the folder that they leave."""
    kept = str(tmp_path_factory.mktemp("kept"))
    root = fresh()
    runs = check_order(root, kept)
    shutil.rmtree(root)
    return (*runs, kept)


def test_calls_in_order(in_order):
    """The fixture checks them."""


def test_each_event_fails(in_order):
    """Each of its four calls, and the read of a document that is closed."""
    events = [(place, call, ("EIO", "ENOSPC")[count // 4 % 2]) for count, (place, call) in enumerate(failing_events(in_order[0]))]
    for place, call, error in [*events, *((place, call, "EIO") for place, call in failing_reads(in_order[0]))]:
        print(f"{call} fails by {error}")
        path = fresh()
        event_fails(path, place, call, error)
        shutil.rmtree(path)


@pytest.mark.parametrize("start", [0, 1], ids=["first", "second"])
def test_each_call_of_a_start_fails(in_order, start):
    for call, error in failing_starts(in_order[start]):
        print(f"{call} fails by {error}")
        path = fresh()
        if start:
            shutil.copytree(in_order[2], path, dirs_exist_ok=True)
        start_fails(path, script(0) if start else [], call, error)
        shutil.rmtree(path)
