"""The files that a power cut may leave of a spool, by the system calls of a run, and what opening one must show.

A run is traced by strace: the spool is created, jobs are printed by rounds with real children, checkpoints are written, and the spool is
opened again while a job is processing. From the system calls follow the possible results of a cut at each moment: of the spool's file
everything that was written before the last sync that had returned, and any byte at each place that was written since then. So each later
write is in the file, or missing, or partial, or replaced by zeros, FF, A5 or anything; gates are tried most often. Until the folder is
synced its names are the old ones or the new ones. The files of children have any contents.

The shell must list the table after a prefix of the events, including all that were acknowledged: events that a reply or the start of a
child followed. The model of spool_model.py computes these tables and their versions. The rows of a subsequent checkpoint are compared too,
with the documents. In one file of eight the jobs are printed to their end: no stage of an attempt that had run before the cut runs again, no
stage runs twice, and no job whose end was acknowledged runs.

Controls must be seen to fail: the same calls with a sync left out (after the records of events, after their gates, or before the gate of a
checkpoint's header), with the current header closed before the other is open, and with a closed gate written before an unsynced header.
"""
import os
import random
import re
import shutil
import subprocess
from dataclasses import dataclass
from pathlib import Path

from harness import journal, real_children, spool_model as model, traces
from harness.checks import Difference, holds, LONGEST

SIZE = 16_384
NAME = "spool.disk"
UNFINISHED = "spool.disk.new"

# One in this number of the opened files is printed to its end.
PRINTED = 8

# The greatest number of cuts until a control fails.
CONTROL = 3_000

# The weights of the moments: while the header of an area is not synced, while other bytes or names are not synced, and otherwise.
HEADER_WEIGHT = 12
UNSYNCED_WEIGHT = 4
SYNCED_WEIGHT = 1
HEADERS = (0, 1, SIZE // 2, SIZE // 2 + 1)

WRITES = ("write", "pwrite64")
SYNCS = ("fsync", "fdatasync")
STARTS = ("clone", "clone3", "vfork", "fork")
NAMES = (*WRITES, *SYNCS, *STARTS, "lseek", "openat", "open", "rename", "renameat", "renameat2", "unlink", "unlinkat", "ftruncate")

# The calls by which a service sends to its clients, how strace shows a socket, and words of strace for a service.
SENDS = ("sendto", "sendmsg")
SOCKET = re.compile(r"\d+<(UNIX|socket|" + "".join(rf"\\x{byte:02x}" for byte in b"socket") + ")")
SERVICE_STRACE = ["-y", "-xx", "-s", str(traces.SHOWN), "-e", "trace=" + ",".join(f"?{name}" for name in (*NAMES, *SENDS, "writev"))]

# The commands that are served, in parts, each part after an opening. Each command of the first part has its reply.
PARTS = ["""clock 1000
queue hall s:/0 a/b retry-job 30
queue lab s:/6 a/b retry-current-job
create hall ann "First" 1 50 ""
send 1 600
DOCUMENT
close 1 a.x
create lab bo "Second" 1 50 "media=A4"
send 2 5
hello
close 2 b.x
round
checkpoint
createby hall ann "Third" 1 80 "" 4000
send 3 4
kept
hold 3 2000
round
create hall carl "Fourth" 1 50 ""
close 4 d.x
createby lab bo "Late" 1 50 "" 1999
send 5 4
lost
close 5 d.x
round
""", """jobs
clock 2000
checkpoint
close 3 c.x
cancel 4
purge 4
drain 9
""", """createby lab dora "Sixth" 1 99 "" 2500
send 6 3
abc
checkpoint
close 6 e.x
createby hall dora "Late" 1 99 "" 1000
close 7 e.x
round
round
clock 0
checkpoint
"""]

# A command that precedes the others: it shows the version of the area, and changes nothing.
ASKED = 'createby nobody u "" 1 50 "" 0\n'
OF_VERSION = {1: "error 17 NeedsCheckpoint", 2: "error 1 NoQueue"}


# ---- the system calls of a run

@dataclass
class Step:
    """The effect of a call: `write` at an offset, `sync` of the file, `names` changed or their `folder` synced, an acknowledging `reply`,
    or the `start` of a child, with its key.
    """
    kind: str
    at: int = 0
    data: bytes = b""
    key: tuple = ()


class Tracing:
    """The steps of the runs over one folder."""

    def __init__(self, root):
        self.root = root
        self.steps = []
        self.key = ()
        self.offsets = {}

    def take(self, calls):
        for call in calls:
            if call.result >= 0:
                self.take_call(call)

    def read(self, trace):
        """Takes the calls that strace wrote to a file."""
        counts = {}
        with open(trace, encoding="ascii") as lines:
            self.take(traces.Call(line.rstrip("\n"), counts) for line in lines if re.match(r"\w+\(.*=", line))

    def is_disk(self, call):
        return any(os.path.basename(path) in (NAME, UNFINISHED) for path in call.files)

    def take_call(self, call):
        if call.name in WRITES and call.descriptor() == 1:
            self.steps.append(Step("reply"))
        elif call.name in STARTS:
            self.steps.append(Step("start", key=self.key))
        elif call.name in ("open", "openat"):
            self.offsets[call.result] = 0
            self.take_open(call)
        elif call.name == "lseek":
            self.offsets[call.descriptor()] = call.result
        elif call.name in WRITES and self.is_disk(call):
            self.take_write(call)
        elif call.name in SYNCS and self.is_disk(call):
            self.steps.append(Step("sync"))
        elif call.name in SYNCS:
            self.steps.append(Step("folder"))
        elif call.name.startswith("rename"):
            self.steps.append(Step("names", data=NAME.encode()))
        elif call.name == "ftruncate" and self.is_disk(call):
            raise Difference("the spool's file gets another length")

    def take_open(self, call):
        if not call.texts:
            return
        name = os.path.basename(os.fsdecode(call.texts[0]))
        found = re.fullmatch(r"in-(\d+)-(\d+)-(\d+)", name)
        if found:
            self.key = tuple(map(int, found.groups()))
        if name == UNFINISHED and "O_CREAT" in call.words:
            self.steps.append(Step("names", data=UNFINISHED.encode()))

    def take_write(self, call):
        data = call.data()[:call.result]
        if call.name == "pwrite64":
            at = call.last_number()
        else:
            at = self.offsets.get(call.descriptor(), 0)
            self.offsets[call.descriptor()] = at + call.result
        self.steps.append(Step("write", at, data))


class ServiceTracing(Tracing):
    """The steps of a service: a write to a client is a reply."""

    def take_call(self, call):
        if call.name in SENDS or call.name in ("write", "writev") and SOCKET.match(call.words):
            self.steps.append(Step("reply"))
        else:
            super().take_call(call)


class RunFolder:
    """The folder of the program, and the files that name its programs."""

    def __init__(self, shell, folder):
        self.shell = shell
        self.folder = folder
        self.children = real_children.Children(folder)

    def command(self, root):
        return [self.shell, "--root", root, "--size", str(SIZE), *self.children.words]

    def traced(self, first):
        """The steps of a whole run, on this file unless it is empty."""
        root = os.path.join(self.folder, "r")
        os.mkdir(root)
        if first:
            Path(root, NAME).write_bytes(first)
        tracing = Tracing(root)
        for part in PARTS:
            script = part.replace("DOCUMENT", "0123456789" * 60).encode()
            done, calls = traces.run(self.command(root), None, script, os.path.join(self.folder, "trace"), NAMES)
            if done.returncode or real_children.faults_in(done.stderr.decode()) or b"error" in done.stdout:
                raise Difference(f"the run itself: {done.stdout.decode()}{done.stderr.decode()}")
            tracing.take(calls)
        shutil.rmtree(root)
        return tracing.steps

    def serve(self, root, script):
        done = subprocess.run(self.command(root), input=script.encode(), capture_output=True, timeout=LONGEST)
        return done.stdout.decode().splitlines(), real_children.faults_in(done.stderr.decode())


# ---- the moments of a run

@dataclass
class Moment:
    """The state after a call: the bytes that the last sync made durable, the later writes, the file's name if it may have one, and the
    tables that the file may have.
    """
    kept: bytes
    written: list
    names: tuple
    tables: list
    started: frozenset
    ended: frozenset


def moments_of(steps, first):
    """The moments of a run after each of its calls, which started with this file, or with none."""
    kept, now, written, names = first, first, [], (NAME,) if first else (None,)
    tables, started, ended = [table_of(first) or model.Table()], frozenset(), frozenset()
    for step in steps:
        if step.kind == "write":
            length = max(len(now), step.at + len(step.data))
            now = now.ljust(length, b"\0")
            now = now[:step.at] + step.data + now[step.at + len(step.data):]
            written = [*written, (step.at, step.data)]
        elif step.kind == "sync":
            kept, written = now, []
        elif step.kind == "names":
            names = (*names, step.data.decode())
        elif step.kind == "folder":
            names = names[-1:]
        table = table_of(now)
        if table and table.contents() != tables[-1].contents():
            tables = [*tables, table]
        if step.kind in ("reply", "start"):
            tables = tables[-1:]
            ended = frozenset(number for number, job in tables[-1].jobs.items() if job.has_ended())
        if step.kind == "start":
            started |= {step.key}
        yield Moment(kept, written, names, tables, started, ended)


def table_of(file):
    try:
        return model.opened(file).table if file else None
    except model.Fault:
        return None


# ---- controls

def is_frame(step):
    """Writes a record after its gate, and then the next gate."""
    return step.kind == "write" and len(step.data) > 5 and int.from_bytes(step.data[:4], "big") == len(step.data) - 5


def is_header(step):
    """Writes a header after its gate."""
    return step.kind == "write" and len(step.data) == 15 and step.at in HEADERS


def is_gate(step):
    return step.kind == "write" and step.data == bytes([journal.OPEN])


def is_header_gate(step):
    return is_gate(step) and step.at in HEADERS


def without_syncs(steps, which, left_out):
    """The steps without each sync after, or before, a step of this kind."""
    at = {place + left_out for place, step in enumerate(steps) if which(step)}
    return [step for place, step in enumerate(steps) if step.kind != "sync" or place not in at]


def without_first_syncs(steps):
    return without_syncs(steps, is_frame, 1)


def without_second_syncs(steps):
    return without_syncs(steps, is_gate, 1)


def without_header_syncs(steps):
    return without_syncs(steps, is_header_gate, -1)


def closes_current_first(steps):
    """A checkpoint closes the header of the area in use, and then opens the other."""
    changed, is_made = [], False
    for step in steps:
        if is_header_gate(step) and is_made:
            changed += [Step("write", SIZE // 2 - step.at, b"\0"), Step("sync")]
        is_made |= is_header_gate(step)
        changed.append(step)
    return changed


def writes_closed_gate(steps):
    """A header is written with its gate, closed, in one write."""
    return [Step("write", step.at - 1, b"\0" + step.data) if is_header(step) else step for step in steps]


CONTROLS = [without_first_syncs, without_second_syncs, without_header_syncs, closes_current_first, writes_closed_gate]


# ---- the files that a cut leaves

def part_of(data, old, chance):
    """The bytes that may be in place of a range that was written and not synced."""
    kind = chance.randrange(8)
    if kind == 0:
        return old
    if kind in (1, 2):
        return data
    if kind == 3:
        cut = chance.randrange(len(data) + 1)
        return data[:cut] + old[cut:]
    if kind == 4:
        cut = chance.randrange(len(data) + 1)
        return old[:cut] + data[cut:]
    if kind == 5:
        mask = random.Random(chance.randrange(1 << 32)).randbytes(len(data))
        return bytes(new if bit & 1 else before for new, before, bit in zip(data, old, mask))
    if kind == 6:
        return bytes([chance.choice([0, 0xFF, journal.OPEN])]) * len(data)
    return random.Random(chance.randrange(1 << 32)).randbytes(len(data))


def left_by(moment, chance):
    """A file that a cut at a moment may leave."""
    length = max([len(moment.kept)] + [at + len(data) for at, data in moment.written])
    file = moment.kept.ljust(length, b"\0")
    for at, data in moment.written:
        file = file[:at] + part_of(data, file[at:at + len(data)], chance) + file[at + len(data):]
    if moment.written and chance.random() < 0.5:
        # Gates matter most: the first or the last byte of some range is an open one, or is closed.
        at, data = chance.choice(moment.written)
        place = chance.choice([at, at + len(data) - 1])
        file = file[:place] + bytes([chance.choice([journal.OPEN, journal.OPEN, 0, 0xFF])]) + file[place + 1:]
    return file


def leave(moment, root, chance):
    """Creates the folder that a cut may leave."""
    name = chance.choice(moment.names)
    for job, attempt, stage in moment.started:
        if chance.random() < 0.2:
            path = os.path.join(root, f"{chance.choice(['in', 'out', 'err'])}-{job}-{attempt}-{stage}")
            Path(path).write_bytes(bytes(chance.randrange(256) for _ in range(chance.randrange(40))))
    if name:
        Path(root, name).write_bytes(left_by(moment, chance))


# ---- the results of opening it

def check(run_folder, moment, chance, is_printed):
    root = os.path.join(run_folder.folder, "r")
    shutil.rmtree(root, ignore_errors=True)
    os.mkdir(root)
    leave(moment, root, chance)
    lines, errors = run_folder.serve(root, f"{ASKED}jobs\nqueues\ncheckpoint\n")
    fitting = [table for table in moment.tables if lines == [OF_VERSION[table.version], *table.jobs_reply(), *table.queues_reply(), "ok"]]
    if errors or not fitting:
        wanted = " or ".join(str([OF_VERSION[table.version], *table.jobs_reply()]) for table in moment.tables)
        raise Difference(f"it lists {lines} {errors}, not {wanted}")
    payloads, _ = journal.current(Path(root, NAME).read_bytes())
    holds("a checkpoint lists other rows", payloads in [table.listing() for table in fitting])
    if is_printed:
        check_printed(run_folder, root, moment)


def check_printed(run_folder, root, moment):
    """Prints all jobs, each with a few rounds."""
    run_folder.children.stages()
    _, errors = run_folder.serve(root, "clock 3000\ndrain 3\nclock 4000\ndrain 3\n")
    keys = run_folder.children.stages()
    again = [key for key in keys if key in moment.started or keys.count(key) > 1 or key[0] in moment.ended]
    holds(f"stages that had run, or whose jobs had ended, run: {again} {errors}", not errors and not again)


def weight_of(moment):
    if any(at in HEADERS for at, _ in moment.written):
        return HEADER_WEIGHT
    return UNSYNCED_WEIGHT if moment.written else SYNCED_WEIGHT


def cuts(run_folder, moments, seed, count):
    """Cuts at moments in turn, as the seed determines."""
    chance = random.Random(seed)
    weights = [weight_of(moment) for moment in moments]
    for turn, moment in enumerate(chance.choices(moments, weights, k=count)):
        check(run_folder, moment, random.Random(f"{seed} {turn}"), turn % PRINTED == 0)


def is_seen(run_folder, steps, control, seed):
    """The number of cuts until a control fails, if it does."""
    moments = list(moments_of(control(steps), b""))
    changed = [moment for moment in moments if moment.written]
    for turn in range(CONTROL):
        try:
            cuts(run_folder, changed, f"{seed} {turn}", 1)
        except Difference:
            return turn + 1
    return None
