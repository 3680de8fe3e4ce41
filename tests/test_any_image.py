"""Spool files with random changes: the shell's results are those of a model.

There are some real spools at first: with events of each kind, listings in either area, documents, jobs that are processing, effects of
children. Others are these spools as a program of version 1 would have written them. The bytes of one spool are changed, cut, swapped and
repeated, as Hypothesis determines. Changes affect bytes, fields and whole records, so that many files contain data that no spooler would
write, but in a valid form.

For each file the model of harness/spool_model.py, which was written from docs/PROMISES.md and the definitions that it names, says which
table the file has, or its fault and the place on the disk. In the case of a fault the shell must report it, send no reply and leave the file
unchanged. Otherwise the shell must have that table: in the replies to `jobs` and `queues`, in a round without programs (which starts the
next job of each queue, and ends it by the queue's policy), in the replies to `createby` before and after a checkpoint, and, byte for byte,
in the file after all these and the opening.
"""
import functools
import os
import subprocess
import tempfile
from dataclasses import replace

import pytest

hypothesis = pytest.importorskip("hypothesis", reason="it needs Debian's package python3-hypothesis")
strategies = pytest.importorskip("hypothesis.strategies")

from harness import journal, real_children, spool_model as model
from harness.checks import Difference, holds, LONGEST
from harness.files import read, write
from harness.programs import memory_folder, SHELL

pytestmark = pytest.mark.needs("spool_shell")

MOST_CHANGES = 3

# The least number of changed files per hundred that must have a table, a fault, and a table of version 1.
LEAST_SHARE = 15
LEAST_OLD_SHARE = 5

BY = 3_000
CREATE_BY = f'createby hall u "" 1 50 "" {BY}'
COMMANDS = ["jobs", "queues", "round", "jobs", "queues", CREATE_BY, "checkpoint", CREATE_BY]

FIRST = """clock 1000
queue hall s:/0 a/b retry-job 30 5
queue lab s:/6 a/b retry-job 60 2
queue pit s:/7 a/d retry-current-job
queue roof s:/4 a/b stop-printer 5 0
info hall "A \\"printer\\"" "Room 1"
create hall ann "First page" 2 50 "media=A4 nocollate"
send 1 12
hello, world
close 1 a.x
create lab bo "R\u00e9sum\u00e9" 1 80 ""
send 2 3
abc
send 2 4
defg
close 2 b.x
create pit ann "" 1 1 ""
close 3 c.x
create roof carl "Held" 9999 100 "note=x"
hold 4 2000
close 4 d.x
createby hall ann "Incoming" 1 50 "" 2050
send 5 6
kept..
hold 5 indefinite
"""
MORE = """round
round
clock 1020
create hall dora "Next" 1 60 ""
send 6 9
123456789
close 6 e.x
release 5
reject lab
disable pit
cancel 3
create roof dora "Last" 1 99 ""
close 7 f.x
hold 7 indefinite
release 7
hold 7 5000
createby roof ann "Soon" 3 98 "media=A4" 2060
send 8 5
hello
close 8 g.x
createby pit bo "Late" 1 50 "" 900
close 9 h.x
createby hall bo "Later" 1 50 "" 9000
close 10 i.x
hold 10 8000
"""
LATER = """clock 2100
round
purge 3
abandon 4
create hall e "A" 1 2 ""
close 11 j.x
create hall e "B" 1 1 ""
close 12 none
enable pit
accept lab
round
round
"""


def serve(root, script, words=()):
    return subprocess.run([SHELL, "--root", root, *words], input=script.encode(), capture_output=True, timeout=LONGEST)


def real_spools(folder):
    """The spool files that the program leaves, one after each of some scripts."""
    root = os.path.join(folder, "made")
    os.mkdir(root)
    words = [*real_children.Children(folder).words, "--size", "8192"]
    spools = []
    for script in (FIRST, MORE, "checkpoint\n" + LATER, "round\ncheckpoint\nround\n", "clock 9000\nround\ncheckpoint\n", "jobs\n"):
        done = serve(root, script, words)
        replies = done.stdout.decode().splitlines()
        if done.returncode or any(reply.startswith("error") for reply in replies):
            raise Difference(f"a spool cannot be created: {done.stderr!r}, {replies}")
        spools.append(read(os.path.join(root, "spool.disk")))
    kinds = {payload[0] for spool in spools for half in journal.halves(spool) for payload in journal.payloads_of(half)}
    missing = {*range(1, 0x12), *range(0x40, 0x44)} - kinds
    holds(f"the created spools have no event or row of the kinds {sorted(missing)}", not missing)
    return spools


# ---- areas of version 1

def as_version_one_has_it(payload):
    """An event or a row as version 1 has it, if version 1 has it at all: no job has a start deadline, and none is purged."""
    if payload[:1] == b"\x10":
        return None
    if payload[:1] == b"\x11":
        return b"\x05" + payload[1:-8]
    if payload[:1] == b"\x42":
        return replace(model.read_row(payload), by=None).payload(version=1)
    return payload


def as_version_one(file, base):
    """The file with its area as a program of version 1 would have written it."""
    half = len(file) // 2
    area = file[base:base + half]
    payloads = [payload for payload in map(as_version_one_has_it, journal.payloads_of(area)) if payload]
    return file[:base] + journal.area(half, journal.epoch_of(area), payloads, version=1) + file[base + half:]


def old_spools(spools):
    """Some of the files with all areas of version 1, and all with only the area of the lower epoch in version 1, as the first checkpoint
    leaves it.
    """
    old = []
    for spool in spools:
        half = len(spool) // 2
        open_areas = [base for base in (0, half) if journal.epoch_of(spool[base:base + half])]
        current, _ = model.current_base(spool)
        first = spool
        for base in open_areas:
            first = as_version_one(first, base)
        old.append(first)
        if len(open_areas) == 2:
            old.append(as_version_one(spool, half - current))
    return old


# ---- changes. Each takes a file and returns another one

def area_of(file, chance):
    """Usually the current area: its start, and the offset of the closed gate after its records."""
    half = len(file) // 2
    if half < journal.HEADER:
        return 0, 0
    bases = [base for base in (0, half) if journal.epoch_of(file[base:base + half])]
    base = max(bases, key=lambda base: journal.epoch_of(file[base:base + half]), default=0)
    if chance.random() < 0.1:
        base = half - base if base in (0, half) else 0
    return base, base + journal.places(payloads_in(file[base:base + half]))[-1]


def payloads_in(half):
    """The payloads of an area, as far as records are valid."""
    try:
        return [payload for payload in journal.payloads_of(half) if len(payload) < len(half)]
    except (IndexError, MemoryError, OverflowError):
        return []


def some_range(file, chance):
    """A range of a file, usually a short one among its records."""
    base, gate = area_of(file, chance)
    first, last = (base, min(gate + 12, len(file))) if chance.random() < 0.9 else (0, len(file))
    begin = chance.randrange(first, max(first + 1, last))
    return begin, min(len(file), begin + 1 + int(min(len(file), chance.expovariate(0.1))))


def some_byte(chance):
    return chance.choice([0, 1, 2, 0x0F, 0x20, 0x40, 0x7F, 0x80, 0xA4, journal.OPEN, 0xA6, 0xFF, chance.randrange(256)])


def changed(file, chance):
    """Replaces a byte by another one, flips one of its bits, or adds or subtracts one."""
    at, _ = some_range(file, chance)
    byte = chance.choice([some_byte(chance), file[at] ^ 1 << chance.randrange(8), (file[at] + 1) % 256, (file[at] - 1) % 256])
    return file[:at] + bytes([byte]) + file[at + 1:]


def filled(file, chance):
    begin, end = some_range(file, chance)
    return file[:begin] + bytes([some_byte(chance)]) * (end - begin) + file[end:]


def cut(file, chance):
    """Removes a range. The file is shorter then, or is padded with zeros."""
    begin, end = some_range(file, chance)
    left = file[:begin] + file[end:]
    return left if chance.random() < 0.3 else left.ljust(len(file), b"\0")


def shortened(file, chance):
    """Truncates the file: usually anywhere, sometimes within the written part, and sometimes to almost nothing."""
    return file[:chance.choice([chance.randrange(len(file) + 1), some_range(file, chance)[1], chance.randrange(60)])]


def swapped(file, chance):
    """Exchanges two ranges of the same length."""
    (one, end), (other, _) = some_range(file, chance), some_range(file, chance)
    one, other = min(one, other), max(one, other)
    length = min(end - one if end > one else 1, other - one, len(file) - other)
    middle = file[one + length:other]
    return file[:one] + file[other:other + length] + middle + file[one:one + length] + file[other + length:]


def repeated(file, chance):
    """Repeats a range, which moves the bytes after it."""
    begin, end = some_range(file, chance)
    return (file[:end] + file[begin:end] + file[end:])[:len(file)]


def headers(file, chance):
    """Replaces the headers, or changes their form."""
    half = len(file) // 2
    if half < journal.HEADER:
        return file
    areas = [file[:half], file[half:2 * half]]
    kind = chance.randrange(6)
    if kind == 0:
        areas.reverse()
    elif kind == 1:
        areas[1] = areas[0][:journal.HEADER] + areas[1][journal.HEADER:]
    elif kind in (2, 3):
        at, place = chance.randrange(2), chance.randrange(journal.HEADER)
        areas[at] = areas[at][:place] + bytes([some_byte(chance)]) + areas[at][place + 1:]
    else:
        at = chance.randrange(2)
        epoch = chance.choice([0, 1, 2, 3, 4, 255, 256, 2 ** 63, 2 ** 64 - 2, 2 ** 64 - 1])
        gate = chance.choice([0, 1, 0xA4, journal.OPEN, journal.OPEN, journal.OPEN])
        areas[at] = journal.header(epoch, gate, version_of(areas[at])) + areas[at][journal.HEADER:]
    return areas[0] + areas[1] + file[2 * half:]


def version_of(half):
    """The version of an area, or the newest one if its header has an unknown version."""
    version = journal.version_of(half)
    return version if version in journal.VERSIONS else journal.NEWEST


# ---- changes of whole records

def rebuilt(file, chance, change, version=None):
    """The file with the payloads of an area changed and its records rewritten, in its own version or in this one."""
    half = len(file) // 2
    base, _ = area_of(file, chance)
    payloads = payloads_in(file[base:base + half])
    if not payloads:
        return file
    change(payloads)
    epoch = journal.epoch_of(file[base:base + half]) or 1
    if version is None:
        version = version_of(file[base:base + half])
    area = journal.area(half, epoch, payloads, closed=chance.choice([0, 0, 0, 7, 0xFF]), version=version)
    return file[:base] + area + file[base + half:]


def of_payloads(change):
    """A change of a file that changes the payloads of an area."""
    @functools.wraps(change)
    def changes(file, chance):
        return rebuilt(file, chance, lambda payloads: change(payloads, chance))

    return changes


@of_payloads
def records_moved(payloads, chance):
    """Drops a record, repeats or moves it, or exchanges two."""
    at, to, kind = chance.randrange(len(payloads)), chance.randrange(len(payloads)), chance.randrange(4)
    if kind == 0:
        del payloads[at]
    elif kind == 1:
        payloads.insert(to, payloads[at])
    elif kind == 2:
        payloads.insert(to, payloads.pop(at))
    else:
        payloads[at], payloads[to] = payloads[to], payloads[at]


@of_payloads
def records_cut(payloads, chance):
    """Removes the last records."""
    del payloads[chance.randrange(len(payloads)):]


@of_payloads
def field_changed(payloads, chance):
    """Changes a number somewhere in a payload, often the one after its kind."""
    at = chance.randrange(len(payloads))
    payload = payloads[at]
    width = chance.choice([1, 2, 4, 8])
    if len(payload) <= width:
        return
    place = chance.choice([1, chance.randrange(len(payload) - width + 1), len(payload) - width])
    before = int.from_bytes(payload[place:place + width], "big")
    most = 256 ** width
    number = chance.choice([0, 1, 2, 3, 4, 5, 8, before + 1, before - 1, most - 1, most // 2, chance.randrange(most)]) % most
    payloads[at] = payload[:place] + journal.number(number, width) + payload[place + width:]


@of_payloads
def payload_resized(payloads, chance):
    """Adds or removes a byte of a payload, and sets the length of the record accordingly."""
    at = chance.randrange(len(payloads))
    place = chance.randrange(len(payloads[at]) + 1)
    payload = payloads[at]
    payloads[at] = payload[:place] + (bytes([some_byte(chance)]) + payload[place:] if chance.random() < 0.5 else payload[place + 1:])


@of_payloads
def event_added(payloads, chance):
    """Adds an event about some job, which may or may not be accepted."""
    job, moment = chance.randrange(10), chance.choice([0, 500, 1_030, 5_000, model.GREATEST_MOMENT])
    event = chance.choice([
        journal.start(job), journal.start(job), journal.cancel(job), journal.release(job), journal.abandon(job), journal.hold(job),
        journal.purge(job), journal.purge(job),
        journal.hold(job, moment), journal.clock(moment), journal.REOPEN, journal.send(job, b"more"), journal.close(job),
        journal.close(job, None), journal.set_stop("pit", chance.randrange(2)), journal.set_accept("lab", chance.randrange(2)),
        journal.stage(job, chance.randrange(1, 4), chance.randrange(1, 4), chance.choice([0, 1, 2, 3, 4, 5, 6, 7, 8, 255])),
        journal.stage(job, 1, 1, chance.choice([journal.SIGNAL, journal.NO_START, journal.LOST])),
        journal.Job(10 + job, "hall").event(), journal.Queue("attic").event(), journal.Queue("hall").event(),
        journal.Job(10 + job, "hall", by=moment).event(), journal.Job(10 + job, "hall", by=2_500).event(),
        journal.stage(job, chance.randrange(1, 3), 1, 0, journal.set_reasons("z"), journal.pages(1, 2 ** 32 - 1), journal.message("m")),
    ])
    payloads.insert(chance.choice([len(payloads), chance.randrange(len(payloads) + 1)]), event)


def version_changed(file, chance):
    """Sets one of the versions in an area's header, with jobs in that version, in the other one, or in a mixture of both."""
    kind = chance.randrange(4)

    def change(payloads):
        for at, payload in enumerate(payloads):
            if payload[:1] == b"\x42" and (kind < 2 or chance.random() < 0.1):
                payloads[at] = changed_moment(payload, kind == 0, chance)
            elif payload[:1] == b"\x11" and kind == 0:
                payloads[at] = b"\x05" + payload[1:-8]
        if kind == 0:
            payloads[:] = [payload for payload in payloads if payload[:1] != b"\x10"]

    return rebuilt(file, chance, change, version=1 if kind == 0 else chance.choice(journal.VERSIONS))


def changed_moment(payload, is_old, chance):
    """Gives the row of a job another deadline, or none, or no field for one. A payload that is no row is unchanged."""
    for version in journal.VERSIONS:
        try:
            row = model.read_row(payload, version)
        except model.Unfit:
            continue
        by = chance.choice([None, row.by, 0, 900, 1_000, 2_500, model.GREATEST_MOMENT, model.GREATEST_MOMENT + 1])
        return replace(row, by=None).payload(version=1) if is_old else replace(row, by=by).payload()
    return payload


def cramped(file, chance):
    """Truncates the file so that the area ends at the last gate, or a few bytes after it."""
    half = len(file) // 2
    base, gate = area_of(file, chance)
    length = max(0, gate - base + chance.randrange(-3, 12))
    areas = [file[:half][:length].ljust(length, b"\0"), file[half:2 * half][:length].ljust(length, b"\0")]
    return areas[0] + areas[1] + bytes(chance.randrange(2))


CHANGES = [changed, filled, cut, shortened, swapped, repeated, headers, records_moved, records_cut, field_changed, payload_resized,
           event_added, version_changed, cramped]

# The frequency of each change: changes that usually end at the first damage are rarer.
WEIGHTS = [4, 1, 1, 1, 1, 1, 2, 4, 3, 6, 2, 6, 4, 3]


def some_file(spools, chance):
    """A changed file, and the names of the changes."""
    file, names = chance.choice(spools), []
    for change in chance.choices(CHANGES, WEIGHTS, k=chance.randint(1, MOST_CHANGES)):
        if file:
            file = change(file, chance)
        names.append(change.__name__)
    return file, names


# ---- the program's results for a file

def wanted_of(file):
    """The lines of the replies, the standard error, the status, the resulting file, and the version of a table."""
    try:
        it = model.opened(file)
    except model.Fault as fault:
        return [], f"spool: {fault}\n", 1, file, None
    version = it.table.version
    lines = it.table.jobs_reply() + it.table.queues_reply()
    lines.append(model.round_without_programs(it))
    lines += it.table.jobs_reply() + it.table.queues_reply()
    lines += [model.created_by(it, "hall", BY), model.checkpointed(it), model.created_by(it, "hall", BY)]
    return lines, "", 0, it.file, version


def check(root, file):
    """The version of the file's table, if it has one. Fails if the program does anything else."""
    path = write(os.path.join(root, "spool.disk"), file)
    lines, errors, status, left, version = wanted_of(file)
    done = serve(root, "".join(f"{command}\n" for command in COMMANDS))
    got = done.stdout.decode().splitlines(), real_children.faults_in(done.stderr.decode()), done.returncode
    holds(f"{got} in place of {(lines, errors, status)}", got == (lines, errors, status))
    holds(f"the resulting file differs from the model's, after {lines}", read(path) == left)
    return version


@pytest.fixture(scope="module")
def spools():
    with tempfile.TemporaryDirectory(dir=memory_folder()) as folder:
        made = real_spools(folder)
    return made + old_spools(made)


def test_real_spools_have_tables(spools, memory_room):
    for spool in spools:
        holds("it has a table", check(memory_room, spool) is not None)


def test_any_changed_spool(spools, memory_room, is_long):
    """Hypothesis chooses the changes, and makes them fewer and simpler if one of the files fails: the file in this folder is then the smallest."""
    count, versions = 10_000 if is_long else 1_000, []

    @hypothesis.settings(max_examples=count)
    @hypothesis.given(strategies.randoms(use_true_random=False))
    def is_opened(chance):
        file, names = some_file(spools, chance)
        hypothesis.note(f"{len(file)} bytes, {', '.join(names)}")
        versions.append(check(memory_room, file))

    is_opened()
    tables, old = len(versions) - versions.count(None), versions.count(1)
    print(f"{tables} files with a table, {old} of them of version 1, {len(versions) - tables} with a fault")
    share, old_share = 100 * tables // len(versions), 100 * old // len(versions)
    holds("enough of each kind", LEAST_SHARE <= share <= 100 - LEAST_SHARE and LEAST_OLD_SHARE <= old_share)
