"""Files of a spool that a power cut may leave while clients send batches: each lists the table before a batch or after it.

A client that sends commands without waiting for the replies makes a batch: the service stages their events and makes them durable together.
The service is traced while one client, and then many at once, send batches of 2 to 40 events. harness/power_cuts.py derives the files that a
cut may leave from the calls, and opens them by the shell.

Controls must be seen to fail: the same calls without the first sync of each batch, without the second one, with the gate of the first
record opened before the first sync, and with the records of a batch opened one by one.
"""
import random
from contextlib import contextmanager
from pathlib import Path

import pytest

from harness import power_cuts
from harness.checks import Difference, holds, same
from harness.programs import SHELL
from harness.service import Client, PIECE, served_clients

pytestmark = [pytest.mark.strace, pytest.mark.needs("spool_service", "spool_shell")]

# The files that are opened, usually and for the long tests, and the greatest number until a control is seen.
COUNT, LONG_COUNT, CONTROL = 150, 3_000, 1_000

# The numbers of events of the batches of one client, and how many clients send one at the same time.
EVENTS, CLIENTS = range(2, 41), 12

# The number of events of the batch that is cut at each byte.
CUT = 12

DOCUMENT = b"hello\n"

# A moment that does not come during a test.
FUTURE = 4_000_000_000

# Documents that come at the same time, and the bytes of staged events that become durable before the next client is served.
DOCUMENTS, PART = 40, 1_048_576


@contextmanager
def traced(folder):
    """The steps of the service meanwhile, once the context has ended."""
    tracing = power_cuts.ServiceTracing(folder.at("spool"))
    with folder.traced(*power_cuts.SERVICE_STRACE):
        yield tracing
    tracing.read(folder.at("calls"))


def batch(job, count):
    """Commands of this number of events on an incoming job: its document, its close, holds and releases, and its cancel."""
    commands = [b"send %d %d\n%s\n" % (job, len(DOCUMENT), DOCUMENT), b"close %d f\n" % job]
    changes = [b"hold %d %d\n" % (job, FUTURE), b"release %d\n" % job]
    while len(commands) < count - 1:
        commands.append(changes[len(commands) % 2])
    return commands[: count - 1] + [b"cancel %d\n" % job]


def held_queue(folder, size=262_144):
    """A client of a service whose queue prints nothing."""
    folder.size = size
    return folder.open("q", stopped=True)


def said_well(client, count):
    replies = [client.reply() for _ in range(count)]
    holds(f"its replies: {replies}", all(reply.startswith("ok") for reply in replies))


def image_of(folder):
    return Path(folder.at("spool", "spool.disk")).read_bytes()


def by_one(folder):
    """The file before, and the steps of one client's batches, each after the replies to the one before."""
    client = held_queue(folder)
    jobs = [client.create("q") for _ in EVENTS]
    before = image_of(folder)
    with traced(folder) as tracing:
        for job, count in zip(jobs, EVENTS):
            client.say(b"".join(batch(job, count)))
            said_well(client, count)
    return before, tracing.steps


def by_many(folder):
    """The same of many clients, whose batches come while the service is stopped, so that one turn serves them."""
    first = held_queue(folder)
    jobs = [first.create("q") for _ in range(CLIENTS)]
    clients, before = served_clients(folder, CLIENTS), image_of(folder)
    with traced(folder) as tracing:
        with folder.paused():
            for client, job, count in zip(clients, jobs, range(2, 2 + CLIENTS)):
                client.say(b"".join(batch(job, count)))
        for client, count in zip(clients, range(2, 2 + CLIENTS)):
            said_well(client, count)
    return before, tracing.steps


def moments_of(steps, before):
    """The moments of a run. A file at one of them lists the last table that was acknowledged, or the one that a batch is about to make."""
    moments = list(power_cuts.moments_of(steps, before))
    holds("a batch is seen whole or not at all", all(len(moment.tables) <= 2 for moment in moments))
    return moments


def check_cuts(run_folder, moments, count, seed):
    changed = [moment for moment in moments if moment.written]
    holds("writes are not durable at once", changed)
    for turn, moment in enumerate(random.Random(seed).choices(changed, k=count)):
        power_cuts.check(run_folder, moment, random.Random(f"{seed} {turn}"), False)


@pytest.fixture(name="run_folder")
def folder_of_cut_spools(memory_room):
    return power_cuts.RunFolder(SHELL, memory_room)


@pytest.mark.parametrize("way", [by_one, by_many], ids=["one client", "many clients"])
def test_each_file_has_whole_batches(folder, run_folder, way, is_long, seed):
    before, steps = way(folder)
    check_cuts(run_folder, moments_of(steps, before), LONG_COUNT if is_long else COUNT, seed)


def test_a_batch_that_is_cut_at_a_byte(folder, run_folder):
    """If the writes of a batch end at any byte, the file lists the table before the batch or after it."""
    client = held_queue(folder)
    job = client.create("q")
    file = bytearray(image_of(folder))
    with traced(folder) as tracing:
        client.say(b"".join(batch(job, CUT)))
        said_well(client, CUT)
    writes = [step for step in tracing.steps if step.kind == "write"]
    after = bytearray(file)
    for step in writes:
        after[step.at : step.at + len(step.data)] = step.data
    tables = [power_cuts.table_of(bytes(file)), power_cuts.table_of(bytes(after))]
    for step in writes:
        for place, byte in enumerate(step.data, step.at):
            file[place] = byte
            moment = power_cuts.Moment(bytes(file), [], (power_cuts.NAME,), tables, frozenset(), frozenset())
            power_cuts.check(run_folder, moment, random.Random(0), False)
    same("all is written", file, after)


def test_a_batch_of_many_documents_has_parts(folder):
    """Documents that come at the same time become durable in parts of a mebibyte, so that no settle takes long."""
    first = held_queue(folder, 16_777_216)
    jobs = [first.create("q") for _ in range(DOCUMENTS)]
    clients = [Client(folder) for _ in jobs]
    with traced(folder) as tracing:
        with folder.paused():
            for client, job in zip(clients, jobs):
                client.say(b"send %d %d\n%s\n" % (job, PIECE, bytes(PIECE)))
        for client in clients:
            same("send", client.reply(), f"ok bytes {PIECE}")
    parts = [0]
    for step in tracing.steps:
        if step.kind == "sync":
            parts.append(0)
        elif step.kind == "write":
            parts[-1] += len(step.data)
    holds("all pieces", sum(parts) > DOCUMENTS * PIECE)
    holds(f"the bytes before each sync: {parts}", max(parts) < PART + 2 * PIECE)


# ---- controls

def first_gates(steps):
    """The places at which the gate of a batch's first record is opened: after the sync of its records."""
    return [at for at in range(1, len(steps)) if power_cuts.is_gate(steps[at]) and steps[at - 1].kind == "sync"]


def without_first_syncs(steps):
    left_out = {at - 1 for at in first_gates(steps)}
    return [step for at, step in enumerate(steps) if at not in left_out]


def without_second_syncs(steps):
    left_out = {at + 1 for at in first_gates(steps)}
    return [step for at, step in enumerate(steps) if at not in left_out]


def opens_before_the_sync(steps):
    """The gate of the first record is opened before the sync of the records."""
    changed = list(steps)
    for at in first_gates(steps):
        changed[at - 1], changed[at] = changed[at], changed[at - 1]
    return changed


def opens_one_by_one(steps):
    """The gates of the further records stay closed, and are opened in turn when that of the first record is open."""
    changed, later, opening = [], [], set(first_gates(steps))
    for at, step in enumerate(steps):
        if at in opening:
            changed += [step, *later]
            later = []
        elif power_cuts.is_gate(step):
            later.append(step)
        else:
            changed.append(step)
    return changed


@pytest.mark.parametrize(
    "control",
    [without_first_syncs, without_second_syncs, opens_before_the_sync, opens_one_by_one],
    ids=lambda control: control.__name__,
)
def test_a_service_that_syncs_less_is_seen(folder, run_folder, control, seed):
    before, steps = by_one(folder)
    changed = control(steps)
    holds("the control changes the calls", changed != steps)
    with pytest.raises(Difference):
        check_cuts(run_folder, moments_of(changed, before), CONTROL, seed)
