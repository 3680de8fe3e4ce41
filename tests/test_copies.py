"""Copies of spools that are written meanwhile, by examples/office/copy-spool.py.

1. examples/office/copy-spool.py copies the file of a simulated writer, which takes a step of an append or of a checkpoint before any of its
   reads. Each copy must be a state that the writer had between the start and the end of the copy. The same copies without the comparison of
   the header at the end must show wrong states, so the simulation finds such faults.
2. Files that are no spool, are damaged or belong to an existing copy are refused, and nothing is left.
3. A real service is copied again and again while clients submit, cancel and purge jobs and send `checkpoint`. The shell opens each copy,
   which has every job that was acknowledged before the copy, with its document, and continues in another folder.
"""
import importlib.util
import random
import shutil
import subprocess
import sys
import threading
import time
from pathlib import Path

import pytest

from harness import journal
from harness.checks import check, LONGEST, reports_all
from harness.programs import SHELL
from harness.service import Client

ROOT = Path(__file__).resolve().parent.parent
SCRIPT = ROOT / "examples/office/copy-spool.py"
LIVES, SECONDS = 3_000, 20


@pytest.fixture(scope="module")
def module():
    """The script as a module."""
    spec = importlib.util.spec_from_file_location("copy_spool", SCRIPT)
    made = importlib.util.module_from_spec(spec)
    sys.dont_write_bytecode = True
    spec.loader.exec_module(made)
    return made


# ---- a simulated writer

class Writer:
    """A spool's file, and the steps that its writer takes. `states` has the payloads after each step."""

    def __init__(self, chance, half=400):
        self.chance, self.half = chance, half
        self.file = bytearray(journal.image(2 * half))
        self.base, self.epoch, self.payloads = 0, 1, []
        self.states, self.steps = [()], iter(())

    def step(self):
        """One write of the service."""
        if next(self.steps, None) is None:
            full = self.place() + 60 > self.half
            self.steps = self.checkpoint() if full or self.chance.random() < 0.15 else self.append()
            next(self.steps)
        self.states.append(tuple(self.payloads))

    def place(self):
        return journal.HEADER + sum(journal.FRAME + len(it) for it in self.payloads)

    def put(self, at, data):
        self.file[at:at + len(data)] = data

    def append(self):
        payload = self.chance.randbytes(self.chance.randrange(30))
        gate = self.base + self.place()
        self.put(gate + 1, journal.record(payload)[1:] + b"\0")
        yield 1
        self.put(gate, bytes([journal.OPEN]))
        self.payloads.append(payload)
        yield 2

    def checkpoint(self):
        other, kept = self.half - self.base, self.payloads[-self.chance.randrange(4):]
        self.put(other, b"\0")
        yield 1
        area = journal.area(self.half, self.epoch + 1, kept, gate=0)
        for at in range(1, len(area), 97):
            self.put(other + at, area[at:at + 97])
            yield 2
        self.put(other, bytes([journal.OPEN]))
        self.base, self.epoch, self.payloads = other, self.epoch + 1, list(kept)
        yield 3


def simulated(module, seed, compares):
    """One copy of a simulated writer. Returns whether it is a state of the writer during the copy."""
    chance = random.Random(seed)
    writer, pace, copy = Writer(chance), chance.choice((0, 0.3, 1, 3)), bytearray()
    for _ in range(chance.randrange(60)):
        writer.step()

    def read(at, length):
        for _ in range(int(chance.expovariate(1) * pace)):
            writer.step()
        return bytes(writer.file[at:at + length])

    def write(at, data):
        copy[at:at + len(data)] = data

    for _ in range(200):
        copy[:] = bytes(len(writer.file))
        writer.states = [tuple(writer.payloads)]
        try:
            if compares:
                module.copy_area(read, write, len(writer.file))
            else:
                careless(module, read, write, len(writer.file))
            return tuple(journal.current(bytes(copy))[0]) in writer.states
        except (module.Changed, module.Fault) as fault:
            if isinstance(fault, module.Fault) and compares:
                return False
    return True


def careless(module, read, write, size):
    """The copy without the comparison of the header at its end."""
    known = {}

    def once(at, length):
        if length == journal.HEADER:
            # The header is read once for the choice of the area, and again at the end.
            known[at] = known.get(at) or read(at, length)
            return known[at]
        return read(at, length)

    module.copy_area(once, write, size)


@reports_all
def test_simulations(module):
    wrong = [seed for seed in range(LIVES) if not simulated(module, seed, True)]
    check(not wrong, f"{len(wrong)} of {LIVES} copies are no state of the writer; first seed {wrong[:1]}")
    careless_ones = sum(not simulated(module, seed, False) for seed in range(LIVES))
    check(careless_ones > 0, "the simulation accepts copies without a comparison of the header")
    print(f"{LIVES} simulated copies; without the comparison {careless_ones} would be wrong")


# ---- files

@reports_all
def test_refused(room):
    """What is no spool is not copied, and an existing file is kept."""
    folder = room / "files"
    folder.mkdir()
    damaged = bytearray(journal.image(400, [b"one"]))
    damaged[journal.HEADER + 1:journal.HEADER + 5] = b"\xff" * 4
    images = {"empty": b"", "zeros": bytes(400), "damaged": bytes(damaged), "version": journal.area(200, 1, [], version=9) + bytes(200)}
    for name, image in images.items():
        (folder / "spool.disk").write_bytes(image)
        run = copied(folder, folder / "copy")
        check(run.returncode == 1 and run.stderr.startswith("copy-spool: ") and not (folder / "copy").exists(), f"{name}: {run}")
    (folder / "spool.disk").write_bytes(journal.image(400, [b"one", b"two"]))
    run = copied(folder, folder / "copy")
    check(run.returncode == 0 and run.stdout == "copied 2 records\n", f"a spool: {run}")
    check(journal.current((folder / "copy").read_bytes()) == ([b"one", b"two"], 1), "a spool: other records")
    (folder / "copy").write_bytes(b"old")
    check(copied(folder, folder / "copy").returncode == 1 and (folder / "copy").read_bytes() == b"old", "an existing file is replaced")
    (folder / "spool.disk").unlink()
    check(copied(folder, folder / "other").returncode == 1, "a folder without a spool")
    check({it.name for it in folder.iterdir()} == {"copy"}, f"left: {list(folder.iterdir())}")
    for words in ([], ["one"], ["one", "two", "three"]):
        check(subprocess.run([SCRIPT, *words], capture_output=True).returncode == 1, f"accepted: {words}")


def copied(folder, file):
    return subprocess.run([sys.executable, SCRIPT, folder, file], capture_output=True, text=True)


# ---- a real service

# The jobs that a client keeps: more of them do not fit into the spool.
MOST = 200


class Load(threading.Thread):
    """A client that submits jobs, cancels and purges every third one and the oldest of more than MOST, and sends checkpoints.

    It notes the jobs whose close was acknowledged.
    """

    def __init__(self, module, number):
        super().__init__()
        self.client, self.number, self.ends = module, number, threading.Event()
        self.closed, self.gone, self.kept, self.fault = set(), set(), [], None

    def run(self):
        try:
            count = 0
            while not self.ends.is_set():
                count += 1
                self.submit(count)
        except Exception as fault:  # noqa: B902 # reported by the main thread
            self.fault = fault

    def submit(self, count):
        job = int(self.client.ask(f'create hall ann "t{count}" 1 50 ""\n').split()[2])
        document = document_of(job)
        self.client.say(b"send %d %d\n%s\n" % (job, len(document), document))
        assert self.client.reply().startswith("ok")
        assert self.client.ask(f"close {job} page\n").startswith("ok")
        self.closed.add(job)
        self.kept.append(job)
        if count % 3 == 0 or len(self.kept) > MOST:
            gone = self.kept.pop(-1 if count % 3 == 0 else 0)
            self.gone.add(gone)
            assert self.client.ask(f"cancel {gone}\n") == "ok" and self.client.ask(f"purge {gone}\n") == "ok"
        if count % (7 + self.number) == 0:
            assert self.client.ask("checkpoint\n") == "ok"


def document_of(job):
    """A document from whose bytes the job is known."""
    return b"%d\n" % job * (job * 37 % 900 + 1)


@pytest.mark.needs("spool_service", "spool_shell")
@reports_all
def test_while_it_is_used(folder, room):
    folder.size = 1 << 22
    folder.start("--keep", "100000")
    client = Client(folder)
    check(client.ask("queue hall s:/ application/octet-stream abort-job\n") == "ok" and client.ask("disable hall\n") == "ok", "no queue")
    loads = [Load(Client(folder), number) for number in range(3)]
    for load in loads:
        load.start()
    end, copies, restored = time.monotonic() + SECONDS, 0, 0
    while time.monotonic() < end:
        before = set().union(*(load.closed - load.gone for load in loads))
        copies += 1
        place = room / f"c{copies}"
        place.mkdir()
        run = copied(folder.at("spool"), place / "spool.disk")
        gone = set().union(*(load.gone for load in loads))
        check(run.returncode == 0, f"copy {copies}: {run.stdout}{run.stderr}")
        restored += continues(place, before - gone)
        shutil.rmtree(place)
    for load in loads:
        load.ends.set()
        load.join()
        check(load.fault is None, f"a client: {load.fault!r}")
    checkpoints = sum(len(load.closed) // (7 + load.number) for load in loads)
    jobs = sum(len(load.closed) for load in loads)
    print(f"{copies} copies of a service with {jobs} jobs and {checkpoints} checkpoints; {restored} jobs found again")
    check(copies >= 5 and checkpoints >= 5 and restored > 0, "too few copies, checkpoints or jobs")


def continues(place, wanted):
    """The shell opens a copy, finds the wanted jobs and adds one. The documents are in the file. Returns the number of wanted jobs."""
    file = (place / "spool.disk").read_bytes()
    script = 'create hall bo "later" 1 50 ""\njobs\n'
    run = subprocess.run([SHELL, "--root", place], input=script, capture_output=True, text=True, timeout=LONGEST)
    found = {int(line.split()[1]) for line in run.stdout.splitlines() if line.startswith("job ")}
    check(run.returncode == 0 and run.stdout.startswith("ok job "), f"the shell: {run.stdout[:300]}{run.stderr[:300]}")
    check(wanted <= found, f"jobs are missing in a copy: {sorted(wanted - found)[:9]}")
    lost = [job for job in wanted if document_of(job) not in file]
    check(not lost, f"documents are missing in a copy: {lost[:9]}")
    return len(wanted)


@pytest.fixture
def room(room):
    return Path(room)
