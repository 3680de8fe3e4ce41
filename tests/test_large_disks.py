"""A spool of a gibibyte, filled up to the end of each of its areas.

This module writes its journal, with holes in place of most bytes, so that the file takes some mebibytes. The jobs in it have ended, except
for a few that are distributed over the whole area and are printed.
"""
import os

import pytest

from harness.checks import same
from harness.journal import cancel, close, current_base, current_payloads, FRAME, Head, header, HEADER, Job, Queue, record, send
from harness.large_run import ask_jobs, bytes_of, DONE, listed, same_file, Script, SEND, TYPE, within
from harness.programs import SHELL

pytestmark = [pytest.mark.alone, pytest.mark.needs("spool_shell", "spool_tools")]

SIZE = 1 << 30
HALF = SIZE // 2
SENDS = 16

# The bytes that are left at the area's end for the commands.
LEFT = 150_000

# The jobs that have not ended, each on a queue of its own, and the bytes of their documents.
ALIVE = 8
LENGTH = 70_000

# The payload of the end of a stage without effects, and of a start.
START = 5
STAGE = 18


class Area:
    """An area that is written from its header on, and the offset of its next record."""

    def __init__(self, file, base, epoch):
        self.file = file
        self.at = base + HEADER
        self.end = base + HALF
        self.put(base, header(epoch))

    def put(self, at, data):
        self.file.seek(at)
        self.file.write(data)

    def add(self, payload):
        self.put(self.at, record(payload))
        self.at += FRAME + len(payload)

    def add_holes(self, job):
        """A send whose bytes are zeros, which are holes in the file."""
        head = record(send(job, bytes(SEND)))[:-SEND]
        self.put(self.at, head)
        self.at += len(head) + SEND


def created(queue, number):
    """The event that creates a job."""
    return Job(number, queue, "ann").event()


def queue_name(turn):
    return f"alive{turn}"


def fill(area):
    """Fills an area with jobs up to its end. Returns the listing of `jobs`."""
    jobs, turn = [], 0
    while area.end - area.at > LEFT + 2 * (SEND + 100):
        number = len(jobs) + 1
        if area.at - (area.end - HALF) >= turn * (HALF // ALIVE) and turn < ALIVE:
            area.add(created(queue_name(turn), number))
            document = bytes_of(turn, LENGTH)
            area.add(send(number, document[:SEND]))
            area.add(send(number, document[SEND:]))
            area.add(close(number, media=TYPE))
            jobs.append((queue_name(turn), LENGTH, "3 none"))
            turn += 1
            continue
        area.add(created("lab", number))
        sends = min(SENDS, (area.end - area.at - LEFT - 1_000) // (SEND + 100))
        for _ in range(sends):
            area.add_holes(number)
        area.add(cancel(number))
        jobs.append(("lab", sends * SEND, "7 canceled"))
    return jobs


def uri_of(place, name):
    return f"spoolfile:{place.at('printed')}-{name}"


def make_spool(place, base):
    """Creates the spool with the area at `base` filled, which begins with a listing of the queues if it is the second one."""
    names = ["lab", *map(queue_name, range(ALIVE))]
    with open(place.at("spool", "spool.disk"), "wb") as file:
        file.truncate(SIZE)
        area = Area(file, base, 1 if base == 0 else 2)
        if base == 0:
            for name in names:
                area.add(Queue(name, uri_of(place, name), TYPE).event())
        else:
            file.seek(0)
            file.write(header(1))
            area.add(Head(0).payload())
            for name in sorted(names):
                area.add(Queue(name, uri_of(place, name), TYPE).payload())
        jobs = fill(area)
    return area, jobs


def listing(jobs):
    return [listed(number, queue, shown, size) for number, (queue, size, shown) in enumerate(jobs, 1)]


def print_the_living(script, area, jobs):
    """One round prints all jobs that have not ended, from all over the area."""
    script.ask("round", f"ok started {ALIVE} finished {ALIVE}")
    area.at += ALIVE * (FRAME + START + FRAME + STAGE)
    for turn, (queue, size, shown) in enumerate(jobs):
        jobs[turn] = (queue, size, DONE if shown == "3 none" else shown)


def fill_to_the_last_byte(script, area, jobs):
    """A job whose document ends exactly where the area has room for a record of seven bytes, too few for any event."""
    number = len(jobs) + 1
    script.ask('create alive0 ann "" 1 50 ""', f"ok job {number}")
    area.at += FRAME + len(created("alive0", number))
    document = b""
    while (room := area.end - area.at - FRAME - 9 - 7) > SEND:
        piece = bytes_of(number, SEND)
        document += piece
        script.send(number, piece, f"ok bytes {len(document)}")
        area.at += FRAME + 9 + SEND
    last = bytes_of(number + 1, room)
    script.send(number, last + b"x", "error full")
    script.send(number, last, f"ok bytes {len(document) + room}")
    script.ask(f"cancel {number}", "error full")
    script.ask('create lab ann "" 1 50 ""', "error full")
    jobs.append(("alive0", len(document) + room, "4 job-incoming"))
    return document + last


def used_to_the_end(place, base):
    """Fills a spool whose area at `base` is nearly full up to its end, then switches areas, and opens it again each time."""
    place.fresh_spool()
    area, jobs = make_spool(place, base)
    script = Script()
    ask_jobs(script, listing(jobs))
    print_the_living(script, area, jobs)
    document = fill_to_the_last_byte(script, area, jobs)
    ask_jobs(script, listing(jobs))
    place.print_all(script)
    for turn in range(ALIVE):
        same_file(place, f"printed-{queue_name(turn)}", bytes_of(turn, LENGTH))
    script = Script()
    ask_jobs(script, listing(jobs))
    script.ask("queues", *listed_queues(), f"ok {ALIVE + 1}")
    script.ask(f"cancel {len(jobs)}", "error full")
    script.ask("checkpoint", "ok")
    change_areas(script, jobs)
    place.print_all(script)
    check_again(place, jobs, document)
    same("the length of the file", os.path.getsize(place.at("spool", "spool.disk")), SIZE)


def listed_queues():
    names = sorted(["lab", *map(queue_name, range(ALIVE))])
    return [f'queue {name} 3 accepting {TYPE} abort-job 30 5 none ""' for name in names]


def change_areas(script, jobs):
    """In the other area: the open document is closed, and a job is created."""
    number = len(jobs)
    script.ask(f"close {number} page", f"ok type {TYPE} stages 1")
    jobs[-1] = (*jobs[-1][:2], "3 none")
    script.submit(number + 1, "alive1", bytes_of(9, LENGTH))
    jobs.append(("alive1", LENGTH, "3 none"))
    ask_jobs(script, listing(jobs))


def check_again(place, jobs, document):
    """The acknowledged jobs exist, and are printed."""
    script = Script()
    ask_jobs(script, listing(jobs))
    script.ask("round", "ok started 2 finished 2")
    for turn in (-1, -2):
        jobs[turn] = (*jobs[turn][:2], DONE)
    ask_jobs(script, listing(jobs))
    place.print_all(script)
    same_file(place, "printed-alive0", document)
    same_file(place, "printed-alive1", bytes_of(9, LENGTH))
    script = Script()
    ask_jobs(script, listing(jobs))
    script.ask("queues", *listed_queues(), f"ok {ALIVE + 1}")
    script.ask("checkpoint", "ok")
    place.print_all(script)
    script = Script()
    ask_jobs(script, listing(jobs))
    place.print_all(script)


@within(4_000)
def test_gibibyte_made(place):
    """The program creates a spool of 1 GiB, and continues in its second area. A byte more, and one below 4,096, is refused."""
    for size in ("4095", str(SIZE + 1)):
        ran = place.run([SHELL, "--root", "spool", "--size", size])
        same(f"the status of --size {size}", (ran.status, ran.output), (2, b""))
    same("the created files", os.listdir(place.at("spool")), [])
    script = Script()
    script.ask(f"queue lab spoolfile:/out {TYPE} abort-job", "ok")
    script.ask("checkpoint", "ok")
    script.ask('create lab ann "" 1 50 ""', "ok job 1")
    place.serve(script, "--size", str(SIZE))
    name = place.at("spool", "spool.disk")
    same("the length of the file", os.path.getsize(name), SIZE)
    wanted = [Head(0).payload(), Queue("lab", "spoolfile:/out", TYPE).payload(), created("lab", 1)]
    with open(name, "rb") as file:
        same("the current area", current_base(file, SIZE), HALF)
    same("its payloads", current_payloads(name), wanted)


@within(8_000)
def test_gibibyte_file(place):
    """A spool of 1 GiB in a file, with the first area filled up to its end, and then with the second one."""
    place.tool("backend", "spoolfile")
    for base in (0, HALF):
        used_to_the_end(place, base)


@within(1_055_000)
def test_gibibyte_in_memory(place):
    """A spool of 1 GiB in memory takes sends until its first area is full, and continues in the second one."""
    script = Script()
    script.ask(f"queue lab spoolfile:/out {TYPE} abort-job", "ok")
    at = HEADER + FRAME + len(Queue("lab", "spoolfile:/out", TYPE).event())
    piece = bytes_of(1, SEND)
    jobs = []
    while True:
        number, size = len(jobs) + 1, 0
        script.ask('create lab ann "" 1 50 ""', f"ok job {number}")
        at += FRAME + len(created("lab", number))
        while size < SENDS * SEND and at + FRAME + 9 + SEND + 7 <= HALF:
            size += SEND
            script.send(number, piece, f"ok bytes {size}")
            at += FRAME + 9 + SEND
        jobs.append(("lab", size, "7 canceled"))
        if size < SENDS * SEND:
            break
        script.ask(f"cancel {number}", "ok")
        at += FRAME + len(cancel(number))
    script.send(number, piece, "error full")
    script.ask(f"cancel {number}", "ok")
    ask_jobs(script, listing(jobs))
    script.ask("checkpoint", "ok")
    ask_jobs(script, listing(jobs))
    script.submit(number + 1, "lab", piece * SENDS)
    jobs.append(("lab", SENDS * SEND, "3 none"))
    ask_jobs(script, listing(jobs))
    place.serve(script, "--size", str(SIZE), root=False)
