"""Journals of events, and the table that the shell loads from them.

The journals are written by harness/journal.py, a second encoder of the formats. The effects of the events are checked in the listing that a checkpoint writes. Events
that no command causes, such as the start of a job out of order, are tried too: an event that the table refuses is reported as damage at its
gate. A job is the next one of its queue if its start is accepted and that of each other job is refused.
"""
from dataclasses import replace

import pytest

from harness import journal
from harness.checks import same
from harness.journal import (abandon, aborted, cancel, CANCELED, clock, close, COMPLETED, Head, held, hold, image, incoming, Job, LOST,
                             NO_START, Piece, purge, Queue, release, REOPEN, send, set_accept, set_stop, SIGNAL, stage, start, until,
                             waiting)
from harness.stories import closed_job, FIRST, GREATEST, GREATEST_NUMBER, HALL, LAB, of_lab, of_q, Q, SIZE, Spool, Story

pytestmark = pytest.mark.needs("spool_shell")


# A backend's report on its device and its pages, and its effects.
SAYS = "#!/bin/sh\nprintf 'STATE: +toner-low,door-open\\nPAGE: 1 2\\nATTR: marker-levels=5\\nINFO: hello\\nPAGE: total 9\\n' >&2\n"
EFFECTS = (journal.add_reasons("toner-low", "door-open"), journal.pages(1, 2), journal.attribute("marker-levels", "5"),
           journal.message("hello"), journal.total_pages(9))


def test_each_command_is_its_event(room):
    spool = Spool(room, image(SIZE))
    backend = spool.with_file("backend", SAYS, 0o700)
    words = spool.options(types="a/a x\n", convs="a/a a/b 10 f\n", programs=f"filter f /bin/true\nbackend s {backend}\n")
    lab = Queue("lab", uri="s:/dev", policy="stop-printer", interval=60, limit=7)
    job = of_lab(1, user="ann", title="A title", copies=3, priority=80, options="collate=false note=a\\ b")
    octets = "application/octet-stream"
    story = (
        ("queue lab s:/dev a/b stop-printer 60 7", "ok", [lab.event()]),
        ('info lab Laser "Room 5"', "ok", [journal.info("lab", "Laser", "Room 5")]),
        ("reject lab", "ok", [set_accept("lab", False)]),
        ("accept lab", "ok", [set_accept("lab", True)]),
        ("disable lab", "ok", [set_stop("lab", True)]),
        ("enable lab", "ok", [set_stop("lab", False)]),
        ("create lab ann \"A title\" 3 80 \"nocollate note='a b'\"", "ok job 1", [job.event()]),
        (b"send 1 5\nhello\n", "ok bytes 5", [send(1, b"hello")]),
        ("hold 1 indefinite", "ok", [hold(1)]),
        ("release 1", "ok", [release(1)]),
        ("hold 1 100", "ok", [hold(1, 100)]),
        ("close 1 f.x", "ok type a/a stages 2", [close(1, ["f"], media="a/a")]),
        ("clock 100", "ok", [clock(100)]),
        ("round", "ok started 1 finished 1", [start(1), stage(1, 1, 1, 0)]),
        ("abandon 1", "ok", [abandon(1)]),
        ("enable lab", "ok", [set_stop("lab", False)]),
        ("drain 3", "ok rounds 3", [start(1), stage(1, 2, 1, 0), stage(1, 2, 2, 0, *EFFECTS)]),
        ('create lab u "" 1 50 ""', "ok job 2", [of_lab(2).event()]),
        ("close 2 f", f"ok type {octets} unprintable", [close(2, None, media=octets)]),
        ('create lab u "" 1 50 ""', "ok job 3", [of_lab(3).event()]),
        ("cancel 3", "ok", [cancel(3)]),
        ('createby lab u "" 1 50 nocollate 99', "ok job 4", [of_lab(4, options="collate=false", by=99).event()]),
        (b"send 4 1\n!\n", "ok bytes 1", [send(4, b"!")]),
        ("close 4 f.x", "ok type a/a stages 2", [close(4, ["f"], media="a/a")]),
        ("clock 50", "ok", [clock(50)]),
        ("purge 3", "ok", [purge(3)]),
    )
    spool.says(*[(command, reply) for command, reply, _ in story], words=words)
    same("the journal", journal.current(spool.content())[0], [event for _, _, events in story for event in events])
    reported = replace(lab, info="Laser", location="Room 5", message="hello", reasons=("door-open", "toner-low"),
                   attributes=(("marker-levels", "5"),))
    done = replace(job, media="a/a", filters=("f",), attempts=2, pages=9, size=5, phase=COMPLETED)
    # The fourth has a start deadline that has passed, and the clock that moves back cancels it.
    late = of_lab(4, options="collate=false", media="a/a", filters=("f",), size=1, phase=CANCELED, by=99)
    same("the rows", spool.listing(), [Head(4, 100), reported, done, of_lab(2, media=octets, phase=aborted("no-filter")), late])


def test_a_65th_queue(room):
    queues = [Queue("q" * count, policy="retry-job") for count in range(1, 65)]
    story = Story(room, *[queue.event() for queue in queues], size=32_768)
    story.refuses(LAB.event(), queues[0].event())
    story.lists(Head(0), *queues)
    Story(room, Head(0), *queues, size=32_768).refuses(Queue("r"), Queue("r").event())


def test_queues_created_and_changed(room):
    story = Story(room)
    notes = journal.info("lab", "Laser", "Room 5")
    story.refuses(notes, set_accept("lab", False), set_accept("lab", True), set_stop("lab", True), set_stop("lab", False))
    lab = Queue("lab", uri="socket://printer", target="application/postscript", policy="retry-job")
    story.takes(lab.event())
    story.lists(Head(0), lab)
    story.refuses(lab.event(), Queue("lab").event(), Job(1, "hall").event())
    story.takes(notes)
    lab = replace(lab, info="Laser", location="Room 5")
    story.lists(Head(0), lab)
    for change, changed in ((set_stop("lab", True), replace(lab, stopped=True)), (set_stop("lab", False), lab),
                            (set_accept("lab", False), replace(lab, accepting=False))):
        story.takes(change)
        story.lists(Head(0), changed)
    story.refuses(of_lab(1).event())
    story.takes(set_accept("lab", True), of_lab(1, user="ann").event())
    story.lists(Head(1), lab, of_lab(1, user="ann"))


def test_jobs_filled_closed_and_canceled(room):
    story = Story(room, LAB.event(), of_lab(1, user="ann").event(), send(1, b"hello"), send(1, b" you"))
    story.refuses(of_lab(1).event())
    story.lists(Head(1), LAB, of_lab(1, user="ann", size=9), Piece(1, b"hello you"))
    story.takes(close(1, ["texttops"]))
    first = of_lab(1, user="ann", size=9, media="a/b", filters=("texttops",), phase=waiting())
    story.lists(Head(1), LAB, first, Piece(1, b"hello you"))
    story.refuses(send(1, b"!"), close(1), close(1, None))
    story.takes(HALL.event(), of_lab(3).event(), send(3, b"hello"), Job(7, "hall").event())
    story.refuses(cancel(9), send(9, b"hello"), close(9, None), of_lab(2).event(), of_lab(7).event())
    story.takes(close(3, None))
    third = of_lab(3, size=5, media="a/b", phase=aborted("no-filter"))
    story.lists(Head(7), HALL, LAB, first, Piece(1, b"hello you"), third, Job(7, "hall"))
    story.takes(cancel(1))
    for job in (1, 3):
        story.refuses(cancel(job), send(job, b"!"), close(job), hold(job), hold(job, 9), release(job), start(job))
        story.refuses(stage(job, 1, 1, 0), abandon(job))
    story.takes(of_lab(GREATEST_NUMBER).event())
    story.refuses(of_lab(GREATEST_NUMBER).event(), of_lab(8).event())
    first = replace(first, phase=CANCELED)
    story.lists(Head(GREATEST_NUMBER), HALL, LAB, first, third, Job(7, "hall"), of_lab(GREATEST_NUMBER))
    story.spool().says(('create lab u "" 1 50 ""', "error 9 NoNumberLeft"))


def test_jobs_held_and_released(room):
    story = Story(room, clock(43_200), clock(0), LAB.event(), of_lab(1).event())
    story.refuses(release(1), hold(9), release(9))
    story.takes(hold(1))
    story.lists(Head(1, 43_200), LAB, of_lab(1, phase=incoming(held())))
    story.takes(close(1))
    story.lists(Head(1, 43_200), LAB, of_lab(1, media="a/b", phase=waiting(held())))
    story.takes(release(1))
    first = of_lab(1, media="a/b", phase=waiting())
    story.lists(Head(1, 43_200), LAB, first)
    story.takes(of_lab(2).event(), hold(2, 43_300))
    story.lists(Head(2, 43_200), LAB, first, of_lab(2, phase=incoming(until(43_300))))
    story.takes(clock(43_299), release(2))
    story.lists(Head(2, 43_299), LAB, first, of_lab(2))
    story.takes(hold(2, 43_400), clock(43_400))
    story.refuses(release(2))
    story.lists(Head(2, 43_400), LAB, first, of_lab(2, phase=incoming(until(43_400))))


def test_the_longest_document(room):
    part = b"x" * 65_536
    story = Story(room, LAB.event(), of_lab(1).event(), *[send(1, part)] * 256, size=67_108_864)
    story.refuses(send(1, b"!"))
    story.lists(Head(1), LAB, of_lab(1, size=16_777_216), *[Piece(1, part)] * 256)


def test_the_next_job_is_chosen_and_started(room):
    lab = Queue("lab")
    story = Story(room, lab.event(), of_lab(1).event())
    story.refuses(start(1), abandon(1), stage(1, 1, 1, 0))
    story.takes(close(1))
    story.refuses(abandon(1))
    story.takes(*closed_job(2, ["texttops", "pstops"], priority=80), *closed_job(3, priority=80))
    story.starts(2, 1, 3)
    story.takes(set_stop("lab", True))
    story.refuses(start(1), start(2), start(3))
    story.takes(set_stop("lab", False))
    story.starts(2, 1, 3)
    story.takes(hold(2, 60))
    story.starts(3, 1, 2)
    story.takes(clock(60))
    story.starts(2, 1, 3)
    # Its three stages run in order, with no other job of the queue in between.
    story.takes(start(2))
    story.refuses(start(1), start(3), start(2), hold(2), release(2))
    story.refuses(stage(2, 1, 2, 0), stage(2, 2, 1, 0), stage(1, 1, 1, 0))
    story.takes(stage(2, 1, 1, 0))
    story.refuses(stage(2, 1, 1, 0), stage(2, 1, 3, 0), start(3))
    story.takes(stage(2, 1, 2, 0))
    story.refuses(stage(2, 1, 2, 0), stage(2, 2, 3, 0))
    story.takes(stage(2, 1, 3, 0))
    story.refuses(start(2), stage(2, 1, 3, 0))
    second = of_lab(2, priority=80, media="a/b", filters=("texttops", "pstops"), attempts=1, phase=COMPLETED)
    first, third = of_lab(1, media="a/b", phase=waiting()), of_lab(3, priority=80, media="a/b", attempts=1)
    story.lists(Head(3, 60), lab, first, second, replace(third, attempts=0, phase=waiting()))
    # After a status of 7 it is tried again first, and after one of 6 after the interval.
    story.takes(start(3), stage(3, 1, 1, 7))
    story.lists(Head(3, 60), lab, first, second, replace(third, phase=waiting(first=True)))
    story.takes(*closed_job(4, priority=90))
    story.starts(3, 1, 4)
    story.takes(start(3), stage(3, 2, 1, 6))
    story.has(replace(third, attempts=2, phase=waiting(not_before=90)))
    story.starts(4, 1, 3)
    story.takes(clock(89), hold(4))
    story.starts(1, 3, 4)
    story.takes(clock(90))
    story.starts(3, 1, 4)


def test_a_held_job_keeps_its_position(room):
    story = Story(room, LAB.event(), *closed_job(1), *closed_job(2), *closed_job(3, priority=80), *closed_job(4))
    first, third = of_lab(1, media="a/b"), of_lab(3, priority=80, media="a/b")
    second, fourth = replace(first, number=2), replace(first, number=4)
    story.runs(3, 1, 2, 4)
    story.takes(hold(3))
    story.has(replace(third, phase=waiting(held())))
    story.starts(1, 2, 3, 4)
    story.takes(hold(1))
    story.starts(2, 1, 3, 4)
    story.takes(hold(2, 100))
    story.has(replace(second, phase=waiting(until(100))))
    story.starts(4, 1, 2, 3)
    story.takes(hold(4, 200))
    story.refuses(*map(start, (1, 2, 3, 4)))
    story.takes(hold(2, 150))
    story.has(*[replace(job, phase=waiting(until(moment))) for job, moment in ((second, 150), (fourth, 200))])
    story.takes(clock(100))
    story.refuses(*map(start, (1, 2, 3, 4)))
    story.takes(clock(150))
    story.starts(2, 1, 3, 4)
    story.takes(release(1))
    story.starts(1, 2, 3, 4)
    story.takes(release(3))
    story.starts(3, 1, 2, 4)
    story.takes(release(4))
    story.has(*[replace(job, phase=waiting()) for job in (first, third, fourth)])
    story.runs(3, 1, 2, 4)
    # The jobs of another queue are not among them, and their holds change nothing here.
    attic = Queue("attic", policy="retry-job")
    story.takes(attic.event(), Job(5, "attic", priority=90).event(), close(5), hold(5))
    story.refuses(start(5))
    story.runs(3, 1, 2, 4)
    story.takes(release(5))
    story.starts(5, 1, 2, 4)
    # A job that is canceled or started no longer waits.
    story.takes(hold(1), cancel(2), start(3))
    story.refuses(*map(start, (1, 2, 3, 4)))
    story.takes(stage(3, 1, 1, 0))
    story.starts(4, 1, 2, 3)
    story.takes(release(1))
    story.runs(1, 4)
    story.takes(hold(1, 300))
    # The order is the same if the table is loaded from its listing.
    again = Story(room, *story.spool().listing())
    again.starts(4, 1)
    again.takes(release(1))
    again.runs(1, 4)


def test_jobs_wait_in_order(room):
    story = Story(room, LAB.event(), of_lab(1).event(), of_lab(2, priority=80).event(), of_lab(3, priority=80).event(),
                  hold(3, 100))
    story.refuses(*map(start, (1, 2, 3)))
    story.takes(close(1))
    story.starts(1, 2, 3)
    story.takes(close(2), close(3))
    story.runs(2, 1)
    story.takes(cancel(2))
    story.starts(1, 2, 3)
    story.takes(clock(100))
    story.runs(3, 1)


def test_a_mark_moves_to_the_front(room):
    lab, attic = Queue("lab", policy="retry-current-job"), Queue("attic", policy="retry-job")
    story = Story(room, lab.event(), attic.event(), *closed_job(1), start(1), of_lab(2, priority=80).event(),
                  of_lab(3, priority=80).event(), Job(4, "attic", priority=90).event(), close(2), close(3), close(4), hold(3, 100))
    story.refuses(start(2), start(3))
    story.takes(stage(1, 1, 1, 1))
    story.has(of_lab(1, media="a/b", attempts=1, phase=waiting(first=True)))
    story.starts(1, 2, 3)
    story.runs(1, 2)
    story.takes(start(1), REOPEN)
    story.has(of_lab(1, media="a/b", attempts=2, phase=waiting(first=True)))
    story.runs(1, 2)
    story.starts(4)
    story.takes(release(3))
    story.runs(1, 2, 3)
    story.takes(cancel(1), cancel(4))
    story.runs(2, 3)
    again = Story(room, *story.spool().listing())
    again.runs(2, 3)
    again.refuses(start(4))
    again.takes(Job(5, "attic", priority=90).event(), close(5))
    again.starts(5)


# ---- jobs with a start deadline

def timed(number, by, queue="lab", **fields):
    """The events of a job that waits and has a start deadline."""
    return Job(number, queue, by=by, **fields).event(), close(number)


def waits(number, by, queue="lab", **fields):
    return Job(number, queue, media="a/b", by=by, **{"phase": waiting(), **fields})


def test_a_deadline_that_has_passed_cancels(room):
    story = Story(room, clock(1_000), LAB.event(), *timed(1, 2_000))
    for moment in (1_000, 2_000):
        story.takes(clock(moment))
        story.lists(Head(1, moment), LAB, waits(1, 2_000))
        story.starts(1)
    story.takes(clock(2_001))
    gone = waits(1, 2_000, phase=CANCELED)
    story.lists(Head(1, 2_001), LAB, gone)
    story.refuses(start(1), cancel(1), hold(1), release(1), send(1, b"!"), close(1), abandon(1))
    story.takes(clock(3_000), REOPEN)
    story.lists(Head(1, 3_000), LAB, gone)
    again = Story(room, Head(1, 3_000), LAB, gone)
    again.refuses(start(1))
    again.lists(Head(1, 3_000), LAB, gone)


def test_deadlines_in_any_order(room):
    # Two with the same deadline, one of another queue, and jobs with none, or with the greatest.
    moments = {1: 500, 2: 300, 3: None, 4: 300, 5: 400, 6: 4_000_000_000_000, 7: 300, 8: 0}
    queues = {5: "hall", 7: "hall"}
    story = Story(room, LAB.event(), HALL.event())
    for number, by in moments.items():
        story.takes(*timed(number, by, queues.get(number, "lab")))
    tables = [story, Story(room, *story.spool().listing())]
    for now in (0, 1, 300, 301, 400, 401, 500, 501, 4_000_000_000_000):
        rows = [waits(number, by, queues.get(number, "lab"), phase=CANCELED if by is not None and by < now else waiting())
                for number, by in moments.items()]
        for table in tables:
            table.takes(clock(now))
            table.lists(Head(8, now), HALL, LAB, *rows)
        # One step of the clock has the same effect as several.
        Story(room, *tables[0].payloads[:18], clock(now)).lists(Head(8, now), HALL, LAB, *rows)
        left = {row.number for row in rows if row.phase == waiting()}
        for table in tables:
            table.runs(*sorted(left - set(queues)))
            table.runs(*sorted(left & set(queues)))


def test_only_waiting_jobs_are_canceled(room):
    # All with one deadline: incoming, held while incoming, waiting, held, held until a moment, processing, completed, canceled, aborted.
    spare = Queue("spare")
    begun = (LAB.event(), HALL.event(), spare.event(), of_lab(1, by=50).event(), send(1, b"abc"), of_lab(2, by=50).event(), hold(2),
             *timed(3, 50), *timed(4, 50), hold(4), *timed(5, 50), hold(5, 10_000), *timed(6, 50, "hall"), start(6),
             *timed(7, 50, "spare"), start(7), stage(7, 1, 1, 0), *timed(8, 50), cancel(8), of_lab(9, by=50).event(), close(9, None))
    story = Story(room, *begun)
    # Opening the listing loses the attempt of job 6, so its end is checked here.
    story.takes(clock(51), stage(6, 1, 1, 5))
    rows = [of_lab(1, by=50, size=3), Piece(1, b"abc"), of_lab(2, by=50, phase=incoming(held())),
            *[waits(number, 50, phase=CANCELED) for number in (3, 4, 5)], waits(6, 50, "hall", attempts=1, phase=CANCELED),
            waits(7, 50, "spare", attempts=1, phase=COMPLETED), waits(8, 50, phase=CANCELED),
            waits(9, 50, phase=aborted("no-filter"))]
    story.lists(Head(9, 51), HALL, LAB, spare, *rows)
    story = Story(room, *begun, clock(51))
    story.takes(stage(6, 1, 1, 0))
    story.has(waits(6, 50, "hall", attempts=1, phase=COMPLETED))
    # The incoming job waits once it is closed, until the time is set again.
    story.takes(close(1), close(2))
    story.has(waits(1, 50, size=3), Piece(1, b"abc"), waits(2, 50, phase=waiting(held())))
    story.starts(1)
    story.takes(clock(51))
    story.has(waits(1, 50, size=3, phase=CANCELED), waits(2, 50, phase=CANCELED))
    story.refuses(start(1), start(2), Piece(1, b"abc"))


def test_deadlines_before_the_current_time(room):
    for back in (1_000, 999, 0):
        story = Story(room, clock(1_000), LAB.event(), of_lab(1, by=999).event())
        story.takes(clock(back), send(1, b"abc"), clock(back))
        story.lists(Head(1, 1_000), LAB, of_lab(1, by=999, size=3), Piece(1, b"abc"))
        story.takes(close(1))
        story.lists(Head(1, 1_000), LAB, waits(1, 999, size=3), Piece(1, b"abc"))
        story.starts(1)
        # A clock that moves back, or not at all, also sets the time again.
        story.takes(clock(back))
        story.lists(Head(1, 1_000), LAB, waits(1, 999, size=3, phase=CANCELED))
    # A deadline that is now has not passed.
    story = Story(room, clock(1_000), LAB.event(), *timed(1, 1_000), clock(0), clock(1_000))
    story.lists(Head(1, 1_000), LAB, waits(1, 1_000))


def test_a_deadline_never_changes(room):
    lab = Queue("lab", policy="retry-current-job", interval=100)
    story = Story(room, lab.event(), *timed(1, 500), hold(1))
    story.has(waits(1, 500, phase=waiting(held())))
    story.takes(release(1), hold(1, 40), clock(30))
    story.has(waits(1, 500, phase=waiting(until(40))))
    story.takes(release(1), start(1), clock(100), stage(1, 1, 1, 6))
    tried = waits(1, 500, attempts=1, phase=waiting(not_before=200))
    story.lists(Head(1, 100), lab, tried)
    story.takes(clock(200), start(1), stage(1, 2, 1, 7))
    story.lists(Head(1, 200), lab, replace(tried, attempts=2, phase=waiting(first=True)))
    story.takes(start(1), stage(1, 3, 1, 2), set_stop("lab", True), set_accept("lab", False))
    story.lists(Head(1, 200), replace(lab, stopped=True, accepting=False),
                replace(tried, attempts=3, phase=waiting(held("cups-held-for-authentication"))))
    story.takes(set_stop("lab", False), release(1), start(1))
    # It is printed while its deadline passes, and waits again afterwards: the next clock cancels it.
    story.takes(clock(501))
    running = story.payloads
    for end, phase in ((abandon(1), waiting(first=True)), (REOPEN, waiting(first=True)), (stage(1, 4, 1, 6), waiting(not_before=601)),
                       (stage(1, 4, 1, 3), waiting(held("held-by-backend")))):
        story = Story(room, *running, end)
        story.has(replace(tried, attempts=4, phase=phase))
        story.takes(clock(0))
        story.has(replace(tried, attempts=4, phase=CANCELED))
    Story(room, *running, stage(1, 4, 1, 0), clock(600)).has(replace(tried, attempts=4, phase=COMPLETED))


def test_many_deadlines(room):
    size, count = 1_048_576, 2_000
    by = [None if number % 7 == 0 else number * 7_919 % 1_009 for number in range(count + 1)]
    events = [LAB.event()]
    for number in range(1, count + 1):
        events += timed(number, by[number], priority=number % 3 + 1)
    tables = [events, Story(room, *events, size=size).spool().listing()]
    for now in (1, 500, 1_010):
        rows = [waits(number, by[number], priority=number % 3 + 1, phase=CANCELED if by[number] is not None and by[number] < now else waiting())
                for number in range(1, count + 1)]
        for table in tables:
            story = Story(room, *table, clock(now), size=size)
            same("the listing is its rows", story.spool().listing() == [Head(count, now), LAB, *rows], True)


# The outcome of a job whose attempt is lost at the moment 1000, by its queue's policy and limit, and whether the queue stops.
LOST_ATTEMPTS = (
    ("abort-job", 5, aborted("attempt-lost"), False),
    ("retry-job", 5, waiting(not_before=1_030), False),
    ("retry-job", 1, aborted("retry-limit"), False),
    ("retry-current-job", 5, waiting(first=True), False),
    ("stop-printer", 5, waiting(), True),
)


def test_a_lost_attempt(room):
    for policy, limit, phase, stopped in LOST_ATTEMPTS:
        queue = Queue("q", policy=policy, limit=limit)
        job = of_q(1, media="a/b", phase=waiting())
        # An idle table is unchanged.
        story = Story(room, queue.event(), clock(1_000), of_q(1).event(), close(1), REOPEN)
        story.lists(Head(1, 1_000), queue, job)
        story.takes(start(1))
        spool = story.spool()
        spool.says(("clock 2000", "ok"))
        same("the journal", journal.current(spool.content())[0], story.payloads + [REOPEN, clock(2_000)])
        rows = [replace(queue, stopped=stopped), replace(job, attempts=1, phase=phase)]
        same("the rows", spool.listing(), [Head(1, 2_000), *rows])
        story.lists(Head(1, 1_000), *rows)
        # The same applies if the job is given up, and the moment of the first opening counts.
        for lost in (REOPEN, abandon(1)):
            Story(room, *story.payloads, lost).lists(Head(1, 1_000), *rows)
            Story(room, *story.payloads, lost, clock(2_000), REOPEN).lists(Head(1, 2_000), *rows)


# The outcome of a job whose last stage ends at the moment 1000, by its child's exit, and whether the queue stops; otherwise by the queue's
# policy.
BY_EXIT = {
    0: (COMPLETED, False),
    2: (waiting(held("cups-held-for-authentication")), False),
    3: (waiting(held("held-by-backend")), False),
    4: (waiting(), True),
    5: (CANCELED, False),
    6: (waiting(not_before=1_030), False),
    7: (waiting(first=True), False),
}
BY_POLICY = {
    "abort-job": (aborted("backend-failed"), False),
    "retry-job": (waiting(not_before=1_030), False),
    "retry-current-job": (waiting(first=True), False),
    "stop-printer": (waiting(), True),
}
EXITS = (0, 1, 2, 3, 4, 5, 6, 7, 8, 255, SIGNAL, NO_START, LOST)


def test_each_end_of_a_stage(room):
    for policy in journal.POLICIES:
        queue = Queue("q", policy=policy)
        events = [queue.event(), clock(1_000), of_q(1).event(), close(1, ["f"]), start(1)]
        job = of_q(1, media="a/b", filters=("f",), attempts=1)
        for code in EXITS[1:]:
            early = Story(room, *events, stage(1, 1, 1, code))
            early.lists(Head(1, 1_000), queue, replace(job, phase=aborted("filter-failed")))
        for code in EXITS:
            phase, stopped = BY_EXIT.get(code, BY_POLICY[policy])
            late = Story(room, *events, stage(1, 1, 1, 0), stage(1, 1, 2, code))
            late.lists(Head(1, 1_000), replace(queue, stopped=stopped), replace(job, phase=phase))


def test_attempts_reach_the_limit(room):
    spent = aborted("retry-limit")
    for policy in journal.POLICIES:
        queue = Queue("q", policy=policy, limit=2)
        job = of_q(1, media="a/b", attempts=1, phase=waiting())
        for code in (6, 7):
            story = Story(room, Head(1), queue, job, start(1), stage(1, 2, 1, code))
            story.lists(Head(1), queue, replace(job, attempts=2, phase=spent))
        for code in (2, 3, 4):
            story = Story(room, Head(1), queue, job, start(1), stage(1, 2, 1, code))
            phase, stopped = BY_EXIT[code]
            story.lists(Head(1), replace(queue, stopped=stopped), replace(job, attempts=2, phase=phase))


def test_attempts_at_their_greatest(room):
    spent = aborted("retry-limit")
    for policy in journal.POLICIES:
        queue = Queue("q", policy=policy, limit=0)
        job = of_q(1, media="a/b", attempts=GREATEST - 1, phase=waiting())
        story = Story(room, Head(1), queue)
        story.refuses(replace(job, attempts=GREATEST))
        story.takes(job)
        story.refuses(stage(1, GREATEST, 1, 0))
        story.takes(start(1))
        story.refuses(stage(1, GREATEST - 1, 1, 0), start(1))
        ended = replace(job, attempts=GREATEST)
        lost = aborted("attempt-lost") if policy == "abort-job" else spent
        story.lists(Head(1), queue, replace(ended, phase=lost))
        for code in EXITS:
            phase = {0: COMPLETED, 5: CANCELED}.get(code, spent)
            if policy == "abort-job" and code not in BY_EXIT:
                phase = aborted("backend-failed")
            late = Story(room, *story.payloads, stage(1, GREATEST, 1, code))
            late.lists(Head(1), queue, replace(ended, phase=phase))
            late.refuses(start(1))


def test_effects_precede_the_verdict(room):
    lab = Queue("lab", policy="stop-printer")
    story = Story(room, lab.event(), HALL.event(), of_lab(1).event(), close(1, ["texttops"]), start(1),
                  stage(1, 1, 1, 0, journal.add_reasons("media-empty", "toner-low"), journal.pages(1, 2), journal.total_pages(9)))
    # The program loses the attempt of the job that is processing, and stops its queue.
    reported = replace(lab, reasons=("media-empty", "toner-low"), stopped=True)
    job = of_lab(1, media="a/b", filters=("texttops",), attempts=1, pages=9, phase=waiting())
    story.lists(Head(1), HALL, reported, job)
    story.takes(stage(1, 1, 2, 1, journal.pages(2, GREATEST), journal.attribute("marker-levels", "5"),
                      journal.attribute("marker-colors", "a b"), journal.message("one"), journal.drop_reasons("toner-low"),
                      journal.message("two")))
    reported = replace(reported, reasons=("media-empty",), attributes=(("marker-colors", "a b"), ("marker-levels", "5")), message="two")
    story.lists(Head(1), HALL, reported, replace(job, pages=GREATEST))
    story.takes(set_stop("lab", False), start(1))
    story.lists(Head(1), HALL, reported, replace(job, attempts=2, pages=0))
    story.takes(stage(1, 2, 1, 0, journal.set_reasons("paused"), journal.pages(1, 3), journal.message("")))
    reported = replace(reported, reasons=("paused",), message="")
    story.lists(Head(1), HALL, reported, replace(job, attempts=2, pages=3))
    story.takes(stage(1, 2, 2, 0, journal.pages(1, 4)))
    story.lists(Head(1), HALL, replace(reported, stopped=False), replace(job, attempts=2, pages=7, phase=COMPLETED))


def test_effects_outlive_the_program(room):
    ended = stage(1, 1, 1, 0, journal.add_reasons("media-empty", "toner-low"), journal.pages(1, 2), journal.total_pages(9))
    story = Story(room, *FIRST, start(1), ended)
    rows = [Head(1), replace(Q, reasons=("media-empty", "toner-low")), of_q(1, media="a/b", attempts=1, pages=9, phase=COMPLETED)]
    story.lists(*rows)
    Story(room, *rows).lists(*rows)
    spool = story.spool()
    for _ in range(2):
        spool.says(("queues", ['queue q 3 accepting a/b abort-job 30 5 media-empty,toner-low ""', "ok 1"]),
                   ("jobs", ['job 1 q 9 job-completed-successfully "u" 0 9 ""', "ok 1"]), ("checkpoint", "ok"))


def test_a_completed_job_is_not_started_again(room):
    story = Story(room, *FIRST, start(1), stage(1, 1, 1, 0))
    for _ in range(3):
        story.refuses(start(1), stage(1, 1, 1, 0), abandon(1))
        story.has(of_q(1, media="a/b", attempts=1, phase=COMPLETED))
        story.takes(REOPEN)
    again = Story(room, *story.spool().listing())
    again.refuses(start(1), stage(1, 1, 1, 0), abandon(1))


def test_jobs_are_purged(room):
    # Incoming, waiting, processing, completed, canceled, aborted.
    story = Story(room, LAB.event(), Q.event(), of_lab(1).event(), of_lab(2).event(), close(2), of_q(3).event(), close(3), start(3))
    story.takes(stage(3, 1, 1, 0), of_q(4).event(), close(4), start(4), of_lab(5).event(), cancel(5), of_lab(6).event(), close(6, None))
    story.refuses(purge(1), purge(2), purge(4), purge(7), purge(GREATEST_NUMBER))
    for job in (6, 3, 5):
        story.takes(purge(job))
        story.refuses(purge(job), cancel(job), send(job, b"!"), close(job), start(job), of_lab(job).event())
    story.takes(REOPEN, cancel(1), cancel(2), purge(1), purge(2))
    # The highest number remains, also after a checkpoint.
    again = Story(room, *story.spool().listing())
    for table in (story, again):
        table.refuses(*(of_lab(job).event() for job in range(1, 7)), *(purge(job) for job in (1, 2, 3, 5, 6)))
        table.takes(of_lab(7).event())


def test_three_thousand_events(room):
    size = 1_048_576
    events = [Q.event()]
    for number in range(1, 1_001):
        events += [of_q(number).event(), cancel(number), clock(number)]
    rows = [Head(1_000, 1_000), Q, *[of_q(number, phase=CANCELED) for number in range(1, 1_001)]]
    for payloads in (events, rows):
        story = Story(room, *payloads, size=size)
        same("the listing is its rows", story.spool().listing() == rows, True)
