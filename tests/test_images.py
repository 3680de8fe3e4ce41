"""Spools with any bytes: what the shell replies, and the files that it leaves.

The files are written by harness/journal.py, a second encoder of the formats. A file that no spool writes must be refused with `spool: damaged
PLACE`, the place of the gate, and stays unchanged. For any other file the replies, the standard error, the status and the resulting bytes
must be the expected ones: for headers, gates and records, for the rows of a listing, for areas of either version, and after commands,
checkpoints and openings.
"""
import os
from dataclasses import replace

import pytest

from harness import journal
from harness.checks import same
from harness.journal import (aborted, cancel, CANCELED, clock, close, COMPLETED, Head, held, hold, image, incoming, Job, Piece,
                             processing, purge, Queue, REOPEN, send, stage, start, until, waiting)
from harness.stories import (CREATE, FIRST, FIRST_ROWS, GREATEST, GREATEST_NUMBER, LAB, of_lab, of_q, Q, QUEUE, QUEUES, SIZE, spelled,
                             Spool, Story)

pytestmark = pytest.mark.needs("spool_shell")


# ---- files that are not spools, or are damaged

def test_zeros_are_no_spool(room):
    Spool(room, bytes(198)).is_refused("not-a-spool")


def test_other_bytes_in_a_fresh_spool(room):
    fresh = image(198)
    for at, words, fault in (
        (16, "A5 00 00 00 01 7F 00", "damaged 16"),
        (16, "A5 00 00 01 00", "damaged 16"),
        (16, "A5 00 00 00 05 0A 00 00 00 01 00", "damaged 16"),
        (1, "09", "damaged 0"),
        (0, "00", "not-a-spool"),
        (99, fresh[:16].hex(), "not-a-spool"),
        (99, "A5 02 00 00 00 00 00 00 00 02 00 00 00 00 00 01", "damaged 99"),
        (99, "A5 01 00 00 00 00 00 00 00 02 00 00 00 00 00 01", "damaged 99"),
    ):
        changed = bytes.fromhex(words)
        Spool(room, fresh[:at] + changed + fresh[at + len(changed):]).is_refused(fault)
    Spool(room, bytes(45)).is_refused("not-a-spool")


def test_two_areas_of_23_bytes(room):
    Spool(room, image(45)).is_refused("not-a-spool")
    spool = Spool(room, image(46))
    spool.says(("queues", "ok 0"), ("jobs", "ok 0"), ("clock 0", "error full"), ("checkpoint", "error full"))


def test_an_empty_spool(room):
    spool = Spool(room, image(198))
    spool.says(("jobs", "ok 0"), ("queues", "ok 0"))
    same("the file", spool.content(), image(198))


def test_one_header_is_the_newest(room):
    half = 99
    second = journal.area(half, 2, [Head(0, 5).payload()])
    # Of two open headers the one with the higher epoch counts. The other area may contain anything after its header.
    for first in (journal.area(half, 1, [clock(3)]), journal.area(half, 1, [b"\x7f"])):
        for content in (first + second, second + first):
            spool = Spool(room, content.ljust(198, b"\0"))
            same("the rows", spool.listing(), [Head(0, 5)])
            same("the area that was current", second in journal.halves(spool.content()), True)
    # No open header, or two of one epoch.
    Spool(room, journal.area(half, 1, [], gate=0) + journal.area(half, 2, [], gate=1)).is_refused("not-a-spool")
    Spool(room, journal.area(half, 7, []) + journal.area(half, 7, [])).is_refused("not-a-spool")


def test_a_header_of_another_form_is_damage(room):
    half = 99
    for at, byte in ((1, 0), (1, 3), (1, 9), (10, 1), (15, 1)):
        for area, place, version in ((0, 0, 2), (1, half, 2), (0, 0, 1), (1, half, 1)):
            halves = [journal.area(half, epoch, [], version=version) for epoch in (1, 2)]
            halves[area] = halves[area][:at] + bytes([byte]) + halves[area][at + 1:]
            Spool(room, b"".join(halves)).is_refused(f"damaged {place}")


def test_any_closed_gate(room):
    # The record of the clock at 1000, followed by a gate at 30.
    for closed in (0x00, 0x01, 0x07, 0x5A, 0xA4, 0xA6, 0xFF):
        spool = Spool(room, image(198, [clock(1_000)], closed=closed))
        spool.says(("clock 1001", "ok"))
        same("the file", spool.content(), image(198, [clock(1_000), clock(1_001)]))
        same("the next record", spool.content()[30:45].hex(), "a5000000090b00000000000003e900")
        same("the rows", spool.listing(), [Head(0, 1_001)])
    # Bytes after it do not count.
    behind = image(198, [clock(1_000)])[:30] + b"\0" + journal.record(clock(9)) + b"\xA5\xFF"
    same("the rows", Spool(room, behind.ljust(198, b"\0")).listing(), [Head(0, 1_000)])


def test_an_unknown_kind_is_damage(room):
    story = Story(room, clock(0), size=198)
    story.spool(b"\x7f").is_refused("damaged 30")
    story.refuses(b"\x7f", b"\x00", b"\x3f", b"")


def test_a_refused_event_is_damage(room):
    story = Story(room, size=198)
    story.spool(cancel(1)).is_refused("damaged 16")


def test_a_record_of_another_length_is_damage(room):
    story = Story(room, *FIRST)
    story.refuses(cancel(1)[:-1], cancel(1) + b"\0", start(0), hold(1, 4_000_000_000_001), clock(4_000_000_000_001))
    # It extends beyond its area, which ends at 99.
    before = image(198, FIRST)
    for length in (12, 13, GREATEST):
        record = b"\xA5" + journal.number(length, 4)
        Spool(room, (before[:82] + record).ljust(198, b"\0")).is_refused("damaged 82")


def test_a_start_needs_seven_bytes(room):
    # The gate after its start is at 92, and the area ends at 98, or at 99.
    started = FIRST + (start(1),)
    Spool(room, image(196, started)).is_refused("damaged 92")
    spool = Spool(room, image(198, started))
    for _ in range(2):
        spool.says(("jobs", ['job 1 q 8 attempt-lost "u" 0 0 ""', "ok 1"]))
        same("the file", spool.content(), image(198, started + (REOPEN,)))
    same("its last record", spool.content()[92:99].hex(), "a5000000010f00")


# ---- rows of a listing

def test_no_rows_are_the_empty_table(room):
    story = Story(room)
    story.lists(Head(0))
    story.refuses(LAB, of_lab(1, media="a/b", phase=waiting()), Piece(1, b"a"), Head(GREATEST_NUMBER + 1))
    Story(room, Head(GREATEST_NUMBER)).lists(Head(GREATEST_NUMBER))


def test_queues_in_their_order(room):
    story = Story(room, Head(9, 100))
    story.refuses(Head(9, 100), of_lab(1, media="a/b", phase=waiting()))
    lab, pit = Queue("lab", reasons=("a", "b"), attributes=(("c", ""), ("d", ""))), Queue("pit")
    story.takes(lab)
    story.refuses(Queue("hall"), lab, Queue("lab"), replace(pit, reasons=("b", "a")), replace(pit, reasons=("a", "a")))
    story.refuses(replace(pit, attributes=(("d", ""), ("c", ""))), replace(pit, attributes=(("c", "1"), ("c", "2"))))
    story.takes(pit)
    story.lists(Head(9, 100), lab, pit)


def test_jobs_in_their_order(room):
    lab, pit = Queue("lab"), Queue("pit")
    story = Story(room, Head(9, 100), lab, pit)
    waits = of_lab(2, media="a/b", phase=waiting())
    runs = of_lab(2, media="a/b", attempts=1, phase=processing(1))
    story.refuses(replace(waits, queue="attic"), replace(waits, phase=incoming()), replace(waits, media=None))
    story.refuses(replace(waits, attempts=GREATEST), replace(runs, attempts=0), replace(runs, media=None))
    story.refuses(replace(runs, phase=processing(0)), replace(runs, phase=processing(2)))
    story.refuses(replace(runs, filters=("f",), phase=processing(3)))
    story.refuses(replace(waits, number=10), replace(waits, number=0), replace(waits, size=16_777_217))
    story.takes(runs)
    story.refuses(Queue("roof"), Head(9, 100), waits, runs, replace(waits, number=1), replace(runs, number=3))
    third, fourth = replace(runs, number=3, queue="pit"), Job(4, "pit", media="a/b", attempts=1, size=7, phase=COMPLETED)
    story.takes(third, fourth)
    story.refuses(Piece(4, b"aaaaaaa"))
    story.takes(of_lab(9))
    lost = [replace(row, phase=aborted("attempt-lost")) for row in (runs, third)]
    story.lists(Head(9, 100), lab, pit, *lost, fourth, of_lab(9))
    story.takes(send(9, b"hello"))
    story.refuses(of_lab(9).event())
    story.takes(of_lab(10).event())
    story.spool().says((b"send 9 1\n!\n", "ok bytes 6"), ('create lab u "" 1 50 ""', "ok job 11"))


def test_rows_out_of_place_are_damage(room):
    head, job, piece = Head(1, 1_000), of_q(1, media="a/b", size=2, phase=waiting()), Piece(1, b"hi")
    # Each list ends with the row or the event that is out of place. A document that is too short is reported at the closed gate.
    for place, rows in (
        (16, [Q]),
        (30, [clock(1_001), head]),
        (34, [head, head]),
        (34, [head, job]),
        (70, [Head(0, 1_000), Q, job]),
        (70, [head, Q, Q]),
        (124, [head, Q, job, Piece(2, b"hi")]),
        (124, [head, Q, job, clock(1_001)]),
        (124, [head, Q, job]),
        (140, [head, Q, job, piece, piece]),
    ):
        Spool(room, image(400, list(map(spelled, rows)))).is_refused(f"damaged {place}")


def test_a_listing_is_its_table(room):
    head, job, piece = Head(1, 1_000), of_q(1, media="a/b", size=2, phase=waiting()), Piece(1, b"hi")
    story = Story(room, head, Q, job, piece, clock(1_001), size=400)
    same("the place of its document", story.spool().content()[138:140], b"hi")
    spool = story.spool()
    spool.says(("jobs", ['job 1 q 3 none "u" 2 0 ""', "ok 1"]), ("queues", QUEUES))
    same("the document", spool.printed(1), b"hi")
    story.lists(Head(1, 1_001), Q, job, piece)
    story.spool().says((CREATE, "ok job 2"))


def test_pieces_form_the_document(room):
    size = 400_000
    whole = b"a" * 65_536 + b"b"
    first = of_lab(1, media="a/b", size=4, phase=waiting())
    second = of_lab(2, media="a/b", size=65_537, phase=waiting())
    begun = Story(room, Head(3), LAB, first, size=size)
    begun.is_short()
    begun.refuses(Piece(1, b"ab"), Piece(1, b"abcde"), Piece(1, b""), Piece(2, b"abcd"), Queue("pit"))
    begun.refuses(of_lab(2, media="a/b", phase=waiting()), Head(3), clock(1))
    story = Story(room, Head(3), LAB, first, Piece(1, b"abcd"), size=size)
    story.refuses(Piece(1, b"a"))
    begun = Story(room, *story.payloads, second, size=size)
    begun.is_short()
    begun.refuses(Piece(2, b"a"), Piece(2, b"a" * 65_535))
    begun = Story(room, *begun.payloads, Piece(2, b"a" * 65_536), size=size)
    begun.is_short()
    begun.refuses(Piece(1, b"b"), Piece(2, b"bb"))
    story.takes(second, *journal.pieces(2, whole))
    story.lists(Head(3), LAB, first, Piece(1, b"abcd"), second, *journal.pieces(2, whole))
    story.runs(1, 2)
    spool = story.spool()
    same("the document", spool.printed(1), b"abcd")
    same("the document", spool.printed(2), whole)


# ---- areas of version 1, and start deadlines

CREATE_BY = 'createby q u "" 1 50 "" 2000'
NO_CHECKPOINT = "error 17 NeedsCheckpoint"
WAITS = 'job 1 q 3 none "u" 0 0 ""'


def test_a_new_area_of_version_one(room):
    # As the program creates an area, except for the version.
    empty = bytes.fromhex("a5010000000000000001000000000000")
    same("the header", image(198, version=1)[:16], empty)
    root = Spool(room, b"")
    os.remove(root.file)
    root.says(("jobs", "ok 0"), words=("--size", "4096"))
    made = root.content()
    same("the created file", made, bytes.fromhex("a5020000000000000001000000000000").ljust(4_096, b"\0"))
    spool = Spool(room, made[:1] + b"\1" + made[2:])
    spool.says((QUEUE, "ok"), (CREATE, "ok job 1"), ("close 1 f.x", "ok type a/b stages 1"), (CREATE_BY, NO_CHECKPOINT),
               ("jobs", [WAITS, "ok 1"]), words=spool.options(types="a/b x\n"))
    same("the file", spool.content(), image(4_096, FIRST, version=1))
    incoming_job = 'job 2 q 4 job-incoming "u" 0 0 ""'
    spool.says(("checkpoint", "ok"), (CREATE_BY, "ok job 2"), ("jobs", [WAITS, incoming_job, "ok 2"]))
    rows = [row.payload() for row in FIRST_ROWS]
    by = of_q(2, by=2_000)
    left = image(4_096, FIRST, version=1)[:2_048] + journal.area(2_048, 2, [*rows, by.event()])
    same("the file", spool.content(), left)
    for _ in range(2):
        spool.says(("jobs", [WAITS, incoming_job, "ok 2"]), ("queues", QUEUES))
        same("the file", spool.content(), left)
    same("the rows", spool.listing(), [Head(2), Q, FIRST_ROWS[2], by])


def test_a_moment_needs_the_newer_version_first(room):
    # Even if something else is wrong too: the queue does not exist, accepts no jobs, or no number is left.
    spool = Spool(room, image(400, version=1))
    spool.says((CREATE_BY, NO_CHECKPOINT), (CREATE, "error 1 NoQueue"), ("checkpoint", "ok"), (CREATE_BY, "error 1 NoQueue"))
    spool = Spool(room, image(600, [Q.event()], version=1))
    spool.says(("reject q", "ok"), (CREATE_BY, NO_CHECKPOINT), (CREATE, "error 4 NotAccepting"), ("checkpoint", "ok"),
               (CREATE_BY, "error 4 NotAccepting"), ("accept q", "ok"), (CREATE_BY, "ok job 1"))
    spool = Spool(room, image(400, [Q.event(), of_q(GREATEST_NUMBER).event()], version=1))
    spool.says((CREATE_BY, NO_CHECKPOINT), (CREATE, "error 9 NoNumberLeft"), ("checkpoint", "ok"), (CREATE_BY, "error 9 NoNumberLeft"))
    # A full spool refuses it with the same error. A command that cannot be parsed gets its own error instead.
    spool = Spool(room, image(46, version=1))
    spool.says((CREATE_BY, NO_CHECKPOINT), ("checkpoint", "error full"), (CREATE_BY, NO_CHECKPOINT),
               (CREATE_BY + "0000000000", "error syntax"), (CREATE_BY.removesuffix(" 2000"), "error syntax"),
               ('createby q u "" 1 50 "c={x=1}" 2000', "error options"))


def test_rows_of_each_version(room):
    head, job = Head(1, 1_000), of_q(1, media="a/b", phase=waiting())
    for version, other in ((1, 2), (2, 1)):
        story = Story(room, head, Q, version=version)
        same("a byte more", len(job.payload(2)), len(job.payload(1)) + 1)
        story.refuses(job.payload(other))
        story.takes(job)
        story.lists(head, Q, job)
        same("the replies", story.spool().lines(["jobs"]), [WAITS, "ok 1"])
    # A moment, and words that are not one.
    story = Story(room, head, Q)
    timed = replace(job, by=2_000)
    same("its bytes", timed.payload()[48:].hex(), "0100000000000007d0")
    story.refuses(timed.payload()[:-1], timed.payload() + b"\0", replace(job, by=4_000_000_000_001))
    story.refuses(job.payload()[:-1] + b"\2", job.payload() + b"\0", job.payload()[:-1] + b"\1")
    for by in (0, 999, 1_000, 2_000, 4_000_000_000_000):
        # A deadline that had passed before its listing was written remains until the time is set again.
        again = Story(room, head, Q, replace(job, by=by))
        again.lists(head, Q, replace(job, by=by))


def test_events_of_each_version(room):
    timed = of_q(2, by=2_000)
    same("its bytes", timed.event()[-8:].hex(), "00000000000007d0")
    for version in journal.VERSIONS:
        story = Story(room, *FIRST, version=version)
        story.refuses(timed.event()[:-1], timed.event() + b"\0", of_q(2, by=4_000_000_000_001).event(), of_q(1, by=9).event(),
                      purge(1), purge(1)[:-1], purge(1) + b"\0", purge(0), b"\x12\0\0\0\1")
    Story(room, *FIRST, version=1).refuses(timed.event())
    Story(room, *FIRST, cancel(1), version=1).refuses(purge(1))
    Story(room, *FIRST, cancel(1)).takes(purge(1))
    story.takes(timed.event())
    story.lists(Head(2), Q, FIRST_ROWS[2], timed)
    story.refuses(timed.event(), of_q(1).event())
    story.takes(of_q(4_000_000, by=0).event(), of_q(4_000_001).event())


def test_areas_of_both_versions(room):
    half = 200
    old, new = of_q(1, media="a/b", phase=waiting()), of_q(1, media="a/b", phase=waiting(), by=5_000)
    # The one of the higher epoch counts, and is read in its own version.
    for base in (0, half):
        for old_epoch, new_epoch in ((1, 2), (2, 1)):
            first = journal.area(half, old_epoch, [row.payload(1) for row in (Head(1, 7), Q, old)], version=1)
            second = journal.area(half, new_epoch, [row.payload() for row in (Head(1, 8), Q, new)])
            spool = Spool(room, first + second if base == 0 else second + first)
            is_old = new_epoch < old_epoch
            spool.says((CREATE_BY, NO_CHECKPOINT if is_old else "ok job 2"))
            # A checkpoint writes the other area.
            same("the rows", spool.listing(), [Head(1, 7), Q, old] if is_old else [Head(2, 8), Q, new, of_q(2, by=2_000)])
            versions = {journal.version_of(area) for area in journal.halves(spool.content())}
            same("the versions", versions, {1, 2} if is_old else {2})


def test_a_first_checkpoint_writes_the_newer_version(room):
    rows = [Head(3, 40), Q, of_q(1, media="a/b", phase=waiting(until(50))), of_q(3, size=5), Piece(3, b"hello")]
    story = Story(room, *rows, version=1)
    # Its contents are carried over unchanged, with each event that version 1 has.
    story.takes(Queue("p").event(), send(3, b"!"), clock(60), hold(1))
    spool = story.spool()
    wanted = [Head(3, 60), Queue("p"), Q, of_q(1, media="a/b", phase=waiting(held())), of_q(3, size=6), Piece(3, b"hello!")]
    before = spool.content()
    same("the rows", spool.listing(), wanted)
    # The old area is unchanged, and the new one replaces it.
    same("the old area", journal.halves(spool.content())[0], journal.halves(before)[0])
    same("the new header", journal.halves(spool.content())[1][:16].hex(), "a5020000000000000002000000000000")
    spool.says((CREATE_BY, "ok job 4"))
    same("the rows", spool.listing(), [Head(4, 60), *wanted[1:], of_q(4, by=2_000)])
    same("both areas are of the newer version", [journal.version_of(half) for half in journal.halves(spool.content())], [2, 2])


def test_a_reopening_keeps_the_older_version(room):
    started = FIRST + (start(1),)
    spool = Spool(room, image(SIZE, started, version=1))
    for _ in range(2):
        spool.says((CREATE_BY, NO_CHECKPOINT), ("jobs", ['job 1 q 8 attempt-lost "u" 0 0 ""', "ok 1"]))
        same("the file", spool.content(), image(SIZE, started + (REOPEN,), version=1))


# ---- the results of checkpoints, commands and openings

def test_a_listing_of_an_empty_table(room):
    spool = Spool(room, image(198))
    spool.says(("checkpoint", "ok"))
    # Its version is 2, its epoch is 2, and the one row is the head: its kind, no number and the moment 0.
    listed = bytes.fromhex("a5020000000000000002000000000000a50000000d4000000000000000000000000000")
    same("the file", spool.content(), image(198)[:99] + listed.ljust(99, b"\0"))
    spool.says(("jobs", "ok 0"))


def test_a_listing_in_pieces(room):
    target = "application/octet-stream"
    queue = Queue("q", target=target)
    for size in (0, 1, 65_535, 65_536, 65_537, 131_072, 150_000):
        document = bytes(at % 251 for at in range(size))
        sends = [send(1, document[at:at + 50_000]) for at in range(0, size, 50_000)]
        spool = Spool(room, image(1_048_576, [queue.event(), of_q(1).event(), *sends]))
        spool.says(("checkpoint", "ok"), ("close 1 x", f"ok type {target} stages 1"))
        rows = [Head(1), queue, of_q(1, size=size), *journal.pieces(1, document)]
        wanted = [row.payload() for row in rows] + [close(1, media=target)]
        same("the journal is its rows and the close", journal.current(spool.content()) == (wanted, 2), True)
        rows[2] = of_q(1, size=size, media=target, phase=waiting())
        same("the next listing is its rows", spool.listing() == rows, True)
        same("the document is given to its backend", spool.printed(1) == document, True)


def test_room_for_one_reopening(room):
    # The rows of the listing take 13, 31 and 49 bytes. An area of 130 bytes has no room for them and a reopening, and one of 131 has
    # exactly that.
    waits = ['job 1 q 3 none "u" 0 0 ""', "ok 1"]
    same("the bytes of the rows", [len(row.payload()) for row in FIRST_ROWS], [13, 31, 49])
    spool = Spool(room, image(260, FIRST))
    spool.says(("checkpoint", "error full"), ("jobs", waits), ("hold 1 indefinite", "ok"))
    same("the file", spool.content(), image(260, FIRST + (hold(1),)))
    spool = Spool(room, image(262, FIRST))
    spool.says(("checkpoint", "ok"), ("jobs", waits), ("round", "error full"))
    listed = image(262, FIRST)[:131] + journal.area(131, 2, [row.payload() for row in FIRST_ROWS])
    same("the file", spool.content(), listed)
    spool.says(("jobs", waits), ("queues", QUEUES), ("round", "error full"), ("hold 1 indefinite", "error full"))
    same("the file", spool.content(), listed)


def test_a_checkpoint_makes_room(room):
    spool = Spool(room, image(400, [Q.event()]))
    clocks = [(f"clock {moment}", "ok") for moment in range(1, 11)]
    spool.says(*clocks, ("clock 11", "error full"), ("checkpoint", "ok"), ("clock 11", "ok"), ("checkpoint", "ok"),
               ("clock 12", "ok"))
    rows = [Head(0, 11).payload(), Q.payload()]
    same("the journal", journal.current(spool.content()), (rows + [clock(12)], 3))
    second = journal.area(200, 2, [Head(0, 10).payload(), Q.payload(), clock(11)])
    same("the other area", journal.halves(spool.content())[1], second)
    same("the rows", spool.listing(), [Head(0, 12), Q])


def test_the_greatest_epoch(room):
    greatest = 2 ** 64 - 1
    spool = Spool(room, image(198, epoch=greatest))
    spool.says(("checkpoint", "error epoch"), (QUEUE, "ok"), ("checkpoint", "error epoch"), ("queues", QUEUES))
    same("the file", spool.content(), image(198, [Q.event()], epoch=greatest))
    spool = Spool(room, image(198, epoch=greatest - 1))
    spool.says(("checkpoint", "ok"), ("checkpoint", "error epoch"))
    same("the journal", journal.current(spool.content()), ([Head(0).payload()], greatest))


def test_applied_until_full(room):
    spool = Spool(room, image(198))
    spool.says((CREATE, "error 1 NoQueue"), ("jobs", "ok 0"))
    same("the file", spool.content(), image(198))
    spool.says((QUEUE, "ok"), (QUEUE, "error 2 QueueExists"), (CREATE, "ok job 1"))
    spool.says(("queues", QUEUES), ("jobs", ['job 1 q 4 job-incoming "u" 0 0 ""', "ok 1"]), ("close 1 f.x", "ok type a/b stages 1"),
               ("clock 0", "error full"), ("cancel 1", "ok"), words=spool.options(types="a/b x\n"))
    same("the file", spool.content(), image(198, FIRST + (cancel(1),)))
    same("its last record", spool.content()[82:93].hex(), "a5000000050a0000000100")


def test_a_reopening_takes_the_last_bytes(room):
    spool = Spool(room, image(198, FIRST))
    # The job is started, and there is no room for the end of its stage.
    spool.says(("round", "error full"), (CREATE, "error full"), ("jobs", ['job 1 q 5 job-printing "u" 0 0 ""', "ok 1"]))
    same("the file", spool.content(), image(198, FIRST + (start(1),)))
    for _ in range(2):
        spool.says(("jobs", ['job 1 q 8 attempt-lost "u" 0 0 ""', "ok 1"]), (CREATE, "error full"))
        same("the file", spool.content(), image(198, FIRST + (start(1), REOPEN)))


def test_documents_on_the_disk(room):
    # The records of the queue, the job and its first bytes have 26, 23 and 19 bytes, and a document's bytes are 14 bytes after the gate of
    # their record.
    spool = Spool(room, image(1_024))
    spool.says((QUEUE, "ok"), (CREATE, "ok job 1"), (CREATE, "ok job 2"), (b"send 1 5\nhello\n", "ok bytes 5"),
               (b"send 2 5\nother\n", "ok bytes 5"), (b"send 1 4\n you\n", "ok bytes 9"))
    for place, part in ((102, b"hello"), (121, b"other"), (140, b" you")):
        same("the bytes there", spool.content()[place:place + len(part)], part)
    rows = [Head(2), Q, of_q(1, size=9), Piece(1, b"hello you"), of_q(2, size=5), Piece(2, b"other")]
    for _ in range(2):
        same("the rows", spool.listing(), rows)
    spool.says((b"send 1 1\n!\n", "ok bytes 10"))
    same("the journal", journal.current(spool.content())[0], [row.payload() for row in rows] + [send(1, b"!")])
    rows[2:4] = [of_q(1, size=10), Piece(1, b"hello you!")]
    for _ in range(2):
        same("the rows", spool.listing(), rows)
    spool.says(("cancel 2", "ok"))
    same("the rows", spool.listing(), rows[:4] + [of_q(2, size=5, phase=CANCELED)])


def test_documents_loaded_again(room):
    other = Queue("p")
    long = b"a" * 65_536 + b"b"
    story = Story(room, clock(7), Q.event(), other.event(), of_q(1).event(), send(1, long[:65_536]), send(1, b"b"),
                  Job(2, "p").event(), send(2, b"hello"), close(2, ["texttops"]), Job(5, "p").event(), send(5, b"gone"), cancel(5),
                  size=400_000)
    waits = Job(2, "p", media="a/b", filters=("texttops",), size=5, phase=waiting())
    last = Job(5, "p", size=4, phase=CANCELED)
    rows = [Head(5, 7), other, Q, of_q(1, size=65_537), *journal.pieces(1, long), waits, Piece(2, b"hello"), last]
    story.lists(*rows)
    again = Story(room, *rows, size=400_000)
    again.lists(*rows)
    again.takes(start(2))
    rows[6:8] = [replace(waits, attempts=1, phase=aborted("attempt-lost"))]
    again.lists(*rows)


def test_a_listing_of_each_phase(room):
    queue = Queue("q", policy="retry-job")
    head, piece = Head(1, 1_000), Piece(1, b"abcde")
    story = Story(room, queue.event(), clock(1_000), of_q(1).event(), send(1, b"abc"))
    rows = [head, queue, of_q(1, size=3), Piece(1, b"abc")]
    story.lists(*rows)
    story = Story(room, *rows, send(1, b"de"), close(1))
    job = of_q(1, size=5, media="a/b", phase=waiting())
    story.lists(head, queue, job, piece)
    # Its attempt is lost at an opening, whether the journal has that or not.
    tried = replace(job, attempts=1)
    waits = [head, queue, replace(tried, phase=waiting(not_before=1_030)), piece]
    for begun in ([head, queue, job, piece, start(1)], [head, queue, replace(tried, phase=processing(1)), piece]):
        Story(room, *begun).lists(*waits)
        Story(room, *begun, REOPEN).lists(*waits)
        Story(room, *begun, stage(1, 1, 1, 0)).lists(head, queue, replace(tried, phase=COMPLETED))
    story = Story(room, *waits)
    story.lists(*waits)
    story.refuses(start(1))
    story.takes(clock(1_030), start(1), cancel(1))
    rows = [Head(1, 1_030), queue, replace(job, attempts=2, phase=CANCELED)]
    story.lists(*rows)
    again = Story(room, *rows)
    again.refuses(of_q(1).event(), piece)
    again.takes(of_q(2).event())
    again.lists(Head(2, 1_030), queue, rows[2], of_q(2))


def test_a_running_job_is_listed(room):
    spool = Spool(room, image(SIZE))
    words = spool.options(types="a/a x\n", convs="a/a a/b 10 f\n", programs="filter f /bin/true\nbackend s /bin/true\n")
    running = ['job 1 q 5 job-printing "u" 0 0 ""', "ok 1"]
    spool.says((QUEUE, "ok"), (CREATE, "ok job 1"), ("close 1 f.x", "ok type a/a stages 2"), ("round", "ok started 1 finished 1"),
               ("jobs", running), ("checkpoint", "ok"), ("jobs", running), words=words)
    job = of_q(1, media="a/a", filters=("f",), attempts=1, phase=processing(2))
    same("the journal", journal.current(spool.content())[0], [Head(1).payload(), Q.payload(), job.payload()])
    same("the next rows", spool.listing(), [Head(1), Q, replace(job, phase=aborted("attempt-lost"))])
