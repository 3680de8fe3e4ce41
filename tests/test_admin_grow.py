"""`spool_admin look` and `spool_admin grow` on all kinds of spools, with kills and failures.

The spools are files that harness/journal.py writes: of both versions, in either area, with queues, documents and jobs of each phase, one of
them processing.

- `look` prints what harness/spool_model.py finds in the file, and changes neither its bytes nor its times.
- `grow` leaves a file of BYTES bytes, with the owner and the mode of the old one. Its next epoch has exactly the rows of the table after an
  opening, with all documents. The shell serves it, and a spool that was full takes events again.
- `grow` names the reason when it refuses, and the old file is unchanged: a spool that is damaged or does not exist, one that a shell owns,
  BYTES that are too few, a file with a second name, invalid arguments.
- Under strace it is killed at each of its system calls, and each call fails once. The name refers to the old spool or to the new one,
  complete, and the next `grow` succeeds and leaves nothing else. The calls also show that a power cut leaves one of the two: the old file is
  never written to, the new one has no unsynced byte when it gets the name, and the folder is synced at the end.
"""
import os
import re

import pytest

from harness import journal, spool_model as model
from harness.admin import (administer, are_invalid, image_of, image_of_rows, images, in_second_area, LOCK, NAME, names_in, OWNED,
                           renames_when_synced, SIZE, SpoolFolder, Trial)
from harness.checks import same
from harness.journal import image
from harness.programs import shell_on
from harness.stories import Q, spelled

pytestmark = pytest.mark.needs("spool_admin", "spool_shell")

LARGER = 20_001
UNFINISHED = "spool.disk.new"


class Place(SpoolFolder):
    """A spool that grows."""

    def grow(self, size=LARGER):
        same("the end of `grow`", administer("grow", self.root, str(size)), (0, "", ""))

    def refuses(self, fault, *words):
        self.is_unchanged(fault, *(words or ("grow", self.root, str(LARGER))))


def is_grown(old, new, size=LARGER):
    """The new bytes list the table that an opening of the old ones results in, in the next epoch."""
    it = model.opened(old)
    payloads, epoch = journal.current(new)
    return (len(new), payloads, epoch, journal.current_version(new)) == (size, it.table.listing(), it.epoch + 1, journal.NEWEST)


def lists_grown(place, old):
    """The shell replies as it does with the old file."""
    table = model.opened(old).table
    same("the shell's listing", place.serve("jobs", "queues"), [*table.jobs_reply(), *table.queues_reply()])


# ---- `look`

def look_output(file):
    it = model.reading(file)
    half = len(file) // 2
    jobs = list(it.table.jobs.values())
    processing = len(it.table.processing())
    ended = sum(job.has_ended() for job in jobs)
    coming = sum(job.spelled_phase()[0] == 0 for job in jobs)
    rows = {"version": it.table.version, "epoch": it.epoch, "file": len(file), "area": half, "used": it.gate - it.base,
            "free": it.base + half - it.gate, "queues": len(it.table.queues), "jobs": len(jobs), "incoming": coming,
            "waiting": len(jobs) - processing - ended - coming, "processing": processing, "ended": ended}
    return "".join(f"{word} {count}\n" for word, count in rows.items())


def test_look_prints_the_contents(room):
    for file in (image(SIZE), image_of(), image_of(1), in_second_area(image_of()), image_of(size=8_193), image_of(epoch=2 ** 64 - 1)):
        place = Place(room, file)
        times = os.stat(place.file).st_mtime_ns, os.stat(place.file).st_ctime_ns, os.stat(place.root).st_mtime_ns
        same("the output", administer("look", place.root), (0, look_output(file), ""))
        same("the file is unchanged", place.content() == file, True)
        same("the times", (os.stat(place.file).st_mtime_ns, os.stat(place.file).st_ctime_ns, os.stat(place.root).st_mtime_ns), times)


def test_look_without_a_spool(room):
    Place(room, bytes(SIZE)).refuses("spool: not-a-spool\n")
    place = Place(room, bytes(SIZE))
    place.refuses("spool: not-a-spool\n", "look", place.root)
    absent = Place(room)
    same("no file", administer("look", absent.root), (1, "", "spool: disk\nspool: cause: absent\n"))
    same("no spool is created", os.listdir(absent.root), [LOCK])
    same("no folder", administer("look", f"{absent.root}/none"), (1, "", "spool: disk\nspool: cause: absent\n"))


# ---- `grow`

def test_a_larger_file_has_the_table(room):
    for file in (image(SIZE), *images()):
        for size in (len(file), LARGER, 1_000_000):
            place = Place(room, file)
            place.give_away()
            place.grow(size)
            same(f"the table in {size} bytes", is_grown(file, place.content(), size), True)
            place.is_given_away()
            same("the names", names_in(place.root), [NAME])
            lists_grown(place, file)


def test_a_full_spool_takes_events_again(room):
    place = Place(room, image_of(size=4_096))
    for command in ('create q ann "More" 1 50 ""', "checkpoint"):
        while place.serve(command)[-1].startswith("ok") and command != "checkpoint":
            pass
    same("it is full", place.serve('create q ann "More" 1 50 ""', "checkpoint", 'create q ann "More" 1 50 ""'), ["error full"] * 3)
    old = place.content()
    place.grow()
    same("the table", is_grown(old, place.content()), True)
    lists_grown(place, old)
    same("it takes events", [line.split()[0] for line in place.serve('create q ann "More" 1 50 ""', "checkpoint")], ["ok", "ok"])


def test_leftovers_are_removed(room):
    place = Place(room, image_of())
    place.with_file(UNFINISHED, "left" * 9_000)
    place.grow()
    same("the names", names_in(place.root), [NAME])
    same("the table", is_grown(image_of(), place.content()), True)


# ---- refusals

def test_refusals(room):
    Place(room, image_of(size=LARGER + 1)).refuses("spool: smaller\n")
    Place(room, image_of(epoch=2 ** 64 - 1)).refuses("spool: epoch-end\n")
    damaged = in_second_area(image(SIZE, [spelled(Q.event()), b"\xFF"]))
    Place(room, damaged).refuses(f"spool: damaged {SIZE // 2 + journal.places([spelled(Q.event())])[-1]}\n")
    place = Place(room, image_of())
    os.link(place.file, os.path.join(room, "second"))
    place.refuses("spool: disk\nspool: cause: no file\n")
    linked = Place(room)
    os.symlink(place.file, linked.file)
    linked.refuses("spool: disk\nspool: cause: no file\n")


def test_a_listing_that_does_not_fit(room):
    """Rows are longer than the events that created them, so even an area of the same length may be too short."""
    file = image_of_rows()
    needed = journal.HEADER + sum(journal.FRAME + len(row) for row in model.opened(file).table.listing()) + 7
    same("the rows are too long for it", needed > SIZE // 2, True)
    place = Place(room, file)
    for size in (SIZE, 2 * needed - 2):
        place.refuses("spool: full\n", "grow", place.root, str(size))
    place.grow(2 * needed)
    same("the table", is_grown(file, place.content(), 2 * needed), True)


def test_a_running_shell_keeps_it(room):
    place = Place(room, image_of())
    with shell_on(place.root):
        place.refuses(OWNED)
        place.refuses(OWNED, "look", place.root)
    place.grow()


def test_invalid_arguments(room):
    place = Place(room, image_of())
    root = place.root
    are_invalid((), ("look",), ("grow",), ("grow", root), ("look", root, "8192"), ("grow", root, "4095"), ("grow", root, "1073741825"),
                ("grow", root, "x"), ("shrink", root), ("look", ""), ("grow", root, "8192", "1"), ("--size", "8192", root))
    same("the file is unchanged", place.content() == image_of(), True)
    status, shown, errors = administer("--help")
    same("the help", (status, "DIR" in shown and "BYTES" in shown, errors), (0, True, ""))
    status, shown, errors = administer("--version")
    same("the version", (status, re.fullmatch(r"spool_admin \(Cegmandi\) \d+\.\d+\.\d+\n", shown) is not None, errors), (0, True, ""))


# ---- kills, failures and cuts

@pytest.fixture
def trial(room):
    def is_changed(place, what):
        place.old = place.content()
        same(f"{what}: other names", {*names_in(place.root)} - {NAME, UNFINISHED}, set())
        same(f"{what}: it is the old spool or the new one", place.old == image_of() or is_grown(image_of(), place.old), True)
        return place.old != image_of()

    def is_done(place, what):
        same(f"{what}: the table", is_grown(place.old, place.content()), True)
        same(f"{what}: the names", names_in(place.root), [NAME])

    return Trial(room, lambda: Place(room, image_of()), lambda place: ("grow", place.root, str(LARGER)), is_changed, is_done)


@pytest.mark.strace
@pytest.mark.parametrize("at_each_call", [Trial.is_killed, Trial.fails], ids=["killed", "fails"])
def test_each_call(trial, at_each_call):
    at_each_call(trial)


@pytest.mark.strace
def test_a_power_cut_leaves_the_old_or_the_new(trial):
    same("the renames", renames_when_synced(trial.calls()), [(UNFINISHED, NAME)])
