"""`spool_admin split` on all kinds of spools, with kills and failures.

The spools are files that harness/journal.py writes: of both versions, in either area, with queues, documents and jobs of each phase, one of
them processing.

- `split` leaves two files of the old one's length, with its owner and mode. One lists exactly the rows and documents of the named queues, and
  the other one all others. Both have the old highest number and time, and a job that was processing still is. The shell serves both, and
  each gives its next job a number that no job of either has.
- `split` names the reason when it refuses, and both folders are unchanged: a queue that does not exist, a folder that has a spool or that
  another program owns, the same folder twice, a spool that is damaged or does not exist, rows that do not fit, invalid arguments.
- Under strace it is killed at each of its system calls, and each call fails once. Each job is in exactly one spool then: the old spool exists
  and the other folder has none, or both halves exist, the named one perhaps under the name that is not served. The same command, given
  again, ends with both halves, and leaves no other name. The calls also show that this holds after a power cut: the old file is never
  written to, both new ones are synced with their names before the switch, and each name is synced before the next one is changed, also by a
  call that continues after one that was killed.
"""
import copy
import os
import tempfile
from pathlib import Path

import pytest

from harness import journal, spool_model as model
from harness.admin import (administer, are_invalid, image_of, image_of_documents, image_of_rows, images, in_second_area, LOCK, NAME,
                           names_in, OWNED, renames_when_synced, SIZE, SpoolFolder, TAKEN, traced, Trial)
from harness.checks import same
from harness.journal import image
from harness.programs import shell_on
from harness.stories import Q, spelled

pytestmark = pytest.mark.needs("spool_admin", "spool_shell")

PART = "spool.part."


def half_of(file, names, named):
    """The table of the rows of the named queues, or of all others."""
    table = copy.deepcopy(model.stored_table(file))
    table.queues = {name: queue for name, queue in table.queues.items() if (name in names) == named}
    table.jobs = {number: job for number, job in table.jobs.items() if (job.queue in names) == named}
    return table


class Place:
    """The folder of a spool with these bytes, and a second folder."""

    def __init__(self, room, content=None):
        self.root = tempfile.mkdtemp(dir=room)
        self.source, self.target = SpoolFolder(self.root, content), SpoolFolder(self.root)
        if content is not None:
            self.target.with_file(LOCK, "")

    def words(self, *queues):
        """The arguments that split it."""
        return ("split", self.source.root, self.target.root, *(queues or ("lab",)))

    def split(self, *queues):
        same("the end of `split`", administer(*self.words(*queues)), (0, "", ""))

    def names(self):
        """The names in both folders."""
        return names_in(self.source.root), names_in(self.target.root)

    def refuses(self, fault, *queues, words=None):
        """Both folders are unchanged."""
        names = self.names()
        self.source.is_unchanged(fault, *(words or self.words(*queues)))
        same("the names", self.names(), names)


def is_listed(file, table, size):
    """The bytes list exactly this table, in the newest version."""
    payloads, _ = journal.current(file)
    return (len(file), payloads, journal.current_version(file)) == (size, table.listing(), journal.NEWEST)


def is_split(place, old, names=("lab",)):
    same("the names", place.names(), ([NAME], [NAME]))
    same("the named queues", is_listed(place.target.content(), half_of(old, names, True), len(old)), True)
    same("the other queues", is_listed(place.source.content(), half_of(old, names, False), len(old)), True)


def next_number(half, queue):
    reply, = half.serve(f'create {queue} ann "More" 1 50 ""')
    return int(reply.split()[-1])


# ---- splitting

def test_each_row_is_in_one_half(room):
    for file in images():
        for names in (("lab",), ("q",), ("q", "lab"), ("lab", "lab")):
            place = Place(room, file)
            place.source.give_away()
            place.split(*names)
            is_split(place, file, names)
            for half in (place.source, place.target):
                half.is_given_away()


def test_both_are_served(room):
    file = image_of()
    place = Place(room, file)
    place.split()
    for half, named in ((place.source, False), (place.target, True)):
        # The attempt in progress is given up by the opening of its half, as by that of the whole spool.
        table = half_of(file, ("lab",), named)
        table.reopen()
        same("the shell's listing", half.serve("jobs", "queues"), [*table.jobs_reply(), *table.queues_reply()])
    same("the next numbers", (next_number(place.source, "q"), next_number(place.target, "lab")), (6, 6))


def test_documents_are_whole(room):
    """Documents of several pieces, and of none."""
    file = image_of_documents()
    place = Place(room, file)
    place.split()
    is_split(place, file)


def test_a_half_is_split_again(room):
    place = Place(room, image_of())
    place.split()
    half = place.source.content()
    second = Place(room, half)
    second.split("q")
    is_split(second, half, ("q",))


# ---- refusals

def test_refusals(room):
    Place(room, image_of()).refuses("spool: queue\n", "lab", "none")
    Place(room, image_of()).refuses("spool: queue\n", "no name")
    place = Place(room, image_of())
    place.target.write(image(SIZE))
    place.refuses(TAKEN)
    place = Place(room, image_of())
    place.refuses(OWNED, words=("split", place.source.root, place.source.root, "lab"))
    damaged = in_second_area(image(SIZE, [spelled(Q.event()), b"\xFF"]))
    Place(room, damaged).refuses(f"spool: damaged {SIZE // 2 + journal.places([spelled(Q.event())])[-1]}\n", "q")
    place = Place(room, image_of())
    os.link(place.source.file, os.path.join(place.root, "second"))
    place.refuses("spool: disk\nspool: cause: no file\n")
    place = Place(room)
    same("no file", administer(*place.words("q")), (1, "", "spool: disk\nspool: cause: absent\n"))
    same("nothing is created", place.names(), ([], []))
    same("no folder", administer("split", place.source.root, f"{place.root}/none", "q"), (1, "", "spool: disk\nspool: cause: absent\n"))


def test_rows_that_do_not_fit(room):
    """Rows are longer than the events that created them."""
    Place(room, image_of_rows()).refuses("spool: full\n", "q")


def test_a_running_shell_keeps_it(room):
    place = Place(room, image_of())
    for half in (place.source, place.target):
        with shell_on(half.root):
            place.refuses(OWNED)


def test_invalid_arguments(room):
    place = Place(room, image_of())
    source, target = place.source.root, place.target.root
    are_invalid(("split",), ("split", source), ("split", source, target), ("split", source, target, ""),
                ("join", source, target, "lab"), ("look", source, "lab"), ("grow", source, "8192", "lab"))
    same("the file is unchanged", place.source.content() == image_of(), True)


def test_another_split_waits_for_the_first(room):
    """A split that was begun with other arguments must be finished first."""
    place = Place(room, image_of())
    place.source.with_file("spool.split", f"{PART}1\n{place.target.root}\nq\n")
    place.refuses("spool: unfinished\n")


# ---- kills, failures and cuts

def is_whole_or_split(place, what):
    """Each job is in exactly one spool: the folder's, or the other folder's file, which may still have a name that is not served."""
    old = image_of()
    _, target = place.names()
    parts = [name for name in target if name == NAME or name.startswith(PART)]
    if place.source.content() == old:
        same(f"{what}: the other folder has no spool", NAME in target, False)
        return False
    same(f"{what}: the other queues", is_listed(place.source.content(), half_of(old, ("lab",), False), SIZE), True)
    same(f"{what}: one part exists", len(parts), 1)
    part = Path(place.target.root, parts[0]).read_bytes()
    same(f"{what}: the named queues", is_listed(part, half_of(old, ("lab",), True), SIZE), True)
    return True


@pytest.fixture
def trial(room):
    again = ((1, "", "spool: queue\n"), (1, "", TAKEN))
    return Trial(room, lambda: Place(room, image_of()), Place.words, is_whole_or_split, lambda place, what: is_split(place, image_of()), again)


@pytest.mark.strace
@pytest.mark.parametrize("at_each_call", [Trial.is_killed, Trial.fails], ids=["killed", "fails"])
def test_each_call(trial, at_each_call):
    at_each_call(trial)


@pytest.mark.strace
def test_a_power_cut_leaves_one_or_the_other(trial):
    """All that a later step depends on is synced: bytes of a file before its name is changed, and a name before the next one."""
    served = [names for names in renames_when_synced(trial.calls()) if names[1] == NAME]
    same("the switch is the rest's, and precedes the part's name", ([old for old, _ in served][:1], len(served)), (["spool.rest"], 2))


@pytest.mark.strace
def test_a_power_cut_after_a_kill(room, trial):
    """A run that is killed before the switch, and repeated, syncs the files before the part gets its name."""
    calls = trial.calls()
    over = next(at for at, call in enumerate(calls) if call.name.startswith("rename") and b"/spool.rest" in call.texts[0])
    sync = next(call for call in calls[over:] if call.name in ("fsync", "fdatasync"))
    place = trial.make()
    (status, _, _), _ = traced(room, trial.words(place), f"{sync.name}:signal=KILL:when={sync.number}")
    same("the status, killed at the sync of the switch", status in (-9, 137), True)
    same("the part waits", is_whole_or_split(place, "killed at the sync"), True)
    done, calls = traced(room, trial.words(place))
    same("the end of the next one", done, (0, "", ""))
    named = next(at for at, call in enumerate(calls) if call.name.startswith("rename"))
    synced = [call.files[0] for call in calls[:named] if call.name in ("fsync", "fdatasync")]
    same("the switch is synced before the part has its name", place.source.root in synced, True)
    is_split(place, image_of())
