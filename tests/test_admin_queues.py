"""`spool_admin queue set` and `queue remove` on all kinds of spools, with kills and failures.

The spools are files that harness/journal.py writes: of both versions, in either area, with queues, documents and jobs of each phase, one of
them processing.

- `queue set` leaves a file of the old one's length, with its owner and mode. It lists the old table with exactly the given fields of that
  queue changed, with all documents: waiting jobs keep their places, and a job that was processing still is. The shell serves it.
- `queue remove` leaves the old table without the queue, and with --purge without its ended jobs.
- They name the reason when they refuse, and the file is unchanged: a queue that does not exist, another media type or a removal while a job
  has not ended, ended jobs without --purge, a URI or a media type that is none, a spool that is in use, damaged or does not exist, rows
  that do not fit, a full file system, invalid arguments.
- Under strace they are killed at each of their system calls, and each call fails once. The name refers to the old spool or to the new one,
  complete, and the same command, given again, leaves the new one and nothing else. The calls also show that this holds after a power cut:
  the old file is never written to, and the new one has no unsynced byte when it gets the name.
- A service prints a job that waited to the new address.
"""
import copy
import os
import subprocess

import pytest

from harness import journal, spool_model as model
from harness.admin import (administer, are_invalid, image_of, image_of_documents, image_of_rows, images, in_second_area, NAME, names_in,
                           OWNED, renames_when_synced, SIZE, SpoolFolder, Trial)
from harness.checks import same, until
from harness.journal import cancel, close, image, send
from harness.programs import shell_on
from harness.service import Client, Folder
from harness.stories import LAB, of_lab, of_q, Q, spelled

pytestmark = pytest.mark.needs("spool_admin", "spool_shell")

UNENDED = "spool: jobs of the queue have not ended\n"
ENDED = "spool: the queue has ended jobs, which --purge removes\n"

# All fields that `set` takes: words, and the changes of the row.
ALL = ("--uri", "socket://192.0.2.9/", "--policy", "abort-job", "--interval", "86400", "--limit", "0")
ALL_FIELDS = {"uri": "socket://192.0.2.9/", "policy": journal.POLICIES.index("abort-job"), "interval": 86_400, "limit": 0}


def without(file, name):
    """The table without a queue and its jobs."""
    table = copy.deepcopy(model.stored_table(file))
    del table.queues[name]
    table.jobs = {number: job for number, job in table.jobs.items() if job.queue != name}
    return table


def with_fields(file, name, fields):
    """The table with these fields of a queue changed."""
    table = copy.deepcopy(model.stored_table(file))
    for field, value in fields.items():
        setattr(table.queues[name], field, value)
    return table


class Place(SpoolFolder):
    """A spool whose queues change."""

    def set(self, *words, name="lab"):
        same("the end of `set`", administer("queue", "set", self.root, name, *words), (0, "", ""))

    def remove(self, *words, name="lab"):
        same("the end of `remove`", administer("queue", "remove", self.root, name, *words), (0, "", ""))

    def refuses(self, fault, act, *words, name="lab"):
        self.is_unchanged(fault, "queue", act, self.root, name, *words)

    def lists(self, table, size):
        """The file lists exactly this table, in the newest version."""
        file = self.content()
        payloads, _ = journal.current(file)
        same("the file", (len(file), payloads, journal.current_version(file)), (size, table.listing(), journal.NEWEST))
        same("the names", names_in(self.root), [NAME])


# ---- `set`

def test_only_the_given_fields_change(room):
    for file in images():
        for words, fields in ((ALL, ALL_FIELDS), (ALL[:2], {"uri": ALL[1]}), (("--limit", "65535"), {"limit": 65_535}), (("--interval", "0"), {"interval": 0})):
            for name in ("q", "lab"):
                place = Place(room, file)
                place.give_away()
                place.set(*words, name=name)
                place.lists(with_fields(file, name, fields), len(file))
                place.is_given_away()


def test_each_policy_is_set(room):
    for policy in ("abort-job", "retry-job", "retry-current-job", "stop-printer"):
        place = Place(room, image_of())
        place.set("--policy", policy)
        rows = [row for row in place.serve("queues") if " lab " in f"{row} "]
        same(f"the policy {policy}", any(policy in row.split() for row in rows), True)


def test_the_changed_spool_is_served(room):
    place = Place(room, image_of())
    place.set(*ALL)
    table = with_fields(image_of(), "lab", ALL_FIELDS)
    # The attempt in progress is given up by the opening, with the new policy.
    table.reopen()
    same("the shell's listing", place.serve("jobs", "queues"), [*table.jobs_reply(), *table.queues_reply()])
    same("the next number", place.serve('create lab ann "More" 1 50 ""')[0], "ok job 6")


def test_documents_are_whole(room):
    """Documents of several pieces, and of none, that wait."""
    file = image_of_documents()
    place = Place(room, file)
    place.set(*ALL)
    place.lists(with_fields(file, "lab", ALL_FIELDS), len(file))


def ended_file():
    """A spool whose queue lab has only ended jobs."""
    events = [Q.event(), LAB.event(), of_q(1).event(), send(1, b"stays"), close(1), of_lab(2).event(), send(2, b"gone"), close(2), cancel(2)]
    return image(SIZE, [spelled(event) for event in events])


def test_the_media_type_changes_without_jobs(room):
    place = Place(room, image_of())
    place.refuses(UNENDED, "set", "--media", "a/other")
    # The same type is no change, in any case of its letters.
    same_type = model.stored_table(image_of()).queues["lab"].target
    place.set("--media", same_type.upper())
    place.lists(model.stored_table(image_of()), SIZE)
    place = Place(room, ended_file())
    place.set("--media", "Application/PDF")
    place.lists(with_fields(ended_file(), "lab", {"target": "application/pdf"}), SIZE)


# ---- `remove`

def test_a_queue_is_removed_with_its_ended_jobs(room):
    place = Place(room, ended_file())
    place.refuses(ENDED, "remove")
    place.remove("--purge")
    place.lists(without(ended_file(), "lab"), SIZE)
    same("the next number", place.serve('create q ann "More" 1 50 ""')[0], "ok job 3")
    same("the queue may be made again", place.serve("queue lab socket:/ a/b retry-job")[0], "ok")
    empty = image(SIZE, [spelled(event) for event in (Q.event(), LAB.event(), of_q(1).event(), close(1))])
    place = Place(room, empty)
    place.remove()
    place.lists(without(empty, "lab"), SIZE)


# ---- refusals

def test_refusals(room):
    place = Place(room, image_of())
    place.refuses("spool: queue\n", "set", *ALL, name="none")
    place.refuses("spool: queue\n", "set", *ALL, name="no name")
    place.refuses("spool: queue\n", "remove", name="none")
    place.refuses("spool: the URI is not that of a device\n", "set", "--uri", "no-uri")
    place.refuses("spool: the URI is not that of a device\n", "set", "--uri", "socket://a b/")
    place.refuses("spool: the type is not a media type\n", "set", "--media", "text")
    for words in ((), ("--purge",)):
        place.refuses(UNENDED, "remove", *words)
        place.refuses(UNENDED, "remove", *words, name="q")
    damaged = in_second_area(image(SIZE, [spelled(Q.event()), b"\xFF"]))
    at = SIZE // 2 + journal.places([spelled(Q.event())])[-1]
    Place(room, damaged).refuses(f"spool: damaged {at}\n", "set", *ALL, name="q")
    place = Place(room, image_of())
    os.link(place.file, os.path.join(room, "second"))
    place.refuses("spool: disk\nspool: cause: no file\n", "set", *ALL)
    place = Place(room)
    same("no file", administer("queue", "remove", place.root, "q"), (1, "", "spool: disk\nspool: cause: absent\n"))
    same("nothing is created", names_in(place.root), [])


def test_rows_that_do_not_fit(room):
    """Rows are longer than the events that created them."""
    Place(room, image_of_rows()).refuses("spool: full\n", "set", "--limit", "1", name="q")
    # A URI of its greatest length takes more room than the old one.
    small = image(4_096, [spelled(event) for event in (Q.event(), of_q(1, title="t" * 255).event(), of_q(2, title="t" * 255).event(),
                                                        of_q(3, title="t" * 255).event(), of_q(4, title="t" * 255).event())])
    Place(room, small).set("--uri", "socket:/" + "x" * 15, name="q")
    Place(room, small).refuses("spool: full\n", "set", "--uri", "socket:/" + "x" * 1_015, name="q")


def test_a_running_shell_keeps_it(room):
    place = Place(room, image_of())
    with shell_on(place.root):
        place.refuses(OWNED, "set", *ALL)
        place.refuses(OWNED, "remove", "--purge")


@pytest.mark.root
def test_a_full_file_system(room):
    """A file system with room for one file only. It needs a mount, so root."""
    at = os.path.join(room, "full")
    os.mkdir(at)
    if subprocess.run(["mount", "-t", "tmpfs", "-o", "size=1m", "tmpfs", at], capture_output=True).returncode:
        pytest.skip("nothing can be mounted")
    try:
        place = Place(at, image_of(size=700_000))
        place.refuses("spool: disk\nspool: cause: no room\n", "set", *ALL)
        # What is refused is refused for its own reason.
        place.refuses(UNENDED, "remove")
    finally:
        subprocess.run(["umount", at], check=True)


def test_invalid_arguments(room):
    place = Place(room, image_of())
    changed = ("queue", "set", place.root, "lab")
    are_invalid(("queue",), ("queue", "set"), ("queue", "set", place.root), changed, ("queue", "drop", place.root, "lab"),
                (*changed, "--policy", "none"), (*changed, "--interval", "86401"), (*changed, "--limit", "65536"), (*changed, "--limit", "-1"),
                (*changed, "--uri", ""), (*changed, "--purge"), (*changed, "q", "--limit", "1"),
                ("queue", "remove", place.root), ("queue", "remove", place.root, "lab", "--uri", "a:/"), ("look", place.root, "--purge"))
    same("the file is unchanged", place.content() == image_of(), True)
    same("the names", names_in(place.root), [NAME])
    same("valid arguments", administer("queue", "set", place.root, "lab", "--limit", "65535")[0], 0)


# ---- the service

@pytest.mark.needs("spool_service")
def test_the_service_prints_to_the_new_address(room):
    """A job waits for a printer that does not take it, the queue gets another address, and the job prints there."""
    it = Folder(room)
    it.backend("lost", "#!/bin/sh\nexit 4\n")
    it.size = 1_000_000
    it.start()
    client = Client(it)
    it.queue(client, "office", scheme="lost", policy="stop-printer")
    job = client.submit("office", "for the new printer\n")
    until("the queue is stopped", lambda: client.state(job).startswith("3"))
    it.shut_down()
    same("the end of `set`", administer("queue", "set", it.at("spool"), "office", "--uri", "slow:/0"), (0, "", ""))
    it.start()
    client = Client(it)
    same("enable", client.ask("enable office\n"), "ok")
    client.until_state(job, "9")
    same("what is printed", it.printed(), "for the new printer\n")
    it.shut_down()
    same("the end of `remove`", administer("queue", "remove", it.at("spool"), "office", "--purge"), (0, "", ""))
    it.start()
    same("the queues", Client(it).listing("queues\n"), [])
    it.shut_down()


# ---- kills, failures and cuts

TASKS = {"set": (ALL, image_of, lambda file: with_fields(file, "lab", ALL_FIELDS), ()),
         # A queue that is removed is not there any more.
         "remove": (("--purge",), ended_file, lambda file: without(file, "lab"), ((1, "", "spool: queue\n"),))}


@pytest.fixture(params=TASKS)
def trial(request, room):
    act = request.param
    words, make, after, again = TASKS[act]
    file = make()
    table = after(file)

    def is_changed(place, what):
        content = place.content()
        if content == file:
            return False
        same(f"{what}: the new spool is complete", (len(content), journal.current(content)[0]), (len(file), table.listing()))
        return True

    return Trial(room, lambda: Place(room, file), lambda place: ("queue", act, place.root, "lab", *words), is_changed,
                 lambda place, what: place.lists(table, len(file)), again)


@pytest.mark.strace
@pytest.mark.parametrize("at_each_call", [Trial.is_killed, Trial.fails], ids=["killed", "fails"])
def test_each_call(trial, at_each_call):
    at_each_call(trial)


@pytest.mark.strace
def test_a_power_cut_leaves_one_or_the_other(trial):
    same("the names of the new spool", [to for _, to in renames_when_synced(trial.calls())], [NAME])
