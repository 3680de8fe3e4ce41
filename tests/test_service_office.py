"""Tests of a service over a long time: its clock, its maintenance, a day of an office, and thousands of jobs."""
import os
import random
import subprocess
import time
from dataclasses import dataclass

import pytest

from harness.checks import at_once, Difference, holds, LONGEST, same, until
from harness.programs import ADMIN, compiled, is_sanitized
from harness.service import checkpoints, Client, moment_of, now_of, patient_client, TYPE

# ---- the clock and the maintenance


def test_the_clock_is_announced_only_if_needed(folder):
    client = folder.open("q")
    moment = int(time.time()) + 3
    job = client.create("q")
    client.does(f"hold {job} {moment}")
    client.finish(job)
    client.until_state(job, "9")
    late = time.time() - moment
    print(f"  a hold that ended was over {late:.2f} s later")
    holds("not before", 0 <= late)
    client.close()
    folder.writes_nothing(4)


def test_a_deadline_that_passes(folder):
    """A waiting job is canceled after its start deadline, and one that was in time is printed."""
    client = folder.open("q")
    moment = int(time.time()) + 4
    late, in_time = client.create("q", by=moment), client.create("q", by=moment)
    client.does(f"hold {late} indefinite")
    client.finish(late)
    client.finish(in_time)
    client.until_state(in_time, "9")
    same("before its moment", client.state(late)[0], "4")
    client.until_state(late, "7")
    print(f"  it was canceled {time.time() - moment:.2f} s after its deadline")
    holds("not before", moment <= time.time())


@pytest.mark.needs("gcc")
def test_a_clock_that_moves_back(folder):
    """If the system's clock is earlier than the spool's time, this goes on by the steady clock, and nothing is written until it is due."""
    library = compiled("fast_clock.c", "-shared", "-fPIC")
    folder.environment = {"LD_PRELOAD": library, "FAST_CLOCK": f"{time.time()} {DAWN} 1"}
    client = folder.open("q")
    job = client.create("q")
    client.does(f"hold {job} {DAWN + 2}")
    client.finish(job)
    client.until_state(job, "9")
    known = moment_of(client)
    holds(f"the log has the time: {known}", DAWN + 2 <= known <= DAWN + 60)
    folder.kill()
    folder.environment["FAST_CLOCK"] = f"{time.time()} {DAWN - 100_000} 1"
    client = folder.open()
    client.until_state(client.submit("q"), "9")
    held, began, now = client.create("q"), time.monotonic(), now_of(client)
    holds(f"the time goes on: {known}, then {now}", known <= now <= known + 60)
    client.does(f"hold {held} {now + 12}")
    client.finish(held)
    folder.writes_nothing()
    same("it is still held", client.state(held)[0], "4")
    client.until_state(held, "9")
    took = time.monotonic() - began
    holds(f"a hold of 12 s took {took:.2f} s", 10 <= took <= 40)
    after = moment_of(client)
    holds(f"the time of the table: {now}, then {after}", now + 12 <= after <= now + 60)


def test_a_job_is_tried_again(folder):
    """A job whose printer is away is tried again after its queue's interval, without a command."""
    folder.backend("away", '#!/bin/sh\n[ -e FOLDER/there ] || exit 6\ncat "$6" >>FOLDER/printed\n')
    client = folder.open("q", policy="retry-job", scheme="away", interval=1)
    job = client.submit("q")
    until("some attempts", lambda: int(client.fields(job)["attempts"]) >= 2)
    folder.write("there", "")
    client.until_state(job, "9")
    print(f"  printed by attempt {client.fields(job)['attempts']}")


def test_old_jobs_are_purged(folder):
    client = folder.open("q", words=["--keep", "5"])
    jobs = [client.submit("q", f"{number}\n") for number in range(20)]
    until("the last ones", lambda: sorted(client.states()) == jobs[-5:])
    same("all were printed", len(folder.printed().split()), 20)
    same("one that was purged", client.ask(f"job {jobs[0]}\n"), "error job")


def test_a_job_whose_child_runs_is_not_purged(folder):
    """The service purges a canceled job only when its child has ended, and the other jobs meanwhile."""
    client = folder.open("slow", words=["--keep", "0"], scheme="waits")
    folder.queue(client, "q")
    job = client.submit("slow")
    client.until_state(job, "5")
    client.does(f"cancel {job}")
    others = [client.submit("q") for _ in range(3)]
    until("the others are purged", lambda: list(client.states()) == [job])
    same("its child runs", (client.state(job), folder.printed()), ("7 canceled", "x\n" * len(others)))
    folder.write("go", "")
    until("it is purged", lambda: client.states() == {})
    same("its child has ended", folder.printed(), "x\n" * 4)


def test_a_small_spool_makes_room(folder):
    """Jobs are printed on a spool whose journal fills again and again: the service makes room."""
    folder.size = 16_384
    client = folder.open("q", words=["--keep", "5"])
    full, count, began = [0], 600 if folder.is_long else 100, time.time()

    def ask(text):
        replies = []
        until("room", lambda: replies.append(client.ask(text)) or replies[-1] != "error full")
        full[0] += len(replies) - 1
        return replies[-1]

    for _ in range(count):
        job = int(ask('create q u "t" 1 50 ""\n').split()[2])
        same("send", ask(f"send {job} 2\nx\n\n"), "ok bytes 2")
        same("close", ask(f"close {job} f\n").split()[:2], ["ok", "type"])
    until("all are printed", lambda: not any(state[0] in "35" for state in client.states().values()), 120)
    took = [int(line.split()[-2]) for line in folder.log().splitlines() if "checkpoint took" in line]
    print(f"  {count} jobs: {full[0]} replies were `error full`; {len(took)} checkpoints, {sum(took)} ms of {time.time() - began:.1f} s")
    same("printed", len(folder.printed().split()), count)
    holds("checkpoints take at most a tenth of the time", sum(took[:-1]) * 10 < (time.time() - began) * 1_000)


# A moment that is never reached.
LATER = 4_000_000_000


def holds_until_checkpoint(folder, client, job):
    """The number of events that are written until the next checkpoint."""
    before = checkpoints(folder)
    for count in range(1, 10_000):
        client.does(f"hold {job} {LATER + count}")
        if before < checkpoints(folder):
            return count
    raise Difference("no checkpoint is written")


def test_room_after_a_restart(folder):
    """Records of an earlier life also count against the share of the journal that must be free."""
    folder.size = 16_384
    client = folder.open("q")
    job = client.create("q")
    holds_until_checkpoint(folder, client, job)
    count, before = holds_until_checkpoint(folder, client, job), checkpoints(folder)
    client.does(*(f"hold {job} {LATER + number}" for number in range(count * 6 // 10)))
    same("no checkpoint yet", checkpoints(folder), before)
    client.close()
    client = folder.reopen()
    client.does(*(f"hold {job} {LATER + number}" for number in range(count * 6 // 10)))
    until("a checkpoint", lambda: before < checkpoints(folder))
    print(f"  {count} events between two checkpoints; after a restart {checkpoints(folder) - before} more")


def test_one_checkpoint_after_a_start(folder):
    """A spool that consists mostly of documents makes one checkpoint after each start, and then none while nothing is written. A few more
    events do not cause one either.
    """
    folder.size = 1_048_576
    client = folder.open("q")
    job = client.create("q")
    # Four fifths of an area. An eighth of it is the reserve.
    for sent in range(1, 8):
        same("send", client.ask(b"send %d 60000\n" % job + bytes(60_000) + b"\n"), f"ok bytes {sent * 60_000}")
    for _ in range(2):
        folder.kill()
        before = checkpoints(folder)
        folder.start()
        until("a checkpoint", lambda: checkpoints(folder) == before + 1)
        written = folder.disk_time()
        time.sleep(2.5)
        same("then none", (checkpoints(folder), folder.disk_time()), (before + 1, written))
        client = Client(folder)
        client.does(*(f"hold {job} {LATER + number}" for number in range(10)))
        time.sleep(0.5)
        same("nor after some events", checkpoints(folder), before + 1)


def test_the_share_that_must_be_free(folder):
    """With --room 80 a checkpoint is made when a fifth of the journal is used, and with --room 10 when nine tenths are."""
    folder.size, counts = 65_536, []
    for percent in (80, 10):
        client = folder.open(words=["--room", str(percent)])
        if percent == 80:
            folder.queue(client, "q")
            job = client.create("q")
        # After the first one the share is that of the room that a checkpoint leaves.
        holds_until_checkpoint(folder, client, job)
        counts.append(holds_until_checkpoint(folder, client, job))
        folder.kill()
    print(f"  events between two checkpoints: {counts}")
    holds("four and a half times as many", 3.5 * counts[0] < counts[1] < 5.5 * counts[0])


@pytest.mark.needs("spool_admin")
def test_a_spool_that_stays_full(folder):
    """If queues have used the reserve, so that the state does not fit into the other half, changes are refused and the checkpoint fails, which
    is logged, and nothing is lost. In a larger file there is room again.
    """
    folder.size = 16_384
    client = folder.open("q", stopped=True)

    def add(prefix, length):
        """Adds queues until none fits. Their commands come together, so no checkpoint is made between them."""
        client.say("".join(f"queue {prefix}{number} slow:/{'0' * length} {TYPE} abort-job 0 0\n" for number in range(32)))
        return [f"{prefix}{number}" for number in range(32) if client.reply() == "ok"]

    names = [*add("n", 215), *add("m", 1)]
    until("a failed checkpoint", lambda: "spool: checkpoint failed\n" in folder.log())
    made = checkpoints(folder)
    same("a checkpoint", client.ask("checkpoint\n"), "error full")
    same("another job", client.ask('create q u "t" 1 50 ""\n'), "error full")
    same("no further checkpoint is made", checkpoints(folder), made)
    rows = client.listing("queues\n")
    same("rows", [row.split()[1] for row in rows], sorted([*names, "q"]))
    folder.kill()
    subprocess.run([ADMIN, "grow", folder.at("spool"), "65536"], check=True, timeout=LONGEST)
    client = folder.open()
    same("the queues in the larger file", client.listing("queues\n"), rows)
    client.does("enable q")
    client.until_state(client.submit("q"), "9")


# ---- many jobs


def test_thousands_of_jobs(folder):
    """Memory and descriptors do not grow, and neither does the time of a job."""
    # On a spool of the default size: the service must make room in it meanwhile.
    count, parts, folder.size = 10_000 if folder.is_long else 400, 10, 4_194_304
    folder.words = ["--keep", "50", "--quiet"]
    client = folder.open()
    for name in range(4):
        folder.queue(client, f"q{name}", 0, scheme="slow")
    before, found = None, []
    for _ in range(parts):
        began = time.time()
        at_once([lambda number=number: submit_some(folder, number, count // parts // 4) for number in range(4)])
        until("all are printed", lambda: {state[0] for state in client.states().values()} == {"9"}, 120)
        found.append((time.time() - began, folder.memory()))
        until("its descriptors", lambda: before in (None, folder.descriptors()))
        before = folder.descriptors()
    first, last = found[1], found[-1]
    print(f"  {count} jobs, by tenths: the second in {first[0]:.2f} s, the last in {last[0]:.2f} s; memory {first[1]} and {last[1]} kB")
    same("printed", len(folder.printed().split()), count)
    if not is_sanitized(folder.service):
        holds("memory does not grow", last[1] < first[1] + 1_024)


def submit_some(folder, queue, count):
    client = Client(folder)
    for _ in range(count):
        client.submit(f"q{queue}", "x\n")
    client.close()


# ---- a day of an office

HOUR = 3_600
DAY = 24 * HOUR

# The start of the day, in seconds of the system's clock.
DAWN = 1_800_000_000

QUEUES = ["desk", "front", "hall", "lab", "post", "room"]

# A backend that records when it printed, by the system's clock. While a file `QUEUE.off` exists the printer is away.
PRINTER = """#!/bin/sh
[ -e FOLDER/$PRINTER.off ] && exit 6
echo "$3 $PRINTER $(date +%s.%N)" >>FOLDER/pages
"""


@dataclass
class Letter:
    """A job of the day: when it is created, until when it is held, its start deadline, and whether it must be printed."""
    title: str
    queue: str
    made: int
    held: int | None = None
    by: int | None = None
    is_printed: bool = True
    job: int = 0


class Day:
    """A day whose clock runs `faster` times as fast."""

    def __init__(self, folder, faster, library):
        self.folder, self.faster = folder, faster
        self.began = time.time()
        folder.environment = {"LD_PRELOAD": library, "FAST_CLOCK": f"{self.began} {DAWN} {faster}"}
        folder.words = ["--keep", "100000"]
        self.client = folder.open(*QUEUES, seconds="p", policy="retry-job", scheme="printer", interval=300)

    def second_of(self, real):
        """The second of the day at a moment of the system."""
        return (real - self.began) * self.faster

    def wait_until(self, second):
        time.sleep(max(0, self.began + second / self.faster - time.time()))

    def print_letter(self, letter):
        letter.job = self.client.create(letter.queue, letter.title, by=None if letter.by is None else DAWN + letter.by)
        if letter.held is not None:
            moment = "indefinite" if letter.held == DAY else DAWN + letter.held
            self.client.does(f"hold {letter.job} {moment}")
        self.client.finish(letter.job, f"{letter.title}\n")

    def kill(self):
        """The service is killed, and started again."""
        self.client = self.folder.reopen()


def letters(count, chance):
    """The jobs of a day, created from seven to seven. Some are held, some have a start deadline, and some are too late for it."""
    found = []
    for number in range(count):
        made = 7 * HOUR + chance.randrange(12 * HOUR)
        letter = Letter(f"letter-{number}", chance.choice(QUEUES), made)
        kind = chance.randrange(10)
        if kind < 2:
            letter.held = made + HOUR + chance.randrange(3 * HOUR)
        elif kind == 2:
            letter.by = made + 5 * HOUR
        elif kind == 3:
            letter.held, letter.by, letter.is_printed = DAY, made + HOUR, False
        found.append(letter)
    return found


@pytest.mark.needs("gcc")
def test_a_day_of_an_office(folder):
    """Twenty-four hours of six queues in one minute, or in ten: the system's clock is faster for the service, by a library in LD_PRELOAD.
    The printer of `lab` is away from nine to eleven, `hall` is disabled at noon for an hour, and the service is killed at three in the
    morning and at three in the afternoon.
    """
    folder.backend("printer", PRINTER)
    day = Day(folder, 144 if folder.is_long else 1_440, compiled("fast_clock.c", "-shared", "-fPIC"))
    made = letters(1_000 if folder.is_long else 100, random.Random(7))
    plan = [(letter.made, lambda letter=letter: day.print_letter(letter)) for letter in made]
    plan += [(3 * HOUR, day.kill), (15 * HOUR, day.kill)]
    plan += [(9 * HOUR, lambda: folder.write("lab.off", "")), (11 * HOUR, lambda: os.remove(folder.at("lab.off")))]
    plan += [(12 * HOUR, lambda: day.client.does("disable hall")), (13 * HOUR, lambda: day.client.does("enable hall"))]
    for second, step in sorted(plan, key=lambda row: row[0]):
        day.wait_until(second)
        step()
    day.wait_until(DAY)
    check_day(folder, day, made)


def check_day(folder, day, made):
    states = patient_client(folder).states()
    wrong = [(letter, states[letter.job]) for letter in made if states[letter.job][0] != ("9" if letter.is_printed else "7")]
    same("letters that ended differently", wrong, [])
    pages = {}
    for line in folder.read("pages").splitlines():
        title, queue, real = line.split()
        pages.setdefault(title, []).append(day.second_of(float(real)))
    same("letters that were printed", sorted(pages), sorted(letter.title for letter in made if letter.is_printed))
    held = [letter for letter in made if letter.held not in (None, DAY)]
    early = [letter.title for letter in held if min(pages[letter.title]) < letter.held - 1]
    same("held ones that were printed before their moment", early, [])
    late = max(min(pages[letter.title]) - letter.held for letter in held)
    away = [letter for letter in made if letter.queue == "lab" and 9 * HOUR < letter.made < 10.9 * HOUR and letter.is_printed]
    same("printed while the printer was away", [one.title for one in away if min(pages[one.title]) < 10.9 * HOUR], [])
    again = sum(len(times) - 1 for times in pages.values())
    print(f"  {len(made)} letters, {len(pages)} printed, {again} pages again; a held one was {late / 60:.1f} minutes late at most")
    print(f"  the {len(away)} of the printer that was away were printed by {max([min(pages[one.title]) for one in away], default=0) / HOUR:.2f} h")
