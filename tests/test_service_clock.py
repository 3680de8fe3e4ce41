"""Tests of a service's time while the system's clock is set, jumps and steps.

tests/harness/fast_clock.c changes the clocks of the service: the system's clock shows as many seconds more as the file `jump` says, and the steady
clock as the file `steady`.
"""
import os
import time

import pytest

from harness.checks import holds, same, until
from harness.front import Front, number_of
from harness.programs import compiled
from harness.service import moment_of, now_of

pytestmark = pytest.mark.needs("gcc", "spool_front")

DAY = 86_400
YEAR = 365 * DAY
TEN_MINUTES = 600

# A moment in the year 2100.
FAR = 4_102_444_800

BEHIND = "s ahead of the system's clock, and continues"
AHEAD = "s ahead of the service's time"
FOLLOWS = "the service's time follows the system's clock"


def start(folder):
    """Starts a service whose clocks can be changed, with a queue that prints, one that does not, and one whose printer is away."""
    library = compiled("fast_clock.c", "-shared", "-fPIC")
    folder.environment = {"LD_PRELOAD": library, "CLOCK_JUMP": folder.at("jump"), "STEADY_JUMP": folder.at("steady")}
    folder.backend("away", "#!/bin/sh\nexit 6\n")
    client = folder.open("q", "stopped")
    client.does("disable stopped")
    folder.queue(client, "away", policy="retry-job", scheme="away", interval=2)
    return client


def again(folder, client):
    """Restarts the service."""
    client.close()
    return folder.reopen()


def change(folder, name, seconds):
    """Sets a clock of the service: it shows this many seconds more."""
    folder.write(f"{name}.new", str(seconds))
    os.rename(folder.at(f"{name}.new"), folder.at(name))


def held(client, until_moment):
    """A job that is held until a moment."""
    job = client.create("q")
    client.does(f"hold {job} {until_moment}")
    client.finish(job)
    return job


def takes(what, low, high, began, is_so):
    """Something takes between `low` and `high` seconds since `began`, by the monotonic clock of the test."""
    until(what, is_so)
    took = time.monotonic() - began
    print(f"  {what}: {took:.2f} s")
    holds(f"{what} took {took:.2f} s, not {low} to {high} s", low <= took <= high)


def keeps_time(client, now):
    """Intervals take as long as the steady clock says if the service's time is `now`: a hold, a deadline, and the retries of a job.

    They may be over a second early, because `now` has no fractions."""
    began = time.monotonic()
    job = held(client, now + 4)
    late = client.create("stopped", by=now + 4)
    client.finish(late)
    tried = client.submit("away")
    takes("a hold of 4 s", 2.9, 40, began, lambda: client.state(job).startswith("9"))
    takes("a deadline of 4 s", 2.9, 40, began, lambda: client.state(late).startswith("7"))
    takes("three attempts, 2 s apart", 2.9, 40, began, lambda: int(client.fields(tried)["attempts"]) >= 3)
    client.does(f"cancel {tried}")


# ---- the clock of the system


def test_a_clock_set_back_by_a_year(folder):
    """The service's time goes on, also after a restart, if the system's clock is set back."""
    client = start(folder)
    change(folder, "jump", -YEAR)
    keeps_time(client, int(time.time()))
    holds("the log says so", BEHIND in folder.log())
    same("it says so once", folder.log().count(BEHIND), 1)
    client = again(folder, client)
    known = moment_of(client)
    holds(f"the time of the table is kept: {known}", time.time() - 60 < known)
    keeps_time(client, now_of(client))
    same("the log says so once more", folder.log().count(BEHIND), 2)


def test_a_clock_ahead_by_a_year(folder):
    """A system's clock that jumps ahead by a year is not followed for ten minutes."""
    client = start(folder)
    week = held(client, int(time.time()) + 7 * DAY)
    change(folder, "jump", YEAR)
    keeps_time(client, int(time.time()))
    same("a hold of a week", client.state(week)[0], "4")
    holds("the log says so", AHEAD in folder.log())
    # It was an error.
    change(folder, "jump", 0)
    client.listing("jobs\n")
    change(folder, "steady", TEN_MINUTES + 60)
    client.listing("jobs\n")
    same("a hold of a week after the error", client.state(week)[0], "4")
    # It is none: ten minutes later it is so still.
    change(folder, "jump", YEAR)
    client.listing("jobs\n")
    time.sleep(0.5)
    change(folder, "steady", 2 * TEN_MINUTES)
    client.listing("jobs\n")
    time.sleep(1.5)
    same("a hold of a week within ten minutes", client.state(week)[0], "4")
    change(folder, "steady", 3 * TEN_MINUTES)
    client.until_state(week, "9")
    holds("the log says so", FOLLOWS in folder.log())
    keeps_time(client, int(time.time()) + YEAR)


def test_a_suspend_of_a_day(folder):
    """The system's clock is followed at once after a suspend of a day, during which the steady clock stood still."""
    client = start(folder)
    now = int(time.time())
    job, later = held(client, now + DAY - 120), held(client, now + 2 * DAY)
    change(folder, "jump", DAY - 60)
    client.until_state(job, "9")
    same("a hold of two days", client.state(later)[0], "4")
    keeps_time(client, int(time.time()) + DAY - 60)
    holds("the log says nothing", "the system's clock" not in folder.log())


def test_a_clock_that_steps(folder):
    """A system's clock that steps by a second to and fro makes no interval shorter than by a second."""
    client = start(folder)
    ends, steps = time.monotonic() + 9, 0
    began, now = time.monotonic(), int(time.time())
    job = held(client, now + 5)
    tried = client.submit("away")
    printed = 0.0
    while time.monotonic() < ends:
        change(folder, "jump", steps % 2)
        steps += 1
        time.sleep(0.1)
        if not printed and client.state(job).startswith("9"):
            printed = time.monotonic() - began
    print(f"  a hold of 5 s, with {steps} steps: {printed:.2f} s")
    holds(f"a hold of 5 s took {printed:.2f} s", 2.9 <= printed <= 7)
    attempts = int(client.fields(tried)["attempts"])
    holds(f"{attempts} attempts in 9 s, 2 s apart", 3 <= attempts <= 7)
    holds("the log says nothing", "the system's clock" not in folder.log())


def test_a_clock_of_an_operator(folder):
    """After `clock 4102444800` the service's time goes on from there, also after a restart."""
    client = start(folder)
    client.does(f"clock {FAR}")
    keeps_time(client, FAR)
    holds("the log says so", BEHIND in folder.log())
    client = again(folder, client)
    known = moment_of(client)
    holds(f"the time of the table is kept: {known}", FAR <= known <= FAR + 600)
    keeps_time(client, now_of(client))
    # Nothing is due: an idle service writes nothing, whatever the clocks show.
    client.close()
    folder.writes_nothing()


# ---- moments of the front end


def test_moments_of_users(folder):
    """The moments of `spool` and `lp` are moments of the service, also after `clock 4102444800` and a restart."""
    client = start(folder)
    client.does(f"clock {FAR}")
    front = Front(folder)
    folder.write("a", "x\n")
    for _ in range(2):
        began = time.monotonic()
        submit = ["spool", "submit", "q", folder.at("a")]
        jobs = [number_of(front.says(*submit, "--at", "+9")), number_of(front.says("lp", "-d", "q", "-H", "+9", folder.at("a")))]
        kept = number_of(front.says("spool", "submit", "stopped", folder.at("a"), "--by", "+3600"))
        late = number_of(front.says("spool", "submit", "stopped", folder.at("a"), "--by", "+9"))
        absolute = front.run(*submit, "--at", str(int(time.time()) + 9))
        same("an absolute moment", absolute.returncode, 0)
        holds(f"a note: {absolute.stderr}", b"s ahead of the system's clock; the moment is shifted by as much" in absolute.stderr)
        jobs.append(number_of(absolute.stdout.decode()))
        waits = number_of(front.says(*submit, "--hold"))
        front.says("spool", "hold", "--until", "+9", str(waits))
        same("they are held", [client.state(job)[0] for job in [*jobs, waits]], ["4"] * 4)
        for job in [*jobs, waits]:
            takes(f"job {job}", 6.5, 40, began, lambda job=job: client.state(job).startswith("9"))
        takes("a deadline of 9 s", 6.5, 40, began, lambda: client.state(late).startswith("7"))
        same("a deadline of an hour", client.state(kept)[0], "3")
        client = again(folder, client)
