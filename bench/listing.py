#!/usr/bin/env python3
"""Measures listings of the service by the number of jobs: listing.py [PROGRAM [PART..]]

It runs crates/spool_service/out/spool_service (built by `rt run` in that crate) or PROGRAM over spools of waiting jobs in one stopped queue,
in TMPDIR, whose files it writes byte by byte. Each job has a token of its own.

- `replies`: with 1,000 and 100,000 jobs a client asks TURNS times for

  - a job with all its fields,
  - a piece of 50 jobs, from the first number and from a number near the last one,
  - a piece of the jobs of a user who has none: 1,000 jobs are examined, the most for one piece,
  - the job of a token,
  - the queue, whose first 1,000 jobs are searched for those that are held.

  The script prints the processor time of the service for each reply, and its ratio to that of a job. The last column, the ratio of the time
  with 100,000 jobs to that with 1,000, should be near 1.
- `page`: with 100 to 20,000 jobs spool_front is run as `spool page FILE` and as `spool status`, five times each, in turn. The script prints
  the seconds of the fastest page and of the fastest listing, their ratio, the microseconds of a job of the page, and the length of the page.
  The ratio and the microseconds should not grow. A page asks for pieces of 100 jobs with all fields, since only these have the times of the
  jobs, and a listing for one line for each job.

Times depend on the machine, so only the ratios are of interest. No test checks them. With PART only these parts are run.
"""
import os
import time

from harness.checks import same
from harness.front import Front
from harness.programs import SERVICE
from harness.service import Client, Folder
from harness.written_spools import stopped_rows
from measures import given_program, run_parts, service

COUNTS = (1_000, 100_000)
TURNS = 200
PIECE = 50


def token(number):
    return f"t{number:08}"


def serving(count):
    """A service of this number of waiting jobs in a stopped queue."""
    rows = stopped_rows(count + 2, options=lambda number: f"sides=one-sided submission={token(number)}")
    return service("--keep", "1000000", payloads=rows)


# ---- replies

def requests(count):
    """The requests, by name."""
    last = count - PIECE + 1
    return {
        "a job": f"job {count}",
        "the first piece": f"list most {PIECE}",
        "the last piece": f"list from {last} most {PIECE}",
        "1,000 examined": "list user nobody",
        "a token": f"find {token(count)}",
        "the queue": "queue lab",
    }


def answer(client, request):
    """The lines of a reply."""
    client.say(request + "\n")
    return client.read_to("ok", "error")


def check(count, answers):
    """Compares the answers with the spool."""
    jobs = {name: sum(line.startswith("job ") for line in lines) for name, lines in answers.items()}
    same("a job", jobs["a job"], 1)
    same("the first piece", (jobs["the first piece"], answers["the first piece"][-1]), (PIECE, f"ok {PIECE} more {PIECE + 1}"))
    same("the last piece", (jobs["the last piece"], answers["the last piece"][-1]), (PIECE, f"ok {PIECE}"))
    same("1,000 examined", answers["1,000 examined"], ["ok 0" if count == 1_000 else "ok 0 more 1001"])
    same("a token", answers["a token"], [f"ok job {count}"])
    same("the queue", f"waiting {count}" in answers["the queue"], True)


def measured(count):
    """The milliseconds of each request."""
    with serving(count) as folder:
        client = Client(folder)
        wanted = requests(count)
        check(count, {name: answer(client, request) for name, request in wanted.items()})
        return {name: folder.work_for(lambda: answer(client, request), TURNS) for name, request in wanted.items()}


def replies():
    few, many = (measured(count) for count in COUNTS)
    print(f"  {'':20}{COUNTS[0]:>12,} jobs{COUNTS[1]:>20,} jobs")
    for name, took in few.items():
        ratios = took / few["a job"], many[name] / many["a job"]
        print(f"  {name:20}{1e3 * took:9.1f} us, x{ratios[0]:5.1f}{1e3 * many[name]:13.1f} us, x{ratios[1]:5.1f}, ratio {many[name] / took:5.2f}")


# ---- pages

def seconds_of(front, *words):
    """The seconds of a run of `spool`, and its output."""
    start = time.perf_counter()
    text = front.says("spool", *words)
    return time.perf_counter() - start, text


def fastest(count):
    """The seconds of the fastest page and the fastest listing, and the length of the page."""
    with serving(count) as folder:
        front = Front(folder, patience=60)
        pages, listings = [], []
        for _ in range(5):
            pages.append(seconds_of(front, "page", folder.at("page.html"))[0])
            took, text = seconds_of(front, "status")
            listings.append(took)
            same("the rows of the listing", text.count("\n"), count + 1)
        same("the rows of the page", folder.read("page.html").count("A title"), count)
        return min(pages), min(listings), os.path.getsize(folder.at("page.html"))


def page():
    print(f"  {'jobs':>8}{'page':>12}{'listing':>12}{'ratio':>8}{'a job':>12}{'bytes':>12}")
    for count in (100, 1_000, 5_000, 20_000):
        took, listing, length = fastest(count)
        print(f"  {count:8,}{took:10.3f} s{listing:10.3f} s{took / listing:8.2f}{took / count * 1e6:9.1f} us{length:12,}")


if __name__ == "__main__":
    Folder.service = given_program(1, SERVICE)
    run_parts(replies, page)
