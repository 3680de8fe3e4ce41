#!/usr/bin/env python3
"""Measures a tick while jobs wait, and how a slow printer affects the others: ticks.py [memory|real [PROGRAM]]

With `memory`, or without arguments, it runs crates/spool_scripts/out/spool_scripts (built by `rt run` in that crate) or PROGRAM on cases
that it writes, over a disk and children in memory: 64 queues that each have a job to start, and after these jobs 1,000 to 100,000 more that
wait. They are followed by 0, 200 or 2,000 ticks of three kinds:

- no child has ended: the first tick starts 64 children, and each later tick polls each of them;
- each child ends at once: each tick starts 64 children and reports their ends, and then each job is tried again before all others;
- no child can be started: the same, but no order is stored, and none is in the account.

The program serves each case in WAYS ways and compares its replies and its account with the expected ones. The script prints the processor
time of a tick: the least of RUNS runs, minus that of the same case without ticks. If each child ends at once, this includes the text of 64
orders in the account.

A tick should take as long after 1,800 other ticks as after none, and hardly longer if more jobs wait. With 100,000 waiting jobs most of the
time is spent creating them, so the figure from 200 ticks is rough.

With `real`, or without arguments, it runs crates/spool_service/out/spool_service or PROGRAM, which ticks, with real children. Two queues
with jobs of 10 ms print for 35 s, kept full by clients, without and with a third queue whose jobs take 5 s. The script prints how many jobs
they printed, the ratio (target: 0.9), how long another client waited for a listing (target: 99 of 100 under 50 ms), and finally the
processor time of the idle service in ten seconds. Its folder is in TMPDIR.

Times depend on the machine, so only their ratios are of interest. No test checks them.
"""
import os
import sys
import tempfile
import threading
import time

from harness.checks import print_times, timed
from harness.files import write
from harness.programs import ended, SCRIPTS, SERVICE
from harness.service import Client, Folder
from measures import given_program, service, worked

QUEUES = 64
COUNTS = (1_000, 10_000, 100_000)
TICKS = (200, 2_000)
RUNS = 3
# How many times the program serves a case, each time in another way.
WAYS = 7

TYPE = "application/octet-stream"
# Room for the records that a job and a tick append to an area, and for the queues.
OF_JOB, OF_TICK, OF_QUEUES = 100, 50 * QUEUES, 100 * QUEUES


def queue(number):
    """Its name. The names sort in the order of the numbers."""
    return f"q{number:02}"


def before(count):
    """The commands that create the queues and the jobs, and their replies."""
    lines = [f"queue {queue(n)} s:/ {TYPE} retry-current-job 30 0\n" for n in range(QUEUES)]
    replies = ["ok\n"] * QUEUES
    for job in range(1, QUEUES + count + 1):
        lines.append(f'create {queue((job - 1) % QUEUES)} ann t 1 50 ""\nclose {job} x\n')
        replies.append(f"ok job {job}\nok type {TYPE} stages 1\n")
    return "".join(lines), "".join(replies)


def orders(attempt, behind):
    """The orders of the first job of each queue, as they are in the account."""
    for n in range(QUEUES):
        job = n + 1
        texts = ["CHARSET=utf-8", f"CONTENT_TYPE={TYPE}", "CUPS_FILETYPE=document", "DEVICE_URI=s:/", f"FINAL_CONTENT_TYPE={TYPE}"]
        texts += ["LANG=C", "PATH=/bin", f"PRINTER={queue(n)}", "PRINTER_INFO=", "PRINTER_LOCATION=", "TMPDIR=/r"]
        texts += [f"SPOOL_ATTEMPT={attempt}", "SPOOL_SIDE=", "SPOOL_STAGE=1"]
        words = [str(job), "ann", "t", "1", "", f"/r/in-{job}-{attempt}-1"]
        yield f"job {job} attempt {attempt} stage 1 behind {behind}\n"
        yield "backend s" + "".join(f' "{word}"' for word in words) + "\n"
        yield "variables" + "".join(f' "{variable}"' for variable in texts) + "\n"
        yield "document \n"


def account_of(started, finished):
    return f"tick: started {started}, finished {finished}\n"


def none_ended(ticks):
    """The children and the account of `ticks` ticks if no child ends."""
    if not ticks:
        return "", ""
    looks = "looks" + " no" * (QUEUES * ticks) + "\n\n"
    first = account_of(QUEUES, 0) + account_of(0, 0) * (ticks - 1)
    return looks + "\n\n".join(["exit 0"] * QUEUES), first + "".join(orders(1, 0)) + f"finished {QUEUES}\n"


def each_ended(ticks):
    if not ticks:
        return "", ""
    all_orders = (line for tick in range(ticks) for line in orders(tick + 1, QUEUES * tick))
    account = account_of(QUEUES, QUEUES) * ticks + "".join(all_orders) + f"finished {QUEUES * ticks}\n"
    return "\n\n".join(["exit 7"] * (QUEUES * ticks)), account


def none_started(ticks):
    return "", account_of(0, QUEUES) * ticks


KINDS = {"no child has ended": none_ended, "each ends at once": each_ended, "none can be started": none_started}


def write_case(folder, count, kind, ticks):
    script, replies = before(count)
    children, account = kind(ticks)
    size = 2 * (OF_QUEUES + OF_JOB * (QUEUES + count) + OF_TICK * TICKS[-1])
    files = {"script": script + "# tick\n" * ticks, "replies": replies, "children": children, "account": account, "size": f"{size}\n"}
    for ending, text in files.items():
        write(os.path.join(folder, f"case.{ending}"), text)


def seconds(program, count, kind, ticks):
    """The least processor time of the program on this case."""
    with tempfile.TemporaryDirectory() as folder:
        write_case(folder, count, kind, ticks)
        return min(run(program, folder) for _ in range(RUNS))


def run(program, folder):
    with tempfile.TemporaryFile() as output:
        status, used = ended([program, folder], stdout=output)
        output.seek(0)
        said = output.read()
    if status or said != b"case ok\n1 scripts, 0 differ\n":
        sys.exit(f"the program printed {said[:300]!r}")
    return used.ru_utime + used.ru_stime


# ---- real children

SECONDS = 35
FAST, SLOW = 0.01, 5
# The number of waiting jobs of a queue while it is kept full.
WAITING = 8


def keep_full(folder, queue, stop):
    """A client that creates the jobs of a queue, so that some always wait."""
    client, jobs = Client(folder), []
    while not stop.is_set():
        jobs.append(client.submit(queue, f"{queue}\n"))
        if WAITING <= len(jobs):
            client.listing(f"wait {jobs.pop(0)}\n")


def ask_on_and_on(folder, stop, times):
    client = Client(folder)
    while not stop.is_set():
        times.append(timed(lambda: client.listing("queues\n")))
        time.sleep(0.01)


def printed_next_to(slow):
    """The number of jobs of 10 ms that are printed next to `slow` slow queues, and the time of each reply to another client."""
    stop, times = threading.Event(), []
    with service() as folder:
        client = Client(folder)
        queues = {**{f"fast{n}": FAST for n in range(2)}, **{f"slow{n}": SLOW for n in range(slow)}}
        for name, seconds in queues.items():
            folder.queue(client, name, seconds)
        tasks = [(keep_full, (folder, name, stop)) for name in queues] + [(ask_on_and_on, (folder, stop, times))]
        threads = [threading.Thread(target=task, args=words, daemon=True) for task, words in tasks]
        for thread in threads:
            thread.start()
        time.sleep(SECONDS)
        found = folder.printed().count("fast")
        stop.set()
        for thread in threads:
            thread.join()
        folder.shut_down()
        return found, times


def idle_work():
    """The processor time in milliseconds of a service that does nothing for ten seconds."""
    with service() as folder:
        client = Client(folder)
        folder.queue(client, "q")
        client.until_state(client.submit("q"), "9")
        time.sleep(1)
        return worked(folder)


def with_real_children(program):
    Folder.service = program
    print(f"real children, {SECONDS} s")
    alone, times = printed_next_to(0)
    print(f"  {alone} fast jobs without a slow queue")
    print_times("a client's replies", times)
    jobs, times = printed_next_to(1)
    print(f"  {jobs} fast jobs next to a slow queue: {jobs / alone:.2f}")
    print_times("a client's replies", times)
    print(f"  idle for 10 s: {idle_work():.0f} ms of processor time")


def in_memory(program):
    for name, kind in KINDS.items():
        print(name)
        for count in COUNTS:
            least = seconds(program, count, kind, 0)
            for ticks in TICKS:
                each = (seconds(program, count, kind, ticks) - least) / ticks / WAYS
                print(f"  {count:9,} jobs wait, {ticks:5,} ticks: {1e6 * each:8.1f} us each")


def main():
    kind = sys.argv[1] if len(sys.argv) > 1 else "all"
    if kind in ("memory", "all"):
        in_memory(given_program(2, SCRIPTS))
    if kind in ("real", "all"):
        with_real_children(given_program(2, SERVICE))


if __name__ == "__main__":
    main()
