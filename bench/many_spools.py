#!/usr/bin/env python3
"""Computes a day of many spools from measured costs: many_spools.py COSTS [SPOOLS [JOBS [SEED]]]

COSTS is a file that `scale.py --costs` writes. It may also have the seconds of a failover, as `"failover": SECONDS`, if they were measured;
otherwise those of an opening are used. There are SPOOLS spools (default 1,000) of 64 queues each. A queue gets JOBS jobs a day (default 60)
on average, most of them in office hours, and prints them in turn. The script runs no program: it adds up times.

- A job takes three events to be accepted, one to start, one to end and one to purge. Each takes as long as an event was measured to take,
  and the events of one spool follow each other. The load of a journal is computed by the minute: work beyond a minute waits.
- A job prints for 3 to 60 seconds. Its printer fails once in 200 jobs, and the job is tried again 30 s later.
- A spool's host fails once in ten days on average. Then the spool opens on another host after the seconds of a failover. If a submission
  was not acknowledged by then, its client submits it again. Attempts in progress are lost, and the policy `retry-current-job` repeats them,
  so their printed pages are printed twice.
- The contracts promise that no acknowledged job is lost, and tests/test_failover.py checks it. This script assumes it, and counts the jobs by
  applying the rules above.

It prints how many jobs were acknowledged, lost, printed, printed twice and are waiting at the end, how long jobs waited, and for how much
of a minute the busiest journal was at work.
"""
import json
import random
import sys

QUEUES = 64
DAY = 86_400
MINUTE = 60
EVENTS = 6
ACCEPTING = 3
LEAST, MOST = 3, 60
FAILS = 1 / 200
RETRY = 30
BETWEEN = 10 * DAY
# The share of a day's jobs that arrives in each hour, for an office.
HOURS = (1, 1, 1, 1, 1, 2, 4, 10, 30, 40, 42, 38, 25, 35, 42, 40, 32, 18, 8, 4, 3, 2, 2, 1)


class Counts:
    """The outcome of the jobs."""

    def __init__(self):
        self.acknowledged = self.printed = self.twice = self.waiting = self.failed = self.again = self.failures = 0
        self.waits = []
        self.busiest = 0.0
        self.late = 0.0


def failures_of(chance, seconds):
    """When the host of a spool fails, and when the spool is open again."""
    found, at = [], chance.expovariate(1 / BETWEEN)
    while at < DAY:
        found.append((at, at + seconds))
        at += seconds + chance.expovariate(1 / BETWEEN)
    return found


def arrivals(chance, mean):
    """The arrival times of a queue's jobs, in order."""
    total = sum(HOURS)
    moments = []
    for hour, share in enumerate(HOURS):
        at = chance.expovariate(1)
        expected = mean * share / total
        # The gaps have an exponential distribution, and an hour has the jobs that fit into it.
        while at < expected:
            moments.append(3_600 * (hour + at / expected))
            at += chance.expovariate(1)
    return moments


def outage(failures, begin, end):
    """The first failure in this time, if any."""
    for fails, opens in failures:
        if begin < opens and fails < end:
            return fails, opens
    return None


def print_queue(chance, moments, failures, counts, event):
    """Prints the jobs of one queue in turn. Returns when each was accepted."""
    free = 0.0
    for moment in moments:
        # A client that gets no reply submits its job again.
        down = outage(failures, moment, moment + ACCEPTING * event)
        if down:
            counts.again += 1
            moment = down[1] + chance.random()
        counts.acknowledged += 1
        start = max(moment + ACCEPTING * event, free)
        length = chance.uniform(LEAST, MOST)
        while True:
            down = outage(failures, start, start + length)
            if down and down[0] <= start:
                start = down[1]
                continue
            if down:
                # The attempt is lost, and repeated once the spool is open.
                counts.twice += 1
                start = down[1]
                continue
            if chance.random() < FAILS:
                counts.failed += 1
                start += chance.uniform(0, length) + RETRY
                continue
            break
        free = start + length + 2 * event
        if free <= DAY:
            counts.printed += 1
            counts.waits.append(start - moment)
        else:
            counts.waiting += 1


def journal(all_moments, event, counts):
    """For how much of a minute the journal works, and the work that waits for it."""
    minutes = [0] * (DAY // MINUTE + 1)
    for moment in all_moments:
        minutes[int(moment) // MINUTE] += EVENTS
    delay = 0.0
    for events in minutes:
        work = events * event
        counts.busiest = max(counts.busiest, work / MINUTE)
        delay = max(0.0, delay + work - MINUTE)
        counts.late = max(counts.late, delay)


def main():
    if len(sys.argv) < 2:
        sys.exit(__doc__.splitlines()[0])
    with open(sys.argv[1], encoding="ascii") as file:
        costs = json.load(file)
    spools, jobs, seed = (int(sys.argv[at]) if len(sys.argv) > at else other for at, other in ((2, 1_000), (3, 60), (4, 1)))
    event = costs["event"]
    failover = costs.get("failover", max(costs["opening_64"].values()))
    counts, chance = Counts(), random.Random(seed)
    for _ in range(spools):
        failures = failures_of(chance, failover)
        counts.failures += len(failures)
        every = []
        for _ in range(QUEUES):
            moments = arrivals(chance, jobs)
            every += moments
            print_queue(chance, moments, failures, counts, event)
        journal(every, event, counts)
    counts.waits.sort()
    lost = counts.acknowledged - counts.printed - counts.waiting
    middle, late = (counts.waits[len(counts.waits) * part // 100] for part in (50, 99))
    print(f"{spools:,} spools of {QUEUES} queues, {jobs} jobs a queue; an event takes {1e6 * event:.0f} us, a failover {failover:.1f} s")
    print(f"  hosts that failed: {counts.failures:,}")
    print(f"  acknowledged {counts.acknowledged:,}, submitted again by their clients {counts.again:,}, lost {lost:,}")
    print(f"  printed {counts.printed:,}, attempts repeated after a host's failure {counts.twice:,}, after a printer's {counts.failed:,}")
    print(f"  waiting or printing at the end of the day {counts.waiting:,}")
    print(f"  waits before printing: median {middle:.1f} s, 99 of 100 {late:.0f} s, longest {counts.waits[-1]:.0f} s")
    print(f"  the busiest journal worked {100 * counts.busiest:.1f} % of a minute, and its greatest delay was {counts.late:.1f} s")


main()
