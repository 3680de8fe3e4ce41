#!/usr/bin/env python3
"""Measures what falls due in the service while jobs wait and a client watches: due.py [PROGRAM]

It runs crates/spool_service/out/spool_service (built by `rt run` in that crate) or PROGRAM over spools of 10 to 1,000,000 waiting jobs in
one stopped queue, in TMPDIR, whose files it writes byte by byte. A client watches. Another holds one job until the next second, TURNS
times, once a second. So in each second the service looks for what is due, sends its engine the clock, and notes the job whose hold is over.
The script prints the processor time of the service for each turn, and its ratio to that with the fewest jobs.

The job is in a stopped queue of its own: when a hold ends, the index of the job's queue examines its waiting jobs (`Index::advance`). Apart
from that, a turn should take as long whatever the number of waiting jobs, so the ratios should be near 1. Times depend on the machine, so
only the ratios are of interest. No test checks them. The largest spool takes several seconds to open.
"""
import time

from harness.programs import SERVICE
from harness.service import Client, Folder
from harness.written_spools import stopped_rows
from measures import given_program, grown, service

COUNTS = (10, 1_000, 100_000, 1_000_000)
TURNS = 10


def hold_once(client, watcher, job):
    """Holds the job until the next second, and waits until the watching client is sent that the hold is over."""
    client.does(f"hold {job} {int(time.time()) + 1}")
    while True:
        words = watcher.reply().split()
        if words[:2] == ["job", str(job)] and words[3] == "3":
            return


def measured(count):
    """The milliseconds of processor time of a turn."""
    with service("--keep", "1000000", payloads=stopped_rows(count + 2)) as folder:
        client, watcher = Client(folder), Client(folder)
        folder.queue(client, "alone")
        client.does("disable alone")
        job = client.submit("alone")
        watcher.does("watch")
        hold_once(client, watcher, job)
        return folder.work_for(lambda: hold_once(client, watcher, job), TURNS)


def main():
    Folder.service = given_program(1, SERVICE)
    for count, took, ratio in grown(measured, COUNTS):
        print(f"{count:9,} waiting jobs: {took:8.2f} ms a turn, ratio {ratio:5.2f}", flush=True)


if __name__ == "__main__":
    main()
