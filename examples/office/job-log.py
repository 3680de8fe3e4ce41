#!/usr/bin/env python3
"""Shows the lines of the service's log about jobs: job-log.py [--unit UNIT | --log FILE..] JOB..

A JOB is a number such as 12, or with its queue, such as hall-12. The lines are those about the ends of its stages, with the last lines that
its filters and its backend have written on standard error, so they say why a job failed. They are in the journal of systemd as long as that
keeps them: see MaxRetentionSec and SystemMaxUse in journald.conf(5). The numbers of jobs are not given again, so a line is about no other job
of the same spool.

    --unit UNIT     the service's unit, by default cegmandi
    --log FILE      a file with the standard error of the service, also compressed by gzip, in place of the journal. Can be repeated: the
                    oldest file first

The status is 0 if there is a line, 1 if there is none or the journal cannot be read, and 2 if the arguments are invalid.
"""
import argparse
import gzip
import os
import re
import subprocess
import sys


def number_of(word):
    found = re.fullmatch(r"(?:[A-Za-z0-9_-]+-)?([0-9]{1,10})", word)
    if not found:
        raise argparse.ArgumentTypeError(f"{word} is no job")
    return int(found[1])


def pattern_of(jobs):
    """The lines about these jobs: `spool: job 5 attempt 1 stage 2 NAME: ..` or `spool: job 5 canceled: ..`."""
    return rf"spool: job ({'|'.join(str(job) for job in sorted(set(jobs)))})[ :]"


def lines_of_files(paths, pattern):
    begins = re.compile(pattern.encode())
    for path in paths:
        with open(path, "rb") as file:
            is_packed = file.read(2) == b"\x1f\x8b"
        with (gzip.open if is_packed else open)(path, "rb") as file:
            # A line may have the time before it, as logger(1) or another service manager writes it.
            yield from (line for line in file if begins.search(line))


def lines_of_journal(unit, pattern):
    words = ["journalctl", "--unit", unit, "--output", "short-iso", "--quiet", "--no-pager", "--case-sensitive=true", "--grep", f"^{pattern}"]
    with subprocess.Popen(words, stdout=subprocess.PIPE) as journal:
        yield from journal.stdout
    if journal.returncode not in (0, 1):  # 1: no line
        sys.exit("job-log: journalctl failed")


def first_time(unit):
    """The first line of the journal about the unit begins with its time."""
    words = ["journalctl", "--unit", unit, "--output", "short-iso", "--quiet", "--no-pager"]
    with subprocess.Popen(words, stdout=subprocess.PIPE, stderr=subprocess.DEVNULL) as journal:
        line = journal.stdout.readline().decode(errors="replace")
        journal.terminate()
    return line.split(" ")[0]


def main():
    parser = argparse.ArgumentParser(description=__doc__, formatter_class=argparse.RawDescriptionHelpFormatter)
    parser.add_argument("--unit", default="cegmandi")
    parser.add_argument("--log", action="append", metavar="FILE")
    parser.add_argument("jobs", nargs="+", type=number_of, metavar="JOB")
    options = parser.parse_args()
    pattern = pattern_of(options.jobs)
    count = 0
    try:
        for line in lines_of_files(options.log, pattern) if options.log else lines_of_journal(options.unit, pattern):
            count += 1
            sys.stdout.buffer.write(line)
        sys.stdout.flush()
    except BrokenPipeError:
        os._exit(0)  # the reader has seen enough
    except (OSError, EOFError) as error:
        sys.exit(f"job-log: {error}")
    if not count:
        since = "" if options.log else first_time(options.unit)
        sys.exit("job-log: no line about it" + (f"; the journal begins {since}" if since else ""))


if __name__ == "__main__":
    main()
