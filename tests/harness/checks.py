"""Comparisons, and waiting for events: one class for every difference."""
import contextlib
import functools
import os
import re
import socket
import threading
import time

# How long a test waits for an expected event, in seconds: no judgement of speed, so a machine with much other work passes too.
LONGEST = int(os.environ.get("SERVICE_LONGEST", "120"))


class Difference(AssertionError):
    """A program behaves differently than required."""


def shown(value):
    """A value, truncated if it is long."""
    text = repr(value)
    return text if len(text) <= 2_000 else f"{text[:1_500]} .. {text[-300:]} ({len(text)} characters)"


def same(what, found, wanted):
    __tracebackhide__ = True
    if found != wanted:
        raise Difference(f"{what}: {shown(found)} in place of {shown(wanted)}")


def same_lines(what, found, wanted):
    """Compares bytes, and reports the first line that differs."""
    __tracebackhide__ = True
    if found == wanted:
        return
    ours, theirs = wanted.split(b"\n"), found.split(b"\n")
    for number, (want, have) in enumerate(zip(ours, theirs), 1):
        same(f"{what}, line {number}", have, want)
    raise Difference(f"{what}: {len(theirs) - 1} lines, and not {len(ours) - 1}")


def holds(what, is_so):
    __tracebackhide__ = True
    if not is_so:
        raise Difference(what)


def listens(path):
    """Whether a program accepts connections to the socket with this path."""
    with contextlib.suppress(OSError), socket.socket(socket.AF_UNIX) as probe:
        probe.connect(path)
        return True
    return False


def until(what, is_so, longest=LONGEST):
    __tracebackhide__ = True
    end = time.time() + longest
    while not is_so():
        if end < time.time():
            raise Difference(f"{what}: not within {longest} s")
        time.sleep(0.005)


# What the checks of a test have found so far: a test of many small ones reports all.
FAULTS = []


def check(is_so, fault):
    if not is_so:
        FAULTS.append(fault)


def compare(what, found, wanted):
    check(found == wanted, f"{what}: {shown(found)} in place of {shown(wanted)}")


def reports_all(test):
    """A test that goes on after a failed check, and reports all of them at its end."""
    @functools.wraps(test)
    def runs(*words, **named):
        __tracebackhide__ = True
        FAULTS.clear()
        test(*words, **named)
        holds("\n".join(FAULTS), not FAULTS)

    return runs


# The word of a disk's cause, which begins the line about it, and a line about another cause.
WORDS = "(?:owned|owner unknown|absent|not allowed|read-only|no room|no file|failed)"
CAUSE = re.compile(rf"^(spool: cause: {WORDS})(?::.*)?$", re.MULTILINE)
SENTENCE = re.compile(rf"^spool: cause: (?!{WORDS}$).*\n", re.MULTILINE)


def words_of_faults(errors):
    """Standard error with the words of faults alone: tests/test_faults.py compares the sentences."""
    return SENTENCE.sub("", CAUSE.sub(r"\1", errors))


def quoted(text):
    """A word in quotes, as commands and listings have it."""
    return '"' + text.replace("\\", "\\\\").replace('"', '\\"') + '"'


def print_times(name, seconds):
    """Prints how long an action took that was done several times."""
    seconds = sorted(seconds)
    middle, late, worst = seconds[len(seconds) // 2], seconds[len(seconds) * 99 // 100], seconds[-1]
    print(f"  {name}: {len(seconds)}, median {middle * 1000:.1f} ms, 99 of 100 {late * 1000:.1f} ms, worst {worst * 1000:.1f} ms")


def timed(what):
    """The seconds that a call takes."""
    began = time.time()
    what()
    return time.time() - began


def at_once(tasks):
    """Runs these, each in a thread, and raises the first difference that one reports."""
    faults = []

    def run(task):
        try:
            task()
        except (Difference, OSError) as fault:
            faults.append(fault)

    threads = [threading.Thread(target=run, args=(task,)) for task in tasks]
    for thread in threads:
        thread.start()
    for thread in threads:
        thread.join()
    if faults:
        raise Difference(f"{len(faults)} of {len(threads)}, and first: {faults[0]!r}")
