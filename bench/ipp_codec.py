#!/usr/bin/env python3
"""Measures the decoding and encoding of an answer with 200 attributes: ipp_codec.py [PROGRAM]

It runs crates/ipp_codec_tests/out/ipp_codec_tests (built by `rt run` in that crate) or PROGRAM on an answer to Get-Printer-Attributes with
200 attributes: those that cupsd(8) answered, in `data` of that crate, and some of them again under other names. It prints how many such
answers are decoded and encoded a second of processor time, and the octets. The time of a run with one call is subtracted.

In the same run libcups (Debian's package libcups2-dev) reads and writes the answer, and a plain program does so with one copy of each name
and text and no tests, as a floor (ipp_messages.c). Each mode is run in turn with the others, so that other programs on the machine slow
all of them down alike. The ratios say how much faster than the program the others are.

The aim is 100,000 a second. The answer has 1,227 values, and `decode` examines each of its 819 names and texts and copies it to memory of
its own, which the floor does too. Times depend on the machine. No test checks them.
"""
import os
import resource
import subprocess
import sys

from harness.files import read
from harness.programs import compiled, CRATES, path_of

CRATE = os.path.join(CRATES, "ipp_codec_tests")
PROGRAM = path_of("ipp_codec_tests")

ATTRIBUTES = 200
CALLS = 5_000


def field(octets, at):
    """Where the field that begins with a length at this place ends."""
    return at + 2 + int.from_bytes(octets[at : at + 2], "big")


def message(octets):
    """The header, and the attributes of each group after the group's tag."""
    at, groups = 8, []
    while octets[at] != 3:
        if octets[at] < 16:
            groups.append((octets[at : at + 1], []))
            at += 1
            continue
        start = at
        at = field(octets, field(octets, at + 1))
        if octets[start + 1 : start + 3] == b"\0\0":
            groups[-1][1][-1] += octets[start:at]
        else:
            groups[-1][1].append(octets[start:at])
    return octets[:8], groups


def renamed(attribute, number):
    """The attribute under a name with the same length."""
    end = field(attribute, 1)
    return attribute[:3] + (b"%03d" % number + attribute[6:end]) + attribute[end:]


def answer():
    header, groups = message(read(os.path.join(CRATE, "data", "printer_attributes")))
    last = groups[-1][1]
    lacking = ATTRIBUTES - sum(len(attributes) for _, attributes in groups)
    last += [renamed(attribute, number) for number, attribute in enumerate(last[:lacking])]
    return header + b"".join(tag + b"".join(attributes) for tag, attributes in groups) + b"\3"


def seconds(program, mode, calls, octets):
    """The processor time of a run."""
    before = resource.getrusage(resource.RUSAGE_CHILDREN)
    subprocess.run([program, mode, str(calls)], input=octets, check=True)
    after = resource.getrusage(resource.RUSAGE_CHILDREN)
    return after.ru_utime - before.ru_utime + after.ru_stime - before.ru_stime


def compared():
    """The program of ipp_messages.c, if libcups and its header are installed."""
    try:
        return compiled("ipp_messages.c", "-O2", "-lcups")
    except (OSError, subprocess.CalledProcessError):
        return None


def rates(runs, octets):
    """For each name the calls a second: the best of five turns, without the time of one call."""
    best = {}
    for _ in range(5):
        for name, (program, mode) in runs.items():
            took = seconds(program, mode, CALLS, octets) - seconds(program, mode, 1, octets)
            best[name] = max(best.get(name, 0), CALLS / took)
    return best


def main():
    program = sys.argv[1] if sys.argv[1:] else PROGRAM
    octets = answer()
    print(f"an answer of {ATTRIBUTES} attributes, {len(octets)} octets")
    other = compared()
    if other is None:
        print("libcups and the floor are left out: gcc, or the package libcups2-dev, is missing")
    for mode, cups in (("decode", "read"), ("encode", "write")):
        runs = {mode: (program, mode)}
        if other:
            runs |= {"libcups": (other, cups), "floor": (other, mode)}
        best = rates(runs, octets)
        for name, rate in best.items():
            label = f"{mode}: {rate:,.0f} a second, {rate * len(octets) / 1e6:,.0f} MB a second"
            print(label if name == mode else f"  {name}: {rate:,.0f} a second, {rate / best[mode]:.2f} times as many")


if __name__ == "__main__":
    main()
