#!/usr/bin/env python3
"""Measures the processor time of the gate from scratch: gate_minutes.py [--write] [MINUTES]

It runs `rt ci` in a clean clone of the committed state, with `--anew` if this toolchain has that option, so that no results of earlier runs
are used, and prints a table by crate: the processor minutes of its proof, of its tests and of its edits. A second table has the seconds of
each check of an edit. The first check of a crate proves all of it, and the last one, without an edit, shows that the kept work is that of
the crate. The last line is `N processor minutes`, with status 0, or says that these are more than MINUTES (default 240), or that the gate
failed, with status 1.

The sum is the time that the system counted for the gate and all processes that it started. The table comes from polls of the running
provers, so its parts may lack half a second for each of them. With --write they go to build-times.txt, for the estimates of build.py. Do
not run other heavy work at the same time: two provers on one core slow each other down. On four processors it takes about fifty minutes.
"""
import os
import re
import subprocess
import sys
import tempfile
import threading
import time
from itertools import zip_longest
from pathlib import Path

from harness.programs import ended
from harness.sources import CRATES, HERE, uses

TICKS = os.sysconf("SC_CLK_TCK")
PARTS = ("proof", "tests", "edits")


def used(process):
    """The processor seconds of a process, and when it was started."""
    fields = Path(f"/proc/{process}/stat").read_text(encoding="utf-8").rpartition(")")[2].split()
    return (int(fields[11]) + int(fields[12])) / TICKS, fields[19]


def work_of(process):
    """The crate and the part of the gate that a prover works on, or None if it is no prover."""
    words = Path(f"/proc/{process}/cmdline").read_text(encoding="utf-8", errors="replace").split("\0")
    if not words[0].endswith("/rattle") or "--crate-name" not in words:
        return None
    crate = words[words.index("--crate-name") + 1]
    if os.path.basename(os.readlink(f"/proc/{process}/cwd")).startswith("rt-edit"):
        return crate, "edits"
    return crate, "tests" if "--test" in words else "proof"


class Polls:
    """The provers so far: the newest processor seconds of each, by its process number and start."""

    def __init__(self):
        self.seconds, self.works = {}, {}

    def poll(self):
        for process in filter(str.isdigit, os.listdir("/proc")):
            try:
                seconds, start = used(process)
                key = process, start
                # A process may still show the program that starts the prover.
                if not self.works.get(key):
                    self.works[key] = work_of(process)
                if self.works[key]:
                    self.seconds[key] = seconds
            except (OSError, IndexError):
                # It has ended meanwhile.
                continue

    def table(self):
        minutes = {}
        for key, seconds in self.seconds.items():
            crate, part = self.works[key]
            row = minutes.setdefault(crate, dict.fromkeys(PARTS, 0.0))
            row[part] += seconds / 60
        return minutes

    def checks_of_edits(self):
        """The seconds of the checks of each crate's edits, in their order, which is that of their starts."""
        checks = {}
        for key, work in self.works.items():
            if work and work[1] == "edits":
                checks.setdefault(work[0], []).append((int(key[1]), self.seconds[key]))
        return {crate: [seconds for _, seconds in sorted(row)] for crate, row in checks.items()}


def names_of_checks(crate):
    """The names of a crate's edits in the order in which `rt ci` tries them, and then that of the check without an edit."""
    edits = sorted(it.stem for it in (CRATES / crate / "must-fail").glob("*.edit"))
    return [*edits, "no edit"] if len(edits) > 1 else edits


def words_of_gate():
    """The command that runs the gate from scratch. A toolchain that reuses earlier results has the option `--anew`; others reuse none."""
    helped = subprocess.run(["rt", "help"], capture_output=True, text=True, check=False)
    return ["rt", "ci", "--anew"] if "--anew" in helped.stdout + helped.stderr else ["rt", "ci"]


def gate(folder, polls):
    """Runs the gate in a folder. Returns its status, its output, and the processor seconds of all processes that it started."""
    log = os.path.join(folder, "gate.log")
    done = threading.Event()

    def keep_polling():
        while not done.is_set():
            polls.poll()
            time.sleep(0.5)

    polling = threading.Thread(target=keep_polling)
    polling.start()
    with open(log, "w", encoding="utf-8") as file:
        status, usage = ended(words_of_gate(), cwd=os.path.join(folder, "clone"), stdout=file, stderr=file)
    done.set()
    polling.join()
    return status, Path(log).read_text(encoding="utf-8", errors="replace"), usage.ru_utime + usage.ru_stime


def write(minutes):
    """Writes the minutes of each crate to build-times.txt, in the order of crates.txt."""
    lines = ["# The processor minutes of each crate in the gate: of its proof, of its tests, and of its edits."]
    lines += [f"{name:24}" + "".join(f"{minutes[name][part]:8.1f}" for part in PARTS) for name in uses() if name in minutes]
    (HERE / "build-times.txt").write_text("\n".join(lines) + "\n", encoding="utf-8")


def main():
    words = [it for it in sys.argv[1:] if it != "--write"]
    most = float(words[0]) if words else 240.0
    polls, start = Polls(), time.monotonic()
    with tempfile.TemporaryDirectory() as folder:
        subprocess.run(["git", "clone", "--quiet", HERE, os.path.join(folder, "clone")], check=True)
        status, text, seconds = gate(folder, polls)
    print(f"{'crate':24}{'proof':>8}{'tests':>8}{'edits':>8}{'sum':>8}")
    minutes = polls.table()
    for crate, row in sorted(minutes.items(), key=lambda it: -sum(it[1].values())):
        print(f"{crate:24}" + "".join(f"{row[part]:8.1f}" for part in PARTS) + f"{sum(row.values()):8.1f}")
    sums = [sum(row[part] for row in minutes.values()) for part in PARTS]
    print(f"{'all provers':24}" + "".join(f"{it:8.1f}" for it in [*sums, sum(sums)]))
    print(f"\n{'crate':24}{'seconds':>8}  edit")
    for crate, checks in sorted(polls.checks_of_edits().items()):
        for name, taken in zip_longest(names_of_checks(crate), checks):
            print(f"{crate:24}{taken or 0:8.0f}  {name or 'another check'}")
    said = re.findall(r"^\d+ passed, \d+ failed.*$", text, re.M)
    print(f"{said[-1] if said else 'no last line'}; {(time.monotonic() - start) / 60:.0f} minutes by the clock")
    if "--write" in sys.argv and not status:
        write(minutes)
    if status:
        print("\n".join(text.splitlines()[-20:]))
        print("the gate failed")
    elif seconds / 60 > most:
        print(f"{seconds / 60:.0f} processor minutes, more than the limit of {most:.0f}")
    else:
        print(f"{seconds / 60:.0f} processor minutes")
    sys.exit(1 if status or seconds / 60 > most else 0)


main()
