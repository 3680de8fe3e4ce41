#!/usr/bin/env python3
"""Proves and builds the programs, and shows how long the rest takes: build.py [--jobs N] [CRATE..]

Without CRATE it runs the gate (`.ci/run`), which proves all crates and their tests from nothing, tries the wrong bodies, and builds the
programs as crates/NAME/out/NAME. With several processors nothing is quicker. packaging/deb makes a package of its output, out/gate.txt.

With names it proves only these crates and those below them, N at a time, and builds those that are programs. This is for who changes the
code: the next `rt check` continues with these proofs, and takes less of the processors. The default of N is the number of processors, or
less if there is little memory. The log of the prover is out/build.log.

After an interrupt, run it again: it keeps each proved crate, and with names also the proved part of a crate.

The estimate uses build-times.txt, which has the processor minutes of each crate on one machine (`tests/gate_minutes.py --write`). The
crates that this run has proved show how fast this machine is, and how much of its processors the proofs get.

The last lines are the paths of the programs, with status 0. If a crate is not proved, the messages of the prover are printed, with
status 1.
"""
import argparse
import os
import re
import subprocess
import sys
import time
from pathlib import Path

TOP = Path(__file__).resolve().parent
TIMES = TOP / "build-times.txt"
PROGRAMS = ["spool_service", "spool_shell", "spool_front", "spool_ipp", "spool_admin", "spool_tools"]
TICKS = os.sysconf("SC_CLK_TCK")
# Memory of a proof, in bytes: a large crate over all libraries takes less.
MEMORY = 4 << 30
# The seconds after which the progress is printed again.
SECONDS = 60
# The crates that this run proved show its speed once they are this part of the minutes.
KNOWN = 0.02


# ---- crates

def crates():
    """The crates, each with the libraries of the repository that it uses, lowest first."""
    found = {}
    for line in (TOP / "crates.txt").read_text(encoding="utf-8").splitlines():
        name, colon, words = line.partition("#")[0].partition(":")
        if colon:
            found[name.split()[0]] = words.split()
    return {name: [it for it in uses if it in found] for name, uses in found.items()}


def below(name, uses):
    """The crates that a crate rests on, and itself."""
    found = {name}
    for it in uses[name]:
        found |= below(it, uses)
    return found


def stored_minutes():
    """The processor minutes of each crate that was measured: of its proof, and of all that the gate does with it."""
    found = {}
    for line in TIMES.read_text(encoding="utf-8").splitlines() if TIMES.exists() else []:
        words = line.partition("#")[0].split()
        if words and (TOP / "crates" / words[0]).is_dir():
            found[words[0]] = float(words[1]), sum(map(float, words[1:]))
    return found


def size_of(name):
    """The bytes that a proof of a crate reads, without its libraries."""
    parts = (TOP / "crates" / name / part for part in ("src", "specs", "proofs"))
    return 1 + sum(it.stat().st_size for part in parts for it in part.rglob("*") if it.is_file())


def estimated(stored, wanted):
    """The minutes of each of these crates. Those that were not measured take as long for a byte as the others."""
    sizes = sum(map(size_of, stored)) or 1
    rates = [sum(it[part] for it in stored.values()) / sizes for part in (0, 1)] if stored else [1e-5, 1e-5]
    return {it: stored.get(it) or tuple(rate * size_of(it) for rate in rates) for it in wanted}


# ---- progress

class Provers:
    """The provers that this program started: the processor seconds of each crate so far, and of their places."""

    def __init__(self):
        self.seconds, self.places, self.last, self.running = {}, 0.0, time.monotonic(), set()

    def poll(self, root):
        now, self.running = time.monotonic(), set()
        for process in descendants(root):
            try:
                words = Path("/proc", process, "cmdline").read_bytes().split(b"\0")
                if not words[0].endswith(b"/rattle") or b"--crate-name" not in words:
                    continue
                fields = Path("/proc", process, "stat").read_text(encoding="utf-8").rpartition(")")[2].split()
            except (OSError, IndexError):
                # It has ended meanwhile.
                continue
            crate = words[words.index(b"--crate-name") + 1].decode()
            self.running.add(crate)
            self.seconds.setdefault(crate, {})[process] = sum(map(int, fields[11:13])) / TICKS
        self.places += len(self.running) * (now - self.last)
        self.last = now

    def of(self, crate):
        return sum(self.seconds.get(crate, {}).values())

    def share(self):
        """The part of a processor that a running proof gets."""
        return min(1.0, max(0.05, sum(map(self.of, self.seconds)) / self.places)) if self.places else 1.0


def descendants(root):
    """All processes below a process."""
    children = {}
    for process in filter(str.isdigit, os.listdir("/proc")):
        try:
            fields = Path("/proc", process, "stat").read_text(encoding="utf-8").rpartition(")")[2].split()
        except OSError:
            continue
        children.setdefault(fields[1], []).append(process)
    found = [str(root)]
    for process in found:
        found += children.get(process, [])
    return found[1:]


class Progress:
    """The crates that are proved so far, and an estimate of the time that is left."""

    def __init__(self, wanted, uses, stored, jobs):
        self.wanted, self.uses, self.jobs = wanted, uses, jobs
        minutes = estimated(stored, wanted)
        self.proofs, self.wholes = {it: minutes[it][0] for it in wanted}, {it: minutes[it][1] for it in wanted}
        self.proved, self.took, self.provers, self.said = set(), {}, Provers(), 0.0

    def speed(self):
        """The minutes of the crates that this run proved, by the stored ones: 1 until they are enough."""
        stored = sum(self.proofs[it] for it in self.took)
        return sum(self.took.values()) / 60 / stored if stored > KNOWN * sum(self.proofs.values()) else 1.0

    def left(self):
        """The minutes by the clock that are left: each crate starts once those below it are proved and a place is free."""
        speed = self.speed()
        ends, places, rest = dict.fromkeys(self.proved, 0.0), [0.0] * self.jobs, 0.0
        for crate in self.wanted:
            done = self.provers.of(crate) / 60
            rest += max(0.0, self.wholes[crate] * speed - done) if crate in self.took or crate not in self.proved else 0.0
            if crate not in self.proved:
                start = max([min(places), *(ends[it] for it in self.uses[crate] if it in ends)])
                ends[crate] = start + max(0.1, self.proofs[crate] * speed - done)
                places[places.index(min(places))] = ends[crate]
        return max(*ends.values(), 0.0, rest / self.jobs) / self.provers.share()

    def note(self, crate):
        """Notes that a crate is proved."""
        if crate in self.proofs and crate not in self.proved:
            self.proved.add(crate)
            if self.provers.of(crate):
                self.took[crate] = self.provers.of(crate)
                self.say(always=True)

    def say(self, always=False):
        if not always and time.monotonic() - self.said < SECONDS:
            return
        self.said = time.monotonic()
        left, running = self.left(), sorted(self.provers.running & set(self.wanted) - self.proved)
        text = f"{len(self.proved)} of {len(self.wanted)} crates proved"
        if running:
            text += f", at work: {' '.join(running)}"
        if len(self.proved) < len(self.wanted) or left >= 1:
            text += f"; about {left:.0f} minutes left"
        print(text, flush=True)


# ---- commands

class Reader:
    """Reads what `rt all`, `rt run` or the gate print, and notes the crates that are proved."""

    def __init__(self, progress):
        self.progress, self.lines, self.crate = progress, [], None

    def read(self, line):
        self.lines.append(line)
        of_gate = re.match(r"rt: (\w+) (?:proved$|is kept: )", line)
        if of_gate:
            self.progress.note(of_gate[1])
        elif line.startswith("== "):
            # Nothing is printed of a crate that was proved before.
            if self.crate and self.lines[-2] == f"== {self.crate}":
                self.progress.note(self.crate)
            self.crate = line[3:]
        elif line.startswith("logic=proved ") and self.crate:
            self.progress.note(self.crate)


def run(words, folder, log, progress):
    """Runs a command, and notes the crates that it proves. Returns its status and its output."""
    reader, rest = Reader(progress), b""
    os.makedirs(TOP / "out", exist_ok=True)
    with open(log, "ab", buffering=0) as to, open(log, "rb") as came:
        came.seek(0, os.SEEK_END)
        process = subprocess.Popen(words, cwd=folder, stdin=subprocess.DEVNULL, stdout=to, stderr=to)
        while True:
            ended = process.poll() is not None
            progress.provers.poll(process.pid)
            *lines, rest = (rest + came.read()).split(b"\n")
            for line in lines:
                reader.read(line.decode(errors="replace"))
            progress.say()
            if ended:
                return process.returncode, reader.lines
            time.sleep(0.5)


def failures(output):
    """The messages of the prover about the crates that it did not prove."""
    summary = [it for it in output if re.match(r"\w+: (failed|not run)", it)]
    parts = re.split(r"(?m)^(?=== )", "\n".join(output))
    failed = [it.partition(":")[0] for it in summary if ": failed" in it]
    said = [it[-3_000:] for it in parts if it.startswith(tuple(f"== {name}\n" for name in failed))]
    return "\n".join([*said, *summary]) or "\n".join(output[-40:])


def build(names, jobs, log, progress):
    """Proves the crates below these, and builds the programs."""
    for name in names:
        folder = TOP / "crates" / name
        status, output = run(["rt", "all", "check", "--jobs", str(jobs)], folder, log, progress)
        if not status:
            is_program = (folder / "src/main.rt").exists()
            words = ["rt", "run", "--", "--version"] if is_program else ["rt", "lib"]
            status, output = run(words, folder, log, progress)
            status = 0 if (folder / "out" / (name if is_program else "rlib/stamp")).exists() else status or 1
        if status:
            print(failures(output))
            return 1
    progress.say(always=True)
    listed(names)
    return 0


def listed(names):
    """Prints the paths of the built programs."""
    for name in names:
        if (TOP / "crates" / name / "out" / name).exists():
            print(f"crates/{name}/out/{name}")


def gate(progress):
    to = TOP / "out" / "gate.txt"
    to.unlink(missing_ok=True)
    status, output = run([TOP / ".ci/run"], TOP, to, progress)
    print("\n".join(output[-12:]))
    if not status:
        listed(PROGRAMS)
    return status


def places():
    """The number of proofs at a time for which there are processors and memory."""
    available = re.search(r"MemAvailable: +(\d+) kB", Path("/proc/meminfo").read_text(encoding="utf-8"))
    memory = int(available[1]) * 1024 if available else MEMORY
    return max(1, min(len(os.sched_getaffinity(0)), memory // MEMORY))


def main():
    words = argparse.ArgumentParser(description=__doc__, formatter_class=argparse.RawDescriptionHelpFormatter)
    words.add_argument("--jobs", type=int)
    words.add_argument("crates", nargs="*")
    given = words.parse_args()
    uses, names = crates(), given.crates
    unknown = [name for name in names if name not in uses]
    if unknown or given.jobs is not None and (given.jobs < 1 or not names):
        sys.exit(f"not in crates.txt: {' '.join(unknown)}" if unknown else __doc__)
    jobs = given.jobs or places()
    wanted = [it for it in uses if not names or any(it in below(name, uses) for name in names)]
    stored = stored_minutes()
    progress = Progress(wanted, uses, {name: (it[0], it[0]) for name, it in stored.items()} if names else stored, jobs)
    total = sum(progress.wholes.values())
    print(f"{len(wanted)} crates, {jobs} at a time: about {total:.0f} processor minutes if none is proved yet", flush=True)
    return build(names, jobs, TOP / "out" / "build.log", progress) if names else gate(progress)


if __name__ == "__main__":
    sys.exit(main())
