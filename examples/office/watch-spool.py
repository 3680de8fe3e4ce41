#!/usr/bin/env python3
"""Checks a print service for a monitor: watch-spool.py [OPTION..]

It prints one line, as the checks of Nagios do, and exits with 0 if all is well, 1 for a warning, 2 if something is critical, and 3 if the
service does not answer. With --prometheus it also writes the numbers for the textfile collector of Prometheus's node_exporter. Run it every
minute. It only looks, and needs no rights but to connect.

    --socket SOCKET        by default /run/cegmandi/spool.sock
    --root FOLDER          the spool's folder: then the free part of the journal is read too. This needs a user who may read the spool
    --prometheus FILE      write the numbers to this file
    --age SECONDS          a job that can print and waits for longer is a warning, by default 1800; four times as long is critical
    --prints SECONDS       a job whose attempt takes longer is a warning, by default 3600; four times as long is critical
    --room BYTES           less room for a document is a warning, by default 16777216, the longest; less than a sixteenth is critical
    --free PERCENT         a smaller free part of the journal is a warning, by default 10; less than a fifth of it is critical

It looks at the queues that are stopped or reject jobs, the jobs of each state, how long the oldest job of each queue waits and prints, the
jobs that are tried again, the longest document that is accepted, and the free part of the journal after its last record. A stopped queue
is a warning only if jobs wait for it. A held job does not wait.
"""
import argparse
import collections
import os
import shlex
import socket
import sys

OK, WARNING, CRITICAL, UNKNOWN = range(4)
WORDS = ("OK", "WARNING", "CRITICAL", "UNKNOWN")
SECONDS = 10
WAITING, HELD, PROCESSING = "3", "4", "5"
STATES = {WAITING: "waiting", HELD: "held", PROCESSING: "processing", "7": "canceled", "8": "aborted", "9": "completed"}
# How many jobs of a queue are asked for at once, to find the oldest that can print.
MOST = 100
OPEN, HEADER, FRAME = 0xA5, 16, 5


class Fault(Exception):
    """The service does not answer as it should."""


class Service:
    def __init__(self, path):
        self.line = socket.socket(socket.AF_UNIX)
        self.line.settimeout(SECONDS)
        self.line.connect(path)
        self.replies = self.line.makefile("rb")

    def ask(self, command):
        """The lines of a reply: those before `ok`, and then `ok` with its words."""
        self.line.sendall(command.encode() + b"\n")
        lines = []
        while True:
            line = self.replies.readline().decode(errors="replace")
            if not line.endswith("\n"):
                raise Fault(f"no reply to {command}")
            lines.append(line[:-1])
            if line.startswith("error"):
                raise Fault(f"{command}: {line[:-1]}")
            if line.startswith("ok"):
                return lines

    def jobs(self, words):
        """The fields of the first jobs of a listing."""
        found = []
        for line in self.ask(f"list {words} most {MOST}")[:-1]:
            name, _, value = line.partition(" ")
            if name == "job":
                found.append({})
            found[-1][name] = value
        return found


class Report:
    def __init__(self):
        self.level, self.texts, self.numbers = OK, [], []

    def add(self, level, text):
        self.level = max(self.level, level)
        self.texts.append(text)

    def compare(self, text, value, warning, critical):
        """Reports a value above one of these bounds."""
        if value > critical:
            self.add(CRITICAL, text)
        elif value > warning:
            self.add(WARNING, text)

    def number(self, name, value, **labels):
        shown = ",".join(f'{key}="{text}"' for key, text in labels.items())
        self.numbers.append((name, f"cegmandi_{name}{'{' + shown + '}' if shown else ''} {value}"))

    def write(self, path):
        """Writes the numbers, by name, since a collector wants those of one name together. A reader never sees half of them."""
        with open(f"{path}.new", "w") as file:
            for name in dict.fromkeys(name for name, _ in self.numbers):
                file.write(f"# TYPE cegmandi_{name} gauge\n")
                file.writelines(f"{line}\n" for other, line in self.numbers if other == name)
        os.chmod(f"{path}.new", 0o644)
        os.replace(f"{path}.new", path)


def look_at_queue(service, report, options, name, words, counts, now):
    """Looks at a queue with these words of its line: its state and whether it accepts jobs."""
    is_stopped, rejects = words[0] == "5", words[1] != "accepting"
    for state, word in STATES.items():
        report.number("jobs", counts[state], queue=name, state=word)
    report.number("queue_stopped", int(is_stopped), queue=name)
    report.number("queue_rejects", int(rejects), queue=name)
    if is_stopped and counts[WAITING]:
        report.add(WARNING, f"{name} is stopped, and {counts[WAITING]} jobs wait")
    if rejects:
        report.add(WARNING, f"{name} rejects jobs")
    waiting = service.jobs(f"queue {name} state {WAITING}") if counts[WAITING] else []
    tried = [job for job in waiting if job.get("attempts", "0") != "0"]
    ages = [now - int(job["created"]) for job in waiting if job.get("created", "").isdigit()]
    age = max(ages, default=0)
    report.number("jobs_tried_again", len(tried), queue=name)
    report.number("oldest_waiting_seconds", age, queue=name)
    report.compare(f"a job of {name} waits for {age} s", age, options.age, 4 * options.age)
    printing = service.jobs(f"queue {name} state {PROCESSING}") if counts[PROCESSING] else []
    age = max((now - int(job["started"]) for job in printing if job.get("started", "").isdigit()), default=0)
    report.number("oldest_printing_seconds", age, queue=name)
    report.compare(f"a job of {name} prints since {age} s", age, options.prints, 4 * options.prints)


def look_at_service(service, report, options):
    now = int(service.ask("now")[0].split()[2])
    counts = collections.defaultdict(collections.Counter)
    for line in service.ask("jobs")[:-1]:
        words = line.split(" ", 4)
        counts[words[2]][words[3]] += 1
    for line in service.ask("printers")[:-1]:
        words = shlex.split(line)
        look_at_queue(service, report, options, words[1], words[2:], counts[words[1]], now)
    left = [int(line.split()[2]) for line in service.ask("incoming")[:-1]]
    report.number("incoming_left", len(left))
    room = int(service.ask("room")[0].split()[2])
    report.number("room_bytes", room)
    report.compare(f"the longest document has {room} bytes", -room, -options.room, -(options.room // 16))


def free_part(path):
    """The free part of the current half of the spool's file, in percent."""
    disk = os.open(path, os.O_RDONLY)
    try:
        half = os.fstat(disk).st_size // 2
        heads = [(os.pread(disk, HEADER, base), base) for base in (0, half)]
        heads = [(head, base) for head, base in heads if head[:1] == bytes([OPEN])]
        if not heads:
            return None  # between two halves
        base = max(heads, key=lambda it: it[0][2:10])[1]
        place = base + HEADER
        while place + FRAME <= base + half:
            frame = os.pread(disk, FRAME, place)
            if frame[0] != OPEN:
                break
            place += FRAME + int.from_bytes(frame[1:], "big")
        return 100 * max(base + half - place, 0) / half
    finally:
        os.close(disk)


def arguments():
    parser = argparse.ArgumentParser(description=__doc__, formatter_class=argparse.RawDescriptionHelpFormatter)
    parser.add_argument("--socket", default="/run/cegmandi/spool.sock")
    parser.add_argument("--root")
    parser.add_argument("--prometheus")
    parser.add_argument("--age", type=int, default=1_800)
    parser.add_argument("--prints", type=int, default=3_600)
    parser.add_argument("--room", type=int, default=16_777_216)
    parser.add_argument("--free", type=float, default=10)
    return parser.parse_args()


def main():
    options, report = arguments(), Report()
    try:
        look_at_service(Service(options.socket), report, options)
        if options.root:
            free = free_part(os.path.join(options.root, "spool.disk"))
            if free is not None:
                report.number("journal_free_percent", f"{free:.1f}")
                report.compare(f"{free:.1f} % of the journal is free", -free, -options.free, -options.free / 5)
        report.number("up", 1)
    except (Fault, OSError, ValueError, IndexError) as fault:
        report = Report()
        report.add(UNKNOWN, f"{options.socket}: {fault}")
        report.number("up", 0)
    if options.prometheus:
        report.write(options.prometheus)
    print(f"SPOOL {WORDS[report.level]}: {'; '.join(report.texts) or 'all queues print'}")
    return report.level


if __name__ == "__main__":
    sys.exit(main())
