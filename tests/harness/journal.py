"""The bytes of a spool: encodes events, rows, records and areas, and decodes the records of a file. harness/spool_model.py decodes rows.

This is a second encoder, written from the tables of codes and not from the program's code, so that the tests can create a spool's file with
any bytes and read the file that the program left. Numbers are big-endian. A text is its length in 2 bytes, then its bytes. A list of texts
is their number, then the texts.

A spool's file has two areas of the same length. An area is a header and records, the last followed by a closed gate:

    header   gate, version, epoch in 8 bytes, 6 zeros
    record   gate, length of the payload in 4 bytes, payload

A gate is open if it is A5. The payload is an event or a row of a listing. The version is 2, or 1 in an area that an older program wrote: a
job has no start deadline there, its row has no field for one, and no event sets one or removes a job.
"""
import io
import os
from dataclasses import dataclass

OPEN = 0xA5
VERSIONS = (1, 2)
NEWEST = 2
HEADER = 16
FRAME = 5  # the gate and the length of a record
LONGEST_PIECE = 65_536

POLICIES = ("abort-job", "retry-job", "retry-current-job", "stop-printer")
LEVELS = ("EMERG", "ALERT", "CRIT", "ERROR", "WARNING", "NOTICE", "INFO")
HOLDS = ("job-hold-until-specified", "cups-held-for-authentication", "held-by-backend")
ABORTS = ("filter-failed", "backend-failed", "retry-limit", "attempt-lost", "no-filter")


def number(value, width):
    return value.to_bytes(width, "big")


def text(words):
    spelled = words.encode()
    return number(len(spelled), 2) + spelled


def texts(words, width):
    return number(len(words), width) + b"".join(map(text, words))


def optional(words):
    return b"\0" if words is None else b"\1" + text(words)


def optional_moment(moment):
    return b"\0" if moment is None else b"\1" + number(moment, 8)


# ---- phases

FREE = b"\0"
COMPLETED = b"\3"
CANCELED = b"\4"


def held(reason=HOLDS[0]):
    return b"\1" + number(HOLDS.index(reason), 1)


def until(moment):
    return b"\2" + number(moment, 8)


def incoming(hold=FREE):
    return b"\0" + hold


def waiting(hold=FREE, not_before=0, first=False):
    return b"\1" + hold + number(not_before, 8) + number(first, 1)


def processing(stage):
    return b"\2" + number(stage, 1)


def aborted(reason):
    return b"\5" + number(ABORTS.index(reason), 1)


# ---- rows of a listing

@dataclass(frozen=True)
class Head:
    highest: int
    now: int = 0

    def payload(self, version=NEWEST):
        return b"\x40" + number(self.highest, 4) + number(self.now, 8)


@dataclass(frozen=True)
class Queue:
    name: str
    uri: str = "s:/"
    target: str = "a/b"
    policy: str = POLICIES[0]
    interval: int = 30
    limit: int = 5
    info: str = ""
    location: str = ""
    accepting: bool = True
    stopped: bool = False
    message: str = ""
    reasons: tuple = ()
    attributes: tuple = ()  # pairs of a name and a value

    def fields(self):
        words = text(self.name) + text(self.uri) + text(self.target)
        return words + number(POLICIES.index(self.policy), 1) + number(self.interval, 4) + number(self.limit, 2)

    def event(self):
        """The event that adds it."""
        return b"\x01" + self.fields()

    def payload(self, version=NEWEST):
        state = number(self.accepting, 1) + number(self.stopped, 1) + text(self.message)
        pairs = b"".join(text(name) + text(value) for name, value in self.attributes)
        reported = texts(self.reasons, 1) + number(len(self.attributes), 1) + pairs
        return b"\x41" + self.fields() + text(self.info) + text(self.location) + state + reported


@dataclass(frozen=True)
class Job:
    number: int
    queue: str
    user: str = "u"
    title: str = ""
    copies: int = 1
    priority: int = 50
    options: str = ""
    media: str | None = None
    filters: tuple = ()
    attempts: int = 0
    pages: int = 0
    size: int = 0
    phase: bytes = incoming()
    by: int | None = None  # the start deadline

    def event(self):
        """The event that creates it."""
        words = text(self.queue) + number(self.number, 4) + text(self.user) + text(self.title)
        fields = words + number(self.copies, 2) + number(self.priority, 1) + text(self.options)
        return b"\x05" + fields if self.by is None else b"\x11" + fields + number(self.by, 8)

    def payload(self, version=NEWEST):
        assert version > 1 or self.by is None, "version 1 has no place for a moment"
        words = number(self.number, 4) + text(self.queue) + text(self.user) + text(self.title)
        wishes = number(self.copies, 2) + number(self.priority, 1) + text(self.options)
        chain = optional(self.media) + texts(self.filters, 1)
        counts = number(self.attempts, 4) + number(self.pages, 4) + number(self.size, 4)
        by = b"" if version == 1 else optional_moment(self.by)
        return b"\x42" + words + wishes + chain + counts + self.phase + by


@dataclass(frozen=True)
class Piece:
    job: int
    data: bytes

    def payload(self, version=NEWEST):
        return b"\x43" + number(self.job, 4) + number(len(self.data), 4) + self.data


def pieces(job, document):
    """The pieces of a document."""
    return [Piece(job, document[at:at + LONGEST_PIECE]) for at in range(0, len(document), LONGEST_PIECE)]


# ---- events

def info(queue, words, location):
    return b"\x02" + text(queue) + text(words) + text(location)


def set_accept(queue, accepting):
    return b"\x03" + text(queue) + number(accepting, 1)


def set_stop(queue, stopped):
    return b"\x04" + text(queue) + number(stopped, 1)


def send(job, data):
    return b"\x06" + number(job, 4) + number(len(data), 4) + data


def close(job, filters=(), media="a/b"):
    """Filters of None: no chain of filters converts to the queue's type."""
    return b"\x07" + number(job, 4) + text(media) + (b"\0" if filters is None else b"\1" + texts(filters, 1))


def hold(job, moment=None):
    return b"\x08" + number(job, 4) + (b"\1" if moment is None else b"\2" + number(moment, 8))


def clock(moment):
    return b"\x0B" + number(moment, 8)


def stage(job, attempt, at, code, *effects):
    """The end of a stage whose child exited with this code, or of another exit, already encoded."""
    ended = code if isinstance(code, bytes) else b"\0" + number(code, 1)
    counts = number(0, 4) + number(len(effects), 2)
    return b"\x0D" + number(job, 4) + number(attempt, 4) + number(at, 1) + ended + counts + b"".join(effects)


SIGNAL = b"\1"
NO_START = b"\2"
LOST = b"\3"


REOPEN = b"\x0F"


def of_job(kind):
    """An event that has only the number of a job."""
    return lambda job: kind + number(job, 4)


release, cancel, start, abandon, purge = map(of_job, (b"\x09", b"\x0A", b"\x0C", b"\x0E", b"\x10"))


# ---- effects

def pages(page, copies):
    return b"\1" + number(page, 4) + number(copies, 4)


def total_pages(count):
    return b"\2" + number(count, 4)


def of_reasons(kind):
    """An effect that has only reasons."""
    return lambda *words: kind + texts(words, 2)


set_reasons, add_reasons, drop_reasons = map(of_reasons, (b"\3", b"\4", b"\5"))


def attribute(name, value):
    return b"\6" + text(name) + text(value)


def message(words, level="INFO"):
    return b"\7" + number(LEVELS.index(level), 1) + text(words)


# ---- records, areas and files

def record(payload):
    return bytes([OPEN]) + number(len(payload), 4) + payload


def header(epoch, gate=OPEN, version=NEWEST):
    return bytes([gate, version]) + number(epoch, 8) + bytes(6)


def area(length, epoch, payloads, gate=OPEN, closed=0, version=NEWEST):
    """An area of this length: its records, and a closed gate after them. It is truncated if it is longer."""
    written = header(epoch, gate, version) + b"".join(map(record, payloads)) + bytes([closed])
    return written[:length].ljust(length, b"\0")


def image(size, payloads=(), epoch=1, closed=0, version=NEWEST):
    """A spool's file: the first area has these payloads, and the other one is as it was created."""
    half = size // 2
    return (area(half, epoch, payloads, closed=closed, version=version) + bytes(half)).ljust(size, b"\0")


def places(payloads):
    """The offset of the gate of each record, and of the gate after the last record."""
    found = [HEADER]
    for payload in payloads:
        found.append(found[-1] + FRAME + len(payload))
    return found


def halves(file):
    half = len(file) // 2
    return file[:half], file[half:2 * half]


def epoch_of(half):
    """The epoch of an area whose header is open, or 0."""
    return int.from_bytes(half[2:10], "big") if half[0] == OPEN else 0


def version_of(half):
    """The version in the header of an area."""
    return half[1]


def payloads_between(file, base, end):
    """The payloads of the area of an open file that begins at `base`, up to its first closed gate."""
    found, gate = [], base + HEADER
    file.seek(gate)
    while gate < end and file.read(1) == bytes([OPEN]):
        found.append(file.read(int.from_bytes(file.read(4), "big")))
        gate += FRAME + len(found[-1])
    return found


def payloads_of(half):
    """The payloads of an area up to its first closed gate."""
    return payloads_between(io.BytesIO(half), 0, len(half))


def current_base(file, size):
    """The offset of the area with the higher epoch in an open file."""
    def epoch_at(base):
        file.seek(base)
        return epoch_of(file.read(HEADER))

    return max((0, size // 2), key=epoch_at)


def current_payloads(path):
    """The payloads of that area of the file with this path. The file may be larger than the memory."""
    with open(path, "rb") as file:
        size = os.path.getsize(path)
        base = current_base(file, size)
        return payloads_between(file, base, base + size // 2)


def current_half(file):
    """The area with the higher epoch."""
    return max(halves(file), key=epoch_of)


def current(file):
    """The payloads of that area, and its epoch."""
    half = current_half(file)
    return payloads_of(half), epoch_of(half)


def current_version(file):
    return version_of(current_half(file))
