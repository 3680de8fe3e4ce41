"""Spools of any number of events, or rows of a listing, written byte by byte and quickly."""
from harness.journal import cancel, clock, Head, header, Job, number, optional, optional_moment, Queue, record, send, text

LAB = Queue("lab", "spoolfile:/out", "application/octet-stream")


def clocks(count):
    """Clocks, each of the next second."""
    return map(clock, range(count))


def jobs(count):
    """Jobs with a small document, each created, sent and canceled."""
    yield LAB.event()
    for event in range(count - 1):
        job = event // 3 + 1
        yield created(job) if event % 3 == 0 else send(job, b"hello") if event % 3 == 1 else cancel(job)


def sends(count):
    """Jobs with sixteen pieces of 64 bytes, each canceled after they are sent."""
    yield LAB.event()
    for event in range(count - 1):
        job = event // 18 + 1
        yield created(job) if event % 18 == 0 else send(job, 64 * b"x") if event % 18 < 17 else cancel(job)


def created(job):
    return Job(job, "lab", "ann", "A title").event()


def rows(count, by=lambda job: None, options=lambda job: ""):
    """The listing of a table: a head, a queue, and waiting jobs without documents."""
    yield Head(count).payload()
    yield LAB.payload()
    words = text("lab") + text("ann") + text("A title") + number(1, 2) + number(50, 1)
    state = optional("a/b") + bytes(13) + b"\x01" + bytes(10)
    for job in range(1, count - 1):
        yield b"\x42" + number(job, 4) + words + text(options(job)) + state + optional_moment(by(job))


def stopped_rows(count, **fields):
    """The same, with the queue stopped: no job starts."""
    for place, row in enumerate(rows(count, **fields)):
        yield row[:-5] + b"\x01" + row[-4:] if place == 1 else row


def timed_rows(count):
    """The same with jobs that each have a different start deadline, in no order."""
    return rows(count, lambda job: job * 7_919 % 1_000_003)


def spool(payloads, room=4_096):
    """The bytes of a spool whose current area has these payloads, and room for more."""
    half = header(1) + b"".join(map(record, payloads)) + bytes(room)
    return half + bytes(len(half))
