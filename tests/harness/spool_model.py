"""A small model of a spool: decodes the bytes of its file to a table, or to the fault and its place.

It is written from docs/PROMISES.md and the definitions that it names, and shares no code with the program: tests/harness/journal.py encodes rows
and records. `opened` is the result of opening an image. `Table` applies events to a table, and refuses some. The reason of a refusal is not
modelled: a refused event in an image is damage, whatever its cause.
"""
import re
from dataclasses import dataclass, field

from harness import journal
from harness.checks import quoted

HALF_AT_LEAST = 23
ROOM_KEPT = 7  # for the record of a reopening, and the gate after it
GREATEST_EPOCH = 2 ** 64 - 1
GREATEST_COUNT = 2 ** 32 - 1
GREATEST_JOB = 2 ** 31 - 1
GREATEST_MOMENT = 4_000_000_000_000
LONGEST_DOCUMENT = 16_777_216
LONGEST_SEND = 65_536
MOST_QUEUES = 64
MOST_KEPT = 64  # reasons, and attributes, of a queue
MOST_EFFECT_BYTES = 16_384

# The kinds of texts: their characters, and their least and greatest length in bytes.
PLAIN = rb"[^\x00-\x1f\x7f]*"
NAME = (rb"[A-Za-z0-9_-]*", 1, 127)
URI = (rb"[!-~]*", 1, 1_023)
MEDIA = (rb"[a-z0-9!#$&^_.+-]+/[a-z0-9!#$&^_.+-]+", 3, 255)
USER = (PLAIN, 1, 255)
TITLE = (PLAIN, 0, 255)
OPTIONS = (PLAIN, 0, 2_048)
NOTE = (PLAIN, 0, 127)
FILTER = (rb"[A-Za-z0-9_.-]*", 1, 127)
REASON = (rb"(?!none$)[A-Za-z0-9_.-]*", 1, 127)
ATTRIBUTE = (rb"[A-Za-z0-9-]*", 1, 127)
MESSAGE = (rb"[ -~]*", 0, 1_023)


class Fault(Exception):
    """No table: the program's standard error, without `spool: `."""


class Unfit(Exception):
    """Bytes that encode nothing, or a payload that may not come next."""


def demand(holds):
    if not holds:
        raise Unfit


class Fields:
    """The fields of a payload, decoded in order."""

    def __init__(self, payload):
        self.rest = payload

    def take(self, count):
        demand(count <= len(self.rest))
        taken, self.rest = self.rest[:count], self.rest[count:]
        return taken

    def number(self, width, least=0, most=2 ** 64):
        value = int.from_bytes(self.take(width), "big")
        demand(least <= value <= most)
        return value

    def job(self):
        return self.number(4, 1, GREATEST_JOB)

    def moment(self):
        return self.number(8, 0, GREATEST_MOMENT)

    def flag(self):
        return bool(self.number(1, 0, 1))

    def text(self, kind):
        allowed, least, most = kind
        spelled = self.take(self.number(2))
        demand(least <= len(spelled) <= most and re.fullmatch(allowed, spelled))
        try:
            return spelled.decode()
        except UnicodeDecodeError:
            raise Unfit from None

    def texts(self, kind, width, least=0, most=GREATEST_COUNT):
        return [self.text(kind) for _ in range(self.number(width, least, most))]

    def bytes(self, least=0):
        return self.take(self.number(4, least, LONGEST_SEND))

    def end(self):
        demand(not self.rest)


@dataclass
class Queue:
    name: str
    uri: str
    target: str
    policy: int
    interval: int
    limit: int
    info: str = ""
    location: str = ""
    accepting: bool = True
    stopped: bool = False
    message: str = ""
    reasons: set = field(default_factory=set)
    attributes: dict = field(default_factory=dict)

    def row(self):
        words = (self.name, self.uri, self.target, journal.POLICIES[self.policy], self.interval, self.limit)
        state = (self.info, self.location, self.accepting, self.stopped, self.message)
        return journal.Queue(*words, *state, tuple(sorted(self.reasons)), tuple(sorted(self.attributes.items())))


@dataclass
class Job:
    number: int
    queue: str
    user: str
    title: str
    copies: int
    priority: int
    options: str
    media: str | None = None
    filters: list = field(default_factory=list)
    attempts: int = 0
    pages: int = 0
    size: int = 0
    phase: str = "incoming"
    # For an incoming or waiting job: None, the number of a hold's reason, or only a moment, in a tuple.
    hold: object = None
    not_before: int = 0
    first: bool = False
    stage: int = 0
    reason: str = ""
    document: bytes = b""
    # The start deadline.
    by: int | None = None

    def has_ended(self):
        return self.phase in ("completed", "canceled", "aborted")

    def end(self, phase, reason=""):
        self.phase, self.reason, self.document = phase, reason, b""

    def wait(self, hold=None, not_before=0, first=False):
        self.phase, self.hold, self.not_before, self.first = "waiting", hold, not_before, first

    def is_held(self, now):
        return self.hold is not None and (not isinstance(self.hold, tuple) or now < self.hold[0])

    def is_late(self, now):
        """Whether it still waits after its start deadline."""
        return self.phase == "waiting" and self.by is not None and self.by < now

    def is_ready(self, now):
        return self.phase == "waiting" and not self.is_held(now) and self.not_before <= now

    def rank(self):
        """The sort key: the first job to start has the least."""
        return not self.first, -self.priority, self.number

    def is_last_stage(self):
        return self.stage == len(self.filters) + 1

    def spelled_phase(self):
        hold = journal.FREE if self.hold is None else journal.until(self.hold[0]) if isinstance(self.hold, tuple) else bytes([1, self.hold])
        if self.phase == "incoming":
            return journal.incoming(hold)
        if self.phase == "waiting":
            return journal.waiting(hold, self.not_before, self.first)
        if self.phase == "processing":
            return journal.processing(self.stage)
        if self.phase == "aborted":
            return journal.aborted(self.reason)
        return {"completed": journal.COMPLETED, "canceled": journal.CANCELED}[self.phase]

    def row(self):
        wishes = (self.number, self.queue, self.user, self.title, self.copies, self.priority, self.options)
        state = (self.media, tuple(self.filters), self.attempts, self.pages, self.size, self.spelled_phase(), self.by)
        return journal.Job(*wishes, *state)

    def rows(self):
        return [self.row(), *journal.pieces(self.number, self.document)]

    def shown(self, now):
        """Its number for a state, and the word after it."""
        if self.phase == "waiting" and self.is_held(now):
            return 4, journal.HOLDS[0 if isinstance(self.hold, tuple) else self.hold]
        if self.phase == "waiting":
            return 3, "retry-later" if now < self.not_before else "none"
        return {
            "incoming": (4, "job-incoming"),
            "processing": (5, "job-printing"),
            "completed": (9, "job-completed-successfully"),
            "canceled": (7, "canceled"),
            "aborted": (8, self.reason),
        }[self.phase]


class Table:
    """The queues and jobs, and the rows of a listing that may continue. It knows the version of its area."""

    def __init__(self, version=journal.NEWEST):
        self.version = version
        self.queues = {}
        self.jobs = {}
        self.highest = 0
        self.now = 0
        self.is_listed = False
        # The job of the last row while its document is incomplete.
        self.partial = None

    # ---- rows of a listing

    def load(self, payload):
        fields = Fields(payload)
        kind = fields.number(1)
        {0x40: self.load_head, 0x41: self.load_queue, 0x42: self.load_job, 0x43: self.load_piece}[kind](fields)

    def load_head(self, fields):
        head = read_head(fields)
        demand(not self.is_listed)
        self.is_listed, self.highest, self.now = True, head.highest, head.now

    def load_queue(self, fields):
        queue = read_queue(fields)
        demand(self.is_listed and self.partial is None and not self.jobs and len(self.queues) < MOST_QUEUES)
        demand(all(name < queue.name for name in self.queues))
        self.queues[queue.name] = queue

    def load_job(self, fields):
        job = read_job(fields, self.version)
        demand(self.is_listed and self.partial is None)
        demand(all(other < job.number for other in self.jobs) and job.number <= self.highest and job.queue in self.queues)
        if job.phase == "incoming":
            demand(job.media is None and not job.filters and job.attempts < GREATEST_COUNT)
        if job.phase == "waiting":
            demand(job.media is not None and job.attempts < GREATEST_COUNT)
        if job.phase == "processing":
            demand(job.media is not None and job.attempts and job.stage <= len(job.filters) + 1 and not self.is_busy(job.queue))
        self.jobs[job.number] = job
        self.partial = job if job.size and not job.has_ended() else None

    def load_piece(self, fields):
        piece, job = read_piece(fields), self.partial
        demand(job and job.number == piece.job and len(piece.data) == min(job.size - len(job.document), LONGEST_SEND))
        job.document += piece.data
        self.partial = job if len(job.document) < job.size else None

    # ---- events

    def apply(self, payload):
        """Applies an event, given its bytes. After a refused event the table is not used: the image is damaged."""
        fields = Fields(payload)
        kind = fields.number(1)
        demand(kind in EVENTS)
        EVENTS[kind](self, fields)

    def add_queue(self, fields):
        queue = new_queue(fields)
        fields.end()
        demand(queue.name not in self.queues and len(self.queues) < MOST_QUEUES)
        self.queues[queue.name] = queue

    def queue_of(self, name, fields):
        fields.end()
        demand(name in self.queues)
        return self.queues[name]

    def set_info(self, fields):
        name, info, location = fields.text(NAME), fields.text(NOTE), fields.text(NOTE)
        queue = self.queue_of(name, fields)
        queue.info, queue.location = info, location

    def set_accept(self, fields):
        name, flag = fields.text(NAME), fields.flag()
        self.queue_of(name, fields).accepting = flag

    def set_stop(self, fields):
        name, flag = fields.text(NAME), fields.flag()
        self.queue_of(name, fields).stopped = flag

    def create(self, fields):
        self.add_job(new_job(fields), fields)

    def create_by(self, fields):
        job = new_job(fields)
        job.by = fields.moment()
        demand(self.version > 1)
        self.add_job(job, fields)

    def add_job(self, job, fields):
        demand(self.queue_of(job.queue, fields).accepting and job.number > self.highest)
        self.jobs[job.number], self.highest = job, job.number

    def job_of(self, number, fields, *phases):
        """The job of an event: it exists, has not ended, and is in one of these phases."""
        fields.end()
        job = self.jobs.get(number)
        demand(job and job.phase in phases)
        return job

    def send(self, fields):
        number, data = fields.job(), fields.bytes()
        job = self.job_of(number, fields, "incoming")
        demand(job.size + len(data) <= LONGEST_DOCUMENT)
        job.size += len(data)
        job.document += data

    def close(self, fields):
        number, media = fields.job(), fields.text(MEDIA)
        filters = fields.texts(FILTER, 1, 0, 15) if fields.flag() else None
        job = self.job_of(number, fields, "incoming")
        job.media = media
        if filters is None:
            job.end("aborted", "no-filter")
        else:
            job.filters = filters
            job.wait(job.hold)

    def set_hold(self, fields):
        number, kind = fields.job(), fields.number(1, 1, 2)
        hold = 0 if kind == 1 else (fields.moment(),)
        self.job_of(number, fields, "incoming", "waiting").hold = hold

    def release(self, fields):
        job = self.job_of(fields.job(), fields, "incoming", "waiting")
        demand(job.is_held(self.now))
        job.hold = None

    def cancel(self, fields):
        self.job_of(fields.job(), fields, "incoming", "waiting", "processing").end("canceled")

    def clock(self, fields):
        moment = fields.moment()
        fields.end()
        self.now = max(self.now, moment)
        for job in self.jobs.values():
            if job.is_late(self.now):
                job.end("canceled")

    def start(self, fields):
        job = self.job_of(fields.job(), fields, "waiting")
        demand(self.next_of(job.queue) is job)
        job.attempts += 1
        job.pages, job.stage, job.phase = 0, 1, "processing"
        job.hold, job.not_before, job.first = None, 0, False

    def stage_end(self, fields):
        number, attempt, stage = fields.job(), fields.number(4, 1), fields.number(1, 1, 16)
        kind = fields.number(1, 0, 3)
        code = fields.number(1) if kind == 0 else None
        fields.number(4)
        effects = [effect(fields) for _ in range(fields.number(2))]
        demand(sum(size for size, _ in effects) <= MOST_EFFECT_BYTES)
        job = self.job_of(number, fields, "processing")
        demand(job.attempts == attempt and job.stage == stage)
        for _, change in effects:
            change(job, self.queues[job.queue])
        if job.is_last_stage():
            self.end_attempt(job, "backend-failed", code)
        elif code == 0:
            job.stage += 1
        else:
            job.end("aborted", "filter-failed")

    def abandon(self, fields):
        self.end_attempt(self.job_of(fields.job(), fields, "processing"), "attempt-lost")

    def reopen(self, fields=None):
        if fields:
            fields.end()
        for job in self.processing():
            self.end_attempt(job, "attempt-lost")

    def purge(self, fields):
        number = fields.job()
        fields.end()
        demand(self.version > 1 and number in self.jobs and self.jobs[number].has_ended())
        del self.jobs[number]

    def end_attempt(self, job, reason, code=None):
        """A backend ended with this code, or its result is not known. Other codes, and None, are handled by the queue's policy."""
        queue = self.queues[job.queue]
        by_policy = {0: "abort", 1: 6, 2: 7, 3: 4}[queue.policy]
        verdict = code if code in (0, 2, 3, 4, 5, 6, 7) else by_policy
        is_over = verdict in (6, 7) and 0 < queue.limit <= job.attempts
        if verdict in (2, 3, 4, 6, 7) and (is_over or job.attempts == GREATEST_COUNT):
            job.end("aborted", "retry-limit")
        elif verdict == "abort":
            job.end("aborted", reason)
        elif verdict == 0:
            job.end("completed")
        elif verdict == 5:
            job.end("canceled")
        elif verdict == 6:
            job.wait(not_before=min(self.now + queue.interval, GREATEST_MOMENT))
        else:
            job.wait(hold={2: 1, 3: 2}.get(verdict), first=verdict == 7)
            queue.stopped |= verdict == 4

    # ---- its output

    def contents(self):
        """Its version and its rows."""
        return self.version, self.listing()

    def processing(self):
        return [job for job in self.jobs.values() if job.phase == "processing"]

    def is_busy(self, name):
        return any(job.queue == name for job in self.processing())

    def next_of(self, name):
        """The job of a queue that starts next."""
        if self.queues[name].stopped or self.is_busy(name):
            return None
        ready = [job for job in self.jobs.values() if job.queue == name and job.is_ready(self.now)]
        return min(ready, key=Job.rank, default=None)

    def listing(self):
        """The payloads of its rows, always in the newest version."""
        rows = [journal.Head(self.highest, self.now)]
        rows += [self.queues[name].row() for name in sorted(self.queues)]
        for number in sorted(self.jobs):
            rows += self.jobs[number].rows()
        return [row.payload() for row in rows]

    def jobs_reply(self):
        lines = []
        for number in sorted(self.jobs):
            job = self.jobs[number]
            state, word = job.shown(self.now)
            lines.append(f"job {number} {job.queue} {state} {word} {quoted(job.user)} {job.size} {job.pages} {quoted(job.title)}")
        return lines + [f"ok {len(lines)}"]

    def queues_reply(self):
        lines = []
        for name in sorted(self.queues):
            it = self.queues[name]
            state = 4 if self.is_busy(name) else 5 if it.stopped else 3
            rules = f"{it.target} {journal.POLICIES[it.policy]} {it.interval} {it.limit}"
            reasons = ",".join(sorted(it.reasons)) or "none"
            lines.append(f"queue {name} {state} {'accepting' if it.accepting else 'rejecting'} {rules} {reasons} {quoted(it.message)}")
        return lines + [f"ok {len(lines)}"]


EVENTS = dict(enumerate([
    Table.add_queue, Table.set_info, Table.set_accept, Table.set_stop, Table.create, Table.send, Table.close, Table.set_hold,
    Table.release, Table.cancel, Table.clock, Table.start, Table.stage_end, Table.abandon, Table.reopen,
], 1)) | {0x10: Table.purge, 0x11: Table.create_by}


# ---- parts of payloads

def new_queue(fields):
    words = fields.text(NAME), fields.text(URI), fields.text(MEDIA)
    return Queue(*words, fields.number(1, 0, 3), fields.number(4, 0, 86_400), fields.number(2))


def new_job(fields):
    name, number = fields.text(NAME), fields.job()
    return Job(number, name, *wishes(fields))


def wishes(fields):
    """The fields of a new job, after its queue and its number."""
    return fields.text(USER), fields.text(TITLE), fields.number(2, 1, 9_999), fields.number(1, 1, 100), fields.text(OPTIONS)


def read_head(fields):
    head = journal.Head(fields.number(4, 0, GREATEST_JOB), fields.moment())
    fields.end()
    return head


def read_queue(fields):
    queue = new_queue(fields)
    queue.info, queue.location = fields.text(NOTE), fields.text(NOTE)
    queue.accepting, queue.stopped, queue.message = fields.flag(), fields.flag(), fields.text(MESSAGE)
    reasons = fields.texts(REASON, 1, 0, MOST_KEPT)
    pairs = [(fields.text(ATTRIBUTE), fields.text(MESSAGE)) for _ in range(fields.number(1, 0, MOST_KEPT))]
    fields.end()
    queue.reasons, queue.attributes = set(reasons), dict(pairs)
    demand(reasons == sorted(queue.reasons) and [name for name, _ in pairs] == sorted(queue.attributes))
    return queue


def read_job(fields, version):
    number, queue = fields.job(), fields.text(NAME)
    job = Job(number, queue, *wishes(fields))
    job.media = fields.text(MEDIA) if fields.flag() else None
    job.filters = fields.texts(FILTER, 1, 0, 15)
    job.attempts, job.pages, job.size = fields.number(4), fields.number(4), fields.number(4, 0, LONGEST_DOCUMENT)
    load_phase(job, fields)
    job.by = fields.moment() if version > 1 and fields.flag() else None
    fields.end()
    return job


def read_piece(fields):
    piece = journal.Piece(fields.job(), fields.bytes(1))
    fields.end()
    return piece


def read_row(payload, version=journal.NEWEST):
    """The row of a listing in a payload, for an area of this version."""
    fields = Fields(payload)
    kind = fields.number(1, 0x40, 0x43)
    if kind in (0x40, 0x43):
        return read_head(fields) if kind == 0x40 else read_piece(fields)
    return read_queue(fields).row() if kind == 0x41 else read_job(fields, version).row()


def load_hold(fields):
    kind = fields.number(1, 0, 2)
    return None if kind == 0 else fields.number(1, 0, 2) if kind == 1 else (fields.moment(),)


def load_phase(job, fields):
    kind = fields.number(1, 0, 5)
    job.phase = ("incoming", "waiting", "processing", "completed", "canceled", "aborted")[kind]
    if kind < 2:
        job.hold = load_hold(fields)
    if kind == 1:
        job.not_before, job.first = fields.moment(), fields.flag()
    if kind == 2:
        job.stage = fields.number(1, 1, 16)
    if kind == 5:
        job.reason = journal.ABORTS[fields.number(1, 0, 4)]


def add_reasons(queue, words):
    for word in words:
        if len(queue.reasons) < MOST_KEPT:
            queue.reasons.add(word)


def effect(fields):
    """The bytes of an effect's code, and its effect on a job and its queue."""
    before = len(fields.rest)
    kind = fields.number(1, 1, 7)
    if kind == 1:
        fields.number(4)
        copies = fields.number(4)
        change = lambda job, queue: setattr(job, "pages", min(job.pages + copies, GREATEST_COUNT))
    elif kind == 2:
        total = fields.number(4)
        change = lambda job, queue: setattr(job, "pages", total)
    elif kind in (3, 4, 5):
        words = fields.texts(REASON, 2, 0 if kind == 3 else 1)
        change = lambda job, queue: change_reasons(queue, kind, words)
    elif kind == 6:
        name, value = fields.text(ATTRIBUTE), fields.text(MESSAGE)
        change = lambda job, queue: set_attribute(queue, name, value)
    else:
        fields.number(1, 0, 6)
        message = fields.text(MESSAGE)
        change = lambda job, queue: setattr(queue, "message", message)
    return before - len(fields.rest), change


def change_reasons(queue, kind, words):
    if kind == 5:
        queue.reasons -= set(words)
        return
    if kind == 3:
        queue.reasons = set()
    add_reasons(queue, words)


def set_attribute(queue, name, value):
    if name in queue.attributes or len(queue.attributes) < MOST_KEPT:
        queue.attributes[name] = value


# ---- images

@dataclass
class Opened:
    """The result of an opening: the offset of the current area, its epoch, its closed gate, and the table after the error policies."""
    base: int
    epoch: int
    gate: int
    table: Table
    # The file as the opening leaves it.
    file: bytes


def current_base(image):
    """The offset of the current area, and its epoch."""
    half = len(image) // 2
    if half < HALF_AT_LEAST:
        raise Fault("not-a-spool")
    epochs = {}
    for base in (0, half):
        header = image[base:base + journal.HEADER]
        if header[0] != journal.OPEN:
            continue
        epoch = int.from_bytes(header[2:10], "big")
        if header not in [journal.header(epoch, version=version) for version in journal.VERSIONS]:
            raise Fault(f"damaged {base}")
        epochs[base] = epoch
    if not epochs or len(epochs) == 2 and len(set(epochs.values())) == 1:
        raise Fault("not-a-spool")
    base = max(epochs, key=epochs.get)
    return base, epochs[base]


def read_payload(table, payload, is_listing):
    """Applies the next payload. Returns whether a row may still follow."""
    if is_listing and payload[:1] in (b"\x40", b"\x41", b"\x42", b"\x43"):
        table.load(payload)
        return True
    demand(table.partial is None)
    table.apply(payload)
    return False


def stored_table(image):
    """The table of an image, with its processing jobs unchanged. Raises its fault if it has one."""
    return reading(image).table


def opened(image):
    """The result of opening an image. Raises its fault if it has one."""
    it = reading(image)
    if it.table.processing():
        it.table.reopen()
        it.file, it.gate = appended(it.file, it.gate, journal.REOPEN)
    return it


def reading(image):
    """The contents of an image, which is left unchanged."""
    base, epoch = current_base(image)
    table = Table(journal.version_of(image[base:base + journal.HEADER]))
    end, gate, is_listing = base + len(image) // 2, base + journal.HEADER, True
    try:
        while image[gate] == journal.OPEN:
            behind = gate + journal.FRAME
            last = behind + int.from_bytes(image[gate + 1:behind], "big")
            # The next gate must be in the area too.
            demand(last < end)
            is_listing = read_payload(table, image[behind:last], is_listing)
            gate = last
        demand(table.partial is None and (not table.processing() or gate + ROOM_KEPT <= end))
    except Unfit:
        raise Fault(f"damaged {gate}") from None
    return Opened(base, epoch, gate, table, image)


def appended(file, gate, payload):
    """The file with one more record, and its next gate, which is closed."""
    record = journal.record(payload) + b"\0"
    return file[:gate] + record + file[gate + len(record):], gate + len(record) - 1


def tried(it, payload):
    """Applies an event that is not refused to an opened spool. Returns whether there is room for its record."""
    if it.gate + journal.FRAME + len(payload) + ROOM_KEPT > it.base + len(it.file) // 2:
        return False
    it.table.apply(payload)
    it.file, it.gate = appended(it.file, it.gate, payload)
    return True


def round_without_programs(it):
    """The reply to a round of an opened spool, if no child can be started, and the resulting spool."""
    table, is_full, finished = it.table, False, 0
    for name in sorted(table.queues):
        job = table.next_of(name)
        if job:
            is_full |= not tried(it, journal.start(job.number))
    for job in sorted(table.processing(), key=lambda job: job.queue):
        is_done = tried(it, journal.stage(job.number, job.attempts, job.stage, journal.NO_START))
        is_full |= not is_done
        finished += is_done
    return "error full" if is_full else f"ok started 0 finished {finished}"


def created_by(it, queue, by):
    """The reply to a command that creates a job with a start deadline on an opened spool, and the resulting spool."""
    table, number = it.table, min(it.table.highest + 1, GREATEST_JOB)
    if table.version == 1:
        return "error 17 NeedsCheckpoint"
    if queue not in table.queues:
        return "error 1 NoQueue"
    if not table.queues[queue].accepting:
        return "error 4 NotAccepting"
    if table.highest == GREATEST_JOB:
        return "error 9 NoNumberLeft"
    return f"ok job {number}" if tried(it, journal.Job(number, queue, by=by).event()) else "error full"


def checkpointed(it):
    """The reply to the command on an opened spool, and the resulting spool: the table is in the other area, in the newest version."""
    half = len(it.file) // 2
    other = half if it.base == 0 else 0
    if it.epoch == GREATEST_EPOCH:
        return "error epoch"
    records = b"".join(map(journal.record, it.table.listing()))
    if journal.HEADER + len(records) + ROOM_KEPT > half:
        return "error full"
    area = journal.header(it.epoch + 1) + records + b"\0"
    it.file = it.file[:other] + area + it.file[other + len(area):]
    it.base, it.epoch, it.gate = other, it.epoch + 1, other + len(area) - 1
    it.table.version = journal.NEWEST
    return "ok"
