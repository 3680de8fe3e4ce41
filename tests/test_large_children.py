"""Many children at once, long chains, many attempts, and the longest documents, outputs and standard error."""
import os

import pytest

from harness.checks import quoted, same
from harness.journal import aborted, COMPLETED, current_payloads, Head, Job, Queue
from harness.large_run import ask_jobs, bytes_of, DONE, listed, REPORTS, same_file, Script, SEND, TYPE, within
from harness.programs import TOOLS

pytestmark = [pytest.mark.alone, pytest.mark.needs("spool_shell", "spool_tools")]

QUEUES = 64
DOCUMENT = 16_777_216

TYPES = "a/0 page\n"


def rows_of(place):
    """The payloads of the spool's current area, which a checkpoint wrote."""
    return current_payloads(place.at("spool", "spool.disk"))


# ---- at once


@within(8_000)
def test_queues_at_once(place):
    """64 queues print in one round, each a document of its own, and then all of them again with a side channel."""
    place.tool("backend", "spoolfile")
    documents = {turn: bytes_of(turn, turn * 1_111) for turn in range(QUEUES)}
    script = Script()
    for turn in documents:
        script.ask(f"queue q{turn:02} spoolfile:{place.at('printed')}-{turn} {TYPE} abort-job", "ok")
    # The numbers of the jobs are in the opposite order of the names of their queues.
    numbers = {number: QUEUES - number for number in range(1, QUEUES + 1)}
    for number, turn in numbers.items():
        script.submit(number, f"q{turn:02}", documents[turn])
    script.ask("round", f"ok started {QUEUES} finished {QUEUES}")
    ask_jobs(script, [listed(number, f"q{turn:02}", DONE, len(documents[turn])) for number, turn in numbers.items()])
    place.print_all(script, "--size", str(1 << 25))
    for turn, document in documents.items():
        same_file(place, f"printed-{turn}", document)
    same("the remaining files", sorted(os.listdir(place.at("spool"))), ["spool.disk", "spool.lock"])
    ask_devices_at_once(place)


def ask_devices_at_once(place):
    place.fresh_spool()
    place.tool("backend", "sideask")
    place.lines.append(f"side {TOOLS} side-end")
    ids = {turn: f"MFG:{turn};" * (turn + 1) for turn in range(QUEUES)}
    script = Script()
    for turn, text in ids.items():
        script.ask(f"queue q{turn:02} sideask:{place.at('asked')}-{turn}?id={text} {TYPE} abort-job", "ok")
        script.submit(turn + 1, f"q{turn:02}")
    script.ask("round", f"ok started {QUEUES} finished {QUEUES}")
    ask_jobs(script, [listed(turn + 1, f"q{turn:02}", DONE, 0) for turn in ids])
    place.print_all(script)
    for turn, text in ids.items():
        same_file(place, f"asked-{turn}", text.encode())


# ---- stages and attempts

STAGES = 16
ATTEMPTS = 13

# A filter that passes its document on, followed by its own stage.
PASSES = 'echo "$# $1 $2 $3 $4 $5 $SPOOL_ATTEMPT $SPOOL_STAGE" >>"$0.ran"\ncat ${6:+"$6"}\necho "stage $SPOOL_STAGE"\n'

# A backend that asks to be called again until the last attempt, and then prints.
AT_LAST = f'[ "$SPOOL_ATTEMPT" -ge {ATTEMPTS} ] || exit 7\ncat >"$0.printed"\n'


@within(8_000)
def test_stages_and_attempts(place):
    """A job of 15 filters and a backend, thirteen times: 208 rounds, each with the output of the previous stage."""
    place.script("filter", "passes", PASSES)
    place.script("backend", "last", AT_LAST)
    place.write("types", TYPES.encode())
    place.write("convs", "".join(f"a/{n} a/{n + 1} 10 passes\n" for n in range(STAGES - 1)).encode())
    script = Script()
    script.ask(f"queue lab last:/x a/{STAGES - 1} retry-current-job 30 0", "ok")
    script.ask('create lab ann "A title" 3 50 "media=A4"', "ok job 1")
    document = bytes_of(1, 100_000)
    script.document(1, document)
    script.ask("close 1 a.page", f"ok type a/0 stages {STAGES}")
    script.ask("drain 1000", f"ok rounds {STAGES * ATTEMPTS + 1}")
    ask_jobs(script, [listed(1, "lab", DONE, 100_000, 0, "A title")])
    place.print_all(script)
    same_file(place, "backend-last.printed", document + b"".join(b"stage %d\n" % n for n in range(1, STAGES)))
    wanted = [
        f"{6 if stage == 1 else 5} 1 ann A title 3 media=A4 {attempt} {stage}"
        for attempt in range(1, ATTEMPTS + 1)
        for stage in range(1, STAGES)
    ]
    same("the input of the filters", place.read("filter-passes.ran").decode().splitlines(), wanted)


TURNS = 200

# Backends that fail each time, and all but the last time.
FAILS = 'echo "$SPOOL_ATTEMPT" >>"$0.ran"\nexit 1\n'
PRINTS_LAST = f'echo "$SPOOL_ATTEMPT" >>"$0.ran"\n[ "$SPOOL_ATTEMPT" -ge {TURNS} ]\n'


@within(8_000)
def test_many_attempts(place):
    """Two jobs that are tried 200 times, each by its policy: one until its limit, and one until it prints."""
    place.script("backend", "fails", FAILS)
    place.script("backend", "prints", PRINTS_LAST)
    script = Script()
    script.ask(f"queue a fails:/x {TYPE} retry-current-job 30 {TURNS}", "ok")
    script.ask(f"queue b prints:/x {TYPE} retry-job 0 0", "ok")
    for number, queue in enumerate("ab", 1):
        script.submit(number, queue)
    script.ask("drain 1000", f"ok rounds {TURNS + 1}")
    ask_jobs(script, [listed(1, "a", "8 retry-limit", 0), listed(2, "b", DONE, 0)])
    script.ask("checkpoint", "ok")
    place.print_all(script)
    for name in ("fails", "prints"):
        turns = [b"%d" % turn for turn in range(1, TURNS + 1)]
        same(f"attempts of {name}", place.read(f"backend-{name}.ran").split(), turns)
    limited = Job(1, "a", "ann", media=TYPE, attempts=TURNS, phase=aborted("retry-limit"))
    printed = Job(2, "b", "ann", media=TYPE, attempts=TURNS, phase=COMPLETED)
    same("the rows of the jobs", rows_of(place)[3:], [limited.payload(), printed.payload()])


# ---- long documents

MANY = 8


@within(150_000)
def test_long_documents(place):
    """Documents of 16,777,216 bytes on eight queues at once, whose types are detected from their last bytes, and not a byte more."""
    place.tool("backend", "spoolfile")
    place.write("types", f"a/tail string({DOCUMENT - 5},TAIL!)\n".encode())
    documents = {number: bytes_of(number, DOCUMENT - 5) + b"TAIL!" for number in range(1, MANY + 1)}
    script = Script()
    for number, document in documents.items():
        script.ask(f"queue q{number} spoolfile:{place.at('printed')}-{number} a/tail abort-job", "ok")
        script.ask(f'create q{number} ann "" 1 50 ""', f"ok job {number}")
        script.document(number, document)
        script.send(number, b"x", "error 7 TooLong")
        script.send(number, b"y" * SEND, "error 7 TooLong")
        script.send(number, b"", f"ok bytes {DOCUMENT}")
    script.send(1, b"z" * (SEND + 1), "error 7 TooLong")
    script.ask("checkpoint", "ok")
    for number in documents:
        script.ask(f"close {number} page", "ok type a/tail stages 1")
    # One byte less: its last bytes are at another offset. It fits with one byte more, and does not with two.
    script.ask('create q1 ann "" 1 50 ""', f"ok job {MANY + 1}")
    script.document(MANY + 1, documents[1][1:])
    script.send(MANY + 1, b"xy", "error 7 TooLong")
    script.send(MANY + 1, b"x", f"ok bytes {DOCUMENT}")
    script.ask(f"close {MANY + 1} page", f"ok type {TYPE} unprintable")
    script.ask("round", f"ok started {MANY} finished {MANY}")
    jobs = [listed(number, f"q{number}", DONE, DOCUMENT) for number in documents]
    ask_jobs(script, jobs + [listed(MANY + 1, "q1", "8 no-filter", DOCUMENT)])
    place.print_all(script, "--size", str(1 << 29))
    for number, document in documents.items():
        same_file(place, f"printed-{number}", document)


# A filter whose output is the document and then the number of bytes in the title.
ADDS = 'cat "$6"\nhead -c "$3" /dev/zero\n'


@within(80_000)
def test_long_outputs(place):
    """An output of 16,777,216 bytes is passed to the next stage. One byte more is lost, and so are 48 MiB."""
    place.script("filter", "adds", ADDS)
    place.tool("backend", "spoolfile")
    place.write("types", TYPES.encode())
    place.write("convs", b"a/0 a/1 10 adds\n")
    document = bytes_of(3, SEND)
    script = Script()
    added = {1: DOCUMENT - SEND - 1, 2: DOCUMENT - SEND, 3: DOCUMENT - SEND + 1, 4: 3 * DOCUMENT}
    for number, more in added.items():
        script.ask(f"queue q{number} spoolfile:{place.at('printed')}-{number} a/1 abort-job", "ok")
        script.submit(number, f"q{number}", document, str(more), "a.page", "a/0 stages 2")
    script.ask("round", "ok started 4 finished 4")
    script.ask("round", "ok started 2 finished 2")
    shown = {1: DONE, 2: DONE, 3: "8 filter-failed", 4: "8 filter-failed"}
    ask_jobs(script, [listed(n, f"q{n}", shown[n], SEND, 0, str(more)) for n, more in added.items()])
    place.print_all(script)
    for number in (1, 2):
        same_file(place, f"printed-{number}", document + bytes(added[number]))


# ---- standard error

class Says:
    """Queues of a backend that writes a text to standard error: the text of each, and the outcome of its queue and job."""

    def __init__(self, place):
        self.place = place
        self.script = Script()
        self.jobs = []
        self.queues = []
        self.rows = []
        self.dropped = []
        place.script("backend", "says", REPORTS)

    def add(self, text, pages=0, reasons=(), message="", attributes=(), dropped=None):
        number = len(self.jobs) + 1
        queue = f"q{number:02}"
        self.place.write(f"said-{number}", text)
        self.script.ask(f"queue {queue} says:/x {TYPE} abort-job", "ok")
        title = self.place.at(f"said-{number}")
        self.script.submit(number, queue, title=title)
        self.jobs.append(listed(number, queue, DONE, 0, pages, title))
        kept = ",".join(sorted(reasons)) or "none"
        self.queues.append(f"queue {queue} 3 accepting {TYPE} abort-job 30 5 {kept} {quoted(message)}")
        shown = Queue(queue, "says:/x", TYPE, message=message, reasons=sorted(reasons), attributes=sorted(attributes))
        self.rows.append(shown.payload())
        self.dropped.append(dropped)

    def check(self):
        """Prints all of it in one round, and compares the queues, the jobs and the journal's number of dropped effects."""
        count = len(self.jobs)
        self.script.ask("round", f"ok started {count} finished {count}")
        ask_jobs(self.script, self.jobs)
        self.script.ask("queues", *self.queues, f"ok {count}")
        self.place.print_all(self.script, "--size", str(1 << 24))
        self.check_dropped()
        script = Script()
        script.ask("checkpoint", "ok")
        self.place.print_all(script)
        found = rows_of(self.place)
        same("the head", found[0], Head(count).payload())
        for number, row in enumerate(self.rows, 1):
            same(f"the row of queue {number}", found[number], row)

    def check_dropped(self):
        """The number of dropped effects of each stage, as its event in the journal has it."""
        stages = [payload for payload in rows_of(self.place) if payload[0] == 0x0D]
        found = {int.from_bytes(stage[1:5], "big"): int.from_bytes(stage[12:16], "big") for stage in stages}
        wanted = {number: dropped or 0 for number, dropped in enumerate(self.dropped, 1)}
        same("the number of dropped effects", found, wanted)


MOST = 16_384


@within(8_000)
def test_effects_at_their_limits(place):
    """Effects of 16,384 bytes of code and of one more; 64 reasons and attributes and one more; the longest of each."""
    says = Says(place)
    # A message takes four bytes more than its text: sixteen of 1,000 leave 320.
    full = b"".join(b"INFO: " + b"%02d" % turn + b"x" * 998 + b"\n" for turn in range(16))
    left = MOST - 16 * 1_004
    says.add(full + b"INFO: " + b"y" * (left - 4) + b"\n", message="y" * (left - 4))
    # From the first one that does not fit all are dropped, also those that would fit.
    says.add(full + b"INFO: " + b"y" * (left - 3) + b"\nPAGE: 1 5\nINFO: z\n", message="15" + "x" * 998, dropped=3)
    says.add(full + b"INFO: " + b"y" * (left - 5) + b"\nPAGE: 1 5\n", message="y" * (left - 5), dropped=1)
    says.add(b"PAGE: 1 1\n" * 1_820 + b"PAGE: total 0\n" + b"PAGE: 1 1\n", pages=1_820, dropped=2)
    names = [f"r{turn:02}" for turn in range(65)]
    say_reasons(says, names)
    say_attributes(says, names)
    # The first 1,023 bytes of a line are read.
    says.add(b"INFO: " + b"m" * 1_016 + b"!\n", message="m" * 1_016 + "!")
    says.add(b"INFO: " + b"m" * 1_017 + b"!\n", message="m" * 1_017)
    says.add(b"PAGE: 1 4294967295\nPAGE: 1 4294967296\n", pages=4_294_967_295)
    says.add(b"PAGE: total 4294967290\nPAGE: 1 9\n", pages=4_294_967_295)
    says.check()


def say_reasons(says, names):
    joined = ",".join
    says.add(f"STATE: {joined(names[:64])}\n".encode(), reasons=names[:64])
    says.add(f"STATE: {joined(names)}\n".encode(), reasons=names[:64])
    says.add(f"STATE: +{joined(names[:64])}\nSTATE: +{names[64]}\n".encode(), reasons=names[:64])
    says.add(f"STATE: +{joined(names[1:])}\nSTATE: -r05\nSTATE: +r00\n".encode(), reasons=[n for n in names if n != "r05"])
    longest = ["l" * 127, "l" * 128]
    says.add(f"STATE: +{joined(longest)}\n".encode(), reasons=longest[:1])


def say_attributes(says, names):
    pairs = [(name, f"v{name}") for name in names]

    def said(chosen):
        return b"".join(f"ATTR: {name}={value}\n".encode() for name, value in chosen)

    says.add(said(pairs[:64]), attributes=pairs[:64])
    says.add(said(pairs), attributes=pairs[:64])
    says.add(said(pairs + [("r00", "again")]), attributes=[("r00", "again"), *pairs[1:64]])
    # The longest value that fits into a line with `ATTR: a=`; and names of 127 and 128 bytes.
    says.add(said([("a", "v" * 1_015)]), attributes=[("a", "v" * 1_015)])
    says.add(said([("a", "v" * 1_016)]), attributes=[("a", "v" * 1_015)])
    says.add(said([("n" * 127, "1"), ("n" * 128, "2")]), attributes=[("n" * 127, "1")])


HEARD = 1_048_576


@within(8_000)
def test_loud_children(place):
    """3 MiB of standard error: lines that end by byte 1,048,576 count, and later ones do not."""
    says = Says(place)
    late = b"STATE: +late\nINFO: late\n" + b"DEBUG: on and on\n" * 130_000

    def heard(end):
        """A text whose first part ends like this, exactly at the last byte that is read."""
        early = b"STATE: +early\n"
        lines = b"DEBUG: on and on\n" * ((HEARD - len(early) - len(end) - 1) // 17)
        return early + lines + b"d" * (HEARD - len(early) - len(lines) - len(end) - 1) + b"\n" + end

    says.add(heard(b"STATE: +last\n") + late, reasons=["early", "last"])
    # The line at the limit counts as far as it is read.
    says.add(heard(b"INFO: half") + b" is lost\n" + late, reasons=["early"], message="half")
    says.add(heard(b"\nINFO:") + b" lost\n" + late, reasons=["early"])
    # 104,857 whole lines and six bytes of one: 1,820 have room.
    says.add(b"PAGE: 1 1\n" * 314_573, pages=1_820, dropped=104_857 - 1_820)
    says.add(b"x" * (3 * HEARD))
    says.add(b"\n" * (3 * HEARD))
    says.check()
