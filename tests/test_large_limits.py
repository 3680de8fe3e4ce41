"""Each value of a command at its limit, one below and one above."""
from dataclasses import replace

import pytest

from harness.checks import quoted, same
from harness.journal import Job, Queue
from harness.large_run import Script, TYPE, within

pytestmark = [pytest.mark.alone, pytest.mark.needs("spool_shell", "spool_tools")]

# The greatest number of bytes of a line before its line feed.
LINE = 4_096

DOCUMENT = 16_777_216


class Asked(Script):
    """Commands that create queues and jobs, and count them."""

    def __init__(self):
        super().__init__()
        self.jobs = []
        self.queues = []
        self.ask(f"queue lab spoolfile:/out {TYPE} abort-job", "ok")
        self.keep_queue("lab")

    def keep_queue(self, name, target=TYPE, interval=30, limit=5):
        self.queues.append((name, f'queue {name} 3 accepting {target} abort-job {interval} {limit} none ""'))

    def queue(self, taken, name, uri="spoolfile:/out", target=TYPE, interval="30", limit="5"):
        """A queue that is accepted, or a line that is not a command."""
        self.ask(f"queue {name} {uri} {target} abort-job {interval} {limit}", "ok" if taken else "error syntax")
        if taken:
            self.keep_queue(name, target, int(interval), int(limit))

    def job(self, reply="ok", user="ann", title="", copies="1", priority="50", options="", by=None):
        """A job that is accepted, or refused with an error. It may have a start deadline."""
        number = len(self.jobs) + 1
        words = f"lab {user} {quoted(title)} {copies} {priority} {quoted(options)}"
        self.ask(f"create {words}" if by is None else f"createby {words} {by}", f"ok job {number}" if reply == "ok" else reply)
        if reply == "ok":
            self.jobs.append(f'job {number} lab 4 job-incoming "{user}" 0 0 {quoted(title)}')

    def check_listings(self):
        self.ask("jobs", *self.jobs, f"ok {len(self.jobs)}")
        self.ask("queues", *(line for _, line in sorted(self.queues)), f"ok {len(self.queues)}")


def uri_of(length):
    return "s:" + "/" * (length - 2)


def media_type(length):
    return "a/" + "b" * (length - 2)


def ask_queues(script):
    for length in (126, 127, 128):
        script.queue(length <= 127, "n" * length)
    for number, length in enumerate((1_022, 1_023, 1_024)):
        script.queue(length <= 1_023, f"uri{number}", uri_of(length))
    # The query of a URI at its limit.
    script.queue(True, "query", "s:?" + "&".join(f"o{n}=v" for n in range(200))[:1_020])
    for number, length in enumerate((254, 255, 256)):
        script.queue(length <= 255, f"type{number}", target=media_type(length))
    for number, interval in enumerate(("0", "86399", "86400", "86401", "0000000086400", "00000000086400")):
        script.queue(interval in ("0", "86399", "86400", "0000000086400"), f"interval{number}", interval=interval)
    for number, limit in enumerate(("0", "65534", "65535", "65536")):
        script.queue(limit != "65536", f"limit{number}", limit=limit)


def ask_notes(script):
    for length in (126, 127, 128):
        reply = "ok" if length <= 127 else "error syntax"
        script.ask(f'info lab {"i" * length} ""', reply)
        script.ask(f'info lab "" {"l" * length}', reply)
    # Lengths are those of UTF-8, and of a text without its quotes and backslashes.
    quotes, umlauts = quoted('"' * 127), quoted("ä" * 63 + "x")
    script.ask(f"info lab {umlauts} {quotes}", "ok")
    script.ask(f"info lab {quoted('ä' * 64)} x", "error syntax")
    script.ask("info lab x " + quoted('"' * 128), "error syntax")


def ask_jobs(script):
    for length in (254, 255, 256):
        reply = "ok" if length <= 255 else "error syntax"
        script.job(reply, user="u" * length)
        script.job(reply, title="t" * length)
    script.job(title="ä" * 127 + "x")
    script.job("error syntax", title="ä" * 128)
    script.job(title='"' * 255)
    script.job("error syntax", title="\\" * 256)
    for copies in ("0", "1", "9998", "9999", "10000"):
        script.job("ok" if copies in ("1", "9998", "9999") else "error syntax", copies=copies)
    for priority in ("0", "1", "99", "100", "101"):
        script.job("ok" if priority in ("1", "99", "100") else "error syntax", priority=priority)
    ask_options(script)


def ask_options(script):
    """Options at their limit, as commands have them and as they are printed."""
    for length in (2_047, 2_048):
        script.job(options="o=" + "v" * (length - 2))
    script.job("error syntax", options="o=" + "v" * 2_047)
    script.job(options=" ".join(f"o{n:03}=v" for n in range(292)))
    # A blank is printed with a backslash: with the name, 1,022 of them are 2,046 bytes then.
    script.job(options="o='x" + " " * 1_022 + "'")
    script.job(options="o='xy" + " " * 1_022 + "'")
    script.job("error options", options="o='xyz" + " " * 1_022 + "'")
    script.job("error options", options="o='" + " " * 2_000 + "'")
    # A bare name is printed with `=true`.
    script.job(options="n" * 2_043)
    script.job("error options", options="n" * 2_044)
    script.job(options="no" + "n" * 2_042)
    script.job("error options", options="no" + "n" * 2_043)


def ask_moments(script):
    script.job()
    number = len(script.jobs)
    script.ask(f"hold {number} 4000000000000", "ok")
    script.ask(f"hold {number} 4000000000001", "error syntax")
    script.ask(f"hold {number} 3999999999999", "ok")
    script.ask("cancel 2147483647", "error 5 NoJob")
    script.ask("cancel 2147483648", "error syntax")
    script.ask("cancel 0", "error syntax")
    for drains in ("0", "1001"):
        script.ask(f"drain {drains}", "error syntax")
    for drains in ("1", "1000"):
        script.ask(f"drain {drains}", "ok rounds 1")
    for by in ("0", "1", "3999999999999", "4000000000000", "0000000000007"):
        script.job(by=by)
    for by in ("4000000000001", "9999999999999", "00000000000007", "-1", "x", "1.5", '""'):
        script.job("error syntax", by=by)
    script.ask("clock 4000000000001", "error syntax")
    script.ask("clock 4000000000000", "ok")


def ask_lines(script):
    """Lines of 4,095 to 4,097 bytes: blanks after a command, a long name, and comments of any length."""
    for length in (LINE - 1, LINE, LINE + 1):
        reply = "ok rounds 1" if length <= LINE else "error syntax"
        script.ask("drain 1".ljust(length), reply)
        script.ask("drain 1".rjust(length), reply)
        script.ask("#".ljust(length, "x"))
        script.ask("x" * length, "error syntax")
    script.ask("#" * 1_000_000)
    script.ask("x" * 1_000_000, "error syntax")
    script.job()
    number = len(script.jobs)
    head = f"close {number} "
    script.ask(head + "n" * (LINE + 1 - len(head)), "error syntax")
    script.ask(head + "n" * (LINE - len(head)), f"ok type {TYPE} stages 1")
    script.jobs[-1] = script.jobs[-1].replace("4 job-incoming", "3 none")
    # A send's line may be as long, and its bytes are not part of it.
    script.job()
    number = len(script.jobs)
    for length in (LINE, LINE + 1):
        script.given.append(f"send {number} 3".ljust(length).encode() + b"\nabc\n")
    script.wanted += [b"ok bytes 3\n", b"error syntax\n", b"error syntax\n"]
    script.jobs[-1] = script.jobs[-1].replace('"ann" 0 0', '"ann" 3 0')


@within(4_100)
def test_commands_at_their_limits(place):
    """Names, URIs, types, numbers, titles, options, notes and lines at their limits: each accepted or refused by its rule."""
    script = Asked()
    ask_queues(script)
    ask_notes(script)
    ask_jobs(script)
    ask_lines(script)
    script.check_listings()
    place.serve(script)
    again = Script()
    again.wanted = script.wanted[-len(script.jobs) - len(script.queues) - 2 :]
    again.given = [b"jobs\n", b"queues\n"]
    place.serve(again)
    moments = Asked()
    ask_moments(moments)
    place.fresh_spool()
    place.serve(moments)
    check_unlisted_values(place)


@within(70_000)
def test_longest_document(place):
    """Over a disk in memory 256 sends make the longest document, and one byte more is too long."""
    script = Script()
    script.ask(f"queue lab spoolfile:/out {TYPE} abort-job", "ok")
    script.ask('create lab ann "" 1 50 ""', "ok job 1")
    script.document(1, bytes(DOCUMENT))
    script.send(1, b"x", "error 7 TooLong")
    script.send(1, b"", f"ok bytes {DOCUMENT}")
    place.serve(script, "--size", "67108864", root=False)


def check_unlisted_values(place):
    """Whether the longest values are in the journal unchanged, which is the only way to see copies and options."""
    place.fresh_spool()
    options = "o=" + "v" * 2_046
    script = Script()
    script.ask(f"queue {'q' * 127} {uri_of(1_023)} {media_type(255)} stop-printer 86400 65535", "ok")
    script.ask(f"create {'q' * 127} {'u' * 255} {'t' * 255} 9999 100 {options}", "ok job 1")
    script.ask(f"createby {'q' * 127} {'u' * 255} {'t' * 255} 9999 100 {options} 4000000000000", "ok job 2")
    place.serve(script)
    journal = place.read("spool/spool.disk")
    queue = Queue("q" * 127, uri_of(1_023), media_type(255), "stop-printer", 86_400, 65_535)
    job = Job(1, "q" * 127, "u" * 255, "t" * 255, 9_999, 100, options)
    same("the longest queue is in the journal", queue.event() in journal, True)
    same("the longest job is in the journal", job.event() in journal, True)
    timed = replace(job, number=2, by=4_000_000_000_000)
    same("the longest job with a moment is in the journal", timed.event() in journal, True)
