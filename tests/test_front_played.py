"""A submission of the front end to a simulated service: each loss, each refusal and each status.

The decisions after a lost reply are proved over values; here real connections are lost.
"""
import os
import subprocess
import time

import pytest

from harness.checks import LONGEST, holds, same
from harness.front import Front, Played

pytestmark = pytest.mark.needs("spool_front")


def shown(size, state="4 job-incoming", media="", token="TOKEN"):
    """The reply to `job 5`."""
    number, reason = state.split()
    kind = f"type {media}\n" if media else ""
    return (
        f'job 5\nqueue q\nuser "ann"\ntitle "t"\noptions "submission={token}"\ncopies 1\npriority 50\n'
        f"size {size}\npages 0\nattempts 0\n{kind}state {number}\nreason {reason}\nok 1\n"
    )


LISTED = 'job 5 q 4 job-incoming "ann" 0 0 "t"\nok 1\n'
TYPE = "ok type application/octet-stream stages 1\n"
CREATED, CANCELED = ('create "q" ', "ok job 5\n"), ("cancel 5", "ok\n")

# The piece and the close that is sent together with it. An empty reply is not waited for: the close comes although the piece has no reply yet.
# The service refuses a close if the job has another size, and has no other effect of it.
PIECE, CLOSE_AT = ("send 5 3", ""), 'closeat 5 3 "doc"'
SENT = [PIECE, (CLOSE_AT, f"ok bytes 3\n{TYPE}")]
OTHER_SIZE = "error size\n"

# An older service, or one that refuses only the close: the job is closed by a command of its own.
CLOSED = ("close 5 ", TYPE)


def piece(reply, close=OTHER_SIZE):
    """The steps of a connection in which the piece and the close have these replies. None closes the connection before the reply."""
    if reply is None:
        return [PIECE, (CLOSE_AT, None)]
    return [PIECE, (CLOSE_AT, reply + close)] if close is not None else [("send 5 3", reply), (CLOSE_AT, None)]


OPEN = piece("ok bytes 3\n", "error syntax\n")

# The steps of a connection that is lost at each command.
NOT_CREATED, NOT_SENT, NOT_CLOSED = [('create "q" ', None)], [CREATED, *piece(None)], [CREATED, *OPEN, ("close 5 ", None)]

# Others' jobs, and one that has ended.
ROWS = 'job 5 q 4 job-incoming "ann" 0 0 "t"\njob 6 q 4 job-incoming "bob" 0 0 "t"\njob 7 q 9 job-completed-successfully "ann" 0 0 "t"\nok 3\n'
ENDED = "the job was ended before the document was complete"


def asked(*reply, then=()):
    """The steps of a connection in which the front end asks for its job."""
    return [("job 5", *reply), *then]


# The sentences of refusals.
NO_QUEUE = "no such queue (spool queues lists the queues)"
NO_JOB = "no such job (spool status lists the jobs)"
TOO_LONG = "the document is longer than 16,777,216 bytes"
FULL = "the spool is full (see spool_service(8), A full spool)"

# The steps of each connection, the status and a part of the output.
SUBMISSIONS = {
    "accepted": ([[CREATED, *SENT]], 0, "request id is q-5 (1 file(s))"),
    "unprintable": ([[CREATED, *piece("ok bytes 3\n", "ok type a/b unprintable\n")]], 4, "job 5"),
    "create refused": ([[('create "q" ', "error 1 NoQueue\n")]], 1, f"spool: cannot print on q: {NO_QUEUE}\n"),
    # The reply to the piece is reported, not that to the close.
    "send refused": ([[CREATED, *piece("error 7 TooLong\n"), CANCELED]], 1, f"spool: cannot print on q: {TOO_LONG}; job 5 was canceled\n"),
    "another size": ([[CREATED, *piece("ok bytes 9\n"), CANCELED]], 1, "job 5 was canceled"),
    "put off": ([[('create "q" ', "error full\n"), CREATED, *piece("error memory\n"), *piece("ok bytes 3\n", "error full\n"), ("close 5 ", "error full\n"), CLOSED]], 0, "q-5"),
    "full for good": ([[CREATED, *piece("error full\n") * 21, CANCELED]], 1, f"{FULL}; job 5 was canceled"),
    # It was created: the front end continues with the job that has the token.
    "create lost": ([NOT_CREATED, [("jobs", LISTED), *asked(shown(0)), *SENT]], 0, "q-5"),
    "create not done": ([NOT_CREATED, [("jobs", "ok 0\n"), CREATED, *SENT]], 0, "q-5"),
    # A listing that fails does not show that the job does not exist: it is requested again.
    "no listing": ([NOT_CREATED, [("jobs", "error busy\n")], [("jobs", "error memory\n"), ("jobs", LISTED), *asked(shown(0)), *SENT]], 0, "q-5"),
    # A job with another token, a job of another user and a job that has ended are not its own.
    "foreign jobs": ([NOT_CREATED, [("jobs", ROWS), *asked(shown(0, token="0" * 32)), CREATED, *SENT]], 0, "q-5"),
    # The job says which of the commands were executed.
    "lost, nothing done": ([NOT_SENT, [*asked(shown(0)), *SENT]], 0, "q-5"),
    "lost, sent": ([NOT_SENT, [*asked(shown(3)), CLOSED]], 0, "q-5"),
    "lost, closed": ([NOT_SENT, asked(shown(3, "3 none", "a/b"))], 0, "q-5"),
    "lost, printed": ([NOT_SENT, asked(shown(3, "9 job-completed-successfully", "a/b"))], 0, "q-5"),
    "lost, unprintable": ([NOT_SENT, asked(shown(3, "8 no-filter", "a/b"))], 4, "job 5"),
    "lost, another size": ([NOT_SENT, [*asked(shown(2)), CANCELED]], 1, "job 5 was canceled"),
    # It was perhaps closed before it was removed.
    "lost, no job": ([NOT_SENT, asked("error job\n")], 3, "cannot determine whether job 5 will be printed"),
    "lost, canceled": ([NOT_SENT, asked(shown(0, "7 canceled"))], 1, ENDED),
    # The reply to the piece has come, and that to the close not.
    "lost after the piece, sent": ([[CREATED, *piece("ok bytes 3\n", None)], [*asked(shown(3)), CLOSED]], 0, "q-5"),
    "lost after the piece, closed": ([[CREATED, *piece("ok bytes 3\n", None)], asked(shown(3, "3 none", "a/b"))], 0, "q-5"),
    "lost after a refusal, nothing done": ([[CREATED, *piece("error full\n", None)], [*asked(shown(0)), *SENT]], 0, "q-5"),
    # After `error disk` the piece or the close may have been executed, so the front end asks again on a new connection.
    "dead at the piece": ([[CREATED, *piece("error disk\n", "error dead\n")], [*asked(shown(0)), *SENT]], 0, "q-5"),
    "dead at the close, closed": ([[CREATED, *piece("ok bytes 3\n", "error disk\n")], asked(shown(3, "3 none", "a/b"))], 0, "q-5"),
    "dead at the close, open": ([[CREATED, *piece("ok bytes 3\n", "error disk\n")], [*asked(shown(3)), CLOSED]], 0, "q-5"),
    # The service refuses only the close. It is sent once more by itself, and its reply decides.
    "older": ([[CREATED, *OPEN, CLOSED]], 0, "request id is q-5 (1 file(s))"),
    "older, unprintable": ([[CREATED, *OPEN, ("close 5 ", "ok type a/b unprintable\n")]], 4, "job 5"),
    "close put off": ([[CREATED, *piece("ok bytes 3\n", "error full\n"), CLOSED]], 0, "q-5"),
    "size refused": ([[CREATED, *piece("ok bytes 3\n"), CLOSED]], 0, "q-5"),
    "close refused": ([[CREATED, *piece("ok bytes 3\n", "error 5 NoJob\n"), ("close 5 ", "error 5 NoJob\n"), ("cancel 5", "error 5 NoJob\n")]], 1, f"{NO_JOB}; job 5 is not printed"),
    "close lost, not done": ([NOT_CLOSED, [*asked(shown(3)), CLOSED]], 0, "q-5"),
    "close lost, done": ([NOT_CLOSED, asked(shown(3, "3 none", "a/b"))], 0, "q-5"),
    "close lost, printed": ([NOT_CLOSED, asked(shown(3, "9 job-completed-successfully", "a/b"))], 0, "q-5"),
    "close lost, unprintable": ([NOT_CLOSED, asked(shown(3, "8 no-filter", "a/b"))], 4, "job 5"),
    "close lost, canceled": ([NOT_CLOSED, asked(shown(3, "7 canceled"))], 1, ENDED),
    "close lost, no job": ([NOT_CLOSED, asked("error job\n")], 3, "job 5"),
    # Somebody ended the job, or an earlier close was served: `job` shows which.
    "closed before": ([[CREATED, *piece("ok bytes 3\n", "error 6 NotIncoming\n"), ("close 5 ", "error 6 NotIncoming\n"), *asked(shown(3, "3 none", "a/b"))]], 0, "q-5"),
    "canceled before": ([[CREATED, *piece("ok bytes 3\n", "error 6 NotIncoming\n"), ("close 5 ", "error 6 NotIncoming\n"), *asked(shown(3, "7 canceled"))]], 1, "job 5"),
    "dead at close": ([[CREATED, *OPEN, ("close 5 ", "error disk\n")], asked(shown(3, "3 none", "a/b"))], 0, "q-5"),
}

# The same if the service is gone for longer than the front end waits. A dead spool replies to queries, and changes nothing.
GIVEN_UP = {
    "dead for good": ([[CREATED, *piece("ok bytes 3\n", "error dead\n")], *[[*asked(shown(3)), ("close 5 ", "error dead\n")]] * 10], 3, "job 5"),
    "gone at close": ([NOT_CLOSED], 3, "job 5"),
    "gone at send": ([NOT_SENT], 3, "job 5"),
}


def played(folder, connections, status, output="", patience=3, document=b"abc", task=("spool", "submit", "q"), words=()):
    """Submits a document, usually of three bytes, to a simulated service."""
    service = Played(folder, connections)
    folder.write("doc", document)
    ended = Front(folder, patience).run(*task, folder.at("doc"), *words)
    service.end()
    service.errors = ended.stderr.decode()
    text = ended.stdout.decode() + service.errors
    same(f"status, with {text!r}", ended.returncode, status)
    holds(f"printed {text!r}, without {output!r}", output in text)
    return service


@pytest.mark.parametrize("name", [*SUBMISSIONS, *GIVEN_UP])
def test_submission(folder, name):
    played(folder, *{**SUBMISSIONS, **GIVEN_UP}[name], patience=1 if name in GIVEN_UP else 3)


# ---- a long piece, which two commands send together

FIRST, SECOND = 65_536, 65_535
LONG = bytes(range(256)) * 512
SENDS_FIRST, SENDS_SECOND = f"send 5 {FIRST}", f"send 5 {SECOND}"

BOTH = [(SENDS_FIRST, ""), (SENDS_SECOND, f"ok bytes {FIRST}\nok bytes {FIRST + SECOND}\n")]
REST = [("send 5 1", ""), (f'closeat 5 {FIRST + SECOND + 1} "doc"', f"ok bytes {FIRST + SECOND + 1}\n{TYPE}")]
ACCEPTED, GIVES_UP = "request id is q-5", "job 5 was canceled"

# The steps of each connection after the creation of the job, the status and a part of the output, for 131,072 bytes: a piece that takes two
# commands, and one of a byte.
LONG_SUBMISSIONS = {
    "both": ([[*BOTH, *REST]], 0, ACCEPTED),
    # Only the other bytes are sent again.
    "second put off": ([[(SENDS_FIRST, f"ok bytes {FIRST}\n"), (SENDS_SECOND, "error full\n"), (SENDS_SECOND, f"ok bytes {FIRST + SECOND}\n"), *REST]], 0, ACCEPTED),
    # The second command was executed without the first one: the document is given up.
    "first put off": ([[(SENDS_FIRST, "error full\n"), (SENDS_SECOND, f"ok bytes {SECOND}\n"), CANCELED]], 1, GIVES_UP),
    "both put off": ([[(SENDS_FIRST, "error full\n"), (SENDS_SECOND, "error full\n"), *BOTH, *REST]], 0, ACCEPTED),
    "both refused": ([[(SENDS_FIRST, "error 7 TooLong\n"), (SENDS_SECOND, "error 7 TooLong\n"), CANCELED]], 1, f"{TOO_LONG}; {GIVES_UP}"),
    # Its reply says nothing of the second command.
    "lost after the first reply": ([[(SENDS_FIRST, f"ok bytes {FIRST}\n"), (SENDS_SECOND, None)], [*asked(shown(FIRST + SECOND)), *REST]], 0, ACCEPTED),
}

# The size of the job says which of the two commands were executed before the connection was lost.
DONE = {0: BOTH, FIRST: [(SENDS_SECOND, f"ok bytes {FIRST + SECOND}\n")], FIRST + SECOND: []}
for size, more in DONE.items():
    for at, lost in enumerate(([(SENDS_FIRST, None)], [(SENDS_FIRST, ""), (SENDS_SECOND, None)]), 1):
        LONG_SUBMISSIONS[f"lost at {at} with {size} bytes"] = ([lost, [*asked(shown(size)), *more, *REST]], 0, ACCEPTED)
for size in (SECOND, 7):
    LONG_SUBMISSIONS[f"lost with {size} bytes"] = ([[(SENDS_FIRST, None)], [*asked(shown(size)), CANCELED]], 1, GIVES_UP)


# A document of one long piece: two commands and the close are sent together.
WHOLE = bytes(range(256)) * 511 + bytes(255)
AT_END = f'closeat 5 {FIRST + SECOND} "doc"'


def whole(first, second, close):
    """The steps in which the commands for the piece have these replies."""
    return [(SENDS_FIRST, ""), (SENDS_SECOND, ""), (AT_END, first + second + close)]


ALL = whole(f"ok bytes {FIRST}\n", f"ok bytes {FIRST + SECOND}\n", TYPE)
HALF = [(SENDS_SECOND, ""), (AT_END, f"ok bytes {FIRST + SECOND}\n{TYPE}")]

WHOLE_SUBMISSIONS = {
    "all": ([ALL], 0, ACCEPTED),
    "second put off": ([[*whole(f"ok bytes {FIRST}\n", "error full\n", OTHER_SIZE), *HALF]], 0, ACCEPTED),
    "first put off": ([[*whole("error full\n", f"ok bytes {SECOND}\n", OTHER_SIZE), CANCELED]], 1, GIVES_UP),
    "both put off": ([[*whole("error full\n", "error full\n", OTHER_SIZE), *ALL]], 0, ACCEPTED),
    "both refused": ([[*whole("error 7 TooLong\n", "error 7 TooLong\n", OTHER_SIZE), CANCELED]], 1, f"{TOO_LONG}; {GIVES_UP}"),
    "close put off": ([[*whole(f"ok bytes {FIRST}\n", f"ok bytes {FIRST + SECOND}\n", "error full\n"), CLOSED]], 0, ACCEPTED),
    "older": ([[*whole(f"ok bytes {FIRST}\n", f"ok bytes {FIRST + SECOND}\n", "error syntax\n"), CLOSED]], 0, ACCEPTED),
    "closed": ([[(SENDS_FIRST, ""), (SENDS_SECOND, ""), (AT_END, None)], asked(shown(FIRST + SECOND, "3 none", "a/b"))], 0, ACCEPTED),
    "open": ([[(SENDS_FIRST, ""), (SENDS_SECOND, ""), (AT_END, None)], [*asked(shown(FIRST + SECOND)), CLOSED]], 0, ACCEPTED),
    "half": ([[(SENDS_FIRST, ""), (SENDS_SECOND, ""), (AT_END, None)], [*asked(shown(FIRST)), *HALF]], 0, ACCEPTED),
    "none": ([[(SENDS_FIRST, ""), (SENDS_SECOND, ""), (AT_END, None)], [*asked(shown(0)), *ALL]], 0, ACCEPTED),
    "other half": ([[(SENDS_FIRST, ""), (SENDS_SECOND, ""), (AT_END, None)], [*asked(shown(SECOND)), CANCELED]], 1, GIVES_UP),
}


@pytest.mark.parametrize("document, cases, name", [
    *((LONG, LONG_SUBMISSIONS, name) for name in LONG_SUBMISSIONS), *((WHOLE, WHOLE_SUBMISSIONS, name) for name in WHOLE_SUBMISSIONS),
], ids=lambda word: word if isinstance(word, str) else len(word))
def test_long_submission(folder, document, cases, name):
    (first, *others), status, output = cases[name]
    service = played(folder, [[CREATED, *first], *others], status, output, document=document)
    if [first, *others] in ([[*BOTH, *REST]], [ALL]):
        same("the bytes", service.bytes, document)


@pytest.mark.parametrize("length", [1, 65_535, 65_536, 65_537, 131_070, 131_071, 131_072, 131_073, 262_142, 262_143])
def test_last_piece(folder, length):
    """The last piece is found and closed with, from a file and from standard input in parts."""
    steps, left, size = [CREATED], length, 0
    while left:
        piece_length = min(left, FIRST + SECOND)
        parts = [min(piece_length, FIRST), piece_length - FIRST] if FIRST < piece_length else [piece_length]
        replies = ""
        for part in parts:
            steps.append((f"send 5 {part}\n", ""))
            size += part
            replies += f"ok bytes {size}\n"
        left -= piece_length
        if left:
            steps[-1] = (steps[-1][0], replies)
        else:
            steps.append((f"closeat 5 {length} ", replies + TYPE))
    document = (bytes(range(251)) * (length // 251 + 1))[:length]
    same("the bytes of a file", played(folder, [steps], 0, ACCEPTED, document=document).bytes, document)
    for cut in (1, length // 2, length - 1):
        service = Played(folder, [steps])
        child = Front(folder, 3).start("spool", "submit", "q", "-", stdin=subprocess.PIPE)
        for part in (document[:cut], document[cut:]):
            child.stdin.write(part)
            child.stdin.flush()
            time.sleep(0.05)
        output, errors = child.communicate(timeout=LONGEST)
        service.end()
        same(f"the status, with {errors!r}", (child.returncode, output), (0, b"request id is q-5 (1 file(s))\n"))
        same("the bytes of standard input", service.bytes, document)


def test_empty_document(folder):
    """A document without a byte has no piece, so the job is closed by itself."""
    played(folder, [[CREATED, CLOSED]], 0, ACCEPTED, document=b"")


def test_unreadable_after_a_piece(folder):
    """A document that cannot be read after a whole piece is not closed: its job is canceled. A folder cannot be read at all."""
    os.mkdir(folder.at("folder"))
    service = Played(folder, [[CREATED, CANCELED]])
    output = Front(folder, 3).fails("spool", "submit", "q", folder.at("folder"))
    service.end()
    holds(f"printed {output!r}", "cannot read the document; job 5 was canceled" in output)


def test_typed(folder):
    """The close that is sent with the last piece has the name and the type, and a refusal of it is not reported."""
    for close, more in ((TYPE, []), ("error syntax\n", [('close 5 "doc" "a/b"', TYPE)])):
        steps = [CREATED, PIECE, ('closeat 5 3 "doc" "a/b"', f"ok bytes 3\n{close}"), *more]
        same("errors", played(folder, [steps], 0, ACCEPTED, words=["--type", "a/b"]).errors, "")


def test_one_write(folder):
    """A short document and its close are sent together, before a reply to either."""
    service = Played(folder, [[CREATED, *SENT]])
    folder.write("doc", "abc")
    Front(folder, 3).says("spool", "submit", "q", folder.at("doc"))
    service.end()
    same("the commands", service.heard[1:], ["send 5 3", 'closeat 5 3 "doc"'])


def test_a_mebibyte(folder):
    """A submission waits for fewer replies than it sends pieces."""
    steps, size = [CREATED], 0
    for _ in range(8):
        steps += [(SENDS_FIRST, ""), (SENDS_SECOND, f"ok bytes {size + FIRST}\nok bytes {size + FIRST + SECOND}\n")]
        size += FIRST + SECOND
    steps += [("send 5 8", ""), ('closeat 5 1048576 "doc"', f"ok bytes 1048576\n{TYPE}")]
    document = bytes(range(256)) * 4096
    same("the bytes", played(folder, [steps], 0, ACCEPTED, document=document).bytes, document)
    sends = [wanted for wanted, _ in steps if wanted.startswith("send")]
    holds("the number of waits", len([reply for _, reply in steps if reply]) < len(sends))


def test_shows_progress(folder):
    """The bar on a terminal, for a service that takes half a second for a piece."""
    folder.write("doc", LONG)
    steps = [CREATED, BOTH[0], (*BOTH[1], 0.5), *REST]
    for words, bar in ((["submit", "q", folder.at("doc")], True), (["submit", "q", folder.at("doc"), "--quiet"], False)):
        service = Played(folder, [steps])
        text, status = Front(folder, 3).on_terminal("spool", *words)
        service.end()
        same("status", status, 0)
        holds(f"{words}: {text!r}", ("[###################" in text and " 99 %, 128 KiB sent, " in text and "KiB/s" in text) == bar)
    same("without a terminal", played(folder, [steps], 0, document=LONG).errors, "")


# ---- other commands, and moments

def test_lost_order(folder):
    # A command that is not repeated: only its reply shows whether it was executed.
    service = Played(folder, [[("cancel 7", None)], [("cancel 8", "ok\n"), ("end 8", "error job\n")], [("accept", None)]])
    front = Front(folder, 1)
    output = front.fails("spool", "cancel", "7", "8", status=3)
    holds(f"printed {output!r}", output.startswith("spool: job 7: ") and "job 8" not in output)
    front.fails("spool", "queue", "accept", "q", status=3)
    service.end()


def moments_played(folder, now, words, status=0):
    """Submits three bytes with moments to a simulated service that replies `now` to the question for its time. Returns the moments that it
    was sent, by the command, and the output on standard error."""
    asked = [("now\n", now)] if now else []
    created = "createby" if "--by" in words else "create"
    sent = [("send 5 3", "ok bytes 3\n"), ("hold 5 ", "ok\n"), CLOSED] if "--at" in words or "-H" in words else SENT
    steps = [*asked, (f'{created} "q" ', "ok job 5\n"), *sent]
    service = played(folder, [steps if not status else asked], status, words=words)
    return {line.split()[0]: int(line.split()[-1]) for line in service.heard if line.startswith(("createby", "hold"))}, service.errors


def test_now(folder):
    """Seconds from now count from the time of the service."""
    sent, errors = moments_played(folder, "ok now 5000000000\n", ["--at", "+60", "--by", "+90"])
    same("moments", (sent, errors), ({"hold": 5000000060, "createby": 5000000090}, ""))


def test_time_of_day(folder):
    """A time of day is the next one by the time of the service, in UTC. 5000000000 is 08:53:20."""
    for told, wanted in (("08:53:21", 5000000001), ("8:53:20", 5000000000), ("08:53", 5000000000 - 20 + 86_400), ("00:00", 5000000000 + 54_400)):
        steps = [("now\n", "ok now 5000000000\n"), CREATED, ("send 5 3", "ok bytes 3\n"), ("hold 5 ", "ok\n"), CLOSED]
        service = played(folder, [steps], 0, task=("lp", "-d", "q", "-H", told))
        same(told, [line for line in service.heard if line.startswith("hold")], [f"hold 5 {wanted}"])


def test_removed_while_waiting(folder):
    """A job that was canceled and removed while the program waited for it was not completed."""
    for reply, status in (("error job\n", 5), (shown(3, "7 canceled", "a/b"), 5), (shown(3, "9 job-completed-successfully", "a/b"), 0)):
        played(folder, [[CREATED, *SENT, ("job 5", reply)]], status, words=["--wait"])


def test_tokens_differ(folder, is_long):
    """No two submissions have the same token."""
    tokens, count = set(), 1_000 if is_long else 40
    for _ in range(count):
        service = played(folder, [[CREATED, *SENT]], 0)
        tokens |= {line.split("submission=")[1].split('"')[0] for line in service.heard if line.startswith("create")}
    same("tokens", (len(tokens), {len(token) for token in tokens}), (count, {32}))


def test_now_apart(folder):
    """A moment of the system's clock is shifted if the service's time is another one, in either direction."""
    for apart, side in ((1_000_000, "service's time"), (-1_000_000, "system's clock")):
        began = int(time.time())
        sent, errors = moments_played(folder, f"ok now {began + apart}\n", ["--at", str(began + 60)])
        holds(f"a moment {apart} s away: {sent}", abs(sent["hold"] - began - 60 - apart) <= 30)
        holds(f"a note: {errors}", f"spool: the {side} is " in errors and "the moment is shifted by as much" in errors)
    began = int(time.time())
    sent, errors = moments_played(folder, f"ok now {began}\n", ["--at", str(began + 60)])
    same("an equal clock", (sent, errors), ({"hold": began + 60}, ""))


def test_without_now(folder):
    """A service that does not know `now` has the system's clock."""
    began = int(time.time())
    sent, errors = moments_played(folder, None, ["--at", "+60"])
    holds(f"a moment a minute ahead: {sent}", began + 60 <= sent["hold"] <= began + 90)
    sent, errors = moments_played(folder, None, ["--at", "1000"])
    same("an absolute moment", (sent, errors), ({"hold": 1000}, ""))


def test_now_invalid(folder):
    for reply in ("ok now\n", "ok now 12x\n", "ok now 4000000000001\n", "ok room 12\n", "ok 12\n"):
        sent, errors = moments_played(folder, reply, ["--at", "+60"], status=1)
        same(f"after {reply}", (sent, errors), ({}, "spool: the reply of the service is invalid\n"))


def test_looks_at_a_busy_service(folder):
    """Tasks that look try again while the service is busy, and then say so."""
    busy, steps = [("jobs", "error busy\n")], [("jobs", "ok 0\n")]
    for count in (1, 3):
        service = Played(folder, [busy] * count + [steps])
        Front(folder, 5).says("spool", "status")
        service.end()
    service = Played(folder, [busy] * 11)
    same("a service that stays busy", Front(folder, 1).fails("spool", "status"), f"spool: the service at {folder.socket} is busy\n")
    service.end()
    # The second connection is closed before its reply.
    service = Played(folder, [[("watch", "error busy\n")], [("watch", None)]])
    Front(folder, 1).fails("spool", "watch")
    service.end()
    same("watch", service.heard, ["watch", "watch"])


def test_without_a_service(folder):
    folder.write("doc", "abc")
    same("status with no service", Front(folder, 1).run("spool", "submit", "q", folder.at("doc")).returncode, 1)
