"""Real children of the shell: the input of each child, and the outcome of its job.

No contract clause describes files, sockets or processes, so these are the tests of the launcher, the side channel's sockets and `--devices`.
The filters and backends are small programs in sh and Python, which are written into a fresh folder for each test.
"""
import os
import resource
import signal
import subprocess
import threading
import time

import pytest

from harness.checks import LONGEST, quoted, same, words_of_faults
from harness.child_folder import CHANNEL, COPIES, EXIT, printed, PYTHON, queue_states, stage_event, states
from harness.programs import limited, SHELL

pytestmark = pytest.mark.needs("spool_shell")

DONE = "9 job-completed-successfully"

# A backend that keeps its document.
KEEP = '#!/bin/sh\ncat >"$0.kept"\n'

# ---- ends of children

# The outcome of the job of a backend with this status, under each policy: its state and reason, and the queue's state.
FAILED = {"abort-job": ("8 backend-failed", "3"), "retry-job": ("3 retry-later", "3"), "retry-current-job": ("3 none", "3"), "stop-printer": ("3 none", "5")}
ANSWERED = {
    0: (DONE, "3"),
    2: ("4 cups-held-for-authentication", "3"),
    3: ("4 held-by-backend", "3"),
    4: ("3 none", "5"),
    5: ("7 canceled", "3"),
    6: ("3 retry-later", "3"),
    7: ("3 none", "3"),
}
STATUSES = [0, 1, 2, 3, 4, 5, 6, 7, 8, 255]


def test_statuses_of_backends(folder):
    """A backend that exits is reported with its status. Under each error policy the job and the queue show the result."""
    folder.program("backend", "exit", EXIT)
    script, wanted, queues = b"", {}, {}
    for policy in FAILED:
        for status in STATUSES:
            number = len(wanted) + 1
            queue = f"{policy}-{status}"
            script += printed(queue, f"exit:/{status}", policy=policy, number=number)
            wanted[number], queues[queue] = ANSWERED.get(status, FAILED[policy])
    replies = folder.run(script + b"round\njobs\nqueues\n")
    same("round", "ok started 40 finished 40" in replies, True)
    same("jobs", states(replies), wanted)
    same("queues", queue_states(replies), queues)
    same("files", folder.left(), ["spool.disk"])


def test_statuses_of_filters(folder):
    """A filter that exits is reported with its status. Under each error policy the job and the queue show the result."""
    folder.program("filter", "first", '#!/bin/sh\nexit "$3"\n')
    folder.program("backend", "exit", EXIT)
    script = b""
    for number, status in enumerate(STATUSES, 1):
        script += printed(f"q{status}", "exit:/0", "b/b", "stop-printer", number, title=str(status))
    folder.prints(script, {1: DONE, **{number: "8 filter-failed" for number in range(2, 11)}})


def test_signals(folder):
    """A child that a signal ends is reported with that signal, not with a status."""
    folder.program("filter", "first", "#!/bin/sh\nkill -SEGV $$\n")
    folder.program("backend", "kill", '#!/bin/sh\nkill "${DEVICE_URI##*/}" $$\n')
    script = printed("a", "kill:/-KILL") + printed("b", "kill:/-TERM", policy="stop-printer", number=2) + printed("c", "kill:/-KILL", "b/b", number=3)
    folder.prints(script, {1: "8 backend-failed", 2: "3 none", 3: "8 filter-failed"})
    journal = folder.read("spool/spool.disk")
    for number in (1, 2, 3):
        same(f"signal of {number}", stage_event(number, 1, 1, b"\x01") in journal, True)


JUNK = "neither a script nor an ELF program"


def test_programs_that_cannot_run(folder):
    """A program that is missing or cannot be run results in NoStart, never in an exit status."""
    folder.program("backend", "there", "#!/bin/sh\nexit 0\n")
    folder.lines.append(f"backend absent {folder.at('absent')}")
    folder.lines.append(f"backend folder {folder.path}")
    folder.write("plain", "#!/bin/sh\nexit 0\n")
    folder.lines.append(f"backend plain {folder.at('plain')}")
    folder.write("broken", "#!/no/such/shell\n", 0o755)
    folder.lines.append(f"backend broken {folder.at('broken')}")
    # Files that the system cannot run, but a shell would: a shell would treat an empty file as if it had printed.
    folder.write("empty", "", 0o755)
    folder.lines.append(f"backend empty {folder.at('empty')}")
    folder.write("junk", "exit 0\n", 0o755)
    folder.lines.append(f"backend junk {folder.at('junk')}")
    folder.lines.append(f"backend dos {folder.at('there')}\r")
    script = b""
    for number, scheme in enumerate(["absent", "folder", "plain", "unlisted", "broken", "there"], 1):
        script += printed(scheme, f"{scheme}:/x", number=number)
    script += printed("filtered", "there:/x", "b/b", number=7) + printed("m-empty", "empty:/x", number=8) + printed("n-junk", "junk:/x", number=9)
    at_start = {"absent": "file not found", "folder": "not a regular file", "plain": "not executable", "empty": JUNK, "junk": JUNK}
    at_start["dos"] = "the line ends with a carriage return"
    log = [f"spool: backend {name}: {cause}" for name, cause in at_start.items()]
    ended = {1: "absent", 7: "first", 2: "folder", 8: "empty", 9: "junk", 3: "plain", 4: "unlisted"}
    # They are started in the order of the queues' names.
    causes = {**at_start, "first": "not listed in the programs file", "unlisted": "not listed in the programs file"}
    log += [f"spool: job {number} attempt 1 stage 1 {name}: {causes[name]}" for number, name in ended.items()]
    log.append("spool: job 5 attempt 1 stage 1 broken: ended with status 127, no error message")
    replies = folder.run(script + b"round\njobs\n", log=log)
    # `env` ends with 127 if it does not find the shell that a program names.
    same("round", "ok started 2 finished 9" in replies, True)
    wanted = {number: "8 backend-failed" for number in (1, 2, 3, 4, 5, 8, 9)}
    same("jobs", states(replies), {**wanted, 6: DONE, 7: "8 filter-failed"})
    journal = folder.read("spool/spool.disk")
    for number in (1, 2, 3, 4, 7, 8, 9):
        same(f"end of {number}", stage_event(number, 1, 1, b"\x02") in journal, True)
    same("end of 5", stage_event(5, 1, 1, b"\x00\x7f") in journal, True)
    same("files", folder.left(), ["spool.disk"])


def test_no_descriptors_left(folder):
    """On a system without free descriptors a start results in NoStart, never in an exit status."""
    folder.program("backend", "exit", EXIT)
    script = b"".join(printed(f"q{n:02}", "exit:/0", number=n) for n in range(1, 21))
    replies = folder.run(script + b"round\njobs\n", preexec_fn=limited(resource.RLIMIT_NOFILE, 24))
    found = states(replies)
    started = sum(state == DONE for state in found.values())
    same("some are started, and some are not", 0 < started < 20, True)
    same("round", f"ok started {started} finished 20" in replies, True)
    same("ends", set(found.values()), {DONE, "8 backend-failed"})
    same("files", folder.left(), ["spool.disk"])


@pytest.mark.strace
def test_refused_by_the_system(folder):
    """No process is available, or files cannot be read: the stage ends with NoStart or Lost, whatever status the child would have ended
    with.
    """
    folder.program("backend", "says", "#!/bin/sh\necho said\necho told >&2\nexit 3\n")
    root = os.path.realpath(folder.at(folder.root))
    no_process = ["-e", "inject=clone,clone3,fork,vfork:error=EAGAIN"]
    some_processes = ["-e", "inject=clone,clone3,fork,vfork:error=EAGAIN:when=1..3"]
    no_output = ["-P", f"{root}/out-2-1-1", "-e", "inject=read,pread64,readv:error=EIO"]
    no_errors = ["-P", f"{root}/err-3-1-1", "-e", "inject=read,pread64,readv:error=EIO"]
    script = b"queue lab says:/x a/a abort-job\n"
    unread = "output cannot be read"
    refusals = [(no_process, b"\x02", "not started: out of processes"), (no_output, b"\x03", unread), (no_errors, b"\x03", unread)]
    for number, (refusal, end, cause) in enumerate(refusals, 1):
        script += b'create lab ann "" 1 50 ""\nclose %d page.txt\nround\njobs\n' % number
        status, replies, errors = folder.outcome_with(script, *refusal)
        same("status", (status, errors), (0, f"spool: job {number} attempt 1 stage 1 says: {cause}\n"))
        same(f"job {number}", states(replies)[number], "8 backend-failed")
        same(f"end of {number}", stage_event(number, 1, 1, end) in folder.read("spool/spool.disk"), True)
        same("files", folder.left(), ["spool.disk"])
        script = b""
    script = b'create lab ann "" 1 50 ""\nclose %d page.txt\nround\njobs\n'
    # Starting a process fails three times, and then succeeds.
    same("a process in a moment", states(folder.outcome_with(script % 4, *some_processes)[1])[4], "4 held-by-backend")
    same("none is refused any more", states(folder.run(script % 5))[5], "4 held-by-backend")


# ---- the input of children

GIVEN = PYTHON + """
report(repr(sys.argv[2:]), "words")
with open("/proc/self/environ", "rb") as file:
    report(repr(file.read().decode().split("\\0")[:-1]), "environment")
open_ones = []
for n in range(256):
    try:
        os.fstat(n)
        open_ones.append(n)
    except OSError:
        pass
report(repr(open_ones), "descriptors")
report(" ".join(os.readlink(f"/proc/self/fd/{n}") for n in (3, 4)), "descriptors")
report(repr(os.read(0, 100)), "input")
root = os.environ["TMPDIR"]
for name in sorted(os.listdir(root)):
    found = os.lstat(os.path.join(root, name))
    report(f"{name} {stat.S_IMODE(found.st_mode):o} {stat.S_ISREG(found.st_mode)}", "files")
if sys.argv[7:]:
    with open(sys.argv[7], "rb") as file:
        report(repr(file.read()), "document")
print("from", word)
"""


def test_given(folder):
    """A child has exactly the documented arguments, variables, descriptors, input and files."""
    folder.program("filter", "first", GIVEN, "one", "given")
    folder.lines.append(f"backend last {folder.at('given')} two")
    script = b'queue lab last:/out?id=A%20B b/b abort-job\ninfo lab Front "Room 1"\n'
    script += b'create lab ann "First page" 2 50 "media=A4 nocollate"\nsend 1 5\nhello\nclose 1 page.txt\ndrain 5\njobs\n'
    # The shell does not pass on its own environment and files.
    opened = [os.open("/dev/null", os.O_RDONLY) for _ in range(12)]
    replies = folder.run(script, pass_fds=opened, env={"SECRET": "x", "LANG": "de_DE", "PATH": "/sbin", "ENV": "/nowhere"})
    for fd in opened:
        os.close(fd)
    same("jobs", states(replies), {1: DONE})
    words = ["1", "ann", "First page", "2", "media=A4 collate=false"]
    same("words", folder.report("words"), [repr([*words, "spool/in-1-1-1"]), repr(words)])
    for stage in (1, 2):
        wanted = ["CHARSET=utf-8", "CONTENT_TYPE=a/a", "CUPS_FILETYPE=document", "DEVICE_URI=last:/out?id=A%20B", "FINAL_CONTENT_TYPE=b/b", "LANG=C"]
        wanted += ["PATH=/usr/bin:/bin", "PRINTER=lab", "PRINTER_INFO=Front", "PRINTER_LOCATION=Room 1", "TMPDIR=spool"]
        wanted += ["SPOOL_ATTEMPT=1", "SPOOL_SIDE=", f"SPOOL_STAGE={stage}"]
        same("environment", folder.report("environment")[stage - 1], repr(wanted))
    same("descriptors", folder.report("descriptors"), ["[0, 1, 2, 3, 4]", "/dev/null /dev/null"] * 2)
    same("input", folder.report("input"), ["b''", repr(b"from one\n")])
    same("document", folder.report("document"), [repr(b"hello")])
    own = ["spool.disk 600 True", "spool.lock 600 True"]
    files = [f"{name}-1-1-{stage} 600 True" for stage in (1, 2) for name in ("err", "in", "out")]
    same("files", folder.report("files"), [*files[:3], *own, *files[3:], *own])
    same("files left", folder.left(), ["spool.disk"])


# Texts that a SHELL, `env` or an option parser could misinterpret.
ODD = ['a b', '"', "'", "$(touch hit)", "`touch hit`", "; touch hit;", "$HOME", "-i", "--", "A=B", "*", "\\", "\\n", "é €", "%s", "", "& touch hit &", "> hit", "a  b "]


def test_odd_words(folder):
    """No shell interprets a text of a job."""
    folder.program("backend", "last", GIVEN, "one", "given")
    script = b"queue lab last:/x a/a abort-job\n"
    for number, text in enumerate(ODD, 1):
        options = "x=" + "".join("\\" + c if c in " '\"\\" else c for c in text)
        words = ("lab", quoted(text or "u"), quoted(text), "1", "50", quoted(options))
        script += ("create " + " ".join(words) + f"\nclose {number} page.txt\nround\n").encode()
    replies = folder.run(script + b"jobs\n")
    same("jobs", states(replies), {n: DONE for n in range(1, len(ODD) + 1)})
    for number, (text, report) in enumerate(zip(ODD, folder.report("words")), 1):
        options = "x=" + "".join("\\" + c if c in " '\"\\" else c for c in text)
        same("words", report, repr([str(number), text or "u", text, "1", options, f"spool/in-{number}-1-1"]))
    # No text contains a line feed: the line ends there, and neither half is a command.
    replies = folder.run(b'create lab ann "a\nb" 1 50 ""\ncreate lab ann "" 1 50 "x=a\nb"\njobs\n')
    same("line feeds", replies[:4], ["error syntax"] * 4)
    same("no job of them", replies[4:], [*[line for line in replies if line.startswith("job ")], f"ok {len(ODD)}"])
    same("nothing else ran", os.path.exists(folder.at("hit")) or os.path.exists(folder.at("spool", "hit")), False)


def test_links(folder):
    """A file that an earlier child left is overwritten, and a symbolic link is not followed."""
    folder.program("backend", "exit", '#!/bin/sh\necho out; echo err >&2; cat "$6" >&2\n')
    folder.write("victim", "keep", 0o644)
    for name in ("in", "out", "err"):
        os.symlink("../victim", folder.at("spool", f"{name}-1-1-1"))
    folder.write("spool/out-2-1-1", "left by a crash" * 100, 0o644)
    script = printed("lab", "exit:/0", document=b"doc") + b'create lab ann "" 1 50 ""\nclose 2 page.txt\ndrain 5\njobs\n'
    same("jobs", states(folder.run(script)), {1: DONE, 2: DONE})
    same("victim", folder.read("victim"), b"keep")
    same("files", folder.left(), ["spool.disk"])
    os.mkdir(folder.at("spool", "err-3-1-1"))
    same("a folder in the way", states(folder.run(b'create lab ann "" 1 50 ""\nclose 3 page.txt\nround\njobs\n'))[3], "8 backend-failed")
    same("files", folder.left(), ["err-3-1-1", "spool.disk"])


# ---- the output of children

COUNTS = '#!/bin/sh\nwc -c >"$0.$1"\n'


def test_outputs(folder):
    """The output of a stage reaches the next stage whole. Above the limit the stage is Lost."""
    sizes = [0, 1, 65536, 16777216, 16777217, 20000000]
    folder.program("filter", "first", COPIES)
    folder.program("backend", "count", COUNTS)
    script = b"".join(printed(f"q{n}", "count:/x", "b/b", number=n, title=str(size)) for n, size in enumerate(sizes, 1))
    replies = folder.run(script + b"drain 5\njobs\n")
    for number, size in enumerate(sizes, 1):
        fits = size <= 16777216
        same(f"{size} bytes", states(replies)[number], DONE if fits else "8 filter-failed")
        count = folder.at(f"backend-count.{number}")
        same(f"{size} bytes counted", int(folder.read(count)) if os.path.exists(count) else None, size if fits else None)
        same("lost", stage_event(number, 1, 1, b"\x03") in folder.read("spool/spool.disk"), not fits)


def test_documents(folder):
    """The first stage gets the whole document, whatever its bytes and its size."""
    folder.size = 67_108_864
    document = os.urandom(16777216)
    folder.program("filter", "first", '#!/bin/sh\ncat "$6"\n')
    folder.program("backend", "keep", KEEP)
    folder.prints(printed("q", "keep:/x", "b/b", document=document), {1: DONE})
    same("document", folder.read("backend-keep.kept") == document, True)


def test_files_that_a_child_removes(folder):
    """A child that removes its output file and renames its standard error file loses no output."""
    text = '#!/bin/sh\ncd "$TMPDIR"\nrm out-*\nmv err-* "$0.err"\necho kept\necho "INFO: told" >&2\n'
    folder.program("filter", "first", text)
    folder.program("backend", "keep", KEEP)
    replies = folder.run(printed("q", "keep:/x", "b/b") + b"drain 5\njobs\nqueues\n")
    same("jobs", states(replies), {1: DONE})
    same("output", folder.read("backend-keep.kept"), b"kept\n")
    same("message", [line.split(" ")[9:] for line in replies if line.startswith("queue ")], [['"told"']])
    same("files", folder.left(), ["spool.disk"])


def test_standard_error(folder):
    """Standard error counts up to its limit, and not beyond it."""
    text = '#!/bin/sh\necho "STATE: +toner-low" >&2\nyes "DEBUG: on and on" | head -c 3000000 >&2\necho "STATE: +media-jam" >&2\n'
    folder.program("backend", "loud", text)
    folder.program("backend", "told", '#!/bin/sh\nprintf "INFO: half\\nPAGE: 1 3\\nSTATE: +media-low\\nATTR: marker-levels=5" >&2\nexit 3\n')
    script = printed("a", "loud:/x") + printed("b", "told:/x", number=2) + b"round\njobs\nqueues\n"
    replies = folder.run(script)
    same("jobs", states(replies), {1: DONE, 2: "4 held-by-backend"})
    same("pages", [line for line in replies if line.startswith("job 2")], ['job 2 b 4 held-by-backend "ann" 0 3 ""'])
    same("reasons", [line.split(" ")[8:] for line in replies if line.startswith("queue ")], [["toner-low", '""'], ["media-low", '"half"']])


# ---- several children

MEETS = '#!/bin/sh\ntouch "$0.${DEVICE_URI##*/}"\nfor i in 1 2 3 4 5 6 7 8 9 10; do\n    [ -e "$0.$3" ] && exit 0\n    sleep 0.5\ndone\nexit 1\n'


def test_at_once(folder):
    """The children of a round run at the same time."""
    folder.program("backend", "meet", MEETS)
    script = printed("a", "meet:/x", title="y") + printed("b", "meet:/y", title="x", number=2)
    replies = folder.prints(script, {1: DONE, 2: DONE}, by="round")
    same("round", "ok started 2 finished 2" in replies, True)


SLOW = '#!/bin/sh\necho "$1 $SPOOL_ATTEMPT" >>"$0.ran"\nsleep 0.03\n'
KILLS = 40

# The shown state of a job whose end was not observed, under each policy.
LOST = [("abort-job", "8 attempt-lost"), ("retry-current-job", "3 none"), ("retry-job", "3 retry-later"), ("stop-printer", "3 none")]


def test_killed(folder):
    """A shell is killed at some moment, and started again: stages that had ended do not run again."""
    within = 0
    for trial in range(KILLS):
        policy, shown = LOST[trial % len(LOST)]
        folder.new_spool()
        folder.program("backend", "slow", SLOW)
        ran = folder.at("backend-slow.ran")
        open(ran, "w").close()
        script = f"queue lab slow:/x a/a {policy}\n".encode() + b"".join(b'create lab ann "" 1 50 ""\nclose %d page.txt\n' % n for n in range(1, 9))
        shell = folder.launch(script + b"round\njobs\n" * 8)
        time.sleep(0.02 + trial * 0.5 / KILLS)
        before = states(line for line in shell.kill()[0].splitlines() if line.endswith('""'))
        ended = {number for number, state in before.items() if state[0] in "789"}
        folder.until_no_child_runs()
        attempts = {}
        for line in open(ran):
            number, attempt = map(int, line.split())
            attempts[number] = max(attempt, attempts.get(number, 0))
        replies = folder.run(b"jobs\nqueues\n")
        after = states(replies)
        for number in ended:
            same(f"job {number} that had ended", after[number], before[number])
        lost = any(after[number] == shown for number in set(attempts) - ended)
        within += lost
        # Even if no child ran, its start may be on the disk.
        allowed = ("5",) if lost else ("3", "5")
        allowed = allowed if policy == "stop-printer" else ("3",)
        same("the queue", queue_states(replies).get("lab", "3") in allowed, True)
        for number in set(attempts) - ended:
            same(f"job {number} that was started", after[number] in (shown, DONE), True)
        last = states(folder.run(b"enable lab\nclock 100\ndrain 100\njobs\n"))
        closed = {number: state for number, state in last.items() if after[number] != "4 job-incoming"}
        same("all closed jobs end", {state[0] for state in closed.values()} <= {"8", "9"}, True)
        for line in open(ran):
            number, attempt = map(int, line.split())
            if after.get(number, "3")[0] in "789":
                same(f"job {number} did not run again", attempt <= attempts.get(number, 0), True)
        # Files that a child of the killed shell left are removed at the next start.
        same("files", folder.left(), ["spool.disk"])
    same("some were killed while a child ran", within > 0, True)


# ---- the side channel

ASKS = CHANNEL + """
line = call()
for request in ("04000000", "03000000", "05000000", "08000000", "010000024142", "06000000", "09000000", "ff010000"):
    report(ask(line, bytes.fromhex(request)), sys.argv[2])
"""


def test_sessions(folder):
    """If the file of programs has a `side` line, the side channel answers by the options of the queue's URI."""
    folder.root = "r" * 64
    os.mkdir(folder.at(folder.root))
    folder.program("backend", "ask", ASKS, "asks")
    folder.side()
    script = printed("a", "ask:/o?id=MFG%3AX%3B&bidi=0&state=007&connected=1") + printed("b", "ask:/o?state=256&state=9&bidi=2&connected=0&id=x&id=", number=2)
    folder.prints(script, {1: DONE, 2: DONE}, by="round")
    rest = ["01010000", "06070000", "09050000", "ff050000"]
    same("answers", folder.report("1"), ["04010006" + b"MFG:X;".hex(), "0301000100", "0501000107", "0801000101", *rest])
    same("defaults", folder.report("2"), ["04010000", "0301000101", "0501000109", "0801000100", *rest])
    same("files", folder.left(), ["spool.disk"])


def test_stage_with_side(folder):
    """A child with a side channel has the same environment, descriptors and status as one without."""
    folder.program("backend", "last", GIVEN + "report(oct(os.stat(os.environ['SPOOL_SIDE']).st_mode), 'socket')\nsys.exit(6)\n", "one", "given")
    folder.program("backend", "kill", "#!/bin/sh\nkill -KILL $$\n")
    folder.side(word="a-word")
    folder.prints(printed("a", "last:/x") + printed("b", "kill:/x", number=2), {1: "3 retry-later", 2: "8 backend-failed"}, by="round")
    same("descriptors", folder.report("descriptors"), ["[0, 1, 2, 3, 4]", "/dev/null /dev/null"])
    same("side", "'SPOOL_SIDE=spool/side-1-1-1'" in folder.report("environment")[0], True)
    same("socket", folder.report("socket"), ["0o140600"])
    same("status of a signal", stage_event(2, 1, 1, b"\x00\x89") in folder.read("spool/spool.disk"), True)
    same("files", folder.left(), ["spool.disk"])


# Clients that send invalid data, and then one that sends a request.
CLIENTS = {
    "hangup": "call().close()\nreport(ask(call(), b'\\3\\0\\0\\0'))",
    "cut": "l = call()\nl.sendall(b'\\3\\0\\0')\nl.close()\nreport(ask(call(), b'\\3\\0\\0\\0'))",
    "rubbish": "l = call()\ntry:\n    l.sendall(os.urandom(300000))\nexcept OSError:\n    pass\nl.close()\nreport(ask(call(), b'\\3\\0\\0\\0'))",
    "flood": "l = call()\nl.settimeout(4)\ntry:\n    while True:\n        l.sendall(b'\\3\\0\\0\\0' * 16384)\nexcept OSError:\n    pass\nreport(ask(call(), b'\\3\\0\\0\\0'))",
    "open": "keep = call()\nreport(ask(keep, b'\\3\\0\\0\\0'))\ntime.sleep(1)\nreport(ask(keep, b'\\3\\0\\0\\0'))\nkeep.close()\nreport(ask(call(), b'\\3\\0\\0\\0'))",
    "quiet": "keep = call()\nreport('0301000101')",
    "early": "l = call()\nl.sendall(b'\\xff\\0\\0\\0')\nprint(l.recv(1))\nreport('0301000101')",
    "forks": "keep = call()\nif os.fork() == 0:\n    os.setsid()\n    time.sleep(100)\n    os._exit(0)\nreport('0301000101')",
    "many": "for n in range(256):\n    call().close()\ntry:\n    answer = ask(call(), b'\\3\\0\\0\\0')\nexcept OSError:\n    answer = 'cut '\nreport('0301000101' if answer == 'cut ' else answer)",
}


def test_clients(folder):
    """Each client of a side channel gets its own answers, whatever the others send."""
    script = b""
    for number, (name, text) in enumerate(CLIENTS.items(), 1):
        folder.program("backend", name, CHANNEL + text + "\n", name)
        script += printed(name, f"{name}:/x", number=number)
    folder.side()
    begun = time.monotonic()
    replies = folder.run(script + b"round\njobs\n")
    for number, name in enumerate(CLIENTS, 1):
        same(f"client {name}", (states(replies)[number], set(folder.report(name))), (DONE, {"0301000101"}))
    same("seconds", time.monotonic() - begun < 90, True)


def test_sides_that_fail(folder):
    """A side program that fails, or cannot be run, costs its own session only."""
    for name, text in {"fails": "#!/bin/sh\nexit 1\n", "silent": "#!/bin/sh\nexit 0\n", "broken": "#!/no/such/shell\n", "absent": None}.items():
        folder.new_spool()
        folder.program("backend", "exit", EXIT)
        folder.side(text or "")
        if text is None:
            os.remove(folder.at("side-program"))
        begun = time.monotonic()
        same(f"side program {name}", states(folder.run(printed("a", "exit:/5") + b"round\njobs\n")), {1: "7 canceled"})
        same("seconds", time.monotonic() - begun < 30, True)


# ---- devices


def test_devices(folder):
    """`--devices` prints the line of each device as its backend wrote it, and opens no spool."""
    folder.program("backend", "one", '#!/bin/sh\necho \'direct one:/x "A B" "C" "MFG:X;" ""\'\necho nothing\necho "$#$*" >"$0.words"\ncat /proc/$$/environ >"$0.environment"\necho loud >&2\n', "a-word")
    folder.lines.append(f"backend absent {folder.at('absent')}")
    folder.program("filter", "one", '#!/bin/sh\necho \'direct filter:/x "A" "B"\'\n')
    folder.program("backend", "a", '#!/bin/sh\nprintf \'network  a "Unknown" "A"\\ndirect b:/\\377 "A" "B"\\nfile c "Unknown" "C"\'\nexit 1\n')
    # Lines after the first 1,048,576 bytes are ignored, and a backend that writes without end is ended by the closed pipe.
    folder.program("backend", "much", "#!/bin/sh\necho 'file much:/early \"A\" \"B\"'\nhead -c 1048576 /dev/zero | tr '\\0' x\necho\necho 'file much:/late \"A\" \"B\"'\n")
    folder.program("backend", "endless", "#!/bin/sh\necho 'file endless:/ \"A\" \"B\"'\nexec yes\n")
    # A process that a backend leaves running keeps its end of the pipe open, for longer than the shell may take.
    folder.program("backend", "daemon", "#!/bin/sh\necho 'file daemon:/ \"A\" \"B\"'\nsleep 600 &\necho $! >>\"$0.pids\"\nsleep 0.3\necho 'file daemon:/late \"A\" \"B\"'\n")
    folder.side()
    for root in ("spool", "absent"):
        run = subprocess.run([*folder.words()[:1], "--root", root, "--programs", "programs", "--devices"], cwd=folder.path, input=b"jobs\n", capture_output=True, timeout=3 * LONGEST)
        same("devices", (run.returncode, run.stderr), (0, b""))
        wanted = b'direct one:/x "A B" "C" "MFG:X;" ""\nnetwork  a "Unknown" "A"\nfile c "Unknown" "C"\nfile much:/early "A" "B"\nfile endless:/ "A" "B"\n'
        wanted += b'file daemon:/ "A" "B"\nfile daemon:/late "A" "B"\n'
        same("devices", run.stdout, wanted)
    for left in folder.read("backend-daemon.pids").split():
        os.kill(int(left), signal.SIGKILL)
    same("words", folder.read("backend-one.words"), b"1a-word\n")
    same("environment", folder.read("backend-one.environment"), b"")
    same("spool", folder.left(), [])
    run = subprocess.run([SHELL, "--version"], stdin=subprocess.DEVNULL, capture_output=True, timeout=LONGEST)
    same("the version", (run.returncode, run.stdout.startswith(b"spool_shell (Cegmandi) "), run.stderr), (0, True, b""))
    run = subprocess.run([SHELL, "--devices"], stdin=subprocess.DEVNULL, capture_output=True, timeout=LONGEST)
    same("no programs", (run.returncode, run.stdout, run.stderr), (0, b"", b""))
    run = subprocess.run(f"exec '{SHELL}' --programs programs --devices >/dev/full", shell=True, cwd=folder.path, capture_output=True, timeout=LONGEST)
    same("full", (run.returncode, words_of_faults(run.stderr.decode())), (1, "spool: write\n"))


# ---- a full folder


@pytest.mark.root
def test_full_folder(folder, small_disk):
    """If no file of a child can be written, no child is started; once there is room, the next round prints."""
    disk = small_disk(folder.at(folder.root), "20m")
    folder.program("backend", "keep", '#!/bin/sh\ncat "$6" >"${DEVICE_URI#keep:}"\n')
    document = bytes(range(256)) * 4096
    folder.run(printed("lab", f"keep:{folder.at('kept')}", policy="retry-current-job", document=document))
    disk.fill()
    begun = time.monotonic()
    replies = folder.run(b"round\njobs\n", log=["spool: job 1 attempt 1 stage 1 keep: not started: out of disk space"])
    same("a full folder", (replies[0], states(replies)), ("ok started 0 finished 1", {1: "3 none"}))
    seconds = time.monotonic() - begun
    same("it is tried for a while", (seconds, 1.5 < seconds < 60), (seconds, True))
    same("the remaining files", folder.left(), ["filler", "spool.disk"])
    # There is room again while the start is retried.
    threading.Timer(0.7, os.remove, [disk.filler]).start()
    replies = folder.run(b"round\njobs\n")
    same("with room", (replies[0], states(replies)), ("ok started 1 finished 1", {1: DONE}))
    same("the printed document", folder.read("kept") == document, True)


FILLS = """#!/bin/sh
cat /dev/zero >"$TMPDIR/filler" 2>/dev/null
echo hello
echo "INFO: hello" >&2
exit 0
"""


@pytest.mark.root
def test_no_room_at_the_end(folder, small_disk):
    """A filter whose output did not fit on the disk is not treated like one with empty output."""
    disk = small_disk(folder.at(folder.root), "20m")
    folder.program("filter", "first", FILLS)
    folder.program("backend", "keep", KEEP)
    folder.program("backend", "quiet", '#!/bin/sh\ncat /dev/zero >"$TMPDIR/filler" 2>/dev/null\nexit 0\n')
    cut = "spool: job 1 attempt 1 stage 1 first: no space left in the folder, output may be truncated"
    replies = folder.run(printed("lab", "keep:/x", "b/b") + b"drain 5\njobs\n", log=[cut])
    same("a filter", states(replies), {1: "8 filter-failed"})
    same("the printed document", os.path.exists(folder.at("backend-keep.kept")), False)
    same("its end", stage_event(1, 1, 1, b"\x03") in folder.read("spool/spool.disk"), True)
    os.remove(disk.filler)
    # A backend that wrote nothing lost nothing.
    log = ["spool: job 2 attempt 1 stage 1 quiet: no space left in the folder when it ended"]
    replies = folder.run(printed("next", "quiet:/x", number=2) + b"drain 5\njobs\n", log=log)
    same("a backend", states(replies)[2], DONE)


@pytest.fixture
def folder(child_folder):
    return child_folder
