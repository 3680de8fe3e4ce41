"""Harmful children of the shell, logs of failures, and long or numerous inputs.

No child can harm the spooler, its data or another child. The log says why a child failed.
"""
import fcntl
import os
import resource
import signal
import subprocess
import threading
import time

import pytest

from harness.checks import LONGEST, same, until, words_of_faults
from harness.child_folder import CHANNEL, COPIES, EXIT, LOCK, printed, PYTHON, SIDE_END, stage_event, states, TYPES
from harness.printers import Printer, take
from harness.programs import SHELL

pytestmark = pytest.mark.needs("spool_shell")

DONE = "9 job-completed-successfully"

# A test that runs once without a side program, and once with one.
WITH_SIDE = pytest.mark.parametrize("has_side", [False, True])

# ---- harmful children

ANSWERED_PRINTER = """#!/usr/bin/python3 -ES
import os, socket, sys
line = socket.create_connection(("127.0.0.1", int(os.environ["DEVICE_URI"].rpartition(":")[2])))
data = sys.stdin.buffer.read()
line.sendall(data[:500000])
answer = line.recv(100)
os.write(3, answer)
line.sendall(data[500000:])
line.shutdown(socket.SHUT_WR)
while line.recv(100):
    pass
"""


def test_printers_that_answer(folder):
    """A printer's reply to its backend is not written into the job, although the backend writes it to descriptor 3."""
    folder.program("filter", "first", '#!/bin/sh\nhead -c 960000 /dev/zero | tr "\\0" x\n')
    folder.program("backend", "answered", ANSWERED_PRINTER)

    def answers(connection):
        connection.sendall(b"status: ready\n")
        return take(connection)

    printer = Printer(answers)
    folder.prints(printed("lab", f"answered://127.0.0.1:{printer.port}", "b/b"), {1: DONE})
    same("the received bytes", printer.all(), [b"x" * 960_000])


GROUP = '#!/bin/sh\nps -o sid= -p $$ | tr -d " " >"$0.$1"\necho $$ >>"$0.$1"\nkill -TERM 0\nsleep 5\n'


@WITH_SIDE
def test_groups(folder, has_side):
    """A signal that a child sends to its process group reaches the child and its descendants, and not the spooler."""
    folder.program("filter", "first", GROUP)
    folder.program("backend", "exit", EXIT)
    if has_side:
        folder.side()
    folder.prints(printed("lab", "exit:/0", "b/b"), {1: "8 filter-failed"}, start_new_session=True)
    session, process = folder.read("filter-first.1").split()
    same("a session of its own", session, process)


LIMITED = PYTHON + """
import resource, signal
report(oct(os.umask(0)), "mask")
report(repr(resource.getrlimit(resource.RLIMIT_FSIZE)), "limit")
signal.signal(signal.SIGXFSZ, signal.SIG_DFL)
with open(os.path.join(here, "large"), "wb", buffering=0) as file:
    file.seek(2**30 - 1)
    file.write(b"x")
    report("up to the limit")
    file.write(b"x")
    report("above the limit")
"""


def test_limits(folder):
    """A child's files are accessible only to their owner, and none of them grows beyond a gibibyte."""
    folder.program("backend", "limited", LIMITED, "writes")
    replies = folder.run(printed("lab", "limited:/x") + b"round\njobs\n", log=["spool: job 1 attempt 1 stage 1 limited: killed by a signal, no error message"])
    same("jobs", states(replies), {1: "8 backend-failed"})
    same("the mask", folder.report("mask"), ["0o77"])
    same("the limit", folder.report("limit"), ["(1073741824, 1073741824)"])
    same("its report", folder.report("writes"), ["up to the limit"])
    same("its end", stage_event(1, 1, 1, b"\x01") in folder.read("spool/spool.disk"), True)
    # A lower limit of the spooler's own stays in force, and the child runs.
    lower = 2**20 * 64
    folder.run(printed("more", "limited:/x", number=2) + b"round\n", preexec_fn=lambda: resource.setrlimit(resource.RLIMIT_FSIZE, (lower, lower)))
    same("a lower limit", folder.report("limit")[1] in ("(67108864, 67108864)", "(1073741824, 1073741824)"), True)


def test_causes(folder):
    """The log says why a stage failed if its child reports no message."""
    folder.program("filter", "first", COPIES)
    folder.program("backend", "exit", EXIT)
    folder.program("backend", "says", '#!/bin/sh\necho "ERROR: no paper" >&2\nexit 1\n')
    folder.program("backend", "mumbles", '#!/bin/sh\necho "DEBUG: no paper" >&2\necho "oh" >&2\nexit 5\n')
    folder.program("backend", "kill", "#!/bin/sh\nkill -KILL $$\n")
    script = printed("a", "exit:/0", "b/b", title="16777217") + printed("b", "exit:/7", number=2) + printed("c", "says:/x", number=3)
    script += printed("d", "mumbles:/x", number=4) + printed("e", "kill:/x", number=5) + printed("f", "exit:/0", number=6)
    log = ["spool: job 1 attempt 1 stage 1 first: output exceeds 16777216 bytes"]
    log.append("spool: job 2 attempt 1 stage 1 exit: ended with status 7, no error message")
    log.append("spool: job 4 attempt 1 stage 1 mumbles: ended with status 5, no error message")
    log.append("spool: job 5 attempt 1 stage 1 kill: killed by a signal, no error message")
    folder.run(script + b"round\n", log=log)


def test_ends_that_cannot_be_known(folder):
    """If SIGCHLD is ignored at the start, the shell with a programs file serves nothing; without one it works as usual."""
    folder.program("backend", "exit", EXIT)

    def ignoring():
        signal.signal(signal.SIGCHLD, signal.SIG_IGN)

    script = printed("lab", "exit:/0", policy="retry-current-job") + b"drain 20\njobs\n"
    replies = folder.run(script, status=1, log=["spool: sigchld-ignored"], preexec_fn=ignoring)
    same("replies", (replies, folder.left()), ([], []))
    words = [SHELL, "--root", folder.root]
    run = subprocess.run(words, input=b"jobs\n", cwd=folder.path, capture_output=True, timeout=LONGEST, preexec_fn=ignoring)
    same("without programs", (run.returncode, run.stdout, run.stderr), (0, b"ok 0\n", b""))
    replies = folder.outcome(script, "env", "--default-signal=CHLD", preexec_fn=ignoring)[1]
    same("with the usual signal", states(replies), {1: DONE})


@pytest.mark.strace
def test_ends_that_are_not_observed(folder):
    """If a wait does not return a child's end, nothing more is started in that run."""
    folder.program("backend", "counts", '#!/bin/sh\necho ran >>"$0.ran"\n')
    script = printed("lab", "counts:/x", policy="retry-current-job") + b"drain 20\njobs\n"
    errors = folder.outcome_with(script, "-e", "inject=wait4,waitid:error=ECHILD")[2]
    log = ["spool: job 1 attempt 1 stage 1 counts: outcome unknown"]
    log += [f"spool: job 1 attempt {n} stage 1 counts: not started: the outcome of an earlier child is unknown" for n in range(2, 6)]
    same("log", errors.splitlines(), log)
    # No wait returned the child's end, so the child may write its line only now.
    until("its line", lambda: os.path.exists(folder.at("backend-counts.ran")))
    same("the record of runs", folder.read("backend-counts.ran"), b"ran\n")


def test_names_that_a_child_removes(folder):
    """A filter that cleans up the folder of its temporary files removes no job."""
    folder.program("filter", "first", '#!/bin/sh\ncat "$6"\nrm -rf "$TMPDIR"/*\n')
    folder.program("backend", "keep", '#!/bin/sh\ncat >"$0.kept"\n')
    folder.program("backend", "blocks", '#!/bin/sh\nrm "$TMPDIR/spool.disk"\nmkdir "$TMPDIR/spool.disk"\n')
    script = printed("lab", "keep:/x", "b/b", document=b"doc") + printed("later", "keep:/x", number=2) + b"hold 2 indefinite\ndrain 5\njobs\n"
    replies = folder.run(script)
    same("jobs", states(replies), {1: DONE, 2: "4 job-hold-until-specified"})
    same("the printed document", folder.read("backend-keep.kept"), b"doc")
    same("files", sorted(os.listdir(folder.at("spool"))), ["spool.disk", LOCK])
    found = os.stat(folder.at("spool", "spool.disk"))
    same("the file", (found.st_size, oct(found.st_mode)), (16777216, "0o100600"))
    again = folder.run(b"jobs\n")
    same("the jobs again", [line for line in again if line.startswith("job ")], [line for line in replies if line.startswith("job ")])
    # If the name cannot be restored, nothing more is acknowledged.
    replies = folder.run(printed("blocked", "blocks:/x", number=3) + b"round\njobs\nrelease 2\n", status=1, log=["spool: disk", "spool: cause: failed"])
    same("without its name", ("error disk" in replies, replies[-1]), (True, "error dead"))


def test_locks_that_are_released(folder):
    """A lock that is released within a moment, such as that of a killed program, is waited for, and one that remains is not: both the lock
    of the folder and that of the lock file, which another host sees.
    """
    for name in ("", LOCK):
        folder.run(b"jobs\n")
        lock = os.open(folder.at(folder.root, name), os.O_RDWR if name else os.O_RDONLY)
        fcntl.flock(lock, fcntl.LOCK_EX)
        begun = time.monotonic()
        folder.run(b"jobs\n", status=1, log=["spool: disk", "spool: cause: owned"])
        same("seconds", 0.8 < time.monotonic() - begun < 30, True)
        threading.Timer(0.4, os.close, [lock]).start()
        same("replies", folder.run(b"jobs\n"), ["ok 0"])


@pytest.mark.strace
def test_locks_that_exclude_nobody(folder):
    """If a lock on the lock file does not exclude a second one, nothing is served or created. If folders cannot be locked, the lock file is
    enough.
    """
    lock = os.path.realpath(folder.at(folder.root)) + "/" + LOCK
    folder.write(os.path.join(folder.root, LOCK), "", 0o600)

    def served(*inject):
        status, replies, errors = folder.outcome_with(b"jobs\n", *inject)
        return status, replies, words_of_faults(errors)

    refused = (1, [], "spool: disk\nspool: cause: owner unknown\n")
    same("two locks at once", served("-P", lock, "-e", "inject=flock:retval=0"), refused)
    same("the folder", os.listdir(folder.at(folder.root)), [LOCK])
    same("no lock of the file", served("-P", lock, "-e", "inject=flock:error=ENOLCK"), (1, [], "spool: disk\nspool: cause: failed\n"))
    same("no lock of the folder", served("-e", "inject=flock:error=EBADF:when=1"), (0, ["ok 0"], ""))


@pytest.mark.root
def test_the_owner_of_the_lock_file(folder):
    """The lock file has the folder's owner: a program that root runs first does not exclude other users."""
    root = folder.at(folder.root)
    os.chown(root, 65534, 65534)
    folder.run(b"jobs\n")
    found = os.stat(os.path.join(root, LOCK))
    same("its owner and mode", (found.st_uid, found.st_gid, oct(found.st_mode), found.st_size), (65534, 65534, "0o100600", 0))


GOES_ON_ALONE = '#!/bin/sh\ncat "$6" >"$0.kept"\nwhile [ ! -e "$0.end" ]; do sleep 0.05; done\n'


@WITH_SIDE
def test_leftovers_of_kills(folder, has_side):
    """Files that a child of a killed program left are removed at the next start, unless the child still runs, which is logged."""
    folder.program("backend", "alone", GOES_ON_ALONE)
    if has_side:
        folder.side()
    shell = folder.launch(printed("lab", "alone:/x", document=b"a secret") + b"round\n")
    until("the document", lambda: os.path.exists(folder.at("backend-alone.kept")) and folder.read("backend-alone.kept"))
    shell.kill()
    names = ["err-1-1-1", "in-1-1-1", "out-1-1-1", *(["side-1-1-1"] if has_side else []), "spool.disk"]
    same("left", folder.left(), names)
    # Names that do not belong to a child, and a link in place of a child's file.
    others = ["in-1-1", "in-1-1-1-1", "in-1-1-x", "notes", "out--1-1", "outs-1-1-1"]
    for name in others:
        folder.write(os.path.join("spool", name), "kept")
    os.symlink(folder.at("types"), folder.at("spool", "out-9-1-1"))
    log = ["spool: job 1 attempt 1 stage 1: a child of an earlier run is still running"]
    replies = folder.run(b"jobs\n", log=log)
    same("jobs", states(replies), {1: "8 attempt-lost"})
    same("while it runs", folder.left(), sorted([*names, *others]))
    folder.write("backend-alone.end", "")
    folder.until_no_child_runs()
    folder.run(b"jobs\n", log=[])
    same("once it has ended", folder.left(), sorted([*others, "spool.disk"]))
    same("the target of a link", folder.read("types"), TYPES.encode())
    # The folder of a spool that cannot be opened is unchanged.
    folder.write(os.path.join("spool", "in-7-1-1"), "kept")
    with open(folder.at("spool", "spool.disk"), "r+b") as disk:
        disk.write(b"no spool")
    folder.run(b"jobs\n", status=1, log=["spool: not-a-spool"])
    same("of no spool", "in-7-1-1" in folder.left(), True)


# ---- floods, and children that do not end


FLOOD = '#!/bin/sh\n[ "$3" = out ] && exec yes\nexec yes "DEBUG: on and on" >&2\n'
KEEP = '#!/bin/sh\ncat "${6:--}" >"$0.kept.$1"\n'


def test_floods(folder):
    """Filters that write for ever to either stream: the limit on a file's size ends them, and only their jobs."""
    folder.program("filter", "first", FLOOD)
    folder.program("backend", "keep", KEEP)
    lower = 2**20 * 64
    script = printed("a", "keep:/x", "b/b", title="out") + printed("b", "keep:/x", "b/b", title="errors", number=2)
    script += printed("c", "keep:/x", document=b"doc", number=3)
    replies = folder.run(script + b"drain 5\njobs\n", preexec_fn=lambda: resource.setrlimit(resource.RLIMIT_FSIZE, (lower, lower)))
    same("jobs", states(replies), {1: "8 filter-failed", 2: "8 filter-failed", 3: DONE})
    same("the printed document", (folder.read("backend-keep.kept.3"), os.path.exists(folder.at("backend-keep.kept.1"))), (b"doc", False))
    same("files", folder.left(), ["spool.disk"])


LEAVES = '#!/bin/sh\necho here\n(sleep 90; echo late) &\n'


def test_daemons(folder):
    """A filter leaves a process that keeps its streams open: the job continues when the filter has ended, with the filter's output."""
    folder.program("filter", "first", LEAVES)
    folder.program("backend", "keep", KEEP)
    begin = time.monotonic()
    folder.prints(printed("lab", "keep:/x", "b/b"), {1: DONE})
    same("in time", time.monotonic() - begin < 60, True)
    same("the printed document", folder.read("backend-keep.kept.1"), b"here\n")
    same("files", folder.left(), ["spool.disk"])


def test_a_child_that_never_ends(folder):
    """The round waits for a child that never ends, after the stage of another queue has run. The next start ends its attempt."""
    folder.program("backend", "keep", KEEP)
    folder.program("backend", "never", GOES_ON_ALONE)
    shell = folder.launch(printed("b", "keep:/x", document=b"doc") + printed("z", "never:/x", number=2) + b"round\n")
    ended = stage_event(1, 1, 1, b"\0\0")
    until("the end of the first", lambda: "spool.disk" in folder.left() and ended in folder.read("spool/spool.disk"))
    same("it waits", shell.child.poll(), None)
    shell.kill()
    same("jobs", states(folder.run(b"jobs\n")), {1: DONE, 2: "8 attempt-lost"})
    folder.write("backend-never.end", "")
    folder.until_no_child_runs()


# ---- many and large inputs


def test_much(folder):
    """Long and numerous inputs that are still within their limits."""
    types = "".join(f"a/x{n} string(0,{'y' * 60}{n})\n" for n in range(1000)) + TYPES
    folder.write("types", types)
    folder.write("convs", "".join(f"a/{a} a/{b} 1 f{n:02}\n" for n, (a, b) in enumerate(zip(CHAIN, CHAIN[1:]), 1)))
    for n in range(1, 16):
        folder.program("filter", f"f{n:02}", '#!/bin/sh\ncat $6\necho "$(basename "$0")"\n')
    folder.program("backend", "keep", '#!/bin/sh\ncat >"$0.kept"\nprintf "%s\\n" "$#" "$3" "$4" >"$0.words"\n')
    os.symlink(folder.at("backend-keep"), folder.at("link"))
    folder.lines.append(f"backend link {folder.at('link')}")
    for n in range(44):
        folder.lines.append(f"backend more{n} {folder.at('backend-keep')}")
    folder.program("backend", "effects", '#!/bin/sh\nfor i in $(seq 110); do echo "PAGE: $i 1" >&2; done\n')
    title = "t" * 120
    script = printed("lab", "link:/x?" + "&".join(f"name{n}=value{n:04}" for n in range(37)), "a/last", document=b"doc\n", title=title, copies=100)
    script += printed("more", "effects:/x", number=2) + b"drain 20\njobs\n"
    replies = folder.run(script)
    same("jobs", states(replies), {1: DONE, 2: DONE})
    same("pages", [line.split(" ")[7] for line in replies if line.startswith("job 2")], ["110"])
    same("programs", len(folder.lines), 62)
    same("a chain of 15 filters", folder.read("link.kept").decode().split(), ["doc", *[f"filter-f{n:02}" for n in range(1, 16)]])
    same("words", folder.read("link.words").decode().split(), ["5", title, "100"])


# The types of a chain of 15 conversions.
CHAIN = ["a", *[f"s{n}" for n in range(1, 15)], "last"]


def test_attempts(folder):
    """Nine queues, each with a job that is tried five times."""
    folder.program("backend", "again", '#!/bin/sh\necho "$PRINTER $SPOOL_ATTEMPT" >>"$0.ran"\nexit 7\n')
    script = b"".join(printed(f"q{n}", "again:/x", policy="retry-current-job", number=n) for n in range(1, 10))
    folder.prints(script, {n: "8 retry-limit" for n in range(1, 10)}, by="drain 20")
    ran = sorted(folder.read("backend-again.ran").decode().split("\n")[:-1])
    same("attempts", ran, sorted(f"q{n} {attempt}" for n in range(1, 10) for attempt in range(1, 6)))


ASKS_MUCH = CHANNEL + """
line = call()
report(ask(line, b"\\x04\\x00" + (1500).to_bytes(2, "big") + bytes(1500)))
"""

READS_SIDE = "#!/bin/sh\ncat >/dev/null\necho written\necho written >&2\nexec %s \"$@\"\n"


def test_side_programs_that_read(folder):
    """A request of 1,500 bytes, and a side program that reads standard input and writes to its streams."""
    folder.program("backend", "ask", ASKS_MUCH, "asks")
    folder.write("ends", SIDE_END, 0o755)
    folder.side(READS_SIDE % folder.at("ends"))
    folder.prints(printed("lab", "ask:/o?id=MFG", document=b"doc"), {1: DONE}, by="round")
    same("answers", folder.report("asks"), ["04010003" + b"MFG".hex()])


ASKS_EARLY = CHANNEL + """
report(ask(call(), b"\\3\\0\\0\\0"))
"""


def test_answers_before_others_end(folder):
    """A child gets its answers while a child of an earlier queue is waited for, which ends after the answers."""
    folder.program("backend", "long", f"#!/bin/sh\nwhile [ ! -e {folder.at('report.asks')} ]; do sleep 0.05; done\n")
    folder.program("backend", "ask", ASKS_EARLY, "asks")
    folder.side()
    folder.prints(printed("a", "long:/x") + printed("b", "ask:/o", number=2), {1: DONE, 2: DONE}, by="round")
    same("answers", folder.report("asks"), ["0301000101"])


SECOND = CHANNEL + """
silent = [call() for n in range(3)]
silent[1].sendall(b"\\3\\0")
begun = time.monotonic()
report(ask(call(), b"\\3\\0\\0\\0"))
report(ask(silent[1], b"\\0\\0"))
report("early" if time.monotonic() - begun < 10 else "late", "when")
"""


def test_several_connections(folder):
    """A child that keeps idle connections open does not delay the answers to another one, and a request may arrive in pieces."""
    folder.program("backend", "ask", SECOND, "asks")
    folder.side()
    folder.prints(printed("a", "ask:/o"), {1: DONE}, by="round")
    same("answers", (folder.report("asks"), folder.report("when")), (["0301000101", "0301000101"], ["early"]))


GOES_ON = CHANNEL + """
line = call()
if os.fork() == 0:
    os.setsid()
    for n in (0, 1, 2):
        os.close(n)
    end = time.monotonic() + 60
    try:
        while time.monotonic() < end:
            ask(line, b"\\3\\0\\0\\0")
    except OSError:
        pass
    os._exit(0)
report(ask(call(), b"\\3\\0\\0\\0"))
"""


def test_leftovers_that_send_requests(folder):
    """A process that a child leaves running, and that continues to send requests, delays no round."""
    folder.program("backend", "ask", GOES_ON, "asks")
    folder.side("#!/bin/sh\nexit 0\n")
    begun = time.monotonic()
    folder.prints(printed("a", "ask:/o"), {1: DONE}, by="round")
    same("answers", folder.report("asks"), ["0301000101"])
    same("seconds", time.monotonic() - begun < 50, True)


def test_side_programs_that_hang(folder):
    """A side program that hangs and ignores signals is ended after a bounded time; and no signal reaches the spooler."""
    folder.program("backend", "exit", EXIT)
    folder.side('#!/bin/sh\ntrap "" TERM\nkill -TERM 0\nwhile :; do sleep 1; done\n')
    begun = time.monotonic()
    replies = folder.run(printed("a", "exit:/5") + printed("b", "exit:/0", number=2) + b"round\njobs\n", start_new_session=True)
    same("jobs", states(replies), {1: "7 canceled", 2: DONE})
    same("seconds", time.monotonic() - begun < 60, True)


def test_many_devices(folder):
    """The lines of many backends are all printed."""
    folder.program("backend", "many", "#!/bin/sh\nfor i in $(seq 60); do echo \"network many://$i \\\"A\\\" \\\"B $i\\\"\"; done\n")
    run = subprocess.run([*folder.words(), "--devices"], cwd=folder.path, capture_output=True, timeout=LONGEST)
    same("devices", run.stdout.decode().splitlines(), [f'network many://{n} "A" "B {n}"' for n in range(1, 61)])


@pytest.mark.strace
def test_documents_that_cannot_be_read(folder):
    """The disk fails when the round reads the document: the round is a fault, and nothing is started."""
    folder.program("backend", "exit", EXIT)
    folder.run(printed("lab", "exit:/0", document=b"x" * 3000))
    disk = os.path.realpath(folder.at(folder.root, "spool.disk"))
    # The opening reads the journal, and then the round reads the document.
    folder.outcome_with(b"", "-P", disk, "-e", "trace=pread64")
    count = folder.read("calls").count(b"pread64(")
    status, replies, _ = folder.outcome_with(b"round\njobs\nround\n", "-P", disk, "-e", f"inject=pread64:error=EIO:when={count + 1}+")
    same("the rounds", (replies[0], replies[-1], status), ("error disk", "error dead", 1))
    same("files", folder.left(), ["spool.disk"])


@pytest.fixture
def folder(child_folder):
    return child_folder
