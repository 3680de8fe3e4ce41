"""The hostile children of tests/test_hostile.py: a program for each, and the harm that it does.

A child reports what it could do by a file in the folder `reports`, to which everybody can write. Each program is a script of Python, run with
HERE for the folder of the test, SPOOL for the spool's folder, SERVICE for the number of the service's process, and TMP for its TMPDIR.
"""
import os
import socket
import time

from harness.checks import Difference, until
from harness.service import Client, is_there

HEAD = """#!/usr/bin/python3 -ES
import ctypes, fcntl, glob, mmap, os, resource, signal, socket, subprocess, sys, time
HERE, SPOOL = "FOLDER", "FOLDER/spool"
SERVICE = int(open(HERE + "/service").read())
TMP = os.environ["TMPDIR"]

def report(name, text="done"):
    with open(f"{HERE}/reports/{name}", "a") as file:
        file.write(str(text) + "\\n")

def attempt(name, what):
    try:
        report(name, what())
    except Exception as error:
        report("errors", f"{name}: {error!r}")

def stay():
    # Makes a process with a session of its own, whose parent is gone, and returns True in that process.
    if os.fork() == 0:
        os.setsid()
        if os.fork():
            os._exit(0)
        return True
    os.wait()
    return False

def wait_for(name):
    while not os.path.exists(f"{HERE}/reports/{name}"):
        time.sleep(0.01)

def leave():
    # Leaves a process that does nothing.
    if stay():
        report("left", os.getpid())
        time.sleep(600)
    wait_for("left")

report("begun")
"""

# The neighbour waits, and prints its document.
NEIGHBOUR = """#!/bin/sh
echo $$ >FOLDER/reports/neighbour
sleep 2
cat "$6" >>FOLDER/reports/printed
"""

SECRET = "the neighbour's secret\n"


# It takes all processes that there are, and leaves them.
BOMB = HEAD + """
signal.signal(signal.SIGCHLD, signal.SIG_IGN)
if stay():
    report("left", os.getpid())
    while True:
        try:
            os.fork()
        except OSError:
            pass
wait_for("left")
time.sleep(0.5)
"""


class Case:
    """A hostile child."""

    def __init__(self, name, text, harm, harmful=True, words=(), ends=True, neighbour=True):
        # The program, and a function that returns the harm done, or an empty text.
        self.name, self.text, self.harm = name, HEAD + text, harm
        # Whether it does harm without the words, the words besides those of the users, and whether its job ends by itself.
        self.harmful, self.words, self.ends, self.neighbour = harmful, list(words), ends, neighbour


def reported(name):
    """It reported success."""
    return lambda world: world.report(name).strip()


def lives(world):
    """A process that it left is alive."""
    pids = [int(word) for word in world.report("left").split()]
    if not pids:
        return "" if world.report("begun") else "it did not begin"
    end = time.time() + 8
    while time.time() < end and any(is_there(pid) for pid in pids):
        time.sleep(0.05)
    return " ".join(f"process {pid} lives" for pid in pids if is_there(pid))


def printed_wrong(world):
    until("the neighbour's end", lambda: world.report("printed") or not world.neighbour_runs())
    return "" if world.report("printed") == SECRET else f"the neighbour printed {world.report('printed')!r}"


def service_harmed(world):
    """The service has ended, or does not answer."""
    if world.folder.running.poll() is not None:
        return f"the service ended with {world.folder.running.returncode}"
    try:
        with socket.socket(socket.AF_UNIX) as connection:
            connection.settimeout(15)
            connection.connect(world.folder.socket)
            connection.sendall(b"now\n")
            return "" if connection.recv(100) else "the service closed the connection"
    except OSError as error:
        return f"the service does not answer: {error!r}"


def next_job_fails(world):
    """A later job is not printed."""
    harm = service_harmed(world)
    if harm:
        return harm
    client = Client(world.folder)
    job = client.submit("good", "later\n")
    try:
        client.until_state(job, "9", 15)
        return ""
    except (Difference, OSError):
        return f"the next job is {client.state(job)!r}"


def socket_taken(world):
    return world.report("taken").strip() or next_job_fails(world)


def restart_fails(world):
    """After the service is killed, another one cannot start, or a later job is not printed."""
    until("the lock's holder", lambda: world.report("ready") or world.report("errors"))
    world.folder.kill()
    world.folder.launch(*world.words)
    end = time.time() + 20
    while time.time() < end:
        if world.folder.running.poll() is not None:
            return f"the restart ended: {world.folder.log().splitlines()[-1]}"
        try:
            Client(world.folder).close()
            return ""
        except OSError:
            time.sleep(0.05)
    return "the restart does not serve"


def left_names(world):
    """Names are left in the spool's folder or in `run`, or another folder has changed."""
    if not os.path.exists(world.folder.at("precious", "file")):
        return "it removed a file elsewhere"
    run = os.path.join(world.spool, "run")
    until("the neighbour's end", lambda: world.report("printed") or not world.neighbour_runs())
    end = time.time() + 15
    while time.time() < end and children_folders(run):
        time.sleep(0.05)
    usual = {"spool.disk", "spool.lock", "spool.sock", "proof", "run"}
    names = {name for name in os.listdir(world.spool) if not name.startswith(("in-", "out-", "err-", "side-"))} - usual
    return " ".join([*names, *(f"run/{name}" for name in children_folders(run))])


def children_folders(run):
    return [name for name in os.listdir(run) if not name.startswith("user-")] if os.path.isdir(run) else []


def left_then_next(world):
    return left_names(world) or next_job_fails(world)


def many_processes(world):
    most = max([int(word) for word in world.report("processes").split()] or [0])
    if most > 60:
        return f"{most} processes"
    return lives(world)


def large_output(world):
    most = max([int(word) for word in world.report("written").split()] or [0])
    return f"{most} bytes written" if most > 16 * 2**20 else ""


def end_it(world):
    """`end` ends its job and all its processes."""
    client = Client(world.folder)
    until("its report", lambda: world.report("left"))
    client.does(f"end {world.job}")
    try:
        client.until_state(world.job, "8", 40)
    except Difference:
        return f"its job is {client.state(world.job)!r}"
    return lives(world) or next_job_fails(world)


CASES = [
    Case("reads a neighbour's document", """
for name in glob.glob(SPOOL + "/in-*") + [f"{SPOOL}/in-{job}-1-1" for job in range(1, 9)]:
    def read(name=name):
        text = open(name).read()
        return text if "secret" in text else ""
    attempt("read", read)
""", reported("read")),
    Case("rewrites a neighbour's document", """
for job in range(1, 9):
    name = f"{SPOOL}/in-{job}-1-1"
    if name != sys.argv[6]:
        attempt("wrote", lambda: (os.path.exists(name) and os.chmod(name, 0o600), open(name, "r+").write("forged\\n"))[1])
""", printed_wrong),
    Case("reads the spool's file", """
attempt("spool", lambda: "read" if open(SPOOL + "/spool.disk", "rb").read(64) else "")
""", reported("spool")),
    Case("opens the spool's file for writing", """
attempt("spool", lambda: open(SPOOL + "/spool.disk", "r+b") and "opened")
""", reported("spool")),
    Case("opens the service's memory", """
attempt("memory", lambda: os.open(f"/proc/{SERVICE}/mem", os.O_RDWR) and "opened")
""", reported("memory")),
    Case("kills the service", """
attempt("killed", lambda: os.kill(SERVICE, signal.SIGKILL))
time.sleep(0.3)
""", service_harmed),
    Case("stops the service", """
attempt("stopped", lambda: os.kill(SERVICE, signal.SIGSTOP))
time.sleep(0.3)
""", service_harmed),
    Case("takes the name of the service's socket", """
def take():
    os.unlink(SPOOL + "/spool.sock")
    line = socket.socket(socket.AF_UNIX)
    line.bind(SPOOL + "/spool.sock")
    return "took the socket's name"
attempt("taken", take)
""", socket_taken),
    Case("holds the locks across a restart", """
if stay():
    for name in ("/spool.lock", "/spool.disk", "/run/user-0"):
        try:
            lock = open(SPOOL + name, "r+")
        except OSError as error:
            report("errors", repr(error))
            continue
        try:
            fcntl.flock(lock, fcntl.LOCK_EX | fcntl.LOCK_NB)
        except OSError:
            pass
        globals()["lock" + name.replace("/", "_").replace(".", "_").replace("-", "_")] = lock
    report("ready")
    for turn in range(15000):
        for value in [value for name, value in globals().items() if name.startswith("lock_")]:
            try:
                fcntl.flock(value, fcntl.LOCK_EX | fcntl.LOCK_NB)
            except OSError:
                pass
        time.sleep(0.001)
    os._exit(0)
time.sleep(30)
""", restart_fails, ends=False, neighbour=False),
    Case("leaves a process with a session of its own", """
if stay():
    report("left", os.getpid())
    os.close(1), os.close(2)
    time.sleep(600)
wait_for("left")
""", lives),
    Case("leaves such a process when it is ended", """
signal.signal(signal.SIGTERM, signal.SIG_IGN)
leave()
time.sleep(60)
""", end_it, ends=False),
    Case("stops its session", """
report("left", os.getpid())
time.sleep(0.3)
os.kill(0, signal.SIGSTOP)
time.sleep(60)
""", end_it, harmful=False, ends=False),
    Case("forks without end", """
count = 0
signal.signal(signal.SIGCHLD, signal.SIG_IGN)
while count < 300:
    try:
        if os.fork() == 0:
            os.setsid()
            if count == 0:
                report("left", os.getpid())
            time.sleep(20)
            os._exit(0)
        count += 1
    except OSError:
        break
report("processes", count)
""", many_processes, words=["--child-processes", "50"]),
    Case("writes a gigabyte to its output", """
signal.signal(signal.SIGXFSZ, signal.SIG_IGN)
done, piece = 0, b"x" * 2**20
try:
    while done < 2**28:
        done += os.write(1, piece)
except OSError as error:
    report("errors", repr(error))
report("written", done)
os.ftruncate(1, 0)
""", large_output, words=["--child-file-size", "16"]),
    Case("takes much memory", """
attempt("memory", lambda: len(bytearray(2**29)))
""", reported("memory"), words=["--child-memory", "256"]),
    Case("opens many files", """
def many():
    files = [open("/dev/null") for _ in range(500)]
    return len(files)
attempt("files", many)
""", reported("files"), words=["--child-open-files", "64"]),
    Case("closes its descriptors and unlocks its output", """
fcntl.flock(1, fcntl.LOCK_UN)
os.closerange(0, 100)
leave()
""", lambda world: lives(world) or next_job_fails(world)),
    Case("makes links in its folder", """
os.chdir(TMP)
os.symlink(HERE + "/precious", "link")
os.symlink(HERE + "/precious/file", "file-link")
os.symlink("/", "root-link")
os.symlink("nothing", ".hidden")
os.mkdir("*")
os.symlink("..", "*/up")
os.symlink(HERE + "/precious", "..more")
""", left_names),
    Case("makes names of later children's files", """
for place in {TMP, SPOOL, SPOOL + "/run"}:
    for job in range(1, 40):
        for name in ("in", "out", "err", "side", "run"):
            attempt("made", lambda: os.makedirs(f"{place}/{name}-{job}-1-1/x") or "made")
        attempt("folders", lambda: os.makedirs(f"{place}/{job}-1-1/x") or "made")
""", next_job_fails),
    Case("makes folders that cannot be listed", """
os.chdir(TMP)
os.makedirs("a/b/c")
open("a/b/c/file", "w").close()
os.chmod("a/b/c", 0), os.chmod("a/b", 0), os.chmod("a", 0)
""", left_then_next),
    Case("takes all rights from its folder", """
os.chdir(TMP)
os.mkdir("x")
os.chmod(".", 0)
""", left_then_next),
    Case("makes a deep folder", """
os.chdir(TMP)
for level in range(2000):
    os.mkdir("d" * 100)
    os.chdir("d" * 100)
""", left_then_next),
    Case("removes everything in the spool's folder", """
subprocess.run(["/bin/rm", "-rf"] + glob.glob(SPOOL + "/*") + [SPOOL + "/spool.sock", SPOOL + "/spool.disk"])
""", next_job_fails),
    Case("kills all processes that it can", """
attempt("killed", lambda: os.kill(-1, signal.SIGKILL))
time.sleep(0.3)
""", lambda world: service_harmed(world) or printed_wrong(world)),
    Case("kills what is to end it", """
if stay():
    while True:
        try:
            os.kill(-1, signal.SIGKILL)
        except OSError:
            pass
time.sleep(0.3)
""", lambda world: service_harmed(world) or next_job_fails(world)),
    Case("kills each process that starts later", """
if stay():
    report("left", os.getpid())
    first = os.getpid() + 10
    while True:
        for pid in range(first, first + 300):
            try:
                os.kill(pid, signal.SIGKILL)
            except OSError:
                pass
wait_for("left")
time.sleep(0.1)
""", lambda world: lives(world) or next_job_fails(world)),
    Case("traces what is to end it", """
ATTACH, SEIZE = 16, 0x4206
shell = os.getppid()
if stay():
    report("left", os.getpid())
    trace = ctypes.CDLL(None).ptrace
    if trace(SEIZE, SERVICE, None, None) == 0:
        report("traced", SERVICE)
        os._exit(0)
    first = os.getpid()
    any(os.fork() == 0 for _ in range(3))
    report("own", os.getpid())
    own = []
    while len(own) < 4:
        own = [int(word) for word in open(HERE + "/reports/own").read().split()]
    report("armed")
    others = [pid for pid in [shell, *range(first + 1, first + 100)] if pid not in own]
    while True:
        for pid in others:
            if trace(ATTACH, pid, None, None) == 0:
                report("traced", pid)
wait_for("armed")
time.sleep(0.1)
""", lambda world: world.report("traced") or lives(world) or next_job_fails(world)),
    Case("kills the shell that waits for it", """
leave()
os.kill(os.getppid(), signal.SIGKILL)
time.sleep(0.3)
""", lambda world: service_harmed(world) or lives(world) or next_job_fails(world)),
    Case("stops the shell that waits for it", """
shell = os.getppid()
leave()
os.kill(shell, signal.SIGSTOP)
""", end_it, ends=False),
    Case("takes memory and files from the shell that waits for it", """
shell = os.getppid()
leave()
for limit in (resource.RLIMIT_NOFILE, resource.RLIMIT_AS):
    attempt("limited", lambda: resource.prlimit(shell, limit, (1, 1)))
""", lambda world: lives(world) or next_job_fails(world)),
    Case("traces the shell that waits for it", """
SEIZE = 0x4206
shell = os.getppid()
if ctypes.CDLL(None).ptrace(SEIZE, shell, None, None) == 0:
    report("traced", shell)
for name in ("mem", "fd/5", "environ"):
    attempt("opened", lambda: os.open(f"/proc/{shell}/{name}", os.O_RDWR if name == "mem" else os.O_RDONLY) and name)
""", lambda world: world.report("traced") or world.report("opened")),
    Case("kills a neighbour", """
attempt("killed", lambda: os.kill(int(open(HERE + "/reports/neighbour").read()), signal.SIGKILL))
""", printed_wrong),
    Case("reads a neighbour's environment", """
attempt("environment", lambda: open(f"/proc/{int(open(HERE + '/reports/neighbour').read())}/environ").read() and "read")
""", reported("environment")),
]
