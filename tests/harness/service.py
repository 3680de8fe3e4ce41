"""Clients of the service, and the folder of a test with its programs and a service that runs there."""
import contextlib
import os
import shutil
import signal
import socket
import statistics
import subprocess
import sys
import tempfile
import threading
import time
from pathlib import Path

from harness.checks import Difference, holds, listens, LONGEST, same, timed, until
from harness.files import Place
from harness.programs import SERVICE, SHELL

# Words before the program's own arguments, such as `setarch`.
BEFORE = os.environ.get("SERVICE_BEFORE", "").split()

# The type of a document that matches no rule.
TYPE = "application/octet-stream"

# A backend that sleeps for the seconds in its URI, and appends the document to a file.
BACKEND = """#!/bin/sh
sleep "${DEVICE_URI##*/}"
cat "${6:--}" >>FOLDER/printed
"""

# A backend that waits until a file exists, and then appends the document to another.
WAITS = '#!/bin/sh\nwhile [ ! -e FOLDER/go ]; do sleep 0.05; done\ncat "${6:--}" >>FOLDER/printed\n'

# A backend that ends as its device's URI says, and one that hangs.
ENDS = '#!/bin/sh\nexit "${DEVICE_URI##*/}"\n'
HANGS = "#!/bin/sh\necho $$ >>FOLDER/pids\nexec sleep 1000\n"

# A backend that keeps the bytes of each job in a file of its own, and one that prints when it may.
KEEPS = '#!/bin/sh\ncat "${6:--}" >FOLDER/kept-$1.new\nmv FOLDER/kept-$1.new FOLDER/kept-$1\n'
PRINTS = '#!/bin/sh\nwhile [ ! -e FOLDER/backend-$1 ]; do sleep 0.05; done\ncat >/dev/null\n'

# The backends of each folder, by their schemes.
BACKENDS = {"slow": BACKEND, "waits": WAITS, "ends": ENDS, "hangs": HANGS, "keeps": KEEPS, "prints": PRINTS}

# A filter that sleeps, and passes on the document.
FILTER = '#!/bin/sh\nsleep SECONDS\necho first >>FOLDER/stages\ncat "$6"\n'


# ---- clients

class Client:
    def __init__(self, folder):
        self.connection = socket.socket(socket.AF_UNIX)
        self.connection.settimeout(LONGEST)
        self.held = b""
        try:
            self.connection.connect(folder.socket)
        except OSError:
            self.connection.close()
            raise

    def say(self, text):
        self.connection.sendall(text if isinstance(text, bytes) else text.encode())

    def reply(self):
        """The next line that it receives."""
        while b"\n" not in self.held:
            piece = self.connection.recv(65_536)
            if not piece:
                raise Difference("the service closed the connection")
            self.held += piece
        line, self.held = self.held.split(b"\n", 1)
        return line.decode()

    def ask(self, text):
        self.say(text)
        return self.reply()

    def does(self, *commands):
        """Sends these commands in turn. Each must be done."""
        for command in commands:
            same(command, self.ask(f"{command}\n"), "ok")

    def listing(self, text):
        """The lines of a listing, without the last one."""
        self.say(text)
        return self.rest_of_listing()

    def rest_of_listing(self):
        return self.read_to("ok", "error")[:-1]

    def read_to(self, *starts):
        """The lines that it receives, up to one that begins so."""
        lines = [self.reply()]
        while not lines[-1].startswith(starts):
            lines.append(self.reply())
        return lines

    def told(self):
        """The lines that it has been sent so far: the reply to `now` comes after them."""
        self.say("now\n")
        return self.read_to("ok now ")[:-1]

    def says_nothing(self, seconds=0.3):
        """Whether it receives nothing for `seconds` seconds."""
        if self.held:
            return False
        self.connection.settimeout(seconds)
        try:
            self.held = self.connection.recv(65_536)
            return False
        except TimeoutError:
            return True
        finally:
            self.connection.settimeout(LONGEST)

    def is_closed(self):
        try:
            return self.connection.recv(65_536) == b""
        except ConnectionError:
            return True

    def close(self):
        self.connection.close()

    # ---- jobs

    def states(self):
        """The state and the reason of each job."""
        rows = [line.split() for line in self.listing("jobs\n")]
        return {int(row[1]): f"{row[3]} {row[4]}" for row in rows}

    def fields(self, job):
        """All fields of a job, by name."""
        return dict(line.split(" ", 1) for line in self.listing(f"job {job}\n"))

    def state(self, job):
        fields = self.fields(job)
        return f"{fields['state']} {fields['reason']}" if fields else ""

    def create(self, queue, title="t", by=None):
        words = f'{queue} u "{title}" 1 50 ""'
        reply = self.ask(f"create {words}\n" if by is None else f"createby {words} {by}\n")
        holds(f"create: {reply}", reply.startswith("ok job "))
        return int(reply.split()[2])

    def finish(self, job, text="x\n", stages=1, name="f"):
        """Sends a job's document, and closes it."""
        data = text.encode()
        same("send", self.ask(b"send %d %d\n" % (job, len(data)) + data + b"\n"), f"ok bytes {len(data)}")
        reply = self.ask(f"close {job} {name}\n")
        holds(f"close: {reply}", reply.startswith("ok type ") and reply.endswith(f" stages {stages}"))

    def finish_at_once(self, job, text, stages=1, name="f"):
        """Sends a job's document and closes it, without waiting in between."""
        data = text.encode()
        self.say(b"send %d %d\n" % (job, len(data)) + data + b"\nclose %d " % job + name.encode() + b"\n")
        same("send", self.reply(), f"ok bytes {len(data)}")
        reply = self.reply()
        holds(f"close: {reply}", reply.startswith("ok type ") and reply.endswith(f" stages {stages}"))

    def submit(self, queue, text="x\n", title="t", stages=1, name="f"):
        job = self.create(queue, title)
        self.finish(job, text, stages, name)
        return job

    def until_state(self, job, state, longest=LONGEST):
        until(f"state {state} of job {job}", lambda: self.state(job).startswith(state), longest)

    def until_ended(self, jobs, state="9", longest=LONGEST):
        """Waits until these jobs are in a state."""
        until(f"state {state} of {len(jobs)} jobs", lambda: self.are_in(jobs, state), longest)

    def are_in(self, jobs, state):
        states = self.states()
        return all(states.get(job, "").startswith(state) for job in jobs)


def answer(client):
    """The first line of `queues`, from a service that may have closed the connection after a line of its own."""
    with contextlib.suppress(ConnectionError):
        client.say("queues\n")
    return client.reply()


def admitted(folder):
    """A client that has a place, once one is free, of a service without queues."""
    clients = []

    def has_place():
        with contextlib.suppress(Difference, OSError):
            clients.append(Client(folder))
            return answer(clients[-1]) == "ok 0"

    until("a place is free", has_place)
    return clients[-1]


def listening(path):
    """A socket that listens at a path, whatever socket was left there."""
    if os.path.exists(path):
        os.remove(path)
    listener = socket.socket(socket.AF_UNIX)
    listener.bind(path)
    listener.listen(16)
    return listener


def patient_client(folder, longest=LONGEST):
    """A client of a service that may still be starting."""
    end = time.time() + longest
    while True:
        try:
            return Client(folder)
        except OSError:
            if end < time.time():
                raise
            time.sleep(0.02)


# ---- the folder

class Folder(Place):
    """The folder of a test: its programs, and the service."""

    # The program, and whether the long tests are run in full.
    service = SERVICE
    is_long = False

    def __init__(self, parent=None):
        super().__init__(tempfile.mkdtemp(prefix="service-", dir=parent))
        os.mkdir(self.at("spool"))
        self.socket = self.at("spool", "spool.sock")
        self.running = None
        self.size = 16_777_216
        # Words before the program's name, and after its own arguments.
        self.before = [*BEFORE]
        self.words = []
        self.environment = {}
        self.lines = []
        for name, text in BACKENDS.items():
            self.backend(name, text)

    def write(self, name, text, mode=0o644):
        """Writes bytes, or a text in which FOLDER is the path of this folder."""
        return super().write(name, text if isinstance(text, bytes) else text.replace("FOLDER", self.path), mode)

    def read(self, name):
        """The contents of a file, which may not exist."""
        if not os.path.exists(self.at(name)):
            return ""
        return Path(self.at(name)).read_text()

    def printed(self):
        return self.read("printed")

    def log(self):
        return self.read("log")

    # ---- programs

    def program(self, kind, name, text):
        """Writes a program, and adds it to the programs file, once."""
        line = f"{kind} {name} {self.write(f'{kind}-{name}', text, 0o755)}\n"
        self.lines += [line] if line not in self.lines else []
        self.write("programs", "".join(self.lines))

    def backend(self, name, text):
        self.program("backend", name, text)

    def two_stages(self, seconds, text=FILTER):
        """Documents named `.x` are filtered for queues of a/b, by a filter that sleeps for `seconds` seconds, or by this one."""
        self.program("filter", "first", text.replace("SECONDS", str(seconds)))
        self.write("types", "a/a x\n")
        self.write("convs", "a/a a/b 10 first\n")
        self.words = ["--types", self.at("types"), "--convs", self.at("convs")]

    # ---- the service

    def command(self, *words):
        more = [*self.words, *words]
        files = ["--root", self.at("spool"), "--size", str(self.size)]
        files += [] if "--programs" in more else ["--programs", self.at("programs")]
        return [*self.before, self.service, *files, *more]

    def by_shell(self, script):
        """The replies of the shell to a script, with the same programs. Then its spool is removed."""
        words = [SHELL if word == self.service else word for word in self.command()]
        ran = subprocess.run(words, input=script, capture_output=True, text=True, timeout=LONGEST)
        same("the shell", ran.returncode, 0)
        for name in os.listdir(self.at("spool")):
            os.remove(self.at("spool", name))
        return ran.stdout

    def limit_descriptors(self, most):
        self.before += ["sh", "-c", f'ulimit -n {most}; exec "$@"', "sh"]

    def start(self, *words):
        self.launch(*words)
        until("the service", self.serves)

    def open(self, *queues, words=(), stopped=False, **how):
        """Starts the service with these further words, and returns a client, which adds these queues, and perhaps stops them."""
        self.start(*words)
        client = Client(self)
        for name in queues:
            self.queue(client, name, **how)
        client.does(*(f"disable {name}" for name in queues if stopped))
        return client

    def reopen(self, *words):
        """Kills the service, starts it again, and returns a client."""
        self.kill()
        return self.open(words=words)

    def launch(self, *words):
        with open(self.at("log"), "ab") as log:
            streams = {"stdin": subprocess.DEVNULL, "stdout": subprocess.DEVNULL, "stderr": log}
            self.running = subprocess.Popen(self.command(*words), env={**os.environ, **self.environment}, **streams)

    def serves(self):
        if self.running.poll() is not None:
            raise Difference(f"the service ended with {self.running.returncode}: {self.log()[-2000:]}")
        return listens(self.socket)

    def shut_down(self):
        """Shuts the service down, and waits for its end."""
        same("shutdown", Client(self).ask("shutdown\n"), "ok")
        same("status", self.running.wait(LONGEST), 0)

    def kill(self):
        self.running.send_signal(signal.SIGKILL)
        self.running.wait()

    def end(self):
        if self.running and self.running.poll() is None:
            self.kill()

    @contextlib.contextmanager
    def paused(self):
        """The service is stopped meanwhile, so that one turn serves all commands."""
        self.running.send_signal(signal.SIGSTOP)
        yield
        self.running.send_signal(signal.SIGCONT)

    @contextlib.contextmanager
    def traced(self, *words, process=None):
        """The service, or another program, is traced meanwhile by strace with these words, which writes its calls to the file `calls`."""
        process = process or self.running.pid
        command = ["strace", "-y", "-qq", "-o", self.at("calls"), *words, "-p", str(process)]
        with subprocess.Popen(command, stderr=subprocess.DEVNULL) as strace:
            until("the trace", lambda: b"TracerPid:\t0\n" not in open(f"/proc/{process}/status", "rb").read())
            try:
                yield
            finally:
                strace.send_signal(signal.SIGINT)

    @contextlib.contextmanager
    def under_strace(self, *words):
        """A client of a service that strace starts with these words, and whose calls it writes to the file `calls`."""
        self.before += ["strace", "-qq", "-o", self.at("calls"), *words]
        self.start()
        try:
            yield Client(self)
        finally:
            kill_children(self.running.pid)

    def remove(self):
        # A child of a killed service continues, and may write here meanwhile.
        shutil.rmtree(self.path, ignore_errors=True)

    def queue(self, client, name, seconds=0, policy="retry-current-job", scheme="slow", target=TYPE, interval=0):
        same("queue", client.ask(f"queue {name} {scheme}:/{seconds} {target} {policy} {interval} 0\n"), "ok")

    # ---- the system's figures about it

    def memory(self):
        """The resident memory of the service, in KiB."""
        return memory_of(self.running.pid)

    def descriptors(self):
        return len(os.listdir(f"/proc/{self.running.pid}/fd"))

    def work(self):
        """Its processor time in milliseconds, without that of children."""
        fields = Path(f"/proc/{self.running.pid}/stat").read_text().rsplit(") ", 1)[1].split()
        return (int(fields[11]) + int(fields[12])) * 1000 / os.sysconf("SC_CLK_TCK")

    def work_for(self, what, count):
        """The milliseconds of the processor that it takes for each of `count` calls."""
        before = work_of(self.running.pid)
        for _ in range(count):
            what()
        return (work_of(self.running.pid) - before) / count / 1e6

    def disk_time(self):
        """When the spool was last written."""
        return os.stat(self.at("spool", "spool.disk")).st_mtime_ns

    def writes_nothing(self, seconds=3):
        """Waits until a second passes without a write, and then looks at these seconds: nothing is due, so none of them has one either."""
        until("a second without a write", lambda: self.disk_time() + 10**9 < time.time_ns())
        before = self.disk_time()
        time.sleep(seconds)
        same("an idle service writes nothing", self.disk_time(), before)


def kill_children(process):
    """Kills the processes that a process has started: strace leaves them running when it is killed itself."""
    with contextlib.suppress(OSError):
        with open(f"/proc/{process}/task/{process}/children") as file:
            for child in file.read().split():
                os.kill(int(child), signal.SIGKILL)


def fields_of(lines):
    """The fields of each job in lines of `list`."""
    found = []
    for line in lines:
        name, value = line.split(" ", 1)
        if name == "job":
            found.append({})
        found[-1][name] = value
    return found


def served_clients(folder, count):
    """Clients that have been served, so that the next turn serves them at once."""
    clients = [Client(folder) for _ in range(count)]
    for client in clients:
        holds("it has a place", client.ask("cancel 999\n").startswith("error "))
    return clients


def python_as(user, code, *words, groups="--clear-groups"):
    """The words that run a Python program as a user, by the numbers of the user and of its group."""
    uid, gid = map(str, user)
    python = shutil.which("python3", path="/usr/bin:/bin") or sys.executable
    return ["setpriv", "--reuid", uid, "--regid", gid, groups, python, "-ES", "-c", code, *words]


def now_of(client):
    """The service's time, by its own word."""
    return int(client.ask("now\n").split()[2])


def moment_of(client):
    """The engine's time: the last moment until which a hold ends at once. It goes on during the search, which takes a while."""
    low, high = 0, 4_000_000_000_000
    job = client.create("q")
    while low + 1 < high:
        middle = (low + high) // 2
        same("hold", client.ask(f"hold {job} {middle}\n"), "ok")
        low, high = (middle, high) if client.ask(f"release {job}\n") == "error 15 NotHeld" else (low, middle)
    same("cancel", client.ask(f"cancel {job}\n"), "ok")
    return low


def checkpoints(folder):
    return folder.log().count("checkpoint took")


def listings(client, count=50):
    """The time of each of `count` listings."""
    return [timed(lambda: client.listing("queues\n")) for _ in range(count)]


# The replies to a client may take this many times as long as usually in the same run, and these seconds.
MOST_DELAY = 10
SLACK = 0.05


def undelayed(what, meanwhile, usual, slack=SLACK):
    """Half of the replies that a client got meanwhile took hardly longer than half of the usual ones."""
    ours, theirs = (statistics.median(seconds) for seconds in (meanwhile, usual))
    holds(f"{what}: the median of the replies is {1000 * ours:.1f} ms, and usually {1000 * theirs:.1f} ms", ours <= MOST_DELAY * theirs + slack)


# ---- documents, children and clients of several tests


# The most bytes of a `send`.
PIECE = 65_536

def kept(folder, job):
    return Path(folder.at(f"kept-{job}")).read_bytes()


def all_kept(folder):
    """All documents that the backend has kept, sorted."""
    return sorted(path.read_bytes() for path in Path(folder.path).glob("kept-*") if path.suffix != ".new")


def send_piece(client, job, data, sent):
    """Sends the next piece of a document of which `sent` bytes were sent. Returns how many were then."""
    piece = data[sent : sent + PIECE]
    sent += len(piece)
    same("send", client.ask(b"send %d %d\n" % (job, len(piece)) + piece + b"\n"), f"ok bytes {sent}")
    return sent


def send_document(client, job, data):
    sent = 0
    while sent < len(data):
        sent = send_piece(client, job, data, sent)


# A filter that says something when it may.
SAYS = """#!/bin/sh
while [ ! -e FOLDER/filter-$1 ]; do sleep 0.05; done
echo 'STATE: +toner-empty-error,media-low-warning' >&2
echo 'ATTR: marker-levels=5' >&2
echo "INFO: job $1, $3" >&2
cat "$6"
"""


def started(folder, count):
    """The process numbers that a backend has written."""
    until("its processes", lambda: len(folder.read("pids").split()) >= count)
    return [int(word) for word in folder.read("pids").split()]


def is_there(pid):
    """Whether a process runs. A process that has ended and that no parent has waited for does not."""
    try:
        return Path(f"/proc/{pid}/stat").read_text().rsplit(") ", 1)[1][0] != "Z"
    except OSError:
        return False


def with_socket(folder, path, act):
    """Connects to another socket of the service."""
    usual, folder.socket = folder.socket, path
    try:
        return act()
    finally:
        folder.socket = usual


def memory_of(process, field="VmRSS"):
    """The memory of a process in KiB: what is resident now, or with `VmHWM` the most that was."""
    with open(f"/proc/{process}/status", encoding="ascii") as file:
        return next(int(line.split()[1]) for line in file if line.startswith(field))


def work_of(process):
    """The processor time of a process, in nanoseconds."""
    return int(Path(f"/proc/{process}/schedstat").read_text().split()[0])


@contextlib.contextmanager
def meanwhile(act):
    """Runs `act(stop)` in a thread meanwhile. At the end the event `stop` is set."""
    stop = threading.Event()
    thread = threading.Thread(target=act, args=(stop,))
    thread.start()
    try:
        yield
    finally:
        stop.set()
        thread.join()


class Gone(Exception):
    """The connection to the service was lost."""


class Submitter:
    """A client that creates exactly one job for each title, whatever connection is lost: a job that was never closed is abandoned or
    continued.
    """

    queue = "q"

    def __init__(self, folder):
        self.folder = folder
        self.client = None
        self.lost = {"create": 0, "send": 0, "close": 0}

    def ask(self, command, how=Client.ask):
        try:
            return how(self.client, command)
        except (OSError, Difference):
            raise Gone from None

    def submit(self, title):
        """Creates the job, and returns its number."""
        self.title, self.text = title, title + "\n"
        self.job, self.sent, self.at, self.is_closed = None, 0, None, False
        while not self.is_closed:
            try:
                self.step()
            except Gone:
                self.client = None
        return self.job

    def step(self):
        if self.client is None:
            self.client = patient_client(self.folder)
            self.find_outcome()
        elif self.job is None:
            self.at = "create"
            reply = self.ask(f'create {self.queue} u "{self.title}" 1 50 ""\n')
            holds(f"create: {reply}", reply.startswith("ok job "))
            self.job = int(reply.split()[2])
        elif self.sent < len(self.text):
            self.at = "send"
            rest = self.text[self.sent :]
            same("send", self.ask(f"send {self.job} {len(rest)}\n{rest}\n"), f"ok bytes {len(self.text)}")
            self.sent = len(self.text)
        else:
            self.at = "close"
            holds("close", self.ask(f"close {self.job} f\n").startswith("ok type"))
            self.is_closed = True

    def find_outcome(self):
        """After a lost connection: the outcome of the last command."""
        if self.at is None:
            return
        self.lost[self.at] += 1
        rows = [line.split() for line in self.ask("jobs\n", Client.listing) if self.title in line]
        if self.job is None:
            for row in rows:
                self.ask(f"cancel {row[1]}\n")
            return
        row = next(row for row in rows if int(row[1]) == self.job)
        self.is_closed = row[3:5] != ["4", "job-incoming"]
        self.sent = int(row[6])
