"""Chains of programs, the tool `through` of spool_tools.

1. The programs: the arguments, the variables and the input of each, of a document in a file and on standard input; a backend alone; programs
   that are scripts without `#!`. A filter and the backend run at the same time, and nothing is kept: 1 GiB passes while files are limited.
2. The status and the lines for each end of the filters and of the backend, also by a signal, and for a backend that ends before its input.
3. Files that are no chain, and programs that cannot be started: then none is.
4. SIGTERM to the group ends the programs, and the chain after them, also if one ignores it; SIGKILL ends all.
5. A network printer behind `appsocket` that resets the connection, cannot be reached, or takes everything.
6. Rasters of 20 pages at 600 dpi, with --long of 200, or of 2 with an address sanitizer, through the filters of CUPS for PWG rasters, PCL
   and labels, to a network printer that counts pages. With --long the first passes 7 GB.
7. A service whose queue prints by a chain: a raster longer than a document may be is printed, a job that is canceled ends all programs of its
   chain before the next one prints, and a filter that fails leaves the verdict to the policy of the queue.
"""
import os
import re
import shutil
import signal
import socket
import subprocess
import time
from pathlib import Path

import pytest

from harness.checks import compare, LONGEST, reports_all, same, until
from harness.files import Place
from harness.printers import counting, Printer, reset_after, take
from harness.programs import is_sanitized, ROOT, TOOLS
from harness.service import Client

pytestmark = pytest.mark.needs("spool_tools")

FILTERS = "/usr/lib/cups/filter"
BACKEND = "/usr/lib/cups/backend/socket"
DRIVERS = "/usr/lib/cups/daemon/cups-driverd"

JOB = ["7", "ann", "First page", "3", "media=A4"]
NO_FILE = "No such file or directory"
DPI = 600

# With an address sanitizer `appsocket` sends some megabytes in a second of the processor.
SHARE = 10 if is_sanitized(TOOLS) else 1
MANY = 50_000_000 // SHARE

# The start of a program that shows that it ran.
RAN = '#!/bin/sh\ntouch "$0.ran"\n'


class Chain(Place):
    """A folder with the programs and the file of a chain."""

    def __init__(self, path):
        super().__init__(path)
        os.makedirs(path, exist_ok=True)
        self.lines = []

    def read(self, name):
        return Path(self.at(name)).read_text() if self.has(name) else None

    def filter(self, name, text, word=""):
        self.lines.append(f"filter {name} {self.write(name, text, 0o755)} {word}".rstrip())

    def backend(self, name, text, word=""):
        self.lines.append(f"backend {name} {self.write(name, text, 0o755)} {word}".rstrip())

    def file(self):
        return self.write("chain", "\n".join(self.lines) + "\n")

    def start(self, words=JOB, uri="chain://printer/x?a=1", tool=(TOOLS, "through"), env=(), **more):
        env = {"PATH": "/usr/bin:/bin", "PRINTER": "hall", "SPOOL_STAGE": "2", **dict(env), **({} if uri is None else {"DEVICE_URI": uri})}
        streams = {"stdin": subprocess.PIPE, "stdout": subprocess.PIPE, "stderr": subprocess.PIPE, **more}
        return subprocess.Popen([*tool, self.file(), *words], env=env, start_new_session=True, **streams)

    def run(self, words=JOB, given=b"", **more):
        """The output, the standard error and the status of the chain."""
        child = self.start(words, **more)
        out, errors = child.communicate(given, timeout=5 * LONGEST)
        return out, errors.decode(), child.returncode

    def has(self, *names):
        return all(os.path.exists(self.at(name)) for name in names)


@pytest.fixture
def it(room):
    return Chain(os.path.join(room, "chain"))


def through(*words):
    """The output, the standard error and the status of the tool with these arguments."""
    ended = subprocess.run([TOOLS, "through", *words], capture_output=True, env={"DEVICE_URI": "a:b"}, timeout=LONGEST)
    return ended.stdout, ended.stderr.decode(), ended.returncode


# Notes its arguments, its URI and its other variables, and passes its input on, marked by its name.
NOTING = """#!/bin/sh
printf '[%s]' "$0" "$@" > "$0.words"
echo "$DEVICE_URI $PRINTER $SPOOL_STAGE" > "$0.vars"
echo "ERROR: told by $(basename "$0")" >&2
printf '%s<' "$(basename "$0")"
cat "${6:--}"
printf '>'
"""


def noted(it, name):
    return (it.read(f"{name}.words") or "").replace(it.path + "/", ""), it.read(f"{name}.vars")


@pytest.mark.parametrize("words, given, text", [(JOB, b"given", "given"), ([*JOB, "/proc/self/comm"], b"", "cat\n")], ids=["input", "file"])
@reports_all
def test_what_each_program_gets(it, words, given, text):
    for name in ("one", "two", "three"):
        it.filter(name, NOTING)
    it.backend("socket", NOTING)
    names = ("one", "two", "three", "socket")
    out, errors, status = it.run(words, given)
    compare("the output passes all programs", (out.decode(), status), (f"socket<three<two<one<{text}>>>>", 0))
    compare("each has reported", sorted(line for line in errors.splitlines() if "told" in line), sorted(f"ERROR: told by {name}" for name in names))
    compare("the ends are reported last, in order", errors.splitlines()[-4:], [f"DEBUG: {name} ended with status 0" for name in names])
    five = "".join(f"[{word}]" for word in JOB)
    for name in names:
        sixth = "[/proc/self/comm]" if name == "one" and len(words) == 6 else ""
        compare(f"the words of {name}", noted(it, name), (f"[{name}]{five}{sixth}", "socket://printer/x?a=1 hall 2\n"))


def test_descriptors(it):
    it.filter("one", "#!/bin/sh\nreadlink /proc/$$/fd/3 /proc/$$/fd/4\nls /proc/$$/fd | sort -n | tail -n 1\n")
    it.backend("last", "#!/bin/sh\ncat\nreadlink /proc/$$/fd/3 /proc/$$/fd/4\n[ -e /proc/$$/fd/5 ] || echo no more\n")
    # A shell has a copy of its script's descriptor at 10.
    same("descriptors 3 and 4", it.run()[::2], (b"/dev/null\n/dev/null\n10\n/dev/null\n/dev/null\nno more\n", 0))


def test_a_backend_alone(it):
    it.backend("other", NOTING, "word")
    status = it.run(["1", "u", "t", "1", "o", "/proc/self/comm"])[2]
    same("its words", (noted(it, "other")[0], status), ("[other][word][1][u][t][1][o][/proc/self/comm]", 0))


def test_scripts_without_an_interpreter(it):
    it.filter("plain", "tr a-z A-Z\n", "a-word")
    it.backend("bare", "cat\n")
    wanted = (b"SOME TEXT", "DEBUG: plain ended with status 0\nDEBUG: bare ended with status 0\n", 0)
    same("scripts without #!", it.run(given=b"some text"), wanted)


def test_odd_arguments(it):
    it.filter("one", NOTING)
    it.backend("socket", NOTING)
    words = ["1", "", "a 'b' \"c\" $d;e\n-f", "1", "=x -n --"]
    it.run(words)
    same("its words", noted(it, "socket")[0], "[socket]" + "".join(f"[{word}]" for word in words))


def test_programs_run_at_once(it):
    it.filter("first", f"#!/bin/sh\necho begun\nuntil [ -e {it.path}/taken ]; do sleep 0.05; done\necho ended\n")
    it.backend("taker", f"#!/bin/sh\nread -r line\ntouch {it.path}/taken\ncat\n")
    same("a filter and the backend run at the same time", it.run()[::2], (b"ended\n", 0))


def test_a_gibibyte_is_not_kept(it):
    it.filter("first", "#!/bin/sh\nulimit -f 0\nhead -c 1073741824 /dev/zero\n")
    it.filter("next", "#!/bin/sh\nulimit -f 0\nexec cat\n")
    it.backend("counter", "#!/bin/sh\nwc -c\n")
    os.mkdir(it.at("tmp"))
    same("1 GiB", it.run(env={"TMPDIR": it.at("tmp")})[::2], (b"1073741824\n", 0))
    same("nothing is kept", os.listdir(it.at("tmp")), [])


# ---- the ends

def exits(end):
    """A program that reads its input, and ends so."""
    return f"#!/bin/sh\ncat > /dev/null\n{'kill -s ' + end[3:] + ' $$' if end.startswith('SIG') else 'exit ' + end}\n"


def line(name, end, is_error):
    level = "ERROR" if is_error else "DEBUG"
    if end.startswith("SIG"):
        return f"{level}: {name} was killed by signal {int(getattr(signal, end))}\n"
    return f"{level}: {name} ended with status {end}\n"


@pytest.mark.parametrize("first", ["0", "1", "6", "255", "SIGKILL"])
@pytest.mark.parametrize("second", ["0", "4", "SIGTERM"])
@reports_all
def test_ends(room, first, second):
    for backend in ("0", "1", "2", "4", "6", "7", "255", "SIGKILL"):
        it = Chain(os.path.join(room, backend))
        it.filter("first", exits(first))
        it.filter("second", exits(second))
        it.backend("last", exits(backend))
        status = 1 if backend.startswith("SIG") else int(backend) or int(not first == second == "0")
        wanted = "".join(line(name, end, end != "0" and backend == "0") for name, end in (("first", first), ("second", second)))
        wanted += line("last", backend, backend.startswith("SIG"))
        compare(f"the end {backend}", it.run(given=b"x")[1:], (wanted, status))


# The filters and the backend of a chain, its output, its lines and its status.
EARLY = {
    "a backend that reads nothing": (
        ["exec yes", "exec cat"], "echo 'ERROR: cannot connect' >&2\nexit 6", b"",
        "ERROR: cannot connect\n" + line("first", "SIGPIPE", False) + line("next", "SIGPIPE", False) + line("last", "6", False), 6),
    "a backend that reads a part and exits with 0": (
        ["exec yes"], "head -n 3", b"y\ny\ny\n", line("first", "SIGPIPE", True) + line("last", "0", False), 1),
    "a filter that fails after a part": (
        ["printf 'half a page'\nexit 1"], "cat", b"half a page", line("first", "1", True) + line("last", "0", False), 1),
}


@pytest.mark.parametrize("filters, backend, out, errors, status", EARLY.values(), ids=EARLY)
def test_early_ends(it, filters, backend, out, errors, status):
    for name, text in zip(("first", "next"), filters):
        it.filter(name, f"#!/bin/sh\n{text}\n")
    it.backend("last", f"#!/bin/sh\n{backend}\n")
    same("the chain", it.run(), (out, errors, status))


# ---- files that are no chain, and programs that cannot be started

NO_CHAIN = {
    "nothing": "", "no backend": "filter a PROGRAM", "two backends": "backend a PROGRAM\nbackend b PROGRAM",
    "a root-backend": "filter a PROGRAM\nroot-backend b PROGRAM", "a side": "backend a PROGRAM\nside PROGRAM",
    "a relative path": "backend a program", "two words": "backend a PROGRAM b c",
    "a name twice": "filter a PROGRAM\nfilter a PROGRAM\nbackend a PROGRAM",
}


@reports_all
def test_files_that_are_no_chain(it):
    program = it.write("program", f"#!/bin/sh\ntouch {it.path}/ran\n", 0o755)
    wanted = (b"", "ERROR: no chain of programs\n", 4)
    for name, text in NO_CHAIN.items():
        compare(f"a chain with {name}", through(it.write("chain", text.replace("PROGRAM", program)), *JOB), wanted)
    compare("the chain /dev/null", through("/dev/null", *JOB), wanted)
    code = it.write("code", b"\xff")
    for path, reason in ((it.at("none"), NO_FILE), (it.path, "Is a directory"), ("", NO_FILE), (code, "stream did not contain valid UTF-8")):
        compare(f"the chain {path}", through(path, *JOB), (b"", f"ERROR: cannot read {path}: {reason}\n", 4))
    it.backend("a", "#!/bin/sh\n")
    for uri in (None, "", "no-colon"):
        compare(f"the URI {uri}", it.run(uri=uri), (b"", "ERROR: no device\n", 1))
    compare("nothing was run", it.has("ran"), False)
    # Without a job it lists no devices, and other arguments are refused.
    for words, status in (([it.at("none")], 0), ([], 1), (["x", *JOB[:4]], 1), (["x", *JOB, "f", "g"], 1), (["x", "1", "u", "t", "0", "o"], 1)):
        compare(f"the words {words}", through(*words), (b"", "", status))


@pytest.mark.parametrize("kind", ["missing", "not executable", "a folder"])
@pytest.mark.parametrize("bad", ["first", "second", "last"])
def test_a_program_that_cannot_be_started(it, bad, kind):
    """None is, or the programs before it are killed."""
    marks = f"{RAN}exec cat\n"
    it.filter("first", marks)
    it.filter("second", marks)
    it.backend("last", marks)
    os.remove(it.at(bad))
    if kind == "not executable":
        it.write(bad, marks)
    elif kind == "a folder":
        os.mkdir(it.at(bad))
    same("its end", it.run(), (b"", f"ERROR: cannot start {bad}\n", 1))
    same("what was started", [name for name in os.listdir(it.path) if name.endswith(".ran")], [])


def test_too_few_descriptors(it):
    """The first program is killed, if it still runs."""
    for number in range(20):
        it.filter(f"f{number}", f"#!/bin/sh\necho $$ > {it.path}/pid{number}\nexec sleep 1000\n")
    it.backend("last", f"#!/bin/sh\ntouch {it.path}/ran\n")
    child = it.start(uri="a:b", tool=("/bin/sh", "-c", 'ulimit -n 5; exec "$@"', "sh", TOOLS, "through"), stdin=subprocess.DEVNULL)
    errors = child.communicate(timeout=LONGEST)[1].decode()
    # The shell of a program that was started may complain too.
    same(f"its end, with {errors}", (re.search(r"(?m)^ERROR: cannot start f\d+\n\Z", errors) is not None, child.returncode), (True, 1))
    same("the backend was not started", it.has("ran"), False)
    same("no program is left", in_session(child.pid), [])


# ---- signals

def in_session(leader):
    """The processes of a session that have not ended."""
    found = []
    for name in filter(str.isdigit, os.listdir("/proc")):
        try:
            fields = Path(f"/proc/{name}/stat").read_text().rpartition(")")[2].split()
        except OSError:
            continue
        if int(fields[3]) == leader and fields[0] != "Z":
            found.append(int(name))
    return found


@pytest.fixture
def wrapper(room):
    """The script of the example, with the tool next to it."""
    lib = os.path.join(room, "lib")
    os.mkdir(lib)
    os.symlink(TOOLS, os.path.join(lib, "spool_tools"))
    return shutil.copy(os.path.join(ROOT, "examples", "office", "through"), lib)


@pytest.mark.parametrize("last, lasts", [(f"{RAN}exec cat > /dev/null", False),
                                         (RAN.replace("touch", "trap '' TERM\ntouch") + "cat > /dev/null\nsleep 1\ntouch \"$0.ended\"", True)],
                         ids=["obeys", "ignores"])
def test_a_signal_ends_all(it, wrapper, last, lasts):
    """The backend obeys the signal, or ignores it until its input ends."""
    it.filter("first", f"{RAN}exec sleep 1000\n")
    it.filter("second", f"{RAN}exec cat\n")
    it.backend("last", f"{last}\n")
    child = it.start(tool=(wrapper,))
    until("they run", lambda: it.has("first.ran", "second.ran", "last.ran"))
    time.sleep(0.2)
    os.killpg(child.pid, signal.SIGTERM)
    out, errors = child.communicate(timeout=LONGEST)
    same("the session", in_session(child.pid), [])
    same("the chain ended after the backend", it.has("last.ended"), lasts)
    wanted = "".join(line(name, "SIGTERM", lasts or name == "last") for name in ("first", "second", "last")[: 2 if lasts else 3])
    wanted += line("last", "0", False) if lasts else ""
    same("its end", (out, errors.decode(), child.returncode), (b"", wanted, 1))


def test_a_kill_ends_all(it, wrapper):
    for add, name in ((it.filter, "first"), (it.backend, "last")):
        add(name, "#!/bin/sh\ntrap '' TERM\ntouch \"$0.ran\"\nsleep 1000\n")
    child = it.start(tool=(wrapper,))
    until("they run", lambda: it.has("first.ran", "last.ran"))
    os.killpg(child.pid, signal.SIGTERM)
    time.sleep(0.5)
    same("a signal that all ignore", len(in_session(child.pid)) >= 3, True)
    os.killpg(child.pid, signal.SIGKILL)
    child.communicate(timeout=LONGEST)
    until("the end of all", lambda: not in_session(child.pid))
    same("the status", child.returncode, -9)


# ---- printers

NETWORK = {"takes all": (take, 0, "ended with status 0", ""),
           "resets the connection": (reset_after(100_000), 1, "was killed by signal 13", r"ERROR: 127\.0\.0\.1:\d+ reset the connection after \d+ bytes\n")}


@pytest.mark.parametrize("serve, status, end, text", NETWORK.values(), ids=NETWORK)
def test_a_network_printer(it, serve, status, end, text):
    it.filter("first", f"#!/bin/sh\nexec head -c {50_000_000 if status else MANY} /dev/zero\n")
    it.lines.append(f"backend appsocket {TOOLS} appsocket")
    printer = Printer(serve)
    out, errors, ended = it.run(uri=f"raster://127.0.0.1:{printer.port}/?waiteof=true")
    same("its end", (out, ended), (b"", status))
    wanted = text + re.escape(f"DEBUG: first {end}\nDEBUG: appsocket ended with status {status}\n")
    same(f"its lines {errors}", re.fullmatch(wanted, errors) is not None, True)
    same("the bytes", [len(got) for got in printer.all()], [100_000 if status else MANY])


def test_a_printer_that_cannot_be_reached(it):
    it.filter("first", "#!/bin/sh\nexec yes\n")
    it.lines.append(f"backend appsocket {TOOLS} appsocket")
    with socket.create_server(("127.0.0.1", 0)) as free:
        port = free.getsockname()[1]
    same("its status", it.run(uri=f"raster://127.0.0.1:{port}/")[2], 6)


# Writes a raster of CUPS: WORDS are PAGES WIDTH HEIGHT BITS COLORSPACE WIDTH_POINTS HEIGHT_POINTS. cupsRasterReadHeader2 reads this.
RASTERS = """#!/usr/bin/env python3
import struct, sys
pages, width, height, bits, space, across, down = WORDS
line = (width * bits + 7) // 8
def text(value):
    return value.encode().ljust(64, b"\\0")
head = text("") * 4
numbers = [0, 0, 0, 0, 0, DPI, DPI, 0, 0, across, down, 0, 0, 0, 0, 0, 0, 0, 0, 0, 0, 1, 0, 0, across, down, 0, 0, 0]
numbers += [width, height, 0, bits, bits, line, 0, space, 0, 0, 0, 0, 1]
head += struct.pack("<%dI" % len(numbers), *numbers)
head += struct.pack("<7f", 1.0, across, down, 0, 0, across, down) + struct.pack("<16I", *[0] * 16) + struct.pack("<16f", *[0] * 16)
head += b"\\0" * (16 * 64) + text("") + text("") + text("A4")
assert len(head) == 1796, len(head)
rows = [bytes((x * 7 + y) % 251 if x % 97 < 9 else 0 for x in range(line)) for y in range(8)]
page = head + b"".join(rows[y % 8] for y in range(height))
out = sys.stdout.buffer
out.write(b"3SaR")
for number in range(pages):
    out.write(page)
    print("PAGE: %d 1" % (number + 1), file=sys.stderr)
"""

# The filter, its driver, the raster (of 8 bits a dot with --long), and what the printer counts.
FORMATS = {
    "PWG": ("rastertopwg", None, (4958, 7016, 1, 3, 595, 842), b"PwgRaster\0"),
    "PCL": ("rastertohp", "drv:///sample.drv/generpcl.ppd", (4800, 6800, 1, 3, 595, 842), b"\x1b*r0B\f"),
    "labels": ("rastertolabel", "drv:///sample.drv/zebra.ppd", (2400, 3600, 1, 3, 288, 432), b"^XGR"),
}


@pytest.mark.cups
@pytest.mark.skipif(not os.path.exists(DRIVERS), reason="it needs the drivers of CUPS (Debian's package cups)")
@pytest.mark.parametrize("name", FORMATS)
def test_rasters(it, is_long, name):
    program, model, size, mark = FORMATS[name]
    pages = 200 if is_long else 20 // SHARE
    if is_long and name == "PWG":
        size = (*size[:2], 8, 18, *size[4:])
    it.filter("rasters", RASTERS.replace("WORDS", str((pages, *size))).replace("DPI", str(DPI)))
    it.lines.append(f"filter {program} {FILTERS}/{program}")
    backend = "socket" if name == "labels" and os.path.exists(BACKEND) else "appsocket"
    it.lines.append(f"backend {backend} {BACKEND if backend == 'socket' else f'{TOOLS} appsocket'}")
    env = {"CUPS_SERVERBIN": "/usr/lib/cups", "CUPS_DATADIR": "/usr/share/cups", "HOME": it.path, "TMPDIR": it.path}
    env["FINAL_CONTENT_TYPE"] = "image/pwg-raster" if name == "PWG" else "printer/x"
    if model:
        driver = subprocess.run([DRIVERS, "cat", model], capture_output=True, env={**os.environ, **env}).stdout
        env["PPD"] = it.write("printer.ppd", driver.decode("latin-1"))
    before = {*os.listdir(it.path), "chain"}
    printer = Printer(counting(mark))
    _, errors, status = it.run(uri=f"raster://127.0.0.1:{printer.port}/", env=env, words=["7", "ann", "t", "1", ""])
    (taken, found), = printer.all()
    print(f"{pages} pages, {(size[0] * size[2] + 7) // 8 * size[1] * pages:,} bytes of raster, {taken:,} to the printer")
    ends = [it for it in errors.splitlines() if it.startswith("DEBUG") and "ended with" in it]
    same("the status and the ends", (status, ends[-3:]), (0, [f"DEBUG: {it} ended with status 0" for it in ("rasters", program, backend)]))
    same("the pages that the printer has", found, pages)
    same("nothing is kept", {*os.listdir(it.path)}, before)


# ---- a service

# Notes when it begins and ends, by the clock of the machine.
TIMED = """#!/bin/sh
note() {{ echo "$1 $(date +%s%N) $2" >> {folder}/times; }}
note begin "{name} $1"
{on_signal}
{body}
note end "{name} $1"
"""


@pytest.fixture
def served(folder, wrapper):
    """A service, and what adds a queue that prints by a chain of these programs, each with its text."""

    def queue(client, name, programs, policy="abort-job"):
        lines = []
        for number, (program, text) in enumerate(programs, 1):
            folder.write(program, text if text.startswith("#!") else f"#!/bin/sh\n{text}\n", 0o755)
            lines.append(f"{'backend' if number == len(programs) > 1 else 'filter'} {program} {folder.at(program)}\n")
        folder.write(f"{name}.chain", "".join(lines))
        same(f"the queue {name}", client.ask(f"queue {name} {name}:/x application/octet-stream {policy} 30 5\n"), "ok")

    for name in ("raster", "canceled", "aborts", "retries", "none"):
        folder.lines.append(f"backend {name} {wrapper} {folder.at(name)}.chain\n")
    folder.write("programs", "".join(folder.lines))
    folder.start()
    folder.chain = queue
    return folder


@pytest.mark.needs("spool_service")
def test_a_service_prints_a_long_raster(served):
    client = Client(served)
    served.chain(client, "raster", [("large", "head -c 100000000 /dev/zero"), ("counter", f"wc -c >> {served.path}/counted")])
    client.until_state(client.submit("raster"), "9")
    same("a raster of 100 MB", served.read("counted"), "100000000\n")


@pytest.mark.needs("spool_service")
def test_a_canceled_job_ends_its_chain(served):
    """All programs of its chain end before the next job of the queue starts any."""

    def timed(name, on_signal, body):
        return name, TIMED.format(folder=served.path, name=name, on_signal=on_signal, body=body)

    client = Client(served)
    # The backend does not end by the signal, but when its input does, and then takes a moment, as backends of CUPS.
    served.chain(client, "canceled", [timed("hangs", "trap 'note end \"hangs $1\"; exit 1' TERM", "[ $1 != 1 ] || sleep 1000 & wait"),
                                      timed("slow", "trap '' TERM", "cat > /dev/null; sleep 1")])
    first, second = client.submit("canceled"), client.submit("canceled")
    same("its number", first, 1)
    until("both run", lambda: served.read("times").count("begin") == 2)
    began = time.monotonic()
    client.does(f"stop {first}")
    client.until_state(second, "9")
    same("the canceled job", client.state(first), "7 canceled")
    # After ten seconds it would have been killed.
    same("the signal ended it", time.monotonic() - began < 9, True)
    times = [line.split() for line in served.read("times").splitlines()]
    ends = {(name, job): int(moment) for word, moment, name, job in times if word == "end"}
    begins = {(name, job): int(moment) for word, moment, name, job in times if word == "begin"}
    same("all programs have ended", sorted(ends), sorted((name, str(job)) for name in ("hangs", "slow") for job in (first, second)))
    last = max(ends[name, str(first)] for name in ("hangs", "slow"))
    same("before the next began", last < min(begins[name, str(second)] for name in ("hangs", "slow")), True)


@pytest.mark.needs("spool_service")
def test_the_policy_decides_about_a_failed_chain(served):
    client = Client(served)
    programs = [("fails", "echo 'ERROR: no paper' >&2; echo half; exit 3"), ("printer", "cat > /dev/null")]
    served.chain(client, "aborts", programs)
    served.chain(client, "retries", programs, "retry-job")
    job = client.submit("aborts")
    client.until_state(job, "8")
    same("the attempts", client.fields(job)["attempts"], "1")
    for text in ("ERROR: no paper", "ERROR: fails ended with status 3", "DEBUG: printer ended with status 0", "ended with status 1"):
        same(f"the log has {text}", f"job {job} attempt 1 stage 1 aborts: {text}" in served.log(), True)
    job = client.submit("retries")
    until("it is tried", lambda: (client.state(job), client.fields(job)["attempts"]) == ("3 retry-later", "1"))


@pytest.mark.needs("spool_service")
def test_a_service_without_a_chain(served):
    client = Client(served)
    served.chain(client, "none", [("alone", "exit 0")])
    job = client.submit("none")
    until("the queue stops", lambda: any(row.startswith("queue none 5") for row in client.listing("queues\n")))
    same("the job waits", client.state(job)[0], "3")
