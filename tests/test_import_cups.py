"""examples/office/import-cups.py moves ten printers of a private CUPS to a service.

1. A CUPS server of its own makes ten printers: with and without drivers, with each error policy, stopped, rejecting jobs, with descriptions
   that are long or have special characters, with names that no queue can have, banners, quotas and options; a class; a default printer of
   the server and one of lpoptions.
2. The script prints the commands for them, which a shell can run. It writes nothing.
3. With --apply it makes the queues in a service. `spool queue show` of each has the values that CUPS shows for its printer. A second run
   changes nothing.
4. CUPS makes as many attempts at a job as the limit of the queue says.
"""
import json
import os
import subprocess
import tempfile
from pathlib import Path

import pytest

from harness.checks import check, compare, LONGEST, reports_all, same, until
from harness.cups import Cups
from harness.front import Front
from harness.programs import ROOT

pytestmark = [pytest.mark.root, pytest.mark.cups, pytest.mark.needs("lpstat")]

OFFICE = Path(ROOT, "examples", "office")
SCRIPT = OFFICE / "import-cups.py"
BINARIES = Path("/usr/lib/cups")
LONG = "Ä room with a very long name, " * 6

# The printers: a name, a URI, the words of lpadmin, and the URI, the media type, the policy and the description of the queue.
PRINTERS = [
    ("hall", "socket://192.0.2.7:9100", ["-E", "-D", 'Hall #1 \\ "x"', "-L", "First floor", "-o", "printer-error-policy=retry-job"],
     "socket://192.0.2.7:9100", "application/octet-stream", "retry-job", 'Hall #1 \\ "x"'),
    ("Raw_Q", "lpd://192.0.2.8/q", ["-E", "-D", "Büro", "-o", "printer-error-policy=abort-job"],
     "lpd://192.0.2.8/q", "application/octet-stream", "abort-job", "Büro"),
    ("lab", "socket://192.0.2.9", ["-E", "-m", "drv:///sample.drv/generpcl.ppd", "-o", "job-sheets-default=standard,none"],
     "through-lab://192.0.2.9", "application/vnd.cups-pdf", "retry-job", "lab"),
    ("ps", "ipp://192.0.2.10/ipp/print", ["-E", "-m", "drv:///sample.drv/generic.ppd", "-o", "job-quota-period=3600", "-o", "printer-error-policy=stop-printer"],
     "ipp://192.0.2.10/ipp/print", "application/vnd.cups-postscript", "stop-printer", "ps"),
    ("stopped", "socket://192.0.2.11", ["-o", "printer-error-policy=retry-current-job", "-D", LONG],
     "socket://192.0.2.11", "application/octet-stream", "retry-current-job", None),
    ("office.2", "socket://192.0.2.12/?waiteof=false", ["-E", "-u", "allow:ann,bo", "-o", "media-default=a5"],
     "socket://192.0.2.12/?waiteof=false", "application/octet-stream", "retry-job", "office.2"),
    ("office-2", "ipps://192.0.2.13:631/ipp/print", ["-E"],
     "ipps://192.0.2.13:631/ipp/print", "application/octet-stream", "retry-job", "office-2"),
    ("labels", "socket://192.0.2.14:9100/", ["-E", "-m", "drv:///sample.drv/zebra.ppd"],
     "through-labels://192.0.2.14:9100/", "application/vnd.cups-pdf", "retry-job", "labels"),
    ("file", "file:///tmp/printed", ["-E"], "spoolfile:///tmp/printed", "application/octet-stream", "retry-job", "file"),
    ("default", "socket://192.0.2.15:9101/?contimeout=9", ["-E", "-D", "-starts with a sign"],
     "socket://192.0.2.15:9101/?contimeout=9", "application/octet-stream", "retry-job", "-starts with a sign"),
]
# CUPS lists them by name, so `office-2` comes before `office.2`, which gets another name.
QUEUES = {name: "office-2-2" if name == "office.2" else name for name, *_ in PRINTERS}


def run(*words, **more):
    return subprocess.run([str(word) for word in words], capture_output=True, text=True, timeout=LONGEST, **more)


@pytest.fixture(scope="module")
def cups():
    """A CUPS that has written its printers."""
    missing = Cups.missing()
    if missing:
        pytest.skip(f"it needs {missing}")
    with tempfile.TemporaryDirectory() as folder:
        server = Cups(interval=0, config="JobRetryInterval 2\nJobRetryLimit 2\n", files=f"ServerBin {own_binaries(Path(folder))}\n")
        with server as made:
            make_printers(made)
            made.etc = Path(made.folder, "etc")
            (made.etc / "lpoptions").write_text("Dest hall sides=two-sided\nDefault lab/draft print-quality=3\n")
            until("CUPS writes its printers", lambda: is_written(made.etc / "printers.conf"))
            yield made


def own_binaries(folder):
    """The programs of CUPS, and a backend that fails, and notes its attempts."""
    folder.chmod(0o755)
    for it in BINARIES.iterdir():
        if it.name != "backend":
            (folder / it.name).symlink_to(it)
    (folder / "backend").mkdir()
    for it in (BINARIES / "backend").iterdir():
        (folder / "backend" / it.name).symlink_to(it)
    (folder / "backend/fails").write_text('#!/bin/sh\n[ $# -gt 0 ] || exit 0\necho x >> "$TMPDIR/attempts"\nexit 1\n')
    (folder / "backend/fails").chmod(0o755)
    return folder


def make_printers(cups):
    for name, uri, words, *_ in PRINTERS:
        cups.run("lpadmin", "-p", name, "-v", uri, *words)
    cups.run("cupsdisable", "-r", "no paper #2", "stopped")
    cups.run("cupsreject", "ps")
    cups.run("lpadmin", "-p", "hall", "-c", "all")
    cups.run("lpadmin", "-d", "hall")


def is_written(file):
    text = file.read_text() if file.exists() else ""
    return text.count("</") == len(PRINTERS) and "Reason paused" in text


def imports(cups, etc, *words):
    return run(SCRIPT, "--cups", cups.etc, "--etc", etc, "--lib", OFFICE, *words)


@pytest.fixture
def etc(room):
    made = Path(room, "etc")
    made.mkdir()
    return made


@reports_all
def test_the_commands_are_printed(cups, etc):
    (etc / "programs").write_text("# some\nbackend ipp /usr/lib/cups/backend/ipp\n")
    shown = imports(cups, etc)
    compare("its end", (shown.returncode, shown.stderr), (0, ""))
    lines = shown.stdout.splitlines()
    compare("what it writes without --apply", os.listdir(etc), ["programs"])
    compare("the queues", sorted(line.split()[3] for line in lines if line.startswith("spool queue add ")), sorted(QUEUES.values()))
    for wanted in (
        "spool queue add hall socket://192.0.2.7:9100 --media application/octet-stream --policy retry-job --interval 2 --limit 3",
        "spool queue set '--info=Hall #1 \\ \"x\"' '--location=First floor' hall",
        "spool queue disable stopped",
        "spool queue reject ps",
        f"install -D -m 644 {cups.etc}/ppd/ps.ppd {etc}/ppd/ps.ppd",
        "# office.2 becomes office-2-2",
        "# lab: without the banners standard none",
        "# ps: without its quotas",
        "# office.2: without AllowUser ann bo",
        "# office.2: without the options media=a5",
        "# hall: without the options of lpoptions sides=two-sided",
        "# the class all is left out: there are no classes",
        f"printf %s 'lab\n' > {etc}/default",
    ):
        check(wanted in shown.stdout, f"{wanted!r} is not in:\n{shown.stdout}")
    # lpadmin makes a printer that is stopped and rejects jobs, unless it has -E.
    compare("those that are stopped or reject jobs", [line for line in lines if "queue disable" in line or "queue reject" in line],
            ["spool queue reject ps", "spool queue disable stopped", "spool queue reject stopped"])
    one = imports(cups, etc, "ps").stdout
    check(one.count("queue add") == 1 and "queue add ps " in one, f"one printer: {one}")
    none = imports(cups, etc, "ps", "nobody")
    compare("no printer", (none.returncode, none.stdout, none.stderr), (1, "", "import-cups: CUPS has no printer nobody\n"))
    bad = run(SCRIPT, "--cups", etc)
    check(bad.returncode == 1 and "cannot read" in bad.stderr, f"{bad}")


def test_the_commands_run_in_a_shell(cups, etc, room):
    """With a front that notes its arguments."""
    (etc / "programs").write_text("# some\nbackend ipp /usr/lib/cups/backend/ipp\n")
    front = Path(room, "front")
    front.write_text(f"#!/bin/sh\nprintf '[%s]' \"$@\" >> {room}/noted\necho >> {room}/noted\n")
    front.chmod(0o755)
    ended = run("sh", "-e", "-c", imports(cups, etc, "--spool", front, "--socket", "/a b").stdout)
    same(f"its end, with {ended.stderr}", ended.returncode, 0)
    wanted = "[queue][set][--socket][/a b][--info=Hall #1 \\ \"x\"][--location=First floor][hall]\n"
    same("the notes have the command", wanted in Path(room, "noted").read_text(), True)
    same("the PPDs", sorted(os.listdir(etc / "ppd")), ["lab.ppd", "labels.ppd", "ps.ppd"])
    same("the default", (etc / "default").read_text(), "lab\n")
    filters = "".join(f"filter {it} {OFFICE}/with-cups-env {it}\n" for it in ("gstoraster", "rastertolabel"))
    same("the chain of labels", (etc / "chains/through-labels").read_text(), filters + f"backend socket {OFFICE}/with-cups-env socket\n")
    lines = (etc / "programs").read_text().splitlines()
    same("the backends", sorted(" ".join(line.split()[:2]) for line in lines if line[:1] != "#"),
         ["backend ipp", "backend ipps", "backend socket", "backend through-lab", "backend through-labels", "root-backend lpd"])
    same("the backend of lab", f"backend through-lab {OFFICE}/through {etc}/chains/through-lab" in lines, True)


@pytest.mark.needs("spool_front", "spool_service")
@reports_all
def test_the_queues_of_a_service(cups, folder, etc):
    folder.start("--quiet")
    front = Front(folder)

    def apply():
        made = imports(cups, etc, "--apply", "--spool", os.path.join(front.bin, "spool"), "--socket", folder.socket)
        compare(f"the end of --apply, with {made.stderr}", made.returncode, 0)
        return made.stdout

    apply()
    for name, _, _, uri, media, policy, info in PRINTERS:
        text = front.says("spool", "queue", "show", QUEUES[name])
        for value in (uri, media, policy, info or ""):
            check(value in text, f"{name} has no {value}: {text}")
    rows = json.loads(front.says("spool", "queues", "--json"))
    compare("the stopped queues", [row["name"] for row in rows if row["state"] == "stopped"], ["stopped"])
    compare("the queues that reject jobs", sorted(row["name"] for row in rows if not row["accepting"]), ["ps", "stopped"])
    again = apply()
    compare("a second run", (again.count("exists, and is left as it is"), "queue add" in again), (len(PRINTERS), False))


def test_cups_makes_one_attempt_more_than_its_limit(cups):
    cups.run("lpadmin", "-p", "tries", "-v", "fails:/x", "-E", "-o", "printer-error-policy=retry-job")
    cups.run("lp", "-d", "tries", SCRIPT)
    until("the job is aborted", lambda: "tries-" not in cups.run("lpstat", "-o", "tries"))
    same("the attempts of CUPS", Path(cups.folder, "spool/tmp/attempts").read_text(), "x\n" * 3)
