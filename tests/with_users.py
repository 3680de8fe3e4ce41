#!/usr/bin/env python3
"""Runs the tests of tests/test_stock.py or tests/test_office.py with filters and backends that run as users:
with_users.py [WORD..] stock|office [ARGUMENT..]

The words are `--service PROGRAM`, `--shell PROGRAM` and `--tools PROGRAM`; the defaults are the built programs. The arguments are those of
pytest.

It copies the tests and the examples to a new folder, in which the program spool_service has `--children-user` and the limit of processes
of the unit. spool_shell has no users. So a substitute has the service run the commands of test_stock.py, and those of
examples/office/pages.sh: it waits for the end of all jobs where a script has `drain`. The other tests of test_office.py compare the replies to
`drain` and `round`, so the shell itself runs them.

The service runs as root, as docs/STOCK.md demands of one with backends that only root can run: these get `root-backend` lines. Only root
can run this script. It makes the users `cegmandi-w1` to `cegmandi-w4`, and removes them at the end. The output and the status are
those of pytest.
"""
import os
import shutil
import subprocess
import sys
import tempfile

from harness.files import write
from harness.people import made_users
from harness.programs import path_of

HERE = os.path.dirname(os.path.realpath(__file__))
ROOT = os.path.dirname(HERE)
USERS = [f"cegmandi-w{number}" for number in range(1, 5)]
# The backends that require root or the devices of the spooler's user (docs/STOCK.md).
OF_ROOT = ("cups-brf", "lpd", "parallel", "serial")
PROGRAMS = ("spool_service", "spool_shell", "spool_tools", "spool_front")

# Everybody may search the folders above the spool, and write the files of the printers, which are next to it.
OPEN = """#!/usr/bin/env python3
import os, sys
place = os.path.abspath(sys.argv[sys.argv.index("--root") + 1]) if "--root" in sys.argv else None
above = os.path.dirname(place) if place else "/"
os.chmod(above, 0o777) if above not in ("/", "/tmp") else None
while above != "/":
    above = os.path.dirname(above)
    if above not in ("/", "/tmp"):
        os.chmod(above, os.stat(above).st_mode | 0o011)
if "--programs" in sys.argv:
    listed = sys.argv[sys.argv.index("--programs") + 1]
    lines = open(listed).read().splitlines()
    rooted = [f"root-{line}" if line.split()[:1] == ["backend"] and line.split()[1] in "OF_ROOT" else line for line in lines]
    open(listed, "w").write("".join(line + "\\n" for line in rooted))
"""

SERVICE = OPEN + """
users = ["--children-user", "USERS", "--child-processes", "256"]
os.execv("PROGRAM", ["PROGRAM", *sys.argv[1:], *users])
"""

SHELL = OPEN + """
sys.path.insert(0, "HERE")
import shutil, subprocess
from harness.checks import until
from harness.service import Client
words = sys.argv[1:]
# The examples of test_office.py but pages.sh have replies that only the shell gives.
KINDS = "KINDS"
listed = words[words.index("--programs") + 1] if "--programs" in words else None
if listed is None or "--devices" in words or not any(word in open(listed).read() for word in KINDS):
    os.execv("PROGRAM", ["PROGRAM", *words])
class Served:
    socket = os.path.join(place, "spool.sock")
service = subprocess.Popen(["SERVICE", *words, "--quiet"], stdin=subprocess.DEVNULL)
until("the service", lambda: os.path.exists(Served.socket) or service.poll() is not None)
client = Client(Served)
client.connection.settimeout(300)
made = []
for line in sys.stdin.buffer:
    word = line.split()[0]
    if word == b"drain":
        for number in made:
            client.listing(f"wait {number}\\n")
        reply = "ok"
    elif word in (b"jobs", b"queues"):
        rows = client.listing(line.decode())
        reply = "\\n".join([*rows, f"ok {len(rows)}"])
    elif word == b"send":
        data = sys.stdin.buffer.read(int(line.split()[2]) + 1)
        reply = client.ask(line + data)
    else:
        reply = client.ask(line)
        if reply.startswith("ok type"):
            made.append(int(line.split()[1]))
    print(reply, flush=True)
service.terminate()
service.wait()
"""


def tree(folder, programs, kinds):
    """The copies, and the programs of the users."""
    shutil.copytree(HERE, os.path.join(folder, "tests"), ignore=shutil.ignore_patterns("__pycache__"))
    shutil.copytree(os.path.join(ROOT, "examples"), os.path.join(folder, "examples"))
    shutil.copy(os.path.join(ROOT, "pytest.ini"), folder)
    os.mkdir(os.path.join(folder, "docs"))
    shutil.copy(os.path.join(ROOT, "docs/STOCK.md"), os.path.join(folder, "docs"))
    out = {name: os.path.join(folder, "crates", name, "out", name) for name in PROGRAMS}
    words = {"USERS": ",".join(USERS), "HERE": os.path.join(folder, "tests"), "SERVICE": out["spool_service"], "KINDS": kinds, "OF_ROOT": OF_ROOT}
    for name, text in (("spool_service", SERVICE), ("spool_shell", SHELL), ("spool_tools", None), ("spool_front", None)):
        os.makedirs(os.path.dirname(out[name]))
        if text is None:
            shutil.copy(programs[name], out[name])
            continue
        text = text.replace("PROGRAM", programs[name])
        for word, value in words.items():
            text = text.replace(f'"{word}"', repr(value))
        write(out[name], text, 0o755)


def main(arguments):
    if os.getuid() != 0 or not shutil.which("setpriv") or not shutil.which("useradd"):
        print("with_users: left out: only root can make users, with setpriv and useradd")
        return 0
    programs = {name: path_of(name) for name in PROGRAMS}
    while arguments[0].startswith("--"):
        programs[f"spool_{arguments[0][2:]}"] = os.path.abspath(arguments[1])
        arguments = arguments[2:]
    with tempfile.TemporaryDirectory(prefix="cegmandi-users-", ignore_cleanup_errors=True) as folder, made_users(*USERS):
        os.chmod(folder, 0o755)
        tree(folder, programs, ["/"] if arguments[0] == "stock" else ["texttopdf"])
        words = [sys.executable, "-m", "pytest", os.path.join(folder, "tests", f"test_{arguments[0]}.py"), *arguments[1:]]
        variables = {name: value for name, value in os.environ.items() if name != "CEGMANDI_PROGRAMS"}
        return subprocess.run(words, env={**variables, "WITH_USERS": "yes"}).returncode


if __name__ == "__main__":
    sys.exit(main(sys.argv[1:]))
