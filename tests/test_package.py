"""The Debian package in fresh Debians.

packaging/deb makes two packages of the built programs. With CEGMANDI_GATE=OUTPUT, the output of a gate, these are packages of a proved
version, and otherwise packages for tests (`--unproved`). It refuses a gate of other programs, of another commit, or that failed. `lintian`
reports no error for the package. With --long a fresh bookworm and a fresh trixie boot their own systemd in a container, and there:

1. `apt-get install` of the package, with nothing else but its dependencies. The users exist, the unit is enabled and runs, the files are
   root's, the sums of PROOF are those of the installed programs. systemd-analyze finds no fault in the unit, and its exposure is printed.
2. `spool` prints a text through a filter into a file, as root and as a user of the group lp. Another user cannot print.
3. An upgrade while 8 jobs are printing, 1,000 wait and a client submits more: each accepted job is printed once, and no other is printed. A
   changed configuration is kept. If the unit is disabled, an upgrade does not start it.
4. A removal ends the service, and keeps the configuration and the spool. After another install the jobs of before wait in their queue.
5. A purge asks for nothing, and removes configuration and spool. No file is left but those of the test.
6. A copy of the spool, made by copy-spool.py while the service ran, becomes the spool of another install, which prints its waiting jobs.

This needs Debian's mirror and ten minutes. CEGMANDI_DEBIANS names a folder for the Debians that debootstrap created, for the next run.
"""
import collections
import hashlib
import os
import re
import shutil
import subprocess
import threading
import time
from pathlib import Path
from types import SimpleNamespace

import pytest

from harness import debian_machine, service
from harness.checks import check, reports_all
from harness.programs import GIVEN, path_of, PROGRAMS, ROOT

GATE = os.environ.get("CEGMANDI_GATE")

pytestmark = [pytest.mark.root, pytest.mark.needs("dpkg-deb", *PROGRAMS)]

USERS = ["cegmandi", *(f"cegmandi-{number}" for number in range(1, 8))]
SOCKET = "/run/cegmandi/spool.sock"
SPOOL = "/var/lib/cegmandi"
UNIT = "/usr/lib/systemd/system/cegmandi.service"
PRINTED = "/srv/printed"
PRINTING, WAITING, SECONDS = 8, 1_000, 10

# A backend that writes a file for each printing of a job, with the job's title in its name. Jobs named `slow-` wait for the upgrade, and
# take SECONDS from then on.
BACKEND = f"""#!/bin/sh
file=$(mktemp "{PRINTED}/$3.XXXXXX")
case $3 in slow-*) until [ -e {PRINTED}/upgrade ]; do sleep 0.2; done; sleep {SECONDS} ;; esac
cat "${{6:--}}" > "$file" && mv "$file" "$file.done"
"""


def until(is_so, seconds):
    """Whether something becomes true within these seconds."""
    end = time.monotonic() + seconds
    while not is_so():
        if time.monotonic() > end:
            return False
        time.sleep(0.1)
    return True


# ---- the package

def made(words, room, programs, revision, top=Path(ROOT)):
    """Runs packaging/deb. Returns the run."""
    folder = ["--programs", programs] if programs else []
    words = [top / "packaging/deb", *words, *folder, "--revision", str(revision), "--to", room]
    # Quicker than the default, xz.
    environment = {**os.environ, "DPKG_DEB_COMPRESSOR_TYPE": "gzip", "DPKG_DEB_COMPRESSOR_LEVEL": "1"}
    return subprocess.run(words, env=environment, capture_output=True, text=True)


@pytest.fixture(scope="module")
def packages(tmp_path_factory):
    """Two packages of the same programs, the second of a higher version."""
    runs = [made([GATE] if GATE else ["--unproved"], tmp_path_factory.mktemp("packages"), GIVEN and os.path.abspath(GIVEN), revision) for revision in (1, 2)]
    for run in runs:
        assert run.returncode == 0, run.stderr
    return [Path(run.stdout.strip()) for run in runs]


@reports_all
def test_packages_that_are_refused(tmp_path):
    """packaging/deb makes no package without the output of a gate that proved these programs and this commit. It runs in a clean clone."""
    top = tmp_path / "clone"
    subprocess.run(["git", "clone", "--quiet", ROOT, top], check=True)
    folder = tmp_path / "programs"
    folder.mkdir()
    for name in PROGRAMS:
        shutil.copy2(path_of(name), folder / name)
    commit = subprocess.run(["git", "-C", top, "rev-parse", "HEAD"], capture_output=True, text=True, check=True).stdout.strip()
    sums = "".join(f"{hashlib.sha256((folder / name).read_bytes()).hexdigest()}  {name}\n" for name in PROGRAMS)
    passed = f"The gate's commit: {commit}\nThe gate's toolchain: kit-1\n{sums}122 passed, 0 failed\n"
    outputs = {
        "a gate that failed": f"The gate's commit: {commit}\n{sums}121 passed, 1 failed\n",
        "another commit": f"The gate's commit: {'0' * 40}\n{sums}122 passed, 0 failed\n",
        "no commit": f"{sums}122 passed, 0 failed\n",
        "other programs": f"The gate's commit: {commit}\n{'0' * 64}  spool_front\n122 passed, 0 failed\n",
        "a part of the crates": f"The gate's commit: {commit}\n{sums}3 passed, 0 failed (extents alone: not the gate)\n",
        "nothing": "",
    }
    for name, text in outputs.items():
        (tmp_path / "gate").write_text(text)
        run = made([tmp_path / "gate"], tmp_path / "refused", folder, 1, top)
        check(run.returncode == 1 and run.stderr and not (tmp_path / "refused").exists(), f"packaging/deb accepts {name}: {run}")
    check(made([], tmp_path / "refused", folder, 1, top).returncode == 1, "packaging/deb accepts no gate at all")
    check(made(["--other"], tmp_path / "refused", folder, 1, top).returncode == 2, "packaging/deb accepts an unknown option")
    (tmp_path / "gate").write_text(passed)
    run = made([tmp_path / "gate"], tmp_path / "accepted", folder, 1, top)
    check(run.returncode == 0 and "unproved" not in run.stdout, f"packaging/deb refuses a passed gate: {run}")
    text = subprocess.run(["dpkg-deb", "--fsys-tarfile", run.stdout.strip()], capture_output=True).stdout
    proof = subprocess.run(["tar", "-xO", "./usr/share/doc/cegmandi/PROOF"], input=text, capture_output=True).stdout.decode()
    check(commit in proof and "kit-1" in proof and "122 passed, 0 failed" in proof, f"PROOF: {proof}")
    with open(top / "README.md", "a", encoding="utf-8") as changed:
        changed.write("changed\n")
    check(made([tmp_path / "gate"], tmp_path / "refused", folder, 1, top).returncode == 1, "packaging/deb accepts a changed tree")


@pytest.mark.needs("lintian")
def test_lintian(packages):
    run = subprocess.run(["lintian", "--allow-root", "--tag-display-limit", "0", packages[0]], capture_output=True, text=True)
    assert run.returncode == 0 and not re.search(r"^[EW]:", run.stdout, re.M), f"{run.stdout}{run.stderr}"


# ---- in a Debian

def install(machine, package):
    """Installs a package file there."""
    shutil.copy2(package, machine.at("/root") / package.name)
    # A changed file of the configuration is kept without a question.
    words = ["apt-get", "install", "-q", "-y", "--no-install-recommends", "--reinstall", "-o", "Dpkg::Options::=--force-confdef"]
    return machine.run(*words, f"/root/{package.name}")


def is_active(machine):
    return machine.run("systemctl", "is-active", "cegmandi").stdout.strip() == "active"


def serves(machine, seconds=180):
    """Whether the service runs within these seconds."""
    return until(lambda: is_active(machine) and machine.at(SOCKET).exists(), seconds)


def after_install(machine, package, name):
    """The state after the first install."""
    run = install(machine, package)
    check(run.returncode == 0, f"{name}: the install: {run.stdout[-2000:]}{run.stderr[-2000:]}")
    check(machine.run("getent", "passwd", *USERS).stdout.count("\n") == len(USERS), f"{name}: users are missing")
    check(machine.run("systemctl", "is-enabled", "cegmandi").stdout == "enabled\n", f"{name}: the unit is not enabled")
    check(serves(machine), f"{name}: {machine.run('systemctl', 'status', 'cegmandi').stdout}")
    check("spool_service" in machine.programs(), f"{name}: no process of the service")
    # The users of the children are tried at the start. Then the service serves.
    check(machine.run("spool", "queues").returncode == 0, f"{name}: spool queues fails")
    sums = machine.run("sh", "-c", "grep '^[0-9a-f]\\{64\\}  /' /usr/share/doc/cegmandi/PROOF | sha256sum --check")
    check(sums.returncode == 0 and sums.stdout.count("OK") == len(PROGRAMS), f"{name}: the sums of PROOF: {sums.stdout}{sums.stderr}")
    listed = machine.run("dpkg-query", "--listfiles", "cegmandi").stdout.splitlines()
    foreign = machine.run("find", *[it for it in listed if it.count("/") > 2], "-maxdepth", "0", "!", "-user", "root").stdout
    check(len(listed) > 50 and not foreign, f"{name}: files of others than root: {foreign}")
    config = machine.run("dpkg-query", "--show", "--showformat=${Conffiles}", "cegmandi").stdout
    config = {it.split()[0] for it in config.strip().splitlines()}
    check(config == {f"/etc/cegmandi/{it}" for it in ("types", "convs", "programs")}, f"{name}: conffiles: {config}")
    run = machine.run("dpkg", "--verify", "cegmandi")
    check(not re.search(r"(?m)^..5", run.stdout), f"{name}: dpkg --verify: {run.stdout}")


def analyzed(machine, name):
    """What systemd says of the unit."""
    run = machine.run("systemd-analyze", "verify", "--man=no", UNIT)
    check(run.returncode == 0 and "cegmandi" not in run.stderr, f"{name}: systemd-analyze verify: {run.stdout}{run.stderr}")
    run = machine.run("systemd-analyze", "security", "--offline=yes", "--no-pager", UNIT)
    last = run.stdout.strip().splitlines()[-1:]
    print(f"{name}: systemd-analyze security: {' '.join(last)}", flush=True)
    level = re.search(r": ([0-9.]+) ", "".join(last))
    check(level and float(level[1]) <= 3, f"{name}: systemd-analyze security: {last}")


def prepared(machine, name):
    """Changes the configuration for the test: a backend, a folder that children can write, 8 children at once."""
    machine.run("install", "-d", "-m", "0777", PRINTED)
    machine.at("/usr/local/lib/slow").write_text(BACKEND)
    machine.at("/usr/local/lib/slow").chmod(0o755)
    with open(machine.at("/etc/cegmandi/programs"), "a", encoding="utf-8") as programs:
        programs.write("backend slow /usr/local/lib/slow\n")
    more = [f"cegmandi-{number}" for number in range(len(USERS), PRINTING + 2)]
    machine.at("/etc/sysusers.d").mkdir(exist_ok=True)
    machine.at("/etc/sysusers.d/more.conf").write_text("".join(f"u {user} -\n" for user in more) + "u ann -\nm ann lp\nu bo -\n")
    machine.run("systemd-sysusers")
    unit = machine.at(UNIT).read_text()
    start = re.search(r"^ExecStart=(?:.*\\\n)*.*$", unit, re.M)[0]
    start = start.replace("--children 6", f"--children {PRINTING}").replace("cegmandi-7", ",".join(["cegmandi-7", *more]))
    machine.at("/etc/systemd/system/cegmandi.service.d").mkdir(exist_ok=True)
    machine.at("/etc/systemd/system/cegmandi.service.d/test.conf").write_text(f"[Service]\nReadWritePaths={PRINTED}\nExecStart=\n{start}\n")
    machine.run("systemctl", "daemon-reload")
    run = machine.run("systemctl", "restart", "cegmandi")
    check(run.returncode == 0 and serves(machine), f"{name}: the changed service does not start: {run.stderr}")


def prints(machine, name):
    """A text is printed through a filter, by root and by a user of the group lp, but not by another user."""
    for user, wanted in (("root", 0), ("ann", 0), ("bo", 1)):
        page = f"{PRINTED}/page-{user}"
        machine.run("spool", "queue", "add", f"hall-{user}", f"spoolfile:{page}", "--media", "application/x-prn")
        words = ["setpriv", "--reuid", user, "--regid", user, "--init-groups", "spool"]
        run = machine.run(*words, "submit", f"hall-{user}", "-", "--wait", given="Dear Bo,\ncome. Ann\n", seconds=60)
        check(run.returncode == wanted, f"{name}: {user} prints with status {run.returncode}: {run.stdout}{run.stderr}")
        page = machine.at(page)
        text = page.read_bytes() if page.exists() else b""
        check(text == (b"" if wanted else b"Dear Bo,\r\ncome. Ann\r\n\x0c"), f"{name}: {user} printed {text}")


class Client(service.Client):
    """A connection to the service of a machine."""

    def __init__(self, machine):
        super().__init__(SimpleNamespace(socket=str(machine.at(SOCKET))))

    def is_accepted(self, queue, title):
        """Submits a job. Returns whether it was accepted."""
        reply = self.ask(f'create {queue} ann "{title}" 1 50 ""\n'.encode())
        job = reply.removeprefix("ok job ").encode()
        return self.ask(b"send %s 5\nline\n\n" % job).startswith("ok") and self.ask(b"close %s page\n" % job).startswith("ok")


def done(machine):
    """How often each job was printed to its end, by title."""
    return collections.Counter(it.name.split(".")[0] for it in machine.at(PRINTED).glob("*.done"))


class Submitter(threading.Thread):
    """A client that submits jobs all the time, and notes which were accepted."""

    def __init__(self, machine):
        super().__init__()
        self.machine, self.ends, self.accepted, self.unknown, self.refused = machine, threading.Event(), [], [], []

    def run(self):
        number = 0
        while not self.ends.wait(0.2):
            number += 1
            title = f"more-{number}"
            run = self.machine.run("spool", "submit", f"q{number % PRINTING}", "-", "--title", title, given="line\n")
            {0: self.accepted, 1: self.refused}.get(run.returncode, self.unknown).append(title)


def upgrades(machine, package, name):
    """An upgrade while jobs are printed, wait and are submitted: each accepted job is printed once."""
    client = Client(machine)
    for number in range(PRINTING):
        reply = client.ask(f"queue q{number} slow:x application/octet-stream retry-job 5 9\n".encode())
        check(reply.startswith("ok"), f"{name}: queue q{number}: {reply}")
    titles = [f"slow-{number}" for number in range(PRINTING)] + [f"job-{number}" for number in range(WAITING)]
    accepted = [client.is_accepted(f"q{number % PRINTING}", title) for number, title in enumerate(titles)]
    check(all(accepted), f"{name}: {accepted.count(False)} jobs are not accepted")
    begun = len([it for it in machine.at(PRINTED).glob("slow-*") if it.suffix != ".done"])
    check(begun == PRINTING and not done(machine), f"{name}: at the upgrade {begun} jobs are printing and {len(done(machine))} are printed")
    old = machine.run("systemctl", "show", "-P", "MainPID", "cegmandi").stdout
    submitter, start = Submitter(machine), time.monotonic()
    submitter.start()
    machine.at(f"{PRINTED}/upgrade").touch()
    run = install(machine, package)
    print(f"{name}: the upgrade took {time.monotonic() - start:.0f} s", flush=True)
    check(run.returncode == 0, f"{name}: the upgrade: {run.stdout[-2000:]}{run.stderr[-2000:]}")
    new = machine.run("systemctl", "show", "-P", "MainPID", "cegmandi").stdout
    check(serves(machine) and old != new, f"{name}: the service was not restarted: {old}{new}")
    until(lambda: len(submitter.accepted) > 5 and time.monotonic() - start > 10, 60)
    submitter.ends.set()
    submitter.join()
    titles += submitter.accepted
    until(lambda: len(done(machine)) >= len(titles), 600)
    judge(machine, name, titles, submitter)
    check("backend slow" in machine.at("/etc/cegmandi/programs").read_text(), f"{name}: the upgrade replaces a changed configuration")


def judge(machine, name, titles, submitter):
    """Each accepted job was printed once, and no other."""
    counts = done(machine)
    begun = collections.Counter(it.name.split(".")[0] for it in machine.at(PRINTED).glob("*-*.*"))
    others = f"{len(submitter.refused)} refused, {len(submitter.unknown)} unknown"
    print(f"{name}: {len(titles)} accepted, {others}, {counts.total()} printed", flush=True)
    lost = [title for title in titles if not counts[title]]
    twice = [title for title, number in begun.items() if number > 1]
    others = [title for title in counts if title not in titles and title not in submitter.unknown]
    check(not lost, f"{name}: {len(lost)} jobs are lost: {lost[:9]}")
    check(not twice, f"{name}: {len(twice)} jobs were begun twice: {twice[:9]}")
    check(not others, f"{name}: jobs are printed that were refused: {others[:9]}")


def stays_disabled(machine, package, name):
    machine.run("systemctl", "disable", "--now", "cegmandi")
    run = install(machine, package)
    check(run.returncode == 0 and not is_active(machine), f"{name}: an upgrade starts a disabled service")
    machine.run("systemctl", "enable", "--now", "cegmandi")
    check(serves(machine), f"{name}: the enabled service does not start")


def removes(machine, package, name):
    """A removal keeps the configuration and the spool, so that another install continues."""
    client = Client(machine)
    client.ask(b"disable q0\n")
    check(all([client.is_accepted("q0", f"late-{number}") for number in range(3)]), f"{name}: jobs before the removal are not accepted")
    run = machine.run("/usr/lib/cegmandi/copy-spool.py", SPOOL, "/root/spool.disk")
    check(run.returncode == 0 and run.stdout.startswith("copied "), f"{name}: the copy of the spool: {run.stdout}{run.stderr}")
    run = machine.run("apt-get", "remove", "-q", "-y", "cegmandi")
    check(run.returncode == 0 and not is_active(machine), f"{name}: the removal: {run.stdout[-2000:]}{run.stderr[-2000:]}")
    paths = (UNIT, "/usr/bin/spool", "/usr/lib/cegmandi", "/etc/cegmandi/programs", f"{SPOOL}/spool.disk")
    there = {it: machine.at(it).exists() for it in paths}
    check(list(there.values()) == [False, False, False, True, True], f"{name}: after the removal: {there}")
    run = install(machine, package)
    check(run.returncode == 0 and serves(machine), f"{name}: the second install: {run.stderr}")
    client = Client(machine)
    client.ask(b"enable q0\n")
    check(until(lambda: late(machine) == [1, 1, 1], 60), f"{name}: jobs of before the removal are printed {late(machine)} times")


def late(machine):
    return [done(machine)[f"late-{number}"] for number in range(3)]


def moves(machine, package, name):
    """A copy of the spool of a running service becomes the spool of another install. It prints what waited when the copy was made."""
    run = install(machine, package)
    check(run.returncode == 0 and serves(machine), f"{name}: the install after a purge: {run.stderr}")
    prepared(machine, name)
    machine.run("systemctl", "stop", "cegmandi")
    machine.run("cp", "--sparse=never", "/root/spool.disk", f"{SPOOL}/spool.disk")
    machine.run("chown", "cegmandi:lp", f"{SPOOL}/spool.disk")
    machine.run("chmod", "0600", f"{SPOOL}/spool.disk")
    machine.run("systemctl", "start", "cegmandi")
    check(serves(machine), f"{name}: the service does not start with a copy of a spool")
    Client(machine).ask(b"enable q0\n")
    check(until(lambda: late(machine) == [2, 2, 2], 60), f"{name}: jobs of the copy are printed {late(machine)} times")


def purges(machine, name):
    run = machine.run("env", "-u", "DEBIAN_FRONTEND", "dpkg", "--purge", "cegmandi")
    asked = re.search(r"\?|\[y", run.stdout + run.stderr, re.I)
    check(run.returncode == 0 and not asked, f"{name}: the purge: {run.stdout}{run.stderr}")
    check(not is_active(machine) and "spool_service" not in machine.programs(), f"{name}: the service runs after the purge")
    where = ["/etc", "/usr", "/var/lib", "/run", "/opt"]
    found = machine.run("find", *where, "-xdev", "-name", "*cegmandi*", "-o", "-xdev", "-name", "spool_*").stdout.split()
    # The drop-in is the administrator's, and the spool's folder is a file system here.
    left = [it for it in found if not it.startswith("/etc/systemd/system/cegmandi.service.d") and it != SPOOL]
    check(not left and not list(machine.at(SPOOL).iterdir()), f"{name}: left after the purge: {left}")
    check(not machine.run("dpkg-query", "--show", "cegmandi").stdout, f"{name}: dpkg knows the package after the purge")


@pytest.mark.long
@pytest.mark.needs("debootstrap", "systemd-nspawn", "nsenter")
@pytest.mark.parametrize("suite", ["bookworm", "trixie"])
@reports_all
def test_life(packages, tmp_path, suite):
    """The life of the package in one Debian."""
    first, second = packages
    fault = debian_machine.create(suite, tmp_path / suite, os.environ.get("CEGMANDI_DEBIANS"))
    if fault:
        pytest.skip(f"debootstrap cannot create {suite}: {fault}")
    machine = debian_machine.Machine(tmp_path / suite)
    try:
        if not machine.start():
            pytest.skip(f"the systemd of {suite} does not start here (see {tmp_path / suite}.log)")
        machine.run("apt-get", "update", "-q")
        # In memory, because a busy disk takes minutes for the syncs of a thousand jobs.
        machine.run("mount", "--mkdir", "-t", "tmpfs", "-o", "size=200m,mode=0711", "tmpfs", SPOOL)
        after_install(machine, first, suite)
        analyzed(machine, suite)
        prepared(machine, suite)
        prints(machine, suite)
        upgrades(machine, second, suite)
        stays_disabled(machine, second, suite)
        removes(machine, second, suite)
        purges(machine, suite)
        moves(machine, second, suite)
    except (OSError, subprocess.SubprocessError) as fault:
        check(False, f"{fault!r}: {machine.run('journalctl', '-u', 'cegmandi', '-n', '30', '--no-pager').stdout}")
    finally:
        machine.end()
