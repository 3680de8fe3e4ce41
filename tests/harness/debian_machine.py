"""A fresh Debian that runs its own systemd in a container: for tests/test_package.py.

debootstrap creates it, and systemd-nspawn boots it, in namespaces of its own. It uses the network of the host, for apt.
"""
import os
import shutil
import signal
import subprocess
import time
from pathlib import Path


MIRROR = "http://deb.debian.org/debian"
INCLUDED = "systemd-sysv,dbus"

# Run by sh in a mount namespace of its own. The container's systemd needs the unified hierarchy of control groups. nspawn needs the folder
# that a systemd of the host makes.
BOOT = """set -e
mount --make-rprivate /
if [ "$(stat -f -c %T /sys/fs/cgroup)" != cgroup2fs ]; then
    umount -l /sys/fs/cgroup
    mount -t cgroup2 none /sys/fs/cgroup
fi
mkdir -p "/sys/fs/cgroup/$2"
echo $$ > "/sys/fs/cgroup/$2/cgroup.procs"
mount -t tmpfs none /run
mkdir -p /run/systemd/system
exec systemd-nspawn --quiet --register=no --keep-unit --resolv-conf=off --timezone=off --machine="$2" \\
    --directory="$1" --boot
"""


def mirror():
    """The mirror of this machine's apt, or else Debian's."""
    words = ["apt-get", "indextargets", "--format", "$(SITE)", "Created-By: Packages"]
    listed = subprocess.run(words, capture_output=True, text=True).stdout.split()
    return next((it for it in listed if it.rstrip("/").endswith("/debian")), MIRROR)


def create(suite, folder, kept=None):
    """Creates a Debian of this suite in a folder, from the archive in `kept` if that has one. Returns the fault, or an empty text."""
    archive = Path(kept, f"{suite}.tar") if kept else None
    folder.mkdir()
    if archive and archive.exists():
        return subprocess.run(["tar", "-xf", archive, "-C", folder], capture_output=True, text=True).stderr
    words = ["debootstrap", "--variant=minbase", f"--include={INCLUDED}", suite, folder, mirror()]
    run = subprocess.run(words, capture_output=True, text=True)
    if run.returncode:
        return run.stdout.strip()[-300:] or run.stderr
    if archive:
        subprocess.run(["tar", "-cf", archive, "-C", folder, "."], check=True)
    return ""


def descendants(process):
    """A process and all that it started."""
    found = [process]
    for one in found:
        for task in Path("/proc", str(one), "task").glob("*/children"):
            try:
                found += map(int, task.read_text().split())
            except OSError:
                continue
    return found


def is_first(process):
    """Whether a process is the first one of a container."""
    try:
        lines = Path("/proc", str(process), "status").read_text().splitlines()
    except OSError:
        return False
    numbers = next(line.split()[1:] for line in lines if line.startswith("NSpid:"))
    return len(numbers) > 1 and numbers[-1] == "1"


class Machine:
    def __init__(self, folder):
        self.folder, self.first, self.running = folder, None, None
        shutil.copy2("/etc/resolv.conf", folder / "etc/resolv.conf", follow_symlinks=True)
        (folder / "etc/hostname").write_text("printers\n")

    def start(self, seconds=120):
        """Boots it. Returns whether its systemd is ready within these seconds."""
        words = ["unshare", "--mount", "sh", "-c", BOOT, "sh", str(self.folder), f"package-{os.getpid()}-{self.folder.name}"]
        with open(f"{self.folder}.log", "wb") as log:
            self.running = subprocess.Popen(words, stdin=subprocess.DEVNULL, stdout=log, stderr=log, start_new_session=True)
        end = time.monotonic() + seconds
        while time.monotonic() < end and self.running.poll() is None:
            self.first = next(filter(is_first, descendants(self.running.pid)), None)
            if self.first and self.run("systemctl", "is-system-running").stdout.strip() in ("running", "degraded"):
                return True
            time.sleep(0.5)
        return False

    def run(self, *words, given=None, seconds=600):
        """Runs a command in it, as root and with an environment of its own."""
        inside = ["nsenter", "--target", str(self.first), "--mount", "--uts", "--ipc", "--pid", "--cgroup", "--root", "--wd=/root"]
        inside += ["env", "-i"]
        inside += ["PATH=/usr/sbin:/usr/bin:/sbin:/bin", "HOME=/root", "LC_ALL=C.UTF-8", "DEBIAN_FRONTEND=noninteractive", "PAGER=cat"]
        how = {"stdout": subprocess.PIPE, "stderr": subprocess.PIPE, "text": True, "timeout": seconds}
        how.update({"input": given} if given is not None else {"stdin": subprocess.DEVNULL})
        return subprocess.run([*inside, *words], **how)

    def at(self, path):
        """The path on this machine of one of its files, as its processes see it."""
        return Path(f"/proc/{self.first}/root{path}")

    def programs(self):
        """The names of the programs that run in it."""
        found = set()
        for process in descendants(self.first):
            try:
                found.add(Path("/proc", str(process), "comm").read_text().strip())
            except OSError:
                # It has ended meanwhile.
                continue
        return found

    def end(self):
        """Stops it, at once."""
        if self.running and self.running.poll() is None:
            if self.first:
                os.kill(self.first, signal.SIGKILL)
            try:
                self.running.wait(20)
            except subprocess.TimeoutExpired:
                os.killpg(self.running.pid, signal.SIGKILL)
                self.running.wait()
