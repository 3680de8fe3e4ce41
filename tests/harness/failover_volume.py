"""A replicated volume on this machine, and two hosts that have mounted it.

The volume is one of GlusterFS with three bricks (Debian's packages glusterfs-server and glusterfs-client). All of it runs in namespaces of
its own: the bricks in one network, and each host in another that connects only to them. So none of it can be reached from outside, and none
of it remains when the tests end: its processes end with it.

A host is a mount of the volume, by a client process of its own, as on two machines. The pages that a host's service prints are in a folder
that is not on the volume: the printers.
"""
import os
import shutil
import signal
import subprocess
import tempfile
import time
from pathlib import Path

from harness.checks import holds, LONGEST, until

# The bricks' address, which is reached only within these namespaces: the system refuses bricks with the address 127.0.0.1.
BRICKS = "10.77.0.1"
NAME = "spool"

# How a host mounts the volume: reads are served by the volume, not from the host's cache.
MOUNT = ["--direct-io-mode=enable", "--attribute-timeout=0", "--entry-timeout=0"]

INSIDE = "FAILOVER_INSIDE"

PROGRAMS = {
    "glusterd": "glusterfs-server", "gluster": "glusterfs-client", "glusterfs": "glusterfs-client", "setfattr": "attr",
    "ip": "iproute2", "unshare": "util-linux", "nsenter": "util-linux", "mount": "mount",
}


def lacks():
    """The requirements of a volume that are missing here, as text; empty if none is."""
    missing = [f"{program} (Debian's package {package})" for program, package in PROGRAMS.items() if not shutil.which(program)]
    if missing:
        return missing[0]
    if os.geteuid():
        return "root"
    if not os.path.exists("/dev/fuse"):
        return "/dev/fuse"
    done = subprocess.run([*NAMESPACES, "true"], capture_output=True, text=True)
    return f"namespaces: {done.stderr.strip()}" if done.returncode else ""


NAMESPACES = ["unshare", "--mount", "--net", "--pid", "--fork", "--kill-child", "--mount-proc", "--propagation", "private"]


# The words that run a program within. The first process of the namespaces is a shell, which reaps all processes that end there.
INTO = [*NAMESPACES, "sh", "-c", '"$@"; exit $?', "sh"]


def run(*words, within=None):
    """Runs a program that must succeed, and returns its output. It may run in the network of a host."""
    words = [*(["nsenter", f"--net=/proc/{within}/ns/net"] if within else []), *words]
    done = subprocess.run(words, capture_output=True, text=True, timeout=LONGEST)
    holds(f"{' '.join(words)} ended with {done.returncode}: {done.stdout}{done.stderr}", not done.returncode)
    return done.stdout


def processes(*words):
    """The processes whose command line has these words."""
    found = []
    for name in filter(str.isdigit, os.listdir("/proc")):
        try:
            line = Path(f"/proc/{name}/cmdline").read_bytes().decode(errors="replace").split("\0")
        except OSError:
            continue
        if set(words) <= set(line):
            found.append(int(name))
    return found


class Host:
    """One of two machines: a network of its own, and the volume's mount in it."""

    def __init__(self, volume, number):
        self.volume, self.number = volume, number
        self.name = "AB"[number]
        self.path = volume.at(self.name.lower())
        os.mkdir(self.path)
        self.address = f"10.77.{number + 1}"
        self.link = f"host{number}"
        # A process that keeps its network.
        self.keeper = subprocess.Popen(["unshare", "--net", "sleep", "infinity"])
        own = os.readlink("/proc/self/ns/net")
        until("a host's network", lambda: os.readlink(f"/proc/{self.keeper.pid}/ns/net") != own)
        run("ip", "link", "add", self.link, "type", "veth", "peer", "name", "volume", "netns", str(self.keeper.pid))
        run("ip", "addr", "add", f"{self.address}.1/24", "dev", self.link)
        run("ip", "link", "set", self.link, "up")
        for words in (f"addr add {self.address}.2/24 dev volume", "link set lo up", "link set volume up", f"route add {BRICKS} via {self.address}.1"):
            run("ip", *words.split(), within=self.keeper.pid)
        self.mount()

    def mount(self):
        before = set(processes("--volfile-id=" + NAME, self.path))
        words = [f"--volfile-server={BRICKS}", "--volfile-id=" + NAME, f"--log-file={self.volume.at('log', self.name)}", *MOUNT, self.path]
        run("glusterfs", *words, within=self.keeper.pid)
        until(f"the mount of {self.name}", self.is_mounted)
        (self.client,) = set(processes("--volfile-id=" + NAME, self.path)) - before

    def is_mounted(self):
        try:
            return os.path.ismount(self.path) and os.listdir(self.path) is not None
        except OSError:
            return False

    def kill_client(self):
        """Kills the mount's client: the host loses access to the folder."""
        os.kill(self.client, signal.SIGKILL)
        until("the end of a client", lambda: not processes("--volfile-id=" + NAME, self.path))

    def mount_again(self):
        run("umount", "-l", self.path)
        self.mount()

    def cut(self):
        """Takes the host off the network, as if its cable were pulled or its power were off: no other process is notified."""
        run("ip", "link", "set", self.link, "down")

    def mend(self):
        run("ip", "link", "set", self.link, "up")


class Volume:
    """Three bricks, which run, and two hosts."""

    def __init__(self, options=()):
        # A short name: the folder of a spool has 64 bytes at most.
        self.path = tempfile.mkdtemp(prefix="v-")
        for name in ("lib", "log", "local", *(f"brick{number}" for number in range(3))):
            os.mkdir(self.at(name))
        # The system folders of the programs, for these namespaces only.
        run("mount", "-t", "tmpfs", "tmpfs", "/run")
        os.makedirs("/var/lib/glusterd", exist_ok=True)
        os.makedirs("/var/log/glusterfs", exist_ok=True)
        run("mount", "--bind", self.at("lib"), "/var/lib/glusterd")
        run("mount", "--bind", self.at("log"), "/var/log/glusterfs")
        run("ip", "link", "set", "lo", "up")
        run("ip", "addr", "add", f"{BRICKS}/32", "dev", "lo")
        run("glusterd")
        until("glusterd", lambda: self.answers("pool", "list"))
        run("gluster", "--mode=script", "volume", "create", NAME, "replica", "3", *(f"{BRICKS}:{self.at(f'brick{n}')}" for n in range(3)), "force")
        for option, value in options:
            self.set(option, value)
        run("gluster", "--mode=script", "volume", "start", NAME)
        until("the bricks", lambda: None not in self.bricks())
        self.hosts = [Host(self, number) for number in range(2)]

    def at(self, *names):
        return os.path.join(self.path, *names)

    def set(self, option, value):
        run("gluster", "--mode=script", "volume", "set", NAME, option, value)

    def answers(self, *words):
        return subprocess.run(["gluster", "--mode=script", *words], capture_output=True).returncode == 0

    def brick(self, number):
        """The process of a brick, if it runs."""
        found = processes("--brick-name", self.at(f"brick{number}"))
        return found[0] if found else None

    def bricks(self):
        return [self.brick(number) for number in range(3)]

    def kill_brick(self, number):
        os.kill(self.brick(number), signal.SIGKILL)
        until("the end of a brick", lambda: self.brick(number) is None)

    def start_bricks(self):
        """Starts the bricks that were killed."""
        run("gluster", "--mode=script", "volume", "start", NAME, "force")
        until("the bricks", lambda: None not in self.bricks())

    def heal(self):
        """Waits until each brick has all changes, and the half-finished writes of a dead client are resolved."""
        end = time.time() + 180
        while not (self.answers("volume", "heal", NAME) and self.is_whole()):
            holds("the volume is not healed within 180 s", end >= time.time())
            time.sleep(0.5)

    def is_whole(self):
        """Whether all bricks have all changes. The system's command takes a second."""
        done = subprocess.run(["gluster", "--mode=script", "volume", "heal", NAME, "info", "summary"], capture_output=True, text=True)
        counts = [line.split(":")[1].strip() for line in done.stdout.splitlines() if line.startswith("Total Number of entries")]
        return done.returncode == 0 and counts == ["0"] * 3

    def remove(self):
        for host in self.hosts:
            subprocess.run(["umount", "-l", host.path], capture_output=True)
        shutil.rmtree(self.path, ignore_errors=True)
