"""Users of the system, and how they prove who they are to the service."""
import collections
import contextlib
import os
import random
import re
import shutil
import subprocess
import tempfile

from harness.checks import holds, until

# A challenge, and the name of its folder.
CHALLENGE = re.compile(r'ok proof "(/[^"]+/[0-9a-f]{32})"')

FAILED = "error proof"

# The options of a service whose unproved clients submit and look only.
STRICT = ["--trust", "none"]

# A user without a line in passwd(5), and the user who represents unknown users.
NAMELESS, NOBODY = 54_321, 65_534

User = collections.namedtuple("User", "name uid gid")


def remove_users(names):
    """Removes users of the system and their processes, if there are any."""
    for name in names:
        subprocess.run(["pkill", "-KILL", "-u", name], capture_output=True, check=False)
        subprocess.run(["userdel", name], capture_output=True, check=False)


@contextlib.contextmanager
def made_users(*names):
    """Makes these users of the system, each with a group of its own. At the end of the `with` they and their processes are gone."""
    # A killed run may have left some.
    remove_users(names)
    try:
        for name in names:
            run("useradd", "--system", "--user-group", "--no-create-home", name)
        yield
    finally:
        remove_users(names)


class People:
    """Three users, the last in the group of operators, and a folder that each can reach."""

    def __init__(self):
        self.mark = f"{os.getpid()}{random.randrange(1000)}"
        self.group = f"cego{self.mark}"
        self.users = []

    def __enter__(self):
        try:
            run("groupadd", "--system", self.group)
            for letter in "abc":
                name = f"ceg{letter}{self.mark}"
                run("useradd", "--system", "--no-create-home", *(["--groups", self.group] if letter == "c" else []), name)
                uid, gid = (int(field) for field in read("getent", "passwd", name).split(":")[2:4])
                self.users.append(User(name, uid, gid))
            self.gid = int(read("getent", "group", self.group).split(":")[2])
            self.place = tempfile.mkdtemp(prefix="proof-")
            os.chmod(self.place, 0o755)
        except BaseException:
            self.remove()
            raise
        return self

    def __exit__(self, *fault):
        self.remove()

    def remove(self):
        remove_users(user.name for user in self.users)
        subprocess.run(["groupdel", self.group], capture_output=True, check=False)
        if hasattr(self, "place"):
            shutil.rmtree(self.place, ignore_errors=True)

    def at(self, *names):
        return os.path.join(self.place, *names)

    @property
    def proofs(self):
        return self.at("proofs")

    def start(self, folder, *words):
        """Starts the service, and waits until all of its sockets exist."""
        lines = folder.log().count("listening on")
        folder.start(*STRICT, "--proofs", self.proofs, *words)
        until("the sockets", lambda: folder.log().count("listening on") > lines)

    def home(self, user):
        """A folder of a user."""
        path = self.at(f"home-{user.name}")
        if not os.path.isdir(path):
            os.mkdir(path, 0o755)
            os.chown(path, user.uid, user.gid)
        return path

    def is_clean(self):
        return os.listdir(self.proofs) == []


def run(*words):
    subprocess.run(words, check=True, capture_output=True)


def read(*words):
    return subprocess.run(words, check=True, capture_output=True, text=True).stdout


def does(user, *words):
    """Whether a program of a user succeeds."""
    return subprocess.run(words, user=user.uid, group=user.gid, extra_groups=[], capture_output=True, check=False).returncode == 0


def challenge(client):
    reply = client.ask("i-am\n")
    found = CHALLENGE.fullmatch(reply)
    holds(f"i-am: {reply}", found)
    return found[1]


def make(user, path, mode="700"):
    holds(f"mkdir of {user.name}", does(user, "mkdir", "-m", mode, path))


def prove(client, user):
    path = challenge(client)
    make(user, path)
    reply = client.ask("made\n")
    holds("the folder is removed", not os.path.lexists(path))
    return reply
