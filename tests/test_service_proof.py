"""Tests of clients that prove who they are, and of attempts to prove to be somebody else.

They need root: they add three users and a group to the system, and remove them at the end.
"""
import collections
import os
import random
import re
import shutil
import stat
import subprocess
import threading
from pathlib import Path

import pytest

from harness.checks import at_once, holds, LONGEST, same, timed, until
from harness.failover_volume import run
from harness.people import challenge, does, FAILED, make, NAMELESS, NOBODY, prove, STRICT, User
from harness.service import admitted, Client

pytestmark = [pytest.mark.root, pytest.mark.needs("useradd", "setpriv")]


@pytest.fixture
def client(folder, people):
    """A client of a service that offers proofs. Its tests leave no folder of a challenge."""
    people.start(folder)
    yield Client(folder)
    holds("no folder is left", people.is_clean())


# ---- proofs

def test_folders_prove_their_owners(folder, people):
    """The folder of a challenge proves its owner: a user, a member of the group of operators, and root. Nothing is left of it."""
    people.start(folder, "--operators", people.group)
    first, second, third = people.users
    client = Client(folder)
    same("queues", client.ask("queues\n"), "ok 0")
    before = folder.descriptors()
    same("a user", prove(client, first), f"ok user {first.name}")
    same("another one over the same connection", prove(client, second), f"ok user {second.name}")
    same("a member of the group", prove(client, third), f"ok operator {third.name}")
    same("root", prove(client, User("root", 0, 0)), "ok operator root")
    holds("no folder is left", people.is_clean())
    same("no descriptor is left", folder.descriptors(), before)
    mode = os.stat(people.proofs)
    same("the folder of proofs", (stat.S_IMODE(mode.st_mode), mode.st_uid), (0o1733, 0))
    holds("no challenge is logged", not re.search("[0-9a-f]{32}", folder.log()))
    client.does("shutdown")
    same("status", folder.running.wait(LONGEST), 0)
    holds("the folder of proofs is removed", not os.path.exists(people.proofs))


def test_nothing_else_proves_a_user(people, client):
    """A link, a file, a folder with another mode, and a folder that is not empty prove nothing."""
    first, second, _ = people.users
    own = os.path.join(people.home(second), "own")
    make(second, own)
    for link in (own, people.proofs, "/", "."):
        path = challenge(client)
        holds("a link", does(first, "ln", "-sT", link, path))
        same(f"a link to {link}", client.ask("made\n"), FAILED)
        holds("the link is removed", not os.path.lexists(path))
        holds("its target stays", os.path.isdir(own))
    path = challenge(client)
    holds("a file", does(first, "touch", path))
    same("a file", client.ask("made\n"), FAILED)
    for mode in ("777", "755", "701", "710", "600", "500", "1700", "2700", "4700", "0"):
        path = challenge(client)
        make(first, path, mode)
        same(f"mode {mode}", client.ask("made\n"), FAILED)
        holds(f"mode {mode}: the folder is removed", not os.path.lexists(path))
    path = challenge(client)
    make(first, path)
    make(first, os.path.join(path, "inner"))
    same("a folder that is not empty", client.ask("made\n"), FAILED)
    os.rmdir(os.path.join(path, "inner"))
    same("the same later", client.ask("made\n"), FAILED)
    os.rmdir(path)
    same("no folder", (challenge(client) is not None, client.ask("made\n")), (True, FAILED))
    same("then a good one", prove(client, first), f"ok user {first.name}")


def test_folders_of_others_cannot_be_moved_in(folder, people, client):
    """A user cannot move a folder of another user to the name of a challenge, neither from elsewhere nor from the folder of proofs."""
    attacker, victim, _ = people.users
    bad, good = client, Client(folder)
    # A folder of the victim in a folder of the attacker.
    home = people.home(attacker)
    bait = os.path.join(home, "bait")
    os.mkdir(bait, 0o700)
    os.chown(bait, victim.uid, victim.gid)
    path = challenge(bad)
    holds("a folder of another user is not moved in", not does(attacker, "mv", "-T", bait, path))
    same("it proves nothing", bad.ask("made\n"), FAILED)
    # The folder of the victim's own challenge.
    path, wanted = challenge(bad), challenge(good)
    make(victim, wanted)
    holds("a folder of another challenge is not renamed", not does(attacker, "mv", "-T", wanted, path))
    holds("nor removed", not does(attacker, "rmdir", wanted))
    same("it proves nothing", bad.ask("made\n"), FAILED)
    same("it proves its owner", good.ask("made\n"), f"ok user {victim.name}")
    # A user may move a folder of one's own, which proves the user.
    path, own = challenge(bad), os.path.join(home, "own")
    make(attacker, own)
    holds("a folder of one's own is moved in", does(attacker, "mv", "-T", own, path))
    same("it proves its owner", bad.ask("made\n"), f"ok user {attacker.name}")


def test_mounted_folders_prove_nothing(people, client):
    """A file system that is mounted at a challenge may report any owner. It proves nothing, and neither does the folder below it."""
    attacker, victim, _ = people.users
    path = challenge(client)
    make(attacker, path)
    mounted = ["mount", "-t", "tmpfs", "-o", f"mode=700,uid={victim.uid}", "none", path]
    if subprocess.run(mounted, capture_output=True, check=False).returncode:
        pytest.skip("nothing can be mounted")
    try:
        same("the owner", os.stat(path).st_uid, victim.uid)
        same("made", client.ask("made\n"), FAILED)
    finally:
        run("umount", path)
    same("made again", client.ask("made\n"), FAILED)
    os.rmdir(path)
    same("then a good one", prove(client, attacker), f"ok user {attacker.name}")


# ---- challenges

def test_challenges_are_used_once(folder, people, client):
    """A challenge is valid for one `made` of the client that asked for it, until this client asks for another one."""
    user = people.users[0]
    other = Client(folder)
    same("made without a challenge", client.ask("made\n"), FAILED)
    path = challenge(client)
    make(user, path)
    same("made by another client", other.ask("made\n"), FAILED)
    same("made", client.ask("made\n"), f"ok user {user.name}")
    same("made twice", client.ask("made\n"), FAILED)
    make(user, path)
    same("a name that is used twice", client.ask("made\n"), FAILED)
    old, new = challenge(client), challenge(client)
    holds("two challenges differ", old != new)
    make(user, old)
    same("the first of two challenges", client.ask("made\n"), FAILED)
    make(user, new)
    same("the second is used up", client.ask("made\n"), FAILED)
    for left in (path, old, new):
        os.rmdir(left)
    old = challenge(client)
    make(user, old)
    new = challenge(client)
    holds("the folder of the first one is removed", not os.path.lexists(old))
    make(user, new)
    same("the second of two challenges", client.ask("made\n"), f"ok user {user.name}")


def test_names_cannot_be_guessed(folder, people):
    """Names differ, no user can list them, and a folder of another name proves nothing."""
    people.start(folder)
    user = people.users[0]
    clients = [Client(folder) for _ in range(20)]
    names = {challenge(client) for client in clients for _ in range(50)}
    same("challenges", len(names), 1000)
    digits = collections.Counter("".join(os.path.basename(name) for name in names))
    holds(f"the digits are even: {digits}", len(digits) == 16 and max(digits.values()) < 1.25 * min(digits.values()))
    holds("nobody lists them", not does(user, "ls", people.proofs))
    wanted = challenge(clients[0])
    guessed = os.path.join(people.proofs, "%032x" % random.getrandbits(128))
    make(user, guessed)
    same("a guessed name", clients[0].ask("made\n"), FAILED)
    os.rmdir(guessed)
    holds("the wanted name", not os.path.lexists(wanted))
    make(user, wanted)
    same("the wanted name later", clients[0].ask("made\n"), FAILED)
    os.rmdir(wanted)


def test_challenges_end_with_the_service(folder, people):
    """After a restart no earlier challenge is valid, and the folders that clients left are gone."""
    people.start(folder)
    user = people.users[0]
    client = Client(folder)
    old = challenge(client)
    make(user, old)
    make(user, os.path.join(people.proofs, "0" * 32))
    folder.kill()
    people.start(folder)
    holds("the folders of clients are removed", people.is_clean())
    client = Client(folder)
    same("made", client.ask("made\n"), FAILED)
    new = challenge(client)
    holds("the challenge is another one", new != old)
    make(user, old)
    same("the old challenge", client.ask("made\n"), FAILED)
    same("then a good one", prove(client, user), f"ok user {user.name}")


def test_one_name_has_one_owner(folder, people, client):
    """If two users make the folder of one challenge, the first is proved. Two clients can prove to be the same user."""
    first, second, _ = people.users
    other = Client(folder)
    for _ in range(20):
        path = challenge(client)
        made, gate = [], threading.Barrier(2)

        def attempt(user, path=path, made=made, gate=gate):
            gate.wait()
            if does(user, "mkdir", "-m", "700", path):
                made.append(user)

        at_once([lambda user=user: attempt(user) for user in (first, second)])
        same("one user has made it", len(made), 1)
        same("made", client.ask("made\n"), f"ok user {made[0].name}")
    same("a user", prove(client, first), f"ok user {first.name}")
    same("the same user again", prove(other, first), f"ok user {first.name}")


def test_many_prove_themselves_at_once(folder, people):
    """100 clients prove themselves at once, each as one of three users, and nothing is left of it."""
    people.start(folder, "--operators", people.group)
    watcher = Client(folder)
    same("queues", watcher.ask("queues\n"), "ok 0")
    before = folder.descriptors()
    words = ["user", "user", "operator"]

    def one(number):
        user, word = people.users[number % 3], words[number % 3]
        client = admitted(folder)
        make(user, challenge(client))
        same("made", client.ask("made\n"), f"ok {word} {user.name}")
        client.close()

    at_once([lambda number=number: one(number) for number in range(100)])
    holds("no folder is left", people.is_clean())
    until("the descriptors", lambda: watcher.ask("queues\n") == "ok 0" and folder.descriptors() == before)


# ---- users and operators

def test_unknown_users_prove_nothing(people, client):
    """A user without a line in passwd(5), and the user who represents unknown users, prove nothing."""
    for uid in (NAMELESS, NOBODY):
        for _ in range(3):
            same(f"user {uid}", prove(client, User(str(uid), uid, uid)), FAILED)


def test_operators_have_a_socket(folder, people):
    """Clients of the operators' socket need no proof. Its permissions are 0600, or 0660 with the group of operators."""
    first, _, third = people.users
    second = people.at("operators.sock")
    people.start(folder, "--operators-socket", second)
    same("its permissions", (stat.S_IMODE(os.stat(second).st_mode), os.stat(second).st_gid), (0o600, 0))
    same("the clients' socket", Client(folder).ask("disable q\n"), "error denied")
    usual, folder.socket = folder.socket, second
    client = Client(folder)
    folder.queue(client, "q")
    same("a proof over it", prove(client, first), f"ok operator {first.name}")
    folder.shut_down()
    holds("it is removed", not os.path.exists(second))
    folder.socket = usual
    people.start(folder, "--operators-socket", second, "--operators", people.group)
    same("its permissions", (stat.S_IMODE(os.stat(second).st_mode), os.stat(second).st_gid), (0o660, people.gid))
    same("a member of the group", prove(Client(folder), third), f"ok operator {third.name}")
    same("another user", prove(Client(folder), first), f"ok user {first.name}")


def test_the_group_of_the_socket_has_operators(folder, people):
    """Without --operators the members of the group of the socket are operators, if the permissions let the group connect."""
    third = people.users[2]
    program, folder.before = list(folder.before), [*folder.before, "setpriv", "--regid", str(people.gid), "--clear-groups"]
    people.start(folder, "--mode", "0666")
    same("a member of the group", prove(Client(folder), third), f"ok operator {third.name}")
    folder.kill()
    people.start(folder, "--mode", "0606")
    same("a group that cannot connect", prove(Client(folder), third), f"ok user {third.name}")
    folder.kill()
    folder.before = program
    people.start(folder, "--operators", str(people.gid))
    same("a group by its number", prove(Client(folder), third), f"ok operator {third.name}")
    folder.kill()
    people.start(folder, "--operators", f"no{people.mark}")
    same("an unknown group", prove(Client(folder), third), f"ok user {third.name}")
    holds("it is logged", f"unknown group of operators: no{people.mark}" in folder.log())


# Takes the place of getent(1), and notes each run and its environment.
GETENT = """#!/bin/sh
echo run >>PLACE/runs
cat /proc/$$/environ >>PLACE/environ
ANSWER
"""


def test_answers_of_the_system_are_checked(folder, people):
    """An answer that is late, names another user, is too long, or comes with an error, proves nobody. Other clients are served."""
    program = people.at("getent")

    def answer(text):
        Path(program).write_text(GETENT.replace("PLACE", people.place).replace("ANSWER", text))
        os.chmod(program, 0o755)

    def runs():
        with open(people.at("runs"), encoding="utf-8") as file:
            return len(file.readlines())

    answer("sleep 60")
    mount = f'mount --bind {program} {shutil.which("getent")} && exec "$@"'
    within = ["unshare", "--mount", "sh", "-c", mount, "sh"]
    if subprocess.run([*within, "true"], capture_output=True, check=False).returncode:
        pytest.skip("nothing can be mounted")
    folder.before = [*folder.before, *within]
    people.start(folder)
    client, other = Client(folder), Client(folder)
    first, second, third = people.users
    took = timed(lambda: same("a late answer", prove(client, first), FAILED))
    holds(f"it ends after {took:.1f} s", 1.5 < took < 50)
    same("another client", other.ask("queues\n"), "ok 0")
    same("the same again", (prove(other, first), runs()), (FAILED, 1))
    answer("echo root:x:0:0:root:/root:/bin/sh")
    same("the line of another user", prove(client, second), FAILED)
    answer(f"printf 'known:x:{third.uid}:{third.gid}:%070000d:/:/bin/sh\\n' 0")
    same("a line that is too long", prove(client, third), FAILED)
    answer("echo root:x:0:0:root:/root:/bin/sh; exit 1")
    root = User("root", 0, 0)
    same("an answer with an error", (prove(client, root), runs()), (FAILED, 4))
    same("the environment", Path(people.at("environ")).read_bytes(), b"")
    holds("no folder is left", people.is_clean())


# ---- the folder of proofs

def test_folders_of_others_are_not_taken(folder, people):
    """The service starts only if the folder of proofs is its own, and changes no other folder. Without one it offers no proofs."""
    first = people.users[0]
    wrong = people.at("wrong")
    os.mkdir(wrong, 0o700)
    make(User("root", 0, 0), os.path.join(wrong, "kept"))
    foreign = people.at("foreign")
    os.mkdir(foreign, 0o1733)
    os.chmod(foreign, 0o1733)
    os.chown(foreign, first.uid, first.gid)
    os.symlink(wrong, people.at("link"))
    Path(people.at("file")).touch()
    for name in ("wrong", "foreign", "link", "file"):
        path = people.at(name)
        before = os.lstat(path).st_mode
        folder.launch(*STRICT, "--proofs", path)
        same(f"{name}: status", folder.running.wait(LONGEST), 1)
        holds(f"{name}: logged", f"{path} is not a folder of this service\n" in folder.log())
        same(f"{name}: unchanged", os.lstat(path).st_mode, before)
        holds(f"{name}: no socket is left", not os.path.lexists(folder.socket))
    same("its contents", os.listdir(wrong), ["kept"])
    client = folder.open(words=[*STRICT, "--proofs", people.at("absent", "proofs")])
    same("no proofs are offered", (client.ask("i-am\n"), client.ask("made\n")), (FAILED, FAILED))
    holds("it is logged", f"no proofs are offered: cannot make {people.at('absent', 'proofs')}\n" in folder.log())
    folder.kill()
    os.mkdir(people.proofs, 0o755)
    people.start(folder)
    same("an empty folder of the service is taken", prove(Client(folder), first), f"ok user {first.name}")
