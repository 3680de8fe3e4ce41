"""How the front end proves its user, and explains denials.

In all tests but the last one the service is simulated: it offers proofs, declines them, is an older one, denies commands or disappears, and
examines the folder at the moment of `made`. No folder is left, whatever happens.
"""
import json
import os
import secrets
import stat
import subprocess

import pytest

from harness.checks import holds, LONGEST, same
from harness.front import each_refused, Front
from harness.printers import Serving
from harness.service import listening, TYPE

pytestmark = pytest.mark.needs("spool_service", "spool_front")

ME = os.getuid()
OLDER = "error syntax\n"
WHERE = "see spool_service(8), Roles)"


class Service(Serving):
    """A simulated service. `replies` has a reply for each prefix of a command; one that is a list has a reply for each time.

    `proof` is the reply to `i-am`: a text, None to close the connection, or True for the path of a new name in the folder `proof`. `made` is
    the reply to `made`: it is given once the command after it has come, so a client that waits for it in between gets none. The same holds for
    `send` and the close that is sent with it.
    """

    def __init__(self, folder, replies, proof=True, made="ok user ann\n", takes=True, path=None):
        super().__init__(listening(folder.socket))
        self.proof, self.made, self.takes, self.path = proof, made, takes, path
        self.replies = {word: list(reply) if isinstance(reply, list) else reply for word, reply in replies.items()}
        self.heard, self.seen, self.faults, self.trips = [], [], [], 0
        self.parent = folder.at("proof")
        if not os.path.isdir(self.parent):
            os.mkdir(self.parent)
            os.chmod(self.parent, 0o1733)
        os.chmod(folder.socket, 0o666)

    def serve(self, line):
        line.settimeout(LONGEST)
        try:
            with line, line.makefile("rb") as stream:
                while self.serve_one(line, stream):
                    pass
        except (BrokenPipeError, ConnectionResetError):
            # The client has ended.
            pass
        except OSError as fault:
            self.faults.append(repr(fault))

    def next(self, stream):
        said = stream.readline().decode()
        if said:
            self.heard.append(said.strip("\n"))
        if said.startswith("send"):
            stream.read(int(said.split()[2]) + 1)
        return said

    def serve_one(self, line, stream):
        """Serves one command, and returns whether the connection stays open."""
        said = self.next(stream)
        if not said:
            return False
        self.trips += 1
        if said == "made\n":
            self.look()
            command = self.next(stream)
            if self.made is None:
                return False
            line.sendall(self.made.encode())
            return self.answer(line, command)
        if said.startswith("send"):
            close = self.next(stream)
            return self.answer(line, said) and self.answer(line, close)
        return self.answer(line, said)

    def answer(self, line, said):
        reply = self.offer() if said == "i-am\n" else self.reply_to(said)
        if reply is None:
            return False
        line.sendall(reply.encode())
        return not reply.startswith("error busy")

    def offer(self):
        if self.proof is not True:
            return self.proof
        self.path = os.path.join(self.parent, secrets.token_hex(16))
        return f'ok proof "{self.path}"\n'

    def reply_to(self, said):
        for word, reply in self.replies.items():
            if said.startswith(word):
                if isinstance(reply, list):
                    reply = reply.pop(0) if reply else OLDER
                return reply
        return OLDER

    def look(self):
        """Examines the folder without following a link, and removes it if the proof is taken."""
        try:
            about = os.lstat(self.path)
        except (OSError, TypeError):
            self.seen.append(None)
            return
        self.seen.append((stat.S_ISDIR(about.st_mode), oct(stat.S_IMODE(about.st_mode)), about.st_uid))
        if self.takes:
            os.rmdir(self.path)

    def __exit__(self, *fault):
        super().__exit__()
        same("faults of the service", self.faults, [])
        same("folders that are left", os.listdir(self.parent), [])


def served(folder, words, replies, output=None, status=0, patience=2, text=b"", mask=-1, **more):
    """A simulated service that has ended, once it has served a command that ends with `status`, and prints this output."""
    with Service(folder, replies, **more) as service:
        ended = Front(folder, patience).run(*words.split(), text=text, umask=mask)
    service.output = (ended.stdout + ended.stderr).decode()
    same(f"status of {words}, with the output {service.output!r}", ended.returncode, status)
    if output is not None:
        same(f"output of {words}", service.output, output)
    return service


# ---- the proof

# The folder at `made`.
OWN = (True, "0o700", ME)


def test_proves_who_it_is(folder):
    service = served(folder, "spool cancel 7", {"stop 7": "ok\n"}, "")
    same("said", service.heard, ["i-am", "made", "stop 7"])
    same("the folder at `made`", service.seen, [OWN])
    # The service has got the command before it answers `made`.
    same("round trips", service.trips, 2)


@pytest.mark.parametrize("mask", [0o000, 0o022, 0o077, 0o777], ids=oct)
def test_proves_with_any_mask(folder, mask):
    same("the folder at `made`", served(folder, "spool cancel 7", {"stop 7": "ok\n"}, mask=mask).seen, [OWN])


def test_proves_once_a_connection(folder):
    service = served(folder, "spool cancel 7 8 9", {"stop 7": "ok\n", "stop 8": None, "stop 9": "ok\n"}, status=3)
    same("said", service.heard, ["i-am", "made", "stop 7", "stop 8", "i-am", "made", "stop 9"])


ACTS = ["cancel 7", "lprm 7", "spool hold 7", "spool release 7", "spool end 7", "spool purge 7", "spool queue enable q", "spool queue add q slow:/0"]


@pytest.mark.parametrize("words", [*ACTS, "spool status", "lpstat -o"])
def test_proves_by_each_name(folder, words):
    replies = {word: "ok\n" for word in ("stop", "hold", "release", "end", "purge", "enable", "queue")}
    service = served(folder, words, {**replies, "jobs": "ok 0\n", "list": OLDER, "printers": "ok 0\n"})
    same("said", service.heard[:2], ["i-am", "made"])
    same("one command", words not in ACTS or len(service.heard) == 3, True)


def test_proves_to_show_queues(folder):
    """Queues that are shown are listed with a proof, since only operators see their messages. A queue is looked up without one."""
    same("said", served(folder, "spool queues", {"printers": "ok 0\n"}).heard, ["i-am", "made", "printers"])
    service = served(folder, "spool queues", {"printers": OLDER, "queues": "ok 0\n"})
    same("said to an older service", service.heard, ["i-am", "made", "printers", "queues"])
    same("said to find the only queue", served(folder, "lp", {"printers": "ok 0\n"}, status=1, text=b"a letter").heard, ["printers"])


# ---- services that take no proof


@pytest.mark.parametrize("reply", [OLDER, "error proof\n", "error memory\n", "error denied\n", "ok\n", "ok proof\n", "ok 3\n"])
def test_goes_on_if_no_proofs_are_offered(folder, reply):
    service = served(folder, "spool hold 7", {"hold 7": "ok\n"}, "", proof=reply)
    same("said", service.heard, ["i-am", "hold 7 indefinite"])


@pytest.mark.parametrize("reply", ["error proof\n", "error syntax\n", "ok\n", "ok user\n", "ok user \x07\n", "ok owner ann\n"])
def test_goes_on_if_the_proof_is_not_taken(folder, reply):
    service = served(folder, "spool hold 7", {"hold 7": "ok\n"}, "", made=reply, takes=False)
    same("the folder at `made`", service.seen, [OWN])


def test_goes_on_to_a_busy_service(folder):
    text = "spool: cannot cancel job 7: the service is busy (try again)\n"
    same("said", served(folder, "spool cancel 7", {}, text, 1, proof="error busy\n").heard, ["i-am"])


# ---- nothing is left


def test_leaves_nothing_if_the_service_disappears(folder):
    service = served(folder, "spool cancel 7", {}, status=3, patience=1, made=None, takes=False)
    same("the folder at `made`", service.seen, [OWN])
    # The proof is taken, and the reply to the command is lost.
    served(folder, "spool cancel 7", {"stop": None}, status=3, patience=1)


@pytest.mark.needs("gcc", "plain spool_front")
@pytest.mark.parametrize("takes, made", [(True, "ok user ann\n"), (False, "error proof\n")])
def test_leaves_nothing_without_memory(folder, takes, made):
    """Each allocation is refused in turn, with a service that takes the proof and one that does not."""
    front = Front(folder, 2)
    for refused, environment in each_refused(folder):
        with Service(folder, {"stop 7": "ok\n"}, takes=takes, made=made):
            ended = front.run("spool", "cancel", "7", environment=environment)
        holds(f"allocation {refused}, status {ended.returncode}: {ended.stderr!r}", ended.returncode in (0, 1))
        holds(f"allocation {refused}: {ended.stderr!r}", ended.returncode == 0 or b"memory" in ended.stderr)
    same("status with all of it", ended.returncode, 0)
    print(f"  {refused - 1} allocations")


# ---- hostile services


def test_refuses_paths(folder):
    parent = folder.at("elsewhere")
    os.mkdir(parent)
    name = secrets.token_hex(16)
    paths = [
        f"{parent}/file", f"{parent}/{name}/", f"{parent}/{name}0", f"{parent}/{name[1:]}", f"{parent}/{name[1:]}g", f"{parent}/x{name}",
        f"{parent}/../elsewhere/{name}", f"{parent}/..", f"../{name}", f"./{name}", name, "", f"{parent}/missing/{name}", f"{parent}/a\0b/{name}",
    ]
    offers = [f'ok proof "{path}"\n' for path in paths]
    offers += [f"ok proof {parent}/{name}\n", f'ok proof "{parent}/{name}\n', f'ok proof "{parent}/{name}" more\n', f'ok proof"{parent}/{name}"\n']
    offers += [f'ok "{parent}/{name}"\n', f'proof "{parent}/{name}"\nok\n', f'error proof "{parent}/{name}"\n']
    for offer in offers:
        service = served(folder, "spool hold 7", {"hold 7": "ok\n"}, "", proof=offer)
        same(f"said after {offer!r}", service.heard, ["i-am", "hold 7 indefinite"])
        same(f"made after {offer!r}", os.listdir(parent), [])
    holds("nothing is made in the working folder", not os.path.exists(name))
    # Quotes and backslashes in a path are read as in the other replies.
    odd = folder.at('a "b" \\c')
    os.mkdir(odd)
    quoted = f"{odd}/{name}".replace("\\", "\\\\").replace('"', '\\"')
    service = served(folder, "spool hold 7", {"hold 7": "ok\n"}, proof=f'ok proof "{quoted}"\n', path=f"{odd}/{name}")
    same("the folder at `made`", service.seen, [OWN])


@pytest.mark.parametrize("kind", ["folder", "file", "link", "dangling"])
def test_refuses_what_is_there(folder, kind):
    """A folder, a file or a link of the name is not used and stays."""
    path = folder.at(secrets.token_hex(16))
    os.mkdir(folder.at("target"))
    if kind == "folder":
        os.mkdir(path, 0o700)
    elif kind == "file":
        open(path, "w").close()
    else:
        os.symlink(folder.at("target") if kind == "link" else folder.at("nowhere"), path)
    service = served(folder, "spool hold 7", {"hold 7": "ok\n"}, proof=f'ok proof "{path}"\n')
    same("said", service.heard, ["i-am", "hold 7 indefinite"])
    holds("it stays", os.path.lexists(path))
    holds("nothing is made at the link's end", not os.path.exists(folder.at("nowhere")))


@pytest.mark.root
def test_refuses_the_folder_of_another_owner(folder):
    """A folder of another user may be that of another service, which would take this service for the client."""
    other = folder.at("other")
    os.mkdir(other)
    os.chmod(other, 0o1733)
    os.chown(other, 65534, 65534)
    service = served(folder, "spool hold 7", {"hold 7": "ok\n"}, proof=f'ok proof "{other}/{secrets.token_hex(16)}"\n')
    same("said", service.heard, ["i-am", "hold 7 indefinite"])
    same("made", os.listdir(other), [])


# ---- denied commands

NO_JOB = "no such job (spool status lists the jobs)"
NOT_YOURS = f"it is not yours (ask an operator, or {WHERE}"
OPERATORS = f"only operators may change queues ({WHERE}"


# A command, and the act that is denied.
DENIED = {
    "spool cancel 17": f"cancel job 17: {NOT_YOURS}",
    "spool hold 17": f"hold job 17: {NOT_YOURS}",
    "spool release 17": f"release job 17: {NOT_YOURS}",
    "spool end 17": f"end job 17: {NOT_YOURS}",
    "cancel 17": f"cancel job 17: {NOT_YOURS}",
    "lprm 17": f"cancel job 17: {NOT_YOURS}",
    "spool cancel --keep-printing 17": f"cancel job 17: {NOT_YOURS}",
    "spool purge 17": f"purge job 17: only operators may purge jobs ({WHERE}",
    "spool queue enable q": f"enable queue q: {OPERATORS}",
    "spool queue disable q": f"disable queue q: {OPERATORS}",
    "spool queue accept q": f"accept queue q: {OPERATORS}",
    "spool queue reject q": f"reject queue q: {OPERATORS}",
    "spool queue set q --info x": f"set queue q: {OPERATORS}",
    "spool queue add q slow:/0": f"add queue q: {OPERATORS}",
}


@pytest.mark.parametrize("words, text", DENIED.items(), ids=DENIED)
def test_explains_denials(folder, words, text):
    acts = ("stop 17", "cancel 17", "hold 17", "release 17", "end 17", "purge 17", "enable", "disable", "accept", "reject", "info", "queue")
    served(folder, words, dict.fromkeys(acts, "error denied\n"), f"spool: cannot {text}\n", 1)


@pytest.mark.parametrize("more, text", [({"proof": "error proof\n"}, "does not know who you are"), ({"made": "ok operator root\n"}, "denies it")])
def test_explains_to_unproved_clients(folder, more, text):
    served(folder, "spool cancel 17", {"stop 17": "error denied\n"}, f"spool: cannot cancel job 17: the service {text} ({WHERE}\n", 1, **more)


def test_explains_and_goes_on(folder):
    """A denied job does not keep the others from it."""
    replies = {"stop 1": "ok\n", "stop 2": "error denied\n", "stop 3": "error 5 NoJob\n", "stop 4": "ok\n"}
    text = f"spool: cannot cancel job 2: {NOT_YOURS}\nspool: cannot cancel job 3: {NO_JOB}\n"
    same("said", served(folder, "spool cancel 1 2 3 4", replies, text, 1).heard, ["i-am", "made", "stop 1", "stop 2", "stop 3", "stop 4"])


# ---- the user of a job

CLOSED = {"send 5": "ok bytes 3\n", "closeat 5 3 ": "ok type a/b stages 1\n"}


def submitted(folder, replies, words="", output=None, source=None, **more):
    """The service, once it has served the submission of a file of three bytes, or of standard input."""
    folder.write("doc", "abc")
    return served(folder, f"spool submit q {source or folder.at('doc')} {words}", {**CLOSED, **replies}, output, **more)


def creates(service):
    return [line.split('"')[3] for line in service.heard if line.startswith("create ")]


def test_owns_by_its_proved_name(folder):
    service = submitted(folder, {'create "q" "ann"': "ok job 5\n"}, output="request id is q-5 (1 file(s))\n")
    same("users", creates(service), ["ann"])
    # The proof with `room`, `create`, and `send` with the close.
    same("round trips", service.trips, 4)
    # The environment names another user: the service's name is used. It comes with the reply to `room`, or to `create` if the length of the
    # document is not known.
    replies = {'create "q" "bob"': "ok job 5\n", 'create "q" ': "error denied\n"}
    same("users", creates(submitted(folder, replies, made="ok user bob\n")), ["bob"])
    same("users", creates(submitted(folder, replies, source="-", text=b"abc", made="ok user bob\n")), ["ann", "bob"])
    submitted(folder, {'create "q" "b o\\"b"': "ok job 5\n", 'create "q" ': "error denied\n"}, made='ok user b o"b\n')


@pytest.mark.parametrize("more", [{"proof": OLDER}, {"proof": "error proof\n"}, {"made": "error proof\n"}, {"made": "ok operator root\n"}], ids=str)
def test_owns_as_before_if_not_proved(folder, more):
    same("users", creates(submitted(folder, {'create "q" "ann"': "ok job 5\n"}, **more)), ["ann"])


def test_owns_as_another_user(folder):
    text = f"spool: cannot print on q: only operators may name another user ({WHERE}\n"
    service = submitted(folder, {'create "q" "bob"': "error denied\n"}, "--user bob", text, status=1)
    same("users", creates(service), ["bob"])
    service = submitted(folder, {'create "q" "bob"': "ok job 5\n"}, "--user bob", made="ok operator root\n")
    same("users", creates(service), ["bob"])


def test_owns_nothing_that_is_denied_later(folder):
    text = f"spool: cannot print on q: the service denies the document ({WHERE}; job 5 is not printed\n"
    submitted(folder, {"create": "ok job 5\n", "send 5": "error denied\n", "closeat 5 3 ": "error size\n", "cancel 5": "error denied\n"}, output=text, status=1)


# ---- commands that an older service does not know


def test_asks_to_stop(folder):
    service = served(folder, "spool cancel 7", {"cancel 7": "ok\n", "end 7": "ok\n"})
    same("said", service.heard, ["i-am", "made", "stop 7", "cancel 7", "end 7"])
    # No child runs: the job is canceled all the same.
    served(folder, "spool cancel 7", {"cancel 7": "ok\n", "end 7": "error job\n"})
    # The job is not canceled: nothing is terminated.
    service = served(folder, "spool cancel 7", {"cancel 7": "error 5 NoJob\n"}, f"spool: cannot cancel job 7: {NO_JOB}\n", 1)
    same("said", service.heard, ["i-am", "made", "stop 7", "cancel 7"])
    same("said", served(folder, "spool cancel --keep-printing 7", {"cancel 7": "ok\n"}).heard, ["i-am", "made", "cancel 7"])


def test_asks_for_a_type(folder):
    service = submitted(folder, {"create": "ok job 5\n"}, "--type text/plain")
    same("close", service.heard[-1], 'closeat 5 3 "doc" "text/plain"')
    text = "spool: cannot print on q: the service does not take the media type; job 5 was canceled\n"
    service = submitted(folder, {"create": "ok job 5\n", "closeat 5 3 ": OLDER, "close 5": OLDER, "cancel 5": "ok\n"}, "--type text/plain", text, status=1)
    same("close", service.heard[-2], 'close 5 "doc" "text/plain"')


def shown(token=""):
    return (
        f'job 5\nqueue q\nuser ""\ntitle ""\noptions "{token}"\ncopies 1\npriority 50\nsize 0\npages 0\nattempts 0\n'
        "state 4\nreason job-incoming\nok 1\n"
    )


def test_asks_for_its_job(folder):
    """After a lost reply the job is found by its token, also if its fields are not shown."""
    replies = {"create": [None, "ok job 6\n"], "find ": "ok job 5\n", "job 5": shown()}
    service = submitted(folder, replies, output="request id is q-5 (1 file(s))\n", proof="error proof\n")
    created = next(line for line in service.heard if line.startswith("create "))
    token = created.split("submission=")[1].split('"')[0]
    said = [line for line in service.heard if line != "room"]
    same("said", said[2:5], ["i-am", f"find {token}", "job 5"])
    # There is none, or the service does not know `find`: the job is created again.
    for more in ({"find ": "error job\n"}, {"jobs": "ok 0\n"}):
        service = submitted(folder, {"create": [None, "ok job 5\n"], **more}, proof="error proof\n")
        same("jobs created", len(creates(service)), 2)


# ---- a running service

# The users of the tests: of the system, but not of the service.
DAEMON, BIN = 1, 2


def as_user(front, user, *words):
    """The status and the output of the program, run by this user."""

    def become():
        os.setgroups([])
        os.setgid(user)
        os.setuid(user)

    ended = subprocess.run(front.command(words), env=front.environment, capture_output=True, preexec_fn=become, cwd="/", timeout=LONGEST)
    return ended.returncode, (ended.stdout + ended.stderr).decode()


@pytest.mark.root
def test_real_users(folder):
    """Each user may act on the jobs of this user only, and root on all."""
    for path in (folder.path, folder.at("spool")):
        os.chmod(path, 0o755)
    folder.words = ["--trust", "none", "--mode", "0666"]
    folder.start()
    front = Front(folder)
    front.says("spool", "queue", "add", "q", "slow:/0", "--media", TYPE)
    front.says("spool", "queue", "disable", "q")
    folder.write("doc", "abc")
    # The environment names another user.
    same("daemon prints", as_user(front, DAEMON, "lp", "-d", "q", folder.at("doc")), (0, "request id is q-1 (1 file(s))\n"))
    same("bin prints", as_user(front, BIN, "lp", "-d", "q", folder.at("doc")), (0, "request id is q-2 (1 file(s))\n"))
    users = [row["user"] for row in json.loads(front.says("spool", "status", "--json"))]
    same("users", users, ["daemon", "bin"])
    same("what bin sees", [row["user"] for row in json.loads(as_user(front, BIN, "spool", "status", "--json")[1])], ["", "bin"])
    same("bin cancels", as_user(front, BIN, "spool", "cancel", "1", "2"), (1, f"spool: cannot cancel job 1: {NOT_YOURS}\n"))
    same("states", [row["state"] for row in json.loads(front.says("spool", "status", "--json"))], ["pending", "canceled"])
    same("bin starts q", as_user(front, BIN, "spool", "queue", "enable", "q"), (1, f"spool: cannot enable queue q: only operators may change queues ({WHERE}\n"))
    denied = f"spool: cannot print on q: only operators may name another user ({WHERE}\n"
    same("bin prints for root", as_user(front, BIN, "spool", "submit", "q", folder.at("doc"), "--user", "root"), (1, denied))
    holds("the URI is for operators", "uri" not in as_user(front, BIN, "spool", "queue", "show", "q")[1])
    holds("root sees the URI", "slow:/0" in front.says("spool", "queue", "show", "q"))
    front.says("spool", "submit", "q", folder.at("doc"), "--user", "carol", "--type", TYPE)
    front.says("spool", "cancel", "1")
    jobs = [(row["user"], row["state"]) for row in json.loads(front.says("spool", "status", "--json"))]
    same("jobs", jobs, [("daemon", "canceled"), ("bin", "canceled"), ("carol", "pending")])
    holds("times", "created  " in front.says("spool", "status", "3"))
    same("folders that are left", os.listdir(folder.at("spool", "proof")), [])
