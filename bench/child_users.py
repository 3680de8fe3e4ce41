#!/usr/bin/env python3
"""Measures what a user of its own costs a child: child_users.py [--service PROGRAM] [JOBS], child_users.py --programs [ROUNDS]

It prints JOBS jobs (default: 400) on one queue of two services, in turns of 20: one runs its children as itself, the other as four users
(`--children-user`). The backend is /bin/true. The script prints the milliseconds per job of both, and the median of the differences of
neighbouring turns. Only root can run it. It makes the users `cegmandi-b1` to `cegmandi-b4`, and removes them at the end.

With `--programs` it needs no service. It runs the script of crates/spool_runtime/src/script.rt alone, with and without a user, ROUNDS times
(default: 200), next to a C program that makes the same system calls and to the programs that the script needs (child_users.c). It prints
the milliseconds of processor time that each adds to a child without a user, and the parts of what the user costs. The programs are compared
with the shortest script without a user, and so is the cheapest form of them that is known.
"""
import ast
import contextlib
import os
import shutil
import statistics
import subprocess
import sys
import tempfile
import time
from pathlib import Path

from harness.files import write
from harness.people import made_users
from harness.programs import compiled, CRATES, SERVICE
from harness.service import Folder
from service import RunningService

USERS = [f"cegmandi-b{number}" for number in range(1, 5)]
TURN = 20


def turn(client):
    """The milliseconds per job of a turn."""
    client.ask("disable q0\n")
    jobs = [client.submit("q0") for _ in range(TURN)]
    began = time.perf_counter()
    client.ask("enable q0\n")
    client.listing(f"wait {jobs[-1]}\n")
    return (time.perf_counter() - began) * 1000 / TURN


def script():
    """The text of the script, from its source."""
    source = Path(CRATES, "spool_runtime", "src", "script.rt").read_text()
    lines = source.split("const SCRIPT: &str = concat!(\n")[1].split("\n);\n")[0].splitlines()
    return "".join(ast.literal_eval(line.strip().rstrip(",")) for line in lines)


def programs(rounds):
    user = USERS[0]
    with made_users(user), tempfile.TemporaryDirectory() as room:
        os.chmod(room, 0o711)
        text, place = write(os.path.join(room, "script"), script()), os.path.join(room, "place")
        os.mkdir(place, 0o700)
        shutil.chown(place, user, user)
        words = [compiled("child_users.c", "-O2"), str(rounds), text, place, str(os.stat(place).st_uid), user, "/bin/true"]
        ran = subprocess.run(words, stdout=subprocess.PIPE, check=True, text=True)
    plain, whole, calls, needed, least, bare = (float(word) for word in ran.stdout.split())
    more, calls, needed, least = whole - plain, calls - plain, needed - bare, least - bare
    print(f"without a user {plain:.2f} ms; the user adds {more:.2f} ms, the system calls alone {calls:.2f} ms, the programs alone {needed:.2f} ms")
    print(f"the programs in their cheapest form: {least:.2f} ms")
    print(f"parts of what the user costs: system calls {calls / more:.2f}, programs {needed / more:.2f}")


def main(program, jobs):
    with made_users(*USERS), contextlib.ExitStack() as ends:
        Folder.service, both = program, []
        for words in ([], ["--children-user", ",".join(USERS)]):
            made = RunningService(1, "x", "/bin/true", words=words)
            os.chmod(made.folder.path, 0o711)
            both.append(ends.enter_context(made).client)
        times = [[turn(client) for client in both] for _ in range(max(2, jobs // TURN))][1:]
        plain, users = [statistics.median(column) for column in zip(*times)]
        more = statistics.median(after - before for before, after in times)
        print(f"as the service {plain:.2f} ms per job, as users {users:.2f} ms, difference {more:.2f} ms")


if __name__ == "__main__":
    arguments = sys.argv[1:]
    if arguments[:1] == ["--programs"]:
        programs(int(arguments[1]) if arguments[1:] else 200)
        sys.exit()
    chosen = SERVICE
    if arguments[:1] == ["--service"]:
        chosen, arguments = arguments[1], arguments[2:]
    main(chosen, int(arguments[0]) if arguments else 400)
