"""Command lines of scripts that were written for CUPS.

front_cups.table has the command lines, about 290 of them. Each begins with a line `$ COMMAND`, and these lines follow:

| Line | Meaning |
|---|---|
| `@` | CUPS must listen on its port, and encrypt |
| `= STATUS` | the exit status in CUPS |
| `> TEXT` | a line of standard output in CUPS, with blanks squeezed; `*` matches any text and N any number |
| `~ STATUS REASON` | the exit status is another one here, or the output, and why |
| `+ TEXT` | a line of standard output here, if it differs; `+` alone: there is none |

A command that fails must print a line on standard error, and none on standard output. The programs of CUPS run the lines too, with a service
of their own, which compares the table with CUPS.
"""
import os
import re
import shutil
import subprocess
from pathlib import Path

import pytest

from harness.checks import LONGEST, same
from harness.cups import Cups
from harness.front import Front
from harness.programs import TESTS
from harness.service import Folder

TABLE = os.path.join(TESTS, "front_cups.table")


class Row:
    """A command line, with what CUPS does and what is expected here."""

    def __init__(self, command):
        self.command = command
        self.needs_port = False
        self.status = self.own_status = 0
        self.lines, self.own_lines = [], None

    def take(self, line):
        kind, text = line[0], line[2:]
        if kind == "@":
            self.needs_port = True
        elif kind == "=":
            self.status = self.own_status = int(text)
        elif kind == ">":
            self.lines.append(text)
        elif kind == "~":
            self.own_status = int(text.split()[0])
        elif kind == "+":
            self.own_lines = [*(self.own_lines or []), *([text] if text else [])]
        else:
            raise ValueError(f"{TABLE}: {line}")


def rows():
    found = []
    with open(TABLE, encoding="utf-8") as table:
        for line in table.read().splitlines():
            if line.startswith("$ "):
                found.append(Row(line[2:]))
            elif line and not line.startswith("#"):
                found[-1].take(line)
    return found


def squeezed(text):
    return [" ".join(line.split()) for line in text.splitlines()]


def fits(pattern, line, values):
    for name, value in values.items():
        pattern = pattern.replace("{" + name + "}", value)
    words = re.escape(" ".join(pattern.split())).replace(r"\*", ".*")
    return re.fullmatch(re.sub(r"\bN\b", "[0-9]+", words), line) is not None


class System:
    """The programs of one system, with their service and a folder for documents."""

    def __init__(self, path):
        self.path = path
        os.makedirs(os.path.join(path, "dir"))
        for name, text in (("doc", "hello\n"), ("doc2", "two\n"), ("empty.txt", "")):
            Path(path, name).write_text(text)

    def run(self, command):
        return subprocess.run(
            ["/bin/sh", "-c", command], cwd=self.path, env=self.environment, stdin=subprocess.DEVNULL, capture_output=True, text=True, timeout=LONGEST
        )

    def outcome(self, row, status, lines):
        """Why the outcome differs from the table, or None."""
        values = {"job": self.reset(), "user": self.user, "socket": self.socket}
        command = row.command.replace("{none} ", self.nobody + " ")
        for name, value in values.items():
            command = command.replace("{" + name + "}", value)
        ended = self.run(command)
        told = f"status {ended.returncode}, output {ended.stdout!r}, errors {ended.stderr!r}"
        if ended.returncode != status:
            return f"not status {status}: {told}"
        if status:
            return None if self.is_usual(ended) else f"a failure without its line: {told}"
        output = squeezed(ended.stdout)
        if lines == ["*"]:
            return None if output else f"no output: {told}"
        if len(output) != len(lines) or not all(fits(pattern, line, values) for pattern, line in zip(lines, output)):
            return f"not {lines}: {told}"
        return None


class Own(System):
    """The front end and its service."""

    user = "ann"

    def __init__(self, folder):
        super().__init__(folder.at("documents"))
        client = folder.open()
        for name in ("office", "lab"):
            folder.queue(client, name)
        self.client, self.socket = client, folder.socket
        front = Front(folder, 5)
        self.nobody = f"SPOOL_SOCKET={folder.at('none')} SPOOL_PATIENCE=0"
        self.environment = {**front.environment, "PATH": f"{front.bin}:/usr/bin:/bin", "HOME": self.path}

    def reset(self):
        default = os.path.join(self.path, ".cegmandi-default")
        if os.path.exists(default):
            os.remove(default)
        for job, state in self.client.states().items():
            if state.split()[0] in "345":
                self.client.ask(f"cancel {job}\n")
            self.client.ask(f"purge {job}\n")
        for name in ("office", "lab"):
            self.client.ask(f"disable {name}\n")
            self.client.ask(f"accept {name}\n")
        return self.run("lp -d lab doc").stdout.split()[3].rpartition("-")[2]

    @staticmethod
    def is_usual(ended):
        """A failure is explained on standard error: in one line, or in one that begins with `error:` and the usage."""
        lines = ended.stderr.splitlines()
        return bool(lines) and (len(lines) == 1 or any(line.startswith("error: ") for line in lines) or "spool: " in lines[0])


class Theirs(System):
    """CUPS."""

    user = "root"

    def __init__(self, server):
        super().__init__(os.path.join(server.folder, "documents"))
        self.socket, self.nobody = server.socket, f"CUPS_SERVER={os.path.join(server.folder, 'none')}"
        self.environment = {"CUPS_SERVER": self.socket, "HOME": self.path, "LC_ALL": "C", "PATH": "/usr/bin:/usr/sbin:/bin:/sbin"}
        for name in ("office", "lab"):
            server.queue(name, "file:/dev/null")

    def reset(self):
        shutil.rmtree(os.path.join(self.path, ".cups"), ignore_errors=True)
        self.run("cancel -a -x; cupsdisable office; cupsdisable lab; cupsaccept office; cupsaccept lab; rm -f ../etc/lpoptions")
        return self.run("lp -d lab doc").stdout.split()[3].rpartition("-")[2]

    @staticmethod
    def is_usual(_ended):
        return True


ROWS = rows()


def names_of(row):
    return re.sub(r"[^ -~]|::", "?", row.command)


@pytest.fixture(scope="module")
def own():
    folder = Folder()
    yield Own(folder)
    folder.end()
    folder.remove()


@pytest.fixture(scope="module")
def cups():
    with Cups() as server:
        yield Theirs(server)


@pytest.mark.xdist_group("front_cups")
@pytest.mark.needs("spool_service", "spool_front")
@pytest.mark.parametrize("row", ROWS, ids=names_of)
def test_here(row, own):
    lines = row.lines if row.own_lines is None and row.status == 0 else row.own_lines or []
    same(row.command, own.outcome(row, row.own_status, lines), None)


@pytest.mark.xdist_group("cups")
@pytest.mark.root
@pytest.mark.cups
@pytest.mark.needs("lpstat", "lpr")
@pytest.mark.parametrize("row", [row for row in ROWS if not row.needs_port], ids=names_of)
def test_in_cups(row, cups):
    """The table itself."""
    same(row.command, cups.outcome(row, row.status, row.lines), None)
