"""No text of a user or a printer steers a terminal.

Titles, users, options and descriptions of queues, the lines of a service, and the standard error of backends contain ESC, C1 control
characters, such as U+009B, and U+202E, which reverses the text after it. The tests examine what the commands print, the page and the log.

| Test | Tests |
|---|---|
| prints_* | tables, the fields of a job and a queue, the forms of CUPS, `watch`, errors |
| writes_* | JSON, which has the exact texts as escapes, and the page |
| logs_* | the standard error of children |
"""
import itertools
import json
import re
import sys
import unicodedata

import pytest

from harness.checks import holds, same, until
from harness.files import read
from harness.front import first_line, Front
from harness.printers import Printer

pytestmark = pytest.mark.needs("spool_service", "spool_front")

# The title, the user, the options and the description of a hostile client. A title may not contain ESC.
TITLE = "\u009b31mred\u0085two\u009d2;name\u009c \u202egnp.exe\u2066x\u200b\u00ad\ufeff\U000e0041."
USER = "a\u202enn\u009b2J"
OPTIONS = "media=\u009b2J\u202ea4"
INFO = "\u009b2J\u202eroom"
CLEAN_TITLE = "\ufffd31mred\ufffdtwo\ufffd2;name\ufffd \ufffdgnp.exe\ufffdx\ufffd\ufffd\ufffd\ufffd."
CLEAN_USER = "a\ufffdnn\ufffd2J"

# Marks that precede a number are visible, and the two joiners only choose the shape of their neighbors.
VISIBLE = {*range(0x600, 0x606), 0x6DD, 0x70F, 0x890, 0x891, 0x8E2, 0x110BD, 0x110CD, *range(0x13430, 0x13460), 0x200C, 0x200D}


def steers(c):
    """Whether a character steers, by the database of Python."""
    return unicodedata.category(c) in ("Cc", "Cf", "Zl", "Zp") and ord(c) not in VISIBLE


def is_clean(what, text):
    found = [c for c in text if c not in "\n\t" and steers(c)]
    holds(f"{what}: {found!r} in {text!r}", not found)


def office(folder):
    """A service with a job of a hostile client: the front of another, and that client."""
    client = folder.open("q")
    same("disable", client.ask("disable q\n"), "ok")
    same("info", client.ask(f'info q "{INFO}" "{INFO}"\n'), "ok")
    reply = client.ask(f'create q "{USER}" "{TITLE}" 1 50 "{OPTIONS}"\n')
    same("create", reply, "ok job 1")
    front = Front(folder)
    front.client = client
    return front


# ---- terminals


def test_prints_tables(folder):
    front = office(folder)
    text = front.says("spool", "status", environment={"COLUMNS": "200"})
    is_clean("status", text)
    holds(f"the title and the user are shown: {text!r}", CLEAN_TITLE in text and CLEAN_USER in text)
    heads, row = text.splitlines()
    same("the title is below its name", row.index(CLEAN_TITLE), heads.index("TITLE"))
    for width in (40, 60, 80):
        is_clean("status", front.on_terminal("spool", "status", columns=width)[0].replace("\r\n", "\n"))
    is_clean("queues", front.says("spool", "queues"))


def test_prints_fields(folder):
    front = office(folder)
    text = front.says("spool", "status", "1", environment={"COLUMNS": "200"})
    is_clean("a job", text)
    for line in (f"title       {CLEAN_TITLE}", f"user        {CLEAN_USER}", "options     media=\ufffd2J\ufffda4"):
        holds(f"{line!r} in {text!r}", line in text)
    text = front.says("spool", "queue", "show", "q", environment={"COLUMNS": "200"})
    is_clean("a queue", text)
    holds(f"the description is shown: {text!r}", "info        \ufffd2J\ufffdroom" in text)


def test_prints_forms_of_cups(folder):
    front = office(folder)
    for words in (["lpq", "-P", "q"], ["lpq", "-a"], ["lpstat", "-o"], ["lpstat", "-t"]):
        text = front.says(*words)
        is_clean(" ".join(words), text)
        holds(f"{words}: {text!r}", CLEAN_USER in text)


def test_prints_changes(folder):
    front = office(folder)
    child = front.start("spool", "watch")
    moments = itertools.count(4_000_000_000)
    line = first_line(child, lambda: front.client.ask(f"hold 1 {next(moments)}\n"))
    child.kill()
    child.communicate()
    is_clean("watch", line)
    holds(f"the job is shown: {line!r}", line.startswith("job 1 q 4 ") and f'"{CLEAN_TITLE}"' in line and f'"{CLEAN_USER}"' in line)


def answer_raw(folder, command, reply):
    """A service that sends these bytes after the first command that it knows, and closes the connection."""
    def serve(connection):
        with connection.makefile("rb") as stream:
            for said in stream:
                if said.decode().startswith(command):
                    connection.sendall(reply)
                    return
                connection.sendall(b"error syntax\n")

    Printer(serve, path=folder.socket)


def test_prints_any_line(folder):
    """Each character that steers, and bytes that are not UTF-8. Each other character stays."""
    signs = [chr(c) for c in range(sys.maxunicode + 1) if not 0xD800 <= c < 0xE000 and chr(c) != "\n"]
    bad = "".join(c for c in signs if steers(c))
    # Of each block of 64 characters, the first that has a name.
    named = {ord(c) // 64: c for c in reversed(signs) if unicodedata.name(c, "") and not steers(c)}
    good = "".join(c for c in named.values() if ord(c) not in (0x115F, 0x1160, 0x17B4, 0x17B5, 0x3164, 0xFFA0, 0x34F))
    lines = [b"bad " + bad.encode(), b"invalid \xff\xc2\x1b[2J\xe4\xb8 end", b"good " + good.encode(), "emoji ❤️ 👩‍💻 می‌خواهم".encode()]
    answer_raw(folder, "watch", b"ok\n" + b"\n".join(lines) + b"\n")
    ended = Front(folder, 1).run("spool", "watch")
    shown = ended.stdout.decode().split("\n")
    same("lines", len(shown), 5)
    same("each steering character is replaced", shown[0], "bad " + "\ufffd" * len(bad))
    same("invalid bytes", shown[1], "invalid \ufffd\ufffd\ufffd[2J\ufffd end")
    same("others stay", shown[2], "good " + good)
    same("shapes stay", shown[3], "emoji ❤️ 👩‍💻 می‌خواهم")


def test_prints_errors(folder):
    answer_raw(folder, "hold", "error \u009b2J\x1b[31m\u202etxt\n".encode())
    text = Front(folder, 1).fails("spool", "hold", "5")
    is_clean("a refusal", text)
    same("a refusal", text, "spool: cannot hold job 5: error \ufffd2J\ufffd[31m\ufffdtxt\n")


def test_prints_names_of_files(folder):
    folder.open("q")
    text = Front(folder).fails("spool", "submit", "q", folder.at("no\u009b2J\u202efile"))
    is_clean("a file", text)
    holds(f"its name is shown: {text!r}", text.endswith("no\ufffd2J\ufffdfile: No such file or directory\n"))
    text = Front(folder, 0).fails("spool", "status", "--socket", folder.at("no\u009bsocket"))
    is_clean("a socket", text)
    holds(f"its name is shown: {text!r}", "no\ufffdsocket: No such file or directory" in text)


# ---- files and other programs


def test_writes_json(folder):
    front = office(folder)
    for words, job in ((["spool", "status", "--json"], lambda value: value[0]), (["spool", "status", "1", "--json"], lambda value: value["asked"])):
        text = front.says(*words)
        is_clean(" ".join(words), text)
        fields = job(json.loads(text))
        same("the exact texts", (fields["title"], fields["user"]), (TITLE, USER))
    same("the exact options", fields["options"], OPTIONS)
    is_clean("queues", front.says("spool", "queues", "--json"))


def test_writes_page(folder):
    front = office(folder)
    front.says("spool", "page", folder.at("page.html"))
    text = folder.read("page.html")
    is_clean("the page", text)
    for cell in (f"<td><bdi>{CLEAN_TITLE}</bdi>", f"<td><bdi>{CLEAN_USER}</bdi></td>"):
        holds(f"{cell!r} in {text!r}", cell in text)


def test_logs_standard_error(folder):
    lines = ["\x1b[2J\x1b]0;x\x07", "\u009b31m red \u009d0;x\u009c", "one\u0085two", "\u202etxt.exe", "\x7f\x08\r"]
    said = "".join(f"{line}\n" for line in lines).encode() + b"bad \xff\xfe bytes\n"
    octal = "".join(f"\\{byte:03o}" for byte in said)
    folder.backend("loud", f"#!/bin/sh\nprintf '{octal}' >&2\nexit 1\n")
    client = folder.open("q", policy="abort-job", scheme="loud")
    job = client.submit("q")
    client.until_ended([job], "8")
    text = read(folder.at("log")).decode()
    is_clean("the log", text)
    for line in ("\ufffd[2J\ufffd]0;x\ufffd", "\ufffd31m red \ufffd0;x\ufffd", "one\ufffdtwo", "\ufffdtxt.exe", "\ufffd\ufffd\ufffd", "bad \ufffd\ufffd bytes"):
        holds(f"{line!r} in {text!r}", f"loud: {line}\n" in text)


def test_logs_users(folder):
    same("hold", office(folder).client.ask("hold 1 indefinite\n"), "ok")
    until("the line of the job", lambda: "job 1" in folder.log())
    text = folder.log()
    is_clean("the log", text)
    holds(f"the user of the job is logged: {text!r}", re.search(r"job 1 on q by a\\342\\200\\256nn", text))
