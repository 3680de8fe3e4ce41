"""The front end, as users and scripts run it, with a service that runs. test_front_played.py has losses and refusals of each kind."""
import json
import os
import random
import re
import socket
import subprocess
import threading
import time
import unicodedata
from pathlib import Path

import pytest

from harness.checks import holds, LONGEST, same, until
from harness.front import each_refused, first_line, Front, in_browser, number_of
from harness.printers import Printer, take
from harness.programs import TOOLS
from harness.service import Client, Folder, meanwhile, patient_client, TYPE

pytestmark = pytest.mark.needs("spool_service", "spool_front")

# ---- each task with a running service


@pytest.fixture
def client(folder):
    """A client of a service with a queue that prints at once."""
    return folder.open("q")


@pytest.fixture
def front(folder, client):
    """The front end of that service."""
    return Front(folder)


@pytest.fixture
def files(folder):
    """The variables that name the files of a service with a filter."""
    folder.two_stages(0)
    return {f"SPOOL_{name.upper()}": folder.at(name) for name in ("types", "convs", "programs")}


@pytest.fixture
def document(folder):
    """The path of a small document."""
    folder.write("a", "a")
    return folder.at("a")


@pytest.fixture
def large(folder):
    """A service with a large spool."""
    folder.size = 268_435_456


def test_submits_what_fits(folder):
    """`spool submit` asks for room before it sends: a document that does not fit is refused with both numbers, and leaves no job. If jobs that
    have ended use the room, the service makes some, and the document is accepted.
    """
    folder.size = 4_194_304
    client, front = folder.open("q", stopped=True), Front(folder)
    # A checkpoint may use some bytes more than the events.
    room = int(client.ask("room\n").split()[2]) - 100
    folder.write("large", "x" * (room + 200))
    folder.write("most", "x" * room)
    text = front.fails("spool", "submit", "q", folder.at("large"))
    holds(f"the refusal: {text}", text.startswith(f"spool: cannot print on q: the document has {room + 200} bytes, and the spool has room for {room // 1_000}"))
    same("no job", client.states(), {})
    job = number_of(front.says("spool", "submit", "q", folder.at("most")))
    same("its size", client.fields(job)["size"], str(room))
    holds("no more fits", "the spool has room for" in front.fails("spool", "submit", "q", folder.at("most")))
    client.does(f"cancel {job}", f"purge {job}")
    folder.write("less", "x" * (room - 1_000))
    # The service makes a checkpoint for this, at most ten times as long after the last one as that one took.
    until("the room again", lambda: room - 1_000 <= int(client.ask("room\n").split()[2]))
    number_of(front.says("spool", "submit", "q", folder.at("less")))
    # Standard input has no known length: the job is canceled when a piece of it does not fit.
    text = front.fails("spool", "submit", "q", "-", text=b"x" * room)
    holds(f"canceled: {text}", "the spool is full (see spool_service(8), A full spool); job" in text and "was canceled" in text)
    same("no incoming job", [job for job, state in client.states().items() if state == "4 job-incoming"], [])


def test_submits_a_file(folder, client, front):
    folder.write("letter", "a letter\n")
    job = number_of(front.says("spool", "submit", "q", folder.at("letter"), "--title", "T", "--copies", "2", "--priority", "7", "-o", "media=a4 sides=two"))
    client.until_ended([job])
    same("printed", folder.printed(), "a letter\n")
    fields = client.fields(job)
    same("user and title", (fields["user"], fields["title"]), ('"ann"', '"T"'))
    same("copies and priority", (fields["copies"], fields["priority"]), ("2", "7"))
    holds(f"options {fields['options']}", "media=a4" in fields["options"] and "sides=two" in fields["options"])


def test_submits_the_input(folder, client, front):
    text = bytes(random.randrange(256) for _ in range(1000)) * 150
    job = number_of(front.says("spool", "submit", "q", "-", text=text))
    client.until_ended([job])
    same("size", client.fields(job)["size"], str(len(text)))
    holds("the document is printed as it was", Path(folder.at("printed")).read_bytes() == text)


def test_submits_several(folder, client, front):
    for name in ("a", "b", "c"):
        folder.write(name, name)
    lines = front.says("spool", "submit", "q", *(folder.at(name) for name in "abc")).splitlines()
    jobs = [number_of(line) for line in lines]
    same("jobs", len(set(jobs)), 3)
    client.until_ended(jobs)
    front.fails("spool", "submit", "q", folder.at("a"), folder.at("missing"), folder.at("b"))
    same("jobs in all", len(client.states()), 5)


def test_submits_nothing(folder, client, front):
    folder.write("empty", "")
    job = number_of(front.says("spool", "submit", "q", folder.at("empty")))
    client.until_ended([job])


def test_submits_held(client, front, document):
    job = number_of(front.says("spool", "submit", "q", document, "--hold"))
    same("held", client.state(job).split()[0], "4")
    front.says("spool", "release", str(job))
    client.until_ended([job])
    job = number_of(front.says("spool", "submit", "q", document, "--at", str(int(time.time()) + 8)))
    same("held", client.state(job).split()[0], "4")
    client.until_ended([job])


def test_submits_by_a_moment(client, front, document):
    moment = int(time.time()) + 1000
    job = number_of(front.says("spool", "submit", "q", document, "--by", str(moment)))
    same("by", client.fields(job)["by"], str(moment))


def test_submits_and_waits(folder, client, front, document):
    front.says("spool", "submit", "q", document, "--wait")
    folder.queue(client, "slow", 30)
    child = front.start("spool", "submit", "slow", document, "--wait")
    until("a second job", lambda: len(client.states()) == 2)
    until("that it is accepted", lambda: not client.state(2).startswith("4"))
    client.does("cancel 2")
    output = child.communicate(timeout=LONGEST)[1].decode()
    same(f"status, with the output {output!r}", child.returncode, 5)
    holds(f"printed {output!r}", "job 2 was canceled" in output)


def test_submits_without_standard_output(client, front, document):
    """The status shows the outcome of the job, even if its number is not known."""
    with open("/dev/full", "w") as full:
        for words in ([], ["--wait"]):
            ended = subprocess.run(front.command(["spool", "submit", "q", document, *words]), stdout=full, stderr=full, env=front.environment, timeout=LONGEST)
            same("status", ended.returncode, 0)
    client.until_ended([1, 2])


def test_submits_and_loses_the_service(folder, client, front, document):
    """A job that is accepted, and whose end cannot be waited for."""
    folder.queue(client, "slow", 60)
    front.environment["SPOOL_PATIENCE"] = "1"
    child = front.start("spool", "submit", "slow", document, "--wait")
    until("that it is accepted", lambda: client.states() and not client.state(1).startswith("4"))
    folder.kill()
    output = child.communicate(timeout=LONGEST)[1].decode()
    same(f"status, with the output {output!r}", child.returncode, 3)
    holds(f"printed {output!r}", "cannot determine the outcome of job 1: cannot connect to" in output)


def test_submits_and_is_refused(client, front, document):
    output = front.fails("spool", "submit", "none", document)
    same("no queue", output, "spool: cannot print on none: no such queue (spool queues lists the queues)\n")
    client.does("reject q")
    output = front.fails("spool", "submit", "q", document)
    same("rejecting", output, "spool: cannot print on q: the queue rejects jobs (spool queue accept lets it accept them)\n")
    same("jobs", client.states(), {})
    front.fails("spool", "submit", "q", document, "--copies", "0", status=2)
    front.fails("spool", "submit", status=2)
    front.fails("spool", "bogus", status=2)
    front.says("spool", "--help")
    holds("how the other fields of a queue are set", "spool_admin queue set DIR NAME" in front.says("spool", "queue", "set", "--help"))
    holds("the version", front.says("spool", "--version").startswith("spool (Cegmandi) "))


def test_submits_a_document_that_is_too_long(large, client, front):
    output = front.fails("spool", "submit", "q", "-", text=b"x" * 16_777_217)
    same("the error", output, "spool: cannot print on q: the document is longer than 16,777,216 bytes; job 1 was canceled\n")
    same("state", client.state(1), "7 canceled")


def test_submits_an_unprintable_document(folder, files, client, front):
    client.does("queue p slow:/0 c/d retry-current-job 0 0")
    folder.write("a.x", "a")
    front.fails("spool", "submit", "p", folder.at("a.x"), status=4)
    same("state", client.state(1), "8 no-filter")


@pytest.mark.strace
def test_submits_half_a_document(folder, client, front):
    """A document whose second half cannot be read is a fault, and its job is canceled."""
    folder.write("doc", "x" * 300_000)
    words = front.command(["spool", "submit", "q", folder.at("doc")])
    strace = ["strace", "-qq", "-o", os.devnull, "-P", folder.at("doc"), "-e", "inject=read:error=EIO:when=2"]
    ended = subprocess.run([*strace, *words], capture_output=True, env=front.environment, timeout=LONGEST)
    same(f"its end, with {ended.stderr}", (ended.returncode, ended.stdout, b"cannot read the document" in ended.stderr), (1, b"", True))
    same("its job, and what is printed", (client.states(), folder.printed()), ({1: "7 canceled"}, ""))


def test_status_and_json(client, front):
    job = client.create("q", r'a \"b\" \\c')
    rows = json.loads(front.says("spool", "status", "--json"))
    same("a job", (rows[0]["number"], rows[0]["queue"], rows[0]["title"]), (job, "q", 'a "b" \\c'))
    same("queues", [row["name"] for row in json.loads(front.says("spool", "queues", "--json"))], ["q"])
    same("the job", json.loads(front.says("spool", "status", str(job), "--json"))["asked"]["number"], job)
    holds("a table", 'a "b" \\c' in front.says("spool", "status"))
    holds("another queue", 'a "b"' not in front.says("spool", "status", "-q", "other"))
    holds("the job", "q" in front.says("spool", "status", str(job)))
    holds("why it waits", "\nwhy       its document is being sent\n" in front.says("spool", "status", str(job)))
    same("no job", front.fails("spool", "status", "77"), "spool: no such job: 77\n")
    holds("queues", "q" in front.says("spool", "queues"))
    holds("devices", "spool_shell --devices" in front.fails("spool", "devices"))


def test_status_check(folder, files, client, front):
    front.environment |= files
    folder.queue(client, "b", target="a/b")
    same("check", front.says("spool", "check"), f"service {folder.socket} is running\nqueue b prints a/b\nqueue q prints {TYPE}\n")
    folder.queue(client, "d", target="c/d")
    client.does("disable b", "reject q")
    output = front.says("spool", "check", status=1).splitlines()[1:]
    same("check", output, ["queue b is stopped", "queue d cannot print: no chain of filters converts to c/d", "queue q rejects jobs"])
    missing = front.fails("spool", "check", environment={"SPOOL_CONVS": folder.at("missing")})
    same("the error", missing, f"spool: cannot read {folder.at('missing')}: No such file or directory\n")


def test_status_check_of_programs(folder, files, front):
    front.environment |= files
    folder.write("plain", "#!/bin/sh\n", 0o644)
    folder.write("empty", "", 0o755)
    folder.write("good", "#!/bin/sh\n", 0o755)
    lines = [("backend", "a", "missing"), ("backend", "b", "empty"), ("filter", "c", "plain"), ("filter", "d", "good"), ("filter", "e", "spool")]
    folder.write("listed", "".join(f"{kind} {name} {folder.at(file)}\n" for kind, name, file in lines) + f"side {folder.at('good')}\r\n")
    output = front.says("spool", "check", status=1, environment={"SPOOL_PROGRAMS": folder.at("listed")}).splitlines()
    wanted = [
        "filter c cannot be run: not executable",
        "filter e cannot be run: not a regular file",
        "backend a cannot be run: file not found",
        "backend b cannot be run: neither a script nor an ELF program",
        "side program cannot be run: the line ends with a carriage return",
        f"service {folder.socket} is running",
        f"queue q prints {TYPE}",
    ]
    same("check", output, wanted)
    folder.write("unread", "filter\n")
    missing = front.fails("spool", "check", environment={"SPOOL_PROGRAMS": folder.at("unread")})
    same("the error", missing, f"spool: {folder.at('unread')} is invalid\n")


def test_status_of_faults(folder, client, front):
    """Each fault says what failed, on which file or queue, the system's reason, and what to do."""
    client.does("disable q")
    folder.write("empty", "")
    left = folder.at("left")
    with socket.socket(socket.AF_UNIX) as server:
        server.bind(left)
    hint = "(is cegmandi running? systemctl status cegmandi)"
    nowhere, gone = folder.at("nowhere"), folder.at("gone", "file")
    none = {"SPOOL_SOCKET": nowhere, "SPOOL_PATIENCE": "0"}
    table = [
        (["spool", "status"], none, f"cannot connect to {nowhere}: No such file or directory {hint}"),
        (["spool", "queues"], {**none, "SPOOL_SOCKET": left}, f"cannot connect to {left}: Connection refused {hint}"),
        (["spool", "release", "7"], none, f"cannot connect to {nowhere}: No such file or directory {hint}"),
        (["lpstat", "-p"], none, f"cannot connect to {nowhere}: No such file or directory {hint}"),
        (["lpstat", "-t"], none, "no service is running"),
        (["spool", "submit", "q", gone], {}, f"cannot open {gone}: No such file or directory"),
        (["spool", "page", gone], {}, f"cannot write {gone}: No such file or directory"),
        (["spool", "check"], {"SPOOL_PROGRAMS": gone}, f"cannot read {gone}: No such file or directory"),
        (["lp", folder.at("empty")], {}, f"{folder.at('empty')} is empty, so nothing is printed"),
        (["lp"], {}, "standard input is empty, so nothing is printed"),
        (["lpstat", "-p", "q,none"], {}, "no such queue in the list: q,none"),
        (["lpstat", "-c", "all"], {}, "no such class: all"),
        (["lpoptions", "-d", "none"], {}, "no such queue: none"),
        (["lpoptions", "-d", "q"], {}, "HOME is not set, so no default queue can be stored"),
        (["cancel", "q"], {}, "no job waits or prints in queue q"),
        (["cancel", "-a", "none"], {}, "no such queue: none"),
    ]
    for words, environment, text in table:
        same(f"{words}", front.fails(*words, environment=environment), f"spool: {text}\n")
    same("no service", front.says("lpstat", "-r", environment={"SPOOL_SOCKET": nowhere}), "scheduler is not running\n")


def test_status_of_two_services(folder, client, front, document):
    other = Folder()
    try:
        other.start()
        folder.queue(Client(other), "z")
        sockets = ["--socket", folder.socket, "--socket", other.socket]
        names = [row["name"] for row in json.loads(front.says("spool", "queues", "--json", *sockets))]
        same("queues", names, ["q", "z"])
        job = number_of(front.says("spool", "submit", "z", document, *sockets))
        Client(other).until_ended([job])
        same("jobs of the first", client.states(), {})
        same("status over all", len(json.loads(front.says("spool", "status", "--json", *sockets))), 1)
        holds("the job of the second", '"queue":"z"' in front.says("spool", "status", str(job), "--json", *sockets).replace(" ", ""))
        # A number alone does not show the job's user.
        for words in (["cancel", str(job)], ["watch"], ["queue", "add", "new", "slow:/0"]):
            holds(f"{words}", "exactly one --socket" in front.fails("spool", *words, *sockets))
        holds("no queue", "no service has queue none" in front.fails("spool", "submit", "none", document, *sockets))
        Client(other).create("z")
        same("cancel -a", front.says("cancel", "-a", *sockets), "")
        same("canceled", Client(other).state(2).split()[0], "7")
    finally:
        other.end()
        other.remove()


def test_status_page(folder, client, front):
    client.create("q", "<script>alert(1)</script>")
    front.says("spool", "page", folder.at("page.html"))
    text = folder.read("page.html")
    holds("no script", "<script" not in text and "&lt;script" in text)
    holds("nothing unfinished", not os.path.exists(folder.at("page.html.new")))
    # A link, or a pipe without a reader, under the name of the new file is removed and neither followed nor opened.
    folder.write("other", "kept")
    os.symlink(folder.at("other"), folder.at("page.html.new"))
    front.says("spool", "page", folder.at("page.html"))
    same("a link is not followed", (folder.read("other"), os.path.islink(folder.at("page.html"))), ("kept", False))
    os.mkfifo(folder.at("page.html.new"))
    front.says("spool", "page", folder.at("page.html"))
    holds("a pipe is not opened", "</html>" in folder.read("page.html"))
    with front.watching("page", folder.at("live.html"), "--follow"):
        until("a page", lambda: "refresh" in folder.read("live.html"))
        client.create("q", "later")
        until("a newer page", lambda: "later" in folder.read("live.html"))


@pytest.mark.needs("chromium")
def test_status_page_in_a_browser(folder, client, front):
    """It shows the cells of the page, and no markup of a title."""
    client.create("q", "<script>document.title='run'</script><b>bold</b>")
    front.says("spool", "page", folder.at("page.html"))
    shown = in_browser(folder, f"file://{folder.at('page.html')}")
    same("title and rows", (shown.count("<title>Printers and jobs</title>"), shown.count("<tr")), (1, 4))


def test_status_watch(client, front):
    with front.watching("watch") as child:
        line = first_line(child, lambda: client.create("q", "seen"))
    holds(f"watched {line!r}", re.match(r"job \d+ q 4 .*seen", line))


def test_status_live(client, front):
    client.create("q", "first")
    with front.watching("status", "--watch", "--json") as child:
        rows = json.loads(child.stdout.readline())
        same("the jobs", [row["title"] for row in rows], ["first"])
        client.create("q", "second")
        while len(rows) < 2:
            rows = json.loads(child.stdout.readline())
        same("the jobs after another one", [row["title"] for row in rows], ["first", "second"])
        client.does("cancel 1")
        while rows[0]["state"] != "canceled":
            rows = json.loads(child.stdout.readline())
        client.does("purge 1")
        while len(rows) > 1:
            rows = json.loads(child.stdout.readline())
        same("the jobs after one was removed", [row["title"] for row in rows], ["second"])
    with front.watching("status", "--watch", "-q", "other") as child:
        same("a table without a job", [child.stdout.readline() for _ in range(2)][0], b"\n")
    holds("JOB and --watch", "--watch" in front.fails("spool", "status", "1", "--watch", status=2))


def test_status_as_json(client, front, document):
    job = json.loads(front.says("spool", "submit", "q", document, "--json"))
    same("an accepted job", job, {"job": 1, "queue": "q"})
    same("a quiet one", front.says("spool", "submit", "q", document, "--json", "--quiet"), "")
    queue = json.loads(front.says("spool", "queue", "show", "q", "--json"))
    same("a queue", (queue["queue"], queue["accepting"]), ("q", "yes"))
    client.until_ended([1, 2])
    with front.watching("watch", "--json") as child:
        row = json.loads(first_line(child, lambda: client.create("q", "seen")))
    same("a change", (row["job"]["title"], row["job"]["state"]), ("seen", "held"))


def lines_of_json(front, *words, status=0, text=b""):
    """The values of the lines that a command prints with `--json`. No character of them steers a terminal."""
    output = front.says("spool", *words, "--json", status=status, text=text)
    holds(f"plain lines: {output!r}", all(line.isprintable() for line in output.splitlines()))
    return [json.loads(line) for line in output.splitlines()]


def test_json_of_all_facts(folder, files, client, front):
    """Each command that prints facts takes `--json`: each line is a value, whose texts are exact, and no text is lost or added."""
    front.environment |= files
    title = "a\u202eb \u00e9"
    job = client.create("q", title)
    same("status", [[row["title"] for row in rows] for rows in lines_of_json(front, "status")], [[title]])
    same("a job", [row["asked"]["title"] for row in lines_of_json(front, "status", str(job))], [title])
    same("no job of a queue", lines_of_json(front, "status", "-q", "other"), [[]])
    same("queues", [[row["name"] for row in rows] for rows in lines_of_json(front, "queues")], [["q"]])
    same("a queue", [row["queue"] for row in lines_of_json(front, "queue", "show", "q")], ["q"])
    same("check", lines_of_json(front, "check"), [{"running": True, "service": folder.socket}, {"prints": True, "queue": "q"}])
    client.does("disable q")
    same("check, once stopped", lines_of_json(front, "check", status=1)[1], {"prints": False, "queue": "q", "why": "is stopped"})
    for words, named in ((("status", "77"), "no such job: 77"), (("queue", "show", "none"), "no such queue: none")):
        same(f"the output of {words}", front.run("spool", *words, "--json").stdout, b"")
        error = front.fails("spool", *words, "--json")
        holds(f"the error of {words}: {error}", named in error)


def test_replies_as_json(client, front):
    """With `--json` each reply is an object of the lines that `spool say` prints without it."""
    title = "a\u202eb"
    client.create("q", title)
    for words in (["jobs"], ["queues", "jobs"], ["job 1"]):
        replies = lines_of_json(front, "say", *words)
        same(f"members of {words}", [sorted(reply) for reply in replies], [["last", "rows"]] * len(words))
        lines = [line for reply in replies for line in [*reply["rows"], reply["last"]]]
        same(f"lines of {words}", [line.replace("\u202e", "\ufffd") for line in lines], front.says("spool", "say", *words).splitlines())
    holds("the title is exact", title in lines_of_json(front, "say", "jobs")[0]["rows"][0])
    same("an error", lines_of_json(front, "say", "no such", "room", status=1)[0], {"last": "error syntax", "rows": []})
    text = b'create q ann "t" 1 50 ""\nsend 2 3\n\xff\n!\n'
    same("an input", lines_of_json(front, "say", text=text), [{"last": "ok job 2", "rows": []}, {"last": "ok bytes 3", "rows": []}])
    same("the end", lines_of_json(front, "say", "--until-end", "shutdown")[0], {"last": "ok", "rows": []})


def test_says_commands(folder, front):
    same("a command", front.says("spool", "say", "jobs"), "ok 0\n")
    holds("an error", front.says("spool", "say", "no such", "jobs", status=1).startswith("error syntax\nok"))
    text = b'# a remark\n\ncreate q ann "t" 1 50 ""\nsend 1 7\nab\ncd\ne\njobs'
    same("an input", front.says("spool", "say", text=text).split("\n")[:2], ["ok job 1", "ok bytes 7"])
    same("no input", front.says("spool", "say", text=b""), "")
    same("the end", front.says("spool", "say", "--until-end", "shutdown"), "ok\n")
    same("no service", Front(folder, 1).run("spool", "say", "jobs").returncode, 1)


def test_acts_on_jobs(client, front):
    client.ask("disable q\n")
    jobs = [client.submit("q") for _ in range(4)]
    front.says("spool", "hold", str(jobs[0]))
    same("held", client.state(jobs[0]).split()[0], "4")
    front.says("spool", "release", str(jobs[0]))
    front.says("spool", "cancel", *map(str, jobs[:2]))
    same("canceled", [client.state(job).split()[0] for job in jobs], ["7", "7", "3", "3"])
    front.says("spool", "purge", str(jobs[0]))
    same("purged", client.state(jobs[0]), "")
    output = front.fails("spool", "cancel", str(jobs[1]), str(jobs[2]))
    same("twice", output, f"spool: cannot cancel job {jobs[1]}: the job has ended\n")
    same("the other", client.state(jobs[2]).split()[0], "7")


PAGE = 1 << 20


class PausedPrinter(Printer):
    """A printer of pages of 1 MiB. After two pages of a document it pauses until `goes_on` is set."""

    def __init__(self, documents):
        # The pages of each document so far.
        self.pages, self.goes_on = [], threading.Event()
        super().__init__(self.read_pages, documents)
        self.listener.setsockopt(socket.SOL_SOCKET, socket.SO_RCVBUF, 65_536)

    def read_pages(self, connection):
        self.pages.append(0)
        while len(take(connection, PAGE)) == PAGE:
            self.pages[-1] += 1
            if self.pages[-1] == 2:
                self.goes_on.wait()


@pytest.mark.needs("spool_tools")
def test_acts_that_stop_the_paper(folder, large):
    """After a cancel the pages that the system has buffered come, and no others, and the next job starts, although the printer has paused. With
    --keep-printing all pages come, and the next job waits for them.
    """
    folder.lines.append(f"backend appsocket {os.path.abspath(TOOLS)} appsocket\n")
    folder.write("programs", "".join(folder.lines))
    client, front = folder.open("q"), Front(folder)
    printer = PausedPrinter(8)
    client.does(f"queue net appsocket://127.0.0.1:{printer.port}/ application/octet-stream abort-job 0 0")
    folder.write("long", b"x" * 12 * PAGE)
    folder.write("short", "x")
    for words, stops in ((["spool", "cancel"], True), (["cancel"], True), (["lprm"], True), (["spool", "cancel", "--keep-printing"], False)):
        before = len(printer.pages)
        printer.goes_on.clear()
        long, short = [number_of(front.says("spool", "submit", "net", folder.at(name))) for name in ("long", "short")]
        until("two pages", lambda: len(printer.pages) > before and printer.pages[before] == 2)
        front.says(*words, str(long))
        canceled = time.monotonic()
        same("canceled", client.state(long).split()[0], "7")
        if stops:
            until("the next job", lambda: client.fields(short)["attempts"] == "1")
            holds("before the backend would be killed", time.monotonic() - canceled < 9)
        same(f"{words}: the next job has started", client.fields(short)["attempts"] == "1", stops)
        printer.goes_on.set()
        client.until_state(short, "9")
        pages = printer.pages[before]
        print(f"  {' '.join(words)}: {pages} of 12 pages")
        holds(f"{words}: {pages} of 12 pages", pages <= 8 if stops else pages == 12)


def test_acts_on_queues(client, front):
    front.says("spool", "queue", "add", "new", "slow:/0", "--media", "application/octet-stream")
    front.says("spool", "queue", "set", "new", "--info", "An info", "--location", "A room")
    front.says("spool", "queue", "reject", "new")
    front.says("spool", "queue", "disable", "new")
    rows = {line.split()[1]: line for line in client.listing("queues\n")}
    holds(f"row {rows['new']}", rows["new"].startswith("queue new 5 rejecting application/octet-stream "))
    front.says("spool", "queue", "accept", "new")
    front.says("spool", "queue", "enable", "new")
    rows = {line.split()[1]: line for line in client.listing("queues\n")}
    holds(f"row {rows['new']}", rows["new"].startswith("queue new 3 accepting "))
    output = front.fails("spool", "queue", "add", "new", "slow:/0", "--media", "a/b")
    same("twice", output, "spool: cannot add queue new: a queue with this name exists\n")


# ---- out of memory


@pytest.mark.needs("gcc", "plain spool_front")
def test_refuses_memory(folder, client, front):
    """Each allocation of a submission is refused in turn, and its status is correct: accepted once, never, or not known. A submission that
    failed is reported as out of memory. The same applies to the arguments, and a variable that cannot be read for lack of memory is not
    treated as unset.
    """
    text, ends = b"x" * 70_000, {}
    for refused, environment in each_refused(folder):
        title = f"document-{refused:06d}"
        ended = front.run("spool", "submit", "q", "-", "--title", title, text=text, environment=environment)
        output = ended.stderr.decode()
        ends.setdefault(ended.returncode, []).append(refused)
        holds(f"allocation {refused}, status {ended.returncode}: {output!r}", ended.returncode in (0, 1, 3))
        holds(f"allocation {refused}, status 1: {output!r}", ended.returncode != 1 or "memory" in output)
        closed = [row for row in client.listing("jobs\n") if title in row and row.split()[4] != "job-incoming" and row.split()[3] != "7"]
        if ended.returncode != 3:
            same(f"closed jobs, when allocation {refused} was refused: {output!r}", len(closed), 1 if ended.returncode == 0 else 0)
        holds(f"the job's user, when allocation {refused} was refused: {closed}", all(row.split()[5] == '"ann"' for row in closed))
    same("status with all of it", ended.returncode, 0)
    print(f"  {refused - 1} allocations: " + ", ".join(f"status {status} for {len(which)}" for status, which in sorted(ends.items())))


# ---- kills


def test_kills(folder):
    """Documents are submitted while the service is killed again and again. Each accepted document becomes one job, and none becomes two."""
    # No ended job is purged before it is checked.
    folder.words = ["--keep", "100000"]
    folder.open("q").close()
    front = Front(folder, 60)
    count = 1000 if Folder.is_long else 60
    starts = [0]

    def killer(stop):
        while not stop.is_set():
            end = time.time() + random.uniform(0.05, 0.6)
            while time.time() < end and not stop.is_set():
                if folder.running.poll() is not None:
                    folder.launch()
                time.sleep(0.01)
            folder.kill()
            folder.launch()
            starts[0] += 1

    statuses, index = {}, 0
    began = time.time()
    with meanwhile(killer):
        while starts[0] < count and time.time() - began < count * 3:
            index += 1
            title = f"document-{index:06d}"
            text = (title + "\n" + "x" * random.choice([0, 10, 70_000, 200_000])).encode()
            ended = front.run("spool", "submit", "q", "-", "--title", title, text=text)
            statuses[title] = (ended.returncode, len(text), ended.stderr.decode())
    client = patient_client(folder)
    jobs = {}
    for line in client.listing("jobs\n"):
        words = line.split()
        if words[4] != "job-incoming" and not (words[3] == "7"):
            jobs.setdefault(line.split('"')[3], []).append((words[1], int(words[6])))
    print(f"  {index} documents, {starts[0]} kills: {sum(1 for ended in statuses.values() if ended[0] == 0)} accepted")
    for title, (status, size, output) in statuses.items():
        found = jobs.get(title, [])
        holds(f"{title}, status {status}: {output!r}", status in (0, 1, 3))
        if status == 0:
            same(f"jobs of {title}", [size for _, size in found], [size])
        if status == 1:
            same(f"jobs of {title}", found, [])
        holds(f"{title}: {found}", len(found) <= 1)


# ---- a terminal


def columns_of(line):
    return sum(0 if unicodedata.combining(c) else 2 if unicodedata.east_asian_width(c) in "WF" else 1 for c in line)


def test_fits_terminals(client, front, document):
    for title in ("short", "a long title " * 10, "中文" * 30, "é" * 100):
        client.create("q", title)
    for width in (40, 60, 79, 80, 100, 132, 200):
        for words in (["spool", "status"], ["spool", "queues"], ["spool", "status", "1"]):
            text, status = front.on_terminal(*words, columns=width)
            same("status", status, 0)
            for line in text.splitlines():
                holds(f"{words} at {width} columns: {line!r}", columns_of(line) <= width)
    text, status = front.on_terminal("spool", "submit", "q", document, "--wait")
    same("status", status, 0)
    holds(f"its progress is shown: {text!r}", "done" in text and "sent" not in text)


# ---- scripts that were written for CUPS


def test_lp_scripts(folder, client, front):
    folder.write("a.txt", "a\n")
    job = number_of(front.says("lp", "-d", "q", "-n", "2", "-t", "Title", "-o", "media=a4", folder.at("a.txt")))
    client.until_ended([job])
    fields = client.fields(job)
    same("copies, title", (fields["copies"], fields["title"]), ("2", '"Title"'))
    same("an input", front.says("lp", text=b"piped").split()[:3], ["request", "id", "is"])
    same("by the environment", front.says("lp", text=b"x", environment={"LPDEST": "q"}).split()[:3], ["request", "id", "is"])
    front.says("lpr", "-P", "q", folder.at("a.txt"))
    client.until_ended([2, 3, 4])
    client.ask("disable q\n")
    job = number_of(front.says("lp", "-d", "q", folder.at("a.txt")))
    same("lpstat -o", front.says("lpstat", "-o", "q").split()[0], f"q-{job}")
    holds("lpstat -p", "printer q " in front.says("lpstat", "-p", "q"))
    holds("lpstat -a", "q accepting" in front.says("lpstat", "-a"))
    holds("lpstat -r", "scheduler is running" in front.says("lpstat", "-r"))
    holds("lpstat -d", "system default destination: q" in front.says("lpstat", "-d"))
    holds("lpstat -t", "scheduler is running" in front.says("lpstat", "-t"))
    holds("lpq", "ann" in front.says("lpq", "-P", "q"))
    front.says("cancel", f"q-{job}")
    same("canceled", client.state(job).split()[0], "7")
    job = number_of(front.says("lp", "-d", "q", folder.at("a.txt")))
    front.says("lprm", "-P", "q", str(job))
    same("removed", client.state(job).split()[0], "7")
    same("nothing", front.says("lpstat", "-o"), "")
    front.fails("lp", "-d", "none", folder.at("a.txt"))
    front.fails("lp", "-Z")
