"""The page of `spool page`: its rows, ages and filters, with a service that runs."""
from html.parser import HTMLParser
import os
import re

import pytest

from harness import written_spools
from harness.checks import holds, same
from harness.front import Front, Played
from harness.service import now_of

pytestmark = pytest.mark.needs("spool_service", "spool_front")

# Elements without an end.
VOID = {"meta"}

JOB_COLUMNS = ["Job", "Printer", "State", "User", "Age", "Bytes", "Pages", "Title"]


class Page(HTMLParser):
    """The tables of a page, each as a list of rows, and each row as a list of texts. An element that is not closed is a fault."""

    def __init__(self, text):
        super().__init__()
        self.names, self.tables, self.attributes = [], [], []
        self.feed(text)
        self.close()
        same("elements that are not closed", self.names, [])

    def handle_starttag(self, tag, attrs):
        if tag not in VOID:
            self.names.append(tag)
        if tag == "table":
            self.tables.append([])
        if tag == "tr":
            self.tables[-1].append([])
            self.attributes.append(dict(attrs))
        if tag in ("td", "th"):
            self.tables[-1][-1].append("")

    def handle_endtag(self, tag):
        same(f"the end of an element, in {self.names}", self.names.pop(), tag)

    def handle_data(self, data):
        if "td" in self.names or "th" in self.names:
            self.tables[-1][-1][-1] += data

    def queues(self):
        """The names of the printers."""
        return [row[0] for row in self.tables[0][1:]]

    def jobs(self):
        """The jobs, each as a dictionary."""
        same("columns", self.tables[1][0], JOB_COLUMNS)
        return [dict(zip(JOB_COLUMNS, row)) for row in self.tables[1][1:]]


def page_of(front, folder, *words):
    """The text of a page."""
    same("nothing is printed", front.says("spool", "page", folder.at("page.html"), *words), "")
    return folder.read("page.html")


def stopped(folder, *names):
    """A service with these queues, which are stopped."""
    client = folder.open(*names, stopped=True)
    return client, Front(folder)


def test_ages(folder):
    """The age of each job is its own, by the service's time, and empty if the service was started after it."""
    client, front = stopped(folder, "q")
    client.create("q", "old")
    same("two hours later", client.ask(f"clock {now_of(client) + 7_200}\n"), "ok")
    client.create("q", "new")
    old, new = Page(page_of(front, folder)).jobs()
    same("old", (old["Title"].split()[0], old["Age"]), ("old", "2 h"))
    holds(f"new: {new}", new["Title"].startswith("new") and re.fullmatch(r"\d+ s", new["Age"]))
    holds("the time of the page", re.search(r"<p class=\"faint\">As of \w{3}, \d\d \w{3} \d{4} \d\d:\d\d:\d\d GMT</p>", folder.read("page.html")))
    folder.shut_down()
    folder.start()
    same("after another start", [job["Age"] for job in Page(page_of(front, folder)).jobs()], ["", ""])


def test_waits(folder):
    """A held job shows how long it is still held, and no other job does."""
    client, front = stopped(folder, "q")
    held = client.submit("q", title="held")
    client.create("q", "other")
    client.does(f"hold {held} {now_of(client) + 7_260}")
    first, second = Page(page_of(front, folder)).jobs()
    same("held", first["Title"], "held it is held (2 h left)")
    same("other", second["Title"], "other its document is being sent")


def test_filters(folder):
    """A page of a printer or a user shows no job of another one, and names it. The names are texts."""
    client, front = stopped(folder, "lab", "den")
    user = "<i>&\\\"'"
    for queue, name in (("lab", "ann"), ("den", "ann"), ("lab", user)):
        holds("create", client.ask(f'create {queue} "{name}" "t" 1 50 ""\n').startswith("ok job "))
    user = user.replace("\\", "")
    pages = {
        (): (["den", "lab"], ["1", "2", "3"]),
        ("-q", "lab"): (["lab"], ["1", "3"]),
        ("--user", "ann"): (["den", "lab"], ["1", "2"]),
        ("--user", user): (["den", "lab"], ["3"]),
        ("-q", "den", "--user", "ann"): (["den"], ["2"]),
        ("-q", "none"): ([], []),
    }
    for words, (queues, jobs) in pages.items():
        text = page_of(front, folder, *words)
        page = Page(text)
        same(f"printers of {words}", page.queues(), queues)
        same(f"jobs of {words}", [job["Job"] for job in page.jobs()], jobs)
        same(f"{words} is named", "<p>Only " in text, words != ())
        holds("no markup of a user", "<i>" not in text)
    holds("the user is named", "<p>Only jobs of <bdi>ann</bdi></p>" in page_of(front, folder, "--user", "ann"))


def test_printers_are_targets(folder):
    """The name of each printer is a link to its row, whose rule hides the jobs of others. There is no script."""
    client, front = stopped(folder, "lab", "den")
    client.create("lab")
    text = page_of(front, folder)
    rows = [attributes for attributes in Page(text).attributes if attributes]
    same("rows", rows, [{"id": "printer-den"}, {"id": "printer-lab"}, {"class": "on-lab"}])
    for name in ("den", "lab"):
        holds("a link", f'<a href="#printer-{name}"><bdi>{name}</bdi></a>' in text)
        holds("a rule", f":root:has(#printer-{name}:target) .jobs tbody tr:not(.on-{name}) {{ display: none }}\n" in text)
    holds("no script", "<script" not in text and "javascript:" not in text)


def test_screens(folder):
    """The page is dark as the system is, and on a narrow screen each column has its name in the row."""
    _, front = stopped(folder, "q")
    text = page_of(front, folder)
    holds("dark", "@media (prefers-color-scheme: dark)" in text and "color-scheme: light dark" in text)
    narrow = text.partition("@media (max-width: 48rem)")[2]
    for place, name in enumerate(JOB_COLUMNS, 1):
        holds(name, f'.jobs td:nth-child({place})::before {{ content: "{name}" }}' in narrow)


def test_many_jobs(folder):
    """A page of 5,000 jobs has all of them, in order, and is five times as long as that of 1,000."""
    lengths = {}
    for count in (1_000, 5_000):
        folder.write("spool/spool.disk", written_spools.spool(written_spools.stopped_rows(count + 2)))
        folder.start("--keep", "1000000")
        text = page_of(Front(folder), folder)
        same("jobs", [int(job["Job"]) for job in Page(text).jobs()], list(range(1, count + 1)))
        lengths[count] = len(text)
        folder.shut_down()
    holds(f"lengths: {lengths}", lengths[5_000] < 5.1 * lengths[1_000])


def test_older_service(folder):
    """A service that does not know `list` is asked for `jobs`. No age is known then."""
    queue = 'queue q 5 accepting a/b abort-job 30 5 none ""\nok 1\n'
    job = 'job 7 q 3 none "ann" 5 0 "t"\nok 1\n'
    Played(folder, [[("queues", queue)], [("jobs", job)]])
    jobs = Page(page_of(Front(folder), folder)).jobs()
    same("jobs", [(row["Job"], row["Age"]) for row in jobs], [("7", "")])


def test_listing_without_end(folder):
    """A listing whose next piece does not begin later is invalid, and the page is not written."""
    Played(folder, [[("queues", "ok 0\n")], [("now", "ok now 1700000000\n"), ("list from 1 most 100\n", "ok 0 more 2\n"), ("list from 2 most 100\n", "ok 0 more 2\n")]])
    error = Front(folder).fails("spool", "page", folder.at("page.html"))
    same("the error", error, "spool: the reply of the service is invalid\n")
    same("no page", os.path.exists(folder.at("page.html")), False)
