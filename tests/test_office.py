"""The examples of examples/office, with real programs.

1. examples/office/print.sh prints a letter through a filter into a file, whose bytes are compared.
2. Two backends `meet` find each other, so the children of a round run at once; and `sideask` reads the device's id through the side
   channel.
3. The backend `appsocket` sends the same letter to a printer that listens on the loopback address. If the printer resets the connection,
   the letter does not count as printed: it is printed again, once the printer accepts it.
4. examples/office/serve.sh runs a service with six queues, and one of them prints a letter.
5. CUPS's own backend `socket` sends a document of all bytes to such a printer.
6. The types of many kinds of documents are detected with examples/office/types, mostly from their bytes.
7. examples/office/pages.sh prints a page on six kinds of printers, and the first bytes of their files are compared.

The scripts run the programs in crates/NAME/out.
"""
import os
import subprocess
from pathlib import Path

import pytest

from harness.checks import compare, LONGEST, reports_all
from harness.child_folder import printed
from harness.files import write
from harness.printers import Printer, reset_after, take
from harness.programs import ROOT, SHELL, TOOLS
from harness.stock_documents import TYPED

pytestmark = pytest.mark.needs("spool_shell", "spool_service", "spool_tools")

SOCKET = "/usr/lib/cups/backend/socket"
FILTERS = [f"/usr/lib/cups/filter/{name}" for name in ("texttopdf", "pdftopdf", "pdftops", "gstoraster", "gstopxl")]

# The first bytes of the page for each kind of printer.
PAGES = {
    "pdf": b"%PDF",
    "ps": b"%!PS",
    "pwg": b"RaS2PwgRaster\0",
    "raster": b"RaS2",
    "pclxl": b"\x1b%-12345X",
    "raw": b"\n\n        The Office",
}

LETTER = b"Dear Bo,\r\ncome. Ann\r\n\x0c"

REPLIES = """ok
ok job 1
ok bytes 19
ok type text/plain stages 2
ok rounds 3
job 1 hall 9 job-completed-successfully "ann" 19 2 "A letter"
ok 1
"""

ROWS = """job 1 hall 9 job-completed-successfully "ann" 19 2 "A letter"
job 2 post 4 job-hold-until-specified "bo" 12 0 "For the post"
"""

SERVED = "ok\n" * 8 + f"""ok job 1
ok bytes 19
ok type text/plain stages 2
ok job 2
ok
ok bytes 12
ok type text/plain stages 2
{ROWS.splitlines()[0]}
ok 1
{ROWS}ok 2
ok
"""


def ran(what, words, given=b"", longest=LONGEST):
    """The output of a program that must end with status 0 and without an error."""
    ended = subprocess.run(words, input=given, capture_output=True, timeout=longest)
    compare(f"the end of {what}", (ended.returncode, ended.stderr), (0, b""))
    return ended.stdout.decode()


def print_letter(room, name="office", *printer):
    """Prints the letter into a file, or to this printer."""
    folder = os.path.join(room, name)
    words = [os.path.join(ROOT, "examples/office/print.sh"), folder, *printer]
    compare("the replies of print.sh", ran("print.sh", words), REPLIES)
    left = sorted(os.listdir(os.path.join(folder, "spool")))
    compare("the files of the children", [name for name in left if "-" in name], [])


@reports_all
def test_print_letter_to_file(room):
    print_letter(room)
    compare("the printed letter", Path(room, "office", "letter.prn").read_bytes(), 2 * LETTER)


@reports_all
def test_serve_an_office(room):
    folder = os.path.join(room, "served")
    compare("the replies of the service", ran("serve.sh", [os.path.join(ROOT, "examples/office/serve.sh"), folder]), SERVED)
    compare("the letter that the service printed", Path(folder, "hall").read_bytes(), 2 * LETTER)
    # tests/with_users.py gives the children users, whose folders are in `run`.
    run = ["run"] if os.environ.get("WITH_USERS") else []
    compare("the remaining files", sorted(os.listdir(os.path.join(folder, "spool"))), [*run, "spool.disk", "spool.lock"])


def served(room, name, programs, script, *words):
    """The replies to a script that is served in a fresh folder, with these programs and further words."""
    folder = os.path.join(room, name)
    os.mkdir(folder)
    listed = os.path.join(room, name + ".programs")
    Path(listed).write_text(programs)
    return ran(name, [SHELL, "--root", folder, "--programs", listed, *words], script if isinstance(script, bytes) else script.encode())


@reports_all
def test_meet_each_other(room):
    a, b = os.path.join(room, "a"), os.path.join(room, "b")
    script = f"queue one meet:{a}?partner={b} application/octet-stream abort-job\n"
    script += f"queue two meet:{b}?partner={a} application/octet-stream abort-job\n"
    for job, queue in ((1, "one"), (2, "two")):
        script += f'create {queue} ann "" 1 50 ""\nsend {job} 1\nx\nclose {job} x\n'
    replies = served(room, "meet", f"backend meet {TOOLS} meet\n", script + "round\njobs\n")
    wanted = """ok started 2 finished 2
job 1 one 9 job-completed-successfully "ann" 1 0 ""
job 2 two 9 job-completed-successfully "ann" 1 0 ""
ok 2
"""
    compare("two that meet", replies[-len(wanted) :], wanted)


@reports_all
def test_ask_the_device(room):
    answer = os.path.join(room, "answer")
    script = f"queue lab sideask:{answer}?id=MFG%3AX%3B application/octet-stream abort-job\n"
    script += 'create lab ann "" 1 50 ""\nsend 1 1\nx\nclose 1 x\nround\njobs\n'
    programs = f"backend sideask {TOOLS} sideask\nside {TOOLS} side-end\n"
    replies = served(room, "sideask", programs, script)
    wanted = 'ok started 1 finished 1\njob 1 lab 9 job-completed-successfully "ann" 1 0 ""\nok 1\n'
    compare("the backend that asks", replies[-len(wanted) :], wanted)
    compare("the id of the device", Path(answer).read_bytes(), b"MFG:X;")


@reports_all
def test_first_script(room):
    out = os.path.join(room, "out")
    script = f"queue lab spoolfile:{out} application/octet-stream abort-job\n"
    script += 'create lab ann "First page" 1 50 ""\nsend 1 0\n\nclose 1 page.txt\ndrain 5\njobs\n'
    wanted = """ok
ok job 1
ok bytes 0
ok type application/octet-stream stages 1
ok rounds 2
job 1 lab 9 job-completed-successfully "ann" 0 0 "First page"
ok 1
"""
    compare("the first script", served(room, "first", f"backend spoolfile {TOOLS} spoolfile\n", script), wanted)
    compare("its empty document", os.path.getsize(out), 0)
    words = [SHELL, "--programs", os.path.join(room, "first.programs"), "--devices"]
    compare("its devices", ran("the devices", words), 'file spoolfile "Unknown" "spoolfile"\n')


@reports_all
def test_print_letter_to_printer(room):
    printer = Printer(take)
    print_letter(room, "network", f"127.0.0.1:{printer.port}")
    compare("the letter that the printer received", printer.all(), [2 * LETTER])


@reports_all
def test_print_again_after_a_reset(room):
    # It resets the first connection.
    printer = Printer(lambda connection: (reset_after(1) if printer.accepted == 1 else take)(connection), 2)
    programs = f"backend appsocket {TOOLS} appsocket\n"
    script = f"queue net appsocket://127.0.0.1:{printer.port}/ application/octet-stream retry-current-job\n"
    script += 'create net ann "Twice" 1 50 ""\nsend 1 5\npaper\nclose 1 page\ndrain 9\njobs\n'
    replies = served(room, "reset", programs, script)
    wanted = 'job 1 net 9 job-completed-successfully "ann" 5 0 "Twice"\nok 1\n'
    compare("a job whose printer resets once", replies[-len(wanted) :], wanted)
    compare("the bytes that the printer accepted of each connection", printer.all(), [b"p", b"paper"])


@pytest.mark.skipif(not os.path.isfile(SOCKET), reason=f"it needs {SOCKET} (Debian's package cups)")
@reports_all
def test_print_to_socket(room):
    printer = Printer(take)
    programs = f"backend socket {SOCKET}\nfilter prncount {TOOLS} prncount\n"
    convs = write(os.path.join(room, "convs"), "application/octet-stream application/x-prn 1 prncount\n")
    page = bytes(range(256)) * 200
    uri = f"socket://127.0.0.1:{printer.port}/?waiteof=false"
    script = printed("net", uri, "application/x-prn", "retry-job", document=page, title='"Bytes"') + b"drain 9\njobs\n"
    done = 'job 1 net 9 job-completed-successfully "ann" 51200 200 "Bytes"\nok 1\n'
    compare("the end of the job to the socket", served(room, "socket", programs, script, "--convs", convs)[-len(done) :], done)
    compare("the bytes that the printer received", printer.all(), [page])


@reports_all
def test_type_documents():
    script = b"queue lab x:/ application/octet-stream abort-job\ndisable lab\n"
    for job, (name, document, _) in enumerate(TYPED, 1):
        script += b'create lab ann "" 1 50 ""\nsend %d %d\n%s\nclose %d %s\n' % (job, len(document), document, job, name.encode())
    example = os.path.join(ROOT, "examples/office")
    words = [SHELL, "--types", os.path.join(example, "types"), "--convs", os.path.join(example, "convs")]
    replies = ran("the office's types and conversions", words, script)
    found = [line.split()[2] for line in replies.splitlines() if line.startswith("ok type ")]
    compare("the types", found, [media for _, _, media in TYPED])


@pytest.mark.skipif(not all(map(os.path.isfile, FILTERS)), reason="it needs the filters of Debian's package cups-filters")
@reports_all
def test_print_pages(room):
    folder = os.path.join(room, "pages")
    example = os.path.join(ROOT, "examples/office")
    words = [os.path.join(example, "pages.sh"), folder, os.path.join(example, "letter.txt"), "2"]
    replies = ran("pages.sh", words, longest=3 * LONGEST)
    ended = [line.split()[2:4] for line in replies.splitlines() if line.startswith("job ")]
    compare("the jobs of pages.sh", ended, [[kind, "9"] for kind in PAGES])
    for kind, begins in PAGES.items():
        with open(os.path.join(folder, f"page.{kind}"), "rb") as file:
            compare(f"the page for {kind}", file.read(len(begins)), begins)
