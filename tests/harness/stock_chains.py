"""Tries the chains of examples/office/convs: each kind of document for each type of queue.

One document of each kind is printed in two copies on nine queues at once, each with a file as its printer. The script checks the file: the
type, the number of pages, whether something is on each, and for a PDF the paper size. It also asks CUPS's program `cupsfilter`, which reads
the same files, for the filters.
"""
import contextlib
import os
import re
import shutil
import subprocess
from pathlib import Path

from harness.checks import check, compare, LONGEST, same
from harness.files import read
from harness.programs import TOOLS
from harness.service import Folder, send_document
from harness.stock_documents import boxes, OFFICE

# The columns of the page's table, and the kinds of documents.
COLUMNS = [("text", "HTML"), ("PNG", "JPEG", "GIF", "TIFF"), ("PDF",), ("PostScript",)]
COPIES = 2
PAPER, POINTS = "A5", "420 x 595"


@contextlib.contextmanager
def service(place):
    """A client of a service with the files of examples/office, and its folder, during a `with`."""
    folder = Folder(place.room)
    try:
        text = Path(place.office, "stock-programs").read_text()
        folder.write("stock", text.replace("@libdir@/cegmandi/spool_tools", TOOLS).replace("@libdir@/cegmandi", place.office))
        folder.size = 67_108_864
        client = folder.open(words=["--programs", folder.at("stock"), "--types", f"{place.office}/types", "--convs", f"{place.office}/convs", "--quiet"])
        client.connection.settimeout(300)
        yield client, folder
    finally:
        folder.end()
        folder.remove()


def print_on(client, folder, targets, document):
    """Prints a document on a queue of each of these types. Returns the reply to the close of each job, how it ends, and its output."""
    replies = []
    for number, target in enumerate(targets, 1):
        client.does(f"queue q{number} spoolfile:{folder.at(f'q{number}')} {target} abort-job")
        same("create", client.ask(f'create q{number} ann "A page" {COPIES} 50 "media={PAPER}"\n'), f"ok job {number}")
        send_document(client, number, document)
        replies.append(client.ask(f"close {number} page\n"))
    for number, reply in enumerate(replies, 1):
        row = client.listing(f"wait {number}\n")[0].split() if "stages" in reply else []
        yield reply, " ".join(row[3:5]), read(folder.at(f"q{number}")) or b""


def conversions(place):
    """The lines of convs: source, target and filter."""
    text = Path(place.office, "convs").read_text()
    lines = [line.split() for line in text.splitlines() if line.strip() and not line.startswith("#")]
    return [(source, target, name) for source, target, _, name in lines]


def leads(lines, source, target, filters):
    """Whether these filters convert one type to another by the lines."""
    types = {source}
    for name in filters:
        types = {end for begin, end, by in lines if begin in types and by == name}
    return target in types or (not filters and ("*/*", target, "-") in lines)


def pages_of(place, output):
    """The number of pages of a file, or None if no program here can count them."""
    if output[:4] == b"RaS2":
        return output.count(b"PwgRaster\0")
    if output.startswith((b"%PDF", b"%!")):
        found = boxes(place.room, output)
        return None if found is None else len([box for box in found if box != [b"0"] * 4])
    return None


def paper_of(place, output):
    """The paper size of a PDF's first page in points, or None if Poppler's pdfinfo is not installed."""
    if not shutil.which("pdfinfo"):
        return None
    path = place.write("paper", output)
    output = subprocess.run(["pdfinfo", path], capture_output=True, text=True).stdout
    found = re.search(r"^Page size: +(.*?) pts", output, re.M)
    return found[1] if found else "none"


# The first bytes of each type.
BEGINS = {
    "application/vnd.cups-pdf": b"%PDF",
    "application/pdf": b"%PDF",
    "application/postscript": b"%!",
    "application/vnd.cups-postscript": b"%!",
    "application/vnd.cups-raster": b"RaS2",
    "image/pwg-raster": b"RaS2PwgRaster\0",
    "application/vnd.hp-pclxl": b"\x1b%-12345X",
}


def wrong_of(place, target, kind, filters, output):
    """The error in the printed output, or an empty text."""
    document = OFFICE[kind][0]
    if not filters:
        return "" if output == COPIES * document else f"{len(output)} bytes, and not the document {COPIES} times"
    if target == "application/x-prn":
        wanted = COPIES * (document.replace(b"\n", b"\r\n") + b"\x0c")
        return "" if output == wanted else f"{output!r:.80}, and not {wanted!r:.80}"
    if not output.startswith(BEGINS[target]):
        return f"it begins with {output[:20]!r}"
    if target == "application/vnd.hp-pclxl":
        return "" if b"HP-PCL XL" in output else "no PCL XL"
    if target == "application/vnd.cups-pdf" and paper_of(place, output) not in (None, POINTS):
        return f"a paper of {paper_of(place, output)}"
    # texttopdf and the others print no copies, and pstops leaves them to the printer.
    once = "pdftopdf" not in filters
    pages = pages_of(place, output)
    return "" if pages in (None, 1 if once else COPIES) else f"{pages} pages"


# The kinds of documents, each with the number of its column.
KINDS = {kind: column for column, names in enumerate(COLUMNS) for kind in names}


def filters_of(cell):
    return re.findall(r"`([^`]*)`", cell)


def missing(place, rows):
    """The filters of the chains that are not installed, or None."""
    used = {name for _, cells in rows.chains for cell in cells for name in filters_of(cell)} - {"texttoprn"}
    absent = sorted(name for name in used if not os.path.isfile(os.path.join(place.filters, name)))
    return f"it needs {', '.join(absent)}" if absent else None


def settings_of(place):
    """A configuration of CUPS with the office's files of types and conversions."""
    types = os.path.join(place.room, "data", "mime")
    os.makedirs(types)
    for name in ("types", "convs"):
        shutil.copy(os.path.join(place.office, name), os.path.join(types, f"office.{name}"))
    # CUPS knows only the types that a file of types names.
    place.write("data/mime/more.types", "".join(f"{target}\n" for _, target, _ in conversions(place)))
    return place.write("cups-files.conf", f"ServerRoot {place.room}\nDataDir {place.room}/data\nServerBin {place.binaries}\n")


def ask_cups(place, rows):
    """Compares the page's filters with those that CUPS finds by the same files."""
    settings = settings_of(place)
    for kind, column in KINDS.items():
        document = place.write("asked", OFFICE[kind][0])
        for target, cells in rows.chains:
            filters = filters_of(cells[column])
            # It knows no filters except CUPS's, and counts none as one of its own.
            if filters and "texttoprn" not in filters:
                words = ["cupsfilter", "-c", settings, "--list-filters", "-m", target, document]
                compare(f"{kind} to {target}", subprocess.run(words, capture_output=True, text=True, timeout=LONGEST).stdout.split(), filters)


def try_kind(place, rows, kind):
    """Prints a document of a kind on queues of each target."""
    lines = conversions(place)
    document, media = OFFICE[kind]
    with service(place) as (client, folder):
        results = list(print_on(client, folder, [target for target, _ in rows.chains], document))
    for (target, cells), (reply, end, output) in zip(rows.chains, results):
        cell = cells[KINDS[kind]]
        filters = filters_of(cell)
        compare(f"{target}: the reply", reply, f"ok type {media} unprintable" if cell == "none" else f"ok type {media} stages {len(filters) + 1}")
        if cell == "none" or "unprintable" in reply:
            continue
        check(leads(lines, media, target, filters), f"{target}: convs has no way by {filters}")
        wrong = wrong_of(place, target, kind, filters, output) if end.startswith("9 ") else f"state {end}"
        check(not wrong, f"{target}: {wrong}")
        print(f"{target} by {', '.join(filters) or 'no filter'}: {len(output)} bytes, {pages_of(place, output) or 'no'} pages")
