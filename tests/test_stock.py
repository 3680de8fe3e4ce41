"""docs/STOCK.md says how the stock filters and backends of CUPS behave.

Each filter of /usr/lib/cups/filter (Debian's packages `cups` and `cups-filters`) is tried with the shell. The filter gets a document of its
kind from the spooler, as the first stage of a job, and a backend stores the filter's output. It is tried as it is, then through
examples/office/with-cups-env, and then with the row's PPD. A try succeeds if the job completes, and the output is of its kind and has a page
with something on it. The first try that succeeds is compared with the row. So is the filter's package, if `dpkg` knows it.

The backends print to a socket, to a private CUPS (harness/cups.py), and to a terminal in place of a device. The backend `socket` also prints a
filter's output to a printer that sends data back; the printer must receive the job, byte for byte. Then the chains of examples/office are
tried, by the service. No filter or backend may be installed that the page does not have.
"""
import os
import re
import shutil
import subprocess
import tempfile
from pathlib import Path

import pytest

from harness import stock_backends, stock_chains
from harness.checks import holds, reports_all, same
from harness.files import write
from harness.programs import ROOT
from harness.stock_documents import DOCUMENTS, DRAWING, is_blank
from harness.stock_runs import Place, Rows

PAGE = os.path.join(ROOT, "docs/STOCK.md")
OFFICE = os.path.join(ROOT, "examples/office")
DRIVERS = "/usr/share/cups/drv"
FOOMATIC = "/usr/lib/cups/driver/foomatic-db-compressed-ppds"


pytestmark = [pytest.mark.cups, pytest.mark.needs("spool_shell", "spool_tools"), pytest.mark.xdist_group("stock")]

AS_IS, WRAPPED, WITH_PPD, NO = "as it is", "with-cups-env", "with-cups-env and a PPD", "no"

# The options that a filter requires, and the programs that it calls.
OPTIONS = {"sys5ippprinter": "output-format=pdf"}
PROGRAMS = {
    "mupdftoraster": "mutool",
    "texttobrf": "file2brl",
    **dict.fromkeys(["imagetobrf", "imagetoubrl", "vectortobrf", "vectortoubrl"], "convert"),
    **dict.fromkeys(["cgmtopdf", "cmxtopdf", "emftopdf", "svgtopdf", "wmftopdf", "xfigtopdf"], "inkscape"),
}
BRAILLE = ("brf", "textbrf", "ubrl", "index", "embosser", "vector", "svg", "cgm", "cmx", "emf", "wmf", "xfig", "imagetobrf", "imagetoubrl", "imageubrl")

# The first bytes of a filter's output, for printer files that have no type of their own, by the filter.
PRINTERS = {
    "brftoembosser": b"",
    "commandtoescpx": b"\x1b@",
    "commandtopclx": b"\x1bE",
    "foomatic-rip": b"\x1bE",
    "imageubrltoindexv3": b"\x1bD",
    "imageubrltoindexv4": b"\x1bD",
    "rastertoepson": b"\x1b@",
    "rastertoescpx": b"\x1b@",
    "rastertohp": b"\x1bE",
    "rastertolabel": b"",
    "rastertopclx": b"\x1b%-12345X",
    "textbrftoindexv3": b"\x1bD",
    "textbrftoindexv4": b"\x1bD",
}
# And by type.
BEGINS = {
    "text/plain": b"Dear Bo",
    "application/postscript": b"%!",
    "application/vnd.cups-postscript": b"%!",
    "application/pclm": b"%PDF-1.3\n%PCLm",
    "application/vnd.hp-pclxl": b"\x1b%-12345X",
    "image/pwg-raster": b"RaS2PwgRaster",
}

# Documents that a filter creates from another one: the filter, and its input.
MADE = {
    "application/vnd.cups-raster": ("gstoraster", "application/vnd.cups-pdf"),
    "application/vnd.cups-brf": ("texttobrf", "text/plain"),
    "application/vnd.cups-paged-brf": ("brftopagedbrf", "application/vnd.cups-brf"),
    "application/vnd.cups-ubrl": ("imagetoubrl", "image/png"),
}
# Filters whose rasters are those of imagetoraster.
OF_PICTURES = ("rastertopdf", "rastertops", "rastertopwg")
COMMANDS = {"commandtops": b"#CUPS-COMMAND\nPrintSelfTestPage\n"}
CLEAN = b"#CUPS-COMMAND\nClean all\n"
# A text in whose Braille no line has a hyphen.
PLAIN = b"Dear Bo\n"

PCLM = """*cupsPclmStripHeightPreferred: "16"
*cupsPclmStripHeightSupported: "16"
*cupsPclmRasterBackSide: "rotated"
*cupsPclmSourceResolutionSupported: "300dpi,600dpi"
*cupsPclmSourceResolutionDefault: "300dpi"
*cupsPclmCompressionMethodPreferred: "flate"
"""


class Descriptions:
    """The PPDs that the page names, made as it says."""

    def __init__(self, room):
        self.room = os.path.join(room, "ppds")
        os.mkdir(self.room)

    def text(self, row):
        """The PPD of a row, or None if it cannot be created."""
        source, name = row.ppd
        path = os.path.join(self.room, f"{source}-{name}.ppd")
        if not os.path.isfile(path):
            self.make(source, name, path)
        return Path(path).read_text() + (PCLM if row.name == "rastertopclm" else "") if os.path.isfile(path) else None

    def make(self, source, name, path):
        if source == "foomatic":
            if os.path.isfile(FOOMATIC):
                ran = subprocess.run([FOOMATIC, "cat", f"foomatic-db-compressed-ppds:0/ppd/foomatic-ppd/{name}.ppd"], capture_output=True)
                if ran.stdout:
                    write(path, ran.stdout)
            return
        driver = os.path.join(DRIVERS, source)
        if shutil.which("ppdc") and os.path.isfile(driver):
            folder = os.path.join(self.room, source)
            subprocess.run(["ppdc", "-d", folder, driver], capture_output=True)
            made = os.path.join(folder, f"{name}.ppd")
            if os.path.isfile(made):
                os.rename(made, path)


class Filters:
    """Tries the filters of the page."""

    def __init__(self, place):
        self.place, self.descriptions = place, Descriptions(place.room)

    def missing(self, row):
        """The requirements of a row that are missing."""
        if not os.path.isfile(os.path.join(self.place.filters, row.name)):
            return "it is not installed"
        program = PROGRAMS.get(row.name)
        if program and not shutil.which(program):
            return f"the program {program} is not installed"
        if row.name.startswith(BRAILLE) and not os.path.isdir("/usr/share/liblouis"):
            return "liblouis is not installed (Debian's package liblouis-data)"
        if row.ppd and self.descriptions.text(row) is None:
            return f"no program creates the PPD {row.ppd[1]} (Debian's packages cups-ppdc and foomatic-db-compressed-ppds)"
        return None

    def seen(self, row):
        """How the filter runs, and the messages of the last try."""
        said = ""
        for way in (AS_IS, WRAPPED, WITH_PPD):
            if way == WITH_PPD and not row.ppd:
                continue
            ppd = self.descriptions.text(row) if way == WITH_PPD else None
            self.place.describe(ppd)
            document = self.document(row, row.source)
            end, message, output = self.place.filtered(row, way == AS_IS, document, OPTIONS.get(row.name, ""))
            if end.startswith("9 ") and self.is_good(row, output):
                return way, f"{len(output)} bytes"
            said = f"{end}, {len(output)} bytes, {message}"
        return NO, said

    def document(self, row, source):
        """A document of a type, created with the PPD of this try."""
        if source == "application/vnd.cups-command":
            return COMMANDS.get(row.name, CLEAN)
        if source in MADE:
            name, below = MADE[source]
            if row.name in OF_PICTURES:
                name, below = "imagetoraster", "image/png"
            given = PLAIN if below == "text/plain" else self.document(row, below)
            return self.place.made(name, below, given, source)
        return DOCUMENTS.get(source, DRAWING)

    def is_good(self, row, output):
        if not output:
            return False
        if row.target is None:
            return output.startswith(PRINTERS[row.name])
        if "pdf" in row.target:
            return b"%PDF" in output[:1_024] and not is_blank(self.place.room, output)
        if row.target == "application/vnd.cups-raster":
            return output[:4] in (b"RaS2", b"RaS3", b"3SaR", b"2SaR") and 1_800 < len(output)
        return output.startswith(BEGINS.get(row.target, b"")) and not is_blank(self.place.room, output)


def package_of(path):
    """The package of a file, or None if it is not known."""
    if not shutil.which("dpkg-query"):
        return None
    output = subprocess.run(["dpkg-query", "-S", path], capture_output=True, text=True).stdout
    found = re.match(r"([^:,\s]+)[:,]", output)
    return found[1] if found else None


ROWS = Rows(Path(PAGE).read_text(encoding="utf-8"))


@pytest.fixture(scope="module")
def place():
    with tempfile.TemporaryDirectory(prefix="stock-") as room:
        yield Place(room, OFFICE)


@pytest.fixture(scope="module")
def filters(place):
    return Filters(place)


@pytest.mark.parametrize("row", ROWS.filters, ids=lambda row: row.name)
def test_filter(filters, row):
    missing = filters.missing(row)
    if missing:
        pytest.skip(f"{row.name}: {missing}")
    package = package_of(os.path.join(filters.place.filters, row.name))
    holds(f"it is of the package {package}, and not {row.package}", package in (None, row.package))
    way, said = filters.seen(row)
    same(f"how it runs: {said}", way, row.runs)


@pytest.mark.parametrize("row", ROWS.backends, ids=lambda row: row.name)
def test_backend(place, row):
    missing = stock_backends.missing(place, row.name)
    if missing:
        pytest.skip(f"{row.name}: {missing}")
    way, said = stock_backends.seen(place, row.name)
    same(f"how it runs: {said}", way, row.runs)


@pytest.mark.skipif(not os.access("/usr/lib/cups/backend/socket", os.X_OK), reason="it needs the backend socket (Debian's package cups)")
def test_a_printer_that_answers(place):
    """What it sends to the backend `socket` as a later stage is not added to the job."""
    end, got = stock_backends.answered(place)
    holds(f"{end}, {got!r:.100}", end.startswith("9 ") and got == [b"x" * 960_000])


def test_filters_of_the_chains_are_those_of_convs(place):
    used = {name for _, cells in ROWS.chains for cell in cells for name in stock_chains.filters_of(cell)}
    same("the filters of the page", used, {name for _, _, name in stock_chains.conversions(place)} - {"-"})


@pytest.mark.needs("cupsfilter")
@reports_all
def test_chains_in_cups(place):
    missing = stock_chains.missing(place, ROWS)
    if missing:
        pytest.skip(missing)
    stock_chains.ask_cups(place, ROWS)


@pytest.mark.needs("spool_service")
@pytest.mark.parametrize("kind", stock_chains.KINDS)
@reports_all
def test_chains(place, kind):
    missing = stock_chains.missing(place, ROWS)
    if missing:
        pytest.skip(missing)
    stock_chains.try_kind(place, ROWS, kind)


def test_all_are_in_the_page(place):
    same("filters", ROWS.unlisted(place.filters, {row.name for row in ROWS.filters}), [])
    same("backends", ROWS.unlisted(place.backends, {row.name for row in ROWS.backends}), [])
