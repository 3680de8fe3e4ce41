"""The rows of docs/STOCK.md, and the runs of the spooler and of single filters."""
import os
import re
import shutil
import subprocess
from dataclasses import dataclass

from harness.checks import LONGEST
from harness.child_folder import printed
from harness.files import read, write
from harness.programs import SHELL

KEEP = """#!/bin/sh
cat > "${DEVICE_URI#keep:}"
"""
# Filters for Braille require a language.
SETTINGS = "CUPS_SERVERBIN={binaries}\nLANG=en_US.UTF-8\n"


@dataclass
class Filter:
    name: str
    package: str
    source: str
    # None if the output is a printer's own language.
    target: object
    runs: str
    # The source of the PPD, and its name.
    ppd: object


@dataclass
class Backend:
    name: str
    package: str
    runs: str


class Rows:
    """The tables of the page, and the observed results."""

    def __init__(self, text):
        parts = dict(re.findall(r"^## ([^\n]*)\n(.*?)(?=^## |\Z)", text, re.M | re.S))
        self.filters = [filter_of(cells) for cells in cells_of(parts["Filters"])]
        self.backends = [Backend(plain(cells[0]), plain(cells[1]), cells[2]) for cells in cells_of(parts["Backends"])]
        self.chains = [(plain(cells[0]), cells[1:]) for cells in cells_of(parts["An office's documents"])]

    def unlisted(self, folder, names):
        """The files of the folder that the page does not have."""
        there = sorted(os.listdir(folder)) if os.path.isdir(folder) else []
        return [name for name in there if os.path.isfile(os.path.join(folder, name)) and name not in names and not name.endswith(".sh")]


def cells_of(part):
    """The rows of the first table of a part, without its head."""
    lines = [line for line in part.splitlines() if line.startswith("|")]
    return [[cell.strip() for cell in line.strip("|").split("|")] for line in lines[2:]]


def plain(cell):
    return cell.strip("`")


def filter_of(cells):
    target = plain(cells[3]) if cells[3].startswith("`") else None
    ppd = re.findall(r"`([^`]*)`", cells[5])
    return Filter(plain(cells[0]), plain(cells[1]), plain(cells[2]), target, cells[4], tuple(ppd) if ppd else None)


class Place:
    """The folders of the stock programs, and a folder to try them in."""

    binaries = "/usr/lib/cups"
    filters, backends = f"{binaries}/filter", f"{binaries}/backend"

    def __init__(self, room, office):
        self.room, self.office, self.runs = room, office, 0
        self.wrapper = os.path.join(room, "with-cups-env")
        shutil.copy(os.path.join(office, "with-cups-env"), self.wrapper)
        os.mkdir(os.path.join(room, "ppd"))
        self.write("cups-env", SETTINGS.format(binaries=self.binaries))
        os.chmod(self.write("keep", KEEP), 0o755)

    def write(self, name, text):
        return write(os.path.join(self.room, name), text)

    def describe(self, ppd):
        """Gives the queue a PPD, or none."""
        path = os.path.join(self.room, "ppd", "stock.ppd")
        if ppd is not None:
            self.write(path, ppd)
        elif os.path.exists(path):
            os.remove(path)

    def run(self, programs, types, convs, uri, target, document, options="", user="ann"):
        """How a job ends, and the queue's message."""
        self.runs += 1
        spool = os.path.join(self.room, f"s{self.runs}")
        os.mkdir(spool)
        words = [SHELL, "--root", spool, "--size", "33554432"]
        for kind, text in (("programs", programs), ("types", types), ("convs", convs)):
            words += ["--" + kind, self.write(f"{kind}{self.runs}", text)]
        job = {"user": user, "title": '"A page"', "options": f'"{options}"', "document": document, "name": "page.document"}
        script = printed("stock", uri, target, **job) + b"drain 9\njobs\nqueues\n"
        try:
            ran = subprocess.run(words, input=script, capture_output=True, timeout=3 * LONGEST)
        except subprocess.TimeoutExpired:
            return "no end", ""
        lines = ran.stdout.decode(errors="replace").splitlines()
        job = next((line for line in lines if line.startswith("job ")), " ".join(lines) + ran.stderr.decode(errors="replace"))
        queue = next((line for line in lines if line.startswith("queue ")), '""')
        shutil.rmtree(spool)
        return " ".join(job.split()[3:5]), queue[queue.index('"') :]

    def filtered(self, row, as_it_is, document, options):
        """How a job of this filter ends, the queue's message, and the filter's output."""
        kept = os.path.join(self.room, "kept")
        if os.path.exists(kept):
            os.remove(kept)
        path = f"{self.filters}/{row.name}" if as_it_is else f"{self.wrapper} {row.name}"
        programs = f"filter {row.name} {path}\nbackend keep {self.room}/keep\n"
        target = row.target or "printer/stock"
        # A type is reached from itself without a filter, so this one gets another name.
        source = "test/document" if row.source == target else row.source
        types, convs = f"{source} document\n", f"{source} {target} 1 {row.name}\n"
        end, message = self.run(programs, types, convs, f"keep:{kept}", target, document, options)
        return end, message, read(kept) or b""

    def made(self, name, source, document, target):
        """A filter's output for a document, run as the spooler does, with the queue's PPD."""
        path = self.write("document", document)
        variables = {"CHARSET": "utf-8", "CONTENT_TYPE": source, "FINAL_CONTENT_TYPE": target, "DEVICE_URI": "keep:/", "LANG": "C"}
        variables |= {"PATH": "/usr/bin:/bin", "PRINTER": "stock", "TMPDIR": self.room}
        ran = subprocess.run([self.wrapper, name, "1", "ann", "A page", "1", "", path], env=variables, capture_output=True, timeout=3 * LONGEST)
        return ran.stdout
