"""The spool reads the file of types of an installed CUPS, except lines with a rule `regex`.

None of the file's text belongs in this repository. The shell runs with `--types` and that file on empty standard input. For each line that
cannot be read it writes `spool: warning N KIND` to standard error. N is the number of the line; lines joined by backslashes count as one line
with the number of the first. A warning is expected if it is UnknownRule and its line has a rule `regex`, which the spool does not know.
"""
import os
import re
import subprocess

import pytest

from harness.checks import check, Difference, holds, reports_all
from harness.files import read
from harness.programs import SHELL

pytestmark = pytest.mark.needs("spool_shell")


FILE = "/usr/share/cups/mime/mime.types"

WARNING = re.compile(rb"spool: warning ([0-9]+) ([A-Za-z]+)")
# The name directly before its parenthesis, and not the end of a longer name.
REGEX = re.compile(rb"(?<![^\s,+()!&])regex\(")


def lines_of(text):
    """The lines with contents, by number: a backslash at the end joins the next line, with a blank in its place."""
    lines = {}
    begun = None
    for number, line in enumerate(text.replace(b"\r\n", b"\n").split(b"\n"), 1):
        if begun is None:
            if not line.strip(b" \t") or line.lstrip(b" \t").startswith(b"#"):
                continue
            begun = number
            lines[begun] = line
        else:
            lines[begun] += b" " + line
        if line.endswith(b"\\"):
            lines[begun] = lines[begun][:-1]
        else:
            begun = None
    return lines


def warnings_of(program, file):
    """The warnings that the program writes, in their order."""
    run = subprocess.run([program, "--types", file], input=b"", stdout=subprocess.PIPE, stderr=subprocess.PIPE)
    warnings = []
    for line in run.stderr.splitlines():
        found = WARNING.fullmatch(line.strip())
        if found:
            warnings.append((int(found[1]), found[2].decode()))
        else:
            raise Difference(f"other output: {line!r}")
    holds(f"the program ended with {run.returncode}", run.returncode == 0)
    return warnings


def shown(text):
    return text.decode(errors="replace").replace("\t", " ")


@pytest.mark.skipif(not os.path.exists(FILE), reason="it needs CUPS's file of types (Debian's package cups-daemon)")
@reports_all
def test_all_lines_are_read_except_those_with_regex():
    lines = lines_of(read(FILE))
    warned = set()
    for number, kind in warnings_of(SHELL, FILE):
        text = lines.get(number, b"")
        warned.add(number)
        check(kind == "UnknownRule" and REGEX.search(text), f"{number} {kind}: {shown(text)}")
    for number, text in lines.items():
        if REGEX.search(text) and number not in warned:
            # It is correct if `regex` occurs in a text.
            print(f"{number} has no warning: {shown(text)}")
