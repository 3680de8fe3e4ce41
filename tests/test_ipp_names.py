"""The numbers and names of IPP are those of libcups.

`crates/ipp_names/specs` has a table for operations, status codes, and states of jobs and printers. libcups gives the name of each number.
"""
import ctypes
import ctypes.util
import re
from pathlib import Path

import pytest

from harness.checks import same
from harness.programs import CRATES

SPECS = Path(CRATES, "ipp_names", "specs")
LIBRARY = "libcups.so.2"


def rows_of(module, definition, name):
    """The number and the name of each row of the tables `DEFINITION_number` and `DEFINITION_NAME`."""
    text = (SPECS / f"{module}.antt").read_text()
    numbers = dict(re.findall(rf"^{definition}_number (\w+) = (\w+)$", text, re.M))
    names = dict(re.findall(rf'^{definition}_{name} (\w+) = codes "([^"]+)"$', text, re.M))
    if not numbers or numbers.keys() != names.keys():
        raise ValueError(f"{module}: the tables have no rows, or different ones")
    return [(int(number, 0), names[variant]) for variant, number in numbers.items()]


@pytest.fixture(scope="module")
def library():
    if not ctypes.util.find_library("cups"):
        pytest.skip("it needs libcups (Debian's package libcups2)")
    library = ctypes.CDLL(LIBRARY)
    for function in (library.ippOpString, library.ippErrorString, library.ippEnumString):
        function.restype = ctypes.c_char_p
    return library


@pytest.mark.parametrize("module, definition, name, attribute", [
    ("IppOperations", "operation", "name", "ippOpString"),
    ("IppStatuses", "status", "keyword", "ippErrorString"),
    ("IppJobStates", "job_state", "keyword", "job-state"),
    ("IppPrinterStates", "printer_state", "keyword", "printer-state"),
])
def test_names_are_those_of_libcups(library, module, definition, name, attribute):
    rows = rows_of(module, definition, name)
    if "-" in attribute:
        theirs = [(number, library.ippEnumString(attribute.encode(), number).decode()) for number, _ in rows]
    else:
        theirs = [(number, getattr(library, attribute)(number).decode()) for number, _ in rows]
    same(module, rows, theirs)
