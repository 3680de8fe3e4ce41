"""crates/ipp_codec against a model of RFC 8010 (harness/ipp_octets.py).

`crates/ipp_codec_tests` has messages that clients and cupsd(8) sent, in `stdin` and, an answer of 133 attributes, in `data`. The program of
that crate cuts each of them after every octet, and changes single octets. It must find as many messages, messages that need more octets and
faults as the model. --write stores the lines of the model in `stdout` of that crate, which the gate compares.
"""
import os
import subprocess
from pathlib import Path

import pytest

from harness.checks import holds, LONGEST, same
from harness.ipp_octets import lines
from harness.programs import CRATES, path_of

pytestmark = pytest.mark.needs("ipp_codec_tests")

CRATE = os.path.join(CRATES, "ipp_codec_tests")


def contents(*path):
    return Path(CRATE, *path).read_bytes()


COUNT, SEED = map(int, contents("args").split()[1:])


def run(octets, count=COUNT, seed=SEED):
    words = [path_of("ipp_codec_tests"), "exchanges", str(count), str(seed)]
    return subprocess.run(words, input=octets, stdout=subprocess.PIPE, check=True, timeout=5 * LONGEST).stdout.decode().splitlines()


@pytest.mark.parametrize("path", [("stdin",), ("data", "printer_attributes")], ids=["exchanges", "answer"])
def test_it_finds_what_the_model_finds(path):
    octets = contents(*path)
    same("the lines", run(octets), list(lines(octets, COUNT, SEED)))


def test_the_stored_lines_are_those_of_the_model(request):
    stored = os.path.join(CRATE, "stdout")
    wanted = "".join(f"{line}\n" for line in lines(contents("stdin"), COUNT, SEED))
    if request.config.getoption("--write"):
        Path(stored).write_text(wanted)
    same("the lines", contents("stdout").decode(), wanted)


def test_each_damaged_message_is_counted(seed, is_long):
    """Each run on damaged messages ends with status 0."""
    octets, least, total = contents("stdin"), 1_000_000 if is_long else 50_000, 0
    while total < least:
        seed += 1
        found = sum(int(word) for line in run(octets, 1_000, seed) for word in line.split()[-3:])
        holds("none is counted", found)
        total += found
