"""Input that arrives in the smallest and in large pieces."""
import pytest

from harness.checks import same_lines
from harness.large_run import Script, SEND, TYPE, within
from harness.programs import SHELL

pytestmark = [pytest.mark.alone, pytest.mark.needs("spool_shell", "spool_tools")]

MEBIBYTE = 1 << 20

# The number of bytes that are written singly.
SINGLE = 150_000


def script_of(length):
    """A script of at least `length` bytes: jobs with documents of all lengths, and comments."""
    script = Script()
    script.ask(f"queue lab spoolfile:/out {TYPE} abort-job", "ok")
    number, written = 0, 0
    listed = []
    while written < length:
        number += 1
        size = number * 997 % (SEND + 1) if length > MEBIBYTE else number * 31 % 1_000
        script.ask(f'create lab ann "Job {number}" 1 50 "n={number}"', f"ok job {number}")
        script.send(number, bytes([number % 256]) * size, f"ok bytes {size}")
        script.ask("# " + "\\" * (number % 300))
        script.ask(f"close {number} page", f"ok type {TYPE} stages 1")
        listed.append(f'job {number} lab 3 none "ann" {size} 0 "Job {number}"')
        written += size + 150
    script.ask("jobs", *listed, f"ok {number}")
    # The last line has no line feed.
    script.given.append(b"cancel 1")
    script.wanted.append(b"ok\n")
    return script


def serve_in_pieces(place, script, length):
    text = b"".join(script.given)
    pieces = (text[at : at + length] for at in range(0, len(text), length))
    ran = place.run([SHELL, "--size", str(1 << 27)], pieces)
    same_lines(f"replies to pieces of {length}", ran.output, b"".join(script.wanted))


@within(137_000)
def test_input_in_pieces(place):
    """Scripts whose text arrives in single bytes, and in pieces of a mebibyte through a pipe of the same capacity."""
    serve_in_pieces(place, script_of(SINGLE), 1)
    serve_in_pieces(place, script_of(40 * MEBIBYTE), MEBIBYTE)
