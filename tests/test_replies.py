"""The stored scripts, served to a client that waits for each reply before the next command.

No contract clause says when a reply is written, and a script from a file gets correct replies even if they are all written at its end. So each
command of crates/spool_scripts/data is sent only after the reply to the last one was read; a send is written with its bytes. The replies
must be the stored ones, and each must arrive within LONGEST.

A command has a reply of one line. `jobs` and `queues` have more, up to a line `ok N`. Empty lines and comments have none. At `# reopen` the
input ends, and the program is started again on the same folder. Text after the last line feed is written with the end of the input.

A spool that is shorter than the program creates one is written before. Scripts whose children, disk or limits are simulated are not served.
"""
import os
import select
import subprocess
import threading
import time

import pytest

from harness import stored_scripts
from harness.checks import Difference, holds, LONGEST, same
from harness.programs import SHELL

pytestmark = pytest.mark.needs("spool_shell")

WHOLE = 900  # seconds for a part of a script


class Program:
    """The program, with its output so far."""

    def __init__(self, words):
        pipe = subprocess.PIPE
        environment = {"LANG": "C", "PATH": "/bin"}
        self.process = subprocess.Popen(words, stdin=pipe, stdout=pipe, stderr=pipe, env=environment, bufsize=0)
        self.text = b""
        self.clock = threading.Timer(WHOLE, self.process.kill)
        self.clock.start()

    def give(self, text):
        try:
            self.process.stdin.write(text)
        except BrokenPipeError:
            raise Difference(f"it ended before {text[:60]!r}") from None

    def read_on(self, until):
        """Reads more of the output, until a moment."""
        ready, _, _ = select.select([self.process.stdout], [], [], max(0, until - time.monotonic()))
        more = os.read(self.process.stdout.fileno(), 65_536) if ready else b""
        self.text += more
        return bool(more)

    def read_lines(self, number):
        """The next `number` lines of the output."""
        until = time.monotonic() + LONGEST
        while self.text.count(b"\n") < number and self.read_on(until):
            pass
        lines = stored_scripts.lines_of(self.text)
        self.text = b"".join(lines[number:])
        return lines[:number]

    def read_rest(self):
        """The output up to its end, which must occur."""
        until = time.monotonic() + LONGEST
        while self.read_on(until):
            pass
        holds("it does not end with its input", time.monotonic() < until)
        return stored_scripts.lines_of(self.text)

    def end(self):
        self.clock.cancel()
        self.process.kill()
        self.process.wait()
        for file in (self.process.stdin, self.process.stdout, self.process.stderr):
            file.close()


def serve_part(words, part, stored):
    """Serves a part of a script, and returns the stored replies that are left."""
    program = Program(words)
    try:
        for text, is_answered, command in stored_scripts.commands(part):
            program.give(text)
            if not is_answered:
                continue
            number = stored_scripts.replies_to(command, stored)
            got = program.read_lines(number)
            holds(f"{text[:60]!r}: not {stored[:number][:2]!r}, but {got[:2]!r}", got == stored[:number])
            stored = stored[number:]
        program.process.stdin.close()
        rest = program.read_rest()
        holds(f"at the end: not {stored[:2]!r}, but {rest[:2]!r}", rest == stored[: len(rest)])
        if program.process.wait(LONGEST):
            raise Difference(f"status {program.process.returncode}: {program.process.stderr.read()[-200:]!r}")
        return stored[len(rest) :]
    finally:
        program.end()


@pytest.mark.parametrize("name", stored_scripts.names())
def test_each_reply_comes_before_the_next_command(name, room):
    """Over a new spool."""
    words = [SHELL, *stored_scripts.words_of(name, os.path.join(room, "r"))]
    stored = stored_scripts.lines_of(stored_scripts.stored_file(name, "replies"))
    for part in stored_scripts.parts(stored_scripts.stored_file(name, "script")):
        stored = serve_part(words, part, stored)
    same("replies that are left", stored, [])
