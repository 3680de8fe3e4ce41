"""The system calls of the shell, as strace (Debian's package `strace`) shows them.

Only the calls of the shell itself are included, and not those of its children.
"""
import os
import re
import subprocess
from pathlib import Path

from harness.checks import LONGEST

SHOWN = 200_000  # bytes of a write that strace shows

# The calls whose text is the data that is read or written.
DATA = ("read", "write", "pread64", "pwrite64", "recvfrom", "sendto")

LINE = re.compile(r"(\w+)\((.*)\) += (-?\d+|\?)(.*)")
STRING = re.compile(r'"((?:\\x[0-9a-f]{2})*)"(?:\.\.\.)?')
FILE = re.compile(r"(\d+|AT_FDCWD)<((?:\\x[0-9a-f]{2})*)>")


def unescaped(text):
    return bytes.fromhex(text.replace("\\x", ""))


class Call:
    """A call: its name, its number among those of this name, its result, and the files in its arguments, by their paths."""

    def __init__(self, line, counts):
        found = LINE.fullmatch(line)
        if not found:
            raise ValueError(f"strace shows {line[:200]!r}, which cannot be read")
        self.name, self.words, result, self.rest = found.groups()
        counts[self.name] = self.number = counts.get(self.name, 0) + 1
        self.result = -1 if result == "?" else int(result)
        self.texts = [unescaped(text) for text in STRING.findall(self.words)]
        self.files = [os.fsdecode(unescaped(path)) for _, path in FILE.findall(self.words)]
        self.error = self.rest.split()[0] if self.result < 0 and self.rest.split() else ""
        self.is_injected = "(INJECTED)" in self.rest

    def descriptor(self):
        return int(re.match(r"\d+", self.words)[0])

    def data(self):
        return self.texts[0] if self.texts else b""

    def last_number(self):
        return int(self.words.rsplit(", ", 1)[1])

    def paths(self):
        """The paths in its arguments, and that of its file."""
        return self.files if self.name in DATA else [os.fsdecode(text) for text in self.texts] + self.files

    def __str__(self):
        return f"{self.name} number {self.number} of {', '.join(map(repr, self.paths()))[:200]}"


def calls_in(trace, is_call=LINE.fullmatch):
    """The calls of a trace: of its lines that are calls."""
    counts = {}
    return [Call(line, counts) for line in Path(trace).read_text(encoding="ascii").splitlines() if is_call(line)]


def run(words, cwd, script, trace, names, inject=None):
    """Runs a program over a script, and returns its result and its calls of these names. One may fail: `inject` is its name, its number
    among these, and its error.
    """
    strace = ["strace", "-y", "-xx", "-s", str(SHOWN), "-o", trace, "-e", "trace=" + ",".join(f"?{name}" for name in names)]
    if inject:
        name, number, error = inject
        strace += ["-e", f"inject={name}:error={error}:when={number}"]
    done = subprocess.run([*strace, *words], cwd=cwd, input=script, capture_output=True, timeout=LONGEST)
    return done, calls_in(trace, lambda line: not re.match(r"(---|\+\+\+)", line))
