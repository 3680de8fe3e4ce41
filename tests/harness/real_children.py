"""A filter and a backend that record which stages ran, the files that name them, and the folder of a shell that runs them."""
import os
import re
import subprocess

from harness import spool_model as model
from harness.checks import holds, LONGEST, words_of_faults
from harness.files import read, write
from harness.programs import SHELL

# The shell's log lines about stages and programs, which are not errors of the shell.
NOTICE = re.compile(r"spool: (?:job \d+|filter|backend|side program)\b.*\n")

# A filter that passes on its input, with effects of each kind, and a backend that ends with the last part of its URI. Each adds a line to
# the file `ran`, by one write: the job, the attempt and the stage.
FILTER = """#!/bin/sh
echo "$1 $SPOOL_ATTEMPT $SPOOL_STAGE" >> FOLDER/ran
cat >&2 <<'END'
STATE: +media-empty,toner-low
STATE: -media-empty
PAGE: 1 2
PAGE: total 9
ATTR: a=b c='d e'
INFO: at work
END
cat "${6:--}"
"""
BACKEND = """#!/bin/sh
echo "$1 $SPOOL_ATTEMPT $SPOOL_STAGE" >> FOLDER/ran
exit "${DEVICE_URI##*/}"
"""

# A document named `.x` has one filter before a queue of a/b or c/d, and three before one of a/d.
TYPES = "a/a x\n"
CONVS = "a/a a/b 10 f\na/a c/d 10 f\na/a a/c 10 g\na/c a/e 10 f\na/e a/d 10 g\n"
PROGRAMS = "filter f FOLDER/f\nfilter g FOLDER/f\nbackend s FOLDER/s\n"


def faults_in(errors):
    """The words of the faults on standard error, without the log lines about stages and programs."""
    return words_of_faults(NOTICE.sub("", errors))


class Children:
    """The programs in a folder. A further line of the programs file may be given."""

    def __init__(self, folder, line=""):
        self.ran = os.path.join(folder, "ran")
        self.words = []
        files = {"f": FILTER, "s": BACKEND, "types": TYPES, "convs": CONVS, "programs": PROGRAMS + line}
        for name, text in files.items():
            path = write(os.path.join(folder, name), text.replace("FOLDER", folder), 0o700)
            # The arguments of the shell that name the files.
            self.words += [f"--{name}", path] if len(name) > 1 else []

    def stages(self):
        """The stages that ran since the last call, each a job, an attempt and a stage."""
        if not os.path.exists(self.ran):
            return []
        with open(self.ran, encoding="ascii") as file:
            keys = [tuple(map(int, line.split())) for line in file]
        os.remove(self.ran)
        return keys


class ShellFolder:
    """The folder of a shell, with its spool and the programs of its children."""

    def __init__(self, folder, size, line=""):
        self.folder = folder
        self.root = os.path.join(folder, "r")
        self.file = os.path.join(self.root, "spool.disk")
        os.makedirs(self.root)
        self.children = Children(folder, line)
        self.words = [SHELL, "--root", self.root, "--size", str(size), *self.children.words]

    def content(self):
        return read(self.file) or b""

    def table(self):
        """The table of the file, or an empty one if the file does not exist."""
        content = self.content()
        return model.stored_table(content) if content else model.Table()

    def serve(self, script):
        """The lines of the replies to a script, which must cause no error."""
        done = subprocess.run(self.words, input=script, capture_output=True, timeout=LONGEST)
        faults = faults_in(done.stderr.decode())
        holds(f"it ended with {done.returncode} and {done.stderr!r}", done.returncode == 0 and not faults)
        return done.stdout.decode().splitlines()

    def ended(self):
        """The numbers of the jobs that have ended."""
        return {number for number, job in self.table().jobs.items() if job.has_ended()}
