"""Calls that must not allocate do not allocate in a run of the program.

No contract clause can say that a call allocates nothing. The shell runs under valgrind's callgrind, once for each call of CALLS. Callgrind
collects only from the start of the call to its end, so every function that allocates then is among the collected ones. The run prints
documents with real children, through a filter and a side channel, makes a checkpoint while a job waits with its document, cancels jobs with
a start deadline by the clock, opens the spool again with a job in its second stage, and purges another one.

The shell is as Rattle's own compiler builds it, which inlines fewer functions than LLVM does. The functions that it inlines
(`push_move`, `Engine::new`, `answer`, `read_extent`) cannot be checked like this. It inlines the code for deadlines into `Table::commit`,
which is checked. Two controls must be seen to allocate: `Table::prepare` and `Executor::close`. A call that does not exist in the program,
or does not occur in the run, is a failure.
"""
import os
import re
import subprocess
import tempfile
from pathlib import Path

import pytest

from harness.checks import Difference, holds, LONGEST, same
from harness.files import write
from harness.programs import CRATES, TOOLS

pytestmark = pytest.mark.needs("valgrind", "spool_tools")


PROGRAM = os.path.join(CRATES, "spool_shell", "out", "spool_shell.by-rattle")

# The calls. For a journal's `append` it is `add`, for `advance` of a slot the exchanges that implement it, for a verdict `stage_verdict`,
# for `type_of` the evaluation of its rules, and for the list of a queue's waiting jobs its two changes.
CALLS = [
    "job_table::table::Table::commit",
    "job_table::table::Table::commit_moves",
    "job_table::table::Table::next",
    "job_table::store::Store::stage_verdict",
    "queue_sched::index::Index::insert",
    "queue_sched::waiting_entries::WaitingEntries::take",
    "gate_journal::add::add",
    "child_pipeline::runner::Runner::exchange",
    "child_pipeline::runner::Runner::exchange_progress",
    "child_pipeline::runner::Runner::release",
    "mime_rules::meaning::holds",
]

# Calls that do allocate in this run: if they are not seen to allocate, the check does not work.
CONTROLS = ["job_table::table::Table::prepare", "spool_engine::executor::Executor::close"]

# The functions that allocate or reallocate.
ALLOCATES = re.compile(r"^(?:rattle_alloc|rattle_realloc|malloc|calloc|realloc|aligned_alloc|posix_memalign|memalign)\b")


TYPES = "text/plain txt printable(0,1024)\n"
CONVS = "text/plain application/x-prn 10 texttoprn\n"
PROGRAMS = "filter texttoprn TOOLS texttoprn\nbackend spoolfile TOOLS spoolfile\nbackend sideask TOOLS sideask\nside TOOLS side-end\n"

FIRST = """queue hall spoolfile:FOLDER/letter.prn application/x-prn retry-job 0
queue lab sideask:FOLDER/id?id=MFG:X; text/plain retry-current-job
create hall ann "A letter" 1 50 "media=A4"
send 1 4
abcd
close 1 letter.txt
create lab ann "A question" 1 50 ""
send 2 4
efgh
close 2 a.txt
hold 2 indefinite
create lab bo "Waits" 1 60 ""
send 3 4
ijkl
checkpoint
release 2
round
round
close 3 b.txt
drain 9
create hall bo "Lost" 1 50 ""
send 4 4
mnop
close 4 c.txt
createby hall bo "Late" 1 40 "" 10
close 5 d.txt
createby lab bo "Late" 1 40 "" 20
close 6 e.txt
round
clock 30
jobs
"""
SECOND = "jobs\npurge 5\ndrain 9\njobs\n"


def symbols_of(program):
    listed = subprocess.run(["nm", program], check=True, capture_output=True, text=True)
    return [line.split(" ", 2)[2] for line in listed.stdout.splitlines() if len(line.split(" ", 2)) == 3]


def functions_of(call, symbols):
    """The functions of a call: the function itself, or its instances for each type."""
    return [it for it in symbols if it == call or it.startswith(call + "::<")]


def collected(profile):
    """The names of all functions in a profile."""
    names = re.findall(r"^c?fn=\(\d+\) (.+)$", Path(profile).read_text(encoding="utf-8", errors="replace"), re.M)
    return {re.sub(r"'\d+$", "", it) for it in names}


def serve(program, folder, functions, script, number):
    """Serves a script while only these functions are profiled, and returns the names of all functions that ran within them."""
    profile = os.path.join(folder, f"profile.{number}")
    words = ["valgrind", "--tool=callgrind", f"--callgrind-out-file={profile}"]
    words += [f"--toggle-collect={it}" for it in functions]
    words += [program, "--root", os.path.join(folder, "spool")]
    for name in ("types", "convs", "programs"):
        words += [f"--{name}", os.path.join(folder, name)]
    ended = subprocess.run(words, input=script.encode(), capture_output=True, timeout=LONGEST)
    holds(f"the program ended with {ended.returncode}: {ended.stderr[-600:].decode(errors='replace')}", not ended.returncode)
    return collected(profile), ended.stdout.decode()


def report(program, call, symbols):
    """The function that allocated during a call, or a text saying that the call did not occur. Empty if it did not allocate."""
    functions = functions_of(call, symbols)
    if not functions:
        return "does not exist in the program"
    with tempfile.TemporaryDirectory(prefix="calls-") as folder:
        os.mkdir(os.path.join(folder, "spool"))
        for name, text in (("types", TYPES), ("convs", CONVS), ("programs", PROGRAMS)):
            write(os.path.join(folder, name), text.replace("TOOLS", os.path.realpath(TOOLS)))
        names, replies = serve(program, folder, functions, FIRST.replace("FOLDER", folder), 1)
        if not all(part in replies for part in ("job 3 lab 9 job-completed-successfully", "job 4 hall 5", "job 5 hall 7", "job 6 lab")):
            raise Difference(f"the run had other results:\n{replies}")
        more, replies = serve(program, folder, functions, SECOND, 2)
        holds(f"the second run had other results:\n{replies}", "job 4 hall 9" in replies)
    names |= more
    if not any(it in names for it in functions):
        return "did not occur in the run"
    taken = sorted(it for it in names if ALLOCATES.match(it))
    return f"allocates in {' and '.join(taken)}" if taken else ""


@pytest.fixture(scope="module")
def symbols():
    if not os.path.exists(PROGRAM):
        pytest.skip("it needs crates/spool_shell/out/spool_shell.by-rattle, which `rt ci` builds")
    return symbols_of(PROGRAM)


@pytest.mark.parametrize("call", CALLS)
def test_it_does_not_allocate(call, symbols):
    same(call, report(PROGRAM, call, symbols), "")


@pytest.mark.parametrize("call", CONTROLS)
def test_an_allocation_is_seen(call, symbols):
    found = report(PROGRAM, call, symbols)
    holds(f"{call} allocates, which is not detected: {found}", found.startswith("allocates"))
