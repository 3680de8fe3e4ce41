#!/usr/bin/env python3
"""Tries the wrong bodies that the gate leaves out: more_edits.py [--parallel N] [CRATE..]

The gate tries the edits in crates/NAME/must-fail. All others are in crates/NAME/more-edits, in the same form. This script tries those of
the named crates, or of all, in copies of the crates with the check results in out/. N crates (default 2) are tried in parallel. An edit
that is not refused stops no other crate.

A function is proved from its own body and the contracts of the functions that it calls. So edits in the bodies of different functions are
tried together, by one check: an edit is refused if a goal of a function that it edits is not proved. A function that is reported only
because it calls an unproved one does not count. All other edits are tried alone: an edit outside a body, edits whose functions are not
reported, and edits whose check did not reach the prover. Any unproved goal counts for these.

It prints a line for each crate once it is done: the number of its edits, how many of these were refused, how many were refused only because
a proof names something that the edit removed (name/limit), how many were not refused, how many are bad (they cannot be applied, read or
tried), the processor minutes, and the numbers of checks of several edits and of one. Then it prints the output of the check for each edit
that no clause refused. The last line is `N edits refused`, with status 0, or says how many were not, with status 1.
"""
import argparse
import re
import shutil
import subprocess
import sys
import tempfile
from collections import Counter
from concurrent.futures import ThreadPoolExecutor, as_completed
from dataclasses import dataclass, field
from pathlib import Path

from edits_apply import fault_of, pairs_of
from harness.programs import ended
from harness.sources import CRATES, functions_in, HERE, uses

REFUSED, WEAKLY, MISSED, BAD = "refused", "name/limit", "not refused", "bad"
COLUMNS = (REFUSED, WEAKLY, MISSED, BAD)

CYCLE = re.compile(r" *#\[cycle\((\w+)\)\]")
OWNER = re.compile(r" *impl(?:<.*?>)? (\w+)")
# The output of a check: a goal that is not proved, and after the goals of a function the function itself; and a goal that its answer does
# not prove, by the folder of the function's proof.
GOAL = re.compile(r"note: (?:\./)?(src/\S+?):(\d+):\d+: it is not proved")
FUNCTION_END = re.compile(r"fn (.+?): (.*)")
ANSWER = re.compile(r"(?:\./)?proofs/(\S+)/(?:Answers|Invariants)\.antt:\d+:\d+: error")
# Any of these refuses an edit that is tried alone,
FAILURE = re.compile(r"note: \S+:\d+:\d+:|\S+:\d+:\d+: error")
# but not a proof that names something that the edit removed, or one that cites such a proof,
NAMES = re.compile(r"(\./)?proofs/.*(has no field|is not in scope|has no `|was not admitted)")
# nor a text of src/ or specs/ that cannot be read: if an edit makes a statement false, the goal is named before the error.
UNREAD = re.compile(r"(\./)?(src|specs)/\S+?:\d+:\d+: error: (?!`[^`]*`: )")


@dataclass(frozen=True)
class Function:
    """A function of a source file: the type that it is a method of, unless it belongs to a trait; its cycle, if it is in one; its first
    line, the first line of its body, and its last line.
    """

    path: str
    owner: str
    name: str
    cycle: str
    first: int
    opens: int
    last: int

    def place(self):
        """The key that the edits of one check must not share. Functions of one cycle have one proof."""
        return (self.path, self.cycle or self.first)

    def has_goal(self, function, path, line):
        return self.path == path and self.first <= line <= self.last and self.name in function.split("::")

    def has_proof(self, folder):
        """Whether its proof is in this folder: a method's proof is in the folder of its type, wherever the type is declared."""
        if self.owner:
            return f"/{folder}".endswith(f"/{self.owner}/{self.name}")
        module = self.path.removeprefix("src/").removesuffix(".rt")
        return folder == (self.name if module in ("lib", "main") else f"{module}/{self.name}")


@dataclass
class Edit:
    """An edit: the lines that it writes, by their file and number, and the functions whose bodies contain them."""

    name: str
    lines: dict
    functions: list
    is_in_bodies: bool

    def places(self):
        return {it.place() for it in self.functions}


@dataclass
class Tried:
    """The results of a crate's edits: the kind of each with the output, processor seconds, the number of checks."""

    crate: str
    kinds: dict = field(default_factory=dict)
    seconds: float = 0.0
    together: int = 0
    alone: int = 0

    def row(self):
        counts = Counter(kind for kind, _ in self.kinds.values())
        numbers = " ".join(f"{counts[kind]:>11}" for kind in COLUMNS)
        return f"{self.crate:20} {len(self.kinds):>5} {numbers} {self.seconds / 60:>8.1f} {self.together:>8} {self.alone:>5}"


def heads():
    numbers = " ".join(f"{it:>11}" for it in COLUMNS)
    return f"{'crate':20} {'edits':>5} {numbers} {'minutes':>8} {'together':>8} {'alone':>5}"


def with_lower(crate, lower):
    """The crate and all that it uses, directly or not."""
    found, left = set(), [crate]
    while left:
        it = left.pop()
        if it not in found:
            found.add(it)
            left += lower[it]
    return found


def copy_to(room, crate, lower):
    """Copies the crate and all that it uses, without edits."""
    copied = with_lower(crate, lower)
    (room / "crates").mkdir()
    shutil.copy(HERE / "HANDLES", room)
    lines = (HERE / "crates.txt").read_text().splitlines()
    (room / "crates.txt").write_text("".join(f"{it}\n" for it in lines if it.partition(":")[0] in copied))
    for it in copied:
        subprocess.run(["cp", "-a", CRATES / it, room / "crates" / it], check=True)
        for edits in ("must-fail", "more-edits"):
            shutil.rmtree(room / "crates" / it / edits, ignore_errors=True)


def cycle_of(lines, first):
    """The cycle of functions that an attribute above a function's first line names, if any."""
    for line in reversed(lines[:first]):
        cycle = CYCLE.match(line)
        if cycle or not line.strip():
            return cycle[1] if cycle else ""
    return ""


def owner_of(lines, first, indent):
    """The type in whose own `impl` a function is, or `-` in that of a trait, or none outside of both."""
    for line in reversed(lines[:first] if indent else []):
        if line and not line.startswith(indent):
            owner = OWNER.match(line)
            return owner[1] if owner and " for " not in line else "-"
    return ""


def functions_of(path, lines):
    """The functions of a file."""
    return [
        Function(path, owner_of(lines, it.first - 1, it.indent), it.name, cycle_of(lines, it.first - 1), it.first, it.opens, it.last)
        for it in functions_in(lines)
    ]


def read_edit(path, folder):
    """An edit that applies to the crate in this folder. Its texts are parts of lines, so that lines keep their numbers."""
    texts, before = {}, {}
    for file, old, new in pairs_of(path.read_text(encoding="utf-8"))[0]:
        if file not in texts:
            texts[file] = before[file] = (folder / file).read_text(encoding="utf-8")
        texts[file] = texts[file].replace(old, new)
    made, functions, is_in_bodies = {}, [], True
    for file, text in texts.items():
        old_lines, new_lines = before[file].split("\n"), text.split("\n")
        inside = functions_of(file, old_lines)
        for number in (i + 1 for i, it in enumerate(new_lines) if it != old_lines[i]):
            made[file, number] = new_lines[number - 1]
            around = [it for it in inside if it.opens < number < it.last]
            is_in_bodies = is_in_bodies and bool(around)
            functions += around[-1:]
    return Edit(path.name, made, functions, is_in_bodies)


def groups_of(edits):
    """The edits in groups, so that no two edits of a group touch the same function; an edit outside the bodies is a group of its own."""
    groups, alone = [], [[it] for it in edits if not it.is_in_bodies]
    for edit in (it for it in edits if it.is_in_bodies):
        free = (group for group in groups if not any(edit.places() & it.places() for it in group))
        group = next(free, None)
        if group is None:
            groups.append([edit])
        else:
            group.append(edit)
    return groups + alone


def check(folder, result):
    """Checks the crate in this folder, adds the time and the check to `result`, and returns the status and the output."""
    with tempfile.TemporaryFile("w+", errors="replace") as log:
        words = ["rt", "check", "--jobs", "1"]
        status, used = ended(words, cwd=folder, stdin=subprocess.DEVNULL, stdout=log, stderr=log)
        log.seek(0)
        output = log.read()
    result.seconds += used.ru_utime + used.ru_stime
    return status, output


def check_edited(folder, edits, result):
    """Checks the crate with these edits on top of the results for the crate itself, and restores the crate."""
    lines = {place: text for edit in edits for place, text in edit.lines.items()}
    before = {path: (folder / path).read_text(encoding="utf-8") for path, _ in lines}
    for path, text in before.items():
        made = [lines.get((path, number), it) for number, it in enumerate(text.split("\n"), 1)]
        (folder / path).write_text("\n".join(made), encoding="utf-8")
    try:
        return check(folder, result)
    finally:
        for path, text in before.items():
            (folder / path).write_text(text, encoding="utf-8")
        shutil.rmtree(folder / "out")
        subprocess.run(["cp", "-a", folder / "kept", folder / "out"], check=True)


def reached_prover(status, output):
    is_judged = any(it.startswith("logic=not-proved") for it in output.splitlines())
    return status == 1 and is_judged and not any(UNREAD.match(it) for it in output.splitlines())


def failures(output):
    """The goals that are not proved: the function that the check reports for each, and its file and line; and the folders of the proofs
    with an answer that no longer proves its goal, although all names in it exist.
    """
    found, waiting = [], []
    for line in output.splitlines():
        goal, end = GOAL.match(line), FUNCTION_END.match(line)
        if goal:
            waiting.append((goal[1], int(goal[2])))
        elif end:
            found += [(end[1], *it) for it in waiting if end[2] != "proved"]
            waiting = []
    answers = [ANSWER.match(it) for it in output.splitlines() if not NAMES.match(it)]
    return found, {it[1] for it in answers if it}


def refused_by(group, output):
    """The edits that a check of all of them refuses: it reports a function that they edit."""
    goals, folders = failures(output)
    edited = {it for edit in group for it in edit.functions}
    refused = {it for it in edited for goal in goals if it.has_goal(*goal)}
    for folder in folders:
        found = [it for it in edited if it.has_proof(folder)]
        refused.update(found if len(found) == 1 else [])
    return [edit for edit in group if not refused.isdisjoint(edit.functions)]


def kind_alone(status, output):
    """The kind of an edit that was tried alone, and the output."""
    lines = output.splitlines()
    if status == 0:
        return MISSED, "NOT REFUSED: the crate is still proved with this edit"
    if not reached_prover(status, output):
        unread = [it for it in lines if UNREAD.match(it)] or lines[:6]
        return BAD, "\n    ".join(["BAD EDIT: it did not reach the prover:", *unread])
    found = [it for it in lines if FAILURE.match(it)]
    if found and all(NAMES.match(it) for it in found):
        return WEAKLY, f"refused only because a proof names something that the edit removed: {found[0]}"
    return REFUSED, ""


def try_group(folder, group, result):
    """Tries these edits together, and then alone those whose functions were not reported. A group that does not reach the prover is tried
    in halves.
    """
    if not group:
        return
    status, output = check_edited(folder, group, result)
    if len(group) == 1:
        result.alone += 1
        result.kinds[group[0].name] = kind_alone(status, output)
        return
    result.together += 1
    if not reached_prover(status, output):
        try_group(folder, group[: len(group) // 2], result)
        try_group(folder, group[len(group) // 2 :], result)
        return
    refused = refused_by(group, output)
    for edit in group:
        if edit in refused:
            result.kinds[edit.name] = (REFUSED, "")
        else:
            try_group(folder, [edit], result)


def tried(crate, lower):
    """Tries the edits of a crate in a copy."""
    result, edits = Tried(crate), []
    for path in sorted((CRATES / crate / "more-edits").iterdir()):
        fault = fault_of(path, CRATES / crate)
        result.kinds[path.name] = (BAD, f"BAD EDIT: {fault}")
        if not fault:
            edits.append(read_edit(path, CRATES / crate))
    with tempfile.TemporaryDirectory(prefix="more-edits-") as room:
        copy_to(Path(room), crate, lower)
        folder = Path(room) / "crates" / crate
        status, output = check(folder, result)
        if status:
            last = "\n    ".join(output.splitlines()[-6:])
            result.kinds |= {it.name: (BAD, f"NOT TRIED: the crate itself is not proved:\n    {last}") for it in edits}
            return result
        subprocess.run(["cp", "-a", folder / "out", folder / "kept"], check=True)
        for group in groups_of(edits):
            try_group(folder, group, result)
    return result


def report(results):
    """Prints the output for each edit that no clause refused, and the last line; returns the status."""
    failed = count = 0
    for result in results:
        for name, (kind, text) in result.kinds.items():
            count += 1
            if kind != REFUSED:
                failed += 1
                print(f"{result.crate}/{name}: {text}")
    if failed:
        print(f"more_edits: no clause refused {failed} of {count} edits")
        return 1
    print(f"{count} edits refused")
    return 0


def main():
    words = argparse.ArgumentParser(description="Tries the wrong bodies that the gate leaves out.")
    words.add_argument("--parallel", type=int, default=2, metavar="N", help="the number of crates that are tried in parallel")
    words.add_argument("crates", nargs="*", metavar="CRATE")
    given = words.parse_args()
    lower = uses()
    with_edits = [it for it in lower if (CRATES / it / "more-edits").is_dir()]
    crates = list(dict.fromkeys(given.crates)) or with_edits
    lacking = [it for it in crates if it not in with_edits]
    if lacking:
        print(f"more_edits: {lacking[0]} is not a crate with a folder more-edits")
        return 1
    print(heads(), flush=True)
    results = []
    with ThreadPoolExecutor(max(1, given.parallel)) as pool:
        for ended in as_completed([pool.submit(tried, crate, lower) for crate in crates]):
            results.append(ended.result())
            print(results[-1].row(), flush=True)
    return report(results)


if __name__ == "__main__":
    sys.exit(main())
