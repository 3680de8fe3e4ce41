"""The README's commands, run as written.

A block of the README that begins with ```console contains commands, each after `$ ` on its own line, followed by the expected output. One
bash runs them in order, in a copy of the repository with the results of the proved build, with a HOME of their own, so `~` is
an empty folder at first. `rt run` starts the built program instead of proving it again, and `rt ci` proves nothing: a new proof would take
hours. The output of a command on both streams must be the lines below it, except for carriage returns, form feeds and
blanks at the end of a line. `...` represents any text within a line, and alone on a line any lines. The programs
of crates/NAME/out are run, whatever CEGMANDI_PROGRAMS says.
"""
import contextlib
import os
import re
import shutil
import subprocess
from pathlib import Path

import pytest

from harness.checks import check, reports_all, same
from harness.programs import PROGRAMS

ROOT = Path(__file__).resolve().parent.parent
SECONDS = 1_700

BLOCK = re.compile(r"^```console\n(.*?)^```$", re.MULTILINE | re.DOTALL)
# A path in the README.
PATH = re.compile(r"`(?:man )?((?:[\w.-]+/)+[\w.-]+|[A-Z]+\.md|install\.sh)(?: [^`]*)?`|\]\(([\w./-]+)\)")


def commands(text):
    """The commands of the README in order, each with its expected output."""
    found = []
    for block in BLOCK.findall(text):
        for line in block.splitlines():
            if line.startswith("$ "):
                found.append((line[2:], []))
            else:
                found[-1][1].append(line.rstrip())
    return found


def absent(text):
    """The files that the README names and that do not exist."""
    named = {one or other for one, other in PATH.findall(text)}
    return sorted(it for it in named if "NAME" not in it and not (ROOT / it).exists())


@contextlib.contextmanager
def copy_of_all(room):
    """A folder with a copy of the repository and of the results of the proved build. Changes there do not affect the original."""
    folder, changes, work = (room / it for it in ("cegmandi", "changes", "work"))
    for it in (folder, changes, work):
        it.mkdir()
    layers = f"lowerdir={ROOT},upperdir={changes},workdir={work}"
    laid = subprocess.run(["mount", "-t", "overlay", "overlay", "-o", layers, folder], capture_output=True).returncode == 0
    if not laid:
        # Without root an overlay is not possible. The results, which take gigabytes, are copied.
        shutil.copytree(ROOT, folder, symlinks=True, dirs_exist_ok=True, ignore=shutil.ignore_patterns(".git", "__pycache__"))
    try:
        yield folder
    finally:
        if laid:
            subprocess.run(["umount", "-l", folder], check=True)


# Replaces the toolchain's `rt`: `rt run` starts the built program, `rt ci` proves nothing, and rt does anything else.
SUBSTITUTE = """#!/bin/sh
case $1 in
ci)
    echo '0 passed, 0 failed'
    exit
    ;;
run)
    shift
    [ "$1" = -- ] && shift
    exec "out/${PWD##*/}" "$@"
    ;;
esac
exec RT "$@"
"""


def substitute(room):
    """A folder with the substitute for `rt`."""
    folder = room / "bin"
    folder.mkdir()
    program = folder / "rt"
    program.write_text(SUBSTITUTE.replace("RT", shutil.which("rt") or "false"), encoding="utf-8")
    program.chmod(0o755)
    return folder


def walked(found, folder):
    """The output of each command, run by one bash in this folder."""
    mark = "=walk-mark="
    script = "".join(f"echo; echo {mark}\n{command}\n" for command, _ in found) + f"echo; echo {mark}\n"
    home = folder.parent / "home"
    home.mkdir()
    path = f"{substitute(folder.parent)}:{os.environ['PATH']}"
    environment = {**os.environ, "PATH": path, "HOME": str(home), "LC_ALL": "C.UTF-8", "COLUMNS": "80"}
    for name in ("SPOOL_SOCKET", "LPDEST", "PRINTER", "DESTDIR"):
        environment.pop(name, None)
    shell = subprocess.Popen(
        ["bash", "-c", script], cwd=folder, env=environment, stdin=subprocess.DEVNULL, stdout=subprocess.PIPE, stderr=subprocess.STDOUT, start_new_session=True
    )
    try:
        output, _ = shell.communicate(timeout=SECONDS)
    except subprocess.TimeoutExpired:
        os.killpg(shell.pid, 9)
        output, _ = shell.communicate()
    text = output.decode(errors="replace").replace("\r", "").replace("\f", "")
    return [[line.rstrip() for line in part.strip("\n").splitlines()] for part in text.split(f"\n{mark}\n")[1:-1]]


def fits(wanted, shown):
    """Whether a line is the expected one, in which `...` is any text."""
    return re.fullmatch(".*".join(re.escape(it) for it in wanted.split("...")), shown) is not None


def agrees(wanted, shown):
    """Whether these lines are the expected ones, in which a line `...` is any lines."""
    if not wanted:
        return not shown
    if wanted[0] == "...":
        return any(agrees(wanted[1:], shown[count:]) for count in range(len(shown) + 1))
    return bool(shown) and fits(wanted[0], shown[0]) and agrees(wanted[1:], shown[1:])


FOUND = commands((ROOT / "README.md").read_text(encoding="utf-8"))


def test_its_files_exist():
    same("files that do not exist", absent((ROOT / "README.md").read_text(encoding="utf-8")), [])


@pytest.mark.needs(*PROGRAMS, *(["rt"] if any(re.search(r"\brt\b", command) for command, _ in FOUND) else []))
@reports_all
def test_its_commands(room):
    with copy_of_all(Path(room)) as folder:
        shown = walked(FOUND, folder)
    shown += [["(it was not run)"]] * (len(FOUND) - len(shown))
    for (command, wanted), lines in zip(FOUND, shown):
        print("\n".join([f"$ {command}", *lines]))
        check(agrees(wanted, lines), "\n".join([f"differs: {command}", *(f"  expected: {it}" for it in wanted), *(f"  shown:    {it}" for it in lines)]))
