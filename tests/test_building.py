"""build.py on a small repository.

`rt new` makes a library and a program in a fresh folder, where build.py proves and builds them. Run again, it proves nothing. After an
interrupt it continues. If a body is wrong, it fails with the message of the prover. A substitute for the gate shows the same progress.
"""
import os
import shutil
import signal
import subprocess
import sys
import time
from pathlib import Path

import pytest

from harness.checks import check, reports_all

pytestmark = [pytest.mark.long, pytest.mark.needs("rt")]

ROOT = Path(__file__).resolve().parent.parent
GATE = "#!/bin/sh\necho 'rt: low proved'\nsleep 1\necho 'rt: app is kept: an earlier run'\necho '2 passed, 0 failed'\n"


def repository(folder):
    """A library, a program above it, and build.py."""
    folder.mkdir()
    subprocess.run(["git", "init", "--quiet", folder], check=True)
    for name, template in (("low", "start_lib"), ("app", "start")):
        subprocess.run(["rt", "new", f"crates/{name}", template], cwd=folder, check=True, capture_output=True)
        (folder / "crates" / name / "BUILD.bazel").unlink()
    (folder / "crates.txt").write_text("# The crates.\nlow:\napp: low check\n")
    (folder / "build-times.txt").write_text("low 0.10\napp 0.10 0.05\n")
    (folder / ".ci").mkdir()
    (folder / ".ci/run").write_text(GATE)
    (folder / ".ci/run").chmod(0o755)
    shutil.copy2(ROOT / "build.py", folder)


def built(folder, *words):
    run = subprocess.run([sys.executable, folder / "build.py", *words], capture_output=True, text=True)
    return run.returncode, run.stdout.splitlines(), run.stderr


def proofs(folder):
    """The number of proofs in the log."""
    return (folder / "out/build.log").read_text().count("logic=proved ")


def interrupted(folder):
    words = [sys.executable, folder / "build.py", "app"]
    run = subprocess.Popen(words, stdout=subprocess.DEVNULL, stderr=subprocess.DEVNULL, start_new_session=True)
    time.sleep(2)
    # Not SIGINT, which a shell ignores in the background.
    os.killpg(run.pid, signal.SIGTERM)
    run.wait()
    check(run.returncode != 0, "build.py ends with 0 although it was interrupted")


@reports_all
def test_build_py(room):
    folder = Path(room, "repository")
    repository(folder)
    interrupted(folder)
    status, lines, errors = built(folder, "app")
    check(status == 0 and lines[-2:] == ["2 of 2 crates proved", "crates/app/out/app"], f"after an interrupt: {status} {lines} {errors}")
    check(any("minutes left" in line for line in lines), f"no estimate: {lines}")
    count = proofs(folder)
    status, lines, errors = built(folder, "app")
    check(status == 0 and lines[-2:] == ["2 of 2 crates proved", "crates/app/out/app"], f"again: {lines}")
    check(proofs(folder) <= count + 1, "a second run proves the library again")
    status, lines, errors = built(folder)
    passed = "1 of 2 crates proved; about 0 minutes left" in lines and "2 passed, 0 failed" in lines
    check(status == 0 and passed, f"the gate: {lines} {errors}")
    check((folder / "out/gate.txt").read_text().endswith("2 passed, 0 failed\n"), "out/gate.txt is not the gate's output")
    code = folder / "crates/low/src/lib.rt"
    code.write_text(code.read_text().replace("\n    x\n", "\n    7\n"))
    status, lines, errors = built(folder, "app")
    check(status == 1 and any("low::echo: not proved" in line for line in lines), f"a wrong body: {status} {lines} {errors}")
    for words in (["nothing"], ["--jobs", "0", "app"], ["--jobs", "2"]):
        check(built(folder, *words)[0] != 0, f"build.py accepts {words}")
