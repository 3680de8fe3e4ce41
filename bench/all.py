#!/usr/bin/env python3
"""Runs the benchmarks one after the other, and prints a table of all: all.py [--list] [--plots] [NAME..]

Each benchmark is a script of this folder, such as `disk`; without NAME all are run, which takes about an hour and a half. A row has the
seconds that it took and the load of the machine before and after it; its figures follow. On a busy machine the figures mean little: only
the ratios of one run can be compared with those of another. --list prints the purpose of each benchmark.

--plots draws how the time of some things grows (bench/plots.py), with matplotlib (Debian's package python3-matplotlib).

The programs are those in crates/NAME/out, or in the folder CEGMANDI_PROGRAMS. The status is 1 if a benchmark fails.
"""
import ast
import os
import subprocess
import sys
import time
from pathlib import Path

HERE = os.path.dirname(os.path.abspath(__file__))

# These are parts of others, or need arguments.
OTHERS = ("all", "harness", "ipp_client", "many_spools", "measures", "plots")

# After this many seconds a benchmark is killed.
SECONDS = 7_200


def names():
    scripts = sorted(name.removesuffix(".py") for name in os.listdir(HERE) if name.endswith(".py"))
    return [name for name in scripts if name not in OTHERS]


def purpose(name):
    return ast.get_docstring(ast.parse(Path(HERE, f"{name}.py").read_text(encoding="utf-8"))).partition("\n")[0]


def load():
    return f"{os.getloadavg()[0]:5.1f}"


def run(name):
    """Runs a benchmark, and prints its row and its figures. Returns whether it succeeded."""
    began, before = time.monotonic(), load()
    words = [sys.executable, os.path.join(HERE, f"{name}.py")]
    try:
        ran = subprocess.run(words, stdin=subprocess.DEVNULL, stdout=subprocess.PIPE, stderr=subprocess.STDOUT, text=True, timeout=SECONDS, cwd=os.environ.get("TMPDIR", "/tmp"))
        status, text = ran.returncode, ran.stdout
    except subprocess.TimeoutExpired as late:
        status, text = f"not within {SECONDS} s", (late.stdout or b"").decode(errors="replace")
    print(f"{name:16} {time.monotonic() - began:7.0f} s {before} {load()}  {'' if status == 0 else f'FAILED: {status}'}")
    print("".join(f"    {line}\n" for line in text.splitlines()), flush=True)
    return status == 0


def main():
    words = [word for word in sys.argv[1:] if not word.startswith("--")]
    flags = set(sys.argv[1:]) - set(words)
    unknown = [word for word in words if word not in names()] + sorted(flags - {"--list", "--plots"})
    if unknown:
        sys.exit(f"no benchmark {' '.join(unknown)}: --list prints them")
    if "--list" in flags:
        print("\n".join(f"{name:16} {purpose(name)}" for name in names()))
        return 0
    if "--plots" in flags:
        return subprocess.run([sys.executable, os.path.join(HERE, "plots.py"), *words]).returncode
    print(f"{'benchmark':16} {'time':>9}   load: before, after")
    return 0 if all([run(name) for name in words or names()]) else 1


if __name__ == "__main__":
    sys.exit(main())
