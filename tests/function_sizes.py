#!/usr/bin/env python3
"""Lists the functions of crates by what their proofs keep: function_sizes.py [--most N] [--folder FOLDER] CRATE..

A check keeps its work in crates/CRATE/out/incremental, or in the tree FOLDER. A megabyte there means about 1.2 seconds of an idle
processor, on any machine and next to any other work. For each function the script prints the kilobytes of its cases (the paths through its
code), of its proof and answers, and of all that is kept of it, the greatest first, at most N (default 40). The line before them has the sum
of the crate, the number of its functions, and the part that belongs to none of them, such as definitions and lemmas.

Functions that were changed since the last check are listed as of that check. With status 1 nothing is kept of a crate: run `rt check` there.
"""
import argparse
import os
import re
import sys
from collections import Counter
from pathlib import Path

from harness.sources import HERE

KEPT = re.compile(r"Rattle-(\w+?)(?:-(?:proofs|specs))?\.(.*)\.oantt")
# What is kept of a function under its name: its cases in Lts, and its proof in these.
CASES, PROOFS = "Lts", {"Proof", "Answers", "Invariants", "Given", "Goals", "Tie"}


def files_of(crate, folder):
    """The names of the kept files of a crate, without those of older toolchains, and the bytes of each."""
    kept = max((folder / "crates" / crate / "out" / "incremental").glob("antt-checked-*"), key=os.path.getmtime, default=None)
    found = Counter()
    for file in kept.iterdir() if kept else []:
        match = KEPT.fullmatch(file.name)
        if match and match[1] == crate:
            found[match[2].removeprefix("proofs.").removeprefix("contracts.")] += file.stat().st_size
    return found


def sizes_of(kept):
    """The bytes of cases, of proofs and of all for each function, and the bytes of all else."""
    functions = {name.removesuffix(f".{CASES}"): [0, 0, 0] for name in kept if name.endswith(f".{CASES}")}
    others = 0
    for name, size in kept.items():
        words = name.split(".")
        owner = next((it for it in (".".join(words[:n]) for n in range(len(words), 0, -1)) if it in functions), None)
        if not owner:
            others += size
            continue
        part = name.removeprefix(owner).strip(".").partition(".")[0]
        functions[owner][0] += size * (part == CASES)
        functions[owner][1] += size * (part in PROOFS)
        functions[owner][2] += size
    return functions, others


def main():
    words = argparse.ArgumentParser()
    words.add_argument("--most", type=int, default=40)
    words.add_argument("--folder", type=Path, default=HERE)
    words.add_argument("crates", nargs="+")
    given = words.parse_args()
    status = 0
    for crate in given.crates:
        kept = files_of(crate, given.folder)
        if not kept:
            print(f"{crate}: nothing is kept")
            status = 1
            continue
        functions, others = sizes_of(kept)
        print(f"{crate}: {sum(kept.values()) >> 20} MB, {len(functions)} functions, {others >> 20} MB of none of them")
        print(f"{'cases':>8}{'proof':>8}{'all':>8}  function (kilobytes)")
        for name, row in sorted(functions.items(), key=lambda it: -it[1][2])[: given.most]:
            print("".join(f"{it >> 10:8}" for it in row) + f"  {name}")
    return status


if __name__ == "__main__":
    sys.exit(main())
