"""Programs whose allocations are counted, and one of them refused, by the library of count_allocations.c."""
from pathlib import Path

from harness.programs import compiled


def variables_for(log, refused=0):
    """The variables of such a program: it counts in the file `log`, and this allocation is refused, or none."""
    return {"LD_PRELOAD": compiled("count_allocations.c", "-shared", "-fPIC"), "REFUSED": str(refused), "COUNTED": log}


def counted(log):
    """The number of allocations in this file so far, and whether one was refused."""
    lines = [line.split(" ", 2) for line in Path(log).read_text(encoding="utf-8", errors="replace").splitlines()]
    return int(lines[-1][0]), any(words[1] == "refused" for words in lines)
