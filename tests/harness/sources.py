"""The crates of the repository and their sources, for the scripts of the gate and for those that people run."""
import re
from dataclasses import dataclass
from pathlib import Path

HERE = Path(__file__).resolve().parents[2]
CRATES = HERE / "crates"

FUNCTION = re.compile(r"( *)(?:pub(?:\([a-z]+\))? )?(?:const )?(?:unsafe )?fn (\w+)")


def crates():
    """The names of the crates, sorted."""
    return sorted(it.name for it in CRATES.iterdir() if it.is_dir())


def uses():
    """The crates of crates.txt, lowest first, each with those of the repository that it uses."""
    found = {}
    for line in (HERE / "crates.txt").read_text(encoding="utf-8").splitlines():
        name, colon, used = line.partition("#")[0].partition(":")
        if colon:
            found[name.split()[0]] = used.split()
    return {name: [it for it in used if it in found] for name, used in found.items()}


def files_of(crate, *parts):
    """The sources in these folders of a crate."""
    return [it for part in parts for it in sorted((CRATES / crate / part).rglob("*")) if it.suffix in (".rt", ".antt")]


@dataclass(frozen=True)
class Function:
    """A function: its indent and name, and the numbers of its first line, of the first line of its body and of its last line, from 1."""

    indent: str
    name: str
    first: int
    opens: int
    last: int


def functions_in(lines):
    """The functions of a source, as rt fmt formats them: code outside a function is indented no deeper than its first line."""
    for first, line in enumerate(lines):
        head = FUNCTION.match(line)
        if head:
            outer = (i for i in range(first, len(lines)) if re.match(rf"{head[1]}\S", lines[i]))
            opens = next((i for i in outer if lines[i].endswith(("{", ";", "}"))), first)
            last = next(outer, opens) if lines[opens].endswith("{") else opens
            yield Function(head[1], head[2], first + 1, opens + 1, last + 1)


def shown(path):
    """A path as messages have it: relative to the repository, if it is in it."""
    return path.relative_to(HERE) if path.is_relative_to(HERE) else path


def judged(faults, counted=""):
    """Prints the errors, a line each, and then their number if a word for them is given; or `none`. Returns the status of the script."""
    found = list(faults)
    number = [f"{len(found)} {counted}"] if found and counted else []
    print("\n".join([*found, *number] or ["none"]))
    return 1 if found else 0
