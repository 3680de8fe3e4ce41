#!/usr/bin/env python3
"""Lists the lemmas and definitions of proofs/ and specs/ that are never used: unused_lemmas.py

A name is used if it occurs outside its own definition: in another definition of any crate, in an answer or an invariant, in a contract, or
by its path in the tactic of a function. Lemmas of nested modules are not checked. The last line is `none`, with status 0, or `N that
nothing names`, with status 1.
"""
import re
import sys
from collections import Counter

from harness.sources import crates, files_of, judged, shown

# A signature at the beginning of a line, `pub name : type`, and a record or a data type, `pub record Name ..`.
SIGNATURE = re.compile(r"^(?:pub |abbrev |unfoldable )*([^\s:{(]+) :(?: |$)")
TYPE = re.compile(r"^(?:pub )?(?:record|data) ([^\s:({]+)")

# The characters of a name.
WORD = re.compile(r"[^\s(){}\[\],;.]+")

# The files that the checker reads: their definitions are answers, which the checker uses itself.
ASKED = ("Answers.antt", "Invariants.antt", "Proof.antt", "Lib.antt")


def texts(ending):
    """The text of each source with this ending."""
    files = [it for crate in crates() for it in files_of(crate, "specs", "src", "proofs") if it.suffix == ending]
    return {it: it.read_text(encoding="utf-8") for it in files}


def without_remarks(text):
    return "\n".join(line.split("-- ")[0] if line.startswith("--") or " -- " in line else line for line in text.split("\n"))


def definitions(text):
    """The definitions of a file: each name with its own lines."""
    found = []
    for line in text.split("\n"):
        is_one = SIGNATURE.match(line) or TYPE.match(line)
        if is_one:
            found.append((is_one[1], [line]))
        elif line.startswith("module"):
            found.append(("", []))
        elif found:
            found[-1][1].append(line)
    return [(name, "\n".join(lines)) for name, lines in found if name]


def words(text):
    return Counter(part for word in WORD.findall(text) for part in {word, word.strip("'?"), *word.split("◌"), *word.split("::")})


def words_used(logic):
    """How often each word occurs in the logic, given as texts, and in the code, without imports and comments."""
    uses = Counter()
    for text in logic:
        uses += words("\n".join(line for line in text.split("\n") if not line.startswith(("use ", "pub use ", "mod ", "pub mod "))))
    for text in texts(".rt").values():
        uses += words("\n".join(line for line in text.split("\n") if not line.lstrip().startswith(("ghost use", "//"))))
    return uses


def unused():
    logic = {path: without_remarks(text) for path, text in texts(".antt").items()}
    uses = words_used(logic.values())
    for path, text in logic.items():
        for name, own in definitions(text) if path.name not in ASKED else ():
            plain = name.replace("◌", "")
            if uses[plain] <= (words(own)[plain] or words(own)[name]):
                yield f"{shown(path)}: {name}"


if __name__ == "__main__":
    sys.exit(judged(unused(), "that nothing names"))
