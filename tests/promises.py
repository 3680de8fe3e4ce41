#!/usr/bin/env python3
"""Checks the names in the documents about the sources: promises.py [FOLDER]

The pages are PROMISES.md, ARCHITECTURE.md, DECISIONS.md and PROVING.md of docs/, or of FOLDER. The script checks the code in backticks.

On each page:

- Each file or folder exists in the repository, in tests/, docs/ or crates/, or in a crate or its src/.
- Each `CRATE/MODULE`, `CRATE/specs/MODULE`, and each MODULE in "`CRATE`: `MODULE`, `MODULE`" is a file of the crate's specs/.
- Each `CRATE::NAME`, and each NAME in "`NAME` and `NAME` of `CRATE`", is declared in that crate. It is a function without a type, a
  type, variant, module, constant, macro, clause or definition, or a file of src/. In `CRATE::TYPE::NAME` it is a function or a variant
  of the type. DECISIONS.md and PROVING.md may name a function of a type without the type.
- Each NAME in "`NAME` of `FUNCTION`" is a clause of the function.
- All other code has only words of the sources and of test scripts.

In PROMISES.md:

- Each `TYPE::FUNCTION`, and each function that is followed by names in parentheses, is a function of a crate that the bullet or
  else the heading above it names. Each of these names is an `ensures` clause of it, or a word of that crate's specs/.
- No two bullets have the same name in bold.

In the other three:

- Each NAME without a crate, also with arguments in `()` or `<>`, is declared: in ARCHITECTURE.md in src/ or specs/ of the crate of its
  section ("Crate `NAME`"), in DECISIONS.md and PROVING.md in any crate, which may be in proofs/.
- In ARCHITECTURE.md a file without a path is of the section's crate, if there is one. Each function in "`FUNCTION` (`FILE.rt`", in
  "`FUNCTION`, `FILE.rt`", or in the cell of a table before a cell with `FILE.rt`, is in that file.

These need not be declared: crates, promises, the words in the heads of entries of docs/man (commands, errors, programs), and NOT_NAMES.
The script skips blocks of code, single letters, paths from `/` on, parts of names as `push_..`, and code with a placeholder as NAME.

It takes about two seconds. Without an error the last line is `none`, with status 0. Otherwise it prints a line for each error, with
status 1.
"""
import functools
import re
import sys
from pathlib import Path

import reference
from harness import sources
from harness.sources import CRATES, HERE, judged

DOCS = HERE / "docs"
PROMISES, ARCHITECTURE, DECISIONS, PROVING = PAGES = ("PROMISES.md", "ARCHITECTURE.md", "DECISIONS.md", "PROVING.md")

WORD = re.compile(r"[A-Za-z_][A-Za-z0-9_]*")
CODE = re.compile(r"`([^`]+)`")
# A file or folder, a module of specs/, and a name with its arguments, if any.
FILE = re.compile(r"[\w./-]+(?:/[\w.-]*|\.(?:antt|c|md|py|rt|sh|txt))")
MODULE = re.compile(r"([a-z_]+)/(?:specs/)?([A-Z]\w*)")
NAME = re.compile(r"(\w+(?:::\w+)*)(?:[(<].*)?")
# "`A` and `B` of `C`", and "`C`: `A`, `B`".
OF = re.compile(r"((?:`[^`]+`(?:,| and| or)(?: an?| the)? )*`[^`]+`) of `([\w:]+)`")
LISTED = re.compile(r"`(\w+)`: (`\w+`(?:, `\w+`)*)")
# A function and its file, in the text or in a table.
IN_FILE = re.compile(r"(`((\w+)[\w:]*)`(?: \(|, |[^|]*\| ))(`[\w/]+\.rt`)")
# A function, with the names in parentheses after it, if any.
FUNCTION = re.compile(r"`(\w+(?:::\w+)?)`(?: \((`\w+`(?:, `\w+`)*)\))?")
# The name of a promise.
BOLD = re.compile(r"^- \*\*(.+?)\*\*", re.MULTILINE)
# A part of a name.
CUT = re.compile(r"\w*\.\.\w*")
PLACEHOLDERS = ("CRATE", "MODULE", "NAME", "PID")

# What declares a name in Rattle, a function of a type or trait, an enum with its variants, and a name in a definition or a proof.
DECLARED = re.compile(
    r"(?:^(?:pub(?:\(\w+\))? )?(?:const )?fn"
    r"|\b(?:struct|enum|trait|type|const|static|mod|macro_rules!|requires|ensures\*?))\s+(\w+)",
    re.MULTILINE,
)
METHOD = re.compile(r"^ +(?:pub(?:\(\w+\))? )?(?:const )?fn (\w+)", re.MULTILINE)
ENUM = re.compile(r"^( *)(?:pub(?:\(\w+\))? )?enum (\w+)[^{;]*\{\n(.*?)^\1\}", re.MULTILINE | re.DOTALL)
DEFINED = re.compile(r"^\s*(?:(?:abbrev|unfoldable|pub|record|data|mod)\s+)+(\w+)", re.MULTILINE)

NOT_NAMES = {
    # Words of Rattle and of its libraries, and documents of its kit.
    *"Arg Bool Clone Copy Debug HostRuntime Option PartialEq Result String Vec append_assoc bool drop flat_map flat_map-cons impl".split(),
    *"match read_to_end requires self simp spawn str CONTRACT_STYLE.md GUIDELINES.md SHORTER_PROOFS.md".split(),
    # What a check leaves, which a clean clone does not have.
    "out/incremental",
    # Words of the system, and a reply.
    *"TMPDIR bin exec malloc setsid ok".split(),
    # Names in DECISIONS.md that the toolchain refused, so no crate has them.
    *"Declared proofs/Tests.antt".split(),
}


@functools.cache
def text_of(file):
    return file.read_text(encoding="utf-8")


crates = functools.cache(sources.crates)
files_of = functools.cache(sources.files_of)


@functools.cache
def contracts_of(crate):
    """The functions of a crate, by their names without and with their types, each with the names of its clauses."""
    found = {}
    for name, clauses in reference.Crate(CRATES / crate).contracts:
        for it in {name, name.split("::")[-1]}:
            found.setdefault(it, set()).update(clauses)
    return found


@functools.cache
def definitions_of(crate):
    """The words of a crate's specs/."""
    return words_in(files_of(crate, "specs"))


def words_in(files):
    return {word for file in files for word in WORD.findall(text_of(file))}


@functools.cache
def all_words():
    """The words of all sources and of the other test scripts, and the names of crates and of the files of specs/."""
    found = words_in(it for it in (HERE / "tests").rglob("*.py") if it.name != "promises.py") | set(crates())
    for crate in crates():
        files = files_of(crate, "src") + files_of(crate, "specs")
        found |= words_in(files) | {it.stem for it in files}
    return found


@functools.cache
def other_words():
    """The names of crates and promises, the words in the heads of entries of docs/man, and NOT_NAMES."""
    pages = "\n".join(text_of(it) for it in (DOCS / "man").iterdir())
    heads = "\n".join(re.findall(r"^\.(?:It|Nm) (.+)", pages, re.MULTILINE))
    return {*crates(), *WORD.findall(heads), *BOLD.findall(text_of(DOCS / PROMISES)), *NOT_NAMES}


@functools.cache
def code_of(crate):
    """The sources of a crate without lines of comment."""
    return re.sub(r"^\s*//.*$", "", "\n".join(map(text_of, files_of(crate, "src"))), flags=re.MULTILINE)


@functools.cache
def declared_in(crate, part):
    """The names that a crate declares in a part. A variant is in `src` by its name and as `ENUM::VARIANT`, a method in `methods`."""
    if part == "methods":
        return set(METHOD.findall(code_of(crate)))
    if part != "src":
        return {name for file in files_of(crate, part) for name in (file.stem, *DEFINED.findall(text_of(file)))}
    found = set(DECLARED.findall(code_of(crate)))
    for indent, enum, body in ENUM.findall(code_of(crate)):
        for variant in re.findall(rf"^{indent}    (\w+)", body, re.MULTILINE):
            found |= {variant, f"{enum}::{variant}"}
    return found


def is_declared(crate, part, name):
    """Whether a part of a crate declares a name. With a type, it is a function or a variant of the type."""
    known, words = declared_in(crate, part), name.split("::")
    while len(words) > 1 and words[0].islower() and words[0] in known:  # A module.
        words = words[1:]
    name = "::".join(words)
    is_method = len(words) > 1 and words[0] in known and words[-1] in declared_in(crate, "methods")
    return name in known or is_method and name in contracts_of(crate)


def joined(text):
    """A text without its blocks of code, as one line."""
    return re.sub(r"\s*\n\s*", " ", re.sub(r"^ *```.*?^ *```$", "", text, flags=re.MULTILINE | re.DOTALL))


def qualified(text):
    """Writes the crate of a name into its code.

    "`A` and `B` of `CRATE`" becomes "`CRATE::A` and `CRATE::B`", "`CRATE`: `A`, `B`" becomes "`CRATE/A`, `CRATE/B`", and
    "`CRATE::A` (`FILE.rt`" becomes "`CRATE::A` (`CRATE/src/FILE.rt`".
    """

    def in_crate(crate, codes, sign):
        return CODE.sub(lambda it: f"`{crate}/src/{it[1]}`" if FILE.fullmatch(it[1]) else f"`{crate}{sign}{it[1]}`", codes)

    text = OF.sub(lambda it: in_crate(it[2], it[1], "::") if it[2] in crates() else it[0], text)
    text = LISTED.sub(lambda it: in_crate(it[1], it[2], "/") if it[1] in crates() else it[0], text)
    return IN_FILE.sub(lambda it: it[1] + in_crate(it[3], it[4], "::") if it[3] in crates() and "/" not in it[4] else it[0], text)


def bullets(text):
    """Each bullet as one line, with the heading above it."""
    heading = ""
    for block in re.split(r"\n(?=- |#)|\n\n", text):
        line = joined(block)
        if line.startswith("#"):
            heading = line
        elif line.startswith("- "):
            yield line, heading


def file_faults(path, places):
    """Checks a file or a folder, which may be that of one of the crates."""
    folders = [HERE, HERE / "tests", DOCS, CRATES] + [it for crate in places for it in (CRATES / crate, CRATES / crate / "src")]
    if not any((it / path).exists() for it in folders):
        yield f"{path} does not exist"


def name_faults(name, places, parts):
    """Checks that a part of the crate in front of a name declares it, or else that of one of the places."""
    crate, _, rest = name.partition("::")
    if rest and crate in crates():
        name, places = rest, [crate]
    if not any(is_declared(it, part, name) for part in parts for it in places):
        yield f"`{name}` is not declared in " + (places[0] if len(places) == 1 else "any crate that it may be of")


def word_faults(code):
    """Checks that the words of code are words of the sources or scripts, or known others."""
    yield from (f"`{code}`: no source has {it}" for it in WORD.findall(code) if it not in all_words() | other_words())


def code_faults(code, places, parts):
    """Checks code. The places are the crates of a name without a crate, or None if such a name is only a word."""
    module, name = MODULE.fullmatch(code), NAME.fullmatch(code)
    first = re.match(r"\w*", code)[0]
    if code in NOT_NAMES or len(code) == 1 or code[0] == "/" or CUT.fullmatch(code) or any(it in code for it in PLACEHOLDERS):
        return
    if module:
        yield from file_faults(f"crates/{module[1]}/specs/{module[2]}.antt", [])
    elif FILE.fullmatch(code):
        yield from file_faults(code, places or crates())
    elif name and first not in NOT_NAMES and (places is not None or first in crates()):
        if "::" in code or code not in other_words():
            yield from name_faults(name[1], places, parts)
        yield from word_faults(code[name.end(1) :])
    else:
        yield from word_faults(code)


def clause_faults(text):
    """Checks each "`CLAUSE` of `FUNCTION`"."""
    for codes, function in OF.findall(text):
        there = [it for it in crates() if is_declared(it, "src", function) or is_declared(it, "methods", function)]
        clauses = {clause for it in there for clause in contracts_of(it).get(function, ())}
        for it in CODE.findall(codes):
            if function not in NOT_NAMES | set(crates()) and it not in clauses:
                yield f"`{it}` is no clause of `{function}`"


def function_faults(line, heading):
    """Checks the functions of a bullet that have a type or names in parentheses."""
    named = [it for it in dict.fromkeys(CODE.findall(line) + CODE.findall(heading)) if it in crates()]
    for name, clauses in FUNCTION.findall(line):
        if name in named or not clauses and "::" not in name:
            continue
        there = [it for it in named if name in contracts_of(it)]
        if not there:
            yield f"`{name}`: no function of {' or '.join(named) or 'a crate that is named with it'}"
        for it in CODE.findall(clauses):
            if there and not any(it in contracts_of(crate)[name] | definitions_of(crate) for crate in there):
                yield f"`{name}`: it has no clause `{it}`, and no definition has that name"


def place_faults(text, crate=""):
    """Checks each function that is named with its file. The crate is that of a name without one."""
    for _, name, _, code in IN_FILE.findall(text):
        file = code.strip("`") if "/" in code else f"{crate}/src/{code.strip('`')}"
        *_, kind, function = ["", *name.split("::")]
        source = text_of(CRATES / file) if (CRATES / file).exists() else ""
        has_type = not kind or kind in crates() or re.search(rf"\b(?:impl|trait)\b[^{{;]*\b{kind}\b", source)
        if not (has_type and re.search(rf"\bfn {function}\b", source)):
            yield f"`{name}` is not in crates/{file}"


def promise_faults(text):
    """Checks the bullets of PROMISES.md."""
    for line, heading in bullets(text):
        yield from function_faults(line, heading)
    names = BOLD.findall(text)
    yield from (f"two bullets have the name {it}" for it in sorted({it for it in names if names.count(it) > 1}))


def sections(page, text):
    """Yields the sections of a page, each with the places of `code_faults`."""
    if page == ARCHITECTURE:
        for section in re.split(r"\n(?=## )", text):
            yield section, re.findall(r"^Crate `(\w+)`", section, re.MULTILINE)
    else:
        yield text, None if page == PROMISES else crates()


def page_faults(page, text):
    """Yields each error of a page."""
    if page == PROMISES:
        yield from promise_faults(text)
    parts = ("src", "specs", "methods", "proofs") if page in (DECISIONS, PROVING) else ("src", "specs")
    for section, places in sections(page, text):
        line = qualified(joined(section))
        for code in dict.fromkeys(CODE.findall(line)):
            yield from code_faults(code, places, parts)
        yield from clause_faults(line)
        if page == ARCHITECTURE:
            yield from place_faults(line, *places[:1])


def main(words):
    folder = Path(words[0]) if words else DOCS
    return judged(dict.fromkeys(f"{page}: {it}" for page in PAGES for it in page_faults(page, text_of(folder / page))))


if __name__ == "__main__":
    sys.exit(main(sys.argv[1:]))
