#!/usr/bin/env python3
"""Lists the places that a new event, field or version of the format touches: places.py [--list [event|field|version|newest] | --count]

With --list it prints, for each of these, the places in the tree that name an existing one, which is the one to copy, and the further
steps. Without a word after --list it prints all four lists. A place is a function or a type of src/, a definition of specs/ or proofs/, a
table at the head of a file (`the table`), or the answers of a function named after the event (`the goals`). Imports, other comments, tests,
examples, edits and the crates of the front are left out. For a version, proofs are left out too, and so are crates that use the name for
something else.

With --count it prints how many places name the event and the field if tests, examples and the crates of the front count too.

Without a word it checks that each file and each name with a remark is still in these lists, that each path named here or in CONTRIBUTING.md
exists, and that the edit shown in CONTRIBUTING.md applies. It takes a second. The last line is `none`, with status 0. Otherwise it prints
the errors and ends with status 1.
"""
import re
import sys
from dataclasses import dataclass

from edits_apply import fault_in
from harness.sources import CRATES, files_of, HERE, judged, uses

PAGE = HERE / "CONTRIBUTING.md"

PARTS = ("specs", "src", "proofs")
TABLE, GOALS = "the table", "the goals"


@dataclass
class Listing:
    """The subject of a list."""

    title: str
    # The name to search for, the pattern of a line of code that names it, and the pattern of a function of its own.
    name: str
    word: str
    own: str
    # The folders of a crate that are searched.
    parts: tuple
    # What to do at a place, by its path and its name.
    remarks: dict
    # The further steps.
    steps: str


EVENT = Listing(
    "An event about a job that has only the job's number",
    "Release",
    r"\bRelease\b",
    r"release(_\w+)?",
    PARTS,
    {
        "spool_types/src/event.rt": {"Event": "Add the variant."},
        "job_table/specs/Step.antt": {"row": "Add its change, the causes of refusal that only it has, and its reply."},
        "job_table/src/store/commit.rt": {"commit": "Add its arm. Use a `RowChange` if one fits."},
        "job_table/src/table/refusals.rt": {"refusal": "Add its arm.", "release_refusal": "Add its own function."},
        "job_table/proofs/PartSteps.antt": {"alike": "Needed only if a cause of refusal is its own."},
        "job_table/proofs/table/Table/release_refusal/Answers.antt": {GOALS: "Needed only if a cause of refusal is its own."},
        "command_lines/specs/AskedEvents.antt": {"is_line_event": "Part of its command."},
        "command_lines/specs/CommandGrammar.antt": {"one_word": "Part of its command."},
        "command_lines/src/line.rt": {"event_of_word": "Part of its command."},
        "command_lines/proofs/AskedLaws.antt": {"one_word_asks": "Part of its command."},
        "client_reader/proofs/NoSends.antt": {"no_send_one_word": "Part of its command: its line is no `send`."},
        "event_codec/specs/EventReading.antt": {"fields_at": "Use `numbered_at`."},
        "event_codec/specs/Spelling.antt": {"spelling": "The first byte is the next free one."},
        "event_codec/src/reading.rt": {"event_of_kind": "Use `only_job`."},
        "event_records/specs/Deeds.antt": {"deed_of": "What it does to a job or a queue, for the log, the times and clients that watch."},
        "event_records/src/deeds.rt": {"deed_of": "The same."},
        "client_roles/specs/RoleTable.antt": {"event_request": "Who may request it."},
        "client_roles/src/table.rt": {"allows_event": "Who may request it."},
    },
    """
1. If it needs room: `HasRoom` (`job_table/specs/Contents.antt`) and `reserve` of `Table` or `Store` (`job_table/src/table/prepare.rt`,
   `job_table/src/store/reserve.rt`).
2. If no existing event changes the table in the same way: a variant of `Change` with its rows (`job_table/specs/Shapes.antt`).
3. Examples: its spelling and first faults (`decision_examples/specs/Events.antt`, `decision_examples/specs/EventFaults.antt`), its
   spelling in `tests/harness/journal.py`, its fields and its change in `tests/harness/spool_model.py` (written from the definition, not from the code), its
   causes of refusal and its change in a stored script or in `tests/test_events.py`. One must-fail edit for its change and one for its bytes.
4. `docs/PROMISES.md`: its name in *Step*.
5. An event is new in the format, so it comes with a new version: see `places.py --list version`.

An event with fields of its own needs about ten more places:

- a record in `spool_types/src/event.rt`;
- `.._code`, `Is..` and `.._at` in `event_codec/specs`;
- `.._of`, `put_..` and `.._len` in `event_codec/src`;
- `.._takes` and `.._again` in `event_codec/proofs`.
""",
)

FIELD = Listing(
    "A field of a job",
    "pages",
    # As a field, not as a variable or a parameter of that name.
    r"(?<!\.fn)\.pages\b|^\s*(pub )?pages( ?[:=] |,$)|[{;]\s*pages = ",
    r"-",
    PARTS,
    {
        "job_table/specs/Attempts.antt": {"with_pages": "What changes it."},
        "job_table/specs/EventChanges.antt": {"new_job": "Its first value."},
        "command_lines/specs/Replies.antt": {"job_sizes": "Only for a field that `jobs` shows."},
        "command_lines/src/reply.rt": {"push_sizes": "Only for a field that `jobs` shows."},
        "service_texts/specs/Shown.antt": {"job_counts": "Only for a field that `job` shows."},
        "service_texts/src/job_texts.rt": {"push_counts": "Only for a field that `job` shows."},
        "ipp_facts/specs/JobReports.antt": {"IsReportOf": "Only for a field that an attribute of IPP shows."},
        "ipp_facts/src/shown_jobs.rt": {"facts_with": "Only for a field that an attribute of IPP shows."},
    },
    """
Ten of these places change `pages` or show it, so a field that is only stored needs thirteen.

1. If the field is shown, also change `front_texts`, which reads the replies to `jobs` and `job`.
2. A field that is set when the job is made is also a field of `NewJob` (`spool_types/src/event.rt`) and of the event Create.
3. A new field changes the bytes of a row: `tests/harness/journal.py`, `tests/harness/spool_model.py` and the examples of rows (`decision_examples/specs`).
4. Existing spools do not have the field, so it comes with a new version: see `places.py --list version`.
""",
)

VERSION = Listing(
    "A version of the format",
    "One",
    r"\bOne\b|(?i:\boldest_version\b)",
    r"-",
    PARTS[:2],
    {
        "spool_types/src/version.rt": {"Version": "Add the variant."},
        "job_table/specs/Shapes.antt": {"lacks_by": "Refuses an event of the newer version as NeedsCheckpoint."},
        "job_table/src/table/refusals.rt": {"create_refusal": "Refuses an event of the newer version as NeedsCheckpoint."},
        "event_codec/specs/RowReading.antt": {"by_at": "Reads a field that the older version does not have."},
        "event_codec/specs/RowSpelling.antt": {"by_code": "Spells a field that the older version does not have."},
        "event_codec/src/row_reading.rt": {"by_at": "Reads a field that the older version does not have."},
        "spool_areas/specs/Header.antt": {"is_version": "Which bytes of a header are a version."},
        "spool_areas/src/header.rt": {"is_version": "Which bytes of a header are a version."},
        "spool_core/specs/VersionNumbers.antt": {"number_of": "Which byte is which version."},
        "spool_core/src/fold.rt": {"version_of": "Which byte is which version."},
    },
    """
An area is read in the version that its header states, and accepts the events of that version. A new area is of the newest version, so a
checkpoint converts a spool.

1. The events and fields of the new version, as in `places.py --list event` and `places.py --list field`. Exclude them from older
   versions in `lacks_by` and similar definitions, before all other causes of refusal, and in `IsBy` and similar definitions.
2. The places that write the newest version: `places.py --list newest`.
3. Tests: `VERSIONS`, `NEWEST`, the rows and the events in `tests/harness/journal.py`; `Table` in `tests/harness/spool_model.py`; the older spools that
   `tests/test_any_image.py` derives from others. Before the change, kill the current program and store its spool, as in
   `tests/version_one.txt`. Open it with a copy of `tests/test_version_one.py`. It must have all kinds of events, rows and phases.
4. Stored scripts whose spool is of an older version (`NAME.version`), up to a checkpoint and after it.
5. `docs/man/cegmandi_spool.5`: the older versions, and the refusal. `docs/PROMISES.md`: *Area* and *Step*.
""",
)

NEWEST = Listing(
    "The places that write the newest version",
    "Two",
    r"\bTwo\b|(?i:\bnewest_version\b)",
    r"-",
    PARTS[:2],
    {
        "spool_types/specs/State.antt": {"nothing": "The table of a new area."},
        "job_table/specs/TableVersions.antt": {"raised": "What a checkpoint turns a table into."},
        "job_table/src/store.rt": {"raise": "What a checkpoint turns a table into."},
        "event_codec/src/row_writing.rt": {"put_by": "Rows are written only in the newest version."},
        "spool_areas/specs/Checkpoint.antt": {"HasOldOrNew": "The header of the new area."},
        "listing_rows/specs/RowFilling.antt": {"IsPut": "The rows of a listing."},
        "listing_rows/src/block.rt": {"put_head": "The rows of a listing."},
        "spool_core/specs/Checkpointing.antt": {"listed_payloads": "The rows of a checkpoint."},
        "spool_core/specs/Measuring.antt": {"IsSumMore": "The rows of a checkpoint."},
        "spool_core/src/spool/filling.rt": {"put_row": "The rows of a checkpoint."},
        "spool_core/src/replaying.rt": {"replay": "It begins with the table of a new area."},
        "spool_halves/specs/Halves.antt": {"IsHalf": "The halves of a split are of the newest version."},
        "spool_halves/src/laws.rt": {"halves_go_on": "The halves of a split are of the newest version."},
        "spool_halves/src/tables.rt": {"is_half": "The halves of a split are of the newest version."},
        "spool_engine/specs/EngineRuns.antt": {"KeepVersion": "A checkpoint does not raise the version here."},
    },
    """
In these places a further version replaces `Two`, unless they distinguish the two versions.
""",
)

LISTS = {"event": EVENT, "field": FIELD, "version": VERSION, "newest": NEWEST}

# Crates that are left out: crates of tests, of examples and of the front, and crates that use the name for something else.
ASIDE = re.compile(r".*_(tests|examples|scripts)|front_.*|spool_front")
NO_CRATE = re.compile(r"")
OTHERS = {"Release": ("ipp_names",), "One": ("side_channel", "spool_runtime"), "Two": ("side_channel",)}

IMPORT = {
    ".rt": re.compile(r"^ *(pub(\([a-z]+\))? )?(ghost )?use .*?;$", re.MULTILINE | re.DOTALL),
    ".antt": re.compile(r"^ *(pub )?use .*$", re.MULTILINE),
}
COMMENT = re.compile(r"\s*(//|--)")
ITEM = re.compile(r"( *)(?:pub(?:\([a-z]+\))? )?(?:const )?(?:fn|struct|enum|trait|type|const) (\w+)")
DEFINITION = re.compile(r"(?:(?:pub|abbrev|record|data|class|instance) )*([^\s:({}]+)")

PATH = re.compile(r"`([\w.-]*/[\w./-]*)`")
# What represents any name in a path.
ANY = re.compile(r"[A-Z]{4,}|\.\.")
EXAMPLE = "A must-fail edit"


def code_of(file):
    """The lines of a file, with imports and comments emptied. A table at its head counts as code."""
    text = IMPORT[file.suffix].sub(lambda it: "\n" * it[0].count("\n"), file.read_text(encoding="utf-8"))
    return ["" if COMMENT.match(it) and not it.startswith("//! |") else it for it in text.split("\n")]


def name_in_code(lines, number):
    """The innermost function or type around a line of src/."""
    if lines[number].startswith("//!"):
        return TABLE
    indent = len(lines[number]) - len(lines[number].lstrip())
    for line in reversed(lines[: number + 1]):
        item = ITEM.match(line)
        if item and (len(item[1]) < indent or line is lines[number]):
            return item[2]
    return ""


def name_in_logic(lines, number):
    """The definition that a line of specs/ or proofs/ is part of."""
    head = next(it for it in reversed(lines[: number + 1]) if it[:1].strip())
    return DEFINITION.match(head)[1]


def places(listing, aside=ASIDE, parts=None):
    """The names of the places, by the path of their file below crates/, without the crates of these names."""
    found = {}
    for crate in uses():
        functions = set()
        if aside.fullmatch(crate) or crate in OTHERS.get(listing.name, ()):
            continue
        for file in files_of(crate, *(parts or listing.parts)):
            lines = code_of(file)
            naming = name_in_code if file.suffix == ".rt" else name_in_logic
            names = [naming(lines, n) for n, line in enumerate(lines) if re.search(listing.word, line)]
            functions |= {it for it in names if file.suffix == ".rt" and re.fullmatch(listing.own, it)}
            if file.parent.name in functions:
                names = [GOALS]
            if names:
                found[str(file.relative_to(CRATES))] = list(dict.fromkeys(names))
    return found


def shown(listing):
    """The list as it is printed, a line each."""
    found = places(listing)
    count = sum(len(names) for names in found.values())
    yield f"{listing.title}. The one to copy is {listing.name}; {count} places name it:"
    yield ""
    for path, names in found.items():
        remarks = listing.remarks.get(path, {})
        said = [f"{name}: {remarks[name]}" if len(names) > 1 and len(remarks) > 1 else remarks[name] for name in names if name in remarks]
        yield f"- {path}: {', '.join(names)}.{''.join(' ' + it for it in said)}"
    yield listing.steps


def exists(path):
    roots = [HERE, CRATES, *(it for it in CRATES.iterdir() if it.is_dir())]
    return any((it / path).exists() for it in roots)


def remark_faults(listing):
    """The remarks for a file or a name that is not in the list."""
    found = places(listing)
    for path, remarks in listing.remarks.items():
        for name in remarks:
            if name not in found.get(path, []):
                yield f"{listing.title}: a remark names {name} of {path}, which does not name {listing.name}"


def example_fault(text):
    """The error in the edit that CONTRIBUTING.md shows for job_table, if any."""
    parts = re.split(r"^## (.*)$", text, flags=re.MULTILINE)
    section = dict(zip(parts[1::2], parts[2::2])).get(EXAMPLE, "")
    edit = "\n".join(it.removeprefix("    ") for it in section.splitlines() if it.startswith("    "))
    return fault_in(edit, CRATES / "job_table")


def faults():
    """The errors, one line each."""
    page = PAGE.read_text(encoding="utf-8")
    for listing in LISTS.values():
        yield from remark_faults(listing)
    texts = "".join([page, *(it.steps for it in LISTS.values())])
    for path in dict.fromkeys(PATH.findall(texts)):
        if not ANY.search(path) and not exists(path):
            yield f"{path} does not exist"
    fault = example_fault(page)
    if fault:
        yield f"{EXAMPLE}: the edit in CONTRIBUTING.md does not apply to job_table: {fault}"


def main():
    words = sys.argv[1:]
    if words == ["--count"]:
        for listing in (EVENT, FIELD):
            found = places(listing, NO_CRATE, (*PARTS, "tests"))
            print(f"{listing.title}: {sum(len(names) for names in found.values())} places in {len(found)} files name {listing.name}")
        return 0
    if words[:1] == ["--list"] and set(words[1:]) <= set(LISTS):
        for name in words[1:] or LISTS:
            print("\n".join(shown(LISTS[name])))
        return 0
    if words:
        sys.exit(__doc__)
    return judged(faults())


if __name__ == "__main__":
    sys.exit(main())
