#!/usr/bin/env python3
"""Shows that the code reports out of memory only after a refused allocation, and allocates only what its input needs: out_of_memory.py

No contract clause can say why memory ran out, so a body that reports out of memory without a refused allocation would be proved. Therefore
the error may come only from an allocation that was refused: through `?`, through a `From` of that error, through an arm of a match whose
pattern names out of memory, or from one of the calls of PASSED_ON, which have no other error. This script finds every other place in src/
that creates such an error.

An allocation is refused if a body requests more than can exist, as `reserve(usize::MAX)`. So the script checks the requested amounts too. A
capacity or a count of items is a number from the input or the table; one that contains a number, a constant or a sum must be listed in
CAPACITIES. Every other large number in a body must be listed in NUMBERS, and every large constant in CONSTANTS.

Crates of tests are not checked. The last line is `none`, with status 0, or `N places`, with status 1.
"""
import re
import sys
from collections import Counter

from harness.sources import crates, files_of, functions_in, judged, shown

# The crates that only tests use, in addition to those whose names end in _tests.
OF_TESTS = {"disk_images", "spool_scripts"}

# A program whose library is another crate. Both are listed in the tables under the library's name.
LIBRARIES = {"spool_shell": "spool_runtime", "spool_tools": "builtin_stages"}

# The functions of each crate with an arm, an `else` or a `map_err` for a call whose only error is out of memory, each as often as it has
# one. Check that call before you add one here.
PASSED_ON = {
    "child_pipeline": "insert",
    "command_lines": (
        "push_closed push_closed push_count push_created push_drained push_head push_queue_head push_refusal push_rounded push_rules "
        "push_sent push_sizes"
    ),
    "device_uri": "options",
    "engine_reserve": "answer serve_end serve_whole take_piece",
    "event_records": "push_aborted push_again push_closed push_held push_held push_purge_event push_queue_event push_started push_subject",
    "front_texts": (
        "push_accepting push_accepting push_bytes push_counted push_job_name push_long_number push_number push_printer push_printer "
        "push_printing push_queued_for push_ready push_ready push_ready push_stopped"
    ),
    "front_words": "mistake mistake read_words words_fault",
    # A writer of HTTP refuses a whole answer only if memory runs out, and names and statuses that the program chose are within all limits.
    "ipp_connections": "given",
    # The word of the service.
    "ipp_facts": "failed",
    "ipp_printing": "close_line closeat_words find_line indefinite_line job_line moment_line",
    "ipp_tasks": "answer attribute create_words create_words list_line queue_line",
    # Numbers of held jobs that exceed the greatest usize: no memory can hold that many.
    "job_table": "make_room reserve reserve",
    "print_rounds": "end_stage launch pass start tick",
    "program_pipes": "keep",
    "queue_sayings": "push_head push_rules",
    "service_client": "send_text",
    "service_texts": (
        "found_text note_row prepare push_answer_line push_answer_line push_attribute push_by push_change push_counts push_device "
        "push_device push_hold push_job_news push_media push_names push_now push_phase push_phase push_piece_line push_piece_line "
        "push_policy push_printing push_queue_counts push_queue_news push_queue_state push_ranks push_room push_searched push_state "
        "push_still push_time_word push_uri"
    ),
    "spool_admin": "read_folder_words read_folder_words read_remove_words read_set_words",
    "spool_areas": "collect new_window",
    "spool_core": "change_areas drive_all finish journal journal_reopening read_front read_payload stage_record take_row take_row",
    "spool_engine": "answer close_typed serve_end serve_whole take_piece",
    # The text is written into memory, so no other error is possible; and an error of the system whose kind says so.
    "spool_front": "close_line closeat_line from hold_line hold_line job_line list_line no_words push_moment push_ranks queue_line",
    "spool_halves": "ordered_row",
    # An error of the system whose kind says so.
    "spool_runtime": "from mistake no_words read_words words_fault",
    "spool_service": "read_words",
    "wait_causes": "push_cause push_cause push_cause push_cause",
}

# The capacities and counts with a number, a constant or a sum in them, of each function. Each requests a few items, or at most the number
# in the input or the table.
CAPACITIES = {
    ("child_pipeline", "insert"): ["1"],
    ("command_lines", "words_of"): ["MOST_WORDS"],
    ("event_codec", "encode_head_onto"): ["13"],
    ("event_codec", "encode_job_onto"): ["1 + created_len(job) + job_state_len(job) + by_len(job.by)"],
    ("event_codec", "encode_piece_onto"): ["9 + bytes.as_slice().len()"],
    ("event_codec", "encode_queue_onto"): ["1 + added_len(queue) + queue_state_len(queue)"],
    ("event_codec", "listed_at"): ["(count as usize).min(bytes.len() / 3)"],
    ("event_codec", "listed_attributes_at"): ["(count as usize).min(bytes.len() / 4)"],
    ("event_codec", "listed_reasons_at"): ["(count as usize).min(bytes.len() / 2)"],
    ("event_codec", "texts_at"): ["(count as usize).min(bytes.len() / 2)"],
    ("filter_args", "environment_of_stage"): ["14"],
    ("filter_args", "words"): ["6"],
    # 64 KiB, while a spool is opened.
    ("gate_journal", "new"): ["BLOCK_LEN"],
    ("listing_rows", "put_zeros"): ["block.len() + count"],
    ("split_rows", "begin"): ["BLOCK_ROOM"],
    ("job_rows", "reserve"): ["1"],
    ("job_table", "reserve_extent"): ["1"],
    ("job_table", "reserve_queue"): ["1", "1"],
    ("mime_costs", "cost_rows"): ["MOST_LINES"],
    ("mime_costs", "walk_lines"): ["MOST_LINES"],
    ("ipp_loop", "new"): ["MOST_CLIENTS"],
    ("row_effects", "make_room"): ["MOST_KEPT"],
    ("service_loop", "enter"): ["1"],
    ("service_loop", "new"): ["MOST_LISTED"],
    # The filters of a chain, and its backend.
    ("program_pipes", "start_all"): ["filters.len().saturating_add(1)"],
    ("spool_core", "drive_all"): ["1"],
    # 576 KiB, during a checkpoint.
    ("spool_core", "prepare"): ["BLOCK_ROOM"],
    ("service_client", "take_byte"): ["1"],
    # 64 KiB, while a document is sent.
    ("service_client", "send_text"): ["count.saturating_add(AROUND_PIECE)"],
    ("spool_front", "new"): ["PIECE + 1"],
    ("spool_front", "open"): ["PIECE"],
    ("spool_runtime", "reserve"): ["1"],
    ("spool_service", "push_user"): ["1"],
    ("client_standing", "note"): ["1"],
    ("event_records", "new"): ["MOST_CHANGES"],
    ("print_rounds", "tick"): ["queues + queues"],
    ("user_proofs", "note"): ["1"],
}

# The large numbers in bodies, each with the functions of each crate that have it: bounds of loops, of counts and of fields. None is a
# capacity.
NUMBERS = {
    "100_000": {"spool_service": "child_options"},
    "16_777_216": {"mime_rules": "int_bytes"},
    "1_000_000": {"spool_service": "bound_options"},
    "1_048_576": {
        "front_texts": "size_text",
        "spool_service": "child_options child_options child_options",
    },
    "4_294_967_295": {
        "front_texts": "count",
        "mime_rules": "most",
        "user_proofs": "id_in",
    },
    "<<": {"spool_ipp": "millis"},
    "u32::MAX": {
        "backend_codes": "unless_spent",
        "builtin_stages": "connect_seconds_of end_seconds_of turns_of",
        "engine_reserve": "serve_text",
        "ipp_loop": "note_readiness write_some",
        "ipp_sockets": "read_in write_out",
        "ipp_tasks": "names_in",
        "job_table": "is_startable is_untyped",
        "service_loop": "note_readiness read_of write_to",
        "side_channel": "read",
        "spool_engine": "serve",
        "spool_front": "read_some",
        "spool_service": "open_operators_socket",
        "stderr_lines": "number_of",
    },
    "u64::MAX": {
        "builtin_stages": "wait write write_result",
        "ipp_loop": "limit serve",
        "service_client": "receive_lines settle wait_for_room",
        "service_loop": "serve",
        "spool_disk": "counted read sync write",
        "spool_front": "aged_jobs follow_by print_until_end read_command say_lines submit wait_for watch_by width_in write_page",
        "spool_runtime": "attend counted read_at_most",
        "whole_writes": "write_whole",
    },
}

# The large constants of each crate: limits on input, the numbers of fields, and how far a step advances.
CONSTANTS = {
    "child_pipeline": "MOST_ERRORS",
    "clean_texts": "FIRST_PAIR",
    "command_lines": "GREATEST",
    "event_records": "GREATEST_CHANGE",
    "front_texts": "GREATEST_MOMENT GREATEST_NUMBER MOST_IN_HOURS",
    "front_words": "GREATEST_JOB GREATEST_MOMENT",
    "ipp_answers": "END MOST_INTEGER",
    "ipp_facts": "MOST_JOBS MOST_SECONDS",
    "ipp_loop": "MOST_SKIPPED NO_CLIENT",
    "ipp_options": "MOST_INTEGER",
    "ipp_tasks": "LONGEST_DOCUMENT MOST_NUMBER",
    "listing_rows": "BLOCK_ROOM",
    "mime_lines": "TOO_GREAT",
    "mime_rules": "GREATEST",
    "service_client": "GREATEST_CHANGE GREATEST_JOB MOST_UNANSWERED",
    "service_loop": "LONGEST_IDLE MOST_STAGED",
    "service_replies": "GREATEST_SIZE",
    "service_rules": "LONGEST_DOCUMENT LONGEST_DOUBT LONGEST_STEP",
    "side_channel": "SESSION_READS",
    "spool_areas": "LAST_EPOCH",
    "spool_front": "GREATEST_ROOM MEBIBYTE MOST_PATIENCE PIECE",
    "spool_runtime": "DEFAULT_SIZE GREATEST_SIZE MOST_BLOCKS MOST_ERRORS MOST_LINES",
    "spool_service": "MEBIBYTE MOST MOST_MILLIS",
    "spool_types": "GREATEST GREATEST LONGEST_DOCUMENT",
    "user_proofs": "LIFETIME",
}

# Expressions that evaluate to out of memory.
SAYS = re.compile(r"\b(?:Memory|NoMemory|OutOfMemory|AllocError|AllocFailed)\b")

# A pattern that names it.
NAMES = re.compile(r"Memory|AllocError")

# A call that allocates a number of items, and which of its arguments is that number.
TAKES = re.compile(r"\b(with_capacity|reserve|reserve_exact|try_reserve|from_elem|resize|repeat)\(|\bvec!(\[)")
FIRST = ("resize", "reserve", "reserve_exact", "try_reserve")

# An amount other than a number of existing items: a number, a constant, a sum or a product.
MADE = re.compile(r"\b\d|\b[A-Z][A-Z0-9_]+\b|[*+]|<<|pow\(|mul\(|add\(|shl\(|sum\(|product\(")

# A number above a million, or one that may be.
GREAT = re.compile(r"\b[ui](?:8|16|32|64|128|size)::(?:MAX|MIN)\b|<<|\bpow\(|\bshl\(|!0\w*\b|\b0x[0-9A-Fa-f_]{6,}|\b\d[\d_]{6,}\w*")
# Character and string literals: a number in one of them is text.
TEXT = re.compile(r"'(?:[^'\\]|\\.)'|\"(?:[^\"\\]|\\.)*\"")

CONSTANT = re.compile(r"^\s*(?:pub(?:\([a-z]+\))? )?(?:const|static) (\w+): [^=]*=(.*)$")
TESTS = re.compile(r"(^|_)tests\.rt$")


class Function:
    """The body of a function: its first line, and its lines of code with the number of the first."""

    def __init__(self, crate, path, lines, found):
        self.crate, self.path, self.name, self.head = LIBRARIES.get(crate, crate), path, found.name, lines[found.first - 1]
        self.first, self.lines = found.opens + 1, lines[found.opens : found.last - 1]

    def key(self):
        return self.crate, self.name

    def where(self, line):
        return f"{shown(self.path)}:{self.first + line} {self.name}"


def sources():
    """The source files that are not tests, as crate, path and lines without comments."""
    for crate in crates():
        if crate in OF_TESTS or crate.endswith("_tests"):
            continue
        for path in files_of(crate, "src"):
            if path.suffix == ".rt" and not TESTS.search(path.name):
                yield crate, path, [line.split("//")[0] for line in path.read_text(encoding="utf-8").split("\n")]


def bodies(crate, path, lines):
    """The functions of a file that have a body of more than a line."""
    return [Function(crate, path, lines, it) for it in functions_in(lines) if it.opens < it.last]


def passes_on(code):
    """Whether each out of memory on this line is a pattern, or comes from one that names it."""
    pattern, arrow, _ = code.partition("=>")
    if arrow:
        return bool(NAMES.search(pattern))
    return bool(re.search(r"matches!\(|==|!=|\bif let\b", code))


def in_arms(lines):
    """The numbers of the lines inside the arms of several lines whose pattern names out of memory."""
    found, ends = set(), None
    for number, code in enumerate(lines):
        indent = len(code) - len(code.lstrip())
        if ends is not None and indent <= ends and code.strip():
            ends = None
        elif ends is not None:
            found.add(number)
        if ends is None and NAMES.search(code.partition("=>")[0]) and re.search(r"=> \{$", code.rstrip()):
            ends = indent
    return found


def answers(function):
    """The lines of a function that create an out of memory error."""
    if function.name == "from" and SAYS.search(function.head):
        return []
    inside = in_arms(function.lines)
    return [
        number
        for number, code in enumerate(function.lines)
        if SAYS.search(code) and "->" not in code and number not in inside and not passes_on(code)
    ]


def arguments(text, at):
    """The arguments of a call after its opening bracket, and whether they are separated by semicolons."""
    depth, parts, semicolons = 0, [""], 0
    for sign in text[at:]:
        if sign in ")]}" and depth == 0:
            break
        depth += (sign in "([{") - (sign in ")]}")
        if depth == 0 and sign in ",;":
            semicolons += sign == ";"
            parts.append("")
        else:
            parts[-1] += sign
    return [" ".join(part.split()) for part in parts if part.strip()], semicolons


def capacities(function):
    """The amounts that a function requests other than numbers of existing items, each with its line."""
    text = "\n".join(function.lines)
    for found in TAKES.finditer(text):
        words, semicolons = arguments(text, found.end())
        if not words or (found[2] and semicolons < 2):
            continue
        asked = words[0] if found[1] in FIRST else words[-1]
        if MADE.search(asked):
            yield text.count("\n", 0, found.start()), asked


def great_numbers(function):
    """The large numbers of a function that are not in a capacity, each with its line."""
    for number, code in enumerate(function.lines):
        for found in GREAT.findall(TEXT.sub('""', code)):
            yield number, found


def great_constants(crate, path, lines):
    """The large constants of a file, as crate and name, each with its place."""
    for number, line in enumerate(lines, 1):
        found = CONSTANT.match(line)
        if found and GREAT.search(TEXT.sub('""', found[2])):
            yield (LIBRARIES.get(crate, crate), found[1]), f"{shown(path)}:{number}: {line.strip()}"


def compared(found, table, what):
    """The differences between the code and a table, a line each. Both map a key to a list of texts; each text of the code follows its
    place.
    """
    for key, places in sorted(found.items()):
        if sorted(text for _, text in places) != sorted(table.get(key, [])):
            yield from (f"{place}: {what}: {text}" for place, text in places)
    for key in sorted(set(table) - set(found)):
        yield f"{key[0]} {key[1]}: {what}: the table has {', '.join(table[key])}, and the code none"


def named(table):
    """The crates and names of a table, each pair as often as the table has it."""
    return Counter((crate, name) for crate, names in table.items() for name in names.split())


def tables(said):
    """The four tables, as `compared` takes them. That of errors has the lines of the code if their number is right."""
    passed, numbers = {}, {}
    for key, count in named(PASSED_ON).items():
        there = [text for _, text in said.get(key, [])]
        passed[key] = there if len(there) == count else [f"{count} answers" if there else "an answer"]
    for number, functions in NUMBERS.items():
        for key, count in named(functions).items():
            numbers.setdefault(key, []).extend([number] * count)
    constants = {key: [key[1]] * count for key, count in named(CONSTANTS).items()}
    return {"out of memory": passed, "capacity": CAPACITIES, "great number": numbers, "great constant": constants}


def found_in_code():
    """The places of the code that the tables must have, for each table by crate and name."""
    found = {"out of memory": {}, "capacity": {}, "great number": {}, "great constant": {}}

    def add(what, key, place, text):
        found[what].setdefault(key, []).append((place, text))

    for crate, path, lines in sources():
        for key, place in great_constants(crate, path, lines):
            add("great constant", key, place, key[1])
        for function in bodies(crate, path, lines):
            for line in answers(function):
                add("out of memory", function.key(), function.where(line), function.lines[line].strip())
            for what, places in (("capacity", capacities(function)), ("great number", great_numbers(function))):
                for line, text in places:
                    add(what, function.key(), function.where(line), text)
    return found


def faults():
    found, there = found_in_code(), {LIBRARIES.get(crate, crate) for crate in crates()}
    listed = tables(found["out of memory"])
    # These are reported once, and not row by row.
    missing = {crate for table in listed.values() for crate, _ in table} - there
    yield from (f"{crate}: in a table of this script, and no crate any more: take its rows out" for crate in sorted(missing))
    for what, table in listed.items():
        yield from compared(found[what], {key: texts for key, texts in table.items() if key[0] not in missing}, what)


if __name__ == "__main__":
    sys.exit(judged(faults(), "places"))
