#!/usr/bin/env python3
"""Shows that each must-fail edit still applies to its crate: edits_apply.py

An edit is a file of crates/NAME/must-fail, which the gate tries, or of crates/NAME/more-edits, which tests/more_edits.py tries. It must
name only files below src/ of its crate, never a definition or a proof, and each text that it replaces must occur there exactly once. The
gate tries the wrong bodies that the promises name, each in one crate, and no other edit. Those of DEAR are in more-edits instead, because
the gate would check their crates for minutes.

It takes seconds and proves nothing. The last line is `none`, with status 0. Otherwise it prints the errors, and ends with status 1.
"""
import re
import sys

from harness.sources import CRATES, crates, HERE, judged

# The wrong bodies that the promises name, of each crate. Two more are refused by tests: a call that always runs out of memory, and a start
# that waits for its child's end.
PROMISED = {
    "backend_codes": "reopens-as-pending retry-current-as-retry",
    "clean_texts": "keeps-control-characters",
    "client_roles": "does-a-denied-command owner-from-the-claim",
    "client_standing": "shows-titles-to-others",
    "ended_jobs": "purges-beside-its-child waits-for-a-purged-job-forever",
    "field_codec": "bytes-left-over",
    "gate_journal": (
        "full-counts-less gate-with-payload keeps-no-disk later-gate-stays-closed ok-before-second-sync "
        "opens-before-the-sync settle-opens-the-last-gate"
    ),
    "ipp_connections": "holds-a-whole-document",
    "ipp_names": "offers-an-absent-operation",
    "line_pieces": "drops-cut-line",
    "print_rounds": (
        "document-to-every-stage finish-before-next-start forgets-other-children next-stage-after-cancel "
        "round-starts-nothing"
    ),
    "requested_attributes": "answers-what-was-not-asked ignores-requested-attributes",
    "service_client": "answers-a-lost-command answers-another-command sends-a-piece-twice",
    "service_rules": "create-in-the-reserve time-stands-still",
    "spool_areas": (
        "always-appends-reopen closes-current-first header-in-one-write open-without-sync opens-empty "
        "takes-away-and-puts-back"
    ),
    "spool_core": "checkpoint-does-nothing drive-appends-nothing keeps-after-full stops-all-queues",
    "spool_engine": "empty-listing-after-full ok-before-apply",
    "user_proofs": "follows-a-link",
    "walk_costs": "cheapest-first-step",
    "watched_children": "changes-an-exit says-every-child-ended swaps-words",
}

# The promises name these too.
DEAR = {
    "ipp_answers": "shows-a-hidden-title",
    "ipp_codec": "ends-two-collections reads-a-signed-length takes-the-document",
    "ipp_options": "leaves-out-a-hold value-ends-an-option",
    "ipp_requests": "ok-to-an-absent-operation",
    "ipp_tasks": "answers-before-the-close",
    "print_rounds": "starts-beside-a-running-child starts-beyond-the-places tick-ignores-the-look",
    "queue_edits": "removes-unended-jobs",
    "service_loop": "replies-before-the-settle",
    "spool_engine": "forgets-a-running-child",
}

IN_GATE, ON_DEMAND = "must-fail", "more-edits"
# rt reads no other name as an edit.
NAME = re.compile(r"[A-Za-z0-9_-][A-Za-z0-9_.-]*\.edit")


def pairs_of(text):
    """The path, the old and the new text of each replacement, as rt reads them, and the lines that it does not read.

    A line that begins with # is a comment.
    """
    path, old, pairs, unread = None, None, [], []
    for line in text.split("\n"):
        if line.startswith("file: "):
            path = line.removeprefix("file: ").strip()
        elif line.startswith("old: "):
            old = line.removeprefix("old: ")
        elif line.startswith("new:"):
            pairs.append((path, old, line.removeprefix("new:").removeprefix(" ")))
            old = None
        elif line.strip() and not line.startswith("#"):
            unread.append(line)
    return pairs, unread


def fault_in(text, crate):
    """The error of an edit of a crate, or None. A later replacement applies to the result of the earlier ones."""
    pairs, unread = pairs_of(text)
    if unread:
        return f"a line begins with none of 'file: ', 'old: ' and 'new: ': {unread[0][:60]}"
    if not pairs:
        return "it replaces nothing"
    texts, before = {}, {}
    for path, old, new in pairs:
        if path is None or not old:
            return "a line 'new: ' has no lines 'file: ' and 'old: ' before it"
        if not path.startswith("src/") or ".." in path.split("/"):
            return f"{path} is not below src/"
        if path not in texts:
            if not (crate / path).is_file():
                return f"missing file {path}"
            texts[path] = before[path] = (crate / path).read_text(encoding="utf-8")
        count = texts[path].count(old)
        if count != 1:
            return f"a text occurs {count} times in {path}, and not once: {old.strip()[:60]}"
        texts[path] = texts[path].replace(old, new)
    return "it changes nothing" if texts == before else None


def fault_of(edit, crate):
    return fault_in(edit.read_text(encoding="utf-8"), crate)


def edits_in(crate, folder):
    return sorted((crate / folder).iterdir()) if (crate / folder).is_dir() else []


def edit_faults(crate, folder):
    """The edits of a crate in a folder that do not apply."""
    for edit in edits_in(crate, folder):
        is_edit = edit.is_file() and NAME.fullmatch(edit.name)
        fault = fault_of(edit, crate) if is_edit else "its name is not that of an edit"
        if fault:
            yield f"{edit.relative_to(HERE)}: {fault}"


def faults():
    """The errors, a line each."""
    for table in (PROMISED, DEAR):
        yield from (f"{crate}: in a table of this script, and no crate" for crate in sorted(set(table) - set(crates())))
    dear = set(" ".join(DEAR.values()).split())
    for crate in (CRATES / name for name in crates()):
        for folder, table in ((IN_GATE, PROMISED), (ON_DEMAND, DEAR)):
            yield from edit_faults(crate, folder)
            named, names = set(table.get(crate.name, "").split()), {it.stem for it in edits_in(crate, folder)}
            yield from (f"crates/{crate.name}/{folder}: {name} is missing" for name in sorted(named - names))
            others = names - named if folder == IN_GATE else names & dear - named
            yield from (f"crates/{crate.name}/{folder}: no table names {name}, or for another crate" for name in sorted(others))


if __name__ == "__main__":
    sys.exit(judged(faults()))
