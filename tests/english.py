#!/usr/bin/env python3
"""Shows that odd idioms are as rare in the prose of the repository as its limits say: english.py [OPTION]

It counts the idioms per 1,000 words of each group of texts and compares each rate with a limit. The gate runs it. It needs no build
and takes a few seconds. Code, identifiers and console blocks count neither as words nor as hits.

    english.py                     the table of counts, rates and limits, and the lines with the most hits
    english.py --worst N           the same with the N worst lines
    english.py --files             the same, and the words and hits of each file
    english.py --files PATH..      each hit in these files or folders: file, line, idiom and text
    english.py --manuals [FOLDER..]  the rates in the manual pages below these folders, /usr/share/man unless given, for IDIOMS

The last line is `none`, with status 0, or the number of limits that are exceeded, with status 1.
"""
import gzip
import math
import re
import signal
import subprocess
import sys
from bisect import bisect_right
from concurrent.futures import ThreadPoolExecutor
from pathlib import Path

from harness.sources import crates, files_of, HERE, shown

# The groups of texts, in the order of the columns of the table.
GROUPS = {
    "documents": "README.md, CONTRIBUTING.md, CHANGES.md and the Markdown files of docs/ and examples/, without docs/reference/",
    "manuals": "docs/man/, without macros",
    "messages": "string literals of three words or more in src/: help, errors, logs",
    "roots": "the first page of each crate, `//!` of lib.rt or main.rt",
    "sources": "all other comments of src/",
    "logic": "comments of specs/ and proofs/",
    "scripts": "docstrings and comments of tests/*.py and bench/*.py",
}

# Each idiom: its hits per 1,000 words of Debian's manual pages, and a regular expression on lower-case text, in which a space matches a
# space or the end of a line. A group may have three times that rate, with the number of its hits rounded up.
#
# `english.py --manuals` printed the rates on November 28, 2026, for Debian 12.11 with the packages apt, bash, cups-client, cups-daemon,
# cups-bsd, curl, dpkg, findutils, git-man, grep, make, openssh-client, openssh-server, rsync, sed, systemd and tar: 518,801 words of 188
# pages, which are 152 of git, bash.1, curl.1, dpkg.1, find.1, grep.1, journalctl.1, lp.1, lpr.1, lpstat.1, make.1, rsync.1, scp.1, sed.1,
# sftp.1, ssh-add.1, ssh-agent.1, ssh-keygen.1, ssh.1, systemctl.1, tar.1, xargs.1, authorized_keys.5, cupsd.conf.5, mime.types.5,
# rsyncd.conf.5, ssh_config.5, sshd_config.5, systemd.exec.5, systemd.service.5, systemd.socket.5, systemd.unit.5, backend.7, apt-get.8,
# cupsd.8, lpadmin.8 and sshd.8.
IDIOMS = {
    "tell": (0.532, r"\b(?:tell|tells|telling|told)\b"),
    "what is": (0.283, r"\bwhat (?:is|are|was|were|it|they|an?|the|no|each|this|that|has|came|comes|becomes|stands)\b(?![^.!?;:]*\?)"),
    "where for if": (0.258, r"(?:[.;:,] |\n\n)where\b|\bwhere (?:it|they|no|none|nothing|nobody|there|any|neither|one)\b"
                    r"|\bwhere (?:an?|the|its|that|this) [^.,;:]{0,40}?(?:n't|cannot|\bnot|has no|have no|fails)\b"),
    "behind": (0.035, r"\bbehind\b"),
    "beside": (0.002, r"\bbeside\b"),
    "want of": (0.131, r"\b(?:finds?|found|finding) no (?:memory|room)\b|\bwant of\b|\bwants\b"),
    "stand": (0.015, r"\b(?:stands?|stood|standing)\b"),
    "go": (0.137, r"\b(?:go|goes|went)\b"),
    "whoever": (0.000, r"\bwhoever\b|\bwhose [^.;:]{0,40}\bit is\b"),
    "anew": (0.000, r"\banew\b"),
    "is there": (0.002, r"\b(?:(?:is|are|was|were)n't|(?:is|are|was|were) not) there\b|\b(?:is|are|was|were) there\b(?! (?:an?|any|no|is|are)\b)"),
    "as many": (0.048, r"\b(?:as|so) many\b"),
    "make of": (0.000, r"\b(?:makes?|made|making|becomes?|became|comes?|came) of\b"),
    "one after": (0.015, r"\bone after (?:the other|another)\b|\bone by one\b"),
    "come to": (0.027, r"\b(?:comes?|came|coming) to\b"),
    "lead to": (0.046, r"\b(?:leads?|led|leading) to\b"),
    "in hand": (0.000, r"\bin hand\b"),
    "but for": (0.027, r"\bbut for\b|, save\b"),
    "let go": (0.002, r"\b(?:lets?|letting) (?:\w+ )?go\b|\b(?:gives?|gave|given|giving) (?:\w+ )?back\b"),
    "of which": (0.715, r"\b(?:of|by|in|to|from|with|at|on|for|after|before) (?:which|whom)\b"),
    "has to be": (0.133, r"\b(?:has|have|had|is|are|was|were) to be\b"),
    "none but": (0.008, r"\bnone but\b|\bno (?:more|fewer|less) than\b"),
    "said to be": (0.006, r"\b(?:is|are|was|were|be|been) said\b|\bsaid (?:of|to be)\b"),
    "look at": (0.102, r"\b(?:looks?|looked|looking) at\b|\ba look\b"),
    "the one that": (0.033, r"\bthe ones? (?:that|which|whose)\b|\b(?:of|than|as|are|is|and|only) those (?:that|which|whose)\b"),
    "old names": (0.000, r"\b(?:newcomers?|deeds?|the house|keeps? house|brimful|stirred)\b"),
    "contractions": (1.282, r"\b\w+n't\b|\b(?:it|that|there|here|what|who|let)'s\b|\b\w+'(?:re|ll|ve)\b"),
}
# Contractions are counted in reference texts only.
REFERENCE = ("documents", "manuals", "messages", "roots")

PATTERNS = {idiom: re.compile(text.replace(" ", r"[ \n]")) for idiom, (_, text) in IDIOMS.items()}
LIMITS = {idiom: 3 * rate for idiom, (rate, _) in IDIOMS.items()}
WORD = re.compile(r"[a-z]+(?:['-][a-z]+)*")
CODE = "·"
# Text that does not count as words: code in backticks, the address of a link, a name with an underscore, colons, a slash or an inner
# capital, and an option.
NO_WORDS = re.compile(
    r"(`+)[^`]+?\1|(?<=\])\([^)\s]*\)|<?https?://[^\s>)]*>?"
    r"|(?<!\S)[(\[\"']*(?:-+\w\S*|\S*(?:\w_\w|::|\w/\w|=\w|[a-z][A-Z])\S*?)(?=[.,;:)\"'\]]*(?:\s|$))"
)
FENCED = re.compile(r"^ *(```|~~~).*?^ *\1[^\n]*$", re.MULTILINE | re.DOTALL)
MARKS = re.compile(r"^[ >]*(?:#+ |[-*+] |\d+[.)] |\|)?|[*]+", re.MULTILINE)
SPACES = re.compile(r"[ \t]+")

TESTS = re.compile(r".*_(tests|facts|examples)")
RATTLE = re.compile(r'"(?:[^"\\]|\\.)*"|//[^\n]*|\'(?:[^\'\\\n]|\\.)\'', re.DOTALL)
PYTHON = re.compile(r'"""(?:[^\\]|\\.)*?"""|"(?:[^"\\\n]|\\.)*"|\'(?:[^\'\\\n]|\\.)*\'|#[^\n]*', re.DOTALL)
HOLE = re.compile(r"\{[^{}]*\}|\\[nrt\\\"]|\\\n\s*")
# String literals that are programs: scripts of the shell, style sheets.
PROGRAM = re.compile(r"/usr/bin|\$[\w{]|:root|ulimit|\{ ")

# Macros of mdoc(7): those with names or code as arguments, those that begin a text, and those without any.
MDOC_CODE = set("Ar Cm Dv Er Ev Fl Fn Ic Li Nm Op Pa Ql Va Vt Xr".split())
MDOC_TEXT = set("Em It Nd No Pc Po Pq Dq Sh Ss Sq Sx Sy Ta".split())
MDOC_ARGUMENT = re.compile(r'"[^"]*"|\S+')
ESCAPE = re.compile(r"\\(?:f.|&|\(..|\[\w+\]|.)")


def only_words(text):
    """The lower-case text with a mark for each name or piece of code. It has the same lines."""
    text = NO_WORDS.sub(lambda it: CODE + "\n" * it[0].count("\n"), text.replace("’", "'"))
    return "\n".join(SPACES.sub(" ", it).strip() for it in text.split("\n")).lower()


def markdown(text):
    """The prose of Markdown: no fenced and no indented blocks, and no marks."""
    text = FENCED.sub(lambda it: "\n" * it[0].count("\n"), text)
    lines, block, blank = [], False, True
    for line in text.split("\n"):
        block = line.startswith("    ") and (block or blank)
        blank = not line.strip()
        lines.append("" if block else line)
    return MARKS.sub(" ", "\n".join(lines))


def mdoc_line(line):
    """The prose of a line with a macro."""
    tokens = MDOC_ARGUMENT.findall(line[1:])
    words, is_code = [], False
    if not tokens or tokens[0] not in MDOC_CODE | MDOC_TEXT:
        return ""
    for token in tokens:
        if token in MDOC_CODE:
            is_code = True
            words.append(CODE)
        elif token in MDOC_TEXT:
            is_code = False
        elif not is_code or token in ".,;:()":
            words.append(token.strip('"'))
    return " ".join(words) + ("." if tokens[0] in ("Sh", "Ss", "Nd") else "")


def mdoc(text):
    lines, literal = [], False
    for line in text.split("\n"):
        literal = (literal or line.startswith(".Bd")) and not line.startswith(".Ed")
        if literal or line.startswith('.\\"'):
            lines.append("")
        else:
            lines.append(ESCAPE.sub("", mdoc_line(line) if line.startswith(".") else line))
    return "\n".join(lines)


def rattle(path, text):
    """The comments and the messages of a file of src/."""
    count = text.count("\n") + 1
    parts = {"sources": [""] * count, "messages": [""] * count, "roots": [""] * count}
    is_root = path.name in ("lib.rt", "main.rt") and path.parent.name == "src"
    has_messages = not any(TESTS.fullmatch(it) for it in path.parts)
    line, seen = 0, 0
    for found in RATTLE.finditer(text):
        line, seen = line + text.count("\n", seen, found.start()), found.start()
        it = found[0]
        if it.startswith("//"):
            parts["roots" if is_root and it.startswith("//!") else "sources"][line] = it.lstrip("/!")
        elif it.startswith('"') and has_messages and not PROGRAM.search(it):
            words = only_words(HOLE.sub(f" {CODE} ", it[1:-1]))
            if len(WORD.findall(words)) >= 3:
                parts["messages"][line] += words + " . "
    return {it: "\n".join(lines) for it, lines in parts.items()}


def logic(text):
    """The comments of a file of specs/ or proofs/."""
    lines = []
    for line in text.split("\n"):
        code, mark, remark = line.partition("-- ")
        lines.append(remark if mark and (not code.strip() or code.endswith(" ")) else "")
    return "\n".join(lines)


def python(text):
    """The docstrings and comments of a script."""
    lines = [""] * (text.count("\n") + 1)
    for found in PYTHON.finditer(text):
        it, line = found[0], text.count("\n", 0, found.start())
        if it.startswith("#") and not it.startswith("#!"):
            lines[line] = it.lstrip("# ")
        elif it.startswith('"""') and not text[text.rfind("\n", 0, found.start()) + 1 : found.start()].strip():
            for at, prose in enumerate(it.strip('"').split("\n")):
                lines[line + at] = prose
    return "\n".join(lines)


def groups_of(path):
    """The prose of a file by group, with the lines of the file."""
    text = path.read_text(encoding="utf-8", errors="replace")
    if path.suffix == ".md":
        parts = {"documents": markdown(text)}
    elif path.suffix == ".rt":
        parts = rattle(path, text)
    elif path.suffix == ".antt":
        parts = {"logic": logic(text)}
    elif path.suffix == ".py":
        parts = {"scripts": python(text)}
    elif re.fullmatch(r"\.[1-9]", path.suffix):
        parts = {"manuals": mdoc(text)}
    else:
        parts = {}
    if path.suffix in (".rt", ".antt", ".py"):
        parts = {it: FENCED.sub(lambda it: "\n" * it[0].count("\n"), prose) for it, prose in parts.items()}
    return {it: only_words(prose) for it, prose in parts.items()}


def hits_of(group, prose):
    """Each hit in a text: its line, counted from 1, and its idiom."""
    starts = None
    for idiom, pattern in PATTERNS.items():
        if idiom == "contractions" and group not in REFERENCE:
            continue
        for found in pattern.finditer(prose):
            if starts is None:
                starts = [-1] + [it.start() for it in re.finditer("\n", prose)]
            yield bisect_right(starts, found.start() + len(found[0]) - len(found[0].lstrip("\n")) - 1), idiom


def tree_files():
    """The files of all groups. The pages of docs/reference/ are copies of the root pages."""
    yield from (HERE / it for it in ("README.md", "CONTRIBUTING.md", "CHANGES.md"))
    for folder in ("docs", "examples"):
        yield from sorted(it for it in (HERE / folder).rglob("*.md") if it.parent != HERE / "docs/reference")
    yield from sorted((HERE / "docs/man").glob("*.[1-9]"))
    for crate in crates():
        yield from files_of(crate, "src", "specs", "proofs")
    for folder in ("tests", "bench"):
        yield from sorted((HERE / folder).rglob("*.py"))


class Counts:
    """The words of each group, and the hits of each idiom by group, file and line."""

    def __init__(self, files):
        self.words = dict.fromkeys(GROUPS, 0)
        self.hits = {idiom: dict.fromkeys(GROUPS, 0) for idiom in IDIOMS}
        self.files, self.lines = {}, {}
        for path in files:
            for group, prose in groups_of(path).items():
                words = len(WORD.findall(prose))
                self.words[group] += words
                of_file = self.files.setdefault(path, [0, 0])
                of_file[0] += words
                for line, idiom in hits_of(group, prose):
                    self.hits[idiom][group] += 1
                    of_file[1] += 1
                    self.lines.setdefault((path, line), []).append(idiom)

    def rate(self, idiom, group):
        return 1000 * self.hits[idiom][group] / max(1, self.words[group])

    def allowed(self, idiom, group):
        return math.ceil(LIMITS[idiom] * self.words[group] / 1000)

    def is_over(self, idiom, group):
        return self.hits[idiom][group] > self.allowed(idiom, group)


def print_lines(lines):
    """Each line with its idioms and its text."""
    texts = {}
    for (path, line), idioms in lines:
        text = texts.setdefault(path, path.read_text(encoding="utf-8", errors="replace").split("\n"))[line - 1]
        print(f"{shown(path)}:{line}: {', '.join(dict.fromkeys(idioms))}: {text.strip()[:160]}")


def print_table(counts):
    """Of each idiom and group the hits, the hits per 1,000 words and the limit, with `!` if it is exceeded."""
    print(f"{'':13}{'Debian':>7}" + "".join(f"{it:>19}" for it in GROUPS))
    print(f"{'words':13}{'':7}" + "".join(f"{counts.words[it]:>12}{'':7}" for it in GROUPS))
    for idiom in IDIOMS:
        cells = []
        for group in GROUPS:
            mark = "!" if counts.is_over(idiom, group) else " "
            cells.append(f"{counts.hits[idiom][group]:>6}{counts.rate(idiom, group):>6.2f}/{LIMITS[idiom]:<5.2f}{mark}")
        print(f"{idiom:13}{IDIOMS[idiom][0]:>7.2f}" + "".join(f"{it:>19}" for it in cells))
    cells = []
    for group in GROUPS:
        cells.append(f"{sum(it[group] for it in counts.hits.values()):>6}{sum(counts.rate(it, group) for it in IDIOMS):>6.2f}")
    print(f"{'all':13}{sum(rate for rate, _ in IDIOMS.values()):>7.2f}" + "".join(f"{it:>12}{'':7}" for it in cells))


# The manual pages that are measured.
PAGES = (
    r"(?:bash|tar|rsync|rsyncd\.conf|ssh|ssh-add|ssh-agent|ssh-keygen|scp|sftp|ssh_config|sshd|sshd_config|authorized_keys|sed|grep"
    r"|find|xargs|curl|make|systemctl|journalctl|systemd\.(?:unit|service|exec|socket)|dpkg|apt-get|lp|lpr|lpstat|lpadmin|cupsd"
    r"|cupsd\.conf|mime\.types|backend|git(?:-[\w-]+)?)\.[1578]\.gz"
)


def rendered(page):
    """The text of a manual page, as mandoc shows it."""
    with gzip.open(page) as file:
        out = subprocess.run(["mandoc", "-Tutf8", "-O", "width=140"], input=file.read(), capture_output=True).stdout
    return re.sub(r".\x08", "", out.decode("utf-8", "replace")).replace("‐", "-")


def print_manuals(folders):
    """The rates of the manual pages, and the pages that were found."""
    pages = {it.name: it for folder in folders for it in sorted(Path(folder).glob("man*/*.gz")) if re.fullmatch(PAGES, it.name)}
    hits, words = dict.fromkeys(IDIOMS, 0), 0
    with ThreadPoolExecutor() as pool:
        for text in pool.map(lambda it: only_words(rendered(it)), pages.values()):
            words += len(WORD.findall(text))
            for _, idiom in hits_of("manuals", text):
                hits[idiom] += 1
    others = [it.removesuffix(".gz") for it in pages if not it.startswith("git")]
    print(f"# {words} words of {len(pages)} pages: {len(pages) - len(others)} of git, {', '.join(others)}")
    for idiom, count in hits.items():
        print(f"{idiom}: {1000 * count / max(1, words):.3f}")


def files_below(names):
    for name in names:
        path = Path(name).resolve()
        yield from sorted(it for it in path.rglob("*") if it.is_file()) if path.is_dir() else [path]


def main():
    signal.signal(signal.SIGPIPE, signal.SIG_DFL)
    word, *others = sys.argv[1:] or [""]
    if word == "--manuals":
        print_manuals(others or ["/usr/share/man"])
        return 0
    counts = Counts(files_below(others) if word == "--files" and others else tree_files())
    if word == "--files" and others:
        print_lines(sorted(counts.lines.items()))
        hits, words = sum(it[1] for it in counts.files.values()), sum(counts.words.values())
        print(f"{hits} hits in {words} words, {1000 * hits / max(1, words):.1f} per 1,000")
        return 0
    if word == "--files":
        for path, (words, hits) in sorted(counts.files.items(), key=lambda it: -it[1][1]):
            print(f"{shown(path)}: {words} words, {hits} hits, {1000 * hits / max(1, words):.1f} per 1,000")
    print_table(counts)
    worst = sorted(counts.lines.items(), key=lambda it: -len(it[1]))
    print_lines(worst[: int(others[0]) if word == "--worst" else 5])
    over = [(idiom, group) for idiom in IDIOMS for group in GROUPS if counts.is_over(idiom, group)]
    for idiom, group in over:
        print(f"{group}: `{idiom}` has {counts.hits[idiom][group]} hits, and at most {counts.allowed(idiom, group)} are allowed")
    print(f"{len(over)} limits are exceeded" if over else "none")
    return 1 if over else 0


if __name__ == "__main__":
    sys.exit(main())
