"""Reads the stored scripts of crates/spool_scripts/data for a client that waits for replies."""
import os
import re

from harness.files import read, write
from harness.journal import header, NEWEST
from harness.programs import CRATES

DATA = os.path.join(CRATES, "spool_scripts", "data")

# The parts of a script that cannot be passed to the built program.
MADE_UP = ("children", "fuse", "lang", "limits")

# After `# run` a served engine runs again, and after `# tick` it makes a tick and runs again. The built program has only one run.
CUTS = {b"# run\n", b"# tick\n"}

# Sends with a whole line; greater counts and numbers are no commands.
SEND = re.compile(rb'[ \t]*("?)send\1[ \t]+("?)([0-9]+)\2[ \t]+("?)([0-9]+)\4[ \t]*')
LEAST_SIZE = 4_096
USUAL_SIZE = 4_194_304
LONGEST_LINE = 4_096
GREATEST_JOB = 2_147_483_647
GREATEST_COUNT = 4_294_967_295
LISTS = (b"jobs", b"queues")


def lines_of(text):
    """The lines of a text, each with its line feed if it has one."""
    return re.findall(rb"[^\n]*\n|[^\n]+", text)


def stored_file(name, ending):
    return read(os.path.join(DATA, f"{name}.{ending}"))


def names():
    """The scripts that the built program can serve."""
    files = os.listdir(DATA)
    scripts = sorted(file[: -len(".script")] for file in files if file.endswith(".script"))
    if not scripts:
        raise SystemExit(f"no script in {DATA}")
    made_up = {name for name in scripts if any(f"{name}.{ending}" in files for ending in MADE_UP)}
    return [name for name in scripts if name not in made_up and CUTS.isdisjoint(lines_of(stored_file(name, "script")))]


def words_of(name, root):
    """The arguments of the program that serves a script in a folder, which is created. A spool that is shorter than the program creates
    one, or of an older version, is written there: an area without records.
    """
    os.mkdir(root)
    words = ["--root", root]
    for ending in ("types", "convs"):
        if stored_file(name, ending) is not None:
            words += [f"--{ending}", os.path.join(DATA, f"{name}.{ending}")]
    size = int(stored_file(name, "size") or USUAL_SIZE)
    version = int(stored_file(name, "version") or NEWEST)
    if size < LEAST_SIZE or version != NEWEST:
        write(os.path.join(root, "spool.disk"), header(1, version=version).ljust(size, b"\0"))
    elif size != USUAL_SIZE:
        words += ["--size", str(size)]
    return words


def parts(script):
    """The parts of a script between its openings."""
    part = b""
    for line in lines_of(script):
        if line == b"# reopen\n":
            yield part
            part = b""
        else:
            part += line
    yield part


def payload(line):
    """How many bytes follow a line as those of a send, with the line feed after them."""
    found = SEND.fullmatch(line)
    if not found or len(line) > LONGEST_LINE or not 1 <= int(found[3]) <= GREATEST_JOB or int(found[5]) > GREATEST_COUNT:
        return 0
    return int(found[5]) + 1


def line_end(text, at):
    """The end of the line that begins here, after its line feed, or 0 if it has none."""
    return text.find(b"\n", at) + 1


def commands(part):
    """The pieces that are written at once, whether each has a reply, and the command. The last is the text without a line feed."""
    at = 0
    while line_end(part, at):
        end = line_end(part, at)
        line = part[at : end - 1]
        sent = payload(line)
        if end + sent > len(part):
            break
        if sent and part[end + sent - 1 : end + sent] != b"\n":
            # The bytes are no send: its reply arrives, and then the line that they are in ends.
            yield part[at : end + sent], True, line
            at, end = end + sent, line_end(part, end + sent) or len(part)
            yield part[at:end], False, b""
        else:
            end += sent
            yield part[at:end], line[:1] not in (b"", b"#"), line
        at = end
    if part[at:]:
        yield part[at:], None, b""


def replies_to(command, stored):
    """How many of the stored lines are the reply to a command."""
    if len(command) > LONGEST_LINE or command.strip(b" \t") not in LISTS:
        return 1
    return next((at for at, line in enumerate(stored, 1) if line.startswith(b"ok ")), len(stored))
