"""The small filters and backends of spool_tools, with real files, sockets and environments.

Each case compares a tool's output, its standard error, its status and the files that it leaves: the output of each filter for some bytes,
from standard input and from a file with several copies, also with little memory; the results of each backend, with each of its options; the
packets on the side channel; printers that take a document fast or slowly, read nothing, close the connection too early, last or never, reset
it, send data or do not exist, with each value of `waiteof` and `afterlast`; and arguments that are refused, which write nothing. With
--long the 20 turns of `meet` and the 90 seconds of `appsocket` are tested too.
"""
import contextlib
import os
import re
import resource
import socket
import subprocess
import time

import pytest

from harness.checks import compare, LONGEST, reports_all, until
from harness.files import read, write
from harness.printers import Printer, reset, reset_after, take
from harness.programs import limited, TOOLS

pytestmark = pytest.mark.needs("spool_tools")

JOB = ["7", "ann", "First page", "3", "media=A4"]
NO_FILE = "No such file or directory"


def run(words, given=b"", uri=None, side=None, stdout=subprocess.PIPE, stderr=subprocess.PIPE, **more):
    """The output, the standard error and the status of the program with these arguments, and with further variables."""
    variables = {"PATH": "/usr/bin:/bin", "DEVICE_URI": uri, "SPOOL_SIDE": side, **more}
    env = {name: value for name, value in variables.items() if value is not None}
    ended = subprocess.run([TOOLS, *words], input=given, stdout=stdout, stderr=stderr, env=env, timeout=LONGEST)
    return ended.stdout, ended.stderr, ended.returncode


def run_full(words, stream="stdout", given=b"a\n"):
    """The same with a stream on a disk that is full, whose text is None."""
    with open("/dev/full", "wb") as full:
        return run(words, given, **{stream: full})


def start(words, uri, stdin=subprocess.DEVNULL):
    """The program, which runs with these arguments."""
    return subprocess.Popen([TOOLS, *words], stdin=stdin, stdout=subprocess.PIPE, stderr=subprocess.PIPE, env={"DEVICE_URI": uri})


def end(child, given=None):
    """The output, the standard error and the status of a started program."""
    out, errors = child.communicate(given, timeout=LONGEST)
    return out, errors, child.returncode


def printed(data):
    return data.replace(b"\n", b"\r\n") + b"\f"


def texts():
    """Bytes of all kinds, with lengths close to those that are read at once."""
    every = bytes(range(256)) * 5
    yield from (b"", b"a\n", b"\n", b"\n\n\r\n", b"a\fb\f\n", b"no end", "äöü €\n".encode(), every, b"\f" * 1000)
    for length in (65_535, 65_536, 65_537, 131_072, 1_048_576):
        yield (b"\n" * length)
        yield ((b"line\f\n" * (length // 6 + 1))[:length])


def run_with_room(size, words, path):
    """The same for an output that is a new file of at most this size."""
    with open(path, "wb") as output:
        limit = limited(resource.RLIMIT_FSIZE, size)
        ended = subprocess.run([TOOLS, *words], stdout=output, stderr=subprocess.PIPE, timeout=LONGEST, preexec_fn=limit)
    return read(path), ended.stderr, ended.returncode


@reports_all
def test_filters(room):
    document = os.path.join(room, "document")
    for number, text in enumerate(texts()):
        write(document, text)
        for copies in ("1", "3"):
            job = ["1", "u", "t", copies, "o"]
            times = int(copies)
            name = f"text {number}, {copies} copies"
            compare(f"texttoprn of a file, {name}", run(["texttoprn", *job, document], b"unread"),
                  (printed(text) * times, b"PAGE: 1 %d\n" % times, 0))
            compare(f"texttoprn of its input, {name}", run(["texttoprn", *job], text),
                  (printed(text), b"PAGE: 1 1\n", 0))
            feeds = text.count(b"\f")
            compare(f"prncount of a file, {name}", run(["prncount", *job, document], b"unread"),
                  (text * times, b"PAGE: total %d\n" % (feeds * times), 0))
            compare(f"prncount of its input, {name}", run(["prncount", *job], text),
                  (text, b"PAGE: total %d\n" % feeds, 0))
    # The greatest number of copies, leading zeros, and a name with all characters that are special to a shell.
    odd = write(os.path.join(room, "a 'b' \"c\" $d;e\n-f"), b"x\n")
    job = ["1", "u", "t", "9999", ""]
    compare("9999 copies", run(["texttoprn", *job, odd]), (b"x\r\n\f" * 9999, b"PAGE: 1 9999\n", 0))
    compare("copies 0002", run(["prncount", "1", "u", "t", "0002", "", odd]), (b"x\nx\n", b"PAGE: total 0\n", 0))
    # Errors: a file that does not exist, a folder, an output that is full.
    for tool in ("texttoprn", "prncount"):
        for name, reason in (("/nowhere", NO_FILE), (room, "Is a directory"), ("", NO_FILE), ("/no\n\x1b", NO_FILE)):
            shown = name.replace("\n", "\ufffd").replace("\x1b", "\ufffd")
            compare(f"{tool} of {name!r}", run([tool, *JOB, name]), (b"", f"ERROR: cannot read {shown}: {reason}\n".encode(), 1))
        compare(f"{tool} on a full disk", run_full([tool, *JOB]), (None, b"ERROR: cannot write\n", 1))
        text = write(document, b"a\n\fb\n")
        whole = printed(read(text)) if tool == "texttoprn" else read(text)
        compare(f"{tool} of three copies, ten bytes of which fit", run_with_room(10, [tool, *JOB, text], os.path.join(room, "ten")),
              ((whole * 3)[:10], b"ERROR: cannot write\n", 1))
        compare(f"{tool} that cannot report its pages", run_full([tool, *JOB], "stderr")[2], 1)


@pytest.mark.needs("plain spool_tools")
@reports_all
def test_bounded(room):
    """A document of 64 MiB and three copies of it, in 32 MiB of memory."""
    large, limit = write(os.path.join(room, "large"), b"0123456789abcde\n" * (4 << 20)), limited(resource.RLIMIT_AS, 32 << 20)
    with open(large, "rb") as given:
        ended = subprocess.run([TOOLS, "texttoprn", *JOB], stdin=given, stdout=subprocess.DEVNULL,
                               stderr=subprocess.PIPE, timeout=LONGEST, preexec_fn=limit)
    compare("texttoprn in little memory", (ended.stderr, ended.returncode), (b"PAGE: 1 1\n", 0))
    ended = subprocess.run([TOOLS, "prncount", *JOB, large], stdout=subprocess.DEVNULL, stderr=subprocess.PIPE,
                           timeout=LONGEST, preexec_fn=limit)
    compare("prncount in little memory", (ended.stderr, ended.returncode), (b"PAGE: total 0\n", 0))
    os.remove(large)


@reports_all
def test_spoolfile(room):
    document = write(os.path.join(room, "document"), b"some\n\fbytes\0\xff")
    out = os.path.join(room, "out")
    for name, query, status in (
        ("no options", "", 0),
        ("exit 0", "?exit=0", 0),
        ("exit 6", "?exit=6", 6),
        ("exit 255", "?exit=255", 255),
        ("exit 007", "?exit=007", 7),
        ("exit 256", "?exit=256", 0),
        ("exit -1", "?exit=-1", 0),
        ("exit +1", "?exit=%2B1", 0),
        ("no exit", "?exit=", 0),
        ("exit 6x", "?exit=6x", 0),
        ("another option", "?Exit=6", 0),
        ("the last of two", "?exit=6&exit=7", 7),
        ("the last of two, no number", "?exit=6&exit=x", 0),
        ("an option without a name", "?exit=6&=x", 0),
        ("64 options", "?exit=6" + "&a" * 63, 6),
        ("65 options", "?exit=6" + "&a" * 64, 0),
        ("a coded name", "?%65xit=6", 6),
    ):
        for words, wanted in ((JOB, b"from input"), ([*JOB, document], b"some\n\fbytes\0\xff" * 3)):
            write(out, b"the old contents, which are longer than the new ones, so that they must be truncated")
            got = run(["spoolfile", *words], b"from input", uri=f"spoolfile:{out}{query}")
            compare(f"spoolfile with {name}, {len(words)} words", (got, read(out)), ((b"", b"", status), wanted))
    # The path is decoded, as the value of an option is.
    for name, path, file in (("a coded path", "/a%20b%25%c3%a4", "a b%ä"), ("a path with braces", "/{a}", "{a}")):
        got = run(["spoolfile", *JOB], b"x", uri=f"spoolfile:{room}{path}")
        compare(name, (got, read(os.path.join(room, file))), ((b"", b"", 0), b"x"))
    got = run(["spoolfile", *JOB], b"y", uri=f"spoolfile://host{out}")
    compare("a URI with a host", (got, read(out)), ((b"", b"", 0), b"y"))
    fault = (b"", b"ERROR: cannot write\n", 1)
    for name, uri in (
        ("no URI", None),
        ("an empty URI", ""),
        ("no scheme", out),
        ("a long URI", "spoolfile:/" + "a" * 1023),
        ("a folder", f"spoolfile:{room}?exit=6"),
        ("no folder", f"spoolfile:{room}/none/out?exit=6"),
        ("no path", "spoolfile:"),
        ("no text", "spoolfile:/%ff"),
        ("a full disk", "spoolfile:/dev/full?exit=6"),
    ):
        compare(f"spoolfile with {name}", run(["spoolfile", *JOB], b"x", uri=uri), fault)
    compare("spoolfile of no file", run(["spoolfile", *JOB, "/nowhere"], uri=f"spoolfile:{out}?exit=6"), fault)


@reports_all
def test_targets(room):
    """The files that the backends refuse, and that none of them is changed."""
    spool, printed = os.path.join(room, "spool"), os.path.join(room, "printed")
    for it in (spool, os.path.join(spool, "below"), printed):
        os.mkdir(it)
    disk = write(os.path.join(spool, "spool.disk"), b"all jobs")
    out, other = os.path.join(printed, "out"), write(os.path.join(printed, "other"), b"other")
    os.symlink(spool, os.path.join(printed, "way"))
    refused = (b"", b"ERROR: cannot write\n", 1)

    def at(path, query="", tool="spoolfile", words=()):
        return run([tool, *JOB, *words], b"page", uri=f"{tool}:{path}{query}", TMPDIR=spool, SPOOL_STAGE="1")

    for query in ("", "?replace"):
        for name, path in (
            ("the spool", disk),
            ("a new file in the spool's folder", f"{spool}/new"),
            ("a file below it", f"{spool}/below/new"),
            ("the folder by dots", f"{printed}/../spool/spool.disk"),
            ("the folder by a link", f"{printed}/way/spool.disk"),
        ):
            compare(f"spoolfile to {name} {query}", (at(path, query), read(disk)), (refused, b"all jobs"))
        compare(f"nothing new {query}", (sorted(os.listdir(spool)), os.listdir(f"{spool}/below")), (["below", "spool.disk"], []))
        compare(f"a file by the spool's name {query}", (at(f"{spool}-2", query), read(f"{spool}-2")), ((b"", b"", 0), b"page"))
        os.symlink(other, out)
        compare(f"a link {query}", (at(out, query), read(other), os.path.islink(out)), (refused, b"other", True))
        os.remove(out)
        os.symlink(f"{printed}/none", out)
        compare(f"a link to nothing {query}", (at(out, query), os.path.lexists(f"{printed}/none")), (refused, False))
        os.remove(out)
        os.mkfifo(out)
        compare(f"a pipe {query}", at(out, query), refused)
        os.remove(out)
        compare(f"a device {query}", at("/dev/null", query), refused)
        if os.geteuid() == 0:
            write(out, b"theirs")
            os.chown(out, 12345, 12345)
            compare(f"another user's file {query}", (at(out, query), read(out)), (refused, b"theirs"))
            os.remove(out)
        compare(f"no new file is left {query}", sorted(os.listdir(printed)), ["other", "way"])
    # A file with a second name may be one in the spool's folder: it is replaced under this name, and never written in place.
    os.link(disk, out)
    compare("a second name, in place", (at(out, "?replace"), read(disk)), (refused, b"all jobs"))
    compare("a second name", (at(out), read(disk), read(out)), ((b"", b"", 0), b"all jobs", b"page"))
    # A new file has the permissions of the old one, and a reader of the old one keeps it. In place it is the same file.
    os.chmod(out, 0o640)
    old = os.stat(out).st_ino
    with open(out, "rb") as reader:
        compare("a new file", (at(out), os.stat(out).st_ino != old, os.stat(out).st_mode & 0o777, reader.read()),
              ((b"", b"", 0), True, 0o640, b"page"))
    os.chmod(out, 0o6750)
    compare("a new file sets no user or group", (at(out), os.stat(out).st_mode & 0o7777), ((b"", b"", 0), 0o750))
    old = os.stat(out).st_ino
    compare("in place", (at(out, "?replace"), os.stat(out).st_ino == old, read(out)), ((b"", b"", 0), True, b"page"))
    # What a killed backend left under the name of the new file is removed; a link of that name is not followed.
    write(f"{out}.new", b"half")
    compare("a file that was left", (at(out), read(out), os.path.exists(f"{out}.new")), ((b"", b"", 0), b"page", False))
    os.symlink(other, f"{out}.new")
    compare("a link of that name", (at(out), read(out), read(other)), ((b"", b"", 0), b"page", b"other"))
    os.mkdir(f"{out}.new")
    compare("a folder of that name", (at(out), read(out), os.path.isdir(f"{out}.new")), (refused, b"page", True))
    os.rmdir(f"{out}.new")
    # A failed attempt leaves the old file.
    write(out, b"before")
    compare("an unread document", (at(out, words=["/nowhere"])[2], read(out), os.path.exists(f"{out}.new")), (1, b"before", False))
    # `meet` makes its mark by the same rules, and removes no file of the spool.
    compare("meet in the spool's folder", (at(disk, f"?partner={printed}/none&turns=1", "meet"), read(disk)), ((b"", b"", 1), b"all jobs"))
    compare("a new mark there", (at(f"{spool}/mark", f"?partner={disk}", "meet"), os.path.exists(f"{spool}/mark")), ((b"", b"", 1), False))
    # A tool that the spooler did not start knows no spool.
    ended = run(["spoolfile", *JOB], b"x", uri=f"spoolfile:{spool}/by-hand")
    compare("by hand", (ended, read(f"{spool}/by-hand")), ((b"", b"", 0), b"x"))


@reports_all
def test_meet(room, is_long):
    a, b = os.path.join(room, "a"), os.path.join(room, "b")

    def meet(mine, other, query=""):
        return start(["meet", *JOB], f"meet:{mine}?partner={other}{query}")

    both = [meet(a, b), meet(b, a)]
    compare("two that meet", ([end(child) for child in both], read(a), read(b)), ([(b"", b"", 0)] * 2, b"", b""))
    # Both marks still exist, so each is found by the first check, and an existing mark keeps its contents.
    write(a, b"kept")
    compare("a mark that exists", (end(meet(a, b, "&turns=1")), read(a)), ((b"", b"", 0), b"kept"))
    os.remove(a)
    os.remove(b)
    for turns, least, most in (("0", 0, 15), ("1", 0, 15), ("3", 1.9, 15)):
        began = time.monotonic()
        got = end(meet(a, b, f"&turns={turns}"))
        took = time.monotonic() - began
        got = got, read(a), read(b), least <= took < most
        compare(f"no partner in {turns} turns", got, ((b"", b"", 1), None, None, True))
    late = meet(a, b, "&turns=30")
    until("its mark", lambda: read(a) is not None)
    time.sleep(1.5)
    write(b, b"")
    compare("one that comes late", (end(late), read(a)), ((b"", b"", 0), b""))
    os.remove(a)
    compare("the last of two turns", (end(meet(a, "/nowhere", "&turns=9&turns=1")), read(a)), ((b"", b"", 1), None))
    compare("no partner", (run(["meet", *JOB], uri=f"meet:{a}?turns=1"), read(a)), ((b"", b"", 1), None))
    compare("no place for a mark", run(["meet", *JOB], uri=f"meet:{room}/none/a?partner=/&turns=9"), (b"", b"", 1))
    compare("no URI to meet at", run(["meet", *JOB]), (b"", b"", 1))
    for query, status in (("?partner={}%2Fmet&turns=0", 1), ("?partner={}%2Fmet&turns=1", 0), ("?partner={}/met&turns=4294967296", 0), ("?turns=0", 1)):
        # Without turns a partner is not waited for, although its file exists.
        write(os.path.join(room, "met"), b"")
        compare(f"a partner that is there, {query}", run(["meet", *JOB], uri=f"meet:{a}{query.format(room)}"), (b"", b"", status))
    for uri in ("meet:/%FF", "/out"):
        compare(f"meet at {uri}", run(["meet", *JOB], uri=uri), (b"", b"", 1))
    if is_long:
        began = time.monotonic()
        got = end(meet(a, "/nowhere"))
        compare("no partner in 20 turns", (got, 18.9 <= time.monotonic() - began < 40), ((b"", b"", 1), True))


def answering(answer):
    """A side channel that answers the first four bytes, or closes the connection. It stores what it has got."""
    def serve(connection):
        got = take(connection, 4)
        if len(got) < 4 or answer is None:
            return got
        # The tool may end without reading all of the answer.
        with contextlib.suppress(OSError):
            for byte in answer:
                connection.send(bytes([byte]))
            connection.shutdown(socket.SHUT_WR)
            got += take(connection)
        return got

    return serve


@reports_all
def test_side(room):
    out = os.path.join(room, "id")
    uri = f"sideask:{out}?id=unused"
    longest = bytes(range(256)) * 8
    for number, (name, answer, status, wanted) in enumerate((
        ("an id", b"\4\1\0\6MFG:X;", 0, b"MFG:X;"),
        ("no id", b"\4\1\0\0", 0, b""),
        ("the longest data", b"\4\1\x08\0" + longest, 0, longest),
        ("bytes after the answer", b"\4\1\0\1A\4\1\0\1B", 0, b"A"),
        ("too many data", b"\4\1\x08\1" + longest + b"x", 1, None),
        ("another command", b"\5\1\0\1\1", 1, None),
        ("another status", b"\4\5\0\0", 1, None),
        ("a cut head", b"\4\1\0", 1, None),
        ("cut data", b"\4\1\0\6MFG", 1, None),
        ("no answer", b"", 1, None),
        ("a socket that closes", None, 1, None),
    )):
        path = os.path.join(room, f"side-{number}")
        server = Printer(answering(answer), path=path)
        got = run(["sideask", *JOB], b"unread", uri=uri, side=path)
        compare(f"sideask with {name}", (got, server.all(), read(out)), ((b"", b"", status), [b"\4\0\0\0"], wanted))
        if os.path.exists(out):
            os.remove(out)
    document = write(os.path.join(room, "document"), b"")
    none = os.path.join(room, "none")
    for name, path in (("no variable", None), ("an empty variable", ""), ("no socket", none), ("a file", document)):
        compare(f"sideask with {name}", (run(["sideask", *JOB], uri=uri, side=path), read(out)), ((b"", b"", 1), None))
    path = os.path.join(room, "side-full")
    Printer(answering(b"\4\1\0\1A"), path=path)
    compare("sideask on a full disk", run(["sideask", *JOB], uri="sideask:/dev/full", side=path), (b"", b"", 1))
    path = os.path.join(room, "end")
    server = Printer(answering(b""), path=path)
    compare("side-end", (run(["side-end", path]), server.all()), ((b"", b"", 0), [b"\xff\0\0\0"]))
    for path in (os.path.join(room, "end"), os.path.join(room, "none"), "", "x" * 200):
        compare(f"side-end {path:.20}", run(["side-end", path]), (b"", b"", 1))


def reset_after_all(connection):
    """Reads everything, and resets the connection instead of closing it."""
    taken = take(connection)
    reset(connection)
    return taken


def leave(connection):
    """Closes at once, without reading."""


def answer_before(connection):
    """Sends more than the system buffers, and only then reads."""
    connection.sendall(b"status\n" * 2_000_000)
    return take(connection)


def answer_after(connection):
    taken = take(connection)
    connection.sendall(b"printed\n")
    return taken


def end_before(connection):
    """Closes its half first, and then reads everything."""
    connection.shutdown(socket.SHUT_WR)
    return take(connection)


def end_first(connection):
    """Closes its half once the first bytes have come, and then reads everything."""
    connection.recv(1, socket.MSG_PEEK)
    return end_before(connection)


def end_late(connection):
    """Reads everything, and closes the connection four seconds after the writer has closed its half."""
    taken = take(connection)
    time.sleep(4)
    return taken


def read_nothing(connection):
    """Reads nothing, and keeps the connection open for longer than the writer waits."""
    time.sleep(5)


def take_slowly(connection):
    """Reads nothing for two seconds, during which the writer must wait."""
    time.sleep(2)
    return take(connection)


def stay(connection):
    """Reads everything, and neither closes nor resets before the writer has closed: then nobody reads its answer."""
    taken = take(connection)
    for _ in range(LONGEST * 10):
        time.sleep(0.1)
        connection.sendall(b".")
    return taken


SENT = (b"", b"", 0)

# How often a printer that may end the connection at several moments is tried.
TIMES = 10


def sent(printer, given, query="", words=JOB, name="127.0.0.1"):
    return run(["appsocket", *words], given, uri=f"appsocket://{name}:{printer.port}/{query}")


def told(printer, what, level="ERROR"):
    """The standard error about an end of the connection to this printer."""
    return f"{level}: 127.0.0.1:{printer.port} {what}\n".encode()


@reports_all
def test_appsocket(room, is_long):
    text = bytes(range(256)) * 79  # more than 20,000 bytes
    large = text * 500  # about ten million, more than any system accepts at once
    for length in (0, 1, 500, 20_000):
        printer = Printer(take, TIMES)
        ended = [sent(printer, text[:length]) for _ in range(TIMES)]
        compare(f"a printer that takes {length} bytes", (ended, printer.all()), ([SENT] * TIMES, [text[:length]] * TIMES))
    document = write(os.path.join(room, "document"), text)
    for given, words, serve, wanted in (
        (text, [*JOB, document], take, text * 3),  # three copies
        (large, JOB, take, large),
        (large, JOB, take_slowly, large),
        (large, JOB, answer_before, large),
        (text, JOB, answer_before, text),
        (text, JOB, answer_after, text),
        (large, JOB, answer_after, large),
    ):
        printer = Printer(serve)
        ended = sent(printer, given, words=words)
        compare(f"{serve.__name__}, {len(wanted)} bytes", (ended, printer.all() == [wanted]), (SENT, True))
    for query in ("?contimeout=4294967295&endtimeout=4294967295", "?contimeout=0", "?contimeout=4294967296&endtimeout=-1"):
        printer = Printer(answer_after)
        compare(f"a printer with {query}", (sent(printer, text, query), printer.all()), (SENT, [text]))
    connection_ends(text, large)
    unknown_options(text)
    early_close()
    resets(text, large)
    unreached(room, text)
    bounds(text, is_long)


def connection_ends(text, large):
    """The status and the message of each end of a connection, by the options of the URI."""
    small, whole = text[:500], text * 10
    closed = "closed the connection too early, after {} bytes"
    open_still = "did not close the connection after all {} bytes"
    lost = "reset the connection after all {} bytes"
    counted, again = f"{lost}; counted as printed", f"{lost}; to be tried again"
    for serve, given, query, status, what, level in (
        # A printer that closes the connection last has printed the document, whatever the options say.
        (take, whole, "?waiteof=true", 0, None, None),
        (take, whole, "?waiteof=false&afterlast=retry", 0, None, None),
        (take, b"", "?waiteof=true&afterlast=retry", 0, None, None),
        (end_late, text, "?afterlast=retry", 0, None, None),
        (take_slowly, large, "?waiteof=true&endtimeout=LONGEST", 0, None, None),
        # One that does not close it in time.
        (end_late, text, "?endtimeout=1", 1, open_still, "ERROR"),
        (end_late, text, "?endtimeout=1&waiteof=false", 0, None, None),
        (read_nothing, whole[:200_000], "?endtimeout=1", 1, open_still, "ERROR"),
        (read_nothing, whole[:200_000], "?endtimeout=1&waiteof=true&afterlast=done", 1, open_still, "ERROR"),
        (read_nothing, whole[:200_000], "?endtimeout=1&waiteof=false", 0, None, None),
        (stay, text, "?endtimeout=1&waiteof=x&waiteof=true", 1, open_still, "ERROR"),
        (stay, text, "?endtimeout=1&waiteof=true&waiteof=false", 0, None, None),
        # One that closes its half first, also if it reads everything.
        (end_first, small, "", 1, closed, "ERROR"),
        (end_first, small, "?waiteof=true&afterlast=done", 1, closed, "ERROR"),
        (end_first, small, "?waiteof=false&afterlast=retry", 0, None, None),
        # One that resets it after the last byte.
        (reset_after_all, text, "", 1, lost, "ERROR"),
        (reset_after_all, text, "?waiteof=false", 1, lost, "ERROR"),
        (reset_after_all, text, "?afterlast=retry", 6, again, "ERROR"),
        (reset_after_all, text, "?afterlast=done&afterlast=retry&waiteof=false", 6, again, "ERROR"),
        (reset_after_all, text, "?afterlast=done", 0, counted, "INFO"),
        (reset_after_all, text, "?afterlast=x&afterlast=done&waiteof=false", 0, counted, "INFO"),
    ):
        printer = Printer(serve)
        errors = told(printer, what.format(len(given)), level) if what else b""
        ended = sent(printer, given, query)
        name = f"{serve.__name__} of {len(given)} bytes with {query or 'no option'}"
        compare(name, ended, (b"", errors, status))
        taken = printer.all()
        if serve in (take, end_late, take_slowly, end_first):
            compare(f"{name}: what was taken", taken == [given], True)


def unknown_options(text):
    """A value of an option that nobody knows is refused before the printer is reached."""
    for name, line in (("waiteof", b"ERROR: waiteof is not true or false\n"), ("afterlast", b"ERROR: afterlast is not done or retry\n")):
        for value in ("", "=", "=x", "=True", "=yes", "=0", "=true%20", "=fals", "=don", "=retry6", "=done&" + name):
            got = run(["appsocket", *JOB], text, uri=f"appsocket://127.0.0.1:1/?{name}{value}")
            compare(f"the option {name}{value}", got, (b"", line, 4))
    compare("both options", run(["appsocket", *JOB], text, uri="appsocket://127.0.0.1:1/?afterlast=x&waiteof=x"),
          (b"", b"ERROR: waiteof is not true or false\n", 4))
    # Options that cannot be read have their defaults, as all options then.
    compare("65 options", run(["appsocket", *JOB], text, uri="appsocket://127.0.0.1:1/?waiteof=x" + "&a" * 64)[2], 6)


def early_close():
    """A printer that closes its half before the document has come, which is sent a second later."""
    for query in ("", "?waiteof=false", "?waiteof=false&afterlast=done"):
        printer = Printer(end_before)
        child = start(["appsocket", *JOB], f"appsocket://127.0.0.1:{printer.port}/{query}", subprocess.PIPE)
        until("the connection", lambda: printer.accepted)
        time.sleep(1)
        wanted = (b"", told(printer, "closed the connection too early, after 0 bytes"), 1)
        compare(f"a close before the document {query}", end(child, b"x" * 500), wanted)
        compare(f"nothing was sent {query}", printer.all(), [b""])


def bytes_before_the_end(line):
    """The number of bytes after which a line says that the printer ended the connection too early, or -1 if it says something else."""
    ended = rb"ERROR: 127\.0\.0\.1:\d+ (?:reset the connection|closed the connection too early,) after (\d+) bytes\n"
    found = re.fullmatch(ended, line)
    return int(found[1]) if found else -1


def resets(text, large):
    """A reset is noticed wherever it occurs: before the first byte is read, after some, after all."""
    for length in (500, 20_000):
        for serve, name in (
            (reset_after(0), "at once"),
            (reset_after(1), "after a byte"),
            (reset_after(length), "after the last byte"),
            (reset_after_all, "after the end"),
            (leave, "by leaving unread"),
        ):
            printer = Printer(serve, TIMES)
            ended = [sent(printer, text[:length]) for _ in range(TIMES)]
            statuses = [status for _, _, status in ended]
            compare(f"{length} bytes that are reset {name}", statuses, [1] * TIMES)
            lines = {b"ERROR: connection reset\n", told(printer, f"reset the connection after all {length} bytes")}
            said = {out + errors for out, errors, _ in ended} - lines
            # The system may accept a part of the document before the reset arrives.
            compare(f"its standard error, {name}", {line for line in said if not 0 <= bytes_before_the_end(line) < length}, set())
            printer.all()
    for count in (1, 100_000):
        for query in ("", "?afterlast=done&waiteof=false", "?afterlast=retry"):
            printer = Printer(reset_after(count))
            out, errors, status = sent(printer, large, query)
            compare(f"a long document that is reset after {count} bytes {query}", (out, status), (b"", 1))
            line = re.fullmatch(rb"ERROR: 127.0.0.1:\d+ reset the connection after (\d+) bytes\n", errors)
            compare(f"its bytes {query}", line is not None and count <= int(line[1]) < len(large), True)
            printer.all()


def unreached(room, text):
    unreachable = (b"", b"ERROR: cannot connect\n", 6)
    with socket.create_server(("127.0.0.1", 0)) as listener:
        port = listener.getsockname()[1]
    for name, address in (
        ("no listener", f"127.0.0.1:{port}"),
        ("no listener, for 1 second", f"127.0.0.1:{port}/?contimeout=1"),
        ("no listener, as long as the system tries", f"127.0.0.1:{port}/?contimeout=0"),
        ("a host that does not exist", "nobody.invalid:9100"),
    ):
        compare(name, run(["appsocket", *JOB], text, uri=f"appsocket://{address}"), unreachable)
    # A listener with a full queue accepts no further connection: the system tries again and again.
    with socket.socket() as full:
        full.bind(("127.0.0.1", 0))
        full.listen(0)
        waiting = [socket.socket() for _ in range(8)]
        for one in waiting:
            one.setblocking(False)
            one.connect_ex(full.getsockname())
        time.sleep(0.2)
        began = time.monotonic()
        ended = run(["appsocket", *JOB], text, uri=f"appsocket://127.0.0.1:{full.getsockname()[1]}/?contimeout=2")
        took = time.monotonic() - began
        compare("a printer that does not answer for 2 seconds", (ended, 1.9 < took < 40), (unreachable, True))
        for one in waiting:
            one.close()
    no_device = (b"", b"ERROR: no device\n", 1)
    for name, uri in (("no URI", None), ("an empty URI", ""), ("no host", "appsocket:/a"), ("no scheme", "127.0.0.1"),
                      ("a port too high", "appsocket://127.0.0.1:65536/"), ("an empty host", "appsocket:///a")):
        compare(f"appsocket with {name}", run(["appsocket", *JOB], text, uri=uri), no_device)
    printer = Printer(take)
    none = os.path.join(room, "none")
    compare("a document that does not exist", sent(printer, b"", words=[*JOB, none]),
          (b"", f"ERROR: cannot read {none}: {NO_FILE}\n".encode(), 1))
    printer.all()
    # The default port, if it is free here; a name, and an address of the other kind.
    for host, name in (("127.0.0.1", "localhost"), ("::1", "[::1]")):
        try:
            printer = Printer(take, host=host)
        except OSError:
            continue  # this machine has no such address
        compare(f"a printer named {name}", (sent(printer, text, name=name), printer.all()), (SENT, [text]))
    try:
        listener = socket.create_server(("127.0.0.1", 9100))
    except OSError:
        return
    with listener:
        child = start(["appsocket", *JOB], "appsocket://127.0.0.1")
        connection, _ = listener.accept()
        take(connection)
        connection.close()
        compare("the usual port", end(child), SENT)


def bounds(text, is_long):
    """The backend waits for a printer that never closes as long as the option says."""
    for query, least, most in (("?endtimeout=0", 0, 30), ("?endtimeout=2", 1.9, 30), ("?endtimeout=LONGEST&endtimeout=1", 0.9, 30),
                               *([("", 89, 120)] if is_long else [])):
        printer = Printer(stay)
        began = time.monotonic()
        ended = sent(printer, text, query)
        took = time.monotonic() - began
        wanted = (b"", told(printer, f"did not close the connection after all {len(text)} bytes"), 1)
        compare(f"a printer that never ends {query}", (ended, least <= took < most), (wanted, True))
        printer.all()


@reports_all
def test_words(room):
    out = os.path.join(room, "refused")
    for tool in ("spoolfile", "meet", "sideask", "appsocket"):
        line = f'{"network" if tool == "appsocket" else "file"} {tool} "Unknown" "{tool}"\n'
        compare(f"the device of {tool}", run([tool]), (line.encode(), b"", 0))
        compare(f"the device of {tool} on a full disk", run_full([tool]), (None, b"", 1))
    got, errors, status = run(["--version"])
    compare("the version", (re.fullmatch(rb"spool_tools \(Cegmandi\) \d+\.\d+\.\d+\n", got) is not None, errors, status), (True, b"", 0))
    compare("the version on a full disk", run_full(["--version"]), (None, b"", 1))
    refused = [["--version", ""], ["--version", *JOB], [], [""], ["-"], ["--help"], ["other", *JOB], [*JOB], ["Spoolfile"], ["spoolfile "], ["spoolfil"]]
    refused += [["texttoprn"], ["prncount"], ["side-end"], ["side-end", "a", "b"], ["side-end", *JOB]]
    for tool in ("texttoprn", "prncount", "spoolfile", "meet", "sideask", "appsocket"):
        refused += [[tool, *JOB[:n]] for n in (1, 2, 3, 4)] + [[tool, *JOB, "x", "y"]]
        for copies in ("", "0", "00", "10000", "-1", "+1", " 1", "1 ", "x", "1.0", "0x1", "4294967297", "9" * 20):
            refused += [[tool, "1", "u", "t", copies, "o"], [tool, "1", "u", "t", copies, "o", "/dev/null"]]
    for given in refused:
        for uri in (f"spoolfile:{out}", f"meet:{out}?partner=/dev/null"):
            compare(f"the words {given}", (run(given, b"a\n", uri=uri, side=out), read(out)), ((b"", b"", 1), None))
    compare("a word that is no text", run(["prncount", "1", b"\xff", "t", "1", "o"], b"a"), (b"", b"", 1))
