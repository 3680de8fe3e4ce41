"""A table of the faults of the programs: the actions that cause each, the exact text on standard error, and the exit status.

A text says what failed, its path or queue, the system's reason in its own words, and what to do if there is one thing to do. The word of a
spool's program has a line of its own, as `spool: disk`, and the cause the next one, as `spool: cause: ..`.

AT in a row is the folder of the test.
"""
import contextlib
import os
import re
import shutil
import socket
import subprocess
from dataclasses import dataclass

import pytest

from harness import journal
from harness.admin import image_of_rows
from harness.checks import LONGEST, same
from harness.files import Place
from harness.journal import close
from harness.programs import path_of, shell_on
from harness.stories import of_q, Q, spelled

# The user nobody, and the rights of a program that runs as it.
NOBODY = ("setpriv", "--reuid", "65534", "--regid", "65534", "--clear-groups")

# A programs file needs these words on a line.
FORM = "expected filter, backend or root-backend with NAME PATH [WORD], or side with PATH [WORD]"
SERVED = "another program has the spool in AT/spool open (is cegmandi running? systemctl status cegmandi)"
PORT_FORM = "expected ADDRESS:PORT, such as 127.0.0.1:631 or [::1]:631"
LONG = "x" * 120

SIZE = 65_536  # of a spool
MANY = 300  # lines of a programs file


@dataclass
class Row:
    """A fault: the program and its arguments, the text, the actions before, the status, and the standard streams."""

    program: str
    words: str
    text: str
    does: tuple = ()
    status: int = 1
    before: tuple = ()
    given: str = os.devnull
    output: str = os.devnull


class Room(Place):
    """The folder of a row, with a spool. Each action of the row is a method with its arguments."""

    def __init__(self, path, held):
        super().__init__(path)
        self.held = held
        os.chmod(path, 0o755)
        self.spool("spool")

    def named(self, word):
        """A word of a row, with the path of the folder."""
        return re.sub(r"\bAT\b", self.path, word)

    def file(self, name, content=b"", mode=0o644):
        self.write(name, content, mode)

    def folder(self, name, mode=0o755):
        os.mkdir(self.at(name))
        os.chmod(self.at(name), mode)

    def spool(self, name):
        """A folder with a spool, which the user nobody can use too."""
        self.folder(name, 0o777)
        self.file(f"{name}/spool.disk", journal.image(SIZE), 0o666)
        self.file(f"{name}/spool.lock", mode=0o666)

    def link(self, to, name):
        os.symlink(to, self.at(name))

    def second_name(self, of, name):
        os.link(self.at(of), self.at(name))

    def mode(self, name, mode):
        os.chmod(self.at(name), mode)

    def owner(self, name, number):
        os.chown(self.at(name), number, number)

    def removed(self, name):
        os.remove(self.at(name))

    def mounted(self, name, more=""):
        """A file system of 64 KiB in memory, which is mounted again with these options."""
        mount = ["mount", "-t", "tmpfs", "-o", "size=64k", "none", self.at(name)]
        made = subprocess.run(mount, capture_output=True, text=True)
        if made.returncode:
            pytest.skip(f"it needs to mount a file system: {made.stderr.strip()}")
        self.held.callback(subprocess.run, ["umount", self.at(name)], check=True)
        if more:
            subprocess.run(["mount", "-o", f"remount,{more}", self.at(name)], check=True)

    def owned(self, name):
        """A program that has the spool of a folder open."""
        self.held.enter_context(shell_on(self.at(name)))

    def served(self, name):
        """A socket that a program serves."""
        listening = self.held.enter_context(socket.socket(socket.AF_UNIX))
        listening.bind(self.at(name))
        listening.listen(1)

    def service(self):
        """A service of the spool, with a stopped queue."""
        command = [path_of("spool_service"), "--root", self.at("spool"), "--listen", self.at("it.sock"), "--quiet"]
        served = self.held.enter_context(subprocess.Popen(command, stderr=subprocess.DEVNULL))
        self.held.callback(served.terminate)
        self.front("queue add q slow:/0 --media application/octet-stream")
        self.front("queue disable q")

    def front(self, words):
        """A task of `spool`, which succeeds."""
        command = ["env", *FRONT, path_of("spool_front"), *words.split()]
        subprocess.run([self.named(word) for word in command], check=True, capture_output=True, timeout=LONGEST)

    def left_socket(self, name):
        """A socket that a killed program left."""
        with socket.socket(socket.AF_UNIX) as left:
            left.bind(self.at(name))

    def port(self, number):
        """A port that a program has."""
        listening = self.held.enter_context(socket.socket())
        listening.setsockopt(socket.SOL_SOCKET, socket.SO_REUSEADDR, 1)
        listening.bind(("127.0.0.1", number))
        listening.listen(1)

    def begun_split(self, queue):
        """A split with another queue that was begun."""
        self.file("spool/spool.split", f"spool.part.1.1\n{self.at('into')}\n{queue}\n".encode())

    def program(self, name, before):
        """The path of a program, which the user nobody can run too."""
        path = path_of(name)
        if before == NOBODY:
            path = shutil.copy(path, self.at(name))
            os.chmod(path, 0o755)
        return path

    def run(self, row):
        """The status of the program of a row, and its standard error."""
        words = [self.named(word) for word in (*row.before, self.program(row.program, row.before), *row.words.split())]
        given = os.open(self.named(row.given), os.O_RDONLY)
        output = os.open(row.output, os.O_WRONLY)
        try:
            ended = subprocess.run(words, stdin=given, stdout=output, stderr=subprocess.PIPE, cwd=self.path, timeout=LONGEST)
        finally:
            os.close(given)
            os.close(output)
        return ended.returncode, ended.stderr.decode()


# ---- the table

def file_fault(name, reason):
    """The text about a file of types, conversions or programs."""
    return f"spool: file AT/{name}\nspool: cause: cannot read AT/{name}{reason}\n"


def disk_fault(word, reason):
    """The text about a spool's folder or file."""
    return f"spool: disk\nspool: cause: {word}: {reason}\n"


def opened_fault(word, name, reason):
    return disk_fault(word, f"cannot open AT/{name}: {reason}")


NO_FILE = "No such file or directory"
NO_RIGHT = "Permission denied"
NO_SPOOL = "is not a spool (restore it, or move it away to start with a new one)"
NO_BYTES = "has data at byte 16 that no spooler writes (restore it from a copy)"
NEWER_SPOOL = "has version 3 of the format, which this program does not know (use the Cegmandi that wrote it)"
NO_SUCH_EVENT = journal.image(4_096)[:16] + bytes.fromhex("A5 00 00 00 01 7F 00") + journal.image(4_096)[23:]
NEWER = bytes([journal.OPEN, journal.NEWEST + 1]) + journal.image(4_096)[2:]
TRY = "\nFor more information, try '--help'.\n"


def refused(text, usage):
    """The text of clap about arguments."""
    return f"error: {text}\n\nUsage: {usage}\n{TRY}"


# The arguments of a spool's program that opens the spool of a folder.
OPENS = {"spool_shell": "--root DIR", "spool_service": "--root DIR", "spool_admin": "look DIR"}


def opening(program, folder="AT/spool"):
    return OPENS[program].replace("DIR", folder)


def rows_of_files(program):
    """The files of types, conversions and programs."""
    root = opening(program)
    return {
        "missing-types": Row(program, f"{root} --types AT/none", file_fault("none", f": {NO_FILE}")),
        "folder-of-conversions": Row(program, f"{root} --convs AT/convs", file_fault("convs", ": Is a directory"), (("folder", "convs"),)),
        "types-in-another-code": Row(program, f"{root} --types AT/types", file_fault("types", ": stream did not contain valid UTF-8"),
                                     (("file", "types", b"text/plain \xff\n"),)),
        "secret-programs": Row(program, f"{root} --programs AT/programs", file_fault("programs", f": {NO_RIGHT}"), (("file", "programs", b"", 0o600),),
                               before=NOBODY),
        "word-of-a-program": Row(program, f"{root} --programs AT/programs", file_fault("programs", f", line 3: {FORM}"),
                                 (("file", "programs", b"# first\nfilter one /bin/true\nfiltre two /bin/true\n"),)),
        "program-without-a-path": Row(program, f"{root} --programs AT/programs", file_fault("programs", f", line 1: {FORM}"),
                                      (("file", "programs", b"backend one bin/true\n"),)),
        "program-twice": Row(program, f"{root} --programs AT/programs", file_fault("programs", ", line 2: an earlier line is about the same program"),
                             (("file", "programs", b"filter one /bin/true\nfilter one /bin/false"),)),
        "ends-of-children": Row(program, f"{root} --programs AT/programs", "spool: sigchld-ignored\nspool: cause: the signal SIGCHLD is ignored, "
                                "so the ends of children cannot be known (start the program with env --default-signal=CHLD)\n",
                                (("file", "programs"),), before=("env", "--ignore-signal=CHLD")),
    }


def rows_of_disks(program):
    """The folder of the spool, and its file."""
    root = opening(program)
    rows = {
        "missing-folder": Row(program, opening(program, "AT/none"), opened_fault("absent", "none", NO_FILE)),
        "file-for-the-folder": Row(program, opening(program, "AT/file"), opened_fault("no file", "file", "Not a directory"), (("file", "file"),)),
        "secret-folder": Row(program, root, opened_fault("not allowed", "spool", NO_RIGHT), (("mode", "spool", 0o700),), before=NOBODY),
        "secret-lock": Row(program, root, opened_fault("not allowed", "spool/spool.lock", NO_RIGHT), (("mode", "spool/spool.lock", 0o600),), before=NOBODY),
        "secret-spool": Row(program, root, opened_fault("not allowed", "spool/spool.disk", NO_RIGHT), (("mode", "spool/spool.disk", 0o600),), before=NOBODY),
        "folder-for-the-spool": Row(program, root, opened_fault("no file", "spool/spool.disk", "Is a directory"),
                                    (("removed", "spool/spool.disk"), ("folder", "spool/spool.disk"))),
        "link-to-nothing": Row(program, root, opened_fault("absent", "spool/spool.disk", NO_FILE),
                               (("removed", "spool/spool.disk"), ("link", "nothing", "spool/spool.disk"))),
        "circle-of-links": Row(program, root, opened_fault("no file", "spool/spool.disk", "Too many levels of symbolic links"),
                               (("removed", "spool/spool.disk"), ("link", "spool.disk", "spool/spool.disk"))),
        "owned": Row(program, root, disk_fault("owned", SERVED), (("owned", "spool"),)),
        "no-lock": Row(program, root, disk_fault("failed", "cannot lock AT/spool/spool.lock: No locks available"),
                       before=("strace", "-qq", "-f", "-o", "/dev/null", "-P", "AT/spool/spool.lock", "-e", "inject=flock:error=ENOLCK")),
        "read-only": Row(program, opening(program, "AT/made"), disk_fault("read-only", "cannot make a file in AT/made: Read-only file system"),
                         (("folder", "made"), ("mounted", "made", "ro"))),
        "no-spool": Row(program, root, f"spool: not-a-spool\nspool: cause: AT/spool/spool.disk {NO_SPOOL}\n", (("file", "spool/spool.disk"),)),
        "newer-spool": Row(program, root, f"spool: damaged 0\nspool: cause: AT/spool/spool.disk {NEWER_SPOOL}\n",
                           (("file", "spool/spool.disk", NEWER),)),
        "damaged": Row(program, root, f"spool: damaged 16\nspool: cause: AT/spool/spool.disk {NO_BYTES}\n", (("file", "spool/spool.disk", NO_SUCH_EVENT),)),
    }
    if program != "spool_admin":
        no_right = disk_fault("not allowed", f"cannot make a file in AT/made: {NO_RIGHT}")
        rows["folder-of-another"] = Row(program, opening(program, "AT/made"), no_right, (("folder", "made"),), before=NOBODY)
        no_room = disk_fault("no room", "cannot make a file in AT/made: No space left on device")
        rows["full-file-system"] = Row(program, opening(program, "AT/made"), no_room, (("folder", "made"), ("mounted", "made")))
    return rows


SHELL_ROWS = {
    "unknown-option": Row("spool_shell", "--what", refused("unexpected argument '--what' found", "spool_shell [OPTIONS]"), status=2),
    "missing-value": Row("spool_shell", "--root", f"error: a value is required for '--root <DIR>' but none was supplied\n{TRY}", status=2),
    "long-folder": Row("spool_shell", f"--root AT/{LONG}", refused("DIR is longer than 64 bytes", "spool_shell [OPTIONS]"), status=2),
    "input": Row("spool_shell", "", "spool: read\nspool: cause: standard input cannot be read: Is a directory (commands without a reply were not executed)\n",
                 given="AT/spool"),
    "output": Row("spool_shell", "--root AT/spool", "spool: write\nspool: cause: standard output cannot be written: No space left on device\n",
                  (("file", "commands", b"queues\n"),), given="AT/commands", output="/dev/full"),
    "program-twice-in-many": Row("spool_shell", "--root AT/spool --programs AT/programs",
                                 file_fault("programs", f", line {MANY + 1}: an earlier line is about the same program"),
                                 (("file", "programs", b"".join(b"filter f%d /bin/true\n" % (number % MANY) for number in range(MANY + 1))),)),
    "memory": Row("spool_shell", f"--size {1 << 30}", "spool: memory\n", before=("prlimit", f"--as={256 << 20}")),
}

SERVICE = "spool_service [OPTIONS]"
LISTENS = "--root AT/spool --listen"
USERS = "--root AT/spool --children-user"
CANNOT = "the service cannot change to it: run it as root, or with CAP_SETUID, CAP_SETGID, CAP_SETPCAP, CAP_CHOWN and CAP_KILL"


def listening_fault(name, reason):
    return f"spool: cannot listen on AT/{name}: {reason}\nspool: socket\n"


def users_fault(text):
    return f"spool: {text}\nspool: children-user\n"


SERVICE_ROWS = {
    "no-folder-given": Row("spool_service", "", refused("--root DIR is required", SERVICE), status=2),
    "bad-number": Row("spool_service", "--root AT/spool --keep many", f"error: invalid value 'many' for '--keep <N>': invalid digit found in string\n{TRY}", status=2),
    "bad-mode": Row("spool_service", "--root AT/spool --mode 999", refused("MODE is not an octal number up to 777", SERVICE), status=2),
    "bad-trust": Row("spool_service", "--root AT/spool --trust some", refused("TRUST is neither all nor none", SERVICE), status=2),
    "relative-folder-of-users": Row("spool_service", "--root spool --children-user nobody", refused("--children-user needs an absolute DIR", SERVICE), status=2),
    "unknown-user": Row("spool_service", f"{USERS} nosuchuser", users_fault("unknown user of children: nosuchuser")),
    "user-twice": Row("spool_service", f"{USERS} nobody,nobody", users_fault("user of children given twice: nobody")),
    "root-for-children": Row("spool_service", f"{USERS} root", users_fault("children cannot run as user 0: root is not allowed")),
    "no-right-to-change-users": Row("spool_service", f"{USERS} daemon", users_fault(f"children cannot run as user 1: {CANNOT}"),
                                    (("owner", "spool", 65_534),), before=NOBODY),
    "missing-folder-of-the-socket": Row("spool_service", f"{LISTENS} AT/none/it.sock",
                                        listening_fault("none/it.sock", f"{NO_FILE} (does the folder of the socket exist?)")),
    "long-socket": Row("spool_service", f"{LISTENS} AT/{LONG}",
                       listening_fault(LONG, "path must be shorter than SUN_LEN (the path of a socket has at most 107 bytes)")),
    "folder-of-the-socket-of-another": Row("spool_service", f"{LISTENS} AT/other/it.sock", listening_fault("other/it.sock", NO_RIGHT),
                                           (("folder", "other"),), before=NOBODY),
    "socket-below-a-file": Row("spool_service", f"{LISTENS} AT/file/it.sock", listening_fault("file/it.sock", "Not a directory"), (("file", "file"),)),
    "file-for-the-socket": Row("spool_service", f"{LISTENS} AT/file", listening_fault("file", "it exists and is no socket"), (("file", "file"),)),
    "socket-in-use": Row("spool_service", f"{LISTENS} AT/it.sock", listening_fault("it.sock", "another program serves this socket"), (("served", "it.sock"),)),
    "operators-socket": Row("spool_service", "--root AT/spool --operators-socket AT/none/it.sock",
                            listening_fault("none/it.sock", f"{NO_FILE} (does the folder of the socket exist?)")),
    "group-of-the-operators-socket": Row("spool_service", "--root AT/spool --operators-socket AT/spool/other.sock --operators daemon",
                                         listening_fault("spool/other.sock", "Operation not permitted"), before=NOBODY),
    "folder-of-proofs": Row("spool_service", "--root AT/spool --proofs AT/file",
                            "spool: AT/file is not a folder of this service\nspool: file AT/file\n", (("file", "file"),)),
}

LOOK = "spool_admin <TASK> <DIR> [WORD]..."
HELD = (Q.event(), of_q(1).event(), close(1))
ENDED = (*HELD, journal.cancel(1))
FULL = "the contents do not fit into half of a file of this size (enlarge AT/spool/spool.disk first: spool_admin grow)"
SET = "queue set AT/spool"


def with_events(*events, size=SIZE):
    return ("file", "spool/spool.disk", journal.image(size, [spelled(event) for event in events]))


def admin_fault(word, cause):
    return f"spool: {word}\nspool: cause: {cause}\n"


ADMIN_ROWS = {
    "no-task": Row("spool_admin", "shrink AT/spool", refused("expected `look DIR`, `grow DIR BYTES`, `split DIR INTO QUEUE..`, `queue set DIR NAME` or "
                   "`queue remove DIR NAME`", LOOK), status=2),
    "no-file": Row("spool_admin", "look AT/made", opened_fault("absent", "made/spool.disk", NO_FILE), (("folder", "made"),)),
    "smaller": Row("spool_admin", "grow AT/spool 4096",
                   admin_fault("smaller", "4096 is less than the size of AT/spool/spool.disk (see spool_admin look AT/spool)")),
    "full-when-it-grows": Row("spool_admin", "grow AT/spool 8192", admin_fault("full", "the contents of AT/spool/spool.disk do not fit into half of 8192 bytes"),
                              (("file", "spool/spool.disk", image_of_rows()),)),
    "full-when-it-is-edited": Row("spool_admin", f"{SET} q --limit 3", admin_fault("full", FULL), (("file", "spool/spool.disk", image_of_rows()),)),
    "second-name": Row("spool_admin", "grow AT/spool 131072",
                       disk_fault("no file", "AT/spool/spool.disk is not a regular file, or has a second name"), (("second_name", "spool/spool.disk", "twin"),)),
    "no-room-to-grow": Row("spool_admin", "grow AT/made 65536", disk_fault("no room", "cannot make a file in AT/made: No space left on device"),
                           (("folder", "made"), ("mounted", "made"), ("file", "made/spool.disk", journal.image(49_152)))),
    "missing-queue": Row("spool_admin", f"{SET} nosuch --limit 3", admin_fault("queue", "the spool in AT/spool has no queue nosuch")),
    "no-name-of-a-queue": Row("spool_admin", "queue remove AT/spool a/b", admin_fault("queue", "the spool in AT/spool has no queue a/b")),
    "jobs-that-have-not-ended": Row("spool_admin", "queue remove AT/spool q --purge",
                                    admin_fault("jobs of the queue have not ended", "queue q of the spool in AT/spool (cancel its jobs, or wait for their ends)"),
                                    (with_events(*HELD),)),
    "jobs-that-have-ended": Row("spool_admin", "queue remove AT/spool q",
                                admin_fault("the queue has ended jobs, which --purge removes", "queue q of the spool in AT/spool"), (with_events(*ENDED),)),
    "no-uri": Row("spool_admin", f"{SET} q --uri printer", admin_fault("the URI is not that of a device", "printer is no absolute URI of up to 1023 "
                  "characters, such as socket://192.0.2.9/"), (with_events(*HELD),)),
    "no-media-type": Row("spool_admin", f"{SET} q --media pdf", admin_fault("the type is not a media type", "pdf is no type such as application/pdf"),
                         (with_events(*HELD),)),
    "missing-folder-of-the-part": Row("spool_admin", "split AT/spool AT/none q", opened_fault("absent", "none", NO_FILE), (with_events(*HELD),)),
    "missing-queue-of-the-part": Row("spool_admin", "split AT/spool AT/into q nosuch", admin_fault("queue", "the spool in AT/spool has no queue nosuch"),
                                     (with_events(*HELD), ("folder", "into"))),
    "owned-folder-of-the-part": Row("spool_admin", "split AT/spool AT/into q", disk_fault("owned", SERVED.replace("AT/spool", "AT/into")),
                                    (with_events(*HELD), ("spool", "into"), ("owned", "into"))),
    "no-room-for-the-part": Row("spool_admin", "split AT/spool AT/into q", disk_fault("no room", "cannot make a file in AT/into: No space left on device"),
                                (with_events(*HELD, size=131_072), ("folder", "into"), ("mounted", "into"))),
    "taken": Row("spool_admin", "split AT/spool AT/into q", admin_fault("taken", "AT/into has a spool already (move it away, or name another folder)"),
                 (with_events(*HELD), ("spool", "into"))),
    "unfinished": Row("spool_admin", "split AT/spool AT/into q", admin_fault("unfinished", "AT/spool/spool.split has the folder and the queues of a split "
                      "that is not finished (finish that one first)"), (with_events(*HELD), ("folder", "into"), ("begun_split", "lab"))),
    "output": Row("spool_admin", "look AT/spool", "spool: write\nspool: cause: standard output cannot be written: No space left on device\n", output="/dev/full"),
}

IPP = "--service AT/none.sock"


def ipp_fault(text):
    return f"spool_ipp: {text}\n"


IPP_ROWS = {
    "no-service": Row("spool_ipp", "", ipp_fault("--service SOCKET is required"), status=2),
    "unknown-option": Row("spool_ipp", f"{IPP} --what x", ipp_fault("unknown option: --what"), status=2),
    "missing-value": Row("spool_ipp", "--service", ipp_fault("--service needs a value"), status=2),
    "no-address": Row("spool_ipp", f"{IPP} --listen localhost", ipp_fault(f"--listen localhost: {PORT_FORM}"), status=2),
    "missing-conversions": Row("spool_ipp", f"{IPP} --convs AT/none", ipp_fault(f"cannot read AT/none: {NO_FILE}")),
    "secret-printers": Row("spool_ipp", f"{IPP} --printers AT/printers", ipp_fault(f"cannot read AT/printers: {NO_RIGHT}"),
                           (("file", "printers", b"", 0o600),), before=NOBODY),
    "printers-in-another-code": Row("spool_ipp", f"{IPP} --printers AT/printers", ipp_fault("cannot read AT/printers: stream did not contain valid UTF-8"),
                                    (("file", "printers", b"info \xff\n"),)),
    "line-of-the-printers": Row("spool_ipp", f"{IPP} --printers AT/printers", ipp_fault("cannot read AT/printers, line 2: unknown property"),
                                (("file", "printers", b"queue lab\ncolour yes\n"),)),
    "value-of-a-printer": Row("spool_ipp", f"{IPP} --printers AT/printers", ipp_fault("cannot read AT/printers, line 1: expected yes or no"),
                              (("file", "printers", b"color maybe\n"),)),
    "port-in-use": Row("spool_ipp", f"{IPP} --listen 127.0.0.1:38631",
                       ipp_fault("cannot listen on 127.0.0.1:38631: Address already in use (which program listens there? ss -lntp)"), (("port", 38_631),)),
    "address-of-another-machine": Row("spool_ipp", f"{IPP} --listen 192.0.2.1:38631", ipp_fault("cannot listen on 192.0.2.1:38631: Cannot assign requested address")),
    "port-of-root": Row("spool_ipp", f"{IPP} --listen 127.0.0.1:631", ipp_fault(f"cannot listen on 127.0.0.1:631: {NO_RIGHT}"), before=NOBODY),
    "missing-folder-of-the-socket": Row("spool_ipp", f"{IPP} --socket AT/none/it.sock",
                                        ipp_fault(f"cannot listen on AT/none/it.sock: {NO_FILE} (does the folder of the socket exist?)")),
    "long-socket": Row("spool_ipp", f"{IPP} --socket AT/{LONG}",
                       ipp_fault(f"cannot listen on AT/{LONG}: path must be shorter than SUN_LEN (the path of a socket has at most 107 bytes)")),
    "file-for-the-socket": Row("spool_ipp", f"{IPP} --socket AT/file", ipp_fault("cannot listen on AT/file: it exists and is no socket"), (("file", "file"),)),
    "operators-socket-in-use": Row("spool_ipp", f"{IPP} --operators-socket AT/it.sock",
                                   ipp_fault("cannot listen on AT/it.sock: another program serves this socket"), (("served", "it.sock"),)),
}

TOOLS_ROWS = {
    "missing-document": Row("spool_tools", "prncount 1 ann t 1 options AT/none", f"ERROR: cannot read AT/none: {NO_FILE}\n"),
    "missing-chain": Row("spool_tools", "through AT/none 1 ann t 1 options", f"ERROR: cannot read AT/none: {NO_FILE}\n", status=4),
    "no-device": Row("spool_tools", "appsocket 1 ann t 1 options", "ERROR: no device\n"),
}

FRONT = ("SPOOL_SOCKET=AT/it.sock", "SPOOL_PATIENCE=30")
SERVED_QUEUE = (("service",), ("file", "doc", b"abc"))
JOB = (*SERVED_QUEUE, ("front", "submit q AT/doc"))


def front_row(words, text, *does):
    return Row("spool_front", words, f"spool: {text}\n", does, before=("env", *FRONT))


FRONT_ROWS = {
    "no-service": Row("spool_front", "status", "spool: cannot connect to AT/it.sock: No such file or directory (is cegmandi running? systemctl status "
                      "cegmandi)\n", before=("env", FRONT[0], "SPOOL_PATIENCE=0")),
    "socket-of-nobody": Row("spool_front", "status", "spool: cannot connect to AT/it.sock: Connection refused (is cegmandi running? systemctl status "
                            "cegmandi)\n", (("left_socket", "it.sock"),), before=("env", FRONT[0], "SPOOL_PATIENCE=0")),
    "missing-queue": front_row("submit nowhere AT/doc", "cannot print on nowhere: no such queue (spool queues lists the queues)", *SERVED_QUEUE),
    "missing-document": front_row("submit q AT/none", f"cannot open AT/none: {NO_FILE}", *SERVED_QUEUE),
    "folder-for-the-document": front_row("submit q AT/folder", "cannot print on q: cannot read the document; job 1 was canceled", *SERVED_QUEUE, ("folder", "folder")),
    "queue-that-rejects": front_row("submit q AT/doc", "cannot print on q: the queue rejects jobs (spool queue accept lets it accept them)", *SERVED_QUEUE,
                                    ("front", "queue reject q")),
    "too-many-copies": Row("spool_front", "submit q AT/doc --copies 0", refused("the number of copies must be from 1 to 9999", "spool submit [OPTIONS] <QUEUE> <FILE>..."), status=2),
    "queue-that-exists": front_row("queue add q slow:/1", "cannot add queue q: a queue with this name exists", *SERVED_QUEUE),
    "no-uri": front_row("queue add p printer", "cannot add queue p: the URI of the device is not absolute (write it as in socket://192.0.2.9/)", *SERVED_QUEUE),
    "missing-queue-to-stop": front_row("queue disable nowhere", "cannot disable queue nowhere: no such queue (spool queues lists the queues)", *SERVED_QUEUE),
    "missing-queue-to-show": front_row("queue show nowhere", "no such queue: nowhere", *SERVED_QUEUE),
    "missing-job-to-show": front_row("status 7", "no such job: 7", *SERVED_QUEUE),
    "missing-job": front_row("cancel 7", "cannot cancel job 7: no such job (spool status lists the jobs)", *SERVED_QUEUE),
    "ended-job": front_row("cancel 1", "cannot cancel job 1: the job has ended", *JOB, ("front", "cancel 1")),
    "ended-job-to-hold": front_row("hold 1", "cannot hold job 1: the job has ended", *JOB, ("front", "cancel 1")),
    "job-that-has-not-ended": front_row("purge 1", "cannot purge job 1: the job has not ended (cancel it, or wait until it has printed)", *JOB),
}

TABLE = {
    **{f"{name}-{row}": found for name in ("spool_shell", "spool_service") for row, found in rows_of_files(name).items()},
    **{f"{name}-{row}": found for name in OPENS for row, found in rows_of_disks(name).items()},
    **{f"{found.program}-{row}": found for rows in (SHELL_ROWS, SERVICE_ROWS, ADMIN_ROWS, IPP_ROWS, TOOLS_ROWS, FRONT_ROWS) for row, found in rows.items()},
}


def marks_of(row):
    """The needs of a row."""
    # A program with an address sanitizer takes terabytes of address space.
    needed = [f"plain {row.program}" if "prlimit" in row.before else row.program, *row.before[:1 if row.before == NOBODY else 0]]
    actions = {does[0] for does in row.does}
    needed += ["spool_shell"] if "owned" in actions else ["spool_service"] if "service" in actions else []
    yield pytest.mark.needs(*needed)
    if row.before == NOBODY or any(does[0] in ("mounted", "owner") for does in row.does):
        yield pytest.mark.root
    if "strace" in row.before:
        yield pytest.mark.strace


def outcome(row, room):
    """The status of the program of a row, and its text."""
    with contextlib.ExitStack() as held:
        place = Room(room, held)
        for name, *words in row.does:
            getattr(place, name)(*words)
        status, errors = place.run(row)
        return status, errors.replace(room, "AT")


@pytest.mark.parametrize("row", [pytest.param(row, id=name, marks=list(marks_of(row))) for name, row in TABLE.items()])
def test_fault(row, room):
    """The program of a row ends with its status, and prints its text."""
    status, text = outcome(row, room)
    same("the status", status, row.status)
    same("standard error", text, row.text)
