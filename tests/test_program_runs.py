"""Runs of the built shell: arguments, files and folders.

Each run is compared with its replies, its standard error, its status and the files that it leaves: arguments that are accepted or refused,
each error of the shell, files of types, conversions and programs in their order, spool files that are refused and stay as they are, the
owner of a folder and of a device, and new devices.
"""
import fcntl
import os
import resource
import signal
import subprocess

import pytest

from harness import journal
from harness.checks import LONGEST as SECONDS, same as check, words_of_faults
from harness.files import read, write
from harness.programs import is_sanitized, limited, SHELL, shell_on

pytestmark = pytest.mark.needs("spool_shell")

LEAST, MOST = 4_096, 1 << 30  # the sizes of a spool
LONGEST = 64  # the bytes of the name of a folder


def run(*words, given=b"queues\n", folder=None, **more):
    """The replies, the words of faults on standard error, and the status of the shell in a folder."""
    ended = subprocess.run([SHELL, *words], input=given, capture_output=True, cwd=folder, timeout=SECONDS, **more)
    return ended.stdout, words_of_faults(ended.stderr.decode()).encode(), ended.returncode


def fault(text):
    """A run that ends with this error."""
    return b"", b"".join(b"spool: %s\n" % it.encode() for it in text.split(", ")), 1


FINE = b"ok 0\n", b"", 0


# ---- the arguments of the shell

def test_arguments_are_used(room):
    """Each argument has its effect. With `--devices` no command is read, and no folder is opened."""
    longest = "0" * LONGEST
    os.mkdir(longest_path := os.path.join(room, longest))
    check("no argument", run(), FINE)
    check("a folder with a long name", run("--root", longest, folder=room), FINE)
    check("the default size", os.path.getsize(f"{longest_path}/spool.disk"), 4_194_304)
    os.mkdir(os.path.join(room, "least"))
    check("the least size", run("--root=least", "--size", str(LEAST), folder=room), FINE)
    check("its file", os.path.getsize(os.path.join(room, "least", "spool.disk")), LEAST)
    # The files are read before the spool is made, so the greatest size needs no room here.
    check("the greatest size", run("--size", str(MOST), "--types", "absent", folder=room), fault("file absent"))
    for name in ("types", "convs"):
        write(os.path.join(room, f"a.{name}"), b"")
    write(os.path.join(room, "a.programs"), b"backend b /bin/true\n")
    every = ["--convs", "a.convs", "--devices", "--reserve", "--size", "4096", "--root=var", "--types=a.types", "--programs", "a.programs"]
    check("all arguments", run(*every, folder=room), (b"", b"", 0))
    check("no spool is made", os.path.exists(os.path.join(room, "var")), False)
    # So small a spool has the reserve and no room for a job.
    given = b"queue a s:/ a/b abort-job\ncreate a ann x 1 50 \"\"\n"
    check("no reserve", run("--size", "4096", given=given), (b"ok\nok job 1\n", b"", 0))
    check("the reserve", run("--size", "4096", "--reserve", given=given), (b"ok\nerror full\n", b"", 0))


def test_other_arguments_are_refused(room):
    more = "0" * (LONGEST + 1)
    for words in (
        ["--what"], ["stray"],
        ["--root"], ["--root", ""], ["--root", "a", "--root", "b"], ["--root", more],
        ["--types"], ["--types", ""], ["--types", "a", "--types", "b"],
        ["--convs"], ["--convs", ""], ["--convs", "a", "--convs", "b"],
        ["--programs"], ["--programs", ""], ["--programs", "a", "--programs", "b"],
        ["--size", str(LEAST - 1)], ["--size", str(MOST + 1)], ["--size", "x"],
        ["--devices=true"], ["--devices", "--devices"],
    ):
        replies, errors, status = run(*words, folder=room)
        check(f"refused {words}", (replies, errors.startswith(b"error: "), status), (b"", True, 2))
    check("nothing is made", os.listdir(room), [])


# ---- the errors of the shell

def test_each_error_has_its_word(room):
    check("a file with a blank", run("--types", "a b.types", folder=room), fault("file a b.types"))
    check("no folder", run("--root", "absent", folder=room), fault("disk, cause: absent"))
    # An address sanitizer takes terabytes of address space.
    if not is_sanitized(SHELL):
        check("little memory", run("--size", str(MOST), preexec_fn=limited(resource.RLIMIT_AS, 256 << 20)), fault("memory"))
    write(os.path.join(room, "a.programs"), b"")
    ignored = run("--programs", "a.programs", folder=room, preexec_fn=lambda: signal.signal(signal.SIGCHLD, signal.SIG_IGN))
    check("SIGCHLD is ignored", ignored, fault("sigchld-ignored"))


def test_a_reader_or_a_writer_may_fail(room):
    """The input is a folder that cannot be read, and the output a file that may have seven bytes."""
    given = os.open(room, os.O_RDONLY)
    ended = subprocess.run([SHELL, "--size", "4096"], stdin=given, capture_output=True, timeout=SECONDS)
    os.close(given)
    check("a reader that fails", (ended.stdout, words_of_faults(ended.stderr.decode()).encode(), ended.returncode), fault("read"))
    path = os.path.join(room, "replies")
    with open(path, "wb") as replies:
        ended = subprocess.run([SHELL, "--size", "4096"], input=b"queues\nqueues\n", stdout=replies, stderr=subprocess.PIPE,
                               timeout=SECONDS, preexec_fn=limited(resource.RLIMIT_FSIZE, 7))
    check("a writer that fails", (read(path), words_of_faults(ended.stderr.decode()), ended.returncode), (b"ok 0\nok", "spool: write\n", 1))


# ---- the files of types, conversions and programs

# Each line is invalid, and the third continues on the fourth.
BAD_TYPES = b'a/a regex(0,"x")\nimage gif\na/b \\\npriority(201)\na/c string(0,<F>)\na/d (x\n'
BAD_CONVS = b"a/a b/b 10001 f\na/a b/b 10\na/a b/* 10 f\n"
TYPE_WARNINGS = "warning 1 UnknownRule, warning 2 BadType, warning 3 BadNumber, warning 5 BadText, warning 6 BadRule"
CONV_WARNINGS = "warning 1 BadNumber, warning 2 BadLine, warning 3 BadType"


def test_files_are_read_in_their_order(room):
    """Files of types, conversions and programs, in this order and before the folder is opened. They must be UTF-8."""
    every = ["--root", "absent", "--types", "a.types", "--convs", "a.convs", "--programs", "a.programs"]
    warned = b"ok 0\n", fault(f"{TYPE_WARNINGS}, {CONV_WARNINGS}")[1], 0
    for name, text, words, wanted in (
        ("other", b"", every, fault("file a.types")),
        ("a.types", BAD_TYPES, every, fault("file a.convs")),
        ("a.convs", BAD_CONVS, every, fault("file a.programs")),
        ("a.programs", b"filter f /f\nfilter f\n", every, fault("file a.programs")),
        ("a.programs", b"filter f /f\n", every[6:], FINE),
        # Invalid lines are reported before the folder is opened.
        ("a.programs", b"", every[2:6], warned),
        ("a.convs", b"# none\na/a b/b 10\n", every[:2] + every[4:6], fault("warning 2 BadLine, disk, cause: absent")),
        ("a.types", b"text/plain txt\n", every[2:4], FINE),
        ("a.convs", b"a/a b/b 10 \xff\n", every[2:6], fault("file a.convs")),
        ("a.programs", b"", ["--types", "a.convs", "--convs", "a.types"], fault("file a.convs")),
    ):
        write(os.path.join(room, name), text)
        check(f"{name} {text} {words}", run("--size", "4096", *words, folder=room), wanted)


# ---- spool files, folders and devices

def test_a_file_that_is_no_whole_spool_stays(room):
    disk = os.path.join(room, "spool.disk")
    fresh = journal.image(4_096)
    # The record of an event that does not exist, followed by the next closed gate.
    damaged = fresh[:16] + bytes.fromhex("A5 00 00 00 01 7F 00") + fresh[23:]
    for content, wanted in (
        *((bytes(zeros), fault("not-a-spool")) for zeros in (0, 45, 4_096)),
        (fresh, FINE),
        (damaged, fault("damaged 16")),
    ):
        write(disk, content)
        check(f"{content[:30]}", (run("--root", room), read(disk) == content), (wanted, True))


OWNED = fault("disk, cause: owned")


def test_a_folder_has_one_owner(room):
    """A folder whose lock another process has is not opened, and nothing is made there."""
    shared, disk = os.path.join(room, "shared"), os.path.join(room, "shared", "spool.disk")
    os.mkdir(shared)
    for path in (shared, os.path.join(shared, "spool.lock")):
        lock = os.open(path, os.O_RDONLY if path == shared else os.O_RDWR | os.O_CREAT)
        fcntl.flock(lock, fcntl.LOCK_EX)
        check(f"{path} is locked", (run("--root", shared), os.path.exists(disk)), (OWNED, False))
        os.close(lock)
    check("its owner has left", run("--root", shared), FINE)
    with shell_on(shared) as reply:
        check("the first program", reply, b"ok 0\n")
        check("a second program", run("--root", shared), OWNED)
    check("after both", run("--root", shared), FINE)


def test_a_device_of_two_folders_has_one_owner(room):
    one, other = os.path.join(room, "one"), os.path.join(room, "other")
    os.mkdir(one)
    os.mkdir(other)
    os.symlink("../one/spool.disk", os.path.join(other, "spool.disk"))
    # The link refers to nothing yet, and no file is made there.
    replies, errors, status = run("--root", other)
    check("a link to nothing", (replies, errors.startswith(b"spool: disk\n"), status), (b"", True, 1))
    check("no file is made", os.listdir(one), [])
    with shell_on(one) as reply:
        check("the owner", reply, b"ok 0\n")
        check("the other folder", run("--root", other), OWNED)
    # The owner of the folder alone does not own the device.
    locks = [os.open(path, os.O_RDONLY) for path in (one, os.path.join(one, "spool.lock"))]
    for lock in locks:
        fcntl.flock(lock, fcntl.LOCK_EX)
    check("the folder is locked, the device is not", (run("--root", one), run("--root", other)), (OWNED, FINE))
    for lock in locks:
        os.close(lock)


def test_a_device_is_made_once(room):
    disk, unfinished = os.path.join(room, "spool.disk"), os.path.join(room, "spool.disk.new")

    def sized(size):
        return run("--root", room, "--size", str(size)), os.path.getsize(disk), os.path.lexists(unfinished)

    os.symlink("absent", unfinished)
    check("a link of the unfinished file's name", sized(200_000), (FINE, 200_000, False))
    made = os.stat(disk)
    check("its mode", made.st_mode & 0o777, 0o600)
    check("it has all its blocks", made.st_blocks >= 391, True)
    check("it keeps its size", sized(8_192), (FINE, 200_000, False))
    os.remove(disk)
    write(unfinished, b"left over")
    check("an unfinished file", sized(8_192), (FINE, 8_192, False))


def test_a_device_needs_its_folder(room):
    check("no folder", run("--root", os.path.join(room, "absent")), fault("disk, cause: absent"))
    # A folder has the name of the file, and then the name of the unfinished file.
    for name, taken in (("taken", "spool.disk"), ("blocked", "spool.disk.new")):
        os.makedirs(os.path.join(room, name, taken))
        replies, errors, status = run("--root", os.path.join(room, name))
        check(f"a folder {taken}", (replies, errors.startswith(b"spool: disk\n"), status), (b"", True, 1))
    check("no file is made", os.path.exists(os.path.join(room, "blocked", "spool.disk")), False)
