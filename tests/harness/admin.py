"""The spools of the tests of spool_admin, their folders, and the system calls at which it is killed or fails."""
import os
import shutil
import stat
import subprocess
import tempfile
from concurrent.futures import ThreadPoolExecutor

from harness import journal, spool_model as model, traces
from harness.checks import LONGEST, same, words_of_faults
from harness.journal import cancel, close, hold, image, send, start
from harness.programs import ADMIN
from harness.stories import LAB, of_lab, of_q, Q, spelled, Spool

SIZE = 8_192
NAME = "spool.disk"
LOCK = "spool.lock"
OWNED = "spool: disk\nspool: cause: owned\n"
TAKEN = "spool: taken\n"
# The user and the group of a spool: others than those of the program, if that is allowed.
OTHERS = (os.geteuid(), os.getegid()) if os.geteuid() else (65_533, 65_532)

# The calls at which the program may be killed, each with an error that it may return.
ERRORS = {"open": "EIO", "openat": "EIO", "flock": "ENOLCK", "statx": "EIO", "fstat": "EIO", "lstat": "EIO", "newfstatat": "EIO",
          "read": "EIO", "pread64": "EIO", "write": "ENOSPC", "pwrite64": "EIO", "fsync": "EIO", "fdatasync": "EIO", "fchown": "EPERM",
          "fchmod": "EPERM", "rename": "EIO", "renameat": "EIO", "renameat2": "EIO", "unlink": "EIO", "unlinkat": "EIO", "close": "EIO"}
KILLED = (*ERRORS, "mmap", "munmap", "brk", "exit_group", "lseek", "fcntl")

# Queues, and jobs of each phase: incoming, waiting, held, processing and ended.
EVENTS = (Q.event(), LAB.event(), of_q(1).event(), send(1, b"first"), send(1, b" and last"), close(1),
          of_q(2, title="Coming").event(), send(2, b"half of it"), of_lab(3).event(), send(3, b"held " * 60), close(3), hold(3),
          of_lab(4).event(), close(4), cancel(4), of_lab(5).event(), send(5, b"printing"), close(5), start(5))


def image_of(version=journal.NEWEST, size=SIZE, epoch=1):
    return image(size, [spelled(event, version) for event in EVENTS], epoch=epoch, version=version)


def images():
    """Spools of both versions, in either area, and one whose length is odd."""
    return image_of(), image_of(1), in_second_area(image_of()), in_second_area(image_of(1)), image_of(size=8_193)


def image_of_documents():
    """A spool with documents of several pieces, and with empty ones."""
    long = bytes(range(256)) * 600
    events = [Q.event(), LAB.event()]
    for number, data in ((1, long), (2, b""), (3, long[:65_536]), (4, long[1:65_536])):
        events.append((of_q if number % 2 else of_lab)(number).event())
        events += [send(number, data[at:at + 65_536]) for at in range(0, len(data), 65_536)]
        events.append(close(number))
    return image(1_000_000, [spelled(event) for event in events])


def in_second_area(file, epoch=7):
    """The same spool with its areas exchanged, and an older one in the other area."""
    first, _ = journal.halves(file)
    rest = file[2 * len(first):]
    return journal.area(len(first), epoch - 1, [spelled(Q.event())]) + journal.header(epoch, version=first[1]) + first[journal.HEADER:] + rest


def names_in(root):
    """The names in a folder, sorted, except that of the lock file, which remains."""
    return sorted(name for name in os.listdir(root) if name != LOCK)


def image_of_rows(size=SIZE):
    """A spool that is full of jobs, whose rows are longer than the events that created them: a listing of them needs more room."""
    events = [Q.event()]
    while len(image(size, [*map(spelled, events)])) == size and model.reading(image(size, [*map(spelled, events)])).gate < size // 2 - 60:
        events.append(of_q(len(events)).event())
    return image(size, [*map(spelled, events)])


class SpoolFolder(Spool):
    """A folder with a spool of these bytes, and the lock file of an earlier program."""

    def __init__(self, folder, content=None):
        super().__init__(folder, content)
        if content is not None:
            self.with_file(LOCK, "")

    def give_away(self):
        """Gives the file another owner and another mode, if that is allowed."""
        os.chmod(self.file, 0o640)
        os.chown(self.file, *OTHERS)

    def is_given_away(self):
        found = os.stat(self.file)
        same("the mode and the owner", (stat.S_IMODE(found.st_mode), found.st_uid, found.st_gid), (0o640, *OTHERS))

    def is_unchanged(self, fault, *words):
        """The arguments are refused with this error, and the file and its folder are unchanged."""
        before, names = self.content(), names_in(self.root)
        same("the end", administer(*words), (1, "", fault))
        same("the file is unchanged", self.content() == before, True)
        same("the names", names_in(self.root), names)

    def serve(self, *commands):
        return self.lines(commands)


def administer(*words, before=()):
    """The result of spool_admin with these arguments, its output, and the words of its faults. `before` is a command that runs it."""
    done = subprocess.run([*before, ADMIN, *words], capture_output=True, text=True, timeout=LONGEST)
    return done.returncode, done.stdout, words_of_faults(done.stderr)


def are_invalid(*arguments):
    """Each of these arguments is refused as invalid, with status 2."""
    for words in arguments:
        status, shown, errors = administer(*words)
        same(f"the end of {words}", (status, shown, errors.startswith("error: ")), (2, "", True))


# ---- kills, failures and cuts

def traced(folder, words, *inject):
    """The result of spool_admin with these arguments under strace, and its calls."""
    trace = os.path.join(tempfile.mkdtemp(prefix="trace-", dir=folder), "trace")
    strace = ["strace", "-qq", "-y", "-xx", "-s", "20", "-o", trace, "-e", "trace=" + ",".join(f"?{name}" for name in KILLED)]
    for one in inject:
        strace += ["-e", f"inject={one}"]
    return administer(*words, before=strace), traces.calls_in(trace)


class Trial:
    """A task of spool_admin that is killed at each of its system calls, or each of whose calls fails once.

    `make` makes a place with a spool, and `words` are the arguments for a place. `is_changed` says whether the place has the new spool, or
    the old one, and finds a difference if it has neither. `is_done` finds a difference unless the place has the new spool and nothing else.
    `again` are the results of the same arguments, given again, if they have nothing left to do.
    """

    def __init__(self, folder, make, words, is_changed, is_done, again=()):
        self.folder, self.make, self.words, self.is_changed, self.is_done, self.again = folder, make, words, is_changed, is_done, again

    def calls(self):
        place = self.make()
        done, calls = traced(self.folder, self.words(place))
        same("the end", done, (0, "", ""))
        return calls

    def next_succeeds(self, place, what):
        """The same arguments, given again, end with the new spool, whatever the first run left."""
        was_changed = self.is_changed(place, what)
        done = administer(*self.words(place))
        same(f"{what}: the end of the next one, {done}", done == (0, "", "") or done in self.again and (was_changed or done[2] == TAKEN), True)
        self.is_done(place, what)

    def is_killed(self):
        """At each call."""
        def killed(call):
            place = self.make()
            (status, _, _), _ = traced(self.folder, self.words(place), f"{call.name}:signal=KILL:when={call.number}")
            same(f"the status, killed at {call}", status in (-9, 137), True)
            self.next_succeeds(place, f"killed at {call}")
            shutil.rmtree(place.root)

        side_by_side(killed, self.calls())

    def fails(self):
        """At each call from the first one on the spool on."""
        def failing(call):
            place, what = self.make(), f"{call} failed"
            (status, shown, errors), _ = traced(self.folder, self.words(place), f"{call.name}:error={ERRORS[call.name]}:when={call.number}")
            same(f"the end, {what}", (status in (0, 1), shown, errors.startswith("spool: ") == (status == 1)), (True, "", True))
            same(f"it succeeds, {what}", status == 1 or self.is_changed(place, what), True)
            self.next_succeeds(place, what)
            shutil.rmtree(place.root)

        calls = self.calls()
        begun = next(at for at, call in enumerate(calls) if any(path.startswith(self.folder) for path in call.paths()))
        side_by_side(failing, [call for call in calls[begun:] if call.name in ERRORS])


def side_by_side(check, calls, most=4):
    """Each run has its own folders, and mostly waits for syncs."""
    with ThreadPoolExecutor(most) as pool:
        try:
            for _ in pool.map(check, calls):
                pass
        except BaseException:
            pool.shutdown(cancel_futures=True)
            raise


def renames_when_synced(calls):
    """The renames among these calls, as names before and after. No call writes to a spool's file, a file has no unsynced byte when it gets the
    name of one, and each change of a name is synced before the next one.
    """
    unsynced, pending, renamed = set(), None, []
    for call in calls:
        path = call.files[0] if call.files else ""
        if call.name in ("write", "pwrite64"):
            same(f"{call} is not on a spool's file", os.path.basename(path) != NAME, True)
            unsynced.add(path)
        elif call.name in ("fsync", "fdatasync"):
            unsynced.discard(path)
            pending = None if path == pending else pending
        elif call.name.startswith("rename"):
            same(f"the name before {call} is synced", pending, None)
            names = [os.fsdecode(text) for text in call.texts]
            renamed.append(tuple(map(os.path.basename, names)))
            pending = os.path.dirname(names[1])
            if renamed[-1][1] == NAME:
                same(f"all is synced before {call}", unsynced, set())
            # The file keeps its bytes under its new name.
            unsynced = {names[1] if one == names[0] else one for one in unsynced}
    same("the last name is synced", pending, None)
    return renamed
