"""What pytest needs to run the tests of the built programs: `pytest tests`, or `pytest -n 4 tests` for four at a time.

The gate, `.ci/run`, proves the code, and sees no file, process, kill or failed allocation. These tests do, on programs that were built
before: crates/NAME/out/NAME, or those in the folder CEGMANDI_PROGRAMS. On Debian they need python3-pytest and python3-hypothesis, and
python3-pytest-xdist for `-n`.

`-k WORDS` chooses tests by name, `-m cups` by marker, `-x` stops at the first failure, `--long` adds the long tests and makes random ones
longer, `--seed N` repeats a random one. pytest.ini explains the markers. If this machine lacks something, the tests that need it are
skipped, and the summary says why.
The folder of a test that failed is kept, and its path is printed with the failure.
"""
import atexit
import contextlib
import fcntl
import os
import random
import shutil
import subprocess
import tempfile

import pytest

from harness import programs
from harness.child_folder import Folder as ChildFolder
from harness.ipp import Ipp
from harness.large_run import adopt, Place
from harness.people import People
from harness.service import Folder as ServiceFolder

try:
    import hypothesis
except ImportError:
    # The tests that use it say that it is missing.
    pass
else:
    slow = [hypothesis.HealthCheck.too_slow, hypothesis.HealthCheck.data_too_large, hypothesis.HealthCheck.function_scoped_fixture]
    hypothesis.settings.register_profile("spool", deadline=None, print_blob=True, database=None, suppress_health_check=slow)
    hypothesis.settings.load_profile("spool")

# The Debian package of each command that a test may need.
PACKAGES = {
    "chromium": "chromium", "cupsfilter": "cups", "debootstrap": "debootstrap", "dpkg-deb": "dpkg", "gcc": "gcc", "ipptool": "cups-ipp-utils", "mandoc": "mandoc", "rt": "",
    "lintian": "lintian", "lpr": "cups-bsd", "lpstat": "cups-client", "nsenter": "util-linux", "setpriv": "util-linux", "shellcheck": "shellcheck",
    "systemd-nspawn": "systemd-container", "useradd": "passwd", "valgrind": "valgrind", "zsh": "zsh",
}
FILTERS = "/usr/lib/cups/filter"


# ---- options, and tests that are skipped

def pytest_addoption(parser):
    parser.addoption("--long", action="store_true", help="run the long tests, and random ones for longer")
    parser.addoption("--write", action="store_true", help="store what some tests compare: tests/allocations.txt, and the output of ipp_codec_tests")
    parser.addoption("--seed", type=int, help="the seed of the random tests that print one")


def pytest_configure(config):
    if getattr(config.option, "dist", None) == "load":
        # The tests of a group run in one process, in turn.
        config.option.dist = "loadgroup"
    if hasattr(config, "workerinput"):
        config.option.loadgroup = True
    else:
        # A short name: the folder of a spool has 64 bytes at most. Other users must be able to reach files in it.
        config.room = tempfile.mkdtemp(prefix="t-")
        os.chmod(config.room, 0o711)
        os.environ["TMPDIR"] = tempfile.tempdir = config.room
        config.is_passed = False
        # At the very end, because pytest looks for folders of its own there.
        atexit.register(remove_room, config)
    ServiceFolder.is_long = config.getoption("--long") or bool(os.environ.get("SERVICE_LONG"))


def remove_room(config):
    if config.is_passed:
        shutil.rmtree(config.room, ignore_errors=True)


def pytest_sessionfinish(session):
    session.config.is_passed = not session.testsfailed


@pytest.hookimpl(tryfirst=True)
def pytest_collection_modifyitems(items):
    for item in items:
        if "people" in item.fixturenames:
            # They change the list of users, which one program at a time may do.
            item.add_marker(pytest.mark.xdist_group("users"))
    items.sort(key=lambda item: item.get_closest_marker("alone") is not None)


def lacking(name):
    """The missing requirement with its package, or an empty text."""
    if os.path.isdir(os.path.join(programs.CRATES, name)):
        return programs.unbuilt(name)
    if name.startswith("plain "):
        # A library that refuses allocations has no effect on a program with an address sanitizer, which allocates by itself.
        is_sanitized = programs.is_sanitized(programs.path_of(name.split()[1]))
        return programs.unbuilt(name.split()[1]) or (f"a {name.split()[1]} without an address sanitizer" if is_sanitized else "")
    if shutil.which(name):
        return ""
    return f"{name} (Debian's package {PACKAGES[name]})" if PACKAGES[name] else name


def lacks(item):
    """The missing requirements of a test."""
    marks = {mark.name for mark in item.iter_markers()}
    if "long" in marks and not item.config.getoption("--long"):
        yield "--long, because it takes minutes or hours"
    if "root" in marks and os.geteuid():
        yield "root"
    if "strace" in marks and not programs.may_trace():
        yield "strace (Debian's package strace), or the permission to trace"
    if "cups" in marks and not os.path.isdir(FILTERS):
        yield "CUPS (Debian's packages cups and cups-filters)"
    for mark in item.iter_markers("needs"):
        yield from filter(None, map(lacking, mark.args))


def pytest_runtest_setup(item):
    missing = list(dict.fromkeys(lacks(item)))
    if missing:
        pytest.skip(f"it needs {'; '.join(missing)}")


@pytest.hookimpl(hookwrapper=True)
def pytest_runtest_makereport(item):
    outcome = yield
    report = outcome.get_result()
    item.has_failed = getattr(item, "has_failed", False) or report.failed


@pytest.fixture(autouse=True)
def turn(request):
    """Lets no test run next to one that is alone."""
    name = os.path.join(tempfile.gettempdir(), ".turn")
    with open(name, "w", encoding="ascii") as file:
        fcntl.flock(file, fcntl.LOCK_EX if request.node.get_closest_marker("alone") else fcntl.LOCK_SH)
        yield


# ---- folders

def kept_if_failed(request, path):
    """Removes the folder of a test, unless the test has failed."""
    if getattr(request.node, "has_failed", False):
        print(f"its folder: {path}")
    else:
        # A child of a killed service continues, and may write there meanwhile.
        shutil.rmtree(path, ignore_errors=True)


@pytest.fixture
def room(request):
    """The path of a folder of its own."""
    path = tempfile.mkdtemp(prefix="r-")
    yield path
    kept_if_failed(request, path)


@pytest.fixture
def memory_room(request):
    """The path of a folder of its own in memory: a sync takes no time there."""
    path = tempfile.mkdtemp(prefix="t-", dir=programs.memory_folder())
    yield path
    kept_if_failed(request, path)


def skip_without(name):
    missing = programs.unbuilt(name)
    if missing:
        pytest.skip(f"it needs {missing}")


@pytest.fixture
def folder(request):
    """The folder of a service with its programs, and the service, which ends with the test."""
    skip_without("spool_service")
    made = ServiceFolder()
    yield made
    made.end()
    kept_if_failed(request, made.path)


class SmallDisk:
    """A file system of its own in a folder, in memory."""

    def __init__(self, path, size):
        self.path, self.filler = path, os.path.join(path, "filler")
        if subprocess.run(["mount", "-t", "tmpfs", "-o", f"size={size}", "none", path], capture_output=True).returncode:
            pytest.skip("it needs to mount a file system")

    def fill(self):
        """Writes a file until there is no room."""
        with open(self.filler, "wb", buffering=0) as file:
            for size in (65_536, 512):
                with contextlib.suppress(OSError):
                    while True:
                        file.write(bytes(size))


@pytest.fixture
def small_disk():
    """Mounts a file system in a folder until the end of the test. A program may still use it then."""
    made = []
    yield lambda *words: made.append(SmallDisk(*words)) or made[-1]
    for disk in made:
        subprocess.run(["umount", "--lazy", disk.path], check=True)


@pytest.fixture
def ipp(folder):
    """The IPP front of a service with a queue `q` whose backend keeps each document."""
    skip_without("spool_ipp")
    folder.open("q", scheme="keeps")
    folder.write("printers", "pages-per-minute 20\nmake-and-model Generic Printer\nresolutions 600\noutput-bins face-down\n")
    with Ipp(folder, "--default", "q", "--printers", folder.at("printers")) as front:
        yield front


@pytest.fixture
def people():
    """Three users of the system, who are removed with the test."""
    skip_without("spool_service")
    with People() as made:
        yield made


@pytest.fixture
def child_folder(request):
    """The folder of a shell with its programs."""
    skip_without("spool_shell")
    made = ChildFolder()
    yield made
    kept_if_failed(request, made.path)


@pytest.fixture
def place(request):
    """A folder for programs that run in an address space of this number of KiB."""
    limit = getattr(request, "param", None)
    if limit and programs.is_sanitized(programs.SHELL):
        pytest.skip("it needs a shell without an address sanitizer, which takes terabytes of address space")
    made = Place(limit)
    adopt()
    yield made
    adopt(False)
    print(f"peak memory: {made.memory:,} KiB")
    kept_if_failed(request, made.path)


@pytest.fixture
def seed(request):
    """The seed of a random test, which is printed if the test fails."""
    given = request.config.getoption("--seed")
    chosen = random.randrange(1 << 32) if given is None else given
    print(f"repeat it with --seed {chosen}")
    return chosen


@pytest.fixture(scope="session")
def is_long(pytestconfig):
    return ServiceFolder.is_long
