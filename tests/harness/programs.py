"""Where the built programs are, and what this machine lacks.

A program is crates/NAME/out/NAME, which `./build.py` or `rt run` in that crate makes. CEGMANDI_PROGRAMS is a folder of other ones, with the
same names: tests and benchmarks then run these, such as programs that were built without a proof, or wrong ones.
"""
import atexit
import contextlib
import functools
import os
import resource
import shutil
import signal
import subprocess
import tempfile
from pathlib import Path

HERE = os.path.dirname(os.path.realpath(__file__))
TESTS = os.path.dirname(HERE)
ROOT = os.path.dirname(TESTS)
BENCH = os.path.join(ROOT, "bench")
CRATES = os.path.join(ROOT, "crates")
GIVEN = os.environ.get("CEGMANDI_PROGRAMS")


def path_of(name):
    """The path of a program, which may not have been built."""
    given = os.path.join(os.path.abspath(GIVEN), name) if GIVEN else ""
    return given if os.path.exists(given) else os.path.join(CRATES, name, "out", name)


# The programs of an installed spool.
PROGRAMS = ["spool_front", "spool_shell", "spool_service", "spool_ipp", "spool_admin", "spool_tools"]

SHELL = path_of("spool_shell")
SERVICE = path_of("spool_service")
FRONT = path_of("spool_front")
IPP = path_of("spool_ipp")
ADMIN = path_of("spool_admin")
TOOLS = path_of("spool_tools")
SCRIPTS = path_of("spool_scripts")


def unbuilt(*names):
    """Which of these programs have not been built, and how to build them: an empty text if there are all."""
    missing = [name for name in names if not os.path.exists(path_of(name))]
    return f"built programs: `rt run` in {', '.join(f'crates/{name}' for name in missing)}" if missing else ""


def memory_folder():
    """A folder in memory, in which a sync takes no time, or None."""
    return "/dev/shm" if os.path.isdir("/dev/shm") else None


@functools.lru_cache(maxsize=None)
def compiled(name, *words):
    """The program, or with `-shared` the library, that gcc builds from a C file of this folder or of bench/."""
    source = next(path for path in (os.path.join(folder, name) for folder in (HERE, BENCH)) if os.path.exists(path))
    folder = tempfile.mkdtemp(prefix="compiled-")
    atexit.register(shutil.rmtree, folder, ignore_errors=True)
    built = os.path.join(folder, name.removesuffix(".c"))
    subprocess.run(["gcc", "-O1", "-o", built, source, *words], check=True)
    return built


def limited(kind, most):
    """A function that sets a limit of a new process (getrlimit(2)), for `preexec_fn`. A write beyond it fails, and is not ended by a signal."""
    def limit():
        signal.signal(signal.SIGXFSZ, signal.SIG_IGN)
        resource.setrlimit(kind, (most, most))

    return limit


def ended(words, **how):
    """The status of a program that has ended, and its usage (getrusage(2)). The words after the program's are those of Popen."""
    running = subprocess.Popen(words, **how)
    _, status, usage = os.wait4(running.pid, 0)
    # Popen must not wait once more.
    running.returncode = os.waitstatus_to_exitcode(status)
    return running.returncode, usage


@functools.lru_cache(maxsize=None)
def may_trace():
    """Whether strace is installed, and may trace programs."""
    if not shutil.which("strace"):
        return False
    return subprocess.run(["strace", "-o", "/dev/null", "true"], capture_output=True).returncode == 0


@contextlib.contextmanager
def shell_on(root):
    """A shell that owns the spool of a folder, during a `with`: the first line of its reply to `queues`."""
    with subprocess.Popen([SHELL, "--root", root], stdin=subprocess.PIPE, stdout=subprocess.PIPE) as shell:
        shell.stdin.write(b"queues\n")
        shell.stdin.flush()
        yield shell.stdout.readline()


def is_sanitized(program):
    """Whether a program was built with an address sanitizer, which keeps freed memory for a while."""
    return os.path.exists(program) and b"__asan_" in Path(program).read_bytes()
