"""The programs are installed and removed again.

The effect of install.sh on files is tested with substitutes for the programs, in fresh folders.

- The installed files are those of the manifest, with the right modes. The links refer to `spool`, and the unit names only files that exist,
  for each PREFIX. Files that existed before are unchanged, and a removal leaves exactly these.
- A file that install.sh did not install makes it fail before it changes anything. A file that was changed is kept and reported. A second
  install replaces the first one, also with --lp. If an install is killed at any moment, --remove removes its files.
- Invalid arguments are refused.
- The completions offer tasks, options, queues and jobs.
- The installed programs print a letter, from a folder of their own, and in a fresh Debian, which debootstrap creates. The environment's
  DEBIAN_FOLDER names a folder with an existing one, which is used instead.
- shellcheck reports nothing about the shell scripts of the repository.
"""
import os
import random
import re
import shutil
import subprocess
import tempfile
import time
from pathlib import Path

import pytest

from harness.checks import check, reports_all, same
from harness.programs import PROGRAMS

ROOT = Path(__file__).resolve().parent.parent
LINKS = ["lp", "lpr", "lpstat", "cancel", "lpq", "lprm", "lpoptions", "lpmove", "cupsenable", "cupsdisable", "cupsaccept", "cupsreject"]
# The shell scripts of the repository: all files that begin with a line for sh or bash, and the completion.
SCRIPTS = ["completions/spool.bash", *subprocess.run(["git", "grep", "-lE", "^#!.*[/ ](ba)?sh$", "--", ":!*.py", ":!*.rt", ":!*.md"], cwd=ROOT,
                                                      capture_output=True, text=True).stdout.split()]
LETTER = b"Dear Bo,\r\ncome. Ann\r\n\x0c" * 2
DEBIAN = "bookworm"


@pytest.fixture
def room(room):
    return Path(room)


@pytest.fixture
def script(room):
    return sources(room / "sources")


@pytest.mark.needs("shellcheck")
@pytest.mark.parametrize("name", SCRIPTS)
def test_shellcheck(name):
    run = subprocess.run(["shellcheck", "-x", "-P", "SCRIPTDIR", ROOT / name], capture_output=True, text=True)
    same(f"shellcheck of {name}", run.stdout, "")


def sources(folder):
    """Copies the files that install.sh installs, with substitutes for the programs. Returns the path of the script."""
    folder.mkdir()
    for name in ("docs", "completions", "examples"):
        shutil.copytree(ROOT / name, folder / name, ignore=shutil.ignore_patterns("__pycache__"))
    for name in ("README.md", "install.sh"):
        shutil.copy2(ROOT / name, folder / name)
    for name in PROGRAMS:
        program = folder / "crates" / name / "out" / name
        program.parent.mkdir(parents=True)
        program.write_text(f"#!/bin/sh\necho {name}\n")
        program.chmod(0o755)
    return folder / "install.sh"


def ran(script, *words, below=None):
    environment = {**os.environ, "LC_ALL": "C"}
    environment.pop("DESTDIR", None)
    if below:
        environment["DESTDIR"] = str(below)
    return subprocess.run([script, *words], env=environment, capture_output=True, text=True)


def seen(folder):
    """The paths below a folder: for each its kind, and its contents."""
    found = {}
    for path in sorted(folder.rglob("*")):
        name = "/" + str(path.relative_to(folder))
        if path.is_symlink():
            found[name] = ("link", os.readlink(path))
        elif path.is_dir():
            found[name] = ("folder",)
        else:
            found[name] = ("file", path.stat().st_mode & 0o777, path.read_bytes())
    return found


def listed_paths(folder, prefix):
    """The paths in the manifest of an install, each with its kind."""
    lines = (folder / prefix.strip("/") / "lib/cegmandi/manifest").read_text().splitlines()
    return {line.split()[2]: line.split()[0] for line in lines}


@pytest.mark.parametrize("prefix, words", [("/usr/local", []), ("/usr", ["--lp"]), ("/opt/cegmandi", [])])
@reports_all
def test_installs(script, room, prefix, words):
    """One install into a folder that has other files, and its removal."""
    below = room / ("root" + prefix.replace("/", "-") + "".join(words))
    old = below / prefix.strip("/") / "bin"
    old.mkdir(parents=True)
    (old / "other").write_text("another one\n")
    if prefix == "/usr":
        (below / "usr/lib/cups/filter").mkdir(parents=True)
    before = seen(below)
    run = ran(script, *words, prefix, below=below)
    check(run.returncode == 0, f"{prefix}: install.sh ends with {run.returncode}: {run.stderr}")
    there = seen(below)
    fits_manifest(below, prefix, words, before, there)
    unit_fits(prefix, there)
    run = ran(script, *words, prefix, below=below)
    check(run.returncode == 0 and seen(below) == there, f"{prefix}: a second install differs: {run.stderr}")
    run = ran(script, "--remove", prefix, below=below)
    check(run.returncode == 0 and not run.stderr and not run.stdout, f"{prefix}: --remove printed {run.stdout}{run.stderr}")
    check(seen(below) == before, f"{prefix}: left after --remove: {sorted(set(seen(below)) ^ set(before))}")
    check(ran(script, "--remove", prefix, below=below).returncode == 1, f"{prefix}: a second --remove is not refused")


def fits_manifest(below, prefix, words, before, there):
    """The installed files are those of the manifest, with the right modes, and the links refer to spool."""
    new = {path for path in there if path not in before}
    listed = listed_paths(below, prefix)
    check(new == {*listed, f"{prefix}/lib/cegmandi/manifest"}, f"{prefix}: installed and not listed, or listed and missing: {sorted(new ^ set(listed))}")
    check(all(there[path] == before[path] for path in before), f"{prefix}: another file has changed")
    for path in sorted(new):
        if there[path][0] == "file":
            runs = "/bin/" in path or "/sbin/" in path or path.endswith((".sh", ".py", "/spool_tools", "/with-cups-env", "/as-pages", "/through"))
            check(there[path][1] == (0o755 if runs else 0o644), f"{path} has the mode {there[path][1]:o}")
    folder = f"{prefix}/bin" if words else f"{prefix}/lib/cegmandi/bin"
    for name in LINKS:
        path = below / folder.strip("/") / name
        check(path.is_symlink() and path.resolve() == (below / prefix.strip("/") / "bin/spool").resolve(), f"{path} does not refer to spool")
    pages = {it.name for it in (ROOT / "docs/man").iterdir()}
    check({Path(it).name for it in there if "/share/man/" in it and there[it][0] == "file"} == pages, f"{prefix}: man pages are missing")


def unit_fits(prefix, there):
    """The unit and the programs file name only files that exist."""
    unit = there[f"{prefix}/lib/systemd/system/cegmandi.service"][2].decode()
    etc = "/etc/cegmandi" if prefix in ("/usr", "/usr/local") else f"{prefix}/etc/cegmandi"
    for word in unit.replace("=", " ").split():
        if word.startswith(("/usr", "/etc", "/opt")) and word != "/usr/bin/env":
            check(word in there, f"{prefix}: the unit names {word}, which does not exist")
    for path, what in there.items():
        if what[0] == "file" and "/share/doc/" not in path and not path.endswith("manifest"):
            check(not re.search(rb"@[a-z]+dir@", what[2]), f"{path} has a path that is not filled")
    for line in there[f"{etc}/programs"][2].decode().splitlines():
        words = line.split()
        if words and words[0] in ("filter", "backend", "root-backend", "side"):
            path = next(it for it in words if it.startswith("/"))
            check(path in there or not path.startswith(prefix), f"{prefix}: the programs file names {path}, which does not exist")


@reports_all
def test_refused(script, room):
    """If a foreign file exists, nothing is installed. A changed file is kept and reported."""
    below = room / "refused"
    (below / "usr/local/sbin").mkdir(parents=True)
    foreign = below / "usr/local/sbin/spool_admin"
    foreign.write_text("another one\n")
    before = seen(below)
    run = ran(script, "/usr/local", below=below)
    check(run.returncode == 1 and "/usr/local/sbin/spool_admin already exists" in run.stderr, f"a foreign file: {run.stderr}")
    check(seen(below) == before, "a foreign file: something has changed")
    foreign.unlink()
    check(ran(script, "/usr/local", below=below).returncode == 0, "nothing is installed")
    changed = [below / "etc/cegmandi/programs", below / "usr/local/share/man/man1/spool.1"]
    for path in changed:
        path.write_text("changed\n")
    run = ran(script, "/usr/local", below=below)
    check(run.returncode == 1 and "spool.1 already exists" in run.stderr, f"a changed page: {run.stderr}")
    changed[1].unlink()
    run = ran(script, "/usr/local", below=below)
    check(run.returncode == 0 and run.stdout.count("kept, because it exists") == 1, f"a changed programs file: {run.stdout}{run.stderr}")
    changed[1].write_text("changed\n")
    run = ran(script, "--remove", "/usr/local", below=below)
    check(run.returncode == 0 and "kept, because it was changed" in run.stdout, f"a changed page at the removal: {run.stdout}")
    files = {path for path, what in seen(below).items() if what[0] != "folder"}
    check(files == {"/etc/cegmandi/programs", "/usr/local/share/man/man1/spool.1"}, f"left: {sorted(files)}")


@reports_all
def test_wrong_words(script, room):
    below = room / "words"
    below.mkdir()
    for words, status in (([], 2), (["usr"], 2), (["--other", "/usr"], 2), (["/usr", "/opt"], 2), (["/a/../b"], 1), (["/a b"], 1)):
        run = ran(script, *words, below=below)
        check(run.returncode == status and not seen(below), f"{words}: {run.returncode}, {run.stderr}")
    run = ran(script, "/usr", below=room / "absent")
    check(run.returncode == 1 and not (room / "absent").exists(), "a DESTDIR that does not exist is created")
    shutil.move(script.parent / "crates/spool_admin/out/spool_admin", room / "away")
    run = ran(script, "/usr", below=below)
    check(run.returncode == 1 and "./build.py" in run.stderr and not seen(below), f"a program that is not built: {run.stderr}")
    shutil.move(room / "away", script.parent / "crates/spool_admin/out/spool_admin")


@reports_all
def test_killed(script, room):
    """Installs are killed at random moments, and --remove removes their files."""
    below = room / "killed"
    below.mkdir()
    begun = time.monotonic()
    ran(script, "/usr", below=below)
    whole = time.monotonic() - begun
    ran(script, "--remove", "/usr", below=below)
    for _ in range(25):
        install = subprocess.Popen([script, "/usr"], env={**os.environ, "DESTDIR": str(below)}, stdout=subprocess.DEVNULL, stderr=subprocess.DEVNULL, start_new_session=True)
        time.sleep(random.uniform(0, whole))
        os.killpg(install.pid, 9)
        install.wait()
        ran(script, "--remove", "/usr", below=below)
        files = [path for path, what in seen(below).items() if what[0] != "folder"]
        check(not files, f"left after a kill: {files}")


@reports_all
def test_links(script, room):
    """A link with the name of a new file is replaced, and the file that it names is unchanged."""
    below, victim = room / "links", room / "victim"
    victim.write_text("kept")
    (below / "usr/bin").mkdir(parents=True)
    (below / "usr/bin/spool.new").symlink_to(victim)
    (below / "usr/bin/folder").mkdir()
    (below / "usr/sbin").mkdir()
    (below / "usr/sbin/spool_service.new").symlink_to(below / "usr/bin/folder")
    run = ran(script, "/usr", below=below)
    check(run.returncode == 0, f"install over links: {run.stderr}")
    check(victim.read_text() == "kept", "install.sh wrote through a link")
    check(not list((below / "usr/bin/folder").iterdir()), "install.sh wrote into the folder of a link")
    for name in ("usr/bin/spool", "usr/sbin/spool_service"):
        check((below / name).is_file() and not (below / name).is_symlink(), f"{name} is a file")
    shutil.rmtree(below / "usr/bin/folder")


COMPLETED = {
    "spool s": {"submit", "status", "say"},
    "spool submit ": {"lab", "hall"},
    "spool submit --copies 2 l": {"lab"},
    "spool submit --w": {"--wait"},
    "spool queue a": {"add", "accept"},
    "spool queue add --policy retry-c": {"retry-current-job"},
    "spool queue accept h": {"hall"},
    "spool cancel ": {"1", "22"},
    "spool status -q ": {"lab", "hall"},
    "spool --": {"--help", "--version"},
}

# Substitutes for the program and for `timeout`.
BASH = """
source "$1"
compopt() { :; }
spool() { case $1 in queues) echo '[{"name":"lab","n":1},{"name":"hall"}]';; status) echo '[{"number":1},{"number":22}]';; esac; }
timeout() { shift; "$@"; }
IFS=' ' read -r -a COMP_WORDS <<< "$2"
[[ $2 != *' ' ]] || COMP_WORDS+=('')
COMP_CWORD=$((${#COMP_WORDS[@]} - 1))
_spool
printf '%s\\n' "${COMPREPLY[@]}"
"""

FISH = """
function spool
    switch $argv[1]
        case queues
            echo '[{"name":"lab","n":1},{"name":"hall"}]'
        case status
            echo '[{"number":1},{"number":22}]'
    end
end
function timeout
    $argv[2..]
end
source $argv[1]
complete -C $argv[2]
"""


@reports_all
def test_completion_of_bash_and_fish():
    for line, wanted in COMPLETED.items():
        run = subprocess.run(["bash", "-c", BASH, "bash", ROOT / "completions/spool.bash", line], capture_output=True, text=True)
        check(set(run.stdout.split()) == wanted, f"`{line}` is completed to {run.stdout.split()} {run.stderr}")
        if shutil.which("fish") and line != "spool --":
            run = subprocess.run(["fish", "--no-config", "-c", FISH, ROOT / "completions/spool.fish", line], capture_output=True, text=True)
            found = {words.split("\t")[0] for words in run.stdout.splitlines()}
            check(wanted <= found, f"fish completes `{line}` to {found} {run.stderr}")


@pytest.mark.needs("zsh")
@reports_all
def test_completion_of_zsh():
    run = subprocess.run(["zsh", "-n", ROOT / "completions/_spool"], capture_output=True, text=True)
    check(run.returncode == 0, f"zsh reads completions/_spool: {run.stderr}")


@pytest.mark.needs(*PROGRAMS)
@reports_all
def test_prints(room):
    """The installed programs print a letter, from a folder of their own."""
    prefix = room / "own"
    prefix.mkdir()
    run = ran(ROOT / "install.sh", str(prefix))
    check(run.returncode == 0, f"the built programs are not installed: {run.stderr}")
    office = room / "office"
    run = subprocess.run([prefix / "share/doc/cegmandi/examples/office/print.sh", office], capture_output=True, text=True)
    letter = office / "letter.prn"
    check(letter.exists() and letter.read_bytes() == LETTER, f"no letter: {run.stdout}{run.stderr}")
    run = subprocess.run([prefix / "sbin/spool_admin", "look", office / "spool"], capture_output=True, text=True)
    check("ended 1\n" in run.stdout, f"look: {run.stdout}{run.stderr}")
    check(ran(ROOT / "install.sh", "--remove", str(prefix)).returncode == 0 and not seen(prefix), f"left: {sorted(seen(prefix))}")


@pytest.fixture(scope="module")
def debian():
    """The folder of a fresh Debian, or DEBIAN_FOLDER of the environment."""
    given = os.environ.get("DEBIAN_FOLDER")
    if given:
        yield Path(given).resolve()
        return
    with tempfile.TemporaryDirectory(prefix="debian-") as folder:
        run = subprocess.run(["debootstrap", "--variant=minbase", DEBIAN, folder], capture_output=True, text=True)
        if run.returncode:
            pytest.skip(f"debootstrap cannot create a fresh Debian: {run.stdout.strip().splitlines()[-1:]}")
        yield Path(folder)


@pytest.mark.root
@pytest.mark.long
@pytest.mark.needs("debootstrap", *PROGRAMS)
@reports_all
def test_prints_in_debian(debian):
    """The same in a fresh Debian, installed below /usr/local."""
    run = ran(ROOT / "install.sh", "/usr/local", below=debian)
    check(run.returncode == 0, f"in Debian: {run.stderr}")
    office = debian / "root/office"
    shutil.rmtree(office, ignore_errors=True)
    run = subprocess.run(["chroot", debian, "/usr/local/share/doc/cegmandi/examples/office/print.sh", "/root/office"], capture_output=True, text=True)
    letter = office / "letter.prn"
    check(letter.exists() and letter.read_bytes() == LETTER, f"in Debian: no letter: {run.stdout}{run.stderr}")
    if (debian / "usr/local/bin/spool").exists():
        run = subprocess.run(["chroot", debian, "/usr/local/bin/spool", "--help"], capture_output=True, text=True)
        check("submit" in run.stdout + run.stderr, f"in Debian: spool printed {run.stdout}{run.stderr}")
    shutil.rmtree(office, ignore_errors=True)
    run = ran(ROOT / "install.sh", "--remove", "/usr/local", below=debian)
    check(run.returncode == 0 and not run.stdout and not list((debian / "usr/local").rglob("*spool*")), f"in Debian: --remove leaves files: {run.stdout}")
