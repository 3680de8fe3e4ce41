#!/usr/bin/env python3
"""Compares the manual pages with the sources: manuals.py

The script reads the names that the pages in docs/man must document from the sources of the crates:

1. `mandoc -Tlint -W warning` reports nothing. Each page has its own name and section, and a name line. It refers only to pages in
   docs/man and to known pages of other packages. Without mandoc (Debian's package `mandoc`) the script skips the lint and reports this.
2. The page of a program documents exactly the options in the program's sources and, if the program is built, in its `--help`. All
   options and tasks of `spool` are in spool(1) and in the completions, and all its environment variables in spool(1).
3. cegmandi_protocol(5) documents each command, each command of the service, each refusal with its number, each other error, each
   policy and each reason of a job. cegmandi_programs(5) documents each variable of a child and each kind of warning, and
   cegmandi_printers(5) each property of a printer and each reason for which its line is rejected. No other page has an entry for a
   command, a refusal or an error.
4. The page of a program documents each of its errors and causes, and each message about a program or a stage.
5. spool_tools(8) documents each small tool and its error messages.
6. The version in crates/program_version/src/lib.rt is that of the newest heading in CHANGES.md, of `.Os` in each page, and of each
   `PROGRAM (Cegmandi) VERSION` in a page. The page of each program contains one. The date of that heading is `.Dd` of each page.

The last line is `N checks, 0 failed` with exit status 0, or contains the number of failed checks, with exit status 1.
"""
import re
import shutil
import subprocess
import sys
from datetime import date

from harness.sources import CRATES, HERE

PAGES = HERE / "docs" / "man"

# Pages of other packages that the pages may refer to.
OTHERS = {"filter(7)", "backend(7)", "mime.types(5)", "mime.convs(5)", "lp(1)", "lpr(1)", "lpstat(1)", "cancel(1)", "lpq(1)", "lprm(1)"}
OTHERS |= {"systemctl(1)", "journalctl(1)", "date(1)", "cups(1)", "signal(7)", "unix(7)", "getent(1)", "id(1)", "timeout(1)", "setpriv(1)", "systemd-sysusers(8)"}

# The programs of a spool: for each its page and the sources with its options.
SPOOLERS = {
    "spool_shell": ("spool_shell.8", ["spool_runtime/src/options.rt", "spool_runtime/src/words.rt"]),
    "spool_service": ("spool_service.8", ["spool_runtime/src/options.rt", "spool_service/src/words.rt", "spool_service/src/child_words.rt"]),
    "spool_admin": ("spool_admin.8", ["spool_admin/src/words.rt", "spool_admin/src/queue_words.rt"]),
}
FRONT = ("spool.1", "front_words/src")

PROTOCOL = "cegmandi_protocol.5"
PROGRAMS = "cegmandi_programs.5"
PRINTERS = "cegmandi_printers.5"

MACRO = re.compile(r"^(?:[A-Z][a-z]|[A-Z]{2}|D1|Dl)$")
OPTION = re.compile(r"\b(?:text|number|flag)_option\(\s*alloc,\s*\"([a-z-]+)\"")

FAULTS = []
COUNT = 0


def check(holds, fault):
    """Counts a check and, if it fails, adds its message to FAULTS."""
    global COUNT
    COUNT += 1
    if not holds:
        FAULTS.append(fault)


def source(path):
    """Returns the code of a file without its comments."""
    text = (CRATES / path).read_text(encoding="utf-8")
    return re.sub(r"^\s*//.*$", "", text, flags=re.MULTILINE)


def page(name):
    """Returns the source of a page."""
    return (PAGES / name).read_text(encoding="utf-8")


def words_of(name):
    """Returns the text of a page without macros, as one line with single blanks."""
    said = []
    for line in page(name).splitlines():
        if line.startswith('.\\"'):
            continue
        if line.startswith("."):
            line = " ".join(it for it in line[1:].split() if not MACRO.match(it))
        said.append(line)
    text = " ".join(" ".join(said).split())
    for spelled, meant in ((r"\(dq", '"'), (r"\(aq", "'"), (r"\e", "\\"), (r"\-", "-"), (r"\&", "")):
        text = text.replace(spelled, meant)
    return text


def items_of(name):
    """Returns the heads of the list items of a page, without macros."""
    heads = [line[4:] for line in page(name).splitlines() if line.startswith(".It ")]
    return [" ".join(it for it in head.split() if not MACRO.match(it)) for head in heads]


def lint():
    """Checks that mandoc reports nothing, if it is installed."""
    for file in sorted(PAGES.iterdir()):
        if not shutil.which("mandoc"):
            continue
        ran = subprocess.run(["mandoc", "-Tlint", "-W", "warning", file], capture_output=True, text=True)
        check(ran.returncode == 0 and not ran.stdout, f"mandoc: {ran.stdout.strip()}")


def heads():
    """Checks the head and the name line of each page, and the pages that it refers to."""
    ours = {f"{it.stem}({it.suffix[1:]})" for it in PAGES.iterdir()}
    for file in sorted(PAGES.iterdir()):
        text = file.read_text(encoding="utf-8")
        check(f".Dt {file.stem.upper()} {file.suffix[1:]}\n" in text, f"{file.name}: .Dt does not match the file's name")
        check(re.search(rf"^\.Nm {file.stem}(?: ,)?$", text, re.MULTILINE) and "\n.Nd " in text, f"{file.name}: the name line is missing")
        check(all(len(it) <= 160 for it in text.splitlines()), f"{file.name}: a line is longer than 160 characters")
        for named in sorted(set(re.findall(r"\.Xr (\S+) (\d)", text))):
            called = f"{named[0]}({named[1]})"
            check(called in ours | OTHERS, f"{file.name} refers to {called}, which does not exist")


def built_options(program):
    """Returns the options in the `--help` of a program, if it is built."""
    path = CRATES / program / "out" / program
    if not path.exists():
        return set()
    ran = subprocess.run([path, "--help"], capture_output=True, text=True)
    return set(re.findall(r"--([a-z][a-z-]*)", ran.stdout + ran.stderr))


def options():
    """Checks the options of the programs of a spool, and the tasks of spool_admin."""
    for program, (name, files) in SPOOLERS.items():
        known = {it for file in files for it in OPTION.findall(source(file))} | {"help", "version"}
        documented = set(re.findall(r"Fl -([a-z][a-z-]*)", "\n".join(heads_with_options(name)))) | {"help", "version"}
        if program == "spool_service":
            known -= {"devices"}
        known |= built_options(program)
        for option in sorted(known | documented):
            check(option in documented, f"{name} lacks --{option}")
            check(option in known, f"{name} documents --{option}, which {program} does not have")
    tasks = set(re.findall(r'"([a-z]+)" => (?:Ok\()?[a-z]+_of', source("spool_admin/src/words.rt")))
    check(tasks, "the tasks of spool_admin cannot be read")
    for task in sorted(tasks):
        check(task in items_of("spool_admin.8"), f"spool_admin.8 lacks {task}")


def heads_with_options(name):
    """Returns the heads of the list items of a page that contain a long option."""
    return [line for line in page(name).splitlines() if line.startswith(".It") and " Fl -" in line]


def front():
    """Checks the tasks, options and environment variables of spool."""
    folder = CRATES / FRONT[1]
    if not folder.is_dir():
        return
    code = "\n".join(source(it.relative_to(CRATES)) for it in sorted(folder.rglob("*.rt")))
    said = page(FRONT[0])
    completions = {name: (HERE / "completions" / name).read_text(encoding="utf-8") for name in ("spool.bash", "_spool", "spool.fish")}
    rows = source(f"{FRONT[1]}/tables.rt")
    long = set(re.findall(r'\b(?:Text|Flag|text_option)\(\s*(?:alloc,\s*)?"([a-z][a-z-]*)"', code))
    of_programs = set(re.findall(r'\bFlag\(\s*"([a-z][a-z-]*)"', rows.split("pub static LP:")[-1]))
    short = set(re.findall(r"'(.)'", rows))
    tasks = set(re.findall(r'task == "([a-z]+)"', code)) | set(re.findall(r'"spool (?:queue )?([a-z]+)"', code))
    check(long and short and tasks, "the tasks and options of front_words cannot be read")
    for option in sorted(long):
        check(re.search(rf"Fl -{option}\b", said), f"{FRONT[0]} lacks --{option}")
        for name, completed in completions.items() if option not in of_programs else ():
            check(re.search(rf"(?:--|-l ){option}\b", completed), f"completions/{name} lacks --{option}")
    for letter in sorted(short):
        check(re.search(rf"^\.(?:It |Op |Fl )?.*\b(?:Fl )(?:\S , )?{re.escape(letter)}(?!\w)", said, re.MULTILINE), f"{FRONT[0]} lacks -{letter}")
    for task in sorted(tasks):
        check(re.search(rf"^\.It .*\b{task}\b", said, re.MULTILINE), f"{FRONT[0]} lacks the task {task}")
        for name, completed in completions.items():
            check(re.search(rf"\b{task}\b", completed), f"completions/{name} lacks {task}")
    program = "\n".join(source(it.relative_to(CRATES)) for it in sorted((CRATES / "spool_front" / "src").glob("*.rt")))
    for variable in sorted(set(re.findall(r'"([A-Z]{4,}(?:_[A-Z]+)?)"', program))):
        check(re.search(rf"\.It Ev (?:\w+ , )*{variable}\b", said), f"{FRONT[0]} lacks the variable {variable}")


def commands():
    """Checks commands, refusals, other errors, policies, reasons, variables and warnings."""
    said, heads_there = words_of(PROTOCOL), items_of(PROTOCOL)
    listed = " , ".join(heads_there).split()
    own_heads = set()
    for file in ("command_lines/src/line.rt", "service_texts/src/own_words.rt"):
        for word in sorted(set(re.findall(r'name == b"([a-z]+)"', source(file)))):
            check(word in listed, f"{PROTOCOL} lacks the command {word}")
            own_heads |= {line for line in page(PROTOCOL).splitlines() if line.startswith(f".It Ic {word}")}
    code = source("spool_types/src/refusal.rt")
    numbers = dict(re.findall(r"Refusal::(\w+) => (\d+),", code))
    names = dict(re.findall(r'Refusal::(\w+) => "(\w+)"', code))
    check(numbers and set(numbers) == set(names), "the refusals of spool_types cannot be read")
    for refusal, number in numbers.items():
        check(f"{number} {names[refusal]}" in heads_there, f"{PROTOCOL} lacks the refusal {number} {names[refusal]}")
        own_heads.add(f".It Li {number} {names[refusal]}")
    check(all((errors(), variables(), reasons(), warnings())), "the words of the sources cannot be read")
    for word in sorted(errors()):
        check(f"error {word}" in heads_there, f"{PROTOCOL} lacks error {word}")
        own_heads.add(f".It Li error {word}")
    for word in sorted(reasons()):
        check(is_in(word, said), f"{PROTOCOL} lacks {word}")
    said = words_of(PROGRAMS)
    for word in sorted(variables() | warnings()):
        check(is_in(word, said), f"{PROGRAMS} lacks {word}")
    for file in sorted(PAGES.iterdir()):
        if file.name != PROTOCOL:
            twice = own_heads & set(page(file.name).splitlines())
            check(not twice, f"{file.name} has entries of {PROTOCOL}: {sorted(twice)}")


def is_in(word, text):
    """Returns whether a text contains a word that is not part of a longer one."""
    return re.search(rf"(?<![\w-]){re.escape(word)}(?![\w-])", text) is not None


def errors():
    """Returns the words of `error` replies without a number."""
    crates = ("command_lines", "service_loop", "service_texts")
    files = [it.relative_to(CRATES) for crate in crates for it in sorted((CRATES / crate / "src").rglob("*.rt"))]
    return {word for file in files for word in re.findall(r'b"error ([a-z]+)\\n"', source(file))}


def variables():
    """Returns the environment variables of a child."""
    return set(re.findall(r'"([A-Z][A-Z_]+)"', source("filter_args/src/variables.rt")))


def reasons():
    """Returns the reasons of a job and the policies of a queue."""
    return set(re.findall(r'"([a-z][a-z-]+)"', source("spool_types/src/phase.rt")))


def warnings():
    """Returns the kinds of warnings about the files of types and conversions."""
    return set(re.findall(r'WarningKind::\w+ => "(\w+)"', source("spool_types/src/warning.rt")))


def parts_of(text):
    """Returns the fixed parts of a format string."""
    return [part.strip(" ,") for part in re.split(r"\{[^}]*\}", text) if part.strip(" ,")]


def faults():
    """Checks the messages of `#[error(..)]` in the programs."""
    pages = {
        "spool_shell.8": [
            *(f"spool_runtime/src/{it}.rt" for it in ("fault", "reasons", "shortage")),
            "program_fitness/src/lib.rt",
        ],
        "spool_admin.8": ["spool_admin/src/fault.rt"],
    }
    for name, files in pages.items():
        said = words_of(name) + " " + (words_of("spool_service.8") if name == "spool_shell.8" else "")
        for file in files:
            for text in re.findall(r'#\[error\("([^"]+)"\)\]', source(file)):
                for part in parts_of(text):
                    check(part in said, f"{name} lacks `{part}` ({file})")
    for text in re.findall(r'#\[error\("([^"]+)"\)\]', source("service_loop/src/fault.rt")):
        check(f"spool: {text}" in words_of("spool_service.8") or text in words_of("spool_shell.8"), f"spool_service.8 lacks {text}")


def tools():
    """Checks the small tools, their options and their messages."""
    heads_there, said = items_of("spool_tools.8"), words_of("spool_tools.8")
    for tool in re.findall(r'name == "([a-z][a-z-]*)"', source("builtin_stages/src/words.rt")):
        check(any(head.split()[0] == tool for head in heads_there), f"spool_tools.8 lacks {tool}")
    for option in re.findall(r'options, "([a-z]+)"', source("builtin_stages/src/options.rt")):
        check(re.search(rf"\b{option}\b", said), f"spool_tools.8 lacks the option {option}")
    silent = {"no answer", "no partner"}
    for text in re.findall(r'"ERROR: ([a-z ]+)\\n"', source("builtin_stages/src/fault.rt")):
        check(text in silent or f"ERROR: {text}" in said, f"spool_tools.8 lacks ERROR: {text}")


def printers():
    """Checks the properties of printers, and the reasons for which their lines are rejected."""
    heads_there = [head.split()[0] for head in items_of(PRINTERS)]
    keywords = re.findall(r'PropertyKind::\w+ => "([a-z-]+)"', source("ipp_printers/src/kind.rt"))
    reasons_there = re.findall(r'LineFault::\w+ => "([a-z ]+)"', source("ipp_printers/src/fault.rt"))
    check(keywords and reasons_there, "the properties of ipp_printers cannot be read")
    for word in keywords:
        check(word in heads_there, f"{PRINTERS} lacks {word}")
    for reason in reasons_there:
        check(reason in items_of(PRINTERS), f"{PRINTERS} lacks `{reason}`")


def versions():
    """Checks the version and the date in the pages and in CHANGES.md."""
    found = re.search(r'concat!\(\$before, "([^"]+)", \$after\)', source("program_version/src/lib.rt"))
    newest = re.search(r"^## (\S+) - (\d+-\d+-\d+)$", (HERE / "CHANGES.md").read_text(encoding="utf-8"), re.MULTILINE)
    check(found and newest, "the version in program_version or the newest heading of CHANGES.md cannot be read")
    if not (found and newest):
        return
    version, day = found[1], date.fromisoformat(newest[2])
    check(newest[1] == version, f"CHANGES.md begins with {newest[1]}, but the version of the programs is {version}")
    for file in sorted(PAGES.iterdir()):
        text = page(file.name)
        check(f"\n.Os Cegmandi {version}\n" in text, f"{file.name}: .Os is not Cegmandi {version}")
        check(text.startswith(f".Dd {day:%B} {day.day}, {day.year}\n"), f"{file.name}: .Dd is not {day}, the date in CHANGES.md")
        quoted = re.findall(r"(\w+) \(Cegmandi\) (\S+)", text)
        check(all(it[1] == version for it in quoted), f"{file.name} quotes another version than {version}: {quoted}")
        is_program = file.suffix in (".1", ".8")
        check(not is_program or (file.stem, version) in quoted, f"{file.name} does not quote {file.stem} (Cegmandi) {version}")


def main():
    for part in (lint, heads, options, front, commands, printers, faults, tools, versions):
        part()
    if not shutil.which("mandoc"):
        print("skipped: the lint, because mandoc is not installed (Debian's package mandoc)")
    for fault in FAULTS:
        print(fault)
    print(f"{COUNT} checks, {len(FAULTS)} failed")
    return 1 if FAULTS else 0


if __name__ == "__main__":
    sys.exit(main())
