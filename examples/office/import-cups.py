#!/usr/bin/env python3
"""Moves the printers of CUPS to Cegmandi: import-cups.py [OPTION..] [PRINTER..]

It reads the configuration of CUPS, and prints the commands that make the same queues. It runs nothing unless --apply is given. Without names
it takes all printers. A line that begins with `#` names a setting that is left out.

    --apply           run the commands, and stop at the first that fails. A queue that exists is left as it is
    --cups FOLDER     the configuration of CUPS, by default /etc/cups
    --etc FOLDER      that of Cegmandi, by default /etc/cegmandi
    --lib FOLDER      the folder of with-cups-env and through, by default that of this script
    --spool COMMAND   the front, by default spool
    --socket SOCKET   the socket of the service, by default that of spool

Taken over are the URI, the description and the location of each printer, whether it is stopped and whether it accepts jobs, its ErrorPolicy
with JobRetryInterval and JobRetryLimit of cupsd.conf, its PPD, and the default printer (that of `lpoptions`, or else that of CUPS). CUPS
counts the attempts after the first, so the limit of a queue is greater by one.

If the PPD names a filter, as a driver of CUPS, the queue gets a chain of programs (see `through` in spool_tools(8)): a file in the folder
`chains` of --etc, and a line in the file `programs`, after which the service must be started again. Each backend needs a line in `programs`
too; a missing one is added.

The status is 0, or 1 if a command failed or nothing could be read, or 2 if the arguments are invalid.
"""
import argparse
import os
import re
import shlex
import subprocess
import sys

POLICIES = ("abort-job", "retry-job", "retry-current-job", "stop-printer")
# The settings of cupsd.conf(5) and their defaults.
SETTINGS = {"JobRetryInterval": "30", "JobRetryLimit": "5"}
SECONDS = {"": 1, "s": 1, "m": 60, "h": 3_600, "d": 86_400, "w": 604_800}
LONGEST_INTERVAL, MOST_ATTEMPTS, LONGEST_NOTE, LONGEST_URI = 86_400, 65_535, 127, 1_023

# The types that a queue can have, and what `gstoraster` and `pdftopdf` make of documents, in the order of preference if a PPD names several.
RASTER = "application/vnd.cups-raster"
TYPES = ("application/vnd.cups-pdf", "application/pdf", RASTER, "application/vnd.cups-postscript", "application/postscript")
PAGES = "application/vnd.cups-pdf"
UNCHANGED = "application/octet-stream"

# The backends of spool_tools. The others are those of CUPS, which runs one as root if others may not run it.
OWN_BACKENDS = ("appsocket", "spoolfile")
BACKENDS = "/usr/lib/cups/backend"


class Fault(Exception):
    """The configuration cannot be read."""


class Printer:
    """A printer of printers.conf, with its settings in order."""

    def __init__(self, name, is_default):
        self.name, self.is_default, self.settings = name, is_default, []

    def value(self, key, default=""):
        return next((value for name, value in self.settings if name == key), default)

    def values(self, key):
        return [value for name, value in self.settings if name == key]


def lines_of(path):
    """The settings of a file of CUPS: a name and a value for each line. A `#` begins a comment, unless a backslash precedes it."""
    with open(path, encoding="utf-8", errors="replace") as file:
        for line in file:
            line = re.sub(r"(?<!\\)#.*", "", line).replace("\\#", "#").strip()
            if line:
                name, _, value = line.partition(" ")
                yield name, value.strip()


def read_printers(path):
    printers, printer = [], None
    for name, value in lines_of(path):
        if name in ("<Printer", "<DefaultPrinter"):
            printer = Printer(value.rstrip(">"), name == "<DefaultPrinter")
            printers.append(printer)
        elif name.startswith("</"):
            printer = None
        elif printer:
            printer.settings.append((name, value))
    return printers


def read_settings(path):
    found = dict(SETTINGS)
    if os.path.exists(path):
        found.update((name, value) for name, value in lines_of(path) if name in SETTINGS)
    return found


def read_default(path, printers):
    """The default printer: that of lpoptions(1), or else that of CUPS."""
    if os.path.exists(path):
        for name, value in lines_of(path):
            if name == "Default" and value:
                return re.split(r"[\s/]", value)[0]
    return next((printer.name for printer in printers if printer.is_default), None)


def read_options(path):
    """The options that lpoptions stores, by printer."""
    options = {}
    if os.path.exists(path):
        for name, value in lines_of(path):
            words = value.split(None, 1)
            if name in ("Dest", "Default") and len(words) == 2:
                options[words[0]] = words[1]
    return options


def read_filters(path):
    """The types that a PPD's printer takes, each with the filter for it, or `-`."""
    filters = {}
    with open(path, encoding="latin-1") as file:
        for line in file:
            found = re.match(r'\*cupsFilter2?:\s*"([^"]*)"', line)
            words = found[1].split() if found else []
            if len(words) in (3, 4):  # the type, the type of the result if it is cupsFilter2, the cost, and the filter
                filters.setdefault(words[0], words[-1])
    return filters


def seconds_of(text):
    """The seconds of an interval of cupsd.conf(5), such as 300 or 5m."""
    found = re.fullmatch(r"(\d+)([smhdw]?)", text.strip().lower())
    return min(int(found[1]) * SECONDS[found[2]], LONGEST_INTERVAL) if found else int(SETTINGS["JobRetryInterval"])


def attempts_of(text):
    """The attempts that CUPS makes: the first, and as many again as JobRetryLimit says. 0 is no limit."""
    number = int(text) if text.strip().isdigit() else int(SETTINGS["JobRetryLimit"])
    return min(number + 1, MOST_ATTEMPTS) if number else 0


def note_of(text):
    """A description as a queue may have it."""
    text = "".join(c for c in text if c.isprintable())
    while len(text.encode()) > LONGEST_NOTE:
        text = text[:-1]
    return text


class Plan:
    """The commands that make the queues, and notes about the settings that are left out."""

    def __init__(self, options):
        self.options, self.steps, self.lines = options, [], []
        self.schemes, self.names = set(), set()
        self.front = shlex.split(options.spool)
        self.socket = ["--socket", options.socket] if options.socket else []
        self.programs = os.path.join(options.etc, "programs")
        if os.path.exists(self.programs):
            with open(self.programs) as file:
                words = [line.split("#")[0].split() for line in file]
            self.schemes = {it[1] for it in words if len(it) > 2 and it[0] in ("backend", "root-backend")}

    def note(self, text):
        self.steps.append(text)

    def run(self, *words):
        self.steps.append(list(words))

    def spool(self, task, *words):
        self.run(*self.front, "queue", task, *self.socket, *words)

    def exists(self, queue):
        """Whether the service has a queue. Only asked before commands are run."""
        words = [*self.front, "queue", "show", *self.socket, queue]
        return self.options.apply and subprocess.run(words, stdout=subprocess.DEVNULL, stderr=subprocess.DEVNULL).returncode == 0

    def write(self, path, text, append=False):
        """A command that writes a text to a file."""
        self.run("sh", "-c", f'printf %s "$1" {">>" if append else ">"} "$2"', "sh", text, path)

    def copy(self, source, target):
        self.run("install", "-D", "-m", "644", source, target)

    def name_of(self, printer):
        """The name of the printer's queue, which has only letters, digits, `-` and `_`."""
        name = plain = re.sub(r"[^A-Za-z0-9_-]", "-", printer.name)[:120]
        number = 2
        while name in self.names:
            name, number = f"{plain}-{number}", number + 1
        self.names.add(name)
        if name != printer.name:
            self.note(f"{printer.name} becomes {name}")
        return name

    # ---- the programs file

    def kind_of(self, scheme):
        """The kind of a backend's line."""
        path = os.path.join(BACKENDS, scheme)
        if scheme in OWN_BACKENDS or not os.path.exists(path) or os.stat(path).st_mode & 0o001:
            return "backend"
        self.note(f"the backend {scheme} must run as root: see root-backend in cegmandi_programs(5)")
        return "root-backend"

    def backend(self, scheme):
        """Adds the line of a backend, unless there is one."""
        if scheme in self.schemes or scheme in OWN_BACKENDS:
            return
        self.schemes.add(scheme)
        self.lines.append(f"{self.kind_of(scheme)} {scheme} {self.options.lib}/with-cups-env {scheme}")

    def chain(self, name, scheme, filters):
        """Makes a chain of these filters and the backend. Returns the scheme of its devices."""
        own = plain = "through-" + re.sub(r"[^a-z0-9.+-]", "-", name.lower())
        number = 2
        while own in self.schemes:
            own, number = f"{plain}-{number}", number + 1
        self.schemes.add(own)
        helper = f"{self.options.lib}/with-cups-env"
        lines = [f"filter {it} {helper} {it}" for it in filters] + [f"backend {scheme} {helper} {scheme}"]
        if scheme in OWN_BACKENDS:
            lines[-1] = f"backend {scheme} {self.options.lib}/spool_tools {scheme}"
        path = os.path.join(self.options.etc, "chains", own)
        self.run("install", "-d", os.path.dirname(path))
        self.write(path, "\n".join(lines) + "\n")
        self.lines.append(f"{self.kind_of(scheme)} {own} {self.options.lib}/through {path}")
        return own

    def finish(self, default):
        if self.lines:
            self.write(self.programs, "".join(f"{line}\n" for line in self.lines), append=True)
            self.note("start the service again, so that it reads the programs: systemctl restart cegmandi")
        if default:
            self.write(os.path.join(self.options.etc, "default"), default + "\n")


def refusal(uri):
    """Why a printer cannot be a queue, or None."""
    if not re.fullmatch(r"[!-~]+", uri) or len(uri) > LONGEST_URI:
        return "its URI is too long, or has other characters than ASCII"
    if not re.match(r"[a-z][a-z0-9.+-]*:", uri):
        return f"its URI {uri} is that of no backend"
    if re.match(r"file:/*dev/", uri):
        return f"its URI {uri} is a device: name the backend for it"
    return None


def device_of(plan, name, uri, ppd):
    """The URI and the media type of a queue."""
    scheme, _, rest = uri.partition(":")
    if scheme == "file":  # CUPS writes files itself
        scheme, uri = "spoolfile", f"spoolfile:{rest}"
    if not ppd:
        plan.backend(scheme)
        return uri, UNCHANGED
    filters = read_filters(ppd) or {"application/vnd.cups-postscript": "-"}
    media = next((it for it in TYPES if it in filters), None)
    if media is None:
        plan.note(f"{name} is left out: its PPD takes only {', '.join(filters)}, which no filter makes")
        return None, None
    own = [] if filters[media] == "-" else [filters[media]]
    if media == RASTER:
        own, media = ["gstoraster", *own], PAGES
    if not own:
        plan.backend(scheme)
        return uri, media
    return f"{plan.chain(name, scheme, own)}:{rest}", media


def left_out(plan, printer, options):
    """Names the settings of a printer that a queue does not have."""
    found = []
    for key in ("AllowUser", "DenyUser"):
        if printer.values(key):
            found.append(f"{key} {' '.join(printer.values(key))}")
    if printer.value("JobSheets", "none none") != "none none":
        found.append(f"the banners {printer.value('JobSheets')}")
    if any(printer.value(key, "0") != "0" for key in ("QuotaPeriod", "PageLimit", "KLimit")):
        found.append("its quotas")
    if printer.value("OpPolicy", "default") != "default":
        found.append(f"OpPolicy {printer.value('OpPolicy')}")
    if printer.values("Option"):
        found.append(f"the options {', '.join('='.join(it.split(None, 1)) for it in printer.values('Option'))}")
    if printer.name in options:
        found.append(f"the options of lpoptions {options[printer.name]}")
    for text in found:
        plan.note(f"{printer.name}: without {text}")


def plan_printer(plan, printer, settings, options):
    """Plans the queue of a printer. Returns its name, or None if the printer is left out."""
    uri = printer.value("DeviceURI")
    fault = refusal(uri)
    if fault:
        plan.note(f"{printer.name} is left out: {fault}")
        return None
    name = plan.name_of(printer)
    if plan.exists(name):
        plan.note(f"{name} exists, and is left as it is")
        return name
    ppd = os.path.join(plan.options.cups, "ppd", f"{printer.name}.ppd")
    ppd = ppd if os.path.exists(ppd) else None
    device, media = device_of(plan, name, uri, ppd)
    if device is None:
        return None
    if ppd:
        plan.copy(ppd, os.path.join(plan.options.etc, "ppd", f"{name}.ppd"))
    policy = printer.value("ErrorPolicy", "stop-printer")
    if policy not in POLICIES:
        plan.note(f"{printer.name}: the policy {policy} is unknown, so it becomes stop-printer")
        policy = "stop-printer"
    times = ["--interval", str(seconds_of(settings["JobRetryInterval"])), "--limit", str(attempts_of(settings["JobRetryLimit"]))]
    plan.spool("add", name, device, "--media", media, "--policy", policy, *times)
    notes = {key: note_of(printer.value(key)) for key in ("Info", "Location")}
    texts = [f"--{key.lower()}={text}" for key, text in notes.items() if text]
    if texts:
        plan.spool("set", *texts, name)
    if printer.value("State") == "Stopped":
        plan.spool("disable", name)
    if printer.value("Accepting", "Yes") == "No":
        plan.spool("reject", name)
    left_out(plan, printer, options)
    return name


def make_plan(options):
    try:
        printers = read_printers(os.path.join(options.cups, "printers.conf"))
    except OSError as error:
        raise Fault(f"cannot read {error.filename}: {error.strerror}") from None
    unknown = set(options.printers) - {it.name for it in printers}
    if unknown:
        raise Fault(f"CUPS has no printer {', '.join(sorted(unknown))}")
    wanted = [it for it in printers if not options.printers or it.name in options.printers]
    settings = read_settings(os.path.join(options.cups, "cupsd.conf"))
    defaults = os.path.join(options.cups, "lpoptions")
    plan, stored = Plan(options), read_options(defaults)
    queues = {it.name: plan_printer(plan, it, settings, stored) for it in wanted}
    classes = os.path.join(options.cups, "classes.conf")
    if os.path.exists(classes):
        for name, value in lines_of(classes):
            if name in ("<Class", "<DefaultClass"):
                plan.note(f"the class {value.rstrip('>')} is left out: there are no classes")
    plan.finish(queues.get(read_default(defaults, printers)))
    return plan


def line_of(words):
    """A note, or a command as a line of a shell."""
    if isinstance(words, str):
        return f"# {words}"
    if words[:2] == ["sh", "-c"]:
        text, target, sign = words[4], words[5], ">>" if ">>" in words[2] else ">"
        return f"printf %s {shlex.quote(text)} {sign} {shlex.quote(target)}"
    return shlex.join(words)


def apply(plan):
    """Runs the commands, and shows each before it runs."""
    for step in plan.steps:
        print(line_of(step), flush=True)
        if isinstance(step, list) and subprocess.run(step).returncode:
            raise Fault("this command failed")


def arguments():
    here = os.path.dirname(os.path.realpath(__file__))
    parser = argparse.ArgumentParser(description=__doc__, formatter_class=argparse.RawDescriptionHelpFormatter)
    parser.add_argument("--apply", action="store_true")
    parser.add_argument("--cups", default="/etc/cups")
    parser.add_argument("--etc", default="/etc/cegmandi")
    parser.add_argument("--lib", default=here)
    parser.add_argument("--spool", default="spool")
    parser.add_argument("--socket")
    parser.add_argument("printers", nargs="*")
    return parser.parse_args()


def main():
    try:
        plan = make_plan(arguments())
        if plan.options.apply:
            apply(plan)
        else:
            for step in plan.steps:
                print(line_of(step))
    except Fault as fault:
        sys.exit(f"import-cups: {fault}")


if __name__ == "__main__":
    main()
