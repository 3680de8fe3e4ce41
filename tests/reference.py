#!/usr/bin/env python3
"""Makes docs/reference/ from the sources, one page a crate: reference.py [--write | --contracts [TREE]]

The page of a crate is the text of its root page, the `//!` lines of src/lib.rt or src/main.rt, and below it a list of its
public functions, each with the names of its `ensures` clauses.

    reference.py                     compares docs/reference/ with the sources
    reference.py --write             writes docs/reference/
    reference.py --contracts [TREE]  prints a line for each public function of this tree or another one, sorted:
                                     `CRATE TYPE::FUNCTION: clause clause ..`

The first form takes about a second, and its last line is `none`, with status 0. Otherwise it prints a line for each page that
differs, is missing, or belongs to no crate, and ends with status 1. A source that it cannot read is an error, with status 1.

`--contracts` shows how a rename affects the contracts. Compare a worktree of the last commit with the tree:

    git worktree add /tmp/before HEAD
    diff <(tests/reference.py --contracts /tmp/before) <(tests/reference.py --contracts)
    git worktree remove /tmp/before

Which functions are public:

- In a library: a `pub fn` that a user of the crate can name, directly, through `pub mod`, or through `pub use`; a `pub fn` of a
  type that is `pub` in its module; and each function of such a trait. `pub(crate)` and `pub(super)` are not public.
- In a program, which has no users: each `pub fn`, in every module.
- A function of an `impl TRAIT for TYPE`, both public as above, if it states clauses of its own: `<TYPE as TRAIT>::FUNCTION`.

A clause without a name is shown as `_` (on the pages as `unnamed`). Macros are left out, and so is
code below `#[cfg(test)]`.
"""
import re
import sys
from pathlib import Path

from harness.sources import HERE
PAGES = HERE / "docs" / "reference"

TOKEN = re.compile(
    r"""(?P<skip>\s+|//[^\n]*|/\*.*?\*/)
    |(?P<text>b?r(?P<marks>\#*)".*?"(?P=marks)|b?"(?:\\.|[^"\\])*"|b?'(?:\\[^']+|[^\\'\n])')
    |(?P<label>'\w+)
    |(?P<word>\w[\w']*)
    |(?P<sign>.)""",
    re.VERBOSE | re.DOTALL,
)
# A link in a comment to a name of the crate.
LINK = re.compile(r"\[(`[^`\]]+`)\](?![(\[])")
CLOSING = {"(": ")", "[": "]", "{": "}"}
# The parts of a contract, between the signature of a function and its body.
CLAUSES = ("requires", "ensures")
UNNAMED = "_"


class Unreadable(Exception):
    """A source that does not have the expected form."""


class Module:
    """The declarations of a module that the list of public functions needs."""

    def __init__(self, parent, is_public):
        self.parent = parent
        self.is_public = is_public
        self.modules = {}
        self.functions = {}  # Public functions: the names of their clauses.
        self.types = {}  # Types and traits: whether they are public.
        self.uses = []  # Imports: the words of the path, the name here, and whether it is public.

    def root(self):
        return self.parent.root() if self.parent else self


class Source:
    """The tokens of a file, or of a group in brackets."""

    def __init__(self, tokens, file):
        self.tokens = tokens
        self.file = file
        self.at = 0

    def peek(self):
        return self.tokens[self.at] if self.at < len(self.tokens) else ""

    def take(self):
        if self.at >= len(self.tokens):
            raise Unreadable(f"{self.file}: it ends too early")
        self.at += 1
        return self.tokens[self.at - 1]

    def group(self):
        """Takes a group in brackets, with its brackets."""
        start, closers = self.at, []
        while True:
            token = self.take()
            if token in CLOSING:
                closers.append(CLOSING[token])
            elif token in CLOSING.values() and (not closers or token != closers.pop()):
                raise Unreadable(f"{self.file}: `{token}` closes another bracket")
            if not closers:
                return self.tokens[start : self.at]

    def until(self, *ends):
        """Takes the tokens before the first of these outside of brackets."""
        start = self.at
        while self.peek() not in ends:
            self.group()
        return self.tokens[start : self.at]

    def inside(self):
        """Takes a group in brackets. Returns a source of its contents."""
        return Source(self.group()[1:-1], self.file)


def tokens_of(file):
    """The tokens of a file without spaces, comments and the contents of texts."""
    found = TOKEN.finditer(file.read_text(encoding="utf-8"))
    return ['""' if it.lastgroup == "text" else it[0] for it in found if it.lastgroup != "skip"]


def without_generics(tokens):
    """The tokens outside of angle brackets."""
    depth, kept = 0, []
    for before, token in zip([""] + tokens, tokens):
        if token == "<":
            depth += 1
        elif token == ">" and before not in ("-", "="):
            depth -= 1
        elif depth == 0:
            kept.append(token)
    return kept


def subject_of(header):
    """The type and the trait of an `impl`, by their last names: FuseDisk and Disk of `impl<D> a::Disk for b::FuseDisk<D>`."""
    plain = without_generics(header)
    if "where" in plain:
        plain = plain[: plain.index("where")]
    parts = [[]]
    for token in plain:
        parts.append([]) if token == "for" else parts[-1].append(token)
    names = [[it for it in part if it[0].isalpha()][-1:] or [""] for part in parts]
    return names[-1][0], names[0][0] if len(names) > 1 else None


def paths_in(source, before=()):
    """The paths of a `use`, each as its words and the name that it declares."""
    path = list(before)
    while source.peek():
        token = source.peek()
        if token == "{":
            inner = source.inside()
            while inner.peek():
                yield from paths_in(Source(inner.until(",", ""), source.file), path)
                if inner.peek():
                    inner.take()
            return
        source.take()
        if token == "as":
            yield path, source.take()
            return
        if token != ":":
            path.append(token)
    if path[-1] == "self":
        path.pop()
    yield path, path[-1]


class Crate:
    """A crate, read from its root file on."""

    def __init__(self, folder):
        self.name = folder.name
        self.file = next((it for it in (folder / "src" / "lib.rt", folder / "src" / "main.rt") if it.exists()), None)
        if self.file is None:
            raise Unreadable(f"crates/{self.name} has neither src/lib.rt nor src/main.rt")
        self.is_program = self.file.name == "main.rt"
        # The functions of types and traits: the module, the type, the trait of an `impl` that has one, the name, the clauses.
        self.methods = []
        # All functions, also those that are not public: the name, with its type or trait, and the clauses.
        self.contracts = []
        self.top = Module(None, True)
        self.read(Source(tokens_of(self.file), self.file), self.top, self.file.parent)

    def read(self, source, module, folder):
        """Reads the items of a module. Those of the modules that it declares in files are below the folder."""
        while source.peek():
            is_test = self.skip_attributes(source)
            visibility = self.visibility(source)
            is_public = visibility == "pub"
            word = source.take()
            if word in ("const", "unsafe", "async") and source.peek() in ("fn", "unsafe", "trait", "impl"):
                word = source.take()
            if word == "unsafe":
                word = source.take()
            if word == "mod":
                self.read_module(source, module, folder, is_public, is_test)
            elif word == "fn":
                name, clauses = self.function(source)
                self.contracts.append((name, clauses))
                if is_public and not is_test:
                    module.functions[name] = clauses
            elif word == "use":
                tokens = source.until(";")
                module.uses += [(*it, is_public) for it in paths_in(Source(tokens, source.file))]
                source.take()
            elif word in ("struct", "enum", "union"):
                module.types[source.peek()] = is_public
                source.until("{", ";")
                source.group()
                if source.peek() == ";":
                    source.take()
            elif word == "trait":
                self.read_trait(source, module, is_public)
            elif word == "impl":
                self.read_impl(source, module)
            elif word in ("type", "const", "static", "ghost"):
                if word == "type":
                    module.types[source.peek()] = is_public
                source.until(";")
                source.take()
            elif source.peek() == "!":
                self.skip_macro(source)
            elif word != ";":
                raise Unreadable(f"{source.file}: an item begins with `{word}`")

    def skip_attributes(self, source):
        """Takes the attributes before an item. Returns whether it is only there for tests."""
        is_test = False
        while source.peek() == "#":
            source.take()
            if source.peek() == "!":
                source.take()
            group = source.group()
            is_test = is_test or group[1:2] == ["test"] or group[1:5] == ["cfg", "(", "test", ")"]
        return is_test

    def skip_macro(self, source):
        """Takes `macro_rules! NAME { .. }`, or a call of a macro in the place of an item."""
        source.take()
        source.until(*CLOSING)
        source.group()
        if source.peek() == ";":
            source.take()

    def visibility(self, source):
        if source.peek() != "pub":
            return ""
        source.take()
        return "pub" + "".join(source.group()) if source.peek() == "(" else "pub"

    def read_module(self, source, module, folder, is_public, is_test):
        name = source.take()
        inner = Module(module, is_public)
        if source.peek() == "{":
            inside = source.inside()
        else:
            source.take()
            file = folder / f"{name}.rt"
            if is_test:
                return
            if not file.exists():
                raise Unreadable(f"{source.file}: {file} does not exist")
            inside = Source(tokens_of(file), file)
        if not is_test:
            module.modules[name] = inner
            self.read(inside, inner, folder / name)

    def function(self, source):
        """Takes a function after `fn`. Returns its name and the names of its `ensures` clauses."""
        name = source.take()
        clauses = []
        source.until(*CLAUSES, "{", ";")
        while source.peek() in CLAUSES:
            is_promise = source.take() == "ensures"
            if source.peek() == "*":  # `ensures*`, of a function that lends.
                source.take()
            clause = UNNAMED if source.peek() == "{" else source.take()
            if source.peek() != "{":
                raise Unreadable(f"{source.file}: a clause of `{name}` has no braces")
            source.group()
            if is_promise:
                clauses.append(clause)
        if source.peek() not in ("{", ";"):
            raise Unreadable(f"{source.file}: `{source.peek()}` follows the contract of `{name}`")
        source.group()
        return name, clauses

    def functions_in(self, source):
        """The functions of an `impl` or a trait, each with whether it is public."""
        while source.peek():
            self.skip_attributes(source)
            is_public = self.visibility(source) == "pub"
            word = source.take()
            while word in ("const", "unsafe", "async") and source.peek() in ("fn", "unsafe"):
                word = source.take()
            if word == "fn":
                yield (is_public, *self.function(source))
            elif word != ";":
                source.until(";")

    def read_trait(self, source, module, is_public):
        name = source.peek()
        source.until("{")
        module.types[name] = is_public
        for _, function, clauses in self.functions_in(source.inside()):
            self.contracts.append((f"{name}::{function}", clauses))
            self.methods.append((module, name, None, function, clauses))

    def read_impl(self, source, module):
        kind, trait = subject_of(source.until("{"))
        for is_public, name, clauses in self.functions_in(source.inside()):
            self.contracts.append((f"{kind}::{name}", clauses))
            if clauses if trait else is_public:
                self.methods.append((module, kind, trait, name, clauses))

    def listed(self):
        """The public functions of the crate, sorted by name, each with its clauses."""
        if self.is_program:
            found = [it for module in self.all_modules() for it in module.functions.items()]
        else:
            found = [("::".join(path), clauses) for path, clauses in self.named_functions(self.top, (), []).items()]
        for module, kind, trait, name, clauses in self.methods:
            if self.is_program or self.is_public_type(module, kind) and (not trait or self.is_public_type(module, trait)):
                found.append((f"<{kind} as {trait}>::{name}" if trait else f"{kind}::{name}", clauses))
        return sorted(found)

    def all_modules(self):
        pending = [self.top]
        while pending:
            module = pending.pop()
            yield module
            pending += module.modules.values()

    def named_functions(self, module, path, above):
        """The functions that a user can name by a public module: each path with the clauses. `above` are the modules on the way."""
        found = {(*path, name): clauses for name, clauses in module.functions.items()}
        inner = [(name, it) for name, it in module.modules.items() if it.is_public]
        for words, name, is_public in module.uses:
            if is_public and words[-1] == "*":
                there = self.module_at(module, words[:-1])
                if there is not None and there not in above:
                    found.update(self.named_functions(there, path, [*above, module]))
            elif is_public:
                there = self.meant(module, words)
                if isinstance(there, list):
                    found[(*path, name)] = there
                elif isinstance(there, Module):
                    inner.append((name, there))
        for name, it in inner:
            if it not in above:
                found.update(self.named_functions(it, (*path, name), [*above, module]))
        return found

    def is_public_type(self, module, name):
        """Whether a type or a trait that a module names is public. One of another crate is."""
        there = self.meant(module, [name])
        return there is None or there is True

    def meant(self, module, words, above=()):
        """Resolves a path of this crate to a module, to the clauses of a public function, or to whether a type is public.

        Returns None if the path is of another crate. `above` are the imports followed so far.
        """
        there = self.module_at(module, words[:-1])
        if there is None:
            return None
        last = words[-1]
        for kind in (there.modules, there.functions, there.types):
            if last in kind:
                return kind[last]
        for path, name, _ in there.uses:
            if (there, path) in above:
                continue
            onward = path[:-1] + [last] if path[-1] == "*" else path
            found = self.meant(there, onward, [*above, (there, path)]) if name in (last, "*") else None
            if found is not None:
                return found
        return None

    def module_at(self, module, words):
        """Returns the module of this crate at a path, or None if the path is of another crate."""
        for word in words:
            if word == "crate":
                module = module.root()
            elif word == "super":
                module = module.parent
            elif word != "self":
                module = module.modules.get(word)
            if module is None:
                return None
        return module


def root_page(file):
    """The lines of a root page, with its headings one level lower, and its links to names of the crate as plain names."""
    is_code = False
    for line in file.read_text(encoding="utf-8").split("\n"):
        if not line.startswith("//!"):
            return
        line = line[4:].rstrip()
        is_code = is_code != line.lstrip().startswith("```")
        if not is_code:
            line = LINK.sub(r"\1", re.sub(r"^#", "##", line))
        yield line


def page_of(crate):
    text = "\n".join(root_page(crate.file)).strip("\n")
    if not text:
        raise Unreadable(f"{crate.file}: it does not begin with `//!`")
    source = crate.file.relative_to(HERE)
    lines = [f"# {'Program' if crate.is_program else 'Crate'} `{crate.name}`", "", f"Made from `{source}` by `tests/reference.py`.", ""]
    lines += [text, "", "## Functions and their clauses", ""]
    functions = crate.listed()
    for name, clauses in functions:
        words = ["unnamed" if it == UNNAMED else f"`{it}`" for it in dict.fromkeys(clauses)]
        lines.append(f"- `{name}`: {', '.join(words) or 'none'}")
    return "\n".join(lines if functions else lines[:-3]) + "\n"


def crates_of(tree):
    return [Crate(it) for it in sorted((tree / "crates").iterdir()) if it.is_dir()]


def write(pages):
    PAGES.mkdir(parents=True, exist_ok=True)
    for file in PAGES.glob("*.md"):
        if file.name not in pages:
            file.unlink()
    for name, text in pages.items():
        (PAGES / name).write_text(text, encoding="utf-8")


def faults(pages):
    """Yields a line for each page that differs."""
    there = {it.name: it for it in PAGES.glob("*.md")}
    for name in sorted({*pages, *there}):
        if name not in there:
            yield f"docs/reference/{name} is missing"
        elif name not in pages:
            yield f"docs/reference/{name} belongs to no crate"
        elif there[name].read_text(encoding="utf-8") != pages[name]:
            yield f"docs/reference/{name} differs from the sources"


def main(words):
    contracts = words[:1] == ["--contracts"]
    if words not in ([], ["--write"]) and not (contracts and len(words) <= 2):
        print("usage: reference.py [--write | --contracts [TREE]]", file=sys.stderr)
        return 2
    try:
        read = crates_of(Path(words[1]) if len(words) == 2 else HERE)
    except Unreadable as fault:
        print(fault)
        return 1
    if contracts:
        lines = [f"{crate.name} {name}: {' '.join(clauses)}".rstrip() for crate in read for name, clauses in crate.listed()]
        print("\n".join(sorted(lines)))
        return 0
    pages = {f"{crate.name}.md": page_of(crate) for crate in read}
    if words == ["--write"]:
        write(pages)
    found = list(faults(pages))
    print("\n".join(found + ["run tests/reference.py --write"] if found else ["none"]))
    return 1 if found else 0


if __name__ == "__main__":
    sys.exit(main(sys.argv[1:]))
