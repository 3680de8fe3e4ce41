"""The suite itself: each test is run, each script is one of those that CONTRIBUTING.md describes, and the manual pages are right."""
import ast
import os
import re
import subprocess
import sys

from harness.checks import same
from harness.files import read
from harness.programs import ROOT, TESTS

# The names of fixtures. A function with one of these parameters alone is a test, or it is called.
FIXTURES = {"folder", "child_folder", "room", "memory_room", "place", "people", "house"}


def uncollected(path):
    """The functions of a file that look like tests, and that nothing runs."""
    tree = ast.parse(read(path))
    used = {node.id for node in ast.walk(tree) if isinstance(node, ast.Name)}
    for node in tree.body:
        if isinstance(node, ast.FunctionDef) and not node.name.startswith("test_") and node.name not in used:
            parameters = {it.arg for it in node.args.args}
            is_fixture = any("fixture" in ast.unparse(it) for it in node.decorator_list)
            if parameters and parameters <= FIXTURES and not is_fixture:
                yield f"{os.path.basename(path)}: {node.name}"


def test_no_test_is_left_out():
    """A function whose name does not begin with `test_` is not run."""
    files = [os.path.join(TESTS, name) for name in sorted(os.listdir(TESTS)) if name.startswith("test_")]
    same("functions that nothing runs", [found for path in files for found in uncollected(path)], [])


# Plain scripts: those of the gate, and those that people run.
PLAIN = {"edits_apply.py", "english.py", "out_of_memory.py", "places.py", "promises.py", "reference.py", "unused_lemmas.py",
         "function_sizes.py", "gate_minutes.py", "manuals.py", "more_edits.py", "with_users.py"}


def test_each_script_is_a_test_or_a_plain_one():
    """CONTRIBUTING.md names the plain ones."""
    scripts = {name for name in os.listdir(TESTS) if name.endswith(".py") and not name.startswith("test_")}
    same("the scripts", scripts, {"conftest.py", *PLAIN})
    text = read(os.path.join(ROOT, "CONTRIBUTING.md")).decode()
    same("those that CONTRIBUTING.md does not name", {name for name in PLAIN if f"{name}`" not in text}, set())


def test_each_script_that_is_named_exists():
    """In documents, root pages and scripts. CHANGES.md and DECISIONS.md also name older ones."""
    files = subprocess.run(["git", "ls-files"], cwd=ROOT, capture_output=True, text=True, check=True).stdout.splitlines()
    missing = set()
    for name in files:
        if name.endswith((".md", ".rt", ".py", ".sh", ".txt", "README")) and os.path.basename(name) not in ("CHANGES.md", "DECISIONS.md"):
            found = re.findall(r"(?<![\w/])(?:tests|bench)/[a-z_/]+\.(?:py|table|txt)\b", read(os.path.join(ROOT, name)).decode())
            missing |= {(name, it) for it in found if not os.path.exists(os.path.join(ROOT, it))}
    same("scripts that do not exist", missing, set())


def test_manual_pages():
    ran = subprocess.run([sys.executable, os.path.join(TESTS, "manuals.py")], capture_output=True, text=True)
    same(f"manuals.py: {ran.stdout}", ran.returncode, 0)
