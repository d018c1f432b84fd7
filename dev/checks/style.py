#!/usr/bin/env python3
"""Checks how all is written, by Debian's tools and by checks of its own: make lint.

black and isort (layout) and flake8 (faults) read all Python, mypy (types) what ships as of Python 3.9 and the rest as
of 3.11, shellcheck the shell scripts, clang-format and clang-tidy the C, and gcc -fanalyzer that of the capture. prose,
page, packages and lemmas are the files of dev/checks/ that are called so. A NAME runs that one alone, and --without
leaves one out. The last line is `N passed, M failed`; a tool that isn't there has failed.
"""
import argparse
import shutil
import subprocess
import sys
from collections.abc import Iterator
from pathlib import Path
from typing import NamedTuple

ROOT = Path(__file__).resolve().parents[2]
# Tools that Debian's packages are named after.
WANTED = ("black", "isort", "flake8", "mypy", "shellcheck", "clang-format", "clang-tidy")
# The checks beside these tools.
OWN = ["prose", "page", "packages", "lemmas"]
NAMES = [*WANTED, *OWN]
# What shellcheck says of calls by name, and of quotes that are meant.
SHELLCHECK = ["--exclude=SC2016,SC2317"]
# The Python that doesn't ship, and how mypy reads it; pyproject.toml says what ships, and how it is read.
TYPED = ("bench", "capture/tests", "dev", "host/tests")
TYPES = ("--python-version=3.11", "--explicit-package-bases", "--allow-any-generics", "--no-warn-return-any")


class Tool(NamedTuple):
    """A tool with its arguments."""

    name: str
    arguments: list[str]


def files() -> list[str]:
    """The files of the repository."""
    listed = subprocess.run(["git", "ls-files"], cwd=ROOT, check=True, text=True, stdout=subprocess.PIPE).stdout
    return [it for it in listed.splitlines() if (ROOT / it).is_file() and not (ROOT / it).is_symlink()]


def first_line(file: str) -> bytes:
    with open(ROOT / file, "rb") as content:
        return content.readline()


def tools() -> Iterator[Tool]:
    """Each tool, with the files that it reads."""
    all_files = files()
    scripts = [it for it in all_files if not Path(it).suffix and first_line(it).startswith(b"#!")]
    python = [it for it in all_files if it.endswith(".py")]
    python += [it for it in scripts if b"python" in first_line(it)]
    shell = [it for it in all_files if it.endswith(".sh")]
    shell += [it for it in scripts if first_line(it).rstrip().endswith(b"sh")]
    c = [it for it in all_files if it.endswith((".c", ".h"))]
    yield Tool("black", ["--check", *python])
    yield Tool("isort", ["--check", "--quiet", *python])
    yield Tool("flake8", python)
    yield Tool("mypy", [])
    yield Tool("shellcheck", [*SHELLCHECK, *shell])
    yield Tool("clang-format", ["--dry-run", "--Werror", *c])
    yield Tool("clang-tidy", [])
    yield from (Tool(name, []) for name in OWN)


def commands(tool: Tool) -> list[list[str]]:
    """What runs a tool."""
    own = {name: [[sys.executable, f"dev/checks/{name}.py"]] for name in OWN}
    own["clang-tidy"] = [["make", "-s", "-C", "capture", "lint"]]
    own["mypy"] = [["mypy"], ["mypy", *TYPES, *TYPED]]
    return own.get(tool.name, [[tool.name, *tool.arguments]])


def passes(tool: Tool) -> bool:
    """Runs a tool, and tells whether it found nothing."""
    if tool.name in WANTED and not shutil.which(tool.name):
        print(f"WRONG: {tool.name} is missing: apt-get install {tool.name}")
        return False
    wrong = []
    for words in commands(tool):
        done = subprocess.run(words, cwd=ROOT, text=True, stdout=subprocess.PIPE, stderr=subprocess.STDOUT)
        wrong += [done.stdout] if done.returncode else []
    print("\n".join([f"{'WRONG' if wrong else 'ok'}: {tool.name}", *wrong]), flush=True)
    return not wrong


def main() -> int:
    parser = argparse.ArgumentParser(description=__doc__, formatter_class=argparse.RawDescriptionHelpFormatter)
    parser.add_argument("names", nargs="*", metavar="NAME", help=", ".join(NAMES))
    parser.add_argument("--without", action="append", default=[], metavar="NAME", help="leaves this one out")
    words = parser.parse_args()
    if unknown := {*words.names, *words.without} - set(NAMES):
        parser.error(f"no such tool: {', '.join(sorted(unknown))}")
    chosen = set(words.names or NAMES) - set(words.without)
    ended = [passes(it) for it in tools() if it.name in chosen]
    print(f"{ended.count(True)} passed, {ended.count(False)} failed")
    return 1 if False in ended else 0


if __name__ == "__main__":
    sys.exit(main())
