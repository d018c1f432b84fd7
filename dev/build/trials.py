#!/usr/bin/env python3
"""Runs the trials of dev/trials/ by pytest, on several processors: all that runs the built program, its tools,
interfaces and disks.

PATH names some of them: a folder, a file, or a trial as file::name. Trials that judge times share one process, beside
which fewer others run. Up to ten that failed beside others are tried once more at the end, each alone: one that then
passes is named and counts as passed. What can't run here, as where no network namespace may be made or a package is
missing, is said as left out and counted so, never as passed. The last line is `N passed, N failed, N skipped`.
"""
from __future__ import annotations

import argparse
import os
import subprocess
import sys
import tempfile
import xml.etree.ElementTree
from pathlib import Path
from typing import NamedTuple

ROOT = Path(__file__).resolve().parents[2]
# Debian's Python, which has Debian's packages.
PYTHON = "/usr/bin/python3"
MODULES = ("pytest", "xdist", "pytest_timeout", "jsonschema")
# Most trials wait more than they compute, but those that judge times want a processor left.
MOST_AT_ONCE = 3
# How many trials that failed beside others are tried once more; of more, the failures aren't of what ran beside.
MOST_AGAIN = 10
# The statuses of pytest that say that all trials were run.
WERE_RUN = (0, 1)


class Counts(NamedTuple):
    """How many trials passed, failed and were left out."""

    passed: int
    failed: int
    skipped: int = 0


def at_once() -> int:
    """How many processes of pytest run side by side."""
    return max(2, min(MOST_AT_ONCE, len(os.sched_getaffinity(0)) - 1))


def missing() -> list[str]:
    """The modules that pytest needs here and that Debian's Python lacks."""
    looks = "import importlib.util, sys; print(*[it for it in sys.argv[1:] if not importlib.util.find_spec(it)])"
    return subprocess.run([PYTHON, "-c", looks, *MODULES], check=True, text=True, stdout=subprocess.PIPE).stdout.split()


def name_of(case: xml.etree.ElementTree.Element) -> str:
    """The name by which pytest runs a trial: its own, behind which xdist puts its group."""
    file, name = case.get("file", ""), case.get("name", "")
    return f"{file}::{name.removesuffix('@timed').removesuffix(f'@{file}')}"


def is_any(case: xml.etree.ElementTree.Element, *kinds: str) -> bool:
    return any(case.find(it) is not None for it in kinds)


def found_in(table: Path, status: int) -> tuple[Counts, list[str]]:
    """What pytest counted, and the trials that failed; a run that it didn't end has failed, and names none."""
    if status not in WERE_RUN or not table.exists():
        return Counts(0, 1), []
    names: dict[str, list[xml.etree.ElementTree.Element]] = {}
    for case in xml.etree.ElementTree.parse(table).iter("testcase"):
        names.setdefault(name_of(case), []).append(case)
    failed = [name for name, cases in names.items() if any(is_any(it, "failure", "error") for it in cases)]
    skipped = [
        name for name, cases in names.items() if name not in failed and any(is_any(it, "skipped") for it in cases)
    ]
    return Counts(len(names) - len(failed) - len(skipped), len(failed), len(skipped)), failed


def run_once(paths: list[str], *options: str) -> tuple[Counts, list[str]]:
    """Runs tests by pytest, which prints what it finds: the counts, and the names of those that failed."""
    with tempfile.TemporaryDirectory(prefix="bpfrec-trials-") as folder:
        table = Path(folder) / "table.xml"
        words = ["-q", *options, "-o", "junit_family=xunit1", f"--junit-xml={table}"]
        status = subprocess.run([PYTHON, "-m", "pytest", *words, *paths], cwd=ROOT, stdin=subprocess.DEVNULL).returncode
        return found_in(table, status)


def passes_alone(trial: str) -> bool:
    """Whether a trial that failed beside others passes, which is printed."""
    counts, _ = run_once([trial])
    passes = counts == Counts(1, 0)
    print(f"{trial} failed beside others, and {'passes' if passes else 'fails again'} alone", flush=True)
    return passes


def run(paths: list[str], processes: int | None = None, most_again: int = 0) -> Counts:
    """Runs tests on several processors, and up to so many that fail once more: what they came to."""
    if lacking := missing():
        print(f"trials need {', '.join(lacking)} for {PYTHON}: make packages installs them")
        return Counts(0, 1)
    counts, failed = run_once(paths, "-n", str(processes or at_once()), "--dist", "loadgroup")
    passed = sum(map(passes_alone, failed)) if len(failed) <= most_again else 0
    return counts._replace(passed=counts.passed + passed, failed=counts.failed - passed)


def run_trials(paths: list[str]) -> Counts:
    """Runs trials, which may fail for what runs beside them, as tests of parts don't."""
    return run(paths, most_again=MOST_AGAIN)


def main() -> int:
    parser = argparse.ArgumentParser(description=__doc__, formatter_class=argparse.RawDescriptionHelpFormatter)
    parser.add_argument("paths", nargs="*", metavar="PATH", default=["dev/trials"])
    counts = run_trials(parser.parse_args().paths)
    print(f"{counts.passed} passed, {counts.failed} failed, {counts.skipped} skipped")
    return 1 if counts.failed or not counts.passed else 0


if __name__ == "__main__":
    sys.exit(main())
