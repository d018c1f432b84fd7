#!/usr/bin/env python3
"""What to run after each change of a line: the tests that need neither root nor a built program, with no proof.

Runs the tests of the tools, of the capture and of these scripts (host/tests, capture/tests and dev/tests, by pytest),
the checks, and the tests of each crate that has some (or of CRATE alone), side by side, compiled as `make try` compiles.
Where a crate's test fails, `rt try --test` in its crate tells the place. The last line is `N passed, N failed`, of tests
and checks; what is left out, since a package is missing, is told.
"""
import argparse
import re
import subprocess
import sys
import tempfile
import time
from concurrent.futures import ThreadPoolExecutor
from pathlib import Path
from typing import Any

import trials
from lanes import minutes, processors
from repository import CHECKS, ROOT, TESTS, crates, toolchain
from unproved import compiled


def tried(top: Path, name: str) -> tuple[int, int]:
    """Compiles the tests of one crate into a folder and runs them there: how many passed, and how many failed."""
    began, rtlib = time.monotonic(), toolchain().rtlib
    program = top / f"{name}_tests"
    could, said = compiled(crates()[name], program, tests=True, processors=1)
    if could:
        words = [rtlib.RUNNER, "--seconds", "600", program]
        how: dict[str, Any] = {"stdin": subprocess.DEVNULL, "stdout": subprocess.PIPE, "stderr": subprocess.STDOUT}
        said = subprocess.run(words, cwd=top, text=True, errors="replace", **how).stdout
    passed = len(re.findall(r"(?m)^test \S+ \.\.\. ok", said))
    failed = len(re.findall(r"(?m)^test \S+ \.\.\. (?!ok)", said)) or int(not could or not passed)
    if failed:
        print(said)
    print(f"{name}: {passed} tests passed, {failed} failed, in {minutes(time.monotonic() - began)}", flush=True)
    return passed, failed


def checks() -> tuple[int, int]:
    """Runs the checks that need no build: how many passed, and how many failed."""
    statuses = [subprocess.run([ROOT / it]).returncode for it in CHECKS]
    return statuses.count(0), len(statuses) - statuses.count(0)


def main() -> int:
    with_tests = [it for it in crates() if crates()[it].has_tests()]
    parser = argparse.ArgumentParser(description=__doc__, formatter_class=argparse.RawDescriptionHelpFormatter)
    parser.add_argument("crates", nargs="*", metavar="CRATE", help=f"these alone, of {', '.join(with_tests)}")
    chosen = parser.parse_args().crates
    if unknown := set(chosen) - set(with_tests):
        parser.error(f"no crate with tests: {', '.join(sorted(unknown))}")
    with tempfile.TemporaryDirectory(prefix="bpfrec-quick-") as top:
        by_length = sorted(chosen or with_tests, key=lambda crate: -crates()[crate].count(rb"\n"))
        counts = [] if chosen else [trials.run(TESTS, processors())[:2], checks()]
        with ThreadPoolExecutor(processors()) as pool:
            counts += pool.map(lambda crate: tried(Path(top), crate), by_length)
    print(f"{sum(it for it, _ in counts)} passed, {sum(it for _, it in counts)} failed")
    return 1 if any(it for _, it in counts) else 0


if __name__ == "__main__":
    sys.exit(main())
