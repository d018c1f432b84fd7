#!/usr/bin/env python3
"""Takes calls out of the tools one by one, and runs the tests that have to refuse each.

A call whose value isn't used, as one that prints, counts, closes or sets, may be missing though each part is tested. All
such calls of host/bpfrec_tools are found in its text; one after the other is replaced by nothing, in a copy, and the
tests of that tool run: first those of parts, and where these pass its trials, all of which have to pass with all calls.
PATH names files and folders below host/bpfrec_tools, as publish or live/kept, or a line of one, as
publish/command.py:49; without one all are taken. Each call that no test misses is named with its line. The last line is
`N passed, N failed`.
"""
import argparse
import ast
import random
import sys
import tempfile
import time
from concurrent.futures import ThreadPoolExecutor
from pathlib import Path
from typing import NamedTuple, Optional

from lanes import minutes
from mutants import NOT_ENDED, NOT_REFUSED, PYTHON, REFUSED, commit, copied, first_fault, own_program, plain_copy, ran
from repository import ROOT

TOOLS = Path("host/bpfrec_tools")
# For how many seconds a test may run here; one that doesn't end has failed.
PATIENCE = 100
# The status of pytest where a test has failed.
HAS_FAILED = 1
LIVE_UNITS = "host/tests/test_live_*.py"
# The tests of a folder: those of parts, and trials. Of several that a file is in, the longest counts.
ROWS: dict[str, tuple[list[str], list[str]]] = {
    "check": (["host/tests/test_check_*.py", "host/tests/test_several.py"], ["dev/trials/live/test_signatures.py"]),
    "chapter11": (
        ["host/tests/test_setup_*.py", "host/tests/test_chapter11.py"],
        ["dev/trials/read/test_chapter11.py"],
    ),
    "cli": (["host/tests/test_tools.py"], ["dev/trials/tools"]),
    "export": (
        ["host/tests/test_pcapng_units.py", "host/tests/test_several.py", "host/tests/test_chapter11.py"],
        ["dev/trials/read/test_pcapng*.py", "dev/trials/read/test_marks.py", "dev/trials/tools/test_progress.py"],
    ),
    "filter": ([], ["dev/trials/tools/test_filter.py"]),
    "follow": (
        ["host/tests/test_follow_runs.py", "host/tests/test_several.py", "host/tests/test_parts_called.py"],
        ["dev/trials/live/test_follow.py", "dev/trials/live/test_marks.py"],
    ),
    "info": (
        ["host/tests/test_info_whole_file.py", "host/tests/test_several.py"],
        ["dev/trials/read/test_info*.py", "dev/trials/read/test_runs.py"],
    ),
    "live": ([LIVE_UNITS], ["dev/trials/live/test_recordings.py", "dev/trials/live/test_refusals.py"]),
    "live/control": (
        [LIVE_UNITS, "host/tests/test_parts_called.py"],
        ["dev/trials/live/test_control.py", "dev/trials/live/test_words.py"],
    ),
    "live/kept": (
        [LIVE_UNITS],
        [f"dev/trials/live/test_{it}.py" for it in ("facts", "rotation", "signing", "ring", "whole_files", "marks")],
    ),
    "live/parts": ([LIVE_UNITS], [f"dev/trials/live/test_{it}.py" for it in ("rotation", "parts", "outputs", "spans")]),
    "live/reports": (
        [LIVE_UNITS, "host/tests/test_several.py"],
        [f"dev/trials/live/test_{it}.py" for it in ("alarms_out", "publish_ends", "service", "terminal")],
    ),
    "live/run": ([LIVE_UNITS], [f"dev/trials/live/test_{it}.py" for it in ("recordings", "rotation", "starts")]),
    "live/status": (["host/tests/test_status_*.py"], ["dev/trials/live/test_status.py"]),
    "preflight": (["host/tests/test_preflight_flights.py"], ["dev/trials/tools/test_preflight.py"]),
    "publish": (
        ["host/tests/test_publish_*.py", "host/tests/test_parts_called.py"],
        ["dev/trials/live/test_publish.py", "dev/trials/live/test_publish_ends.py"],
    ),
    "receive": (
        ["host/tests/test_publish_datagrams.py", "host/tests/test_parts_called.py"],
        ["dev/trials/live/test_receive.py", "dev/trials/live/test_receive_shown.py", "dev/trials/live/test_publish.py"],
    ),
    "salvage": (
        ["host/tests/test_parts_called.py"],
        [
            "dev/trials/read/test_info_damage.py",
            "dev/trials/tools/test_overwriting.py",
            "dev/trials/tools/test_endings.py",
        ],
    ),
    "tell": (["host/tests/test_tell.py", "host/tests/test_several.py"], ["dev/trials/live/test_control.py"]),
}


class Removed(NamedTuple):
    """A call that is taken out: its file, its line, its text, and the file's text without it."""

    path: str
    line: int
    call: str
    text: str


def without(text: str, call: ast.Expr) -> str:
    """A text without a statement of it."""
    lines = text.encode().splitlines(keepends=True)
    first, last = call.lineno - 1, (call.end_lineno or call.lineno) - 1
    lines[first : last + 1] = [lines[first][: call.col_offset] + b"pass" + lines[last][call.end_col_offset :]]
    return b"".join(lines).decode()


def removed_in(path: str, text: str) -> list[Removed]:
    """Each call of a file whose value isn't used; arguments of a command line aren't, which its help has."""
    found = [it for it in ast.walk(ast.parse(text)) if isinstance(it, ast.Expr) and isinstance(it.value, ast.Call)]
    made = [Removed(path, it.lineno, ast.unparse(it), without(text, it)) for it in found]
    return sorted(it for it in made if ".add_argument(" not in it.call)


def removed_at(place: str) -> list[Removed]:
    """The calls of a file, of a folder, or of a line of a file, as users name these."""
    name, _, line = place.partition(":")
    top = ROOT / TOOLS / name
    files = [top] if top.is_file() else sorted(top.rglob("*.py"))
    found = [it for file in files for it in removed_in(str(file.relative_to(ROOT)), file.read_text(encoding="utf-8"))]
    return [it for it in found if line in ("", str(it.line))]


def tests_of(path: str) -> tuple[list[str], list[str]]:
    """The tests and the trials of a file of the tools, where it has some."""
    below = Path(path).relative_to(TOOLS)
    rows = [str(it) for it in (below, *below.parents) if str(it) in ROWS]
    return ROWS[rows[0]] if rows else ([], [])


def paths_of(patterns: list[str]) -> list[str]:
    return [str(it.relative_to(ROOT)) for pattern in patterns for it in sorted(ROOT.glob(pattern))]


def fault_of(top: Path, patterns: tuple[str, ...]) -> Optional[str]:
    """What the first test that fails says; None where all pass. A ValueError says why they can't be run."""
    programs = {it.upper(): str(own_program(it)) for it in ("bpfrec", "capture")}
    words = ["-q", "-x", "-p", "no:cacheprovider", "-o", f"timeout={PATIENCE}", *paths_of([*patterns])]
    done = ran([PYTHON, "-m", "pytest", *words], top, **programs)
    if done.returncode not in (0, HAS_FAILED, *NOT_ENDED):
        raise ValueError(first_fault(done.stdout))
    return first_fault(done.stdout) if done.returncode else None


def fault_without(patterns: tuple[str, ...]) -> Optional[str]:
    """What fails of these tests where nothing is taken out, twice: some judge times, and others run beside them."""
    found: Optional[str] = None
    for _ in range(2):
        with tempfile.TemporaryDirectory(prefix="bpfrec-plain-") as top:
            found = fault_of(copied(Path(top), {}), patterns)
        if found is None:
            break
    return found


def judged(removed: Removed, until: float, has_trials: bool) -> Optional[str]:
    """The verdict, which is printed; nothing where its turn doesn't come in time."""
    if time.monotonic() > until:
        return None
    began, said = time.monotonic(), None
    with tempfile.TemporaryDirectory(prefix="bpfrec-removed-") as top:
        copied(Path(top), {removed.path: removed.text})
        for patterns in rows_of(removed, has_trials):
            said = said or fault_of(Path(top), patterns)
    verdict = REFUSED if said else NOT_REFUSED
    place = f"{removed.path}:{removed.line}: {removed.call}"
    print(f"{place}: {verdict}, in {minutes(time.monotonic() - began)}: {said or 'all pass'}", flush=True)
    return verdict


def rows_of(removed: Removed, has_trials: bool) -> list[tuple[str, ...]]:
    """The tests that are run without a call, and the trials."""
    tests, trials = tests_of(removed.path)
    return [tuple(it) for it in (tests, trials if has_trials else []) if it]


def main() -> int:
    parser = argparse.ArgumentParser(description=__doc__, formatter_class=argparse.RawDescriptionHelpFormatter)
    parser.add_argument("paths", nargs="*", metavar="PATH", default=[""])
    parser.add_argument("--seconds", type=float, help="draws them by the commit, and begins none after so many seconds")
    parser.add_argument("--seed", help="draws by this in place of the commit")
    parser.add_argument("--processes", type=int, default=2, help="how many run beside one another")
    parser.add_argument("--no-trials", action="store_true", help="runs tests of parts alone")
    given = parser.parse_args()
    chosen = sorted({it for path in given.paths for it in removed_at(path)})
    if given.seconds:
        random.Random(given.seed or commit()).shuffle(chosen)
    plain_copy()
    rows = sorted({row for removed in chosen for row in rows_of(removed, not given.no_trials)})
    with ThreadPoolExecutor(given.processes) as pool:
        wrong = [f"{' '.join(row)}: {fault}" for row, fault in zip(rows, pool.map(fault_without, rows)) if fault]
        if wrong:
            print("\n".join(f"they fail with all calls: {it}" for it in wrong))
            return 1
        until = time.monotonic() + (given.seconds or float("inf"))
        verdicts = list(pool.map(lambda removed: judged(removed, until, not given.no_trials), chosen))
    refused, left = verdicts.count(REFUSED), verdicts.count(NOT_REFUSED)
    print(f"{refused} passed, {left} failed")
    return 1 if left else 0


if __name__ == "__main__":
    sys.exit(main())
