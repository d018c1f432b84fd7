#!/usr/bin/env python3
"""Proves what is shipped, runs all tests, stored runs and trials, and tries the edits of what changed.

What is proved is each library, with the theorem and the callers that stand on it, and the program. The tests' own code
is compiled with checks and run; --proves-tests proves it too, as make gate does, and builds programs by both compilers.
Over the work that each crate's out/ keeps, so on a fresh checkout it proves all from nothing, and later what changed.
A crate's edits are tried where dev/build/edits_seen.txt doesn't have the sum of all that they depend on: each must be
refused by the prover, and then the sum is written there, to be committed; a run that is interrupted writes those that
were refused by then. Edits come after proofs and tests, those of crates whose own files changed first. They begin
while they are likely to end by minute 30, or 75 on fewer than four processors; those that are left are named, aren't
written as seen, and come first in the next run. --edits tries all. The crates that promise nothing are left out. Then
dev/trials/long/check_memory.py refuses memory and threads to the program that was built, which the trials run at last.
The last line is `N passed, N failed, N skipped`, of all that was proved, run and tried.
"""
import argparse
import shutil
import subprocess
import sys
import time

import trials
from lanes import in_lanes, processors
from repository import CHECKS, MEMORY, PROGRAM, ROOT, TESTS, crates, libraries, toolchain
from seen import in_turn, keep_seen, seen, sums_of, unseen, write_left
from steps import Step, all_steps, counts_of, edit_steps, keep_costs

# How many processors are many, and the minute by which edits are to end.
MANY, EDITS_UNTIL, EDITS_UNTIL_ON_FEW = 4, 30, 75


def steps_of_edits(words: argparse.Namespace) -> list[Step]:
    """The steps that try edits: those of crates whose own files changed, and then, in turn, those of crates below which
    something else did, or the prover. They may be left where time is short, unless all are asked for."""
    if words.no_edits:
        return []
    known = {} if words.edits else seen()
    changed = libraries() if words.edits else unseen()
    others = in_turn(it for it in changed if it in known and known[it].own == sums_of(it).own)
    turns = [*in_turn(it for it in changed if it not in others), *others]
    return [step for turn, it in enumerate(turns, 1) for step in edit_steps(it, turn, not words.edits)]


def left_of(steps: list[Step]) -> list[str]:
    """The crates whose edits were not all tried, since time was short, each once."""
    return [*dict.fromkeys(it.crate for it in steps if it.may_be_left and it.process is None and not it.is_done())]


def parse_words() -> argparse.Namespace:
    parser = argparse.ArgumentParser(
        prog="dev/build/test.py", description=__doc__, formatter_class=argparse.RawDescriptionHelpFormatter
    )
    parser.add_argument("--keep-costs", action="store_true", help="writes dev/build/costs.txt")
    parser.add_argument("--proves-tests", action="store_true", help="proves the tests' own code, too")
    edits = parser.add_mutually_exclusive_group()
    edits.add_argument("--edits", action="store_true", help="tries all edits")
    edits.add_argument("--no-edits", action="store_true", help="tries none")
    parser.add_argument("--no-trials", action="store_true", help="runs no trials")
    return parser.parse_args()


def tell_left(left: list[str]) -> None:
    """Names the crates whose edits were left."""
    for crate in left:
        print(f"LEFT: edits of {crate}, since time was short: dev/build/test.py --edits tries them")
    write_left(left)


def judged_beside(words: argparse.Namespace) -> trials.Counts:
    """Judges the program that was built by refusing it memory, and runs all trials: the counts."""
    if not (ROOT / PROGRAM).exists():
        print(f"{PROGRAM} isn't built: no trial is run")
        return trials.Counts(0, 1)
    (ROOT / "bin").mkdir(exist_ok=True)
    shutil.copy2(ROOT / PROGRAM, ROOT / "bin" / "bpfrec")
    calls = [["make", "-s", "capture"], [MEMORY, str(PROGRAM)]]
    statuses = [subprocess.run(it, cwd=ROOT).returncode for it in calls]
    told = trials.Counts(0, 0) if words.no_trials else trials.run_trials(["dev/trials"])
    return trials.Counts(told.passed + statuses.count(0), told.failed + sum(map(bool, statuses)), told.skipped)


def main() -> int:
    words, began = parse_words(), time.monotonic()
    checks = [(it, subprocess.run([ROOT / it]).returncode) for it in CHECKS]
    tested = trials.run(TESTS)
    tries = steps_of_edits(words)
    steps = [*all_steps({it.crate for it in tries}, words.proves_tests), *tries]
    _ = toolchain().rtlib.lock(list(crates().values()))
    until = began + 60 * (EDITS_UNTIL if processors() >= MANY else EDITS_UNTIL_ON_FEW)
    try:
        failed = [it.key for it in in_lanes(steps, until=until)]
    finally:  # also where the run is interrupted
        keep_seen(tries)
    tell_left(left_of(steps))
    if words.keep_costs:
        keep_costs(steps)
    beside = judged_beside(words)
    done, wrong = counts_of([it for it in steps if not (it.may_be_left and it.process is None)])
    failed += [it for it, status in checks if status]
    passed = done + sum(status == 0 for _, status in checks) + tested.passed + beside.passed
    wrong += sum(status != 0 for _, status in checks) + tested.failed + beside.failed
    print("".join(f"FAILED: {it}\n" for it in failed), end="")
    print(f"{passed} passed, {wrong} failed, {tested.skipped + beside.skipped} skipped")
    return 1 if wrong else 0


if __name__ == "__main__":
    sys.exit(main())
