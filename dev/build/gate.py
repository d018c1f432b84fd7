#!/usr/bin/env python3
"""The whole gate: every proof, every edit and every test, on a copy of the repository's files, from nothing.

The copy has the files that git knows and those that it doesn't ignore, but for the crates that promise nothing, so kept
work is neither read nor changed. There each library is proved, each program by both compilers, the tests' own code too,
and each edit must be refused; edits of one crate share checks (dev/build/groups.py), since the toolchain's own `rt ci`,
which tries each alone and proves each crate once more for it, takes three times as long. Edits that were refused before
on the same sums of all that they depend on, in dev/build/edits_seen.txt, are left out, so a run that ended early goes
on; --edits tries all. What was refused is written there, also where the run fails or is interrupted. Then
dev/trials/long/check_memory.py refuses memory and threads to the program that was built. The last line is
`N passed, M failed`, of all that was proved, run and tried.
"""
from __future__ import annotations

import argparse
import contextlib
import signal
import subprocess
import sys
import tempfile
from collections.abc import Iterator
from pathlib import Path

from lanes import in_lanes
from repository import CHECKS, MEMORY, PROGRAM, ROOT, copy_to, crates, libraries, toolchain
from seen import SEEN, forget, keep_seen, seen, sums_of, unseen, write_seen
from steps import Step, all_steps, counts_of, edit_steps


def every_step(edits: bool) -> list[Step]:
    """A step for each proof and each test, and those of the edits that weren't seen refused, or of all."""
    tried = libraries() if edits else unseen()
    return [*all_steps(tried, proves_tests=True), *(step for it in tried for step in edit_steps(it, 0))]


def judged_here(edits: bool) -> int:
    """Does what isn't done yet of all steps, on the files where this script lies: the status."""
    steps = every_step(edits)
    _ = toolchain().rtlib.lock(list(crates().values()))
    try:
        in_lanes(steps)
    finally:  # also where the run is interrupted
        keep_seen(it for it in steps if it.kind == "edits")
    done, wrong = counts_of(steps)
    print("".join(f"FAILED: {it.key}\n" for it in steps if not it.is_well()), end="")
    memory = subprocess.run([ROOT / MEMORY, ROOT / PROGRAM]).returncode
    print(f"{done + (memory == 0)} passed, {wrong + (memory != 0)} failed", flush=True)
    return 1 if wrong or memory else 0


@contextlib.contextmanager
def folder(kept: Path | None) -> Iterator[Path]:
    """The folder of the copy: a new one that is kept, or one for this run alone."""
    if kept:
        kept.mkdir(parents=True)
        yield kept.resolve()
        return
    with tempfile.TemporaryDirectory(prefix="bpfrec-gate-") as top:
        yield Path(top)


def run_there(words: list[Path | str]) -> int:
    """Runs the copy's own script, which ends well where this one is to end: its status."""
    signal.signal(signal.SIGINT, signal.SIG_IGN)  # a terminal sends it to the copy's run too
    with subprocess.Popen(words) as run:
        signal.signal(signal.SIGTERM, lambda *_: run.terminate())
        return run.wait()


def main() -> int:
    parser = argparse.ArgumentParser(description=__doc__, formatter_class=argparse.RawDescriptionHelpFormatter)
    where = parser.add_mutually_exclusive_group()
    where.add_argument("--into", type=Path, metavar="FOLDER", help="copies to FOLDER, a new one, which is kept")
    where.add_argument("--here", action="store_true", help="goes on in the copy where this script lies")
    parser.add_argument("--edits", action="store_true", help="tries all edits, also those that were seen refused")
    words = parser.parse_args()
    if words.here:
        return judged_here(words.edits)
    if any([subprocess.run([ROOT / it]).returncode for it in CHECKS]):
        return 1
    before = {it: sums_of(it) for it in libraries()}
    with folder(words.into) as top:
        copy_to(top)
        status = run_there([top / "dev/build/gate.py", "--here", *["--edits"] * words.edits])
        found = seen(top / SEEN.relative_to(ROOT))
    forget()
    write_seen({it: sums for it, sums in before.items() if found.get(it) == sums == sums_of(it)})
    return status


if __name__ == "__main__":
    sys.exit(main())
