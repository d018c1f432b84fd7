#!/usr/bin/env python3
"""One crate, for whoever changes it: its proof, its edits that must fail, and its tests.

Proves CRATE and what it stands on over kept work, tries all of its edits, and then compiles with checks
and runs, with no proof, the tests of each crate of tests that names CRATE in crates.txt. Of a program it
runs the stored run. The last line is `N passed, M failed`.
"""
import argparse
import subprocess
import sys

from lanes import in_lanes
from repository import ROOT, RT, below, crates, libraries, toolchain
from steps import Step, counts_of, edit_steps, steps_for


def steps_of(name: str) -> list[Step]:
    """What is proved, run and tried of a crate."""
    crate, waits = crates()[name], [f"library-{it}" for it in below(name)]
    if crate.is_program:
        return [*steps_for(below(name)), Step("twice", name, waits=waits)]
    if name not in libraries():
        return [*steps_for(below(name)), Step("tests", name, waits=waits)]
    return [*steps_for([name], [name]), *edit_steps(name, 0)]


def tests_of(name: str) -> list[str]:
    """The crates of tests whose tests call a crate."""
    return [it for it in crates() if crates()[it].has_tests() and crates()[name] in crates()[it].deps]


def main() -> int:
    parser = argparse.ArgumentParser(description=__doc__, formatter_class=argparse.RawDescriptionHelpFormatter)
    parser.add_argument("crate", choices=crates(), metavar="CRATE", help="a crate of crates.txt")
    crate = parser.parse_args().crate
    steps = steps_of(crate)
    _ = toolchain().rtlib.lock(list(crates().values()))
    in_lanes(steps, every=("edits",))
    done, wrong = counts_of(steps)
    for test in tests_of(crate):
        print(f"== tests of {test}", flush=True)
        status = subprocess.run([*RT, "try", "--test", "--seconds", "600"], cwd=ROOT / "crates" / test).returncode
        done, wrong = done + (status == 0), wrong + (status != 0)
    print(f"{done} passed, {wrong} failed")
    return 1 if wrong else 0


if __name__ == "__main__":
    sys.exit(main())
