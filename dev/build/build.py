#!/usr/bin/env python3
"""Proves the program and the crates that it stands on, and leaves it at bin/bpfrec.

Takes the crates below crates/bpfrec (or below CRATE, another program) from crates.txt. Those that don't
depend on each other are proved side by side, the one with the longest way to the end behind it by the
processors that the others leave: an interrupted build goes on with the crates that it hadn't finished.
It says about how many functions are proved, and how long the rest is likely to take by dev/build/costs.txt, which
--keep-costs, or KEEP_COSTS=1 for make, writes anew. After the program itself it builds bin/capture, where that can be
built (capture/Makefile); the recorder doesn't need it. What a step prints goes to bin/steps/, and is shown where it
fails. RT names another command than `rt`.
"""
import argparse
import shutil
import subprocess
import sys

from lanes import in_lanes
from repository import ROOT, below, crates, toolchain
from steps import Step, keep_costs, steps_for


def build(top: str, keeps: bool) -> int:
    """Proves the crates, builds the program and runs it once: the status."""
    steps = [*steps_for(below(top)), Step("program", top, waits=[f"library-{it}" for it in below(top)])]
    _ = toolchain().rtlib.lock([crates()[it.crate] for it in steps])
    failed = in_lanes(steps)
    if keeps:
        keep_costs(steps)
    if failed:
        return 1
    shutil.copy2(ROOT / "crates" / top / "out" / top, ROOT / "bin" / top)
    print(f"bin/{top} is built", flush=True)
    if top == "bpfrec":
        subprocess.run(["make", "-s", "-C", ROOT / "capture"])
    return 0


def main() -> int:
    parser = argparse.ArgumentParser(description=__doc__, formatter_class=argparse.RawDescriptionHelpFormatter)
    parser.add_argument("--keep-costs", action="store_true", help="writes dev/build/costs.txt")
    programs = [name for name, it in crates().items() if it.is_program]
    parser.add_argument(
        "crate", nargs="?", default="bpfrec", choices=programs, metavar="CRATE", help="bpfrec (default)"
    )
    arguments = parser.parse_args()
    return build(arguments.crate, arguments.keep_costs)


if __name__ == "__main__":
    sys.exit(main())
