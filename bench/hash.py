#!/usr/bin/env python3
"""Times the hash that bpfrec live takes of a recording that has ended, beside `sha256sum`.

usage: bench/hash.py [--megabytes N] [--rounds N]

It makes a file of N MiB (1,024 by default) in TMPDIR and hashes it by the code of live, in the thread that calls it. It
prints the medians of the rounds by the clock, in seconds. What a file has makes no difference to its hash's time.
"""
import argparse
import os
import statistics
import subprocess
import sys
import tempfile
import time
from collections.abc import Callable
from pathlib import Path
from typing import Any, cast

ROOT = Path(__file__).resolve().parent.parent
sys.path.insert(0, str(ROOT / "host"))
from bpfrec_tools.live.kept.hashes import Ended, File, Hashes, Job

MEBIBYTE = 1 << 20


def seconds_of(work: Callable[[], object], rounds: int) -> float:
    """How long it takes, by the median."""
    found = []
    for _ in range(rounds):
        begun = time.monotonic()
        work()
        found.append(time.monotonic() - begun)
    return statistics.median(found)


def main() -> None:
    parser = argparse.ArgumentParser(description=__doc__, formatter_class=argparse.RawDescriptionHelpFormatter)
    parser.add_argument("--megabytes", type=int, default=1_024)
    parser.add_argument("--rounds", type=int, default=3)
    given = parser.parse_args()
    nobody = cast(Any, None)
    hashes = Hashes(nobody, nobody, None, nobody, nobody, nobody)
    with tempfile.NamedTemporaryFile() as file:
        for _ in range(given.megabytes):
            file.write(os.urandom(MEBIBYTE))
        file.flush()
        job = Job(Ended(file.name, File.of(os.stat(file.name))), None, nobody)
        own = seconds_of(lambda: hashes.digest_of(job), given.rounds)
        other = seconds_of(
            lambda: subprocess.run(["sha256sum", file.name], stdout=subprocess.DEVNULL, check=True), given.rounds
        )
    print(f"{given.megabytes} MiB: live {own:.2f} s, sha256sum {other:.2f} s")


if __name__ == "__main__":
    main()
