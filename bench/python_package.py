#!/usr/bin/env python3
"""Times the Python package `bpfrec` on a recording of frames of one length.

usage: bench/python_package.py [--frames N] [--length N] [--rounds N]

It records a feed by a filter that keeps all, and reads the recording in a process of its own by the plain loop
`for frame in bpfrec.open(path): frame.bytes`, with data checksums; then with the facts beside it, by time, and a
recording whose frames have mixed lengths, 60 bytes up to the given one. It prints a table for RESULTS.md: frames a
second by the clock, medians, and the most memory. It needs bin/bpfrec (make build), or what BPFREC names; files go to
TMPDIR: in memory (TMPDIR=/dev/shm) no disk is measured with it.
"""
import argparse
import json
import os
import statistics
import subprocess
import sys
import tempfile
from pathlib import Path

ROOT = Path(__file__).resolve().parent.parent
sys.path.insert(0, str(ROOT / "bench"))
import info

BPFREC = Path(os.environ.get("BPFREC") or ROOT / "bin/bpfrec")
READING = """
import resource, sys, time
sys.path.insert(0, sys.argv[1])
import bpfrec
begin, count = time.monotonic(), 0
for frame in bpfrec.open(sys.argv[2]).frames(by_time=sys.argv[3] == "by_time"):
    frame.bytes
    count += 1
print(count, time.monotonic() - begin, resource.getrusage(resource.RUSAGE_SELF).ru_maxrss)
"""
FACTS = {"facts": 1, "host": "fc1", "origins": [{"origin": "1764590400.250000000", "counter": 0}], "losses": []}


def read(recording: Path, how: str) -> tuple[int, float, int]:
    """A reading: how many frames, the seconds, and the most memory in KiB."""
    words = [sys.executable, "-c", READING, str(ROOT / "host"), str(recording), how]
    told = subprocess.run(words, check=True, text=True, stdout=subprocess.PIPE).stdout.split()
    return int(told[0]), float(told[1]), int(told[2])


def row(name: str, runs: list[tuple[int, float, int]]) -> str:
    rate = statistics.median(count / seconds for count, seconds, _ in runs)
    return f"| {name} | {runs[0][0]:,} | {rate:,.0f} | {max(it[2] for it in runs):,} |"


def main() -> None:
    parser = argparse.ArgumentParser(description=__doc__, formatter_class=argparse.RawDescriptionHelpFormatter)
    parser.add_argument("--frames", type=int, default=1_000_000)
    parser.add_argument("--length", type=int, default=300)
    parser.add_argument("--rounds", type=int, default=3)
    words = parser.parse_args()
    info.BPFREC = BPFREC
    print("| Reading | Frames | Frames a second | Memory, KiB |\n|---|---|---|---|")
    for name, least in (("of one length", words.length), ("of mixed lengths", 60)):
        with tempfile.TemporaryDirectory() as folder:
            # A record of a feed has nine bytes before its frame.
            size = words.frames * (9 + (least + words.length) // 2)
            recording = info.record(Path(folder), least, words.length, size)
            rounds = range(words.rounds)
            print(row(f"{name}, without facts", [read(recording, "-") for _ in rounds]), flush=True)
            Path(f"{recording}.json").write_text(json.dumps(FACTS))
            print(row(f"{name}, with facts", [read(recording, "-") for _ in rounds]), flush=True)
            print(row(f"{name}, by time", [read(recording, "by_time") for _ in rounds]), flush=True)
    print(f"\nLoad: {os.getloadavg()[0]:.1f} on {os.cpu_count()} processors")


if __name__ == "__main__":
    main()
