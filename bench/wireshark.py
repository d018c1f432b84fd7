#!/usr/bin/env python3
"""Times tshark on recordings, by the plugin, beside its own reading of the same frames as pcapng.

usage: bench/wireshark.py [--megabytes N] [--rounds N]

It makes recordings of frames of 64, 300 and 1,500 bytes, captures of them by bpfrec export, which it times too, and
reads each by tshark: as a list, by statistics of all rows (io,stat), and with a filter on a field. It prints a table
for RESULTS.md: frames a second of processor time, medians, and the most memory of tshark. It needs bin/bpfrec (make
build) and tshark; files go to TMPDIR: in memory (TMPDIR=/dev/shm) no disk is measured with it.
"""
import argparse
import os
import re
import statistics
import tempfile
from collections.abc import Iterator, Sequence
from pathlib import Path

from info import ROOT, record, timed

PLUGIN, EXPORT = ROOT / "bin/bpfrec.lua", ROOT / "dev/trials/lib/tools/export"
LENGTHS = {"64": 64, "300": 300, "1,500": 1_500}
READINGS: dict[str, tuple[list[str], list[str]]] = {
    "list": ([], []),
    "io,stat": (["-q", "-z", "io,stat,0"], ["-q", "-z", "io,stat,0"]),
    "filter": (["-Y", "ch11.number == 5"], ["-Y", "frame.number == 5"]),
}


def median(words: Sequence[object], env: dict[str, str], rounds: int) -> tuple[float, float]:
    """The processor time of a program, and its memory in KiB, as medians."""
    runs = [timed(words, env) for _ in range(rounds)]
    return statistics.median(it[1] for it in runs), statistics.median(it[2] for it in runs)


def rows_of(name: str, recording: Path, capture: Path, rounds: int, env: dict[str, str]) -> Iterator[str]:
    """The rows of a table, of recordings of one length of frames."""
    made = median([EXPORT, "--quiet", "--force", recording, capture], env, rounds)[0]
    frames = int(re.findall(r"[0-9]+", os.popen(f"{EXPORT} --force {recording} {capture}").read())[0])
    yield f"| {name} | bpfrec export | {frames / made:,.0f} | | |"
    for reading, (of_recording, of_capture) in READINGS.items():
        tshark = ["tshark", "-n"]
        ours, memory = median([*tshark, "-X", f"lua_script:{PLUGIN}", "-r", recording, *of_recording], env, rounds)
        theirs, least = median([*tshark, "-r", capture, *of_capture], env, rounds)
        told = f"{frames / ours:,.0f} | {frames / theirs:,.0f} | {memory:,.0f}, {least:,.0f}"
        yield f"| {name} | tshark, {reading} | {told} |"


def main() -> None:
    parser = argparse.ArgumentParser(description=__doc__, formatter_class=argparse.RawDescriptionHelpFormatter)
    parser.add_argument("--megabytes", type=int, default=60)
    parser.add_argument("--rounds", type=int, default=3)
    words = parser.parse_args()
    print(
        "| Bytes of a frame | Program | Frames a second, of the recording | of the capture | Memory, KiB |\n"
        "|---|---|---|---|---|"
    )
    for name, length in LENGTHS.items():
        with tempfile.TemporaryDirectory() as folder:
            work = Path(folder)
            recording = record(work, length, length, words.megabytes * 1_000_000)
            env = {**os.environ, "HOME": folder, "PYTHONDONTWRITEBYTECODE": "1"}
            for row in rows_of(name, recording, work / "capture.pcapng", words.rounds, env):
                print(row, flush=True)
    print(f"\nLoad: {os.getloadavg()[0]:.1f} on {os.cpu_count()} processors")


if __name__ == "__main__":
    main()
