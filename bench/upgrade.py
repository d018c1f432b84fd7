#!/usr/bin/env python3
"""Times `bpfrec upgrade` of a recording without data checksums beside `cp` of the same file.

BPFREC is the program that `make build` leaves in bin/. The recording has MEGABYTES (1,024) of packets of 64,288
bytes that are full of frames of 1,518 bytes, in a temporary folder (TMPDIR). `cp --reflink=never`, since a
shared copy reads and writes nothing, with `sync` of the copy, since `upgrade` forces its file to the disk, and
`upgrade` run ROUNDS times each, in turn, and what they wrote is removed in between. It prints the median of each
with the least and the greatest time, how many times as long `upgrade` takes by the medians, and the most memory
that it takes, beside that of one packet alone. The status is 1 if it takes over 1.6 times as long, or over a
megabyte more than for one packet.
"""
import argparse
import os
import statistics
import subprocess
import sys
import tempfile
import time
from pathlib import Path

sys.path.insert(0, str(Path(__file__).resolve().parent.parent / "dev/trials/lib"))
from frames import frames_packet

ROUNDS = 5

# what `upgrade` may take: times as long as `cp`, and megabytes more than for one packet
MOST_TIMES = 1.6
MOST_MORE = 1

# the frames of a packet, and their length
FRAMES, LENGTH = 42, 1_518


def packet() -> bytes:
    """A packet of frames without a data checksum."""
    frame = bytes(at % 251 for at in range(LENGTH))
    return frames_packet([(0, 0, frame)] * FRAMES, 0, 0, False)


def seconds_of(words: list[str], out: str) -> float:
    """The seconds that a run takes that writes this file, which is removed then."""
    begin = time.monotonic()
    ran = subprocess.run(words, capture_output=True)
    spent = time.monotonic() - begin
    if ran.returncode != 0:
        sys.exit(f"{' '.join(words)} ended with status {ran.returncode}")
    os.remove(out)
    return spent


def memory_of(words: list[str]) -> float:
    """The most memory of a run in megabytes. A child of this script would have the script's own."""
    ran = subprocess.run(
        ["/usr/bin/time", "-f", "%M", *words], stdout=subprocess.DEVNULL, stderr=subprocess.PIPE, text=True, check=True
    )
    return int(ran.stderr.split()[-1]) * 1024 / 1e6


def write_packets(path: str, content: bytes, count: int) -> None:
    """Writes a recording of so many packets."""
    with open(path, "wb") as recording:
        for _ in range(count):
            recording.write(content)


def times_of(runs: dict[str, list[str]], out: str) -> dict[str, list[float]]:
    """The seconds that each of some runs takes that write a file, in turn."""
    times: dict[str, list[float]] = {name: [] for name in runs}
    for _ in range(ROUNDS):
        for name, command in runs.items():
            times[name].append(seconds_of(command, out))
    return times


def show(times: dict[str, list[float]], megabytes: int, count: int, content: bytes) -> None:
    """Prints what was measured, of so many packets."""
    print(f"{megabytes} MiB, {count} packets of {len(content)} bytes")
    for name, spent in times.items():
        print(f"{name:8} {statistics.median(spent):.2f} s ({min(spent):.2f} to {max(spent):.2f})")


def copying(whole: str, out: str) -> list[str]:
    """The copy of a file that is forced to its disk."""
    return ["sh", "-c", 'cp --reflink=never "$0" "$1" && sync "$1"', whole, out]


def main() -> int:
    parser = argparse.ArgumentParser(description=__doc__, formatter_class=argparse.RawDescriptionHelpFormatter)
    parser.add_argument("bpfrec", metavar="BPFREC")
    parser.add_argument("megabytes", nargs="?", type=int, default=1024, metavar="MEGABYTES", help="1024 (default)")
    words = parser.parse_args()
    bpfrec, megabytes = os.path.abspath(words.bpfrec), words.megabytes
    with tempfile.TemporaryDirectory() as work:
        one, old, out = (f"{work}/{it}" for it in ("one.ch11", "old.ch11", "out"))
        content = packet()
        count = megabytes * 2**20 // len(content)
        write_packets(one, content, 1)
        write_packets(old, content, count)
        times = times_of({"cp": copying(old, out), "upgrade": [bpfrec, "upgrade", old, out]}, out)
        memory = [memory_of([bpfrec, "upgrade", it, out]) for it in (one, old)]
    show(times, megabytes, count, content)
    longer = statistics.median(times["upgrade"]) / statistics.median(times["cp"])
    print(f"upgrade takes {longer:.2f} times as long as cp, and {memory[1]:.1f} MB, for one packet {memory[0]:.1f} MB")
    return 0 if longer <= MOST_TIMES and memory[1] - memory[0] <= MOST_MORE else 1


if __name__ == "__main__":
    sys.exit(main())
