#!/usr/bin/env python3
"""Times `bpfrec list`, `bpfrec audit` and `bpfrec extract` on a recording without data checksums, and on the same
one with a data checksum in each packet, beside `cat` of the same file.

BPFREC and BENCH are the programs that `dev/build/build.py` and `dev/build/build.py bench` leave in bin/. BENCH makes
a recording of MEGABYTES (100) of packets that are full of frames of LENGTH (1518) bytes, in a
temporary folder. Each command runs nine times, in turn with the others, with its output to a file there.
It prints, for each, the best time and the median in milliseconds, and the memory of a further run by
itself; and the time that the runs of the filter take by themselves, which the audit makes for each frame.
At the end it says how many times as long each command took with data checksums, by the best times, and whether
`list` and `audit` took less than 16 MB, and at best no longer than twice the
best `cat` and the runs of the filter together; the status is 1 if one of them didn't.
"""
import argparse
import os
import statistics
import struct
import subprocess
import sys
import tempfile
import time

ROUNDS = 9

# what `list` and `audit` may take: megabytes, and times as long as `cat` and the runs of the filter
MOST_MEMORY = 16
MOST_TIMES = 2

# the filter that BENCH puts into the recording
FILTER = "4,40 0 0 12,21 0 1 23130,6 0 0 4294967295,6 0 0 0,"


def run(words: list[str], output: str) -> float:
    """The seconds that a run takes."""
    with open(output, "wb") as out:
        begin = time.monotonic()
        status = subprocess.run(words, stdout=out).returncode
        spent = time.monotonic() - begin
    if status != 0:
        sys.exit(f"{' '.join(words)} ended with status {status}")
    return spent


def memory_of(words: list[str]) -> float:
    """The most memory of a run in megabytes. A child of this script would have the script's own."""
    timed = ["/usr/bin/time", "-f", "%M", *words]
    ran = subprocess.run(timed, stdout=subprocess.DEVNULL, stderr=subprocess.PIPE, text=True, check=True)
    return int(ran.stderr.split()[-1]) * 1024 / 1e6


def filter_runs(bench: str, work: str, length: int, count: int) -> float:
    """The milliseconds of so many runs of the filter on the view of a frame of this length."""
    view = length - 4
    with open(f"{work}/filter", "w") as listing:
        listing.write(FILTER)
    with open(f"{work}/views", "wb") as views:
        views.write(b"\x5a" * view * 32)
    words = [bench, "machine", "time", f"{work}/filter", f"{work}/views", str(view), str(count // 32)]
    lines = subprocess.run(words, check=True, capture_output=True, text=True).stdout.splitlines()
    return min(float(line.split()[2]) for line in lines if line.startswith("machine.frame")) * count / 1e6


def convert(path: str, out: str, with_sums: bool) -> None:
    """Writes the same recording with or without a data checksum of 32 bits in each packet."""
    with open(path, "rb") as recording, open(out, "wb") as converted:
        while header := bytearray(recording.read(24)):
            body = recording.read(int.from_bytes(header[4:8], "little") - 24)
            if header[14] & 3:
                body = body[:-4]
            total = sum(memoryview(body).cast("I")) % 2**32
            trailer = total.to_bytes(4, "little") if with_sums else b""
            header[4:8] = (24 + len(body) + len(trailer)).to_bytes(4, "little")
            header[14] = header[14] | 3 if with_sums else header[14] & ~3
            header[22:] = (sum(struct.unpack("<11H", header[:22])) % 2**16).to_bytes(2, "little")
            converted.write(header + body + trailer)


def commands_on(bpfrec: str, recording: str, checked: str, feed: str) -> dict[str, list[str]]:
    """What is timed, by its name."""
    return {
        "cat": ["cat", recording],
        "list": [bpfrec, "list", recording],
        "audit": [bpfrec, "audit", recording],
        "extract": [bpfrec, "extract", recording, "1", feed],
        "list, sums": [bpfrec, "list", checked],
        "audit, sums": [bpfrec, "audit", checked],
        "extract, sums": [bpfrec, "extract", checked, "1", feed],
    }


def times_of(commands: dict[str, list[str]], work: str) -> dict[str, list[float]]:
    """The milliseconds of each command, in turn with the others."""
    runs: dict[str, list[float]] = {name: [] for name in commands}
    for _ in range(ROUNDS):
        for name, words in commands.items():
            runs[name].append(run(words, f"{work}/{name}.out") * 1000)
    return runs


def print_times(runs: dict[str, list[float]], memory: dict[str, float]) -> None:
    for name, times in runs.items():
        best, median = min(times), statistics.median(times)
        print(f"{name:14} best {best:7.1f} ms  median {median:7.1f} ms  memory {memory[name]:6.1f} MB")
    for name in ("list", "audit", "extract"):
        print(f"{name:14} {min(runs[f'{name}, sums']) / min(runs[name]):.2f} times as long with data checksums")


def is_within(runs: dict[str, list[float]], memory: dict[str, float], alone: float) -> bool:
    """Whether `list` and `audit` take no more than they may, which is printed."""
    within = True
    for name in ("list", "audit"):
        times = min(runs[name]) / (min(runs["cat"]) + alone)
        well = memory[name] < MOST_MEMORY and times <= MOST_TIMES
        within = within and well
        verdict = "as it should" if well else "TOO MUCH"
        print(f"{name:14} {times:.2f} times cat and the filter, {memory[name]:.1f} MB: {verdict}")
    return within


def main() -> int:
    parser = argparse.ArgumentParser(description=__doc__, formatter_class=argparse.RawDescriptionHelpFormatter)
    parser.add_argument("bpfrec")
    parser.add_argument("bench")
    parser.add_argument("length", nargs="?", default="1518", help="bytes of a frame (default 1518)")
    parser.add_argument("megabytes", nargs="?", default="100", help="of the recording (default 100)")
    words = parser.parse_args()
    bpfrec, bench = (os.path.abspath(it) for it in (words.bpfrec, words.bench))
    with tempfile.TemporaryDirectory() as work:
        made, recording, checked = (f"{work}/{it}.ch11" for it in ("made", "recording", "checked"))
        subprocess.run([bench, "recording", made, words.length, words.megabytes], check=True)
        convert(made, recording, False)
        convert(made, checked, True)
        os.remove(made)
        print(f"a recording of {os.path.getsize(recording):,} bytes, frames of {words.length}")
        commands = commands_on(bpfrec, recording, checked, f"{work}/feed")
        runs = times_of(commands, work)
        memory = {name: memory_of(it) for name, it in commands.items()}
        print_times(runs, memory)
        count = int(open(f"{work}/audit.out").read().split()[5])
        alone = filter_runs(bench, work, int(words.length), count)
        print(f"filter         {count:,} runs by themselves {alone:7.1f} ms")
        return 0 if is_within(runs, memory, alone) else 1


if __name__ == "__main__":
    sys.exit(main())
