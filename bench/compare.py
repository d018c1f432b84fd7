#!/usr/bin/env python3
"""Times bpfrec's filter machine beside libpcap's bpf_filter, on the same programs and frames.

Makes programs and frames from a fixed seed in the folder WORK, and takes the ready filters of
examples/filters by BPFREC and those of filters.txt. Checks that a prepared program and libpcap give
the same value on every frame, times prepared program, plain program and libpcap ROUNDS times in
turn, and prints a table of the medians: the nanoseconds of a frame of each, and how many times as
long as libpcap the first two took. The status is 1 where a value differs.
"""
import argparse
import random
import statistics
import subprocess
import sys
from pathlib import Path

SEED = 20
ARP = ["40 0 0 12", "21 0 1 2054", "6 0 0 262144", "6 0 0 0"]
# port 53 over IPv4 and IPv6, as tcpdump -ddd prints it
PORT = """40 0 0 12
21 0 8 34525
48 0 0 20
21 2 0 132
21 1 0 6
21 0 17 17
40 0 0 54
21 14 0 53
40 0 0 56
21 12 13 53
21 0 12 2048
48 0 0 23
21 2 0 132
21 1 0 6
21 0 8 17
40 0 0 20
69 6 0 8191
177 0 0 14
72 0 0 14
21 2 0 53
72 0 0 16
21 0 1 53
6 0 0 262144
6 0 0 0""".split(
    "\n"
)
STRAIGHT = """40 0 0 12,32 0 0 26,48 0 0 23,21 0 0 2048,37 0 0 9,53 0 0 4,69 0 0 1,4 0 0 7,20 0 0 3
84 0 0 65535,68 0 0 16,164 0 0 255,36 0 0 3,100 0 0 2,116 0 0 1,7 0 0 0,12 0 0 0,135 0 0 0
80 0 0 14""".replace(
    "\n", ","
).split(
    ","
)
SCRATCH = ["2 0 0 {}", "3 0 0 {}", "96 0 0 {}", "97 0 0 {}"]
BESIDE_SCRATCH = ["40 0 0 12", "4 0 0 7", "84 0 0 65535", "21 0 0 2048"]
TO_X = "7 0 0 0"
LENGTHS = (64, 300, 1500)
CACHED_FRAMES, LIST_BYTES = 32, 96_000_000
NANOS_OF_A_ROUND = 0.05e9
COLUMNS = (
    "Program,Instructions,Frame,Frames,Steps a frame,Prepared ns,Plain ns,libpcap ns,"
    "Prepared / libpcap,Plain / libpcap"
).split(",")
BENCH = Path(__file__).resolve().parent
# the frames on which the filters of examples/ and of filters.txt are timed
FILTERED_LENGTH = 300
MOST_INSNS = 4096
# what both programs take: a listing, frames, and the length of a frame
Words = tuple[Path, Path, int]


def straight_line(length: int) -> list[str]:
    """Loads, arithmetic and tests; X stays below 16, so that an indexed load finds its byte."""
    line: list[str] = []
    while len(line) < length - 1:
        insn = random.choice(STRAIGHT)
        if insn != TO_X:
            line.append(insn)
        elif len(line) < length - 2:
            line += ["84 0 0 15", insn]
    return line + ["22 0 0 0"]


def scratch_line(length: int) -> list[str]:
    """Every other instruction is a store to or a load from the first four scratch words."""
    line = [f"2 0 0 {word}" for word in range(4)]
    while len(line) < length - 1:
        if len(line) % 2:
            line.append(random.choice(SCRATCH).format(random.randrange(4)))
        else:
            line.append(random.choice(BESIDE_SCRATCH))
    return line + ["22 0 0 0"]


def programs() -> dict[str, list[str]]:
    return {
        "accept all": ["6 0 0 262144"],
        "ARP": ARP,
        "port 53": PORT,
        "line of 25": straight_line(25),
        "line of 100": straight_line(100),
        "line of 400": straight_line(400),
        "scratch words, 100": scratch_line(100),
    }


def frame(length: int) -> bytes:
    """A frame of one of the kinds that the programs ask for, its other bytes by chance."""
    bytes_ = bytearray(random.randbytes(length))
    kind = random.randrange(4)
    bytes_[12:14] = [(8, 6), (8, 0), (8, 0), (0x86, 0xDD)][kind]
    if kind in (1, 2):
        bytes_[14], bytes_[23] = 0x45, random.choice((6, 17, 1))
        bytes_[20:22] = (0, 0)
        bytes_[34:38] = random.choice(((0, 53, 200, 1), (200, 1, 0, 53), (200, 1, 0, 80)))
    return bytes(bytes_)


def make_frames(path: Path, length: int, count: int) -> None:
    kinds = [frame(length) for _ in range(min(count, 4096))]
    path.write_bytes(b"".join(kinds[i % len(kinds)] for i in range(count)))


def output_of(*words: object) -> str:
    done = subprocess.run([str(it) for it in words], capture_output=True, text=True, check=True)
    return done.stdout


def measured(*words: object) -> dict[str, tuple[float, str]]:
    """The nanoseconds and the sum of each line of a bench's output, by the line's name."""
    rows = [line.split() for line in output_of(*words).splitlines()]
    return {name.split(".")[1]: (float(nanos), total) for name, _, nanos, total in rows}


def ready_filters(bpfrec: str) -> dict[str, list[str]]:
    """The listed instructions of each filter of examples/filters, and of filters.txt."""
    filters: dict[str, list[str]] = {}
    for path in sorted((BENCH.parent / "examples" / "filters").glob("*.bpf")):
        # a listing's count, and its instructions with a comma after each
        filters[path.name] = output_of(bpfrec, "asm", path).strip().strip(",").split(",")[1:]
    expression = ""
    for line in (BENCH / "filters.txt").read_text().splitlines():
        if line.startswith("# "):
            expression = line[2:]
        else:
            filters.setdefault(expression, []).append(line)
    return filters


def medians(ours: list[str], theirs: list[str], words: Words, count: int, rounds: int) -> tuple[list[float], str]:
    """The medians of a frame's nanoseconds, prepared, plain and libpcap's, of the two ratios, and
    the steps, over rounds in turn."""
    turns = 1
    while turns < 1 << 24:
        if measured(*ours, "time", *words, turns)["frame"][0] * count * turns >= NANOS_OF_A_ROUND:
            break
        turns *= 2
    rows, steps = [], ""
    for _ in range(rounds):
        our = measured(*ours, "time", *words, turns)
        their = measured(*theirs, "time", *words, turns)
        steps = our["step"][1]
        sums = {our["frame"][1], our["run"][1], their["frame"][1]}
        if len(sums) > 1:
            sys.exit(f"the sums differ: {words}: {sums}")
        prepared, plain, libpcap = our["frame"][0], our["run"][0], their["frame"][0]
        rows.append((prepared, plain, libpcap, prepared / libpcap, plain / libpcap))
    return [statistics.median(column) for column in zip(*rows)], steps


def write_listing(work: Path, name: str, lines: list[str]) -> Path:
    """A file with these instructions as a listing."""
    kept = "".join(it if it.isalnum() else "_" for it in name)
    path = work / f"{kept}.txt"
    path.write_text(",".join([str(len(lines)), *lines]) + ",\n")
    return path


def compare_one(
    ours: list[str], theirs: list[str], name: str, insns: int, words: Words, where: str, count: int, rounds: int
) -> float:
    """Prints a program's row; where the frames are in cache, each value is compared before."""
    if count == CACHED_FRAMES:
        our_values = output_of(*ours, "values", *words)
        if our_values != output_of(*theirs, "values", *words):
            sys.exit(f"the values differ: {name} on frames of {words[2]} bytes")
    times, steps = medians(ours, theirs, words, count, rounds)
    row = [name.replace("|", "\\|"), insns, words[2], where, steps]
    row += [f"{it:.1f}" for it in times[:3]] + [f"{it:.2f}" for it in times[3:]]
    print("|", " | ".join(map(str, row)), "|", flush=True)
    return times[3]


def compare(ours: list[str], theirs: list[str], work: Path, rounds: int) -> None:
    """A row for each made program, length of a frame and set of frames."""
    listings = {it: (write_listing(work, it, lines), len(lines)) for it, lines in programs().items()}
    for length in LENGTHS:
        for where, count in (("in cache", CACHED_FRAMES), ("from memory", LIST_BYTES // length)):
            frames = work / f"frames_{length}_{where.replace(' ', '_')}"
            make_frames(frames, length, count)
            for name, (listing, insns) in listings.items():
                words = (listing, frames, length)
                compare_one(ours, theirs, name, insns, words, where, count, rounds)
            frames.unlink()


def compare_filters(ours: list[str], theirs: list[str], work: Path, rounds: int, bpfrec: str) -> None:
    """A row for each ready filter, and the median of their ratios; then a longest program's time."""
    frames = work / "frames_of_filters"
    make_frames(frames, FILTERED_LENGTH, CACHED_FRAMES)
    ratios = []
    for name, lines in ready_filters(bpfrec).items():
        words = (write_listing(work, name, lines), frames, FILTERED_LENGTH)
        args = (words, "in cache", CACHED_FRAMES, rounds)
        ratios.append(compare_one(ours, theirs, name, len(lines), *args))
    print(f"\nfilters: the median of prepared / libpcap is {statistics.median(ratios):.2f}, ", end="")
    print(f"the greatest {max(ratios):.2f}")
    longest = write_listing(work, "longest", straight_line(MOST_INSNS))
    timed = [measured(*ours, "time", longest, frames, FILTERED_LENGTH, 1) for _ in range(rounds)]
    prepare = statistics.median(it["prepare"][0] for it in timed)
    print(f"a program of {MOST_INSNS} instructions is prepared in {prepare / 1000:.1f} us")


def main() -> None:
    shape = argparse.RawDescriptionHelpFormatter
    parser = argparse.ArgumentParser(description=__doc__, formatter_class=shape)
    parser.add_argument("bench", metavar="BENCH", help="the program of crates/bench")
    parser.add_argument("pcap", metavar="PCAP_FILTER", help="what bench/pcap_filter.c makes")
    parser.add_argument("work", metavar="WORK", type=Path, help="a folder for what is made")
    parser.add_argument("bpfrec", metavar="BPFREC", help="the program")
    parser.add_argument("rounds", metavar="ROUNDS", type=int, nargs="?", default=12)
    words = parser.parse_args()
    words.work.mkdir(parents=True, exist_ok=True)
    random.seed(SEED)
    print("|", " | ".join(COLUMNS), "|")
    print("|" + "---|" * len(COLUMNS))
    machines = ([words.bench, "machine"], [words.pcap])
    compare(*machines, words.work, words.rounds)
    compare_filters(*machines, words.work, words.rounds, words.bpfrec)


main()
