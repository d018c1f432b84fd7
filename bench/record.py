#!/usr/bin/env python3
"""Times `bpfrec record` beside plain C on libpcap, tcpdump and `cat`, on the same frames.

usage: bench/record.py [--frames N] [--rounds N] [--part NAME] [--length NAME] [--before OTHER]
                       [BPFREC [RECORD_FEED]]

BPFREC is bin/bpfrec (`make build`), RECORD_FEED is bin/record_feed (`make bench` compiles it from
bench/record_feed.c). Feeds of N (1,000,000) frames, of 64, 300 and 1,500 bytes and of a mix, are made from a
fixed seed in a temporary folder, with true check sequences; every 32nd frame is of UDP port 53. Each command
runs ROUNDS (7) times, in turn with the others. It prints tables in Markdown: nanoseconds a frame (the
median, and the least and greatest), frames and megabytes a second, processor time, peak memory, and ratios of
medians. It checks that `extract` of the recording is what the C program kept, byte for byte, and says where a
peer can't be had. The parts are `peers` (one channel), `channels` (four of a quarter each), `growth` (the
time a frame and the memory at more frames, versions and channels) and `reading` (list, audit and extract).
--length takes one of the feeds alone. With --before only BPFREC and OTHER, another build of the program, are
timed in turn: one channel and four.
"""
import argparse
import random
import shutil
import statistics
import struct
import subprocess
import sys
import tempfile
import time
from collections.abc import Iterable, Iterator, Sequence
from dataclasses import dataclass
from pathlib import Path
from typing import IO

ROOT = Path(__file__).resolve().parent.parent
sys.path.insert(0, str(ROOT / "dev/trials/lib"))
from frames import with_check_sequence, write_feed

LENGTHS = {"64": [64], "300": [300], "1500": [1500], "mix": [64, 64, 64, 300, 300, 600, 1500]}
POOL = 4_096
PORT = 53
HOSTS = 31  # a list of so many hosts is a filter of about a hundred instructions
# What is timed, by its name.
Commands = dict[str, list[object]]

# ---- frames


def ethernet_frame(draw: random.Random, length: int, port: int) -> bytes:
    """A UDP datagram in a frame of this many bytes, its check sequence included."""
    udp = struct.pack(">HHHH", 40_000, port, length - 38, 0)
    ip = struct.pack(
        ">BBHHHBBH4s4s",
        0x45,
        0,
        length - 18,
        0,
        0,
        64,
        17,
        0,
        bytes([10, 0, 0, draw.randrange(1, 255)]),
        bytes([10, 0, 1, draw.randrange(1, 255)]),
    )
    view = bytes([2, 0, 0, 0, 0, 1, 2, 0, 0, 0, 0, 2, 8, 0]) + ip + udp + draw.randbytes(length - 46)
    return with_check_sequence(view)


def frames_of(lengths: list[int], count: int) -> Iterator[tuple[int, bytes]]:
    """Frames with counters 0, 10, 20, ..: a pool of different ones, over and over."""
    draw = random.Random(2)
    pool = [ethernet_frame(draw, draw.choice(lengths), PORT if at % 32 == 0 else 1_024 + at) for at in range(POOL)]
    return ((10 * at, pool[at % POOL]) for at in range(count))


def write_capture(path: Path, frames: Iterable[tuple[int, bytes]]) -> None:
    """The same frames as a capture, without their check sequences."""
    with open(path, "wb", buffering=1 << 20) as capture:
        capture.write(struct.pack("<IHHiIII", 0xA1B2C3D4, 2, 4, 0, 0, 65_535, 1))
        for counter, frame in frames:
            view = frame[:-4]
            capture.write(struct.pack("<IIII", counter // 1_000_000, counter % 1_000_000, len(view), len(view)) + view)


# ---- filters


def expressions() -> dict[str, str]:
    hosts = " or ".join(f"host 10.0.0.{at}" for at in range(1, HOSTS + 1))
    return {"all": "", "port": f"udp port {PORT}", "hosts": f"ip and ({hosts})"}


def write_filters(work: Path, tcpdump: str | None) -> None:
    """Each expression's program, as tcpdump lists it; without tcpdump, programs of the same kind and length."""
    for name, expression in expressions().items():
        listing = "1,6 0 0 4294967295,"
        if expression and tcpdump:
            words = [tcpdump, "-ddd", "-y", "EN10MB", expression]
            listing = subprocess.run(words, check=True, capture_output=True, text=True).stdout
        elif expression == expressions()["port"]:
            listing = "4,40 0 0 36,21 0 1 53,6 0 0 4294967295,6 0 0 0,"
        elif expression:
            tests = "".join(f"21 {100 - at} 0 {0x0A000001 + at}," for at in range(100))
            listing = f"103,32 0 0 26,{tests}6 0 0 0,6 0 0 4294967295,"
        (work / name).write_text(listing)


# ---- runs


@dataclass
class Runs:
    """What the runs of one command took: seconds by the clock, seconds of processors, and the most memory."""

    seconds: list[float]
    processors: list[float]
    kilobytes: int


def run_once(words: Sequence[object], output: Path, stdin: IO | int = subprocess.DEVNULL) -> tuple[float, float, int]:
    """The seconds by the clock and of processors, and the peak memory in kilobytes, of a run; what it
    prints on standard error is not kept."""
    with open(output, "wb") as out, tempfile.NamedTemporaryFile("r") as told:
        begin = time.monotonic()
        timed = ["/usr/bin/time", "-f", "%U %S %M", "-o", told.name, *map(str, words)]
        status = subprocess.run(timed, stdin=stdin, stdout=out, stderr=subprocess.DEVNULL).returncode
        spent = time.monotonic() - begin
        user, system, kilobytes = told.read().split()[-3:]
    if status != 0:
        sys.exit(f"{' '.join(map(str, words))} ended with status {status}")
    return spent, float(user) + float(system), int(kilobytes)


def run_in_turn(commands: Commands, rounds: int, work: Path) -> dict[str, Runs]:
    """Each command as often as there are rounds, in turn with the others."""
    done = {name: Runs([], [], 0) for name in commands}
    for _ in range(rounds):
        for name, words in commands.items():
            seconds, processors, kilobytes = run_once(words, work / "printed")
            done[name].seconds.append(seconds)
            done[name].processors.append(processors)
            done[name].kilobytes = max(done[name].kilobytes, kilobytes)
    return done


def print_runs(title: str, done: dict[str, Runs], frames: int, size: int, beside: str) -> None:
    """A table of the runs, with the ratio of the first command's median to each other one's."""
    print(
        f"\n{title}\n\n| Command | ns a frame | Least, greatest | Million frames a second | MB/s "
        f"| Processor, ns a frame | Memory, KiB | {beside} beside it |\n|---|---|---|---|---|---|---|---|"
    )
    own = statistics.median(done[beside].seconds)
    for name, runs in done.items():
        median = statistics.median(runs.seconds)
        least, most = (1e9 * it / frames for it in (min(runs.seconds), max(runs.seconds)))
        print(
            f"| {name} | {1e9 * median / frames:.0f} | {least:.0f}, {most:.0f} | {frames / median / 1e6:.2f} "
            f"| {size / median / 1e6:.0f} | {1e9 * statistics.median(runs.processors) / frames:.0f} "
            f"| {runs.kilobytes:,} | {own / median:.2f} |",
            flush=True,
        )


def write_settings(path: Path, feeds: list[Path], filters: list[Path], limit: int = 65_536) -> Path:
    tables = [
        f'[[channel]]\nid = {id}\nfeed = "{feed}"\nfilter = "{filter}"\n'
        for id, (feed, filter) in enumerate(zip(feeds, filters), 1)
    ]
    path.write_text(f"limit = {limit}\n" + "".join(tables))
    return path


# ---- parts


def time_peers(words: argparse.Namespace, work: Path, lengths_name: str, tcpdump: str | None) -> None:
    """One channel: the recorder, the C program with and without sharing, tcpdump, and cat."""
    feed, capture = work / "feed", work / "capture"
    write_feed(feed, frames_of(LENGTHS[lengths_name], words.frames))
    if tcpdump:
        write_capture(capture, frames_of(LENGTHS[lengths_name], words.frames))
    for name, expression in expressions().items():
        settings = write_settings(work / "settings", [feed], [work / name])
        commands: Commands = {
            "record": [words.bpfrec, "record", settings, work / "recording"],
            "C": [words.record_feed, work / name, feed, work / "kept"],
            "C, shared": [words.record_feed, work / name, feed, work / "kept", "shared"],
            "cat": ["cp", feed, work / "copied"],
        }
        if tcpdump:
            commands["tcpdump"] = [tcpdump, "-r", capture, "-w", work / "captured", *expression.split()]
        done = run_in_turn(commands, words.rounds, work)
        extracted = [words.bpfrec, "extract", work / "recording", "1", work / "extracted"]
        subprocess.run(extracted, check=True, capture_output=True)
        if (work / "extracted").read_bytes() != (work / "kept").read_bytes():
            sys.exit("the recording holds other frames than the C program kept")
        kept = (work / "kept").stat().st_size / feed.stat().st_size
        title = f"Frames of {lengths_name} bytes, filter `{name}`, {100 * kept:.0f} % of the bytes kept"
        print_runs(title, done, words.frames, feed.stat().st_size, "record")


def time_channels(words: argparse.Namespace, work: Path, lengths_name: str) -> None:
    """Four channels of a quarter of the frames each, beside one of all."""
    quarter = words.frames // 4
    write_feed(work / "feed", frames_of(LENGTHS[lengths_name], 4 * quarter))
    write_feed(work / "quarter", frames_of(LENGTHS[lengths_name], quarter))
    for name in expressions():
        one = write_settings(work / "one", [work / "feed"], [work / name])
        four = write_settings(work / "four", [work / "quarter"] * 4, [work / name] * 4)
        commands: Commands = {
            "four channels": [words.bpfrec, "record", four, work / "recording"],
            "one channel": [words.bpfrec, "record", one, work / "recording"],
            "C": [words.record_feed, work / name, work / "feed", work / "kept"],
        }
        done = run_in_turn(commands, words.rounds, work)
        title = f"Four channels, frames of {lengths_name} bytes, filter `{name}`"
        print_runs(title, done, 4 * quarter, (work / "feed").stat().st_size, "four channels")


def time_before(words: argparse.Namespace, work: Path, lengths_name: str) -> None:
    """This build of the program and another one, in turn: one channel, and four of a quarter each."""
    quarter = words.frames // 4
    write_feed(work / "feed", frames_of(LENGTHS[lengths_name], 4 * quarter))
    write_feed(work / "quarter", frames_of(LENGTHS[lengths_name], quarter))
    for name in ("all", "port"):
        one = write_settings(work / "one", [work / "feed"], [work / name])
        four = write_settings(work / "four", [work / "quarter"] * 4, [work / name] * 4)
        for channels, settings in (("One channel", one), ("Four channels", four)):
            commands: Commands = {
                "record": [words.bpfrec, "record", settings, work / "recording"],
                "before": [words.before, "record", settings, work / "recording"],
            }
            done = run_in_turn(commands, words.rounds, work)
            title = f"{channels}, frames of {lengths_name} bytes, filter `{name}`"
            print_runs(title, done, 4 * quarter, (work / "feed").stat().st_size, "record")


def time_growth(words: argparse.Namespace, work: Path) -> None:
    """The time a frame and the memory: at more frames, more versions and more channels."""
    print("\n| Frames | Versions | Channels | ns a frame | Least, greatest | Memory, KiB |\n|---|---|---|---|---|---|")
    changes = work / "changes"
    for frames, versions, channels in [
        (10_000, 1, 1),
        (100_000, 1, 1),
        (1_000_000, 1, 1),
        (10_000_000, 1, 1),
        (1_000_000, 1_000, 1),
        (1_000_000, 1, 64),
    ]:
        write_feed(work / "feed", frames_of(LENGTHS["300"], frames // channels))
        settings = write_settings(work / "settings", [work / "feed"] * channels, [work / "all"] * channels)
        changes.write_text(f"set 1 {work / 'all'}\n" * (versions - 1))
        taken = []
        for _ in range(words.rounds):
            with open(changes) as stdin:
                taken.append(run_once([words.bpfrec, "record", settings, work / "recording"], work / "printed", stdin))
        times = [1e9 * seconds / frames for seconds, _, _ in taken]
        print(
            f"| {frames:,} | {versions:,} | {channels} | {statistics.median(times):.0f} "
            f"| {min(times):.0f}, {max(times):.0f} | {max(it[2] for it in taken):,} |",
            flush=True,
        )


def time_reading(words: argparse.Namespace, work: Path, lengths_name: str) -> None:
    """What reads the recording of one channel, beside cat of it."""
    write_feed(work / "feed", frames_of(LENGTHS[lengths_name], words.frames))
    settings = write_settings(work / "settings", [work / "feed"], [work / "all"])
    recording = work / "recording"
    run_once([words.bpfrec, "record", settings, recording], work / "printed")
    commands: Commands = {
        "cat": ["cp", recording, work / "copied"],
        "list": [words.bpfrec, "list", recording],
        "audit": [words.bpfrec, "audit", recording],
        "extract": [words.bpfrec, "extract", recording, "1", work / "extracted"],
    }
    done = run_in_turn(commands, words.rounds, work)
    print_runs(f"Reading frames of {lengths_name} bytes", done, words.frames, recording.stat().st_size, "cat")


def main() -> None:
    parser = argparse.ArgumentParser(description=__doc__, formatter_class=argparse.RawDescriptionHelpFormatter)
    parser.add_argument("--frames", type=int, default=1_000_000)
    parser.add_argument("--rounds", type=int, default=7)
    parser.add_argument("--part", choices=["peers", "channels", "growth", "reading"])
    parser.add_argument("--length", choices=LENGTHS)
    parser.add_argument("--before", type=Path, metavar="OTHER")
    parser.add_argument("bpfrec", nargs="?", type=Path, default=ROOT / "bin/bpfrec")
    parser.add_argument("record_feed", nargs="?", type=Path, default=ROOT / "bin/record_feed")
    words = parser.parse_args()
    words.bpfrec, words.record_feed = words.bpfrec.resolve(), words.record_feed.resolve()
    tcpdump = shutil.which("tcpdump")
    if tcpdump is None:
        print("tcpdump can't be had here: it is left out, and filters of the same kind stand for its own")
    with tempfile.TemporaryDirectory() as folder:
        work = Path(folder)
        write_filters(work, tcpdump)
        for lengths_name in [words.length] if words.length else LENGTHS:
            if words.before:
                time_before(words, work, lengths_name)
                continue
            if words.part in (None, "peers"):
                time_peers(words, work, lengths_name, tcpdump)
            if words.part in (None, "channels"):
                time_channels(words, work, lengths_name)
            if words.part in (None, "reading"):
                time_reading(words, work, lengths_name)
        if words.part in (None, "growth") and not words.before:
            time_growth(words, work)


if __name__ == "__main__":
    main()
