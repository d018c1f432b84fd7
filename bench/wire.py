#!/usr/bin/env python3
"""Times recordings from an interface beside dumpcap and tcpdump, and feeds that are made of a capture file.

usage: bench/wire.py [--frames N] [--rate N] [--most N] [--part wire|files|syncs|spans|follow|publish] [--before CHECKOUT]

It makes a network namespace with a pair of virtual interfaces, sends frames of 64, 300 and 1,500 bytes into
one of them as fast as bin/send_frames can, and records what the other receives: by bpfrec live, with a filter
that keeps all and one that keeps a 32nd, which the kernel runs too with --prefilter; and by `dumpcap -w` and
`tcpdump -w`, which take all or have the kernel drop what the same filter drops. Each has 256 MiB of the kernel's
buffer. Then it makes a feed of a capture of as many frames by `capture -r`.

With --part syncs it records by bpfrec live alone, forced to the disk each second (the default), and only at the end
(`--sync 0`, told as before), in turn: what the syncs cost. With --part spans the same of spans.
With --part follow it records by bpfrec live alone (told as before) and with bpfrec follow beside it, in turn: what
the live view costs the recorder. `--rate` has frames sent at that rate. With --part publish it does so with --publish.

Each recording of a round is compared with that of the same round by tcpdump, or by the other way. Rounds go on until
the medians of the ratios of both halves of the rounds differ by 3 % at most; where they never do it says that the
machine is too noisy. A ratio is printed with the quarters of its pairs.

It prints tables for RESULTS.md, with the machine's load. It needs root, bin/bpfrec and bin/capture (make
build), bin/send_frames (make bin/send_frames), and Debian's iproute2, tcpdump and wireshark-common. Files go
to TMPDIR: in memory (TMPDIR=/dev/shm) no disk is measured with it.
"""
import argparse
import os
import re
import shutil
import signal
import statistics
import struct
import subprocess
import sys
import tempfile
import time
from collections.abc import Callable
from functools import partial
from pathlib import Path
from typing import NamedTuple

ROOT = Path(__file__).resolve().parent.parent
sys.path.insert(0, str(ROOT / "dev/trials/lib"))
import namespace
from frames import HEAD

LIVE, FOLLOW = (ROOT / "dev/trials/lib/tools" / it for it in ("live", "follow"))
CAPTURE, SENDER = ROOT / "bin/capture", ROOT / "bin/send_frames"
WANTED = {"ip": "iproute2", "tcpdump": "tcpdump", "dumpcap": "wireshark-common"}
INSIDE = "BPFREC_WIRE_INSIDE"
LENGTHS = (64, 300, 1_500)
FILTERS = {"all": "1,6 0 0 4294967295,", "port": "4,40 0 0 36,21 0 1 53,6 0 0 4294967295,6 0 0 0,"}
EXPRESSIONS: dict[str, list[str]] = {"all": [], "port": ["udp[2:2] = 53"]}
KEPT_SHARE = {"all": "all", "port": "3 %"}
# What bin/capture takes by itself.
BUFFER_MIB = 256
PATIENCE = 120
# By how much the medians of both halves of the rounds may differ.
SETTLED = 0.03


class Recorder(NamedTuple):
    """What records: its words, what it says once it is ready, and what runs beside it from then on."""

    words: list[object]
    ready: str
    beside: list[object] = []


# By the name of the program and of the filter.
Key = tuple[str, str]
Commands = dict[Key, Recorder]
# Seconds of the sender, seconds until all was recorded, of processors, frames kept and dropped.
Taken = tuple[float, float, float, int, int]

# ---- the namespace


def run(*words: object) -> str:
    return subprocess.run([str(it) for it in words], check=True, capture_output=True, text=True).stdout


def make_pairs(count: int = 1) -> None:
    run("ip", "link", "set", "lo", "up")
    for at in range(count):
        namespace.make_pair(at)
    time.sleep(0.5)


# ---- recordings


def commands(work: Path, buffer: int, before: Path | None) -> Commands:
    """What records; with another checkout its bpfrec live and ours, in turn, and no other program."""
    made: Commands = {}
    for name in FILTERS:
        (work / name).write_text(FILTERS[name])
        (work / f"{name}.toml").write_text(f'[[channel]]\nid = 1\nfilter = "{work / name}"\n')
        expression = EXPRESSIONS[name]
        live = [LIVE, "--quiet", "--buffer", buffer, work / f"{name}.toml", work / "out", "rx0=1"]
        dumpcap = [
            "dumpcap",
            "-q",
            "-i",
            "rx0",
            "-B",
            buffer,
            *(["-f", *expression] if expression else []),
            "-w",
            work / "out",
        ]
        tcpdump = ["tcpdump", "-Z", "root", "-n", "-i", "rx0", "-B", buffer * 1024, "-w", work / "out", *expression]
        for program, tree in {"bpfrec live, before": before, "bpfrec live": ROOT}.items():
            if tree and not (before and expression):
                made[program, name] = Recorder([tree / "dev/trials/lib/tools/live", *live[1:]], "origin")
            if tree and not before and not expression:
                made[f"{program} --no-audit", name] = Recorder([LIVE, "--no-audit", *live[1:]], "origin")
            if tree and expression:
                prefiltered = [tree / "dev/trials/lib/tools/live", "--prefilter", *live[1:]]
                made[program.replace("live", "live --prefilter"), name] = Recorder(prefiltered, "origin")
        if before:
            continue
        made["dumpcap", name] = Recorder(dumpcap, "File: ")
        made["tcpdump", name] = Recorder(tcpdump, "listening on")
    return made


def counts_of(program: str, told: str, printed: str) -> tuple[int, int]:
    """How many frames a program recorded, and how many the kernel dropped, by its own words."""
    if program.startswith("bpfrec live"):
        dropped = re.search(r"rx0 frames \d+ bytes \d+ dropped (\d+)", told)
        kept = re.search(r"channel 1 versions 1 offered \d+ kept (\d+)", printed)
    elif program == "dumpcap":
        kept, dropped = re.search(r"Packets captured: (\d+)", told), re.search(r"on interface '.*': \d+/(\d+)", told)
    else:
        kept, dropped = re.search(r"(\d+) packets? captured", told), re.search(
            r"(\d+) packets? dropped by kernel", told
        )
    if not kept or not dropped:
        sys.exit(f"{program} told {told}{printed}")
    return int(kept[1]), int(dropped[1])


def go_ahead() -> None:
    """Puts this process, and those that it starts, ahead of the machine's other work."""
    Path("/proc/self/autogroup").write_text("-20")


def record_once(
    work: Path, program: str, made: Recorder, length: int, frames: int, rate: int = 0, is_ahead: bool = False
) -> Taken:
    for path in work.glob("out*"):
        path.unlink()
    with open(work / "told", "w+") as told, open(work / "printed", "w+") as printed:
        recorder = subprocess.Popen(
            [str(it) for it in made.words],
            stdin=subprocess.DEVNULL,
            stdout=printed,
            stderr=told,
            start_new_session=True,
            preexec_fn=go_ahead if is_ahead else None,
        )
        end = time.monotonic() + PATIENCE
        while made.ready not in (work / "told").read_text() and time.monotonic() < end:
            time.sleep(0.01)
        beside = subprocess.Popen([str(it) for it in made.beside or ["true"]], stdout=subprocess.DEVNULL)
        time.sleep(0.5)
        begin = time.monotonic()
        sending = float(run(SENDER, "tx0", length, frames, *[rate] * (rate > 0)).split()[1])
        # dumpcap and tcpdump leave what the kernel holds when they are told to end, so they get time to take it.
        if not program.startswith("bpfrec live"):
            time.sleep(1)
        os.killpg(recorder.pid, signal.SIGINT)
        _, status, used = os.wait4(recorder.pid, 0)
        spent = time.monotonic() - begin
        recorder.returncode = status
        beside.wait(PATIENCE)
        texts = [(work / it).read_text() for it in ("told", "printed")]
    kept, dropped = counts_of(program, *texts)
    return sending, spent, used.ru_utime + used.ru_stime, kept, dropped


def empty_cost(work: Path, program: str, made: Recorder) -> float:
    """The seconds of processors that a recording of no frame takes: the median of three."""
    return statistics.median(record_once(work, program, made, LENGTHS[0], 0, is_ahead=True)[2] for _ in range(3))


class Ratios(NamedTuple):
    """What a program took beside another one, round for round: of frames that were taken, and of processors."""

    taken: list[float]
    processors: list[float]

    def are_settled(self) -> bool:
        return all(is_settled(it) for it in self)


def is_settled(ratios: list[float]) -> bool:
    """Whether the medians of the first and of the second half differ by little."""
    half = len(ratios) // 2
    first, second = statistics.median(ratios[:half]), statistics.median(ratios[half:])
    return abs(first - second) <= SETTLED * statistics.median(ratios)


def beside(key: Key) -> Key:
    """The program that another one is compared with: what stood before, or tcpdump."""
    return (f"{key[0]}, before", key[1])


def ratios_in(runs: dict[Key, list[Taken]], empty: dict[Key, float], frames: int) -> dict[Key, Ratios]:
    """Of each program beside the one that it is compared with. Of a frame a nanosecond is taken at least."""

    def spent(key: Key, taken: Taken) -> float:
        return max(taken[2] - empty[key], frames / 1e9)

    found = {}
    for key, done in runs.items():
        other = next((it for it in (beside(key), ("tcpdump", key[1])) if it in runs and it != key), None)
        if other is None or ", before" in key[0]:
            continue
        pairs = list(zip(done, runs[other]))
        taken = [(one[3] / one[0]) / max(two[3] / two[0], 1) for one, two in pairs]
        found[key] = Ratios(taken, [spent(key, one) / spent(other, two) for one, two in pairs])
    return found


def told_ratio(ratios: list[float]) -> str:
    low, middle, high = statistics.quantiles(ratios, n=4)
    return f"{middle:.2f} ({low:.2f} to {high:.2f})"


def tell_ratios(length: int, found: dict[Key, Ratios]) -> None:
    """How each program compares, with the quarters of its pairs."""
    for (program, name), ratios in found.items():
        noise = "" if ratios.are_settled() else "; TOO NOISY: its halves differ by more than 3 %"
        print(
            f"{length} bytes, {program}, {KEPT_SHARE[name]}, in {len(ratios.taken)} pairs: {told_ratio(ratios.taken)} "
            f"of the frames a second, {told_ratio(ratios.processors)} of the processors{noise}",
            flush=True,
        )


def with_and_without(option: str, work: Path, buffer: int) -> Commands:
    """Recordings by bpfrec live with the usual value of an option, and without."""
    words = ["--quiet", "--buffer", buffer, work / "out", "rx0=1"]
    return {
        ("bpfrec live, before", "all"): Recorder([LIVE, option, "0", *words], "origin"),
        ("bpfrec live", "all"): Recorder([LIVE, *words], "origin"),
    }


def with_and_without_follower(work: Path, buffer: int) -> Commands:
    """Recordings by bpfrec live that nobody looks at, and with bpfrec follow beside them."""
    words: list[object] = [LIVE, "--quiet", "--buffer", buffer, work / "out", "rx0=1"]
    return {
        ("bpfrec live, before", "all"): Recorder(words, "origin"),
        ("bpfrec live", "all"): Recorder(words, "origin", [FOLLOW, work / "out"]),
    }


def with_and_without_publisher(work: Path, buffer: int) -> Commands:
    """Recordings by bpfrec live alone, and with --publish to this machine, where nobody listens."""
    words: list[object] = ["--quiet", "--buffer", buffer, work / "out", "rx0=1"]
    return {
        ("bpfrec live, before", "all"): Recorder([LIVE, *words], "origin"),
        ("bpfrec live", "all"): Recorder([LIVE, "--publish", "127.0.0.1:50000", *words], "origin"),
    }


# What bpfrec live is timed with and without, in turn.
IN_TURN: dict[str, Callable[[Path, int], Commands]] = {
    "syncs": partial(with_and_without, "--sync"),
    "spans": partial(with_and_without, "--span"),
    "follow": with_and_without_follower,
    "publish": with_and_without_publisher,
}


def time_wire(work: Path, words: argparse.Namespace, made: Commands) -> None:
    frames = words.frames
    print(
        "| Bytes | Program | Keeps | Frames sent a second | Taken a second | Dropped by the kernel | least, greatest "
        "| Processor, ns a frame |\n|---|---|---|---|---|---|---|---|"
    )
    empty = {key: empty_cost(work, key[0], it) for key, it in made.items()}
    for length in LENGTHS:
        runs: dict[Key, list[Taken]] = {key: [] for key in made}
        for turn in range(words.most):
            for key, recorder in list(made.items())[:: 1 if turn % 2 == 0 else -1]:
                runs[key].append(record_once(work, key[0], recorder, length, frames, words.rate, words.ahead))
            if turn + 1 >= words.least and all(it.are_settled() for it in ratios_in(runs, empty, frames).values()):
                break
        for (program, name), done in runs.items():
            sent = statistics.median(frames / it[0] for it in done)
            taken = statistics.median((frames - it[4]) / it[0] for it in done)
            drops = [it[4] for it in done]
            processors = statistics.median(1e9 * (it[2] - empty[program, name]) / frames for it in done)
            print(
                f"| {length} | {program} | {KEPT_SHARE[name]} | {sent:,.0f} | {taken:,.0f} "
                f"| {statistics.median(drops):,.0f} | {min(drops):,}, {max(drops):,} | {processors:,.0f} |",
                flush=True,
            )
        tell_ratios(length, ratios_in(runs, empty, frames))
    print(f"\nLoad: {os.getloadavg()[0]:.1f} on {os.cpu_count()} processors")


# ---- files


def write_capture(path: Path, length: int, frames: int) -> None:
    """A capture of numbered frames without their check sequences."""
    with open(path, "wb", buffering=1 << 20) as capture:
        capture.write(struct.pack("<IHHiIII", 0xA1B23C4D, 2, 4, 0, 0, 262_144, 1))
        for number in range(frames):
            frame = HEAD + number.to_bytes(8, "big") + bytes(length - 4 - 22)
            capture.write(
                struct.pack("<IIII", number // 1_000_000, number % 1_000_000 * 1_000, len(frame), len(frame)) + frame
            )


def time_files(work: Path, frames: int, rounds: int) -> None:
    print("| Bytes | Program | Frames a second | Processor, ns a frame | MB/s |\n|---|---|---|---|---|")
    for length in LENGTHS:
        capture, feed = work / "capture.pcap", work / "made.feed"
        write_capture(capture, length, frames)
        programs: dict[str, list[object]] = {
            "capture -r": [CAPTURE, "-r", f"{capture}={feed}"],
            "cp": ["cp", capture, feed],
        }
        runs: dict[str, list[tuple[float, float]]] = {name: [] for name in programs}
        for _ in range(rounds):
            for name, words in programs.items():
                feed.unlink(missing_ok=True)
                begin = time.monotonic()
                done = subprocess.Popen([str(it) for it in words], stdout=subprocess.DEVNULL, stderr=subprocess.DEVNULL)
                _, status, used = os.wait4(done.pid, 0)
                done.returncode = status
                runs[name].append((time.monotonic() - begin, used.ru_utime + used.ru_stime))
        for name, taken in runs.items():
            seconds, processors = (statistics.median(it[at] for it in taken) for at in (0, 1))
            print(
                f"| {length} | {name} | {frames / seconds:,.0f} | {1e9 * processors / frames:,.0f} "
                f"| {capture.stat().st_size / seconds / 1e6:,.0f} |",
                flush=True,
            )
    print(f"\nLoad: {os.getloadavg()[0]:.1f} on {os.cpu_count()} processors")


# ---- words


def missing() -> list[str]:
    found = [str(it.relative_to(ROOT)) for it in (ROOT / "bin/bpfrec", CAPTURE, SENDER) if not it.exists()]
    packages = sorted({package for program, package in WANTED.items() if not shutil.which(program)})
    found += [f"apt-get install {' '.join(packages)}"] if packages else []
    return found + (["root"] if os.geteuid() != 0 else [])


def main() -> int:
    parser = argparse.ArgumentParser(description=__doc__, formatter_class=argparse.RawDescriptionHelpFormatter)
    parser.add_argument("--frames", type=int, default=1_000_000)
    parser.add_argument("--least", type=int, default=6, help="rounds, at least (6)")
    parser.add_argument("--most", type=int, default=30, help="rounds, at most (30)")
    parser.add_argument("--part", choices=["wire", "files", *IN_TURN])
    parser.add_argument("--rate", type=int, default=0, help="frames a second, in place of as many as can be sent")
    parser.add_argument("--buffer", type=int, default=BUFFER_MIB, help="MiB of the kernel's buffer for each program")
    parser.add_argument(
        "--before", type=Path, metavar="CHECKOUT", help="times bpfrec live of that checkout and ours in turn alone"
    )
    parser.add_argument("--ahead", action="store_true", help="put what is timed ahead of the machine's other work")
    words = parser.parse_args()
    if not os.environ.get(INSIDE):
        if missing():
            print(f"bench/wire.py needs {', '.join(missing())}", file=sys.stderr)
            return 2
        name = f"bpfrec_wire_{os.getpid()}"
        run("ip", "netns", "add", name)
        try:
            again = ["ip", "netns", "exec", name, sys.executable, __file__, *sys.argv[1:]]
            return subprocess.run(again, env={**os.environ, INSIDE: "1"}, start_new_session=words.ahead).returncode
        finally:
            run("ip", "netns", "del", name)
    if words.ahead:
        go_ahead()
    with tempfile.TemporaryDirectory() as folder:
        if words.part != "files":
            make_pairs()
        if words.part in (None, "wire"):
            time_wire(Path(folder), words, commands(Path(folder), words.buffer, words.before))
        elif words.part in IN_TURN:
            time_wire(Path(folder), words, IN_TURN[words.part](Path(folder), words.buffer))
        if words.part in (None, "files") and not words.before:
            time_files(Path(folder), words.frames, words.least)
    return 0


if __name__ == "__main__":
    sys.exit(main())
