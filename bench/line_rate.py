#!/usr/bin/env python3
"""Finds how many frames a second of four interfaces at once are recorded before one is dropped.

usage: bench/line_rate.py [--seconds N] [--senders N] [--buffer MIB]

Each of four senders (bin/send_frames) sends into its own pair of virtual interfaces, and bpfrec live records what
the others receive, a channel each, of 64, 300 and 1,500 bytes. The rate of all is doubled until a frame is dropped, or
until the senders reach it no more, and then halved in five steps towards the greatest rate at which none is. It prints
a row for each length, with the machine's load. It needs what bench/wire.py needs.
"""
import argparse
import os
import re
import subprocess
import sys
import tempfile
import time
from pathlib import Path
from typing import NamedTuple

from wire import BUFFER_MIB, INSIDE, LENGTHS, LIVE, PATIENCE, SENDER, make_pairs, missing, run

FIRST_RATE, STEPS = 20_000, 5


class Tried(NamedTuple):
    """What was sent a second into all interfaces, and how many frames were dropped or not kept."""

    sent: float
    lost: int


def send_into_all(senders: int, length: int, frames: int, rate: int) -> float:
    """Sends into each interface at this rate; gives how many frames a second were sent in all."""
    words = [[SENDER, f"tx{at}", length, frames, rate] for at in range(senders)]
    begun = [subprocess.Popen([str(it) for it in each], stdout=subprocess.PIPE, text=True) for each in words]
    seconds = [float(it.communicate(timeout=PATIENCE)[0].split()[1]) for it in begun]
    return senders * frames / max(seconds)


def record_at(work: Path, words: argparse.Namespace, length: int, rate: int) -> Tried:
    """Records all interfaces while frames come at this rate each."""
    for path in work.glob("out*"):
        path.unlink()
    ways = [f"rx{at}={at + 1}" for at in range(words.senders)]
    with open(work / "told", "w+") as told, open(work / "printed", "w+") as printed:
        live = [LIVE, "--quiet", "--no-audit", "--buffer", words.buffer, work / "out", *ways]
        recorder = subprocess.Popen([str(it) for it in live], stdin=subprocess.DEVNULL, stdout=printed, stderr=told)
        end = time.monotonic() + PATIENCE
        while "origin" not in (work / "told").read_text() and time.monotonic() < end:
            time.sleep(0.01)
        time.sleep(0.5)
        frames = int(rate * words.seconds)
        sent = send_into_all(words.senders, length, frames, rate)
        recorder.terminate()
        recorder.wait(PATIENCE)
        texts = [(work / it).read_text() for it in ("told", "printed")]
    dropped = sum(int(it) for it in re.findall(r"rx\d frames \d+ bytes \d+ dropped (\d+)", texts[0]))
    kept = sum(int(it) for it in re.findall(r"offered \d+ kept (\d+)", texts[1]))
    return Tried(sent, max(dropped, words.senders * frames - kept))


def greatest_rate(work: Path, words: argparse.Namespace, length: int) -> tuple[float, str]:
    """The greatest rate in all at which none was lost, and what ended the search."""
    low, high, best, why = 0, FIRST_RATE, 0.0, "a frame was dropped"
    while True:
        tried = record_at(work, words, length, high)
        if tried.lost:
            break
        low, best = high, max(best, tried.sent)
        if tried.sent < 0.9 * words.senders * high:
            return best, "as fast as the senders are"
        high *= 2
    for _ in range(STEPS):
        middle = (low + high) // 2
        tried = record_at(work, words, length, middle)
        if tried.lost:
            high = middle
        else:
            low, best = middle, max(best, tried.sent)
    return best, why


def measure(words: argparse.Namespace) -> None:
    make_pairs(words.senders)
    print("| Bytes | Frames a second in all, none lost | MB/s | Ended by |\n|---|---|---|---|")
    with tempfile.TemporaryDirectory() as folder:
        for length in LENGTHS:
            rate, why = greatest_rate(Path(folder), words, length)
            print(f"| {length} | {rate:,.0f} | {rate * length / 1e6:,.0f} | {why} |", flush=True)
    print(f"\n{words.senders} senders; load: {os.getloadavg()[0]:.1f} on {os.cpu_count()} processors")


def main() -> int:
    parser = argparse.ArgumentParser(description=__doc__, formatter_class=argparse.RawDescriptionHelpFormatter)
    parser.add_argument("--seconds", type=float, default=3, help="how long frames are sent at each rate (3)")
    parser.add_argument("--senders", type=int, default=4)
    parser.add_argument("--buffer", type=int, default=BUFFER_MIB, help="MiB of the kernel's buffer an interface")
    words = parser.parse_args()
    if os.environ.get(INSIDE):
        measure(words)
        return 0
    if missing():
        print(f"bench/line_rate.py needs {', '.join(missing())}", file=sys.stderr)
        return 2
    name = f"bpfrec_line_{os.getpid()}"
    run("ip", "netns", "add", name)
    try:
        again = ["ip", "netns", "exec", name, sys.executable, __file__, *sys.argv[1:]]
        return subprocess.run(again, env={**os.environ, INSIDE: "1"}).returncode
    finally:
        run("ip", "netns", "del", name)


if __name__ == "__main__":
    sys.exit(main())
