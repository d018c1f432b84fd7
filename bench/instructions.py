#!/usr/bin/env python3
"""Counts the processor instructions that a frame of 64 bytes takes, of which a filter keeps a 32nd, by callgrind.

usage: bench/instructions.py [--span TICKS] [BPFREC [RECORD_FEED]]

It records two feeds of different lengths by `bpfrec record`, and by plain C on libpcap (bench/record_feed.c), and
prints the difference a frame, so that starts and ends don't count; no other work changes it. It needs Debian's
valgrind, bin/bpfrec (make build) and bin/record_feed (make bin/record_feed).
"""
import argparse
import re
import shutil
import subprocess
import sys
import tempfile
from pathlib import Path

from record import LENGTHS, frames_of, write_filters, write_settings

ROOT = Path(__file__).resolve().parent.parent
sys.path.insert(0, str(ROOT / "dev/trials/lib"))
from frames import write_feed

SHORT, LONG = 20_000, 120_000
COLLECTED = re.compile(r"Collected : (\d+)")


def counted(work: Path, words: list[object]) -> int:
    """The instructions of a run."""
    valgrind = ["valgrind", "--tool=callgrind", f"--callgrind-out-file={work / 'callgrind'}", *map(str, words)]
    done = subprocess.run(valgrind, stdin=subprocess.DEVNULL, capture_output=True, text=True)
    found = COLLECTED.search(done.stderr)
    if done.returncode != 0 or not found:
        sys.exit(f"{' '.join(valgrind)} ended with status {done.returncode}: {done.stderr[-300:]}")
    return int(found[1])


def a_frame(work: Path, program: str, words: argparse.Namespace) -> float:
    """The instructions of a program for a frame."""
    spent = []
    for count in (SHORT, LONG):
        feed = work / f"{count}.feed"
        settings = write_settings(work / f"{count}.toml", [feed], [work / "port"])
        settings.write_text(f"{settings.read_text()}span = {words.span}\n")
        record: list[object] = [words.bpfrec, "record", settings, work / "out"]
        spent.append(counted(work, record if program == "bpfrec" else [words.c, work / "port", feed, work / "out"]))
    return (spent[1] - spent[0]) / (LONG - SHORT)


def main() -> int:
    parser = argparse.ArgumentParser(description=__doc__, formatter_class=argparse.RawDescriptionHelpFormatter)
    parser.add_argument("--span", type=int, default=0, help="the span of the channel, in ticks (none)")
    parser.add_argument("bpfrec", nargs="?", default=ROOT / "bin/bpfrec", metavar="BPFREC")
    parser.add_argument("c", nargs="?", default=ROOT / "bin/record_feed", metavar="RECORD_FEED")
    words = parser.parse_args()
    if not shutil.which("valgrind"):
        print("bench/instructions.py needs valgrind: apt-get install valgrind", file=sys.stderr)
        return 2
    with tempfile.TemporaryDirectory() as folder:
        work = Path(folder)
        write_filters(work, None)
        for count in (SHORT, LONG):
            write_feed(work / f"{count}.feed", frames_of(LENGTHS["64"], count))
        for program in ("bpfrec", "C"):
            print(f"{program}: {a_frame(work, program, words):.0f} instructions a frame", flush=True)
    return 0


if __name__ == "__main__":
    sys.exit(main())
