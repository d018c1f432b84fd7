#!/usr/bin/env python3
"""Times bpfrec info and bpfrec salvage on recordings of frames of several lengths.

usage: bench/info.py [--megabytes N] [--rounds N]

It makes feeds of 64, 60 to 80, 300 and 1,500 bytes a frame, records them with a filter that keeps all, and reads each
recording by bpfrec info with the audit (of which data checksums need no summing) and without a program, and by
bpfrec salvage into /dev/null. It prints a table for RESULTS.md: megabytes a second by the clock and of processor time
(the audit's included), medians, and the most memory. It needs bin/bpfrec (make build); files go to TMPDIR: in memory
(TMPDIR=/dev/shm) no disk is measured with it.
"""
import argparse
import os
import random
import statistics
import subprocess
import sys
import tempfile
import time
from collections.abc import Sequence
from pathlib import Path

ROOT = Path(__file__).resolve().parent.parent
sys.path.insert(0, str(ROOT / "dev/trials/lib"))
from frames import HEAD, record_of

BPFREC, INFO, SALVAGE = (
    ROOT / it for it in ("bin/bpfrec", "dev/trials/lib/tools/info", "dev/trials/lib/tools/salvage")
)
LENGTHS = {"64": (64, 64), "60 to 80": (60, 80), "300": (300, 300), "1,500": (1_500, 1_500)}


def write_feed(path: Path, least: int, most: int, size: int) -> None:
    """A feed of so many bytes, of frames of drawn lengths and at drawn moments."""
    draw, counter, parts, written = random.Random(1), 0, [], 0
    frames = {length: HEAD + bytes(length - len(HEAD)) for length in range(least, most + 1)}
    with open(path, "wb") as feed:
        while written < size:
            counter += draw.randrange(50, 200)
            frame = frames[draw.randint(least, most)]
            parts.append(record_of(counter, frame))
            if len(parts) == 10_000:
                written += feed.write(b"".join(parts))
                parts.clear()


def record(work: Path, least: int, most: int, size: int) -> Path:
    # In a process of its own: a program that is started later is counted with the memory that this one has then.
    process = os.fork()
    if process == 0:
        write_feed(work / "feed", least, most, size)
        os._exit(0)
    os.waitpid(process, 0)
    (work / "all").write_text("1,6 0 0 1,")
    (work / "toml").write_text(f'[[channel]]\nid = 1\nfeed = "{work}/feed"\nfilter = "{work}/all"\n')
    subprocess.run(
        [BPFREC, "record", work / "toml", work / "ch11"],
        check=True,
        stdin=subprocess.DEVNULL,
        stdout=subprocess.DEVNULL,
    )
    (work / "feed").unlink()
    return work / "ch11"


def timed(words: Sequence[object], env: dict[str, str] | None) -> tuple[float, float, int]:
    """The seconds of a run by the clock and of processors, and its most memory in KiB."""
    begin = time.monotonic()
    process = subprocess.Popen([str(it) for it in words], stdout=subprocess.DEVNULL, env=env)
    _, status, used = os.wait4(process.pid, 0)
    process.returncode = status
    assert status == 0, f"{words}: {status}"
    return time.monotonic() - begin, used.ru_utime + used.ru_stime, used.ru_maxrss


def main() -> None:
    parser = argparse.ArgumentParser(description=__doc__, formatter_class=argparse.RawDescriptionHelpFormatter)
    parser.add_argument("--megabytes", type=int, default=200)
    parser.add_argument("--rounds", type=int, default=3)
    words = parser.parse_args()
    without = {**os.environ, "BPFREC": "/nowhere"}
    print("| Bytes of a frame | Program | MB/s by the clock | of processors | Memory, KiB |\n|---|---|---|---|---|")
    for name, (least, most) in LENGTHS.items():
        with tempfile.TemporaryDirectory() as folder:
            recording = record(Path(folder), least, most, words.megabytes * 1_000_000)
            size = recording.stat().st_size / 1e6
            programs: dict[str, tuple[list[object], dict[str, str] | None]] = {
                "info": ([INFO, recording], None),
                "info without audit": ([INFO, recording], without),
                "salvage": ([SALVAGE, recording, "/dev/null"], None),
            }
            for program, (command, env) in programs.items():
                runs = [timed(command, env) for _ in range(words.rounds)]
                clock, processor = (statistics.median(size / it[at] for it in runs) for at in (0, 1))
                print(
                    f"| {name} | {program} | {clock:,.0f} | {processor:,.0f} | {max(it[2] for it in runs):,} |",
                    flush=True,
                )
    print(f"\nLoad: {os.getloadavg()[0]:.1f} on {os.cpu_count()} processors")


if __name__ == "__main__":
    main()
