#!/usr/bin/env python3
"""Records two interfaces by bpfrec live for an hour, as recordings that follow one another, and judges what is left.

It needs root, bin/bpfrec and bin/capture (`make build`), and makes a network namespace of its own. Numbered frames
go into both interfaces all the time; a recording begins every ten seconds, six recordings are kept, and the status is
served. Meanwhile the memory and the open descriptors of live are read each second. At the end each recording must have been approved by its audit, each frame must have been recorded
that was sent, and memory and descriptors must not have grown after the first tenth of the time.
"""
import argparse
import os
import sys
import tempfile
import time
from pathlib import Path

sys.path.insert(0, str(Path(__file__).resolve().parents[1] / "lib"))
from namespace import make_pair, own_namespace
from recordings import Traffic, begin, nothing_left, settings_of
from support import judge, run

EVERY, KEPT, MOST_GROWTH_KIB = 10, 6, 4_096
LIVE_OPTIONS = ("--every", EVERY, "--keep", KEPT, "--status", "0", "--quiet", "--strict")


def memory_of(process: int) -> int:
    """The memory that a process holds, in KiB."""
    lines = Path(f"/proc/{process}/status").read_text().splitlines()
    return next(int(it.split()[1]) for it in lines if it.startswith("VmRSS:"))


def descriptors_of(process: int) -> int:
    return len(os.listdir(f"/proc/{process}/fd"))


def soak(work: Path, seconds: int) -> None:
    (work / "private").mkdir(exist_ok=True)
    live = begin(work, work / "soak.ch11", *LIVE_OPTIONS, settings=settings_of(work))
    traffic, process, found = Traffic(pause=0.005, many=4), live.process.pid, []
    end = time.monotonic() + seconds
    while time.monotonic() < end and live.process.poll() is None:
        time.sleep(1)
        found.append((memory_of(process), descriptors_of(process)))
        if len(found) % 60 == 0:
            print(f"{len(found)} s, {found[-1][0]} KiB, {found[-1][1]} descriptors, {traffic.sent} frames", flush=True)
    sent = traffic.end()
    time.sleep(1)
    live.interrupt()
    status, printed = live.ended()
    told = live.told()
    judge(f"{seconds} s with a recording every {EVERY} s: status {status}", status == 0, told[-2_000:])
    audits = printed.count("yes other 0")
    holds = audits >= seconds // (2 * EVERY) and "\nno " not in printed
    judge(f"{audits} recordings, each approved", holds, printed[-2_000:])
    reported = [it for it in printed.splitlines() if " versions " in it]
    recorded = sum(int(it.split()[it.split().index("offered") + 1]) for it in reported)
    judge(f"each of {sent} frames of both interfaces is in one of them", recorded == 2 * sent, recorded)
    begun, late = found[len(found) // 10 : len(found) // 5], found[-len(found) // 10 :]
    grown = max(it[0] for it in late) - max(it[0] for it in begun)
    judge(f"memory grew by {grown} KiB", grown <= MOST_GROWTH_KIB, found[:: max(len(found) // 20, 1)])
    judge("descriptors are as many", max(it[1] for it in late) <= max(it[1] for it in begun) + 2, found[-5:])
    judge("nothing is left", nothing_left(work))


def main() -> int:
    parser = argparse.ArgumentParser(description=__doc__, formatter_class=argparse.RawDescriptionHelpFormatter)
    parser.add_argument("--seconds", type=int, default=3_600, help="for how long (default 3600)")
    seconds = parser.parse_args().seconds
    with own_namespace():
        run("ip", "link", "set", "lo", "up")
        for number in (0, 1):
            make_pair(number)
        with tempfile.TemporaryDirectory(prefix="bpfrec_soak_") as work:
            try:
                soak(Path(work), seconds)
            except AssertionError as fault:
                print(f"FAILED: {fault}")
                return 1
    return 0


if __name__ == "__main__":
    sys.exit(main())
