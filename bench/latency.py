#!/usr/bin/env python3
"""Measures how long a frame is in danger until it is recorded, and how long until somebody sees it.

usage: bench/latency.py [--part disk|shown|sent|idle] [--seconds N]

It makes a network namespace with virtual interfaces, and sends frames of 60 bytes into one of them, 1, 10 and 1,000 a
second for N seconds (20), and 1,000 that nothing follows.
disk: bpfrec live records them with `--span 100ms --sync 100ms`, and as it does by default. All the time it is looked
at how old the oldest frame is that isn't in the file, which kill -9 of all would lose, and the oldest that isn't among
what was forced to the disk, which lost power would. At the end all its programs are killed by kill -9, and it is
counted what the file has.
shown, sent: with `--span 50ms` it is looked when tshark prints each frame behind bpfrec follow, and when it comes to
a receiver of --publish, of one channel and of two, one of which is silent.
idle: what 64 channels without frames take of a processor, and write, with spans and without.

Goals are those of the table; the status is 1 where one is missed. It needs root, bin/bpfrec and bin/capture (make
build), and Debian's iproute2 and tshark. Files go to TMPDIR.
"""
import argparse
import os
import re
import signal
import statistics
import subprocess
import sys
import tempfile
import threading
import time
from bisect import bisect_right
from collections.abc import Sequence
from contextlib import ExitStack, suppress
from pathlib import Path

ROOT = Path(__file__).resolve().parent.parent
sys.dont_write_bytecode = True
sys.path[:0] = [str(ROOT / "dev/trials/lib"), str(ROOT / "host")]
from bpfrec.formats.follow import Follower, Front
from bpfrec.formats.held import File
from bpfrec.formats.limits import ETHERNET_DATA
from frames import HEAD, numbered
from ground import Station
from namespace import make_many_pairs, make_pair, own_namespace, socket_into
from observed import OBSERVED
from recordings import RUN, processes_of
from support import BPFREC, LIVE, Running, run

FOLLOW = ROOT / "dev/trials/lib/tools/follow"
# Frames a second; None are a thousand that nothing follows.
RATES = (1, 10, 1_000, None)
# How often it is looked at, for how long where nothing follows, and for how long programs begin, in seconds.
PAUSE, SILENCE, BEGINNING = 0.003, 3.0, 1.0
SHORT, USUAL = ["--span", "100ms", "--sync", "100ms"], list[str]()
SEEN = ["--span", "50ms"]
DISK_GOALS = [(SHORT, 0.3), (USUAL, 2.0)]
SEEN_GOAL = 0.2
CHANNELS, IDLE_SECONDS = 64, 20.0


class Sender(threading.Thread):
    """Sends numbered frames at a rate, and notes when."""

    def __init__(self, rate: int | None, seconds: float) -> None:
        super().__init__(daemon=True)
        self.rate, self.seconds = rate or 1_000, seconds if rate else 1.0
        self.sent: list[float] = []
        self.start()

    def run(self) -> None:
        begun = time.monotonic()
        with socket_into("tx0") as into:
            while time.monotonic() < begun + self.seconds:
                self.sent.append(time.monotonic())
                into.send(numbered(len(self.sent) - 1))
                time.sleep(max(0.0, begun + len(self.sent) / self.rate - time.monotonic()))

    def age(self, count: int, now: float) -> float:
        """How old the oldest frame is of those behind so many."""
        return now - self.sent[count] if count < len(self.sent) else 0.0


class Written:
    """How many frames a recording has, at which moments."""

    def __init__(self, path: Path) -> None:
        self.file = File(str(path), open(path, "rb"))
        self.follower = Follower(self.file.read_at, self.take)
        self.count = 0
        self.moments: list[float] = []
        self.counts: list[int] = []

    def take(self, front: Front) -> None:
        if front.header.kind == ETHERNET_DATA:
            self.count += int.from_bytes(front.data()[:2], "little")

    def look(self) -> float:
        """Looks what has come by now: when it had."""
        now = time.monotonic()
        list(self.follower.read_on(self.file.size_now()))
        self.moments.append(now)
        self.counts.append(self.count)
        return now

    def at(self, moment: float) -> int:
        """How many it had at that moment."""
        before = bisect_right(self.moments, moment)
        return self.counts[before - 1] if before else 0


def synced(notes: Path) -> float:
    """The moment up to which a recording was forced to its disk last."""
    found = re.findall(r'^\["synced", ([0-9.]+)\]$', notes.read_text(), re.MULTILINE)
    return float(found[-1]) if found else 0.0


def begin(work: Path, *words: object, program: Sequence[object] = (LIVE,), ways: Sequence[str] = ("rx0",)) -> Running:
    """Records interfaces into a file."""
    out = work / "out.ch11"
    for path in work.glob("out.ch11*"):
        path.unlink()
    (work / "private").mkdir(exist_ok=True)
    running = Running(work, *program, "--quiet", "--no-audit", *words, out, *ways, adds={RUN: str(out)})
    running.wait_until_told("capture: origin")
    time.sleep(BEGINNING)
    return running


def end(running: Running) -> None:
    running.interrupt()
    running.ended()


def in_danger(work: Path, words: list[str], rate: int | None, seconds: float) -> list[float]:
    """For how long frames are not in the file, not forced to the disk, and lost by a kill, at most."""
    notes, out = work / "notes", work / "out.ch11"
    running = begin(work, *words, program=[sys.executable, "-c", OBSERVED, notes])
    sender, written, most = Sender(rate, seconds), Written(out), [0.0, 0.0]
    ends = time.monotonic() + (seconds - 0.1 if rate else sender.seconds + SILENCE)
    while time.monotonic() < ends:
        now = written.look()
        counts = (written.count, written.at(synced(notes)))
        most = [max(age, sender.age(count, now)) for age, count in zip(most, counts)]
        time.sleep(PAUSE)
    for pid in processes_of(out):
        with suppress(ProcessLookupError):
            os.kill(pid, signal.SIGKILL)
    now = time.monotonic()
    running.process.wait()
    time.sleep(0.2)
    listed = subprocess.run([BPFREC, "list", out], capture_output=True, text=True).stdout
    kept = sum(int(it) for it in re.findall(r"^\d+ 1 68 .* frames (\d+)\b", listed, re.MULTILINE))
    return [*most, sender.age(kept, now)]


def shown(work: Path, rate: int | None, seconds: float) -> list[float]:
    """After how many seconds tshark prints each frame."""
    running = begin(work, *SEEN)
    line = f"{FOLLOW} {work / 'out.ch11'} | tshark -l -n -r - -T fields -e frame.number"
    shark = subprocess.Popen(["bash", "-c", line], stdout=subprocess.PIPE, stderr=subprocess.DEVNULL)
    came: list[float] = []
    reader = threading.Thread(target=lambda: came.extend(time.monotonic() for _ in shark.stdout or ()), daemon=True)
    reader.start()
    time.sleep(3 * BEGINNING)
    sender = Sender(rate, seconds)
    sender.join()
    time.sleep(SILENCE)
    end(running)
    reader.join()
    return late(sender, came)


class Timed(Station):
    """When each frame came."""

    def __init__(self) -> None:
        self.came: list[float] = []
        super().__init__()

    def take(self, datagram: bytes) -> None:
        self.came += [time.monotonic()] * datagram.count(HEAD)


def sent(work: Path, rate: int | None, seconds: float, *ways: str) -> list[float]:
    """After how many seconds each frame comes to a receiver, of the first of these interfaces."""
    station = Timed()
    running = begin(work, *SEEN, "--publish", f"{station.address},datagram=32000", ways=ways)
    time.sleep(BEGINNING)
    sender = Sender(rate, seconds)
    sender.join()
    time.sleep(SILENCE)
    end(running)
    station.close()
    return late(sender, station.came)


def late(sender: Sender, came: list[float]) -> list[float]:
    if len(came) != len(sender.sent):
        sys.exit(f"{len(came)} of {len(sender.sent)} frames came")
    return [there - begun for begun, there in zip(sender.sent, came)]


def processor_of(out: Path) -> float:
    """The seconds of a processor that a run's programs have taken."""
    stats = (Path(f"/proc/{pid}/stat").read_text().rpartition(")")[2].split() for pid in processes_of(out))
    return sum(int(it[11]) + int(it[12]) for it in stats) / os.sysconf("SC_CLK_TCK")


# ---- tables


def rate_text(rate: int | None) -> str:
    return f"{rate:,} a second" if rate else "1,000, then none"


def tell_disk(work: Path, seconds: float) -> bool:
    print(
        "| Options | Frames | Not in the file, s at most | Not forced | Lost by kill -9 | Goal |\n|---|---|---|---|---|---|"
    )
    is_met = True
    for words, goal in DISK_GOALS:
        for rate in RATES:
            ages = in_danger(work, words, rate, seconds)
            is_met &= max(ages) <= goal
            cells = " | ".join(f"{it:.3f}" for it in ages)
            print(f"| {' '.join(words) or 'none'} | {rate_text(rate)} | {cells} | {goal} |", flush=True)
    return is_met


def measure_until_seen(work: Path, part: str, seconds: float) -> bool:
    """Prints how long it takes until a frame is shown or sent: whether the goal is met."""
    ways = {"one": ["rx0"]} | ({"two, one silent": ["rx0", "rx1"]} if part == "sent" else {})
    print("| Frames | Channels | Half, s | 99 of 100 | All | Goal |\n|---|---|---|---|---|---|")
    is_met = True
    for rate in RATES:
        for channels, names in ways.items():
            found = shown(work, rate, seconds) if part == "shown" else sent(work, rate, seconds, *names)
            hundredths = statistics.quantiles(found, n=100, method="inclusive")
            is_met &= max(found) <= SEEN_GOAL
            cells = f"{hundredths[49]:.3f} | {hundredths[98]:.3f} | {max(found):.3f} | {SEEN_GOAL}"
            print(f"| {rate_text(rate)} | {channels} | {cells} |", flush=True)
    return is_met


def tell_idle(work: Path) -> bool:
    print("| Options | % of a processor | Bytes written |\n|---|---|---|")
    make_many_pairs("tx1", "rx1", CHANNELS - 1)
    out = work / "out.ch11"
    for words in (["--span", "0"], USUAL, SEEN):
        running = begin(work, *words, "--buffer", "1", ways=["rx0", *(f"rx1{it}" for it in range(CHANNELS - 1))])
        time.sleep(3 * BEGINNING)
        before, size = processor_of(out), out.stat().st_size
        time.sleep(IDLE_SECONDS)
        took, grown = processor_of(out) - before, out.stat().st_size - size
        end(running)
        print(f"| {' '.join(words) or 'none'} | {100 * took / IDLE_SECONDS:.1f} | {grown:,} |", flush=True)
    return True


def tell(part: str, work: Path, seconds: float) -> bool:
    """Prints the table of a part: whether its goals are met."""
    if part == "disk":
        return tell_disk(work, seconds)
    return tell_idle(work) if part == "idle" else measure_until_seen(work, part, seconds)


def main() -> int:
    parser = argparse.ArgumentParser(description=__doc__, formatter_class=argparse.RawDescriptionHelpFormatter)
    parser.add_argument("--part", choices=["disk", "shown", "sent", "idle"], action="append")
    parser.add_argument("--seconds", type=float, default=20.0)
    given = parser.parse_args()
    parts = given.part or ["disk", "shown", "sent", "idle"]
    with ExitStack() as stack:
        stack.enter_context(own_namespace())
        run("ip", "link", "set", "lo", "up")
        make_pair(0)
        make_pair(1)
        work = Path(stack.enter_context(tempfile.TemporaryDirectory()))
        found = [tell(it, work, given.seconds) for it in parts]
    print(f"\nLoad: {os.getloadavg()[0]:.1f} on {os.cpu_count()} processors")
    return 0 if all(found) else 1


if __name__ == "__main__":
    sys.exit(main())
