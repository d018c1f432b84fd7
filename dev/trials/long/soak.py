#!/usr/bin/env python3
"""Records 64 channels from pipes for an hour, with a filter changed each second, and judges what is left.

It needs bin/bpfrec (`make build`), and is no part of the gate. Each channel's pipe gets some frames a
second; the feeds end at drawn moments, every fourth of them with a damaged record. Meanwhile the memory
and the open descriptors of the process are read each second. At the end each line of the report must
say of its channel how many frames were fed to it and how its feed ended, each change must have been
answered with the next version of its channel, memory and descriptors must not have grown after the
first tenth of the time, and the recording must be approved by `audit`. In less than 150 seconds not all
buffers are filled once, so memory is judged from then on at the earliest, and not at all of a shorter run.
"""
import argparse
import os
import random
import subprocess
import sys
import tempfile
import threading
import time
from dataclasses import dataclass
from pathlib import Path
from typing import NamedTuple

sys.path.insert(0, str(Path(__file__).resolve().parents[1] / "lib"))
from frames import record_of
from support import BPFREC, present

CHANNELS = 64
FRAMES_A_SECOND = 40
MOST_GROWTH_KIB = 1_024
FILLING_SECONDS = 150
# Keeps all; nothing; frames whose byte 20 is less than 128; ARP.
FILTERS = [
    "1,6 0 0 1,",
    "1,6 0 0 0,",
    "4,48 0 0 20,53 1 0 128,6 0 0 1,6 0 0 0,",
    "4,40 0 0 12,21 0 1 2054,6 0 0 1,6 0 0 0,",
]
# A record that is cut, one with wrong marks and one with a wrong length, and what is said of each.
DAMAGES = [
    (bytes(8), "SourceFault Truncated"),
    (bytes(6) + b"\x04\x12\x00" + bytes(18), "SourceFault Marks"),
    (bytes(6) + b"\x00\x11\x00" + bytes(17), "SourceFault Length"),
]


@dataclass
class Feed:
    """A channel's feed: for how long it goes on, how it ends, and how many frames it has given."""

    pipe: Path
    seconds: float
    damage: bytes
    ending: str
    given: int = 0

    def run(self, draw: random.Random) -> None:
        began = time.monotonic()
        with open(self.pipe, "wb", buffering=0) as pipe:
            while time.monotonic() - began < self.seconds:
                pipe.write(drawn_record(draw, self.given))
                self.given += 1
                time.sleep(1 / FRAMES_A_SECOND)
            pipe.write(self.damage)


class Soaked(NamedTuple):
    """The feeds, the channels of the changes, the report, the status, and memory and descriptors second by second."""

    feeds: list[Feed]
    changes: list[int]
    report: list[str]
    status: int
    memory: list[int]
    descriptors: list[int]


def drawn_record(draw: random.Random, counter: int) -> bytes:
    length = draw.choice([18, 64, 300, 1518])
    content = draw.randbytes(12) + draw.choice([b"\x08\x06", b"\x08\x00"]) + draw.randbytes(length - 14)
    return record_of(counter, content)


def make_feeds(work: Path, seconds: int, draw: random.Random) -> list[Feed]:
    feeds = []
    for channel in range(CHANNELS):
        pipe = work / f"{channel}.feed"
        os.mkfifo(pipe)
        damage, ending = draw.choice(DAMAGES) if channel % 4 == 3 else (b"", "SourceEnd")
        feeds.append(Feed(pipe, seconds * draw.uniform(0.2, 1.0), damage, ending))
    feeds[0].seconds = seconds
    return feeds


def write_settings(work: Path, feeds: list[Feed]) -> None:
    for number, listing in enumerate(FILTERS):
        (work / f"filter{number}").write_text(listing)
    tables = [
        f'[[channel]]\nid = {channel}\nfeed = "{feed.pipe}"\nfilter = "{work}/filter{channel % len(FILTERS)}"\n'
        for channel, feed in enumerate(feeds, 1)
    ]
    # short packets and rings, so that all buffers have been filled soon
    (work / "settings").write_text("limit = 16424\nring = 4\n" + "".join(tables))


def resident_kib(pid: int) -> int:
    lines = Path(f"/proc/{pid}/status").read_text().splitlines()
    return next(int(line.split()[1]) for line in lines if line.startswith("VmRSS"))


def judge(what: str, holds: bool) -> bool:
    print(f"{'ok' if holds else 'WRONG'}: {what}", flush=True)
    return holds


def soak(work: Path, seconds: int, draw: random.Random) -> Soaked:
    feeds = make_feeds(work, seconds, draw)
    write_settings(work, feeds)
    with open(work / "answers", "w") as answers:
        running = subprocess.Popen(
            [BPFREC, "record", work / "settings", work / "out"],
            text=True,
            stdin=subprocess.PIPE,
            stdout=subprocess.PIPE,
            stderr=answers,
        )
    threads = [threading.Thread(target=feed.run, args=(random.Random(draw.random()),)) for feed in feeds]
    for thread in threads:
        thread.start()
    changes, memory, descriptors, commands = [], [], [], present(running.stdin)
    for _ in range(seconds):
        channel = draw.randrange(CHANNELS) + 1
        commands.write(f"set {channel} {work}/filter{draw.randrange(len(FILTERS))}\n")
        commands.flush()
        changes.append(channel)
        time.sleep(1)
        memory.append(resident_kib(running.pid))
        descriptors.append(len(os.listdir(f"/proc/{running.pid}/fd")))
    commands.close()
    for thread in threads:
        thread.join()
    report = present(running.stdout).read().splitlines()
    return Soaked(feeds, changes, report, running.wait(), memory, descriptors)


def judge_all(work: Path, soaked: Soaked) -> bool:
    feeds, changes, report, status, memory, descriptors = soaked
    versions = dict.fromkeys(range(1, CHANNELS + 1), 1)
    wanted = []
    for channel in changes:
        wanted.append(f"installed {channel} {versions[channel]}")
        versions[channel] += 1
    answers = [line.rsplit(" ", 1)[0] for line in (work / "answers").read_text().splitlines()]
    lines = [line.split(" ", 8) for line in report[:-1]]
    told = [(int(line[1]), int(line[3]), int(line[5]), line[8]) for line in lines]
    fed = [(channel, versions[channel], feed.given, feed.ending) for channel, feed in enumerate(feeds, 1)]
    audited = subprocess.run([BPFREC, "audit", work / "out"], capture_output=True, text=True)
    first = max(len(memory) // 10, 1)
    print(
        f"{sum(feed.given for feed in feeds)} frames, {len(changes)} changes, {report[-1]}; "
        f"memory {min(memory)} to {max(memory)} KiB, descriptors {min(descriptors)} to {max(descriptors)}"
    )
    return all(
        [
            judge("the status is 0", status == 0),
            judge("each change has the next version of its channel", answers == wanted),
            judge("each channel has the frames, the versions and the ending of its feed", told == fed),
            is_flat(memory, max(first, FILLING_SECONDS)),
            judge("no descriptor is left open", max(descriptors[first:]) <= max(descriptors[:first])),
            judge("the recording is approved", audited.returncode == 0),
        ]
    )


def is_flat(memory: list[int], first: int) -> bool:
    """Whether memory didn't grow after the first of these looks, where there are more."""
    if len(memory) <= first:
        print(f"left out: whether memory is flat, which needs more than {first} seconds")
        return True
    return judge("memory is flat", max(memory[first:]) <= max(memory[:first]) + MOST_GROWTH_KIB)


def main() -> None:
    parser = argparse.ArgumentParser(description=__doc__, formatter_class=argparse.RawDescriptionHelpFormatter)
    parser.add_argument("--seconds", type=int, default=3600)
    parser.add_argument("--seed", type=int, default=1)
    words = parser.parse_args()
    if not BPFREC.exists():
        parser.error(f"{BPFREC} is missing: make build makes it")
    with tempfile.TemporaryDirectory() as folder:
        work = Path(folder)
        sys.exit(0 if judge_all(work, soak(work, words.seconds, random.Random(words.seed))) else 1)


if __name__ == "__main__":
    main()
