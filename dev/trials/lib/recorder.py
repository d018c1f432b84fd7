"""What trials of `bpfrec record` and of what reads recordings share: feeds, filters, settings and runs."""

import os
import resource
import select
import subprocess
from pathlib import Path
from typing import Any

from frames import counted_feed
from support import BPFREC, DROPS_ALL, KEEPS_ALL, ROOT, outcome, present

# Recordings of docs/user/formats/recording.md, and the one frame of theirs as a feed.
RECORDINGS = ROOT / "crates/test_cases/data/recordings"
ONE_FRAME = bytes.fromhex("200000000000 00 1200 ffffffffffff0200000000010806a1b2c3d4")
# Those that keep half keep frames whose byte 20 is less than 128.
LISTINGS = {"all": KEEPS_ALL, "none": DROPS_ALL, "half": "4,48 0 0 20,53 1 0 128,6 0 0 1,6 0 0 0,", "bad": "0,"}
# The bytes of a record of these feeds, and of a long feed how many frames it has.
RECORD_LENGTH, MANY, FEW = 73, 1_000_000, 10_000
READING_MEMORY = 64_000_000


def make_feed(path: Path, frames: int) -> Path:
    """Frames of 64 bytes, each with another counter."""
    bodies = [bytes(20) + bytes((at,)) + bytes(43) for at in range(256)]
    path.write_bytes(counted_feed(bodies[at % 256] for at in range(frames)))
    return path


def write_settings(work: Path, feeds: list, filters: list[str], name: str = "settings.toml") -> Path:
    """Settings with a channel for each feed, and the filters that they may name."""
    for listing, text in LISTINGS.items():
        (work / listing).write_text(text)
    tables = [
        f'[[channel]]\nid = {channel}\nfeed = "{work / feed}"\nfilter = "{work / listing}"\n'
        for channel, (feed, listing) in enumerate(zip(feeds, filters), 1)
    ]
    (work / name).write_text("".join(tables))
    return work / name


def record(settings: Path, out: object, **more: Any) -> subprocess.CompletedProcess:
    return outcome(BPFREC, "record", settings, out, **{"stdin": subprocess.DEVNULL, "seconds": 120, **more})


def begin(settings: Path, out: object, program: object = BPFREC, **more: Any) -> subprocess.Popen:
    """A recorder that runs, with its report in a pipe."""
    streams: dict = {"stdin": subprocess.DEVNULL, "stdout": subprocess.PIPE, "text": True}
    return subprocess.Popen([str(program), "record", str(settings), str(out)], **{**streams, **more})


def extracted(recording: Path, channel: int, feed: Path) -> bytes:
    subprocess.run([str(BPFREC), "extract", str(recording), str(channel), str(feed)], check=True, capture_output=True)
    return feed.read_bytes()


def read_within(*words: object) -> subprocess.CompletedProcess:
    """A run that is refused more memory than READING_MEMORY."""

    def limited() -> None:
        resource.setrlimit(resource.RLIMIT_AS, (READING_MEMORY, READING_MEMORY))

    return outcome(BPFREC, *words, preexec_fn=limited, seconds=120)


def line_within_a_second(running: subprocess.Popen[bytes]) -> bytes:
    """The next line of standard error; empty where none comes within a second."""
    told = present(running.stderr)
    return told.readline() if select.select([told], [], [], 1)[0] else b""


def is_broken_soon(pipe: int) -> bool:
    """Whether a pipe has no reader within a second."""
    look = select.poll()
    look.register(pipe, 0)
    return any(event & select.POLLERR for _, event in look.poll(1_000))


def writes_of(*words: object) -> list[bytes]:
    """What a run writes on its two outputs, write by write."""
    reads, writes = os.pipe2(os.O_DIRECT)
    subprocess.run(list(map(str, (BPFREC, *words))), stdin=subprocess.DEVNULL, stdout=writes, stderr=writes)
    os.close(writes)
    found = list(iter(lambda: os.read(reads, 4096), b""))
    os.close(reads)
    return found
