"""What makes a recording at full size by `bpfrec record`: 64 channels with long paths, one with 100,001 frames, one with none,
one with the shortest and the longest frames, and one whose filter has 1,024 programs of up to 4,096 instructions, each met by
a frame."""

import os
import subprocess
import threading
from collections.abc import Collection
from pathlib import Path
from typing import BinaryIO

from feeding import pipe_to
from frames import counted_feed, frames_packet, program_packet, record_of
from support import judge_quietly, present, wait_for

CHANNELS, MANY, FEW, VERSIONS, MOST_INSNS = 64, 100_001, 1_000, 1_024, 4_096
LIMITS = (16_424, 524_284)
FRAME = bytes(range(60))
PATIENCE = 120
# What the record of a channel's end begins with, behind its first four bytes; no frame here has it.
END_RECORD = b"CBPR\x02\x00"
# How many bytes of its packet these and those behind them are.
LEFT_OF_END = 28
INSN_LENGTH = 8
# The channels that are as none else.
LONG, EMPTY, ENDS, CHANGED = 1, 2, 3, 64


def program_of(insns: int) -> str:
    """A listing of so many instructions, which keeps all."""
    return f"{insns}," + "0 0 0 1," * (insns - 1) + "6 0 0 1,"


def insns_of(version: int) -> int:
    """How many instructions this version of the last channel has, whose filters are by turns those of all channels."""
    return MOST_INSNS // CHANNELS * (1 + version % CHANNELS) if version else MOST_INSNS


def feed_of_channel(channel: int) -> bytes:
    if channel == ENDS:
        return counted_feed([bytes(18), bytes(16_383)] * 200)
    return counted_feed([FRAME] * {LONG: MANY, EMPTY: 0, CHANGED: VERSIONS}.get(channel, FEW))


def frames_in(feed: bytes) -> int:
    return feed.count(FRAME) or (400 if feed else 0)


def feed_path(folder: Path, channel: int) -> Path:
    return folder / f"{channel}.feed"


def write_all(folder: Path, limit: int, piped: Collection[int]) -> tuple[Path, dict[int, bytes]]:
    """Settings, far below this folder, with a filter and a feed of its own for each channel, and the feeds. Those of the
    channels `piped` go through pipes, and the others are files."""
    for _ in range(12):
        folder /= "a folder with a long name, as paths may have over 2,000 bytes " + 100 * "x"
    folder.mkdir(parents=True)
    text = f"limit = {limit}\nring = 3\n"
    feeds = {channel: feed_of_channel(channel) for channel in range(1, CHANNELS + 1)}
    for channel, feed in feeds.items():
        path, listing = feed_path(folder, channel), folder / f"{channel}.txt"
        if channel in piped:
            os.mkfifo(path)
        else:
            path.write_bytes(feed)
        listing.write_text(program_of(channel * MOST_INSNS // CHANNELS))
        text += f'[[channel]]\nid = {channel}\nfeed = "{path}"\nfilter = "{listing}"\n'
    (folder / "settings.toml").write_text(text)
    return folder / "settings.toml", feeds


def report_of(feeds: dict[int, bytes]) -> list[str]:
    """What is printed of each channel."""
    return [
        f"channel {channel} versions {VERSIONS if channel == CHANGED else 1} offered {count} kept {count} SourceEnd"
        for channel, count in ((channel, frames_in(feed)) for channel, feed in feeds.items())
    ]


def wait_for_others(out: Path) -> int:
    """Waits until the end of each other channel is written: how long OUT is then."""
    wait_for(
        "the other channels have ended",
        lambda: out.exists() and out.read_bytes().count(END_RECORD) == CHANNELS - 1,
        PATIENCE,
    )
    return out.read_bytes().rfind(END_RECORD) + LEFT_OF_END


def change_filters(running: subprocess.Popen[str], pipe: BinaryIO, settings: Path, out: Path, feed: bytes) -> None:
    """Gives the last channel a frame for each of its programs. The frame before and the program are written when a frame
    has met it."""
    length, size = len(feed) // VERSIONS, wait_for_others(out)
    commands, answers = present(running.stdin), present(running.stderr)
    for version in range(VERSIONS):
        if version:
            commands.write(f"set {CHANGED} {settings.parent}/{1 + version % CHANNELS}.txt\n")
            commands.flush()
            answer = answers.readline()
            judge_quietly(answer, answer == f"installed {CHANGED} {version} {version}\n")
            size += len(frames_packet([(0, 0, FRAME)], 0, 0, True))
        size += len(program_packet(CHANGED, 0)) + INSN_LENGTH * (insns_of(version) - 1)
        pipe.write(feed[version * length : (version + 1) * length])
        pipe.flush()
        wait_for(f"version {version} is met", lambda: out.stat().st_size == size)


def write_and_close(pipe: BinaryIO, feed: bytes) -> None:
    with pipe:
        pipe.write(feed)


def feed_by_pipes(running: subprocess.Popen[str], settings: Path, out: Path, feeds: dict[int, bytes]) -> None:
    """Feeds a recording all of whose channels have pipes. When all threads of it run, the channel LONG has the first frame of
    all, and only when that is written do the others get theirs."""
    pipes = {channel: pipe_to(running, feed_path(settings.parent, channel)) for channel in feeds}
    commands = present(running.stdin)
    commands.write("x\n")
    commands.flush()
    answer = present(running.stderr).readline()
    judge_quietly(answer, answer == "refused 0 Line\n")
    first = len(record_of(0, FRAME))
    pipes[LONG].write(feeds[LONG][:first])
    pipes[LONG].flush()
    wait_for("the first program is written", lambda: out.stat().st_size > 0)
    for channel in feeds.keys() - {CHANGED}:
        rest = feeds[channel][first if channel == LONG else 0 :]
        threading.Thread(target=write_and_close, args=(pipes[channel], rest), daemon=True).start()
    with pipes[CHANGED] as pipe:
        change_filters(running, pipe, settings, out, feeds[CHANGED])
