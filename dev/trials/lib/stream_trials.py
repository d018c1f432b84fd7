"""What trials of `bpfrec chapter11 --stream` share: drawn recordings, how the command ends, and what a second writer makes of
the same packets."""

import random
import subprocess
from pathlib import Path

from drawn_recording import DrawnRecording, drawn_insns
from packets import packets_in
from streamed import Stream
from support import BPFREC, judge_quietly, outcome
from whole_file import Origin, Refused, Setup
from whole_file_trials import setup_text

SECOND = 10_000_000
ORIGIN = 1_764_590_400_250_000_123
CHANNELS = {channel: ("channel", 0) for channel in (1, 2, 3)}
NOW = Setup((Origin(0, ORIGIN),), channels=CHANNELS)


def settings(work: Path, setup: str) -> Path:
    file = work / "stream.toml"
    file.write_text(setup)
    return file


def streamed(work: Path, data: bytes, setup: Setup) -> subprocess.CompletedProcess:
    """How the command ends that reads the recording."""
    words = [BPFREC, "chapter11", "--stream", settings(work, setup_text(setup))]
    # SETUP of 65,535 channels takes long where much else runs.
    return outcome(*words, input=data, text=False, seconds=120)


def expected(data: bytes, setup: Setup) -> tuple[bytes, int, str]:
    """What the second writer makes of it: bytes, exit status and the line on standard error."""
    try:
        stream = Stream(setup)
    except Refused as fault:
        return b"", 1, f"{fault}\n"
    try:
        for packet in packets_in(data):
            stream.put(*packet)
    except Refused as fault:
        return bytes(stream.file.data), 1, f"{fault}\n"
    return bytes(stream.file.data), 0, f"{stream.line()}\n"


def judge_stream(work: Path, what: str, data: bytes, setup: Setup = NOW) -> str:
    """The command writes what the second writer writes: the line that it prints."""
    done = streamed(work, data, setup)
    out, status, line = expected(data, setup)
    told = done.stderr.decode()
    judge_quietly(what, (done.returncode, told) == (status, line), (done.returncode, told, status, line))
    judge_quietly(f"{what}: its bytes", done.stdout == out, (len(done.stdout), len(out)))
    return line


def frame(counter: int, length: int = 60) -> tuple[int, int, int]:
    return counter, 0, length


def drawn(draw: random.Random, channels: list[int], start: int, seconds: int, lag: int) -> DrawnRecording:
    """A recording of so many seconds, whose packets stand in the order of their last frames but for a lag."""
    made, packets = DrawnRecording(), []
    for channel in channels:
        if draw.random() < 0.8:
            made.add_program(channel, 0, start, drawn_insns(draw))
        counters = sorted(start + draw.randrange(seconds * SECOND) for _ in range(draw.choice([0, 1, 5, 300])))
        if draw.random() < 0.2:
            draw.shuffle(counters)
        frames = [(it, draw.choice([0, 0, 1, 2]), draw.randrange(18, 200)) for it in counters]
        while frames:
            size = draw.randrange(1, 80)
            packets.append((frames[:size][-1][0] + draw.randrange(lag + 1), channel, frames[:size]))
            frames = frames[size:]
    for _, channel, frames in sorted(packets):
        if draw.random() < 0.05:
            made.add(channel, b"\xaa" * 8, 0x40, start, "other")
        made.add_frames(channel, frames)
    for channel in channels:
        counters = made.channel(channel).counters()
        made.add_end(channel, draw.choice([0, 3]), draw.choice(counters) if counters else start)
    return made
