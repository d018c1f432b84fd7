"""Tries `bpfrec chapter11 --stream` on recordings that raced threads make, while they grow and in drawn pieces: what comes is
what a second writer makes of the same packets, and for each cut of the input a beginning of that."""

import contextlib
import os
import random
import subprocess
import threading
import time
from collections.abc import Iterator
from pathlib import Path
from typing import BinaryIO

import pytest
from frames import feed_of
from packets import packets_in
from recorder import LISTINGS, begin, write_settings
from second_opinion import opinion_of
from stream_trials import NOW, SECOND, expected, settings, streamed
from streamed import Stream
from support import BPFREC, judge, judge_quietly, present
from whole_file_trials import setup_text

pytestmark = pytest.mark.wanted("bin/bpfrec")
CHANNELS, FRAMES, CHANGES = 3, 400, 12


def drawn_feed(draw: random.Random) -> bytes:
    """A channel's feed over some seconds, in which now and then a counter is less than the one before."""
    counter, records = draw.randrange(SECOND), []
    for _ in range(FRAMES):
        counter = max(counter + draw.choice([1, 1_000, 100_000, 100_000, 1_000_000, -5_000]), 0)
        records.append((counter, 0, draw.randbytes(draw.choice([64, 300, 1_500]))))
    return feed_of(records)


def feed_in_pieces(path: Path, data: bytes, seed: int) -> None:
    """Writes a feed into a pipe, in pieces and with pauses that are drawn."""
    draw, at = random.Random(seed), 0
    with contextlib.suppress(BrokenPipeError), open(path, "wb", buffering=0) as pipe:
        while at < len(data):
            size = draw.randrange(1, 30_000)
            pipe.write(data[at : at + size])
            at += size
            time.sleep(draw.random() / 100)


class Raced:
    """A recorder whose channels are fed by a thread each, and whose filters are replaced meanwhile."""

    def __init__(self, work: Path, seed: int) -> None:
        self.draw, self.work, self.out = random.Random(seed), work, work / "raced.ch11"
        names = [f"{channel}.pipe" for channel in range(1, CHANNELS + 1)]
        for name in names:
            os.mkfifo(work / name)
        written = write_settings(work, names, [self.draw.choice(["all", "half"]) for _ in names])
        written.write_text("limit = 16424\nring = 2\n" + written.read_text())
        self.recorder = begin(written, self.out, stdin=subprocess.PIPE, stderr=subprocess.DEVNULL)
        feeds = [(work / name, drawn_feed(self.draw), self.draw.randrange(2**32)) for name in names]
        self.threads = [threading.Thread(target=feed_in_pieces, args=it) for it in feeds]
        self.threads.append(threading.Thread(target=self.change))
        for thread in self.threads:
            thread.start()

    def change(self) -> None:
        """Replaces filters, and ends the lines."""
        with contextlib.suppress(BrokenPipeError), present(self.recorder.stdin) as lines:
            for _ in range(CHANGES):
                name = self.draw.choice([*set(LISTINGS) - {"bad"}])
                lines.write(f"set {self.draw.randrange(1, CHANNELS + 1)} {self.work / name}\n")
                lines.flush()
                time.sleep(self.draw.random() / 10)

    def pieces(self) -> Iterator[bytes]:
        """What the recording has, in drawn pieces as it grows, to its end."""
        while not self.out.exists():
            time.sleep(0.001)
        with open(self.out, "rb", buffering=0) as file:
            while True:
                has_ended = self.recorder.poll() is not None
                data = file.read(self.draw.choice([1, 7, 24, 1_000, 50_000]))
                if data:
                    yield data
                elif has_ended:
                    break
                else:
                    time.sleep(0.002)
        for thread in self.threads:
            thread.join()
        judge_quietly("it was recorded", present(self.recorder.stdout).read().count("SourceEnd") == CHANNELS)


def read_all(stream: BinaryIO, got: bytearray) -> None:
    """Reads to the end."""
    while data := stream.read1(1 << 20):  # type: ignore[attr-defined]
        got += data


@pytest.mark.parametrize("seed", range(6))
def test_raced_recordings_while_they_grow(work: Path, seed: int) -> None:
    raced = Raced(work, seed)
    words = [str(BPFREC), "chapter11", "--stream", str(settings(work, setup_text(NOW)))]
    got, given, sent = bytearray(), bytearray(), []
    with subprocess.Popen(words, stdin=subprocess.PIPE, stdout=subprocess.PIPE, stderr=subprocess.PIPE) as process:
        reader = threading.Thread(target=read_all, args=(process.stdout, got))
        reader.start()
        for piece in raced.pieces():
            # What came of the pieces before.
            sent.append((len(given), len(got)))
            given += piece
            present(process.stdin).write(piece)
            present(process.stdin).flush()
        present(process.stdin).close()
        reader.join()
        line, status = present(process.stderr).read().decode(), process.wait()
    data = raced.out.read_bytes()
    out, *wanted = expected(data, NOW)
    judge_quietly("all of it was given", given == data and len(sent) > 20, (len(given), len(data)))
    judge("as it ends", [status, line] == wanted and " times 1 " not in line, (status, line, wanted))
    judge("the list of the definition", bytes(got) == out, (len(got), len(out)))
    opinion = opinion_of(bytes(got))
    judge_quietly("a second opinion approves it", opinion.is_right, opinion.lines[-5:])
    judge_growth(data, sent)
    judge_cuts(work, data, out, random.Random(seed))


def judge_growth(data: bytes, sent: list[tuple[int, int]]) -> None:
    """No more had come of any beginning than goes out of the packets that it has."""
    stream, ends = Stream(NOW), [(0, 0)]
    for packet, end in zip(packets_in(data), [*(it[0] for it in packets_in(data)), len(data)][1:]):
        stream.put(*packet)
        ends.append((end, len(stream.file.data)))
    for given, came in sent:
        most = max(length for end, length in ends if end <= given)
        judge_quietly(f"of {given} bytes", came <= most, (came, most))


def judge_cuts(work: Path, data: bytes, out: bytes, draw: random.Random) -> None:
    """A recording that is cut gives what the second writer makes of its whole packets, a beginning of what all give."""
    places = [it[0] for it in packets_in(data)]
    for cut in sorted({*draw.sample(places, 8), *draw.choices(range(len(data)), k=8)}):
        done = streamed(work, data[:cut], NOW)
        begins, *_ = expected(data[: max(it for it in [*places, len(data)] if it <= cut)], NOW)
        judge_quietly(
            f"cut at {cut}", done.stdout == begins and out.startswith(begins), (len(done.stdout), len(begins))
        )
        told = (done.returncode, done.stderr.startswith(b"packets "))
        judge_quietly(f"its end at {cut}", told == ((0, True) if cut in places else (1, False)), done.stderr)
