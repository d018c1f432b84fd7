"""Tries bpfrec follow on whole Chapter 11 files: what tshark reads of its capture has the names of the setup record and the
times of the time packets, also while bpfrec receive writes the file, and of damaged files."""

import contextlib
import fcntl
import random
import shutil
import subprocess
import time
from collections.abc import Iterator
from pathlib import Path

import pytest
from bpfrec_tools.receive.source import SILENCE
from frames import packet_of
from ground import Receiver, drawn_flight, free_port, rows_in, rows_of, send, stream_of
from packets import packets_in
from recordings import has_open
from support import EXPORT, FOLLOW, judge, judge_quietly, outcome, wait_for
from whole_file import SETUP, TIME
from whole_file_parts import ORIGIN

pytestmark = [pytest.mark.wanted("bin/bpfrec", "ip", "tshark"), pytest.mark.usefixtures("namespace")]
SECONDS = 60


class Followed:
    """bpfrec follow, whose capture goes into a file."""

    def __init__(self, work: Path, *words: object) -> None:
        self.work, self.shown, self.errors = work, work / "shown.pcapng", work / "follow.errors"
        with open(self.shown, "wb") as out, open(self.errors, "wb") as errors:
            self.process = subprocess.Popen([str(FOLLOW), *map(str, words)], stdout=out, stderr=errors)

    def told(self) -> list[str]:
        return self.errors.read_text().splitlines()

    def rows(self) -> list[str]:
        """What tshark reads of it once it has ended, or so far."""
        return rows_in(self.work, self.shown)

    def ended(self) -> int:
        return self.process.wait(SECONDS)


def ground_file(work: Path, seed: int) -> tuple[Path, list[str]]:
    """A whole file as a receiver has it of a recording, and what tshark should read of it."""
    stream = stream_of(drawn_flight(work, seed))
    (work / "ground.ch10").write_bytes(bytes(stream.file.data))
    return work / "ground.ch10", rows_of(stream)


@contextlib.contextmanager
def being_written(path: Path) -> Iterator[None]:
    """Somebody writes a file, by its lock."""
    with open(path, "rb") as written:
        fcntl.flock(written, fcntl.LOCK_EX)
        yield


@pytest.mark.parametrize("seed", [1, 2, 3])
def test_it_has_its_names_and_times(work: Path, seed: int) -> None:
    """Whatever facts lie beside it."""
    path, rows = ground_file(work, seed)
    shutil.copy(work / "flight.ch11.json", f"{path}.json")
    followed = Followed(work, path)
    judge_quietly("it ends well", followed.ended() == 0, followed.told())
    judge("each frame", followed.rows() == rows, (len(followed.rows()), len(rows)))
    judge("no line but the counts", followed.told() == [f"frames {len(rows)} skipped 0"], followed.told())


def test_a_channel_is_asked_for_by_its_id_or_its_name(work: Path) -> None:
    path, rows = ground_file(work, 1)
    channels = stream_of(work / "flight.ch11").setup.channels
    channel, (name, _) = max(channels.items(), key=lambda it: sum(row.startswith(f"{it[1][0]}\t") for row in rows))
    for asked in (channel, name, f"{name} of bpfrec"):
        followed = Followed(work, "--channel", asked, path)
        judge_quietly("it ends well", followed.ended() == 0, followed.told())
        judge(f"{asked}", followed.rows() == [it for it in rows if it.startswith(f"{name}\t")] != [])
    named = ", ".join(f"{number} {it}" for number, (it, _) in sorted(channels.items()))
    lines = {path: f"no channel bus: {named}"}
    without = bytearray(path.read_bytes())
    without[60] ^= 1
    (work / "unnamed.ch10").write_bytes(without)
    lines[
        work / "unnamed.ch10"
    ] = "no setup record or no time packet of it can be read, so --channel takes numbers, as 1"
    for file, line in lines.items():
        done = outcome(FOLLOW, "--channel", "bus", file, errors="replace")
        is_said = done.stderr.endswith(f"bpfrec follow: {file}: {line}\n")
        judge(line, (done.returncode, is_said) == (1, True), done.stderr)


def test_it_is_followed_as_it_is_received(work: Path) -> None:
    """From before its first packet on, and over the files that follow, until the receiver ends."""
    port, rows = free_port(), []
    receiver = Receiver(work, "ground.ch10", f"127.0.0.1:{port}")
    followed = Followed(work, receiver.out)
    for seed in sorted(range(1, 4), key=lambda it: rows_of(stream_of(drawn_flight(work, it)))[0].split()[1]):
        path = drawn_flight(work, seed)
        sent = path.rename(work / f"run{seed}.ch11")
        Path(f"{path}.json").rename(f"{sent}.json")
        send(sent, f"127.0.0.1:{port}")
        rows += rows_of(stream_of(sent))
        wait_for("it is shown as it comes", lambda: len(followed.rows()) == len(rows))
        time.sleep(SILENCE + 0.2)
    judge("it goes on", followed.process.poll() is None and (work / "ground_00003.ch10").exists())
    judge_quietly("the receiver ends well", receiver.ended()[0] == 0, receiver.errors.read_text())
    judge("it ends with the receiver", followed.ended() == 0, followed.told())
    judge("all frames, in order", followed.rows() == rows, (len(followed.rows()), len(rows)))


def test_one_of_another_day_is_no_file_that_follows(work: Path) -> None:
    path, rows = ground_file(work, 1)
    other = bytes(stream_of(drawn_flight(work, 2)).file.data)
    *_, setup = next(packets_in(other))
    # Its time packets are gone, so nothing says when it began.
    (work / "ground_00002.ch10").write_bytes(packet_of(0, setup, 0, SETUP, 0, True))
    followed = Followed(work, path)
    judge("it alone", (followed.ended(), followed.rows()) == (0, rows), followed.told())


def test_with_now_what_is_there_is_left_out(work: Path) -> None:
    path, rows = ground_file(work, 1)
    data = path.read_bytes()
    places = [it[0] for it in packets_in(data)]
    at = places[len(places) // 2]
    path.write_bytes(data[:at])
    shown = len(rows_of_frames(work, path))
    with being_written(path):
        followed = Followed(work, "--now", path)
        wait_for("it is followed", lambda: has_open(followed.process.pid, path))
        time.sleep(0.3)
        with open(path, "ab") as file:
            file.write(data[at:])
    judge_quietly("it ends well", followed.ended() == 0, followed.told())
    judge("the rest, with names and times", followed.rows() == rows[shown:] and 0 < shown < len(rows), shown)


def rows_of_frames(work: Path, path: Path) -> list[str]:
    """What tshark reads of the capture that bpfrec export makes of a file, whether or not it is damaged."""
    done = outcome(EXPORT, "--force", path, work / "whole.pcapng")
    judge_quietly("it is exported", done.returncode in (0, 1), done.stderr)
    return rows_in(work, work / "whole.pcapng")


def test_a_setup_record_may_be_long(work: Path) -> None:
    """Longer than any packet of a recording, and it comes in pieces."""
    stream = stream_of(drawn_flight(work, 1))
    data = bytes(stream.file.data)
    rows, ((_, _, _, counter, text), (behind, *_)) = rows_of(stream), [*packets_in(data)][:2]
    text += b"".join(b"X-%d:%s;\r\n" % (it, b"a" * 1_000) for it in range(700))
    setup = packet_of(0, text, 0, SETUP, counter, True)
    path = work / "ground.ch10"
    path.write_bytes(setup[:600_000])
    with being_written(path):
        followed = Followed(work, path)
        wait_for("it is followed", lambda: followed.shown.stat().st_size > 0)
        with open(path, "ab") as file:
            file.write(setup[600_000:] + data[behind:])
        wait_for("it is shown as it comes", lambda: len(followed.rows()) == len(rows))
    judge("it ends well", (followed.ended(), followed.rows()) == (0, rows), followed.told())


@pytest.mark.parametrize("seed", range(16))
def test_damaged_and_cut_files_have_what_is_whole(work: Path, seed: int) -> None:
    """The frames, the names and the times that an export has, and a line for each place."""
    path, _ = ground_file(work, seed % 4)
    draw, data = random.Random(seed), bytearray(path.read_bytes())
    # Setup records are left whole: their names are tried above.
    begins = [it[0] for it in packets_in(bytes(data))][1]
    for _ in range(draw.choice([1, 2])):
        data[draw.randrange(begins, len(data))] ^= 1 << draw.randrange(8)
    path.write_bytes(data[: draw.choice([len(data), draw.randrange(begins, len(data))])])
    rows, followed = rows_of_frames(work, path), Followed(work, path)
    status, told = followed.ended(), followed.told()
    judge_quietly("a status", status == (1 if len(told) > 1 else 0), told)
    judge("a named place", all(it.startswith(f"bpfrec follow: {path}: ") for it in told[:-1]), told)
    judge("the same frames", sorted(followed.rows()) == sorted(rows), (len(followed.rows()), len(rows)))


@pytest.mark.parametrize("seed", range(4))
def test_a_repeated_setup_record_that_is_damaged_costs_no_name(work: Path, seed: int) -> None:
    path, rows = ground_file(work, seed)
    data = bytearray(path.read_bytes())
    at = [it[0] for it in packets_in(bytes(data)) if it[2] == SETUP][1]
    data[at + 60] ^= 1
    path.write_bytes(data)
    name = rows[-1].split("\t")[0]
    followed = Followed(work, "--channel", name, path)
    lines = [f"bpfrec follow: {path}: the setup record at byte {at} can't be read"]
    found = (followed.ended(), followed.told()[:-1], followed.rows())
    judge("its line, and all frames", found == (1, lines, [it for it in rows if it.startswith(f"{name}\t")]), found[:2])


def test_a_file_without_time_packets_has_times_since_counter_0(work: Path) -> None:
    """And a line says so."""
    path, rows = ground_file(work, 1)
    data = path.read_bytes()
    packets = [*packets_in(data)]
    ends = [*(it[0] for it in packets[1:]), len(data)]
    path.write_bytes(b"".join(data[it[0] : end] for it, end in zip(packets, ends) if it[2] != TIME))
    followed = Followed(work, path)
    line = "no time packet ahead of its first frames can be read, so times are those since counter 0"
    found = (followed.ended(), followed.told()[:-1])
    judge("a line", found == (0, [f"bpfrec follow: {path}: {line}"]), found)
    split = [[it.split("\t") for it in shown] for shown in (followed.rows(), rows)]
    moments = [[int(time.replace(".", "")) for _, time, _ in shown] for shown in split]
    judge("times", moments[0] == [it - ORIGIN // 100 * 100 for it in moments[1]], moments[0][:2])
    judge("names", [it[::2] for it in split[0]] == [it[::2] for it in split[1]])
