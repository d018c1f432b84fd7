"""Tries what reads a recording on whole Chapter 11 files: they are read as their recordings are."""

import random
import re
from pathlib import Path

import pytest
from frames import COMPUTER
from packets import packets_in
from reading import recording_of_three
from rows import expected_rows, flight_of, printed, rows_of
from support import BPFREC, SALVAGE, judge, judge_quietly, outcome, run, sums
from whole_file_trials import chapter11

pytestmark = pytest.mark.wanted("bin/bpfrec", "tshark")
SETUP = 'origin = "1764590400.250000123"\n'
ORIGIN_TICKS = 1764590400_2500001


@pytest.fixture(name="pair")
def recording_and_file(work: Path) -> tuple[Path, Path]:
    """A recording of three channels, and its whole file."""
    recording = recording_of_three(work)
    done = chapter11(work, [recording.read_bytes()], SETUP)
    judge_quietly("it is written", done.returncode == 0, done)
    return work / "flight0.ch11", work / "flight.ch10"


def channels_in(recording: Path) -> list[str]:
    return re.findall(r"^channel (\d+) ", run(BPFREC, "audit", recording), re.MULTILINE)


def test_the_audit_answers_the_same(pair: tuple[Path, Path]) -> None:
    """But for packets that are none of its own."""
    recording, file = (run(BPFREC, "audit", it).splitlines() for it in pair)
    judge("each channel", recording[:-1] == file[:-1] and len(file) == 4)
    judge("yes", recording[-1] == "yes other 0" and re.fullmatch(r"yes other [1-9]\d*", file[-1]), file[-1])


def test_each_channel_has_the_same_feed(work: Path, pair: tuple[Path, Path]) -> None:
    for channel in channels_in(pair[0]):
        feeds = []
        for number, it in enumerate(pair):
            told = run(BPFREC, "extract", it, channel, work / f"{number}.feed")
            feeds.append((told, (work / f"{number}.feed").read_bytes()))
        judge(f"channel {channel}: {feeds[0][0].strip()}", feeds[0] == feeds[1] and feeds[0][1])


def test_the_list_has_all_packets(pair: tuple[Path, Path]) -> None:
    lines = run(BPFREC, "list", pair[1]).splitlines()
    packets = list(packets_in(pair[1].read_bytes()))
    others = sum(kind not in (COMPUTER, 0x68) for _, _, kind, _, _ in packets)
    judge(lines[-1], lines[-1] == f"packets {len(packets)} other {others}")
    judge("by their places", [int(it.split()[0]) for it in lines[:-1]] == [at for at, *_ in packets])


def test_an_export_has_the_same_frames(work: Path, pair: tuple[Path, Path]) -> None:
    """Of each channel in order, with its times."""
    seen = []
    for number, it in enumerate(pair):
        out = work / f"{number}.pcapng"
        run(BPFREC, "export", it, out)
        fields = ["-e", "frame.interface_name", "-e", "frame.time_epoch", "-e", "frame.md5_hash"]
        words = ["-r", out, "-o", "frame.generate_md5_hash:TRUE", "-T", "fields", *fields]
        seen.append(sorted(printed(work, *words), key=lambda line: line.split("\t")[0]))
    judge(f"{len(seen[0])} frames", seen[0] == seen[1] and seen[0])


def time_by_its_time_packets(counter: int) -> str:
    """The seconds of a counter: a time packet says the origin to a tick."""
    ticks = ORIGIN_TICKS + counter
    return f"{ticks // 10**7}.{ticks % 10**7:07}00"


def test_wireshark_shows_it_by_the_plugin(work: Path, pair: tuple[Path, Path]) -> None:
    """It has no facts beside it: its time packets tell the times."""
    rows, wanted = rows_of(work, pair[1]), expected_rows(pair[1], time_by_its_time_packets)
    judge(f"{len(rows)} rows", rows == wanted and rows, next((it for it in zip(rows, wanted) if it[0] != it[1]), ""))


def test_salvage_finds_it_whole(work: Path, pair: tuple[Path, Path]) -> None:
    """And of a damaged one all packets but the damaged."""
    done = outcome(SALVAGE, pair[1], work / "salvaged")
    judge("it copies all", done.returncode == 0 and (work / "salvaged").read_bytes() == pair[1].read_bytes(), done)
    data = bytearray(pair[1].read_bytes())
    places = [at for at, _, kind, _, _ in packets_in(bytes(data)) if kind == 0x68]
    data[random.Random(1).choice(places) + 40] ^= 1
    pair[1].write_bytes(data)
    done = outcome(SALVAGE, pair[1], work / "salvaged", "--force")
    left = len(list(packets_in((work / "salvaged").read_bytes())))
    judge("it leaves one out", left == len(list(packets_in(bytes(data)))) - 1, done)


def test_check_finds_it_whole(pair: tuple[Path, Path]) -> None:
    done = sums(pair[1])
    judge("all sums are right", done.returncode == 0, done)


def test_the_file_of_the_examples(work: Path) -> None:
    """Of a recording that the recorder made, whose packets of a slow channel span seconds."""
    recording = flight_of(work)
    done = chapter11(work, [recording.read_bytes()], SETUP)
    judge("it is written", re.fullmatch(r"times \d+ packets \d+ records 4 index 2 bytes \d+\n", done.stdout), done)
