"""Tries the corners of recordings and of times (dev/trials/lib/corners.py) by all that read them: the program, the tools
in Python, the capture in C and the plugin in Lua."""

import json
from collections.abc import Callable
from pathlib import Path

import pytest
from corners import ORIGINS, RECORDINGS, end_of, frame_of, of_frames
from expected_facts import facts_of_run, moments_by, time_by
from exports import wanted_of
from frames import Record, records
from reading import facts_of
from rows import printed, rows_of
from support import BPFREC, CAPTURE, EXPORT, INFO, judge, judge_quietly, outcome, run

pytestmark = pytest.mark.wanted("bin/bpfrec", "bin/capture", "tshark")
# The times of a capture: nanoseconds of 64 bits since 1970.
MOST_UNITS = 2**64

# ---- recordings


def by_extract(work: Path, recording: Path) -> list[Record]:
    run(BPFREC, "extract", recording, 1, work / "out.feed")
    return records((work / "out.feed").read_bytes())


def of_capture(work: Path) -> list[Record]:
    """The frames of a capture out.pcapng, whose times are those since counter 0, by the capture in C."""
    run(CAPTURE, "--origin", "zero", "-r", f"{work}/out.pcapng={work}/other.feed")
    return records((work / "other.feed").read_bytes())


def by_export(work: Path, recording: Path) -> list[Record]:
    run(BPFREC, "export", recording, work / "out.pcapng")
    judge_quietly("by its page", (work / "out.pcapng").read_bytes() == wanted_of(recording.read_bytes()).bytes)
    return of_capture(work)


def by_pcapng(work: Path, recording: Path) -> list[Record]:
    run(EXPORT, "--force", recording, work / "out.pcapng")
    return of_capture(work)


def by_plugin(rows: list[dict[str, str]]) -> list[tuple[int, int, int]]:
    """Of each frame its counter, its marks and its length."""
    found = [it for it in rows if "number" in it]
    marks = [int(it["wrong_fcs"]) + 2 * int(it["other_error"]) for it in found]
    return [(int(it["counter"]), mark, int(it["length"])) for it, mark in zip(found, marks)]


READERS: dict[str, Callable[[Path, Path], list[Record]]] = {
    "extract": by_extract,
    "export": by_export,
    "pcapng": by_pcapng,
}


@pytest.mark.parametrize("name", RECORDINGS)
def test_corners_of_recordings_are_read_alike(work: Path, name: str) -> None:
    corner, recording = RECORDINGS[name], work / "x.ch11"
    recording.write_bytes(corner.data)
    wanted = [Record(counter, mark_of(word), data) for counter, word, data in corner.frames]
    for reader, read in READERS.items() if wanted else ():
        found = read(work, recording)
        judge(f"{name} by {reader}", found == wanted, found)
    rows, told = rows_of(work, recording), facts_of(recording)
    shown = by_plugin(rows)
    judge(f"{name} by the plugin", shown == [(it.counter, it.marks, len(it.frame)) for it in wanted], shown)
    frames = told["channels"].get("1", {}).get("frames", 0)
    judge(f"{name} by info", (frames, told["damaged_count"]) == (len(wanted), 0), told)
    listed = [it.split()[-3:] for it in run(BPFREC, "list", recording).splitlines() if " end " in it]
    judge("the ends by list", [tuple(map(int, it)) for it in listed] == corner.ends, listed)
    shown_ends = [tuple(int(it[key]) for key in ("channel", "offered", "kept")) for it in rows if "offered" in it]
    judge("by the plugin", shown_ends == corner.ends, shown_ends)
    offered = [(channel, told["channels"][str(channel)]["offered"]) for channel, *_ in corner.ends]
    judge("and by info", offered == [it[:2] for it in corner.ends], offered)


def mark_of(word: int) -> int:
    """The marks of a feed for the highest bits of a frame's word."""
    return (word >> 31) + (word >> 30 & 1) * 2


def test_headers_and_ends_are_shown_with_their_own_numbers(work: Path) -> None:
    """In the plugin, of a packet that has no frames, where no two are alike."""
    (work / "x.ch11").write_bytes(end_of(7, 2**33 + 3, 5))
    shown = "\n".join(printed(work, "-r", work / "x.ch11", "-V"))
    wanted = ["Packet length: 56", "Data length: 28", "Data type version: 8", "Sequence number: 1"]
    lacking = [it for it in wanted if f"{it}\n" not in shown]
    judge("of its header", lacking == [], (lacking, shown))
    judge("and in a line", "end of channel 7, frames offered 8589934595, kept 5\n" in shown, shown)


# ---- times


def times_of_info(work: Path, recording: Path) -> list[str]:
    channel = json.loads(run(INFO, "--json", recording))["channels"]["1"]
    return [channel["first_time"], channel["last_time"]]


def times_of_plugin(work: Path, recording: Path) -> list[int]:
    found = [it["time"].partition(".") for it in rows_of(work, recording) if "number" in it]
    return [int(f"{whole}{rest}") for whole, _, rest in found]


def judge_pcapng(work: Path, recording: Path, moments: list[int]) -> None:
    """A capture has the times that fit, and the first one that doesn't is refused."""
    done = outcome(EXPORT, "--force", recording, work / "out.pcapng")
    if all(0 <= it < MOST_UNITS for it in moments):
        judge_quietly("it is made", done.returncode == 0, done)
        wanted = sorted(it // 100 % 2**48 for it in moments)
        judge("by pcapng", sorted(it.counter for it in of_capture(work)) == wanted, moments)
    else:
        where = "before" if min(moments) < 0 else "past"
        holds = done.returncode == 1 and f" is {where} the times of a capture\n" in done.stderr
        judge(f"pcapng says {where}", holds, done)


@pytest.mark.parametrize("name", ORIGINS)
def test_corners_of_times_are_read_alike(work: Path, name: str) -> None:
    (origins, counters), recording = ORIGINS[name], work / "x.ch11"
    recording.write_bytes(of_frames([(it, 0, frame_of(60, 0)) for it in counters], True))
    (work / "x.ch11.json").write_text(json.dumps(facts_of_run(origins)))
    moments = moments_by(origins, counters)
    found = times_of_plugin(work, recording)
    judge(f"{name} by the plugin", found == moments, (found, moments))
    wanted = [time_by(origins, it) for it in (counters[0], counters[-1])]
    judge(f"{name} by info", times_of_info(work, recording) == wanted, (times_of_info(work, recording), wanted))
    judge_pcapng(work, recording, moments)
