"""Tries every number that bpfrec info prints, as text, as JSON and on its page, on recordings that were drawn."""

import html
import json
import random
import re
from collections import Counter
from pathlib import Path
from typing import Any, Optional

import pytest
from drawn_recording import TICKS, Channel, DrawnRecording, Version, drawn_recording
from support import BPFREC, INFO, judge, judge_quietly, outcome

pytestmark = pytest.mark.wanted("bin/bpfrec")
DRAWN = 12
# What docs/user/using/read.md and docs/dev/DECISIONS/reading.md have as bounds.
MOST_PLACES, MOST_SECONDS, MOST_BARS, MOST_GAPS, MOST_AHEAD = 1_000, 100_000, 450, 100, 10
SHORTEST_BAR = 10_000
HEADS = ("channel", "frames", "offered", "frames/s", "first s", "last s")
WIDTHS = (7, 13, 13, 11, 15, 15)

# ---- numbers, as they follow from what was drawn


def greatest_rate(counters: list[int]) -> tuple[Optional[int], int]:
    """The most frames of a second, or of so many seconds that at most so many are known; and how many seconds."""
    seconds = 1
    while len({it // (seconds * TICKS) for it in counters}) > MOST_SECONDS:
        seconds *= 2
    return max(Counter(it // (seconds * TICKS) for it in counters).values(), default=None), seconds


def mean_rate(channel: Channel) -> Optional[float]:
    known = channel.counters()
    if len(set(known)) < 2:
        return None
    return len(known) * TICKS / (max(known) - min(known))


def joined(versions: list[Version]) -> list[tuple[Version, int]]:
    """Versions without those that repeat the program before them, each with the last number of its program."""
    found: list[tuple[Version, int]] = []
    for version in versions:
        if found and found[-1][0].insns == version.insns:
            found[-1] = found[-1][0], version.number
        else:
            found.append((version, version.number))
    return found


def expected_channel(channel: Channel) -> dict[str, Any]:
    known, gaps = channel.counters(), channel.gaps()
    most, seconds = greatest_rate(known)
    return {
        "name": None,
        "span": None,
        "frames": len(known),
        "bytes": sum(length for _, _, length in channel.frames),
        "offered": channel.end[0] if channel.end else None,
        "dropped_by_filter": channel.end[0] - channel.end[1] if channel.end else None,
        "first_counter": known[0] if known else None,
        "last_counter": known[-1] if known else None,
        "first_time": None,
        "last_time": None,
        "least_counter": min(known, default=None),
        "greatest_counter": max(known, default=None),
        "time": known[-1] - known[0] if known else None,
        "mean_rate": mean_rate(channel),
        "greatest_rate": most,
        "greatest_rate_seconds": seconds,
        "longest_gap": max(0, *gaps) if gaps else None,
        "steps_back": sum(it < 0 for it in gaps),
        "marked": sum(marks > 0 for _, marks, _ in channel.frames),
        "version_count": len(channel.versions),
        "versions": [
            {"version": it.number, "until": until, "first_frame": it.first, "counter": it.counter, "words": None}
            for it, until in joined(channel.versions)
        ],
        "has_end": channel.end is not None,
    }


def expected_object(made: DrawnRecording, audit: str) -> dict[str, Any]:
    missing: Counter[str] = Counter()
    for _, channel, _, count in made.missing:
        missing[str(channel)] += count
    return {
        "facts": None,
        "whole_file": None,
        "bytes": len(made.data),
        "packets": {kind: made.kinds[kind] for kind in ("frames", "program", "end", "other")},
        "missing_sequence_numbers": dict(missing),
        "gap_count": len(made.missing),
        "gaps": [
            {"at": at, "channel": channel, "from": first, "missing": count}
            for at, channel, first, count in made.missing[:MOST_PLACES]
        ],
        "damaged_count": len(made.damages),
        "damaged_bytes": sum(length for _, _, length, _ in made.damages),
        "damaged": [{"at": at, "fault": fault, "bytes": length} for at, fault, length, _ in made.damages[:MOST_PLACES]],
        "audit": audit,
        "channels": {str(number): expected_channel(it) for number, it in made.channels.items()},
    }


# ---- the same as a text


def number(value: Optional[float]) -> str:
    if value is None:
        return "unknown"
    return format(value, ",.1f" if isinstance(value, float) else ",d")


def seconds(ticks: Optional[int]) -> str:
    return "unknown" if ticks is None else f"{'-' * (ticks < 0)}{abs(ticks) // TICKS}.{abs(ticks) % TICKS:07d} s"


def with_more(texts: list[str], count: int) -> str:
    """The first texts of places, and how many more there are."""
    shown = texts[:MOST_PLACES]
    return ", ".join(shown + [f"and {count - len(shown):,} more"] * (count > len(shown))) or "none"


def expected_rows(known: dict[str, Any]) -> list[tuple[str, str]]:
    """The rows of a channel."""
    most, width = known["greatest_rate"], known["greatest_rate_seconds"]
    time = "a second" if width == 1 else f"{width} seconds"
    ends = f"{number(known['least_counter'])}, {number(known['greatest_counter'])}"
    return [
        ("frames kept", number(known["frames"])),
        ("bytes kept", number(known["bytes"])),
        ("frames offered", number(known["offered"])),
        ("dropped by the filter", number(known["dropped_by_filter"])),
        ("first counter", number(known["first_counter"])),
        ("last counter", number(known["last_counter"])),
        *([("least, greatest counter", ends)] if known["steps_back"] else []),
        ("time between", seconds(known["time"])),
        ("mean rate", f"{number(known['mean_rate'])} frames/s" if known["mean_rate"] else "unknown"),
        ("greatest rate", f"{number(most)} frames in {time}" if most else "unknown"),
        ("longest gap", seconds(known["longest_gap"])),
        ("counters that step back", number(known["steps_back"])),
        ("frames with error flags", number(known["marked"])),
        ("versions of the filter", number(known["version_count"])),
        ("end record", "there" if known["has_end"] else "missing"),
    ]


def expected_whole(made: DrawnRecording, known: dict[str, Any]) -> list[tuple[str, str]]:
    gaps = [f"{count} of channel ID {channel} from {first} at {at}" for at, channel, first, count in made.missing]
    damages = [f"{fault} at {at} ({length:,} bytes)" for at, fault, length, _ in made.damages]
    return [
        ("bytes", number(known["bytes"])),
        *((f"packets: {kind}", number(count)) for kind, count in known["packets"].items()),
        ("missing sequence numbers", with_more(gaps, len(gaps))),
        ("damaged places", with_more(damages, len(damages))),
        ("audit", known["audit"]),
    ]


def plain_seconds(counter: Optional[int]) -> str:
    return "-" if counter is None else seconds(counter)[:-2]


def expected_ahead(made: DrawnRecording, known: dict[str, Any]) -> list[str]:
    """The table of channels, and the damaged places behind it."""
    lines = [" ".join(it.rjust(width) for it, width in zip(HEADS, WIDTHS)) + "  remarks"]
    for name, channel in sorted(known["channels"].items(), key=lambda row: int(row[0])):
        missing = known["missing_sequence_numbers"].get(name, 0)
        offered = "-" if channel["offered"] is None else number(channel["offered"])
        rate = "-" if channel["mean_rate"] is None else number(channel["mean_rate"])
        times = [plain_seconds(channel[key]) for key in ("first_counter", "last_counter")]
        cells = [name, number(channel["frames"]), offered, rate, *times]
        told = {"KEPT NOTHING": not channel["frames"], "NO END RECORD": not channel["has_end"]}
        marks = [mark for mark, holds in told.items() if holds] + [f"{missing:,} PACKETS MISSING"] * bool(missing)
        line = " ".join(cell.rjust(width) for cell, width in zip(cells, WIDTHS))
        lines.append(f"{line}  {', '.join(marks)}".rstrip())
    for at, fault, length, before in made.damages[:MOST_AHEAD]:
        where = "ahead of all frames"
        if before:
            where = f"behind frames of channel {before[0]} at {plain_seconds(before[1])} s"
        lines.append(f"DAMAGED {fault} at {at:,} ({length:,} bytes), {where}")
    more = len(made.damages) - MOST_AHEAD
    return lines + [f"DAMAGED {more:,} more places"] * (more > 0)


def expected_text(made: DrawnRecording, known: dict[str, Any]) -> list[str]:
    """All lines of the text."""
    lines = [*expected_ahead(made, known), ""]
    lines += [f"{name:<26} {value}" for name, value in expected_whole(made, known)]
    for name, channel in sorted(known["channels"].items(), key=lambda row: int(row[0])):
        rows = expected_rows(channel)
        for version in channel["versions"]:
            first, last = version["version"], version["until"]
            numbers = f"version {first}" if first == last else f"version {first} to {last}"
            rows.append((numbers, f"from frame {version['first_frame']:,}, counter {version['counter']:,}"))
        lines += ["", f"channel {name}", *(f"  {row:<26} {value}" for row, value in rows)]
    return lines


# ---- the page


def bar_ticks(made: DrawnRecording) -> int:
    """How many ticks a bar of the page has, so that all counters have at most so many bars."""
    known = [it for channel in made.channels.values() for it in channel.counters()]
    known += [it.counter for channel in made.channels.values() for it in channel.versions]
    known += [channel.end[2] for channel in made.channels.values() if channel.end and channel.end[0]]
    ticks = SHORTEST_BAR
    while max(known) // ticks - min(known) // ticks >= MOST_BARS:
        ticks *= 2
    return ticks


def judge_page(page: str, made: DrawnRecording, known: dict[str, Any]) -> None:
    """The rows of its tables, the highest bars, and the gaps of over a second."""
    rows = [tuple(map(html.unescape, it)) for it in re.findall(r"<tr><th>(.*?)</th><td[^>]*>(.*?)</td></tr>", page)]
    channels = sorted(made.channels.items())
    wanted = expected_whole(made, known) + [
        row for name, _ in channels for row in expected_rows(known["channels"][str(name)])
    ]
    judge_quietly("the rows of the page", rows == wanted, set(rows) ^ set(wanted))
    ticks = bar_ticks(made)
    for section, (_, channel) in zip(page.split("<section>")[1:], channels):
        bars = Counter(it // ticks for it in channel.counters())
        most = max(bars.values(), default=0)
        label = f"highest bar: {most / (ticks / TICKS):,.1f} frames/s ({most:,} in {ticks / TICKS:g} s)"
        judge_quietly(f"{label} is on the page", label in section, section[:400])
        judge_quietly("each bar", section.count("<rect class=bar ") == len(bars), len(bars))
        gaps = sorted((it for it in channel.gaps() if it > TICKS), reverse=True)[:MOST_GAPS]
        told = re.findall(r"<title>no frame for (.*?)</title>", section)
        judge_quietly("the gaps of over a second", sorted(told) == sorted(map(seconds, gaps)), told)


def judge_info(work: Path, made: DrawnRecording) -> None:
    """What info says of a drawn recording, in its three forms."""
    recording, page = work / "drawn.ch11", work / "drawn.html"
    recording.write_bytes(made.data)
    audited = outcome(BPFREC, "audit", recording)
    known = expected_object(made, (audited.stdout or audited.stderr).splitlines()[-1])
    status = 1 if made.damages else 0
    done = outcome(INFO, "--json", recording, seconds=60)
    found = json.loads(done.stdout)
    different = {it for it in known if found.get(it) != known[it]}
    judge_quietly(f"JSON: {different}", done.returncode == status and found == known, (found, known))
    done = outcome(INFO, recording, seconds=60)
    wanted = expected_text(made, known)
    holds = done.returncode == status and done.stdout.splitlines() == wanted
    judge_quietly("the text", holds, set(done.stdout.splitlines()) ^ set(wanted))
    judge_quietly("the page is made", outcome(INFO, "--html", page, recording, seconds=60).returncode == status)
    judge_page(page.read_text(), made, known)


@pytest.mark.parametrize("seed", range(DRAWN))
def test_numbers_of_drawn_recordings_are_those_counted_anew(work: Path, seed: int) -> None:
    judge_info(work, drawn_recording(random.Random(seed)))


def test_rates_of_long_recordings_are_right(work: Path) -> None:
    """A frame a second, for more seconds than are known one by one, and some seconds with several."""
    made = DrawnRecording()
    made.add_program(1, 0, 0, b"\x06\0\0\0\1\0\0\0")
    for begin in range(0, 150_000, 500):
        made.add_frames(1, [(at * TICKS + 7, 0, 18) for at in range(begin, begin + 500)])
    made.add_frames(1, [(TICKS * 150_000 + at, 1, 60) for at in range(12)])
    made.add_end(1, 3, TICKS * 150_001)
    judge_info(work, made)


@pytest.mark.parametrize("count", [MOST_GAPS // 2, 3 * MOST_GAPS])
def test_gaps_are_found_and_counted(work: Path, count: int) -> None:
    """Gaps of a second and longer ones, fewer than are shown, and more."""
    made, draw, counter = DrawnRecording(), random.Random(DRAWN), 0
    made.add_program(1, 0, 0, b"\x06\0\0\0\1\0\0\0")
    for _ in range(count):
        made.add_frames(1, [(counter, 0, 60), (counter + TICKS, 0, 60)])
        counter += 2 * TICKS + draw.choice([1, TICKS, draw.randrange(1, 90 * TICKS)])
    judge_info(work, made)


def test_many_damaged_places_are_counted(work: Path) -> None:
    """More damaged places and more places of missing packets than are told one by one."""
    made = DrawnRecording()
    made.add_program(7, 0, 0, b"\x06\0\0\0\1\0\0\0")
    for turn in range(MOST_PLACES + 100):
        made.add_frames(7, [(turn * 1_000, turn % 4, 60)])
        made.skip(7, 1 + turn % 16)
        made.add_junk(1 + turn % 5)
    made.add_frames(7, [(TICKS, 0, 60)])
    judge_info(work, made)
    judge("all places are counted", len(made.damages) == len(made.missing) == MOST_PLACES + 100)
