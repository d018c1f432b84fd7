"""Tries bpfrec live --span: packets that are written by their age, and the filters of a channel, which it leaves alone."""

import re
import time
from pathlib import Path

import pytest
from frames import numbers, numbers_in
from namespace import send_numbered
from recordings import (
    Traffic,
    begin,
    extracted,
    facts_of,
    is_approved,
    nothing_left,
    parts_of,
    recordings,
    write_settings,
)
from support import BPFREC, Running, judge, judge_quietly, outcome, present, wait_for

pytestmark = [
    pytest.mark.wanted("bin/bpfrec", "bin/capture", "ip"),
    pytest.mark.timed,
    pytest.mark.usefixtures("namespace"),
]

MOST_VERSIONS, MOST_UNANSWERED = 1_024, 128


def versions_of(printed: str, channel: int) -> list[int]:
    """How many filters a channel had, in each recording."""
    return [int(it) for it in re.findall(rf"channel {channel} versions (\d+) ", printed)]


def in_file(out: Path, channel: int = 1) -> int:
    """How many frames of a channel a recording has that goes on."""
    listed = outcome(BPFREC, "list", out).stdout
    return sum(int(it) for it in re.findall(rf"^\d+ {channel} .* frames (\d+)\b", listed, re.MULTILINE))


def end(running: Running) -> str:
    """Ends a run, and gives its report."""
    return running.end_well()


@pytest.mark.parametrize("words", [[], ["--every", 3]], ids=["single", "every"])
def test_frames_are_in_the_file_within_the_time(work: Path, words: list) -> None:
    """Of a channel of ten frames a second, which has one filter in each recording."""
    out = work / "few.ch11"
    running = begin(work, out, "--quiet", *words)
    traffic = Traffic(60, 0.1)
    late = []
    for _ in range(20):
        time.sleep(0.2)
        sent = traffic.sent
        late.append(sent - sum(in_file(it) for it in (recordings(work, "few") if words else [out])))
    sent = traffic.end()
    time.sleep(0.2)
    printed = end(running)
    judge("those of half a second are missing at most, and of a busy machine", max(late) <= 10, late)
    found = numbers_in(parts_of(work, "few", 1)) if words else numbers(extracted(work, out, 1))
    judge("all frames are there, once", found == list(range(sent)))
    judge("its filter was given once", set(versions_of(printed, 1)) == {1}, printed)


@pytest.mark.parametrize(
    "words, line, span",
    [
        ([], "", 5_000_000),
        (["--span", "100ms"], "", 1_000_000),
        (["--span", 0], "span = 2000000", 2_000_000),
        (["--span", "100ms"], "span = 0", 0),
        (["--span", 0], "", 0),
    ],
    ids=["default", "option", "settings", "none by settings", "none"],
)
def test_frames_of_a_channel_that_falls_silent_are_written(work: Path, words: list, line: str, span: int) -> None:
    """But where it has no span; the facts say which it has."""
    out = work / "silent.ch11"
    settings = write_settings(work, f'id = 1\nfilter = "{work}/all"\n{line}')
    running = begin(work, out, "--quiet", *words, settings=settings, ways=["rx0=1"])
    send_numbered("tx0", 0, 10)
    time.sleep(1.5)
    judge("though none follows", in_file(out) == (10 if span else 0), in_file(out))
    end(running)
    judge("all are there, once", numbers(extracted(work, out, 1)) == list(range(10)) and is_approved(out))
    judge("the facts say it", facts_of(out)["spans"] == [{"channel": 1, "span": span}], facts_of(out)["spans"])


def test_a_channel_without_a_span_takes_the_marks_of_another_one(work: Path) -> None:
    """Of the same interface, and is written at its end."""
    out = work / "both.ch11"
    settings = write_settings(work, f'id = 1\nfilter = "{work}/all"', f'id = 2\nfilter = "{work}/all"\nspan = 0')
    running = begin(work, out, "--quiet", settings=settings, ways=["rx0=1", "rx0=2"])
    send_numbered("tx0", 0, 10)
    time.sleep(1.5)
    judge("one is in the file", (in_file(out, 1), in_file(out, 2)) == (10, 0))
    printed = end(running)
    judge("and both at the end", printed.count(" kept 10 SourceEnd\n") == 2, printed)


def test_two_changes_are_two_versions(work: Path) -> None:
    """However often packets are closed between."""
    running = begin(work, work / "changed.ch11", "--quiet", "--span", "100ms")
    traffic = Traffic(60, 0.01)
    for number, name in enumerate(("none", "all"), 1):
        running.type_in(f"set 1 {work}/{name}")
        running.wait_until_told(f"installed 1 {number} ")
        time.sleep(0.5)
    traffic.end()
    printed = end(running)
    judge("the first one and these", versions_of(printed, 1) == [3] and versions_of(printed, 2) == [1], printed)


def test_the_next_recording_begins_ahead_of_the_last_filters(work: Path) -> None:
    """However many lines come at once, none is refused."""
    running = begin(work, work / "many.ch11", "--quiet", "--every", 1_000)
    traffic = Traffic()
    count = 2_000
    present(running.process.stdin).write(f"set 1 {work}/all\n" * count)
    present(running.process.stdin).flush()
    wait_for("all are answered", lambda: running.told().count("\ninstalled 1 ") == count or "refused" in running.told())
    sent = traffic.end()
    time.sleep(0.2)
    printed, told = end(running), running.told()
    judge("none is refused", "refused" not in told, told[-300:])
    found = versions_of(printed, 1)
    holds = all(MOST_VERSIONS - MOST_UNANSWERED <= it <= MOST_VERSIONS for it in found[:-1])
    judge("recordings follow one another", holds, found)
    judge("as many as it takes", len(found) == 3 and sum(found) >= count, found)
    judge_quietly("each is approved", all(is_approved(it) for it in recordings(work, "many")) and nothing_left(work))
    judge("each frame is in one of them", numbers_in(parts_of(work, "many", 1)) == list(range(sent)))
