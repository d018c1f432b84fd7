"""Tries an adapter's clock that runs UTC, TAI or neither: facts say which, and what reads them gives UTC or says so.

The adapter is played by a library that is preloaded (dev/trials/lib/set_clock.c): its clock is ahead of the host's.
"""

import json
import time
from calendar import timegm
from collections.abc import Callable
from pathlib import Path

import pytest
from clock import Sender, capture_with, off, preloaded
from expected_facts import moments_by, origins_in
from frames import numbers, records
from namespace import make_pair, take_away, wait_until_up
from recordings import YES, begin, extracted, facts_of
from rows import printed
from seen_frames import made, seen_in
from support import CAPTURE, INFO, MILLISECOND, SECOND, Reader, Running, judge, pipe_at, run, wait_for

pytestmark = [
    pytest.mark.wanted("bin/bpfrec", "bin/capture", "ip", "cc", "pcap-config", "tshark", "editcap"),
    pytest.mark.timed,
    pytest.mark.usefixtures("namespace"),
]
FRAMES = 30
TAI = {"scale": "TAI", "tai_offset": 37}
# By how many seconds the adapter's clock is ahead, and what the facts say then.
SCALES: dict[str, tuple[int, dict]] = {"utc": (0, {"scale": "UTC"}), "tai": (37, TAI), "neither": (5, {"scale": None})}


def adapter_ahead(seconds: int) -> dict[str, str]:
    """What a capture runs with whose adapter's clock is ahead of the host's."""
    return {"LD_PRELOAD": str(preloaded()), "ADAPTER_AHEAD": str(seconds)}


def recorded(work: Path, seconds: int) -> tuple[Path, list[tuple[int, int]]]:
    """A recording by such a clock, and the moments between which each frame was sent."""
    out, sender = work / "adapter.ch11", Sender()
    adds = {"CAPTURE": str(capture_with(work, adapter_ahead(seconds)))}
    running = begin(work, out, "--quiet", "--clock", "adapter", adds=adds)
    sender.send(FRAMES, pause=0.01)
    time.sleep(0.3)
    running.interrupt()
    status, said = running.ended()
    judge("it records", status == 0 and YES in said, running.told())
    return out, sender.sent


# ---- what reads facts: the times of channel 1


def by_page_of_formats(work: Path, out: Path) -> list[int]:
    return moments_by(origins_in(facts_of(out)), [it.counter for it in records(extracted(work, out, 1))])


def by_pcapng(work: Path, out: Path) -> list[int]:
    return [it.moment for it in seen_in(made(work, "--channel", 1, out))]


def by_plugin(work: Path, out: Path) -> list[int]:
    chosen = ["-Y", "ch11.number && ch11.channel == 1", "-T", "fields", "-e", "frame.time_epoch"]
    return [int(it.replace(".", "")) for it in printed(work, "-r", out, *chosen)]


def ends_by_info(out: Path) -> list[str]:
    channel = json.loads(run(INFO, "--json", out))["channels"]["1"]
    return [channel["first_time"], channel["last_time"]]


def moment_in(utc: str) -> int:
    return timegm(time.strptime(utc[:19], "%Y-%m-%dT%H:%M:%S")) * SECOND + int(utc[20:27]) * 100


READERS: dict[str, Callable[[Path, Path], list[int]]] = {
    "formats": by_page_of_formats,
    "pcapng": by_pcapng,
    "plugin": by_plugin,
    "info": lambda _, out: [moment_in(it) for it in ends_by_info(out)],
}


@pytest.mark.parametrize("name", SCALES)
def test_facts_say_the_scale_and_readers_give_utc_where_it_is_known(work: Path, name: str) -> None:
    """A frame's time is when it was sent; in a scale that nobody knows it is what the clock had."""
    seconds, scale = SCALES[name]
    out, sent = recorded(work, seconds)
    facts = facts_of(out)
    (origin,) = facts["origins"]
    judge("the origin has its scale", origin == {"origin": origin["origin"], "counter": 0, **scale}, origin)
    judge("origin_utc is known where the scale is", (facts["origin_utc"] is None) == (scale["scale"] is None), facts)
    ahead = seconds * SECOND if scale["scale"] is None else 0
    for reader, read in READERS.items():
        if scale["scale"] is None and reader == "info":
            judge("info knows no UTC", ends_by_info(out) == [None] * 2)
            judge("and says so", run(INFO, out).count("(scale unknown)") == 5)
            continue
        times = read(work, out)
        windows = sent if len(times) == FRAMES else [sent[0], sent[-1]]
        wrong = [off(it - ahead, *window) / MILLISECOND for it, window in zip(times, windows, strict=True)]
        judge(f"times by {reader}", max(wrong) < 2, wrong)


def test_recordings_that_follow_have_the_scale_too(work: Path) -> None:
    """Also of an adapter: the first facts may be written before any frame has shown it."""
    adds = {"CAPTURE": str(capture_with(work, adapter_ahead(37)))}
    running = begin(work, work / "part.ch11", "--quiet", "--clock", "adapter", "--every", 1, adds=adds)
    Sender().send(300, pause=0.01)
    running.end_well()
    found = [facts_of(it)["origins"] for it in sorted(work.glob("part_*.ch11"))]
    (first,) = found[0]
    judge("several recordings with one origin", len(found) > 2 and all(it == [first] for it in found), found)
    judge("by TAI", first == {"origin": first["origin"], "counter": 0, **TAI}, first)


# ---- the capture alone


class Captured:
    """A capture of rx0 by an adapter's clock that runs TAI, with its events."""

    def __init__(self, work: Path) -> None:
        self.pipe, self.events, self.sender = pipe_at(work, "rx0.pipe"), work / "events", Sender()
        words = ["--quiet", "--clock", "adapter", "--events", self.events, f"rx0={self.pipe}"]
        self.running = Running(work, CAPTURE, *words, adds=adapter_ahead(37))
        self.running.wait_until_told("origin")

    def origins(self) -> list[dict]:
        """The scales of the origins that are noted."""
        noted = [json.loads(it) for it in self.events.read_text().splitlines()]
        return [{key: it[key] for key in TAI if key in it} for it in noted if "origin" in it]


def test_frames_that_waited_for_a_reader_do_not_hide_the_scale(work: Path) -> None:
    """By the time at which they are taken their clock seems to be less ahead."""
    captured = Captured(work)
    captured.sender.send(200, pause=0.01)
    reader = Reader(captured.pipe)
    captured.sender.send(100, pause=0.01)
    wait_for("the scale", lambda: len(captured.origins()) == 2, 2)
    captured.running.end_well()
    judge("TAI from the beginning on", captured.origins() == [{"scale": None}, TAI], captured.running.told())
    judge("each frame is there", numbers(reader.all()) == list(range(300)))


def test_an_adapter_that_comes_back_keeps_the_scale(work: Path) -> None:
    captured = Captured(work)
    reader = Reader(captured.pipe)
    captured.sender.send(20)
    captured.running.wait_until_told("TAI")
    take_away("rx0")
    captured.running.wait_until_told("is taken again once it is back")
    make_pair(0)
    captured.running.wait_until_told("rx0: it is back")
    wait_until_up("rx0")
    captured.sender.send(20)
    time.sleep(0.2)
    captured.running.end_well()
    judge("its clock is looked at again", captured.running.told().count("runs TAI") == 2, captured.running.told())
    judge("and the scale stays", captured.origins() == [{"scale": None}, TAI], captured.origins())
    judge("frames of both", len(records(reader.all())) == 40)


def test_without_an_adapters_clock_the_first_origin_is_utc(work: Path) -> None:
    events = work / "events"
    running = Running(work, CAPTURE, "--quiet", "--events", events, f"rx0={work}/rx0.feed")
    running.wait_until_told("origin")
    running.interrupt()
    judge("it ends well", running.ended()[0] == 0)
    origin = json.loads(events.read_text().splitlines()[0])
    judge("UTC", origin == {"origin": origin["origin"], "counter": 0, "scale": "UTC"}, origin)
