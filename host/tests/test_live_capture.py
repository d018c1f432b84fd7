"""Tries what bpfrec live reads of the capture: events in a file, and lines that come by pipes."""

import json
import os
import signal
from collections.abc import Callable
from pathlib import Path
from typing import Optional, cast

import pytest
from bpfrec.formats import facts
from bpfrec_tools.live import arguments
from bpfrec_tools.live.kept.facts import utc_of_origin
from bpfrec_tools.live.model import KILLED
from bpfrec_tools.live.parts import folder
from bpfrec_tools.live.parts.capture import Capture
from bpfrec_tools.live.parts.child_lines import ChildLines
from bpfrec_tools.live.parts.events import Counted, Event, Events, Loss, LostInAll, Origin, event_in
from bpfrec_tools.live.parts.interruptions import MOST_KEPT, Interruptions, Link
from bpfrec_tools.live.parts.loop import Loop
from bpfrec_tools.live.run.ports import Counts

ORIGIN = '{"origin": "1764590400.250000000", "counter": 0, "scale": "UTC"}'
SET = '{"origin": "1764586800.250000123", "counter": 7, "set_by": "-3600.000000000", "scale": "UTC"}'
TAI = '{"origin": "1764590437.250000000", "counter": 0, "scale": "TAI", "tai_offset": 37}'
NOBODY_KNOWS = '{"origin": "1764590437.250000000", "counter": 0, "scale": null}'
LOST = '{"lost": "e0", "from": 5, "to": 9, "dropped": 1, "missed": 2, "skipped": 3, "feed": 4}'
COUNTS = '{"counts": "e0", "counter": 9, "frames": 1, "bytes": 2, "dropped": 3, "missed": 4, "skipped": 5, "waited": 6, "feed": 7}'
IN_ALL = '{"lost_in_all": "e0", "dropped": 1, "skipped": 2, "missed": 3}'
DOWN = '{"link": "e0", "counter": 5, "away": "down", "feed": 4}'
UP = '{"link": "e0", "counter": 9, "away": null, "feed": 4}'
EVENTS: dict[str, Event] = {
    ORIGIN: Origin("1764590400.250000000", 0, None, "UTC", None),
    SET: Origin("1764586800.250000123", 7, "-3600.000000000", "UTC", None),
    TAI: Origin("1764590437.250000000", 0, None, "TAI", 37),
    NOBODY_KNOWS: Origin("1764590437.250000000", 0, None, None, None),
    LOST: Loss("e0", 5, 9, 1, 2, 3, 4),
    COUNTS: Counted("e0", 9, Counts(1, 2, 3, 4, 5, 6), 7),
    IN_ALL: LostInAll("e0", 1, 2, 3),
    DOWN: Link("e0", 5, "down", 4),
    UP: Link("e0", 9, None, 4),
}


# ---- events


@pytest.mark.parametrize("line", EVENTS)
def test_a_line_is_the_event_that_its_object_says(line: str) -> None:
    assert event_in(line) == EVENTS[line]


@pytest.mark.parametrize("line", ["", "x", "7", "[1]", '"counts"', "{}", '{"counts": "e0"}', COUNTS[:-1], f"{ORIGIN}x"])
def test_a_line_that_is_cut_or_says_something_else_has_no_event(line: str) -> None:
    assert event_in(line) is None


@pytest.mark.parametrize("missed, end", [(0, ""), (9, " 9 missed")])
def test_losses_in_all_are_a_sentence_that_has_misses_where_there_are_some(missed: int, end: str) -> None:
    assert LostInAll("e0", 16_801, 322, missed).sentence() == f"e0 LOST 16801 dropped 322 skipped{end}"


def test_facts_have_what_was_noted_of_a_feed_as_it_was_noted(tmp_path: Path) -> None:
    """The last counts, and each loss, until the feed is forgotten; origins hold for all."""
    path = tmp_path / "events"
    later = COUNTS.replace('"frames": 1', '"frames": 8')
    other = LOST.replace('"feed": 4', '"feed": 7')
    path.write_text("".join(f"{it}\n" for it in (ORIGIN, SET, LOST, COUNTS, other, later, other, IN_ALL)))
    events = Events(path)
    assert (events.read(), events.read()) == (8, 0)
    losses = f'[{", ".join([other.replace("lost", "interface")] * 2)}]'.replace(', "feed": 7', "")
    counts = later.replace('"counts"', '"interface"').replace(', "feed": 7', "")
    told = f'{{"origins": [{ORIGIN}, {SET}], "counts": [{counts}], "losses": {losses}, "interruptions": []}}'
    assert json.dumps(events.facts(7)) == told
    events.forget(7)
    assert events.facts(7) == {**events.facts(9), "counts": [], "losses": []}
    assert len(events.facts(4)["losses"]) == 1 and events.lost_in_all == [EVENTS[IN_ALL]]


def between(begin: int, end: Optional[int], why: str = "down", interface: str = "e0") -> dict:
    return {"interface": interface, "why": why, "from": begin, "to": end}


def test_facts_have_interruptions_of_their_recordings_time(tmp_path: Path) -> None:
    """One that lasts is also of each later recording, and one that was over before isn't."""
    (tmp_path / "events").write_text(f"{ORIGIN}\n{DOWN}\n{UP}\n{DOWN}\n")
    events = Events(tmp_path / "events")
    assert events.read() == 4 and events.take_links() == [EVENTS[it] for it in (DOWN, UP, DOWN)]
    assert events.take_links() == []
    assert events.facts(3)["interruptions"] == []
    assert events.facts(4)["interruptions"] == [between(5, 9), between(5, None)]
    assert events.facts(5)["interruptions"] == [between(5, None)]
    events.forget(4)
    assert events.facts(5)["interruptions"] == [between(5, None)]


def test_one_reason_ends_another_and_each_interface_has_its_own() -> None:
    found = Interruptions()
    for interface, counter, away in (("e0", 1, "down"), ("e1", 2, "unread"), ("e0", 3, "gone"), ("e1", 4, None)):
        found.take(Link(interface, counter, away, 0))
    assert found.facts(0) == [between(1, 3), between(2, 4, "unread", "e1"), between(3, None, "gone")]


def test_past_so_many_interruptions_the_last_one_of_an_interface_gets_longer() -> None:
    found = Interruptions()
    for counter in range(0, 4 * MOST_KEPT, 2):
        found.take(Link("e0", counter, "down", 0))
        found.take(Link("e0", counter + 1, None, 0))
    facts = found.facts(0)
    assert len(facts) == MOST_KEPT and facts[-1] == between(2 * MOST_KEPT - 2, 4 * MOST_KEPT - 1)


def numbered(setting: int, counter: int) -> str:
    """What is noted of a setting of the clock, which holds from a counter on."""
    return SET.replace('"counter": 7,', f'"counter": {counter}, "setting": {setting},')


# What is noted, the origins of the facts, and the first one as UTC.
SCALES: dict[str, tuple[list[str], list[str], Optional[str]]] = {
    "utc": ([ORIGIN], [ORIGIN], "2025-12-01T12:00:00.250000000Z"),
    "tai": ([TAI], [TAI], "2025-12-01T12:00:00.250000000Z"),
    "nobody_knows": ([NOBODY_KNOWS], [NOBODY_KNOWS], None),
    "comes_to_be_known": ([NOBODY_KNOWS, TAI], [TAI], "2025-12-01T12:00:00.250000000Z"),
    "is_known_no_more": ([NOBODY_KNOWS, TAI, NOBODY_KNOWS], [NOBODY_KNOWS], None),
    "a_later_one_is_another": ([ORIGIN, SET], [ORIGIN, SET], "2025-12-01T12:00:00.250000000Z"),
    "when_the_clock_was_set_is_known_better": (
        [ORIGIN, numbered(1, 9), numbered(2, 30), numbered(1, 7)],
        [ORIGIN, SET, SET.replace(": 7,", ": 30,")],
        "2025-12-01T12:00:00.250000000Z",
    ),
    "counters_begin_at_0_again_meanwhile": (
        [ORIGIN, numbered(1, 9), TAI, numbered(1, 7)],
        [ORIGIN, TAI, SET],
        "2025-12-01T12:00:00.250000000Z",
    ),
}


@pytest.mark.parametrize("name", SCALES)
def test_each_origin_of_the_facts_has_its_scale_and_the_first_one_as_utc(tmp_path: Path, name: str) -> None:
    """An origin that comes again with its scale takes its own place."""
    noted, wanted, utc = SCALES[name]
    (tmp_path / "events").write_text("".join(f"{it}\n" for it in noted))
    events = Events(tmp_path / "events")
    assert events.read() == len(noted)
    origins = events.facts(0)["origins"]
    assert json.dumps(origins) == f"[{', '.join(wanted)}]"
    assert utc_of_origin(origins) == utc


def test_facts_are_read_as_they_were_written(tmp_path: Path) -> None:
    """By what all tools share."""
    for scale, moment in ((TAI, 1_764_590_400_250_000_000), (NOBODY_KNOWS, 1_764_590_437_250_000_000)):
        told = {"facts": 1, "host": "fc1", "origins": [json.loads(scale)], "losses": []}
        (tmp_path / "facts").write_text(json.dumps(told))
        known = facts.read(str(tmp_path / "facts"))
        assert (known.moment_of(0), known.are_all_utc()) == (moment, scale == TAI)


def test_a_line_that_comes_in_parts_is_an_event_and_others_are_passed(tmp_path: Path) -> None:
    """What a name has beside UTF-8 is left out."""
    path = tmp_path / "events"
    path.write_bytes(f"{ORIGIN}\nnonsense\n[1]\n".encode() + LOST.encode().replace(b"e0", b"e\xff0") + b'\n{"cou')
    events = Events(path)
    assert (events.read(), events.origins) == (2, [EVENTS[ORIGIN]]) and events.losses == {4: [EVENTS[LOST]]}
    with open(path, "a", encoding="utf-8") as more:
        more.write(f"{COUNTS[5:]}\n{IN_ALL}")
    assert events.read() == 1 and events.counts == {7: {"e0": EVENTS[COUNTS]}} and events.lost_in_all == []


# ---- pipes


class Calls:
    """Stands for the loop: who is called where a pipe has something to read."""

    def __init__(self) -> None:
        self.call: Optional[Callable[[], None]] = None

    def on_read(self, _: int, call: Optional[Callable[[], None]]) -> None:
        self.call = call


class Written:
    """A pipe whose writing end the test has, as the capture has it."""

    def __init__(self, lines: ChildLines, loop: Calls) -> None:
        self.loop, self.writer = loop, os.dup(lines.writer)
        lines.follow()

    def write(self, data: bytes) -> None:
        os.write(self.writer, data)
        assert self.loop.call
        self.loop.call()


def captured(*options: str) -> tuple[Capture, Calls]:
    """A capture of the loopback that isn't started."""
    given, loop = arguments.read(["o.ch11", "lo", *options]), Calls()
    made = folder.Folder(*folder.made_settings(given.routes), given)
    return Capture("bin/capture", given, made, cast(Loop, loop)), loop


def test_lines_of_a_pipe_are_taken_once_they_are_whole_also_those_of_its_end() -> None:
    """With the bytes that are no UTF-8; what has no line end is none."""
    taken: list[str] = []
    loop = Calls()
    lines = ChildLines(cast(Loop, loop), taken.append)
    pipe = Written(lines, loop)
    pipe.write(b"one\ntw")
    pipe.write(b"o\n\xff\n")
    assert taken == ["one", "two", "\udcff"]
    os.write(pipe.writer, b"four\nfi")
    os.close(pipe.writer)
    lines.end()
    assert taken[3:] == ["four"] and loop.call is None


def test_counts_come_from_their_pipe_and_nothing_else_does() -> None:
    counted: list[tuple[str, Counts]] = []
    capture, loop = captured()
    capture.read_counts(lambda interface, counts: counted.append((interface, counts)))
    assert capture.counts
    pipe = Written(capture.counts, loop)
    pipe.write(f"{COUNTS}\n{LOST}\n[]\n{COUNTS.replace('e0', 'e1')}\n".encode())
    os.close(pipe.writer)
    assert counted == [(name, Counts(1, 2, 3, 4, 5, 6)) for name in ("e0", "e1")]
    assert capture.end(0) == []


def test_the_capture_gets_the_descriptor_of_its_counts_and_is_quiet_beside_a_table() -> None:
    capture, _ = captured("--buffer", "4")
    assert "--counts" not in capture.arguments() and "--quiet" not in capture.arguments()
    capture.read_counts(lambda *_: None)
    assert capture.counts
    assert capture.arguments()[:5] == ["bin/capture", "--buffer", "4", "--counts", str(capture.counts.writer)]
    capture.read_lines(lambda _: None, has_table=False)
    assert "--quiet" not in capture.arguments()
    capture.read_lines(lambda _: None, has_table=True)
    assert "--quiet" in capture.arguments()


@pytest.mark.parametrize("options", [[], ["--quiet"]], ids=["plain", "quiet"])
@pytest.mark.parametrize("status", [1, KILLED + signal.SIGKILL], ids=["ended", "killed"])
def test_last_counts_are_printed_of_a_capture_that_was_killed_before_it_did(options: list[str], status: int) -> None:
    capture, loop = captured(*options)
    capture.read_counts(lambda *_: None)
    assert capture.counts
    Written(capture.counts, loop).write(f"{COUNTS.replace('1', '9')}\n{COUNTS}\n".encode())
    line = "bpfrec capture: e0 frames 1 bytes 2 dropped 3 missed 4 skipped 5 waited 6"
    assert capture.end(status) == ([line] if options and status > KILLED else [])
