"""Tries marks without a recording: which line is one, the counter that it gets, and which recording has it."""

import time
from pathlib import Path
from types import SimpleNamespace
from typing import Any, cast

import pytest
from bpfrec_tools.live.control.words import HELP, Word, mark_in
from bpfrec_tools.live.kept.marks import Marks
from bpfrec_tools.live.kept.noted import Noted, marks_of, note
from bpfrec_tools.live.parts.events import Events, Origin
from bpfrec_tools.live.parts.expressions import ALL, MOST_NAME, name_of
from bpfrec_tools.live.parts.recorder import Recorder
from support import judge


@pytest.mark.parametrize(
    "line, text",
    [
        (b"mark gear up", b"gear up"),
        (b"  mark\tx \r", b"x \r"),
        (b"mark", b""),
        (b"marker", None),
        (b"set 1 mark", None),
        (b"MARK x", None),
    ],
)
def test_a_line_that_begins_with_mark_is_one(line: bytes, text: bytes) -> None:
    judge(repr(line), mark_in(line) == text)


def test_help_has_each_word() -> None:
    words = {line.split()[0] for line in HELP.splitlines() if line[0] != " "}
    judge("each", words == {"set", "mark", *(it.value for it in Word)}, words)


def test_its_counter_is_that_of_frames_whose_clock_runs_tai() -> None:
    mark = Noted(10, 1_764_590_400_250_000_000, "x")
    utc = mark.facts([{"origin": "0.000000000", "counter": 0, "scale": "UTC"}])
    judge("UTC", utc == {"counter": 10, "time": "2025-12-01T12:00:00.2500000Z", "text": "x"}, utc)
    tai = mark.facts([{"origin": "0.000000000", "counter": 0, "scale": "TAI", "tai_offset": 37}])
    judge("TAI", tai["counter"] == 370_000_010 and tai["time"] == utc["time"], tai)
    last = Noted(2**48 - 1, 0, "x").facts([{"tai_offset": 37}])
    judge("counters begin at 0 again", last["counter"] == 370_000_000 - 1, last)


def test_a_line_that_is_cut_is_no_mark_yet(work: Path) -> None:
    note(work, Noted(1, 0, "\u00e9 \u2028"))
    with open(work / "marks", "a") as file:
        file.write('[2, 0, "half')
    judge("one", [it["text"] for it in marks_of(work, [])] == ["\u00e9 \u2028"])


class World:
    """Marks of a run with recordings that are played, and what is said."""

    def __init__(self, work: Path, origin: str | None = None) -> None:
        self.work, self.said = work, []  # type: tuple[Path, list[str]]
        self.events = SimpleNamespace(origins=[Origin(origin or f"{time.time():.9f}", 0, None, "UTC", None)])
        self.marks = Marks(cast(Events, self.events), True, lambda *_: None, self.said.append)

    def recording(self, number: int, has_facts: bool = True) -> Any:
        folder = self.work / str(number)
        folder.mkdir()
        about = SimpleNamespace(number=number, out=f"f_{number}", has_failed=False)
        keeper = object() if has_facts else None
        return SimpleNamespace(recording=about, about=about, folder=folder, keeper=keeper, is_created=True)

    def texts(self, recording: Recorder) -> list[str]:
        return [it["text"] for it in marks_of(recording.folder, [])]


def test_a_mark_is_of_the_recording_that_goes_on(work: Path) -> None:
    """The one before until the next has begun; where none goes on it waits."""
    world = World(work)
    one, two = world.recording(1), world.recording(2)
    world.marks.take(b"ahead")
    judge("nothing is said of one that waits", world.said == [])
    world.marks.begun(one)
    world.marks.take(b"first")
    world.marks.ended(one)
    world.marks.take(b"between")
    world.marks.begun(two)
    world.marks.ended(one)
    world.marks.take(b"second")
    judge("each in one", (world.texts(one), world.texts(two)) == (["ahead", "first"], ["between", "second"]))
    told = [line.split()[-1] for line in world.said if line.startswith("marked ")]
    judge("which is said", told == ["f_1", "f_1", "f_2", "f_2"], world.said)
    world.marks.ended(two)
    world.marks.take(b"late")
    world.marks.finish()
    holds = world.said[-1] == "bpfrec live: mark late: the recording has ended"
    judge("one that none has is said too", holds, world.said)


def test_marks_of_a_recording_that_was_discarded_are_the_next_ones(work: Path) -> None:
    world = World(work)
    one, two = world.recording(1), world.recording(2)
    world.marks.begun(one)
    world.marks.take(b"a")
    world.marks.take(b"b")
    world.marks.ended(one)
    world.marks.take(b"c")
    one.is_created = False
    world.marks.concluded(one, 0)
    world.marks.begun(two)
    judge("in their order", world.texts(two) == ["a", "b", "c"], world.texts(two))


def test_what_can_not_be_noted_is_said(work: Path) -> None:
    world = World(work)
    bare = world.recording(1, has_facts=False)
    world.marks.begun(bare)
    world.marks.take(b"x")
    judge("without facts", world.said == ["bpfrec live: mark x: f_1 has no facts, in which it would stand"], world.said)
    gone = world.recording(2)
    gone.folder.rmdir()
    world.marks.begun(gone)
    world.marks.take(b"y")
    holds = world.said[-1] == "bpfrec live: mark y: it can't be noted: No such file or directory"
    judge("without room", holds, world.said)
    world.marks.ended(gone)
    for _ in range(1_025):
        world.marks.take(b"z")
    full = "bpfrec live: mark: 1,024 wait for the next recording, and no more can"
    judge("so many wait at most", world.said[-1] == full and world.said.count(full) == 1, world.said[-1])


def test_counters_go_on_where_the_clock_is_set(work: Path, monkeypatch: pytest.MonkeyPatch) -> None:
    world = World(work, "1764590400.000000000")
    one = world.recording(1)
    world.marks.begun(one)
    steady, wall = 5_000_000_000, 1_764_590_410_000_000_000
    monkeypatch.setattr(time, "monotonic_ns", lambda: steady)
    monkeypatch.setattr(time, "time_ns", lambda: wall)
    world.marks.begin_clock()
    steady, wall = steady + 3_000_000_000, wall - 3_600_000_000_000
    world.marks.begin_clock()
    world.marks.take(b"x")
    (mark,) = marks_of(one.folder, [])
    judge("13 s behind the origin", mark["counter"] == 130_000_000, mark)
    judge("with the time of the host's clock", mark["time"] == "2025-12-01T11:00:10.0000000Z", mark)


def test_a_filter_has_a_name(work: Path, monkeypatch: pytest.MonkeyPatch) -> None:
    monkeypatch.chdir(work)
    (work / "here").write_text("1,6 0 0 1,")
    for text, name in [
        (None, ALL),
        ("here", "here"),
        ("some/where/wire.txt", "wire.txt"),
        ("missing.bpf", "missing.bpf"),
        ("udp port 5004", "udp port 5004"),
        ("udp\n  port 5004", "udp port 5004"),
        ("arp or " * 100 + "ip", ("arp or " * 100)[: MOST_NAME - 1] + "\u2026"),
    ]:
        judge(str(text)[:40], name_of(text) == name, name_of(text))
