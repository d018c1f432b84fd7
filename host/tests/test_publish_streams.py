"""Tries which bytes of a recording bpfrec publish gives to its streams, and what their SETUP says, by a program that is
played: its packets are the recording's own."""

import os
import random
import time
from pathlib import Path
from typing import Any, Optional

import pytest
import tomllib
from bpfrec.formats.facts import SCALE_UNKNOWN
from bpfrec_tools.chapter11.setup import Asked
from bpfrec_tools.cli.streams import Refused
from bpfrec_tools.publish.datagrams import Datagrams
from bpfrec_tools.publish.recording import Recording
from bpfrec_tools.publish.stream import Broken
from bpfrec_tools.publish.streaming import Streaming
from drawn_recording import DrawnRecording, drawn_insns
from frames import COMPUTER, FRAMES, body_of
from ground import packets_in, write_facts
from support import judge, judge_quietly, judge_same, program_at
from whole_file import Origin, Setup
from whole_file_parts import ORIGIN, parts_of, recorded, sample, sample_recording

# Gives back what it is given, keeps SETUP, and says what it did.
PLAYED = """
here=$(dirname "$0")
cp "$3" "$here/setup_$(ls "$here" | wc -l).toml"
cat
echo 'packets 1 records 2 times 3 late 4 other 5' >&2
"""
NOW = Setup((Origin(0, ORIGIN),), host="höst", channels={1: ("eth0", 0), 2: ("eth1", 0)})
LATER = "1764590500.000000000"


class Played:
    """A recording that is published, whose file grows."""

    def __init__(self, work: Path, patch: pytest.MonkeyPatch, played: str = PLAYED, **more: Any) -> None:
        self.folder = work / "program"
        self.folder.mkdir()
        patch.setenv("BPFREC", str(program_at(self.folder / "bpfrec", played)))
        self.path = work / "flight;1.ch11"
        self.path.write_bytes(b"")
        self.lines: list[str] = []
        self.datagrams: list[bytes] = []
        self.made = DrawnRecording()
        self.tell(**more)

    def tell(self, setup: Setup = NOW, state: str = "recording", **more: Any) -> None:
        """Has facts beside the recording."""
        write_facts(self.path, setup, state, **more)

    def begin(self, asked: Asked = Asked(), begins_now: bool = False) -> Streaming:
        recording = Recording(str(self.path), self.lines.append, asked)
        recording.begin(begins_now, lambda: False)
        self.streaming = Streaming(recording, Datagrams(65_504, self.datagrams.append))
        return self.streaming

    def write(self) -> bytes:
        """Writes what was made since: its bytes."""
        added = bytes(self.made.data[self.path.stat().st_size :])
        with open(self.path, "ab") as file:
            file.write(added)
        return added

    def frames(self, channel: int, counter: int, net: int = 0) -> None:
        self.made.add(channel, body_of([(counter, net << 16, bytes(60))]), FRAMES, counter, "frames")

    def filter(self, channel: int, counter: int, seed: int = 1) -> None:
        self.made.add_program(channel, seed, counter, drawn_insns(random.Random(seed)))

    def sent(self) -> bytes:
        """All that goes out by the end of what is there."""
        recording = self.streaming.recording
        while recording.waiting or recording.read_on():
            self.streaming.go_on()
        self.streaming.end()
        return packets_in(self.datagrams)

    def setups(self) -> list[dict[str, Any]]:
        """What was given to streams as SETUP."""
        return [tomllib.loads(it.read_text()) for it in sorted(self.folder.glob("setup_*"))]


@pytest.mark.parametrize("seed", range(8))
def test_each_byte_goes_out_once_as_the_recording_grows(work: Path, seed: int, monkeypatch: pytest.MonkeyPatch) -> None:
    draw, played = random.Random(seed), Played(work, monkeypatch)
    data = bytes(recorded(draw, [1, 2], draw.randrange(2**40), 25).data)
    streaming, at = played.begin(), 0
    with open(played.path, "ab", buffering=0) as file:
        while at < len(data):
            length = draw.choice([1, 50, 700, 5_000])
            file.write(data[at : at + length])
            at += length
            streaming.go_on()
    judge("all of it", played.sent() == data and played.lines == [], played.lines)
    judge("by one stream", len(played.setups()) == 1)
    judge("whose counts are taken", (streaming.late, streaming.others) == (4, 5), streaming.late)


def test_more_than_pipes_hold_goes_out(work: Path, monkeypatch: pytest.MonkeyPatch) -> None:
    played = Played(work, monkeypatch)
    for number in range(40):
        played.made.add_frames(1, [(number * 1_000 + it, 0, 16_000) for it in range(10)])
    data = played.write()
    played.begin()
    judge(f"{len(data):,} bytes", played.sent() == data)


def test_what_is_left_out_cuts_no_packet(work: Path, monkeypatch: pytest.MonkeyPatch) -> None:
    played = Played(work, monkeypatch, PLAYED.replace("cat\n", 'sleep 0.3\ntee "$here/given"\n'))
    for number in range(20):
        played.made.add_frames(1, [(number * 1_000 + it, 0, 16_000) for it in range(10)])
    data = played.write()
    streaming = played.begin()
    while not streaming.written:
        streaming.go_on()
    streaming.finish_packet()
    left = streaming.recording.leave_rest()
    streaming.end()
    sent = [it.bytes() for it in parts_of(packets_in(played.datagrams))]
    judge("a beginning", data.startswith(b"".join(sent)) and len(sent) + left == 20 and left > 0, (len(sent), left))
    judge("of whole packets", (played.folder / "given").read_bytes() == b"".join(sent))


def test_an_origin_that_comes_later_begins_another_stream(work: Path, monkeypatch: pytest.MonkeyPatch) -> None:
    """From the next packet on, behind the filters that are in force; the facts' other changes begin none."""
    played = Played(work, monkeypatch)
    streaming = played.begin()
    played.filter(1, 5)
    played.filter(2, 6)
    played.frames(1, 7)
    played.filter(1, 8, seed=2)
    before = played.write()
    while len(packets_in(played.datagrams)) < len(before):
        streaming.go_on()
    played.tell(losses=[{"dropped": 1, "missed": 0, "skipped": 0}])
    streaming.go_on()
    noted: list[dict[str, object]] = [
        {"counter": 0, "origin": "1764590400.250000123"},
        {"counter": 9, "origin": LATER, "scale": None},
    ]
    played.tell(origins=noted)
    at = len(before)
    played.frames(1, 9)
    behind = played.write()
    sent = played.sent()
    judge("two streams", len(played.setups()) == 2, played.setups())
    judge("all, once", sent.startswith(before) and sent.endswith(behind))
    repeated = sent[len(before) : -len(behind)]
    records = [it.bytes() for it in parts_of(before) if it.kind == COMPUTER]
    judge("two filters between", repeated == records[1] + records[2], len(records))
    one, other = played.setups()
    judge("the first says its name", one["attributes"] == ["G\\COM:flight_1.ch11"], one)
    judge("the other its place too", other["attributes"] == ["G\\COM:flight_1.ch11", f"G\\COM:from byte {at}"], other)
    judge("and all origins", other["origins"] == [noted[0], noted[1] | {"scale": "unknown"}], other)
    judge("a scale that nobody knows is UTC", other["scale"] == "UTC" and "scale" in one, other)


def test_an_origin_that_comes_ahead_of_the_first_packet_begins_none(
    work: Path, monkeypatch: pytest.MonkeyPatch
) -> None:
    played = Played(work, monkeypatch)
    streaming = played.begin()
    streaming.go_on()
    played.tell(origins=[{"counter": 0, "origin": LATER}])
    played.frames(1, 7)
    played.write()
    streaming.go_on()
    played.sent()
    (setup,) = played.setups()
    judge("one stream", setup["origins"] == [{"counter": 0, "origin": LATER}], setup)


def test_a_channel_that_nobody_expected_begins_another_stream(work: Path, monkeypatch: pytest.MonkeyPatch) -> None:
    played = Played(work, monkeypatch)
    streaming = played.begin()
    played.frames(1, 7)
    played.write()
    streaming.go_on()
    played.frames(3, 8, net=9)
    played.frames(3, 9)
    played.write()
    judge("each packet once", played.sent() == bytes(played.made.data))
    one, other = ([it["id"] for it in setup["channel"]] for setup in played.setups())
    judge("which names it", (one, other) == ([1, 2], [1, 2, 3]), (one, other))


def test_setup_names_the_channels_that_may_come(work: Path, monkeypatch: pytest.MonkeyPatch) -> None:
    """Of one that goes on those of the facts and of the settings, of one that has ended those that it has. A network
    identifier is that of the first frame, or of the settings."""
    settings = "".join(f'[[channel]]\nid = {it}\nnet = {it + 1}\nfeed = "a"\nfilter = "b"\n' for it in (1, 2, 8))
    played = Played(work, monkeypatch, settings=settings)
    played.frames(1, 9, net=7)
    played.write()
    judge_same("one that goes on", played.begin().recording.channels(), {1: 7, 2: 3, 8: 9})
    played.tell(state="ended", settings=settings)
    judge_same("one that has ended", played.begin().recording.channels(), {1: 7})
    played.sent()
    (setup,) = played.setups()
    judge("as SETUP has it", setup["channel"] == [{"id": 1, "name": "eth0", "net": 7}], setup)
    judge("and what else facts say", (setup["host"], setup["program"]) == ("höst", NOW.program), setup)


def test_what_is_there_is_left_out_but_for_the_filters(work: Path, monkeypatch: pytest.MonkeyPatch) -> None:
    played = Played(work, monkeypatch)
    played.filter(1, 5)
    played.frames(1, 7)
    before = played.write()
    streaming = played.begin(begins_now=True)
    streaming.go_on()
    streaming.go_on()
    played.frames(1, 9)
    behind = played.write()
    judge("the filter, and what comes", played.sent() == parts_of(before)[0].bytes() + behind)
    (setup,) = played.setups()
    judge("its place is said", setup["attributes"][1:] == [f"G\\COM:from byte {len(before)}"], setup)


@pytest.mark.parametrize(
    "ends, why",
    [
        ("cat > /dev/null; echo 'refused 4 Origin 0' >&2; exit 1", "refused 4 Origin 0"),
        ("exec kill -9 $$", "its stream ended by signal 9"),
        ("head -c 9; kill -9 $$", "its stream ended by signal 9"),
        ("exec cat", "its stream said nothing"),
        ("exec false", "its stream said nothing"),
    ],
    ids=["refused", "killed", "killed under way", "mute", "false"],
)
def test_a_stream_that_ends_early_says_why(work: Path, monkeypatch: pytest.MonkeyPatch, ends: str, why: str) -> None:
    """However much waits for it."""
    for frames in (1, 400):
        folder = work / str(frames)
        folder.mkdir()
        played = Played(folder, monkeypatch, ends)
        played.made.add_frames(1, [(5, 0, 16_000)] * 30)
        for _ in range(frames // 30):
            played.made.add_frames(1, [(5, 0, 16_000)] * 30)
        data = played.write()
        played.begin()
        with pytest.raises(Broken) as told:
            played.sent()
        judge(why, str(told.value) == f"{played.path}: {why}", told.value)
        judge_quietly("the recording stays", played.path.read_bytes() == data)


def test_a_recording_that_is_cut_meanwhile_is_said(work: Path, monkeypatch: pytest.MonkeyPatch) -> None:
    played = Played(work, monkeypatch)
    played.frames(1, 7)
    played.frames(1, 8)
    cut = len(played.write()) // 2
    played.begin().recording.read_on()
    os.truncate(played.path, cut + 30)
    with pytest.raises(Broken, match=f"read 1 Truncated {cut}"):
        played.sent()


def test_what_nobody_knows_the_time_of_is_refused(work: Path, monkeypatch: pytest.MonkeyPatch) -> None:
    played = Played(work, monkeypatch)
    played.path.write_bytes(sample_recording())
    with pytest.raises(Refused, match="has the origins"):
        played.begin(Asked(origin="5"))
    played.tell(origins=[{"counter": 0, "origin": LATER, "scale": None}])
    played.begin()
    judge("a scale that nobody knows is said", played.lines == [f"{played.path}.json: {SCALE_UNKNOWN}"], played.lines)
    Path(f"{played.path}.json").unlink()
    with pytest.raises(Refused, match="no facts beside it"):
        played.begin()
    played.begin(Asked(origin="5"))
    played.sent()
    (setup,) = played.setups()
    judge("with --origin it isn't", setup["origin"] == "5" and len(setup["channel"]) == 3, setup)


@pytest.mark.parametrize(
    "scale, ahead, said",
    [(None, None, ("UTC", None)), (None, 37, ("TAI", 37)), (None, 0, ("UTC", None)), ("TAI", 37, ("TAI", 37))],
)
def test_scales_are_those_of_the_facts_or_what_is_asked_for(
    work: Path, monkeypatch: pytest.MonkeyPatch, scale: Optional[str], ahead: Optional[int], said: tuple
) -> None:
    origin = {"counter": 0, "origin": LATER, "scale": scale, "tai_offset": 36 if scale else None}
    played = Played(work, monkeypatch, origins=[origin])
    played.frames(1, 9)
    played.write()
    played.begin(Asked(ahead=ahead, is_external=True, attributes=("G\\SC:U",)))
    played.sent()
    (setup,) = played.setups()
    judge("of all", (setup["scale"], setup.get("tai_offset")) == said, setup)
    due = {"scale": "TAI", "tai_offset": 36} if scale else {"scale": "unknown"}
    judge("of the origin", setup["origins"] == [{"counter": 0, "origin": LATER, **due}], setup)
    judge("what else is asked for", setup["external"] and setup["attributes"][0] == "G\\SC:U", setup)


def test_one_that_has_ended_goes_out_at_the_pace_of_its_counters(work: Path, monkeypatch: pytest.MonkeyPatch) -> None:
    played = Played(work, monkeypatch)
    for counter in (5 * 10**7, 5 * 10**7 + 1, 6 * 10**7, 5 * 10**7):
        played.frames(1, counter)
    played.write()
    recording = played.begin().recording
    recording.is_paced = True
    recording.read_on()
    monkeypatch.setattr(time, "monotonic", lambda: 100.0)
    found = [recording.due_in(it) for it in recording.waiting]
    judge("one second", [round(it, 6) for it in found] == [0, 0, 1, 0], found)
    judge("what is left is counted", recording.leave_rest() == 4)


@pytest.mark.parametrize("origin", [None, "0"])
def test_a_whole_file_is_refused_by_its_name(work: Path, origin: Optional[str]) -> None:
    path = work / "ground.ch10"
    path.write_bytes(sample())
    with pytest.raises(Refused, match="ground.ch10: it is a whole Chapter 11 file, and a recording is published"):
        Recording(str(path), print, Asked(origin)).begin(False, lambda: False)
