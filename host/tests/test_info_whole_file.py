"""Tries what bpfrec info says of whole Chapter 11 files: host, program, names and times by the file itself."""

import json
import random
from pathlib import Path
from typing import Any

import pytest
from bpfrec.formats.whole_file import time_text
from bpfrec_tools.cli.program import Audit
from bpfrec_tools.info.as_json import object_of
from bpfrec_tools.info.contents import read
from bpfrec_tools.info.facts_file import facts_beside
from bpfrec_tools.info.page import page_parts
from bpfrec_tools.info.text import text_parts
from expected_facts import facts_of_run
from reading import SAMPLES
from support import EXPORT, INFO, judge, judge_quietly, outcome
from whole_file import TIME, Origin, Setup, whole_file
from whole_file_clock import rules_of
from whole_file_parts import ORIGIN, SAMPLE_SETUP, SECOND, parts_of, place_of, recorded, sample, sample_recording

AUDIT = Audit("yes other 10", None)


@pytest.fixture
def whole(work: Path) -> Path:
    (work / "flight.ch10").write_bytes(sample())
    return work / "flight.ch10"


def text_of(path: Path) -> list[str]:
    """The lines that info prints of a file and, beside it, of its facts."""
    return "".join(text_parts(read(str(path)), AUDIT, facts_beside(str(path)))).splitlines()


def said_of(path: Path) -> dict[str, Any]:
    """The object that info prints."""
    return json.loads(json.dumps(object_of(read(str(path)), AUDIT.answer, facts_beside(str(path)))))


def rows_of(lines: list[str]) -> dict[str, str]:
    """The rows of the whole, by their names."""
    begin = lines.index("") + 1
    return {line[:26].rstrip(): line[27:] for line in lines[begin : lines.index("", begin)]}


def test_a_whole_file_has_its_rows(whole: Path) -> None:
    rows = {
        "bytes": "3,548",
        "packets: frames": "8",
        "packets: program": "2",
        "packets: end": "3",
        "packets: setup": "1",
        "packets: time": "7",
        "packets: index": "2",
        "packets: other": "0",
        "missing sequence numbers": "none",
        "damaged places": "none",
        "audit": "yes other 10",
        "host": "bench 3",
        "program": "bpfrec 0.1.0",
        "clock": "the recorder's",
        "time packets": "2025-12-01T12:00:00.2600000Z to 2025-12-01T12:00:06.0000000Z",
    }
    judge("its rows", rows_of(text_of(whole)) == rows, rows_of(text_of(whole)))


def test_channels_have_their_names_and_times(whole: Path) -> None:
    lines = text_of(whole)
    for line in (
        "channel 5: eth5",
        "channel 9: wing",
        "channel 12: channel",
        "  first time                 2025-12-01T12:00:00.2505001Z",
        "  last time                  2025-12-01T12:00:06.2505501Z",
    ):
        judge_quietly(line, lines.count(line) == 1, lines)
    judge("a table with the names", lines[0].split()[-2:] == ["interface", "remarks"] and lines[1].endswith("  eth5"))
    page = "".join(page_parts("flight.ch10", read(str(whole)), AUDIT))
    for part in ("Channel 9: wing", "2025-12-01T12:00:00.2509001Z", "bench 3", "by the time packets of the file"):
        judge_quietly(f"the page has {part}", part in page)


def test_json_has_the_same(whole: Path) -> None:
    said = said_of(whole)
    begins = {
        "host": "bench 3",
        "program": "bpfrec 0.1.0",
        "is_external": False,
        "first_time": "2025-12-01T12:00:00.2600000Z",
        "last_time": "2025-12-01T12:00:06.0000000Z",
    }
    judge("the whole", (said["facts"], said["whole_file"]) == (None, begins), said)
    kinds = {"frames": 8, "program": 2, "end": 3, "setup": 1, "time": 7, "index": 2, "other": 0}
    judge("packets by kind", said["packets"] == kinds, said["packets"])
    nine, twelve = said["channels"]["9"], said["channels"]["12"]
    times = ("wing", "2025-12-01T12:00:00.2509001Z", "2025-12-01T12:00:06.2509501Z")
    judge("a channel", (nine["name"], nine["first_time"], nine["last_time"]) == times, nine)
    judge("without frames", (twelve["name"], twelve["first_time"]) == ("channel", None), twelve)


def test_a_recording_has_none_of_it() -> None:
    said, lines = said_of(SAMPLES[1]), text_of(SAMPLES[1])
    judge("JSON", said["whole_file"] is None and said["channels"]["1"]["name"] is None, said)
    judge("the kinds of its packets", list(said["packets"]) == ["frames", "program", "end", "other"])
    judge("the text", not any(it in rows_of(lines) for it in ("host", "clock", "packets: time")), lines)


@pytest.mark.parametrize("seed", range(6))
def test_times_are_those_of_the_clock_however_it_was_set(work: Path, seed: int) -> None:
    """To the 100 ns, of the first and the last frame of each channel."""
    draw = random.Random(seed)
    made = recorded(draw, [3, 7, 700], 5 * SECOND, 20)
    noted = [Origin(it, ORIGIN + draw.randrange(-(10**12), 10**12)) for it in draw.choices(range(25 * SECOND), k=3)]
    setup = Setup((Origin(0, ORIGIN), *noted), is_external=True)
    (work / "flight.ch10").write_bytes(whole_file(bytes(made.data), setup).data)
    said, rules = said_of(work / "flight.ch10"), rules_of(setup.origins)
    for number, channel in made.channels.items():
        found, counters = said["channels"][str(number)], channel.counters()
        for name, counter in zip(("first_time", "last_time"), [counters[0], counters[-1]] if counters else []):
            time = next(it for it in reversed(rules) if it.begin <= counter).time(counter)
            judge_quietly(f"{name} of {number}", found[name] == time_text(time // 100), (found[name], time))
    judge("each has its time", said["whole_file"]["is_external"] is True)


def test_facts_beside_a_whole_file_are_said_too(whole: Path) -> None:
    """Its times stay those of its time packets."""
    whole.with_name("flight.ch10.json").write_text(json.dumps(facts_of_run([("5.000000000", 0, None)])))
    said, lines = said_of(whole), text_of(whole)
    judge("the facts", said["facts"]["host"] == "fc1" and f"host{' ' * 23}fc1" in lines, lines)
    judge("the times", said["channels"]["5"]["first_time"] == "2025-12-01T12:00:00.2505001Z", said["channels"]["5"])
    judge("the names", "channel 5: eth5" in lines and "channel 5: " not in said["facts"])


def test_what_is_damaged_is_not_known(whole: Path) -> None:
    """A setup record or a time packet whose bytes are wrong, or that say no names or times."""
    good, parts = sample(), parts_of(sample())
    first, second = place_of(parts, TIME, 0), place_of(parts, TIME, 1)
    for at, byte in ((40, 1), (500, 1), (good.index(b"bench"), ord("x"))):
        whole.write_bytes(good[:at] + bytes((byte,)) + good[at + 1 :])
        said = said_of(whole)
        unknown = {"host": None, "program": None, "is_external": None}
        judge_quietly("no setup", {**said["whole_file"], **unknown} == said["whole_file"], said["whole_file"])
        judge_quietly("it is another packet", said["packets"]["other"] == 1 and said["packets"]["setup"] == 0)
        judge_quietly("no names", "channel 5" in text_of(whole) and said["channels"]["5"]["name"] is None)
    whole.write_bytes(good[: first + 30] + b"\x07" + good[first + 31 :])
    said = said_of(whole)
    judge("no first time packet", said["packets"]["time"] == 6 and said["channels"]["5"]["first_time"] is None, said)
    judge("later ones are read", said["channels"]["5"]["last_time"] == "2025-12-01T12:00:06.2505501Z", said)
    whole.write_bytes(good[: second + 4] + b"\x07" + good[second + 5 :])
    said = said_of(whole)
    judge("behind a damaged place", said["damaged_count"] == 1 and said["packets"]["time"] == 6, said)
    nameless = parts[0]._replace(data=parts[0].data.replace(b"G\\DSI-1", b"G\\DSI-2"))
    whole.write_bytes(nameless.bytes() + good[first:])
    judge("no host", said_of(whole)["whole_file"]["host"] is None and rows_of(text_of(whole))["host"] == "unknown")
    whole.write_bytes(parts[0]._replace(data=b"\x0c\0\0\0no line").bytes() + good[first:])
    judge("a text that is none", said_of(whole)["whole_file"]["host"] is None)


def test_hostile_files_are_read_to_their_end(whole: Path) -> None:
    draw, good = random.Random(7), sample()
    for _ in range(300):
        data = bytearray(good)
        for _ in range(draw.choice([1, 3, 30])):
            data[draw.randrange(24, len(data))] = draw.randrange(256)
        whole.write_bytes(data)
        said_of(whole)
        text_of(whole)


def test_a_page_and_a_recording_may_be_standard_streams(whole: Path, monkeypatch: pytest.MonkeyPatch) -> None:
    monkeypatch.chdir(whole.parent)
    page = outcome(INFO, "--html", "-", whole.name).stdout
    judge("a page is printed, and no file is made", page.startswith("<!DOCTYPE html>") and not Path("-").exists())
    with open(whole, "rb") as given:
        done = outcome(INFO, "--quiet", "-", stdin=given)
    judge("standard input is read", done.stdout == outcome(INFO, "--quiet", whole.name).stdout, done)
    done = outcome(INFO, "--html", "-", "--json", whole)
    judge("both are refused", done.returncode == 2 and "--html - takes standard output" in done.stderr, done)


def test_a_whole_file_is_not_made_on_standard_output(whole: Path, monkeypatch: pytest.MonkeyPatch) -> None:
    monkeypatch.chdir(whole.parent)
    done = outcome(EXPORT, "--as", "chapter11", "--origin", 5, whole, "-")
    line = "bpfrec export: -: it is standard output, and a whole file is written twice, so OUT is a file\n"
    judge("refused", (done.returncode, done.stderr, Path("-").exists()) == (2, line, False), done)


def test_a_whole_file_knows_channels_by_their_names_and_interfaces(work: Path) -> None:
    data = whole_file(sample_recording(), SAMPLE_SETUP._replace(channels={5: ("bus A (eth5)", 3), 9: ("wing", 0)})).data
    (work / "flight.ch10").write_bytes(bytes(data))
    for name in ("bus A", "eth5", "bus A (eth5)", "bus A (eth5) of bench 3", "wing"):
        done = outcome(EXPORT, "--force", "--channel", name, work / "flight.ch10", work / "o.pcapng")
        judge(name, (done.returncode, done.stdout) == (0, "frames 8 skipped 0\n"), done)
    done = outcome(EXPORT, "--channel", "eth6", work / "flight.ch10", work / "x.pcapng")
    judge("another", "no channel eth6: 5 bus A (eth5), 9 wing" in done.stderr, done)
