"""Tries the marks of facts in what reads recordings: bpfrec info, and the captures of pcapng and follow, by tshark."""

import json
import re
from collections.abc import Callable
from pathlib import Path
from typing import Any

import pytest
from bpfrec.formats.marks import marks_in
from expected_facts import TAI_37, UNKNOWN_SCALE, facts_of_run
from frames import FRAMES, body_of, end_packet, numbered, packet_of, program_packet, with_check_sequence
from pcapng_blocks import COMMENT, SECTION, Block, blocks_in
from support import EXPORT, FOLLOW, INFO, judge, outcome, run

pytestmark = pytest.mark.wanted("bin/bpfrec", "tshark", "capinfos")
ORIGIN = [("1764590400.000000000", 0, None, "UTC")]
SECOND = 10**7


def recording(path: Path, counters: dict[int, list[int]], marks: list, origins: list = ORIGIN, **more: Any) -> Path:
    """A recording of frames of channels with these counters, a packet each, with facts that have these marks."""
    packets = [program_packet(channel, 0) for channel in counters]
    frames = sorted((counter, channel) for channel, mine in counters.items() for counter in mine)
    for sequence, (counter, channel) in enumerate(frames):
        body = body_of([(counter, 0, with_check_sequence(numbered(counter)))])
        packets.append(packet_of(channel, body, sequence, FRAMES, counter, True))
    path.write_bytes(b"".join([*packets, *(end_packet(channel, len(mine)) for channel, mine in counters.items())]))
    noted = [{"counter": counter, "time": "2025-12-01T12:00:00.0000000Z", "text": text} for counter, text in marks]
    facts = {**facts_of_run(origins), "state": "ended", "marks": noted, **more}
    facts["interfaces"] = [{"interface": f"eth{it}", "channel": it} for it in counters]
    Path(f"{path}.json").write_text(json.dumps(facts))
    return path


def comments(capture: Path) -> list[tuple[int, str]]:
    """The number of each frame's bytes that has a mark in its comment, with the comment's first line."""
    words = ["-T", "json", "-e", "frame.comment", "-e", "frame.number", "-e", "frame.time_epoch"]
    told = json.loads(run("tshark", "-n", "-r", capture, *words))
    found = []
    for row in (it["_source"]["layers"] for it in told):
        for line in "\n".join(row.get("frame.comment", [])).splitlines():
            if line.startswith("mark "):
                found.append((int(row["frame.number"][0]), line))
    return found


def sections(capture: Path) -> list[Block]:
    return [it for it in blocks_in(capture.read_bytes()) if it.kind == SECTION]


def section_marks(capture: Path, section: int) -> list[str]:
    """The marks in the comments of a section."""
    return [line for line in sections(capture)[section].text(COMMENT).splitlines() if line.startswith("mark ")]


def by_pcapng(work: Path, *paths: object) -> Path:
    run(EXPORT, "--force", *paths, work / "o.pcapng")
    return work / "o.pcapng"


def by_follow(work: Path, path: Path) -> Path:
    done = outcome("bash", "-c", f"{FOLLOW} {path} > {work}/o.pcapng")
    judge("it ends well", done.returncode == 0, done)
    (work / "errors").write_text(done.stderr)
    return work / "o.pcapng"


@pytest.mark.parametrize("made", [by_pcapng, by_follow])
def test_a_mark_is_a_comment_of_the_next_frame_and_of_a_section(work: Path, made: Callable) -> None:
    """Of pcapng in the head, which Wireshark shows; of follow at the end, with a line, where no frame follows."""
    counters = {1: [1 * SECOND, 3 * SECOND], 2: [2 * SECOND]}
    marks = [(0, "first"), (3 * SECOND // 2, "gear up \u00e9"), (3 * SECOND, "at"), (5 * SECOND, "last")]
    capture = made(work, recording(work / "a.ch11", counters, marks))
    wanted = [
        (1, "mark 2025-12-01T12:00:00.0000000Z: first"),
        (2, "mark 2025-12-01T12:00:01.5000000Z: gear up \u00e9"),
        (3, "mark 2025-12-01T12:00:03.0000000Z: at"),
    ]
    found = comments(capture)
    judge("on the first frame at or behind it, of any channel", found == wanted, found)
    last = "mark 2025-12-01T12:00:05.0000000Z: last"
    if made is by_pcapng:
        judge("all are in the head", section_marks(capture, 0) == [*(it for _, it in wanted), last])
    else:
        judge("one that no frame follows is at the end", section_marks(capture, 1) == [last])
        told = (work / "errors").read_text()
        judge("and said", told == f"bpfrec follow: no frame follows {last}\nframes 3 skipped 0\n", told)
    judge("there are three frames", "Number of packets:   3" in run("capinfos", "-M", capture))


def test_follow_takes_a_mark_along_to_the_next_recording(work: Path) -> None:
    """Where no frame of its own follows it."""
    recording(work / "f_00001.ch11", {1: [SECOND]}, [(2 * SECOND, "between")])
    recording(work / "f_00002.ch11", {1: [4 * SECOND]}, [(5 * SECOND, "last")])
    found = comments(by_follow(work, work / "f_00001.ch11"))
    judge("once", found == [(2, "mark 2025-12-01T12:00:02.0000000Z: between")], found)
    judge("and the last at the end", [it[-4:] for it in section_marks(work / "o.pcapng", 1)] == ["last"])


def test_follow_leaves_marks_out_that_are_there_already_with_now(work: Path) -> None:
    path = recording(work / "a.ch11", {1: [SECOND]}, [(2 * SECOND, "x")])
    done = outcome("bash", "-c", f"{FOLLOW} --now {path} > {work}/o.pcapng")
    judge("as frames", (done.returncode, done.stderr) == (0, "frames 0 skipped 0\n"), done)
    judge("with no section for them", len(sections(work / "o.pcapng")) == 1)


def test_marks_of_a_slice_are_those_of_its_time(work: Path) -> None:
    path = recording(
        work / "a.ch11", {1: [SECOND, 2 * SECOND, 3 * SECOND]}, [(it * SECOND, str(it)) for it in range(5)]
    )
    run(EXPORT, "--from", "2", "--to", "3", path, work / "o.pcapng")
    judge("those alone", [it[1][-1] for it in comments(work / "o.pcapng")] == ["2"])
    judge("also in the head", [it[-1] for it in section_marks(work / "o.pcapng", 0)] == ["2"])


def test_a_mark_stays_in_its_run(work: Path) -> None:
    """On a frame of the next recording of its run, and on none of another host."""
    first = recording(work / "a.ch11", {1: [SECOND]}, [(2 * SECOND, "of the first")])
    second = recording(work / "b.ch11", {1: [4 * SECOND]}, [])
    other = recording(work / "c.ch11", {1: [3 * SECOND]}, [(5 * SECOND, "other")], host="fc2")
    found = comments(by_pcapng(work, other, second, first))
    judge("behind the other host's frame", found == [(3, "mark 2025-12-01T12:00:02.0000000Z: of the first")], found)
    marks = [it[33:] for it in section_marks(work / "o.pcapng", 0)]
    judge("the head has both", marks == [": of the first", ": other"], marks)


def test_marks_that_are_too_long_for_a_comment_are_in_several(work: Path) -> None:
    marks = [(it, f"{it} " + "\u00e9" * 250) for it in range(1_000)]
    capture = by_pcapng(work, recording(work / "a.ch11", {1: [SECOND]}, marks))
    found = [re.findall(r"Z: (\d+) \u00e9{250}$", it) for it in section_marks(capture, 0)]
    judge("none is cut", found == [[str(it)] for it in range(1_000)], len(found))


@pytest.mark.parametrize(
    "origins, time",
    [(TAI_37, "2025-12-01T12:00:03.2500001Z"), (UNKNOWN_SCALE, "2025-12-01T12:00:03.2500000 (scale unknown)")],
    ids=["TAI", "unknown"],
)
def test_its_time_goes_by_the_origins(work: Path, origins: list, time: str) -> None:
    path = recording(work / "a.ch11", {1: [4 * SECOND]}, [(3 * SECOND, "x")], origins)
    found = comments(by_pcapng(work, path))
    judge(time, found == [(1, f"mark {time}: x")], found)


def test_info_tells_marks(work: Path) -> None:
    """As rows, in JSON, and on the page's timelines."""
    marks = [(3 * SECOND // 2, "gear <up>"), (9 * SECOND, "late")]
    path = recording(work / "a.ch11", {1: [SECOND, 2 * SECOND]}, marks)
    rows = [line for line in run(INFO, path).splitlines() if line.startswith("mark ")]
    wanted = [
        "mark                       2025-12-01T12:00:01.5000000Z counter 15,000,000: gear <up>",
        "mark                       2025-12-01T12:00:09.0000000Z counter 90,000,000: late",
    ]
    judge("a row each", rows == wanted, rows)
    told = json.loads(run(INFO, "--json", path))["facts"]["marks"]
    first = {"counter": 15_000_000, "time": "2025-12-01T12:00:01.5000000Z", "text": "gear <up>"}
    judge("JSON has them", told[0] == first and len(told) == 2, told)
    run(INFO, "--html", work / "p.html", path)
    page = (work / "p.html").read_text()
    lines = re.findall(r'<line class=mark x1="([0-9.]+)" [^>]*><title>(.*?)</title>', page)
    judge("the timeline has those that it reaches", [it[1] for it in lines] == ["gear &lt;up&gt;"], lines)
    judge("at three quarters of it", abs(float(lines[0][0]) - 675) < 5, lines)
    judge("and a row each", "counter 90,000,000: late" in page)
    bare = recording(work / "b.ch11", {1: [SECOND]}, [])
    judge("without marks there is no row", "\nmark " not in run(INFO, bare))


@pytest.mark.parametrize(
    "told",
    [
        None,
        7,
        [7],
        [{"counter": 1}],
        [{"counter": -1, "text": "x"}],
        [{"counter": 2**48, "text": "x"}],
        [{"counter": True, "text": "x"}],
        [{"counter": 1, "text": "a\u001bb"}],
        [{"counter": 1, "text": "a\nb"}],
        [{"counter": 1, "text": "x" * 256}],
        [{"counter": 1, "text": ""}],
        [{"counter": 1, "text": "\ud800"}],
    ],
)
def test_marks_of_another_form_are_left_out(told: Any) -> None:
    judge(repr(told), marks_in(told) == [])


def test_a_list_has_so_many_at_most() -> None:
    judge("the first ones", len(marks_in([{"counter": it, "text": "x"} for it in range(2_000)])) == 1_024)
