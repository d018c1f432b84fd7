"""Tries bpfrec export on recordings of several recorders: one file, with a channel for each of theirs."""

import json
import os
import pty
import random
import subprocess
from pathlib import Path
from typing import NamedTuple

import pytest
import tomllib
from expected_facts import UNKNOWN_SCALE
from frames import HEADER_LENGTH, packet_of, records
from joined_file import joined_file
from recorder import extracted
from several_recorders import facts_by, recording_at, run_at
from support import BPFREC, EXPORT, judge, judge_quietly, outcome, sums
from whole_file_parts import recorded

pytestmark = pytest.mark.wanted("bin/bpfrec")
CHAPTER11 = (EXPORT, "--as=chapter11")
# A second, in ticks of the counter, and the moment of counter 0 of most recorders.
SECOND, MOMENT = 10_000_000, 1_764_590_400


class Taken(NamedTuple):
    """A frame as a channel of the file has it: its counter and its bytes."""

    counter: int
    bytes: bytes


def origin(ticks: int = 0) -> list[tuple]:
    seconds, rest = divmod(ticks, SECOND)
    return [(f"{MOMENT + seconds}.{rest * 100:09}", 0, None)]


def made(work: Path, *words: object) -> subprocess.CompletedProcess:
    return outcome(*CHAPTER11, *words, cwd=work, seconds=120)


def frames_in(recording: Path, channel: int) -> list[Taken]:
    feed = extracted(recording, channel, recording.with_name("one.feed"))
    return [Taken(it.counter, it.frame) for it in records(feed)]


def judge_whole(out: Path, count: int) -> None:
    """Judges a file by the audit, and by the check of whole files that shares no code with the program."""
    audit = outcome(BPFREC, "audit", out)
    judge_quietly("the audit says yes", audit.returncode == 0 and audit.stdout.count("channel ") == count, audit)
    done = sums(out)
    judge_quietly("it is a whole file", done.returncode == 0, done)


@pytest.fixture(name="two")
def two_recorders(work: Path) -> list[Path]:
    """Recordings of two hosts that have one origin, and channel 1 both."""
    one = recording_at(work / "one.ch11", [SECOND * at + 1 for at in range(5)], 1, facts_by("tap1", "eth0", origin()))
    two = recording_at(work / "two.ch11", [SECOND * at + 2 for at in range(5)], 2, facts_by("tap2", "eth0", origin()))
    return [one, two]


def test_two_recorders_become_one_file(work: Path, two: list[Path]) -> None:
    done = made(work, "one.ch11", "two.ch11", "all.ch10")
    lines = done.stdout.splitlines()
    judge("the new ID is printed", (done.returncode, lines[:1]) == (0, ["channel 1 of two.ch11 is 2"]), done)
    judge("and the program's counts", len(lines) == 2 and lines[1].startswith("times 5 packets 10 "), done)
    judge_whole(work / "all.ch10", 2)
    for channel, recording in enumerate(two, 1):
        judge(f"channel {channel}", frames_in(work / "all.ch10", channel) == frames_in(recording, 1))
    setup = (work / "all.ch10").read_bytes()
    for line in (b"R-1\\ID:tap1 tap2;", b"R-1\\ENAM-2-1:eth0 of tap1;", b"R-1\\ENAM-3-1:eth0 of tap2;"):
        judge(line.decode(), line in setup)
    left = sorted(it for it in os.listdir(work) if not it.endswith((".json", ".feed", "private")))
    judge("nothing else is left", left == ["all.ch10", "one.ch11", "two.ch11"], left)


@pytest.mark.parametrize("turned", [False, True])
def test_a_terminal_has_the_order_by_which_a_refusal_counts(work: Path, turned: bool) -> None:
    """Where that isn't the one in which the recordings are given."""
    names = run_at(work, 2)
    own, other = pty.openpty()
    given = names[::-1] if turned else names
    subprocess.run([EXPORT, *given, "all.ch10"], cwd=work, stdout=subprocess.DEVNULL, stderr=other, check=True)
    os.close(other)
    try:
        told = os.read(own, 4_096).decode()
    except OSError:
        told = ""
    line = f"bpfrec export: the recordings in their order, from 0: {' '.join(names)}\r\n"
    judge("a line", told == (line if turned else ""), told)


def test_ids_that_meet_get_the_least_that_nobody_has(work: Path) -> None:
    """Three recorders of channel 1, one of channel 2: those that come later get 3 and 4."""
    for at, channel in enumerate((1, 1, 2, 1)):
        facts = facts_by(f"tap{at}", "eth0", origin())
        recording_at(work / f"{at}.ch11", [SECOND], at, facts, channel=channel)
    done = made(work, *(f"{at}.ch11" for at in range(4)), "all.ch10")
    wanted = ["channel 1 of 1.ch11 is 3", "channel 1 of 3.ch11 is 4"]
    judge("by the order of the arguments", done.stdout.splitlines()[:2] == wanted, done)
    judge_whole(work / "all.ch10", 4)


def test_a_channel_without_a_name_is_called_by_its_id(work: Path) -> None:
    for at in range(3):
        facts: dict = {**facts_by(f"tap{at}", "eth0", origin()), "interfaces": []}
        recording_at(work / f"{at}.ch11", [SECOND], at, facts, channel=1 + at // 2)
    done = made(work, "0.ch11", "1.ch11", "2.ch11", "all.ch10")
    judge("its old one", done.stdout.startswith("channel 1 of 1.ch11 is 3\n"), done)
    setup = (work / "all.ch10").read_bytes()
    for line in (b"ENAM-2-1:channel 1 of tap0;", b"ENAM-3-1:channel 2;", b"ENAM-4-1:channel 1 of tap1;"):
        judge(line.decode(), line in setup)


def test_drawn_recordings_become_one_file(work: Path) -> None:
    """Of frames of all lengths, with marks, of recorders that began at other times; channels 1 and 3 have both. The
    second writer makes the same of SETUP."""
    draw = random.Random(1)
    for turn in range(5):
        for at, channels in enumerate(([1, 3], [4, 3, 1])):
            path = work / f"{at}.ch11"
            path.write_bytes(recorded(draw, channels, 1_000, 3).data)
            facts: dict = {**facts_by(f"tap{at}", "eth0", origin(at * turn * SECOND)), "interfaces": []}
            Path(f"{path}.json").write_text(json.dumps(facts))
        done = made(work, "--force", "0.ch11", "1.ch11", "all.ch10")
        lines = "channel 1 of 1.ch11 is 2\nchannel 3 of 1.ch11 is 5\ntimes "
        judge_quietly("it is made", done.returncode == 0 and done.stdout.startswith(lines), done)
        judge_quietly("it is a whole file", sums(work / "all.ch10").returncode == 0)
        setup = tomllib.loads(made(work, "--print-setup", "0.ch11", "1.ch11").stdout)
        wanted = bytes(joined_file([(work / f"{at}.ch11").read_bytes() for at in range(2)], setup).data)
        judge_quietly("byte for byte", (work / "all.ch10").read_bytes() == wanted)
        for at, channel, new in ((0, 1, 1), (0, 3, 3), (1, 1, 2), (1, 3, 5), (1, 4, 4)):
            moved = SECOND * turn * at
            frames = [it._replace(counter=it.counter + moved) for it in frames_in(work / f"{at}.ch11", channel)]
            judge_quietly(f"channel {new}", frames_in(work / "all.ch10", new) == frames, (turn, at, channel))


# ---- runs


def test_a_run_and_another_recorder_become_one_file(work: Path, two: list[Path]) -> None:
    """Of the run there is one channel, with its frames one behind the other. The second writer makes the same of SETUP."""
    names = run_at(work, 3)
    words = ["two.ch11", names[2], names[0], names[1]]
    done = made(work, *words, "all.ch10")
    lines = done.stdout.splitlines()
    judge("its channel is named once", (done.returncode, lines[:-1]) == (0, [f"channel 1 of {names[0]} is 2"]), done)
    judge_whole(work / "all.ch10", 2)
    frames = [it for name in names for it in frames_in(work / name, 1)]
    judge("all frames", frames_in(work / "all.ch10", 2) == frames, frames)
    setup = tomllib.loads(made(work, "--print-setup", *words).stdout)
    recordings = [(work / it).read_bytes() for it in ("two.ch11", *names)]
    wanted = bytes(joined_file(recordings, setup).data)
    judge("byte for byte", (work / "all.ch10").read_bytes() == wanted)


# ---- what is refused


def refused(work: Path, status: int, line: str, *words: object) -> None:
    before = sorted(os.listdir(work))
    done = made(work, *words, "all.ch10")
    judge(line, (done.returncode, done.stdout, done.stderr) == (status, "", f"bpfrec export: {line}\n"), done)
    judge("nothing is made", sorted(os.listdir(work)) == before)


def test_what_can_not_be_one_file_is_refused(work: Path, two: list[Path]) -> None:
    one, other = two
    recording_at(work / "same.ch11", [SECOND], 3, facts_by("tap1", "eth0", origin()))
    recording_at(work / "plain.ch11", [SECOND], 4)
    (work / "again.ch11").hardlink_to(one)
    Path(f"{work}/again.ch11.json").write_text(Path(f"{one}.json").read_text())
    refused(work, 1, "one.ch11: it is given twice", "one.ch11", "one.ch11")
    refused(work, 1, "again.ch11: it is given twice, as one.ch11 too", "one.ch11", "again.ch11")
    refused(work, 1, "same.ch11: it is given twice, by its facts, as one.ch11 too", "one.ch11", "same.ch11")
    refused(work, 3, "plain.ch11.json: No such file or directory", "one.ch11", "plain.ch11")
    several = "--facts and --origin are for one recording: several have their facts beside them"
    refused(work, 2, several, "--origin", "0", "one.ch11", "two.ch11")
    refused(work, 2, several, "--facts", "one.ch11.json", "one.ch11", "two.ch11")
    refused(work, 2, "-: it is standard input, and a whole file is made by reading twice", "one.ch11", "-")
    scale = "its scale is unknown: --utc says that it is UTC, and --tai 37 that it is 37 s ahead"
    facts_of_other = Path(f"{other}.json")
    facts_of_other.write_text(json.dumps(facts_by("tap2", "eth0", UNKNOWN_SCALE)))
    refused(work, 1, f"two.ch11.json: the origin from counter 0 on: {scale}", *ORDERED)
    judge("unless it is said", made(work, "--tai=37", *ORDERED, "all.ch10").returncode == 0)


ORDERED = ("one.ch11", "two.ch11")


def test_an_out_that_is_an_input_of_several_is_refused(work: Path, two: list[Path]) -> None:
    for path in (*two, *(Path(f"{it}.json") for it in two)):
        before = path.read_bytes()
        done = made(work, "--force", *ORDERED, path.name)
        line = f"bpfrec export: {path.name}: it is {path.name} itself\n"
        judge(path.name, (done.returncode, done.stderr) == (3, line) and path.read_bytes() == before, done)


NEW_ID = "channel 1 of two.ch11 is 2\n"


def test_what_the_program_refuses_has_the_place_of_its_recording(work: Path, two: list[Path]) -> None:
    whole = two[1].read_bytes()
    wrong = bytearray(whole)
    wrong[HEADER_LENGTH + 12] ^= 1
    rows = [
        (whole + packet_of(9, b"1234", 0, 0x40, 0, True), f"refused 1 Other {len(whole)} 1\n", ""),
        (whole[:-10], "", f"read 1 Truncated {len(whole) - 56} 1\n"),
        (bytes(wrong), "", "read 8 DataChecksum 0 1\n"),
    ]
    for data, line, told in rows:
        two[1].write_bytes(data)
        done = made(work, *ORDERED, "all.ch10")
        judge(line or told, (done.returncode, done.stdout, done.stderr) == (1, NEW_ID + line, told), done)
        judge_quietly("nothing is made", not (work / "all.ch10").exists())


def test_more_recordings_than_the_program_takes(work: Path) -> None:
    names = [f"{at}.ch11" for at in range(1_025)]
    for at, name in enumerate(names):
        recording_at(work / name, [SECOND], at, facts_by(f"tap{at}", "eth0", origin()), channel=1 + at)
    done = made(work, *names, "all.ch10")
    judge("it refuses them", (done.returncode, done.stdout) == (2, "") and "1024" in done.stderr, done.stderr)
    done = made(work, *names[1:], "all.ch10")
    judge("and takes one less", done.returncode == 0 and " packets 1024 " in done.stdout, done)


def test_setup_of_several_is_printed(work: Path, two: list[Path]) -> None:
    """With the new IDs ahead of it, as comments."""
    done = made(work, "--print-setup", *ORDERED)
    judge("the IDs", done.returncode == 0 and done.stdout.startswith(f"# {NEW_ID}"), done)
    origins = [{"counter": 0, "origin": f"{MOMENT}.000000000"}]
    tables = [{"origins": origins, "channel": [{"id": 1, "name": f"eth0 of tap{it}"}]} for it in (1, 2)]
    wanted = {"host": "tap1 tap2", "program": "bpfrec 0.1.0", "recording": tables}
    judge("a table for each", tomllib.loads(done.stdout) == wanted, done.stdout)
    others = "--tai=37", "--external", "--attribute=G\\SC:U"
    found = tomllib.loads(made(work, "--print-setup", *others, *ORDERED).stdout)
    asked = {"scale": "TAI", "tai_offset": 37, "external": True, "attributes": ["G\\SC:U"]}
    judge("and what is asked of all", found == {**asked, **wanted} and list(found)[:2] == [*asked][:2], found)
    done = made(work, "--print-setup", *ORDERED, "all.ch10")
    judge("there is no OUT", (done.returncode, done.stdout) == (3, "") and not (work / "all.ch10").exists(), done)
