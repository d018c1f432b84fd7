"""Tries which recordings bpfrec follow takes for those of a run, by their names and the facts beside them."""

import fcntl
import json
import os
import shutil
from pathlib import Path

import pytest
from bpfrec.formats.names import Names, names_of
from bpfrec_tools.cli.streams import Refused
from bpfrec_tools.follow.growing import facts_of, first_of, following, is_written
from reading import SAMPLES
from support import EXPORT, TOOLS, judge, outcome

# 2026-01-02, in nanoseconds since 1970.
SECOND_DAY = 1_767_312_000 * 10**9


def write(path: Path, begun: str, state: str = "recording", moment: float = 0) -> str:
    """A recording with its facts."""
    path.write_bytes(b"")
    os.utime(path, (moment, moment))
    told = {"facts": 1, "host": "h", "begun": begun, "state": state, "losses": []}
    told["origins"] = [{"origin": "1764590400.250000000", "counter": 0}]
    Path(f"{path}.json").write_text(json.dumps(told))
    return str(path)


@pytest.mark.parametrize(
    "name, number",
    [
        ("flight_00001.ch11", 1),
        ("flight_123456.ch11", 123_456),
        *[(it, None) for it in ("flight.ch11", "flight_1.ch11", "flight_0000x.ch11")],
        *[(it, None) for it in ("flight_00001.ch10", "other_00001.ch11")],
    ],
)
def test_numbers_stand_in_names(name: str, number: int) -> None:
    judge(name, Names("flight.ch11").number_of(name) == number)


def test_a_numbered_recording_is_one_of_its_run() -> None:
    for path, run in [
        ("a/f_00003.ch11", "a/f.ch11"),
        ("a/f.ch11", "a/f.ch11"),
        ("f_x_00003", "f_x"),
        ("f_3.ch11", "f_3.ch11"),
    ]:
        names = names_of(path)
        judge(path, f"{names.stem}{names.ending}" == run, (names.stem, names.ending))


def test_a_run_begins_with_its_newest_recording(work: Path) -> None:
    for number, moment in ((1, 50), (2, 90), (3, 20)):
        write(work / f"f_0000{number}.ch11", "x", moment=moment)
    judge("the newest", first_of(str(work / "f.ch11")) == str(work / "f_00002.ch11"))
    judge("a recording by its own name", first_of(str(work / "f_00003.ch11")) == str(work / "f_00003.ch11"))
    judge("all in order", [it for it, _ in Names(str(work / "f.ch11")).there()] == [1, 2, 3])
    with pytest.raises(Refused, match="none that is numbered, as .*g_00001.ch11"):
        first_of(str(work / "g.ch11"))


def test_the_next_recording_is_the_next_of_the_same_run(work: Path) -> None:
    """One that an earlier run left is skipped, and one whose facts aren't there yet isn't the next yet."""
    first = write(work / "f_00001.ch11", "2026-01-02T00:00:00Z")
    write(work / "f_00002.ch11", "2026-01-01T00:00:00Z")
    judge("an earlier run's", following(first, SECOND_DAY) is None)
    (work / "f_00003.ch11").write_bytes(b"")
    judge("without facts yet", following(first, SECOND_DAY) is None)
    third = write(work / "f_00003.ch11", "2026-01-02T00:00:00Z")
    judge("its own", following(first, SECOND_DAY) == third)
    judge("a recording alone has none", following(write(work / "g.ch11", "x"), SECOND_DAY) is None)


def test_facts_say_when_it_began_and_whether_it_has_ended(work: Path) -> None:
    known = facts_of(write(work / "f.ch11", "2026-01-02T00:00:00Z", "ended"))
    judge("both", known is not None and (known.begun, known.has_ended) == (SECOND_DAY, True))
    told = json.loads((work / "f.ch11.json").read_text())
    unsaid = [json.dumps({name: it for name, it in told.items() if name != left}) for left in ("begun", "state")]
    for text in ("", "{}", '{"facts": 1}', "[]", *unsaid):
        (work / "f.ch11.json").write_text(text)
        judge(f"no facts: {text}", facts_of(str(work / "f.ch11")) is None)
    judge("none at all", facts_of(str(work / "g.ch11")) is None)


def test_a_lock_says_that_it_is_written(work: Path) -> None:
    with open(work / "f.ch11", "wb") as file:
        judge("nobody has it", not is_written(file.name))
        fcntl.flock(file, fcntl.LOCK_EX)
        judge("somebody has it", is_written(file.name))


def test_a_channel_is_followed_by_its_name(work: Path) -> None:
    path = work / "f.ch11"
    write(path, "2026-01-02T00:00:00Z", "ended")
    shutil.copy(SAMPLES[1], path)
    told = json.loads(Path(f"{path}.json").read_text())
    told["interfaces"] = [{"interface": "eth0", "channel": 1, "name": "bus A"}, {"interface": "eth1", "channel": 8}]
    Path(f"{path}.json").write_text(json.dumps(told))
    follow = [TOOLS / "follow", "--channel"]
    by_id = outcome(*follow, 1, path, text=False)
    judge("it has frames", by_id.returncode == 0 and b"frames 0" not in by_id.stderr, by_id.stderr)
    for name in ("bus A", "eth0", "bus A (eth0) of h"):
        judge(name, outcome(*follow, name, path, text=False).stdout == by_id.stdout)
    judge("another has none", b"frames 0" in outcome(*follow, "eth1", path, text=False).stderr)
    for words in ([*follow, "bus B", path], [EXPORT, "--channel", "bus B", path, work / "o.pcapng"]):
        done = outcome(*words, errors="replace")
        line = f"{path}: no channel bus B: 1 bus A (eth0)"
        judge(line, done.returncode == 1 and line in done.stderr, done)
