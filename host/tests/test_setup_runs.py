"""Tries bpfrec export of recordings of a run, by what their facts say: SETUP, their order, and what is refused."""

import json
import os
import subprocess
from pathlib import Path
from typing import Any

import pytest
import tomllib
from frames import FRAMES, body_of, end_packet, packet_of, program_packet
from setups import CHAPTER11
from several_recorders import facts_by, in_run, recording_at, run_at
from support import judge, judge_quietly, judge_same, outcome, program_at

BEGUN = "1764590400.000000000"
FAR = "the clock was set by over a second: frames before that have times by the clock as it was set then"


def printed(work: Path, *words: object) -> subprocess.CompletedProcess:
    return outcome(*CHAPTER11, "--print-setup", *words, cwd=work, env={**os.environ, "BPFREC": "/none"})


def setup_of(work: Path, *words: object) -> dict[str, Any]:
    """SETUP of recordings, where nothing else is said."""
    done = printed(work, *words)
    judge_quietly(f"{words}", (done.returncode, done.stderr) == (0, ""), done)
    return tomllib.loads(done.stdout)


def after_in(work: Path, *words: object) -> list[int | None]:
    """Which recording each follows."""
    return [it.get("after") for it in setup_of(work, *words)["recording"]]


def with_facts(path: Path, **more: Any) -> None:
    """Has more in the facts beside a recording."""
    beside = Path(f"{path}.json")
    beside.write_text(json.dumps({**json.loads(beside.read_text()), **more}))


def refused(work: Path, line: str, *words: object) -> None:
    done = printed(work, *words)
    judge(line, (done.returncode, done.stdout, done.stderr) == (1, "", f"bpfrec export: {line}\n"), done)


# ---- what follows


def test_recordings_of_a_run_follow_one_another(work: Path) -> None:
    names = run_at(work, 3)
    judge("each the one before it", after_in(work, *names) == [None, 0, 1])
    judge("and of a run's name", after_in(work, "flight.ch11") == [None, 0, 1])
    judge("the first ones alone", after_in(work, *names[:2]) == [None, 0])
    judge("and the last ones", after_in(work, *names[1:]) == [None, 0])


def test_one_says_it(work: Path) -> None:
    """The one before, or the one behind."""
    for number, key in ((1, "next"), (2, "before")):
        names = run_at(work, 2)
        with_facts(work / names[number - 1], **{key: None})
        judge(key, after_in(work, *names) == [None, 0])
    for number in (0, 1):
        with_facts(work / names[number], next=None, before=None)
    judge("none says it", after_in(work, *names) == [None, None])


def test_those_of_a_run_stand_in_its_order_at_the_place_of_the_first(work: Path) -> None:
    names = run_at(work, 3)
    recording_at(work / "two.ch11", [7], 7, facts_by("tap2", "eth0"))
    recording_at(work / "three.ch11", [8], 8, facts_by("tap3", "eth0"))
    words = ["two.ch11", names[2], "three.ch11", names[0], names[1]]
    played = program_at(work / "played", f'printf "%s\\n" "$@" > {work}/given')
    done = outcome(*CHAPTER11, *words, "all.ch10", cwd=work, env={**os.environ, "BPFREC": str(played)})
    judge_quietly("it is made", done.returncode == 0, done)
    given = (work / "given").read_text().split()
    judge("the recordings", given[:6] == ["chapter11", "two.ch11", *names, "three.ch11"], given)
    found = setup_of(work, *words)["recording"]
    judge("the tables", [it.get("after") for it in found] == [None, None, 1, 2, None], found)
    hosts = [it["channel"][0]["name"] for it in found]
    judge("each its own", hosts == [f"eth0 of tap{it}" for it in (2, 1, 1, 1, 3)], hosts)


@pytest.mark.parametrize(
    "more",
    [
        {"host": "tap2"},
        {"interfaces": [{"interface": "eth0", "channel": 1}, {"interface": "eth1", "channel": 2}]},
        {"origins": [{"origin": "1764590401.000000000", "counter": 0}]},
        {"recording": "other_00002.ch11"},
    ],
    ids=lambda it: [*it][0],
)
def test_a_recording_of_another_run_follows_none(work: Path, more: dict) -> None:
    """By its host, its interfaces, its first origin or its name."""
    names = run_at(work, 2)
    with_facts(work / names[1], **more)
    judge("another run", after_in(work, *names) == [None, None])


def test_a_run_that_has_ended_is_followed_by_none(work: Path) -> None:
    """Though the next one with its name has the same origin, as of --origin."""
    names = run_at(work, 3)
    with_facts(work / names[1], next=None)
    with_facts(work / names[2], before=None)
    judge("two runs", after_in(work, *names) == [None, 0, None])


def test_recordings_are_known_by_their_facts_wherever_they_are(work: Path) -> None:
    names = run_at(work, 3)
    moved = ["c.ch11", "b.ch11", "a.ch11"]
    for name, other in zip(names, moved):
        for ending in ("", ".json"):
            (work / f"{name}{ending}").rename(work / f"{other}{ending}")
    judge("by other names", after_in(work, *sorted(moved)) == [None, 0, 1])


def test_more_than_99999_recordings_are_in_order(work: Path) -> None:
    names = ["flight_100000.ch11", "flight_99999.ch11"]
    recording_at(work / names[1], [1], 1, in_run(names[1], None, names[0]))
    recording_at(work / names[0], [2], 2, in_run(names[0], names[1], None))
    judge("by number", after_in(work, *names) == [None, 0])


# ---- what is missing


def test_a_recording_that_is_missing_in_between_is_refused(work: Path) -> None:
    names = run_at(work, 5)
    allowed = "--gaps makes a file without it"
    refused(work, f"{names[0]}: next missing: {names[1]}: {allowed}", names[0], names[2])
    refused(work, f"{names[1]}: next missing: {names[2]} to {names[3]}: {allowed}", *names[:2], names[4])
    with_facts(work / names[4], before=None)
    refused(work, f"{names[1]}: next missing: {names[2]}: {allowed}", names[4], *names[:2])


def test_the_files_comment_names_what_is_missing(work: Path) -> None:
    names = run_at(work, 6)
    found = setup_of(work, "--gaps", names[0], names[2], names[5])
    text = f"{names[1]}, {names[3]} to {names[4]}"
    comment = f"G\\COM:recordings of a run that are missing: {text}"
    judge("it is taken", [it.get("after") for it in found["recording"]] == [None, 0, 1], found)
    judge("and named", found["attributes"] == [comment], found["attributes"])
    found = setup_of(work, "--gaps", "--attribute=G\\SC:U", names[0], names[2])
    judge("behind others", found["attributes"] == ["G\\SC:U", comment.partition(",")[0]], found["attributes"])
    judge("where nothing is missing none is", "attributes" not in setup_of(work, "--gaps", *names))


def test_names_of_what_is_missing_are_cleaned(work: Path) -> None:
    names = run_at(work, 3)
    with_facts(work / names[0], next="a;b\u00e9\n.ch11")
    with_facts(work / names[2], before=None)
    found = setup_of(work, "--gaps", names[0], names[2])["attributes"]
    judge("as in setup records", found[0].endswith(" missing: a_b__.ch11"), found)
    refused(work, f"{names[0]}: next missing: a_b__.ch11: --gaps makes a file without it", names[0], names[2])


# ---- channels


def test_a_channel_of_a_run_is_named_once(work: Path) -> None:
    """A line names the first recording that has it, and no name is given its host where no other channel has it."""
    names = run_at(work, 3)
    judge("alone", [it["channel"] for it in setup_of(work, *names)["recording"]] == 3 * [[{"id": 1, "name": "eth0"}]])
    judge("no line", not printed(work, *names).stdout.startswith("#"))
    recording_at(work / "two.ch11", [7], 7, facts_by("tap2", "eth1"))
    recording_at(work / names[0], [0], 0, in_run(names[0], None, names[1]), channel=5)
    lines = [it for it in printed(work, "two.ch11", *names).stdout.splitlines() if it.startswith("#")]
    judge("the first that has it", lines == [f"# channel 1 of {names[1]} is 2"], lines)
    found = [it["channel"] for it in setup_of(work, "two.ch11", *names)["recording"]]
    wanted = [[{"id": 1, "name": "eth1"}], [{"id": 5, "name": "channel 5"}], *2 * [[{"id": 1, "name": "eth0"}]]]
    judge("each table has its channels", found == wanted, found)


def test_a_network_is_that_of_the_first_frame_of_the_run(work: Path) -> None:
    names = run_at(work, 3)
    quiet = [program_packet(1, 0), packet_of(1, body_of([]), 0, FRAMES, 0, True), end_packet(1, 1)]
    (work / names[0]).write_bytes(b"".join(quiet))
    for name, network in zip(names[1:], (7, 8)):
        packets = [program_packet(1, 0), packet_of(1, body_of([(5, network << 16, bytes(60))]), 0, FRAMES, 5, True)]
        (work / name).write_bytes(b"".join(packets) + end_packet(1, 1))
    found = [it["channel"][0].get("net") for it in setup_of(work, *names)["recording"]]
    judge("each table has it", found == [7, 7, 7], found)


# ---- times


def origin(text: str, counter: int = 0) -> dict[str, Any]:
    return {"origin": text, "counter": counter}


def times_of(work: Path, *noted: list[dict]) -> tuple[list, list[str]]:
    """The origins in the tables of a run with these, and the recordings of which a line says that the clock was set."""
    names = run_at(work, len(noted))
    for name, origins in zip(names, noted):
        with_facts(work / name, origins=origins)
    done = printed(work, *names)
    judge_quietly("it is printed", done.returncode == 0, done)
    told = [it.removeprefix("bpfrec export: ").partition(".json: ") for it in done.stderr.splitlines()]
    judge_quietly("the lines", all(it[2] == FAR for it in told), done.stderr)
    return [it["origins"] for it in tomllib.loads(done.stdout)["recording"]], [it[0] for it in told]


def test_a_clock_that_was_set_little_is_so_in_each_recording(work: Path) -> None:
    noted = [[origin(BEGUN)], [origin(BEGUN), origin("1764590401.000000000", 9)]]
    judge_same("as they were noted", times_of(work, *noted), (noted, []))


def test_a_clock_that_was_set_far_is_so_in_the_recordings_before(work: Path) -> None:
    """They have the origin that the last one begins with, and its lesser steps are its own."""
    far, more = "1764594000.000000000", "1764594000.500000000"
    noted = [[origin(BEGUN)], [origin(BEGUN), origin(far, 9)], [origin(BEGUN), origin(far, 9), origin(more, 20)]]
    found, said = times_of(work, *noted)
    judge_same("the last ones", found, [[origin(far)], [origin(far)], [origin(far), origin(more, 20)]])
    judge("each says so", said == [f"flight_0000{it}.ch11" for it in (1, 2, 3)], said)


def test_a_step_lies_between_recordings_by_the_scale_that_is_said(work: Path) -> None:
    tai = {**origin("1764590437.000000000"), "scale": "TAI", "tai_offset": 37}
    names = run_at(work, 2)
    with_facts(work / names[0], origins=[{**origin("1764590437.000000000"), "scale": None}])
    with_facts(work / names[1], origins=[tai])
    for offset, scales in ((37, ["unknown", "TAI"]), (39, ["TAI", "TAI"])):
        done = printed(work, f"--tai={offset}", *names)
        found = [it["origins"][0]["scale"] for it in tomllib.loads(done.stdout)["recording"]]
        judge(f"{offset}", found == scales and bool(done.stderr) == (offset == 39), (found, done.stderr))
