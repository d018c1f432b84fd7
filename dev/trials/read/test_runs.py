"""Tries that the name of a run stands for all its recordings: in info, export, check, follow and Python."""

import hashlib
import json
from pathlib import Path

import bpfrec
import pytest
from bpfrec.formats.facts import LOST
from bpfrec.formats.names import all_of
from expected_facts import facts_of_run
from several_recorders import recording_at
from support import CHECK, EXPORT, INFO, TOOLS, judge, judge_quietly, outcome, run

pytestmark = pytest.mark.wanted("bin/bpfrec")
ORIGINS = [("1764590400.250000000", 0, None)]


@pytest.fixture
def flight(work: Path) -> Path:
    """A run of three recordings of two frames each, with their facts, and another run beside it."""
    before = None
    for number in (1, 2, 3):
        path = recording_at(work / f"flight_0000{number}.ch11", [number * 100, number * 100 + 50], 1)
        digest = hashlib.sha256(path.read_bytes()).hexdigest()
        named = {"recording": path.name, "sha256": digest, "bytes": path.stat().st_size, "before": before}
        facts: dict = {**facts_of_run(ORIGINS), "interfaces": [{"interface": "eth0", "channel": 1}]}
        facts |= named
        facts["next"] = f"flight_0000{number + 1}.ch11" if number < 3 else None
        Path(f"{path}.json").write_text(json.dumps(facts))
        before = {"recording": path.name, "sha256": digest}
    recording_at(work / "flight_two_00001.ch11", [7], 1)
    return work / "flight.ch11"


def parts_of(flight: Path) -> list[Path]:
    return [flight.with_name(f"flight_0000{number}.ch11") for number in (1, 2, 3)]


def test_a_name_stands_for_all_recordings_in_their_order(flight: Path) -> None:
    wanted = list(map(str, parts_of(flight)))
    judge("with its ending", all_of(str(flight)) == wanted, all_of(str(flight)))
    judge("and without it", all_of(str(flight.with_suffix(""))) == wanted)
    later = flight.with_name("flight_100000.ch11")
    later.write_bytes(b"")
    judge("later ones behind", all_of(str(flight)) == [*wanted, str(later)])
    judge("one that is there stands for itself", all_of(wanted[1]) == [wanted[1]])
    judge("one of which nothing is there too", all_of("none.ch11") == ["none.ch11"])


def test_info_has_one_table_of_all(flight: Path) -> None:
    told = run(INFO, flight)
    lines = told.splitlines()
    judge("a line for the channel", lines[1].split()[:2] == ["1", "6"] and lines[1].split()[4] == "3", lines)
    times = ("2025-12-01T12:00:00.2500100Z", "2025-12-01T12:00:00.2500350Z", "eth0")
    judge("with its times and its interface", all(it in lines[1] for it in times), lines[1])
    names = [it.split()[0] for it in lines[3:7]]
    judge("a line for each recording", names == ["recording", *(it.name for it in parts_of(flight))], lines)
    judge("and how many are approved", lines[-1] == "recordings 3, approved by the audit 3", lines[-1])
    judge("the same of the paths", run(INFO, *parts_of(flight)) == told)
    found = json.loads(run(INFO, "--json", flight))["recordings"]
    single = [json.loads(run(INFO, "--json", it)) for it in parts_of(flight)]
    judge("in JSON an object for each", [{k: v for k, v in it.items() if k != "path"} for it in found] == single)
    done = outcome(INFO, "--html", flight.with_name("x.html"), flight)
    judge("the page is of one", done.returncode == 2 and "--html is for one recording" in done.stderr, done)


def test_export_makes_one_capture_of_all(flight: Path, work: Path) -> None:
    run(EXPORT, flight, work / "run.pcapng")
    run(EXPORT, *parts_of(flight), work / "parts.pcapng")
    judge("the same capture", (work / "run.pcapng").read_bytes() == (work / "parts.pcapng").read_bytes())


def test_export_makes_one_whole_file_of_all(flight: Path, work: Path) -> None:
    run(EXPORT, flight, work / "run.ch10")
    run(EXPORT, *parts_of(flight), work / "parts.ch10")
    judge("the same file", (work / "run.ch10").read_bytes() == (work / "parts.ch10").read_bytes())
    done = outcome(CHECK, work / "run.ch10")
    judge("which is right", done.returncode == 0 and done.stdout.endswith("\nyes\n"), done)


def test_check_has_one_answer_and_sees_what_is_missing(flight: Path) -> None:
    done = outcome(CHECK, flight)
    judge("yes", done.returncode == 0 and done.stdout.endswith("\nyes\n"), done)
    judge("in order", done.stdout.count("before right") == 2 and done.stdout.count("hash right") == 3, done)
    first, middle, last = parts_of(flight)
    kept = last.read_bytes()
    last.unlink()
    done = outcome(CHECK, flight)
    judge("the last is missing", done.returncode == 1 and "\nnext missing: flight_00003.ch11\n" in done.stdout, done)
    judge("which isn't asked of files by their names", outcome(CHECK, first, middle).returncode == 0)
    last.write_bytes(kept)
    middle.unlink()
    done = outcome(CHECK, flight)
    line = "before wrong: flight_00001.ch11, the facts say flight_00002.ch11\n"
    judge("one in the middle is missing", done.returncode == 1 and line in done.stdout, done)
    judge("so the answer is no, with the recording and why", done.stdout.endswith(f"\nwrong {last}: {line}no\n"), done)
    last.write_bytes(kept[:-30])
    done = outcome(CHECK, flight)
    found = [it for it in done.stdout.splitlines() if it.startswith("wrong ")]
    judge("all that is wrong of it", len(found) == 1 and found[0].count("; ") == 4, found)
    judge("the audit is last", found[0].endswith("; audit: read 1 Truncated 280"), found)


def test_a_last_recording_that_is_missing_is_told_by_all(flight: Path, work: Path) -> None:
    first, middle, last = parts_of(flight)
    last.unlink()
    line = f"bpfrec export: {middle}: next missing: flight_00003.ch11"
    done = outcome(EXPORT, flight, work / "run.pcapng")
    judge("a capture", (done.returncode, done.stderr) == (0, f"{line}\n"), done)
    done = outcome(EXPORT, flight, work / "run.ch10")
    gaps = f"{line}: --gaps makes a file without it\n"
    judge(
        "a whole file is refused",
        (done.returncode, done.stderr, (work / "run.ch10").exists()) == (1, gaps, False),
        done,
    )
    judge("but with --gaps", outcome(EXPORT, "--gaps", flight, work / "run.ch10").returncode == 0)
    lines = run(INFO, flight).splitlines()
    judge(
        "info",
        any(it.startswith(middle.name) and it.endswith("next missing: flight_00003.ch11") for it in lines),
        lines,
    )
    judge("of files by their names nothing", outcome(EXPORT, first, middle, work / "two.pcapng").stderr == "")


def test_info_has_the_marks_and_losses_of_all(flight: Path) -> None:
    judge("none were lost", run(INFO, flight).splitlines()[-2] == "frames lost none")
    first, middle, last = parts_of(flight)
    path = Path(f"{middle}.json")
    facts = json.loads(path.read_text())
    facts["marks"] = [{"counter": 220, "text": "gear up"}]
    facts["interruptions"] = [{"interface": "eth0", "why": "down", "from": 210, "to": 230}]
    facts["losses"] = [{"interface": "eth0", "from": 200, "to": 250, **dict.fromkeys(LOST, 0), "dropped": 7}]
    path.write_text(json.dumps(facts))
    lines = run(INFO, flight).splitlines()
    at = lines.index("") + 5
    found = [it.split(maxsplit=1) for it in lines[at + 1 : -1]]
    judge("each with its recording", [it[0] for it in found] == [middle.name] * 3, lines)
    kinds = ("mark ", "interruption ", "frames lost ")
    judge("mark, interruption, loss", all(it[1].startswith(kind) for it, kind in zip(found, kinds)), found)
    judge(
        "with what they say",
        "gear up" in found[0][1] and "eth0 down" in found[1][1] and "7 dropped" in found[2][1],
        found,
    )


def test_info_and_a_capture_say_which_is_missing_in_the_middle(flight: Path, work: Path) -> None:
    first, middle, last = parts_of(flight)
    middle.unlink()
    done = outcome(INFO, flight)
    lines = [it for it in done.stdout.splitlines() if it.startswith(("flight_", "recordings"))]
    judge("info, behind the one before", lines[0].endswith("  yes other 0, next missing: flight_00002.ch11"), lines)
    judge("and behind no other", done.returncode == 0 and "missing" not in "".join(lines[1:]), lines)
    done = outcome(EXPORT, flight, work / "run.pcapng")
    line = f"bpfrec export: {first}: next missing: flight_00002.ch11\n"
    judge("export", (done.returncode, done.stderr) == (0, line) and done.stdout.startswith("frames 4 "), done)
    judge("of the last alone nothing", outcome(EXPORT, last, work / "last.pcapng").stderr == "")


def test_a_recording_without_its_facts_is_not_missing(flight: Path, work: Path) -> None:
    _, middle, last = parts_of(flight)
    for path in (middle, last):
        facts = Path(f"{path}.json").read_bytes()
        Path(f"{path}.json").unlink()
        judge(f"info without facts of {path.name}", "missing" not in run(INFO, flight), run(INFO, flight))
        done = outcome(EXPORT, middle if path == last else flight, last, work / f"{path.name}.pcapng")
        judge("export", "missing" not in done.stderr, done)
        Path(f"{path}.json").write_bytes(facts)


def test_follow_and_python_take_it(flight: Path) -> None:
    with bpfrec.open(flight) as recording:
        counters = [it.counter for it in recording]
        judge_quietly("all paths", list(recording.paths) == list(map(str, parts_of(flight))), recording.paths)
    judge("all frames", counters == [100, 150, 200, 250, 300, 350], counters)
    done = outcome(TOOLS / "follow", flight, text=False)
    judge("follow begins with the newest", b"frames 2 skipped 0" in done.stderr, done.stderr)
