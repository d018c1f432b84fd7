"""Tries the facts that bpfrec live writes beside a recording: from its beginning on, of odd names, and of parts."""

import contextlib
import json
import os
import re
import shutil
import time
from pathlib import Path

import pytest
from namespace import send_together
from recordings import YES, Traffic, begin, facts_of, has_facts, nothing_left, recordings, settings_of
from support import BPFREC, KEEPS_ALL, LIVE, ROOT, Running, judge, judge_quietly, present, run, wait_for

pytestmark = [
    pytest.mark.wanted("bin/bpfrec", "bin/capture", "ip"),
    pytest.mark.timed,
    pytest.mark.usefixtures("namespace"),
]


def judge_facts(facts: dict, out: Path, settings: Path, filters: list[Path]) -> None:
    """What facts have all the time of files with odd names."""
    found = facts["recording"], facts["settings"]
    judge_quietly("facts: the recording and its settings", found == (out.name, settings.read_text()), found)
    for at, listing in enumerate(filters):
        told = facts["filters"][at]
        texts = told["listing"].strip(), told["text"].strip()
        wanted = listing.read_text().strip(), run(BPFREC, "dis", listing).strip()
        judge_quietly(f"facts: filters {told}", (told["channel"], *texts) == (at + 1, *wanted), wanted)


def odd_names(work: Path) -> tuple[Path, Path, list[Path]]:
    """Settings, OUT and filters whose paths have quotes and blanks."""
    here = work / "a \"b\" 'c' \\d é"
    place = work / 'of "filters" é'
    here.mkdir()
    place.mkdir()
    (place / "all it").write_text(KEEPS_ALL)
    (place / "udp").write_text(run(BPFREC, "asm", ROOT / "examples/filters/udp_port.bpf"))
    settings, out = here / 'set "x".toml', here / 'flight "1" it\'s.ch11'
    settings.write_text(
        f"# \"quoted\" \\ and\ttabs é\n[[channel]]\nid = 1\nfilter = '{place}/all it'\n\n"
        f"[[channel]]\nid = 2\nfilter = '{place}/udp'\n"
    )
    return settings, out, [place / "all it", place / "udp"]


def test_facts_stand_beside_a_recording_from_its_beginning(work: Path) -> None:
    """Settings and paths with quotes and blanks."""
    settings, out, filters = odd_names(work)
    running = begin(work, out, settings=settings)
    origin = present(re.search(r"origin (\d+\.\d{9})\n", running.told()))[1]
    wait_for("facts: they are there from the beginning", lambda: has_facts(out), 5)
    early = facts_of(out)
    judge_facts(early, out, settings, filters)
    judge(
        "facts: there from the beginning, with their keys and values",
        early["origins"] == [{"origin": origin, "counter": 0, "scale": "UTC"}]
        and early["state"] == "recording"
        and [early[key] for key in ("report", "audit", "status")] == [None] * 3,
    )
    send_together(0, 100)
    time.sleep(0.2)
    running.interrupt()
    status, printed = running.ended()
    facts = facts_of(out)
    judge_facts(facts, out, settings, filters)
    judge("facts: it has ended", (status, facts["state"], facts["audit"][-1]) == (0, "ended", YES), printed)
    names = [settings.name, out.name, f"{out.name}.json"]
    judge("facts: nothing beside them is left", sorted(os.listdir(out.parent)) == sorted(names))


def test_an_out_that_is_no_file_has_no_facts(work: Path) -> None:
    """An OUT that is no file has no facts beside it."""
    running = Running(work, LIVE, "--quiet", settings_of(work), "/dev/null", "rx0=1", "rx1=2")
    running.wait_until_told("bpfrec capture: origin")
    send_together(0, 10)
    time.sleep(0.3)
    running.interrupt()
    status, printed = running.ended()
    judge(
        "an OUT that is no file has no facts",
        status == 0 and "offered 10 kept 10" in printed and not Path("/dev/null.json").exists(),
        running.told(),
    )


# ---- names that are no UTF-8


def bytes_settings(work: Path) -> tuple[bytes, bytes]:
    """A folder and settings in it, of names that are no UTF-8."""
    here = os.fsencode(work) + b"/b\xff\xfe"
    os.mkdir(here)
    settings = here + b"/s\xff.toml"
    shutil.copy(bytes(settings_of(work)), settings)
    return here, settings


def test_names_that_are_no_utf8_stand_in_the_facts(work: Path) -> None:
    """The settings and the folder have names that are no UTF-8."""
    here, _ = bytes_settings(work)
    running = Running(work, LIVE, "--quiet", b"s\xff.toml", "flight.ch11", "rx0=1", "rx1=2", cwd=here)
    running.wait_until_told("origin")
    send_together(0, 10)
    time.sleep(0.2)
    running.interrupt()
    status = running.ended()[0]
    facts = facts_of(Path(os.fsdecode(here)) / "flight.ch11")
    judge(
        "names that are no UTF-8",
        (status, facts["recording"], facts["state"]) == (0, "flight.ch11", "ended"),
        running.told(),
    )


def test_an_out_that_is_no_utf8_is_refused(work: Path) -> None:
    """Of OUT itself the recorder takes no such name."""
    here, settings = bytes_settings(work)
    running = Running(work, LIVE, "--quiet", settings, here + b"/o\xff.ch11", "rx0=1", "rx1=2")
    time.sleep(1)
    with contextlib.suppress(ProcessLookupError):
        running.interrupt()
    status = running.ended()[0]
    written = Path(os.fsdecode(here + b"/o\xff.ch11.json"))
    if written.exists():
        json.loads(written.read_bytes().decode())
    judge(f"an OUT that is no UTF-8 ends with status {status}, and leaves nothing", nothing_left(work))


# ---- facts of parts


@pytest.mark.parametrize("pause", [0.0, 0.05, 0.1, 0.2, 0.3])
def test_recordings_that_follow_one_another_have_facts_each(work: Path, pause: float) -> None:
    """Recordings that follow one another have facts each, also where Ctrl-C comes while those of the last are written,
    so long after the third has begun."""
    running = begin(work, work / "parts.ch11", "--quiet", "--every", 1)
    traffic = Traffic()
    wait_for("three recordings", lambda: len(recordings(work, "parts")) >= 3)
    time.sleep(pause)
    sent = traffic.end()
    time.sleep(0.1)
    running.interrupt()
    status, printed = running.ended()
    files = recordings(work, "parts")
    facts = [facts_of(it) for it in files]
    judge(
        f"facts: one for each of those that follow one another, with Ctrl-C after {pause} s",
        status == 0
        and len(files) >= 3
        and [(it["recording"], it["state"]) for it in facts] == [(it.name, "ended") for it in files],
        (status, printed, running.told(), [(it["recording"], it["state"], it["status"]) for it in facts]),
    )
    origin = present(re.search(r"origin (\d+\.\d{9})\n", running.told()))[1]
    wanted = {"origin": origin, "counter": 0, "scale": "UTC"}
    judge("facts: each has the origin", all(it["origins"][0] == wanted for it in facts))
    counts = [it["counts"][0]["frames"] for it in facts]
    judge(f"facts: counts go on: {counts}", counts == sorted(counts) and counts[-1] == sent)
    has_ends = [it["status"] == 0 and it["audit"][-1] == YES and "\n".join(it["report"]) in printed for it in facts]
    judge("facts: each has its report and audit", all(has_ends))
