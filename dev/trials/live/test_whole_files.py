"""Tries whole Chapter 11 files that bpfrec live makes of its recordings with --chapter11."""

import re
import stat
import time
from pathlib import Path

import pytest
from disks import memory_disk
from frames import numbers_in, records
from ground import Station
from namespace import send_numbered
from recordings import Traffic, begin, extracted, is_approved, nothing_left, parts_of, recordings, settings_of
from second_opinion import opinion_at
from support import BPFREC, LIVE, Running, judge, judge_quietly, wait_for

pytestmark = [
    pytest.mark.wanted("bin/bpfrec", "bin/capture", "ip"),
    pytest.mark.timed,
    pytest.mark.usefixtures("namespace"),
]
MADE = re.compile(r"bpfrec live: (\S+): times \d+ packets \d+ records \d+ index \d+ bytes \d+\n")


def whole_file(out: Path) -> Path:
    return Path(f"{out}.ch10")


def in_work(out: Path) -> Path:
    return Path(f"{whole_file(out)}.new")


def judge_whole(work: Path, out: Path) -> None:
    """The file beside a recording is right, and has its frames."""
    opinion = opinion_at(whole_file(out))
    judge_quietly(f"{out.name}: it is right", opinion.is_right, opinion.lines[:3])
    for channel in (1, 2):
        feeds = [extracted(work, it, channel) for it in (out, whole_file(out))]
        judge_quietly(f"{out.name}: frames of channel {channel}", feeds[0] == feeds[1])


def played_bpfrec(work: Path, case: str) -> dict[str, str]:
    """The program, which does something else for `chapter11`, or for one of the other commands."""
    program = work / "bpfrec"
    program.write_text(f'#!/bin/sh\ncase "$1" in {case} ;; esac\nexec {BPFREC} "$@"\n')
    program.chmod(0o755)
    return {"BPFREC": str(program)}


def recorded(work: Path, running: Running) -> tuple[int, str]:
    """Records some frames, and ends: the status, and what was told."""
    send_numbered("tx0", 0, 50)
    time.sleep(0.5)
    running.interrupt()
    return running.ended()[0], running.told()


# ---- what is made


def test_a_recording_has_its_whole_file(work: Path) -> None:
    out = work / "one.ch11"
    status, told = recorded(work, begin(work, out, "--quiet", "--chapter11"))
    judge("status 0", status == 0 and nothing_left(work), told)
    judge("a line says what it has", MADE.findall(told) == [str(whole_file(out))], told)
    judge_whole(work, out)
    judge("with its mode", stat.S_IMODE(whole_file(out).stat().st_mode) == 0o640)
    judge("and its frames", [it.frame for it in records(extracted(work, whole_file(out), 1))] != [])


def test_each_of_several_recordings_has_its_own(work: Path) -> None:
    """Each frame is in one of them; the mode is that of the recordings."""
    running = begin(work, work / "turn.ch11", "--quiet", "--chapter11", "--every", 1, "--mode", "0600")
    traffic = Traffic()
    wait_for("three are made", lambda: len(MADE.findall(running.told())) >= 3)
    sent = traffic.end()
    time.sleep(0.2)
    running.interrupt()
    status, told = running.ended()[0], running.told()
    files = recordings(work, "turn")
    judge("status 0", status == 0 and nothing_left(work), told)
    judge("one for each, in order", MADE.findall(told) == [str(whole_file(it)) for it in files], told)
    for it in files:
        judge_whole(work, it)
    judge("their modes", {stat.S_IMODE(whole_file(it).stat().st_mode) for it in files} == {0o600})
    judge(f"all {sent} frames", numbers_in(parts_of(work, "turn", 1)) == list(range(sent)))


def test_keep_removes_a_whole_file_with_its_recording(work: Path) -> None:
    running = begin(work, work / "ring.ch11", "--quiet", "--chapter11", "--every", 1, "--keep", 2)
    wait_for("two are removed", lambda: running.told().count(" was removed: ") >= 2)
    running.interrupt()
    status, told = running.ended()[0], running.told()
    left = {it.name for it in recordings(work, "ring")}
    judge("status 0", status == 0 and len(left) == 2, told)
    judge("those of the others are left", {it.name for it in work.glob("ring_*.ch10")} == {f"{it}.ch10" for it in left})


# ---- what goes wrong


def test_a_fault_leaves_the_recording_as_it_is(work: Path) -> None:
    """The status is that of `chapter11`; no file is left."""
    out = work / "fault.ch11"
    adds = played_bpfrec(work, "chapter11) echo 'refused 3 Gap 5'; exit 1")
    status, told = recorded(work, begin(work, out, "--quiet", "--chapter11", adds=adds))
    judge("it is told", f"bpfrec live: {whole_file(out)} isn't made: refused 3 Gap 5\n" in told and status == 1, told)
    judge("nothing is left of it", not whole_file(out).exists() and is_approved(out))


def test_a_full_disk_is_the_reason(work: Path) -> None:
    """Which the program's own line doesn't say."""
    adds = played_bpfrec(work, 'chapter11) cat /dev/zero > "$4"; echo file "$4"; exit 3')
    with memory_disk(work / "disk", "size=4m") as disk:
        out = disk / "full.ch11"
        status, told = recorded(work, begin(work, out, "--quiet", "--chapter11", adds=adds))
        file = whole_file(out)
        line = f"bpfrec live: {file} isn't made: file {file}: No space left on device\n"
        judge("it is said", line in told and status == 3, told)
        judge("nothing is left of it", not file.exists() and is_approved(out))


def test_its_setup_record_says_what_is_asked_for(work: Path) -> None:
    """And that of what is published."""
    out, station = work / "setup.ch11", Station()
    words = ("--chapter11", "--publish", station.address, "--external", "--attribute", "G\\SC:U", "--tai", 37)
    status, told = recorded(work, begin(work, out, "--quiet", *words))
    judge_quietly("it ends well", status == 0, told)
    for what, data in (("the file", whole_file(out).read_bytes()), ("datagrams", b"".join(station.close()))):
        judge(what, b"R-1\\TSRC-1:E;" in data and b"G\\SC:U;" in data)


def test_what_is_not_approved_has_none(work: Path) -> None:
    out = work / "no.ch11"
    adds = played_bpfrec(work, "audit) echo 'no 5 NoEnd 1'; exit 1")
    status, told = recorded(work, begin(work, out, "--quiet", "--chapter11", adds=adds))
    judge("the status is the audit's", status == 1 and "ch10" not in told and not whole_file(out).exists(), told)


def test_a_file_in_its_place_is_kept(work: Path) -> None:
    out = work / "there.ch11"
    for is_link in (False, True):
        whole_file(out).unlink(missing_ok=True)
        if is_link:
            whole_file(out).symlink_to(work / "nowhere")
        else:
            whole_file(out).write_bytes(b"kept")
        running = Running(work, LIVE, "--quiet", "--chapter11", settings_of(work), out, "rx0=1", "rx1=2")
        status, told = running.ended()[0], running.told()
        judge("refused", status == 3 and told.startswith(f"bpfrec live: {whole_file(out)} is there: "), told)
        judge_quietly("nothing is created", not out.exists() and not (work / "nowhere").exists())


def test_force_overwrites_it(work: Path) -> None:
    out = work / "again.ch11"
    whole_file(out).write_bytes(b"old")
    status, told = recorded(work, begin(work, out, "--quiet", "--chapter11", "--force"))
    judge("status 0", status == 0, told)
    judge_whole(work, out)


def test_a_second_signal_ends_what_is_being_made(work: Path) -> None:
    out = work / "long.ch11"
    adds = played_bpfrec(work, "chapter11) exec sleep 600")
    running = begin(work, out, "--quiet", "--chapter11", adds=adds)
    running.interrupt()
    wait_for("it is approved", lambda: is_approved(out) and in_work(out).exists())
    time.sleep(1.2)
    running.interrupt()
    status, told = running.ended()[0], running.told()
    judge("it ends", status != 0 and "isn't made: the run was ended" in told, (status, told))
    judge("without its file", not whole_file(out).exists() and not in_work(out).exists() and is_approved(out))


def test_a_killed_run_leaves_no_file_of_that_name(work: Path) -> None:
    """Of one that was empty an audit would say yes."""
    out = work / "killed.ch11"
    adds = played_bpfrec(work, "chapter11) exec sleep 600")
    running = begin(work, out, "--quiet", "--chapter11", adds=adds)
    running.interrupt()
    wait_for("it is in work", in_work(out).exists)
    running.process.kill()
    running.process.wait()
    judge("it has no name yet", not whole_file(out).exists() and is_approved(out))
