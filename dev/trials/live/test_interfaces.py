"""Tries bpfrec live on interfaces that come back, with permissions that it gives up, and by an adapter's clock."""

import os
import re
import shutil
import subprocess
import time
from collections.abc import Callable
from pathlib import Path

import pytest
from frames import numbers, records
from namespace import make_pair, send_together, set_link, take_away, wait_until_up
from recordings import RUN, YES, begin, extracted, facts_of, judge_parts, process_of, recordings, settings_of
from served import address_in, status_of
from support import BPFREC, CAPTURE, INFO, NOBODY, ROOT, Running, judge, judge_quietly, outcome, wait_for

pytestmark = [
    pytest.mark.wanted("bin/bpfrec", "bin/capture", "ip", "cc", "pcap-config", "setcap"),
    pytest.mark.timed,
    pytest.mark.usefixtures("namespace"),
]
GONE = "bpfrec capture: rx0: the interface is gone, and is taken again once it is back\n"
BACK = "bpfrec capture: rx0: it is back\n"
MEMBERS = 4_242
NET_RAW = 1 << 13

# ---- interfaces that come back


@pytest.mark.parametrize("words", [[], ["--every", 1]], ids=["single", "every"])
def test_an_interface_that_is_taken_away_and_made_anew_is_recorded_again(work: Path, words: list) -> None:
    running = begin(work, work / "back.ch11", "--quiet", *words)
    send_together(0, 100)
    for turn in (1, 2):
        time.sleep(0.6 if words else 0.2)
        take_away("rx0")
        wait_for(lambda: f"it is told as gone: {running.told()}", lambda: running.told().count(GONE) == turn, 10)
        time.sleep(0.6 if words else 0.1)
        make_pair(0)
        wait_for(lambda: f"it is told as back: {running.told()}", lambda: running.told().count(BACK) == turn, 10)
        send_together(100 * turn, 100)
    time.sleep(0.6 if words else 0.2)
    running.interrupt()
    status, printed = running.ended()
    files = recordings(work, "back") if words else [work / "back.ch11"]
    judge("an interface that comes back is no fault", status == 0 and printed.count(YES) == len(files), running.told())
    for channel in (1, 2):
        judge_parts(
            f"channel {channel} has the frames before, between and after",
            [records(extracted(work, it, channel)) for it in files],
            list(range(300)),
        )
    judge_quietly("several recordings", len(files) > 1 or not words)


def test_a_renamed_interface_is_recorded_on(work: Path) -> None:
    """An interface that is renamed while it is down, then up."""
    running = begin(work, work / "renamed.ch11", "--quiet")
    send_together(0, 100)
    set_link("rx0", "down")
    running.wait_until_told("rx0: it is down")
    set_link("rx0", "name", "rz0")
    time.sleep(0.3)
    set_link("rz0", "up")
    wait_until_up("tx0")
    send_together(100, 100)
    running.wait_until_told("it is up again")
    time.sleep(0.2)
    running.interrupt()
    status, printed = running.ended()
    judge(
        "an interface that is renamed while it is down goes on",
        status == 0 and YES in printed and numbers(extracted(work, work / "renamed.ch11", 1)) == list(range(200)),
        running.told(),
    )


def away_in(running: Running) -> str | None:
    """Why the first channel's interface brings no frames, by the status."""
    status = status_of(address_in(running.told()))
    found = status["channels"][0] if status["channels"] else {"away": None}
    alarms = [it["word"] for it in status["alarms"] if it["name"] == "away" and it["channel"] == 1]
    judge_quietly("an alarm says it", alarms == [found["away"]] or found["away"] is None, (alarms, found))
    return found["away"]


@pytest.mark.parametrize("words", [[], ["--every", 1]], ids=["single", "every"])
def test_an_interface_without_frames_is_an_alarm_and_an_interruption_of_the_facts(work: Path, words: list) -> None:
    """One that is down, has no carrier, or is gone; of recordings that follow one another each has those of its time."""
    running = begin(work, work / "link.ch11", "--quiet", "--status", "0", *words)
    wait_for("the status is served", lambda: "status: http" in running.told())
    ways: dict[str, tuple[Callable[[], None], Callable[[], None]]] = {
        "down": (lambda: set_link("rx0", "down"), lambda: set_link("rx0", "up")),
        "no carrier": (lambda: set_link("tx0", "down"), lambda: set_link("tx0", "up")),
        "gone": (lambda: take_away("rx0"), lambda: make_pair(0)),
    }
    for turn, (why, (leave, come_back)) in enumerate(ways.items()):
        send_together(10 * turn, 10)
        leave()
        wait_for(lambda: f"an alarm: {running.told()}", lambda: away_in(running) == why, 10)
        time.sleep(1.2 if words else 0)
        come_back()
        wait_for("it is back", lambda: away_in(running) is None, 10)
    running.end_well()
    files = recordings(work, "link") if words else [work / "link.ch11"]
    judge_parts("each frame before is there", [records(extracted(work, it, 1)) for it in files], list(range(30)))
    found = [it for file in files for it in facts_of(file)["interruptions"]]
    judge("each is of rx0, and has an end", {it["interface"] for it in found} == {"rx0"} and found[-1]["to"], found)
    begun = {it["from"]: it["why"] for it in found}
    judge("each is once, in order", list(begun.values()) == list(ways) and list(begun) == sorted(begun), found)
    judge("one that lasts is in both", (len(found) > len(ways)) == bool(words), found)
    last = next(file for file in files if "gone" in [it["why"] for it in facts_of(file)["interruptions"]])
    judge("info says it", "rx0 gone from 20" in outcome(INFO, last).stdout)


# ---- permissions


def permissions_of(pid: int) -> dict[str, str]:
    return dict(re.findall(r"(\w+):\t(\w+)", Path(f"/proc/{pid}/status").read_text()))


def judge_permissions(what: str, pid: int) -> None:
    """Threads have their own, so each of them is looked at."""
    told = [permissions_of(int(it.name)) for it in Path(f"/proc/{pid}/task").iterdir()]
    judge(
        f"{what}: none is in force, new ones can't be had, and one at most is kept",
        all(
            int(it["CapEff"], 16) == 0 and it["NoNewPrivs"] == "1" and int(it["CapPrm"], 16) in (0, NET_RAW)
            for it in told
        ),
    )


def member_tools(work: Path) -> Path:
    """Copies that a member of a group can run, as the permission is documented."""
    place = work / "members"
    shutil.copytree(ROOT / "host", place / "host", ignore=shutil.ignore_patterns("__pycache__"))
    (place / "bin").mkdir()
    (place / "private").mkdir()
    capture = place / "bin/capture"
    shutil.copy(BPFREC, place / "bin/bpfrec")
    shutil.copy(CAPTURE, capture)
    settings_of(place)
    for path in [work, place, *place.rglob("*")]:
        path.chmod(path.stat().st_mode | 0o555)
    for path in (place, place / "private"):
        path.chmod(0o777)
    os.chown(capture, 0, MEMBERS)
    capture.chmod(0o750)
    done = outcome("setcap", "cap_net_raw=ep", capture)
    if done.returncode:
        pytest.skip(f"permissions by setcap: {done.stderr.strip()}")
    return place


def test_a_member_of_the_group_records_without_root(work: Path) -> None:
    place = member_tools(work)
    out = place / "member.ch11"
    words = [place / "host/bin/bpfrec", "live", "--quiet", place / "live.toml", out, "rx0=1", "rx1=2"]
    running = Running(place, *words, adds={RUN: str(out)}, user=NOBODY, group=MEMBERS, extra_groups=[], cwd=place)
    running.wait_until_told("origin")
    wait_for(
        lambda: f"a member of the group records: {running.told()}",
        lambda: out.exists() or running.process.poll() is not None,
    )
    send_together(0, 100)
    judge_permissions("a capture with a permission of its file", process_of(out, place / "bin/capture"))
    take_away("rx0")
    running.wait_until_told("is taken again once it is back")
    make_pair(0)
    running.wait_until_told("rx0: it is back")
    send_together(100, 100)
    time.sleep(0.2)
    running.interrupt()
    status, printed = running.ended()
    judge(
        "a member of the group records, also an interface that comes back",
        status == 0
        and YES in printed
        and [numbers(extracted(work, out, it)) for it in (1, 2)] == [list(range(200))] * 2,
        running.told(),
    )


def test_another_user_is_refused(work: Path) -> None:
    words = [str(member_tools(work) / "bin/capture"), "--help"]
    with pytest.raises(PermissionError):
        subprocess.run(words, user=NOBODY, group=NOBODY, extra_groups=[], capture_output=True)


# ---- the clock of an adapter


def test_the_clock_of_an_adapter_without_one_is_refused(work: Path) -> None:
    running = Running(work, CAPTURE, "--clock", "adapter", "rx0=-")
    judge(
        "--clock adapter of one without a clock is refused",
        running.ended()[0] == 3 and running.told() == "bpfrec capture: rx0: its adapter gives no times\n",
    )
