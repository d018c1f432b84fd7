"""Tries recordings of bpfrec live that follow one another: under traffic, at signals, without interfaces or room."""

import re
import time
from pathlib import Path

import pytest
from disks import memory_disk
from frames import numbers, numbers_in
from namespace import send_numbered, send_together, take_away
from recorder import extracted
from recordings import YES, judge_parts, nothing_left, parts_of, recordings, settings_of, write_settings
from support import BPFREC, DROPS_ALL, EXPORT, KEEPS_ALL, LIVE, SECONDS, Running, judge, judge_quietly, outcome, sums

pytestmark = [
    pytest.mark.wanted("bin/bpfrec", "bin/capture", "ip", "mount"),
    pytest.mark.timed,
    pytest.mark.usefixtures("namespace"),
]
FRAMES = 5_000

# ---- under traffic


@pytest.mark.parametrize(
    "name, words, many",
    [("time", ["--every", 1], 3), ("size", ["--size", 100_000], 5), ("often", ["--size=1"], 6)],
    ids=["time", "size", "often"],
)
def test_recordings_follow_one_another_by_time_and_size_without_a_gap(
    work: Path, name: str, words: list, many: int
) -> None:
    """Recordings that follow one another, by time and by size, under traffic, while a filter is changed."""
    settings = write_settings(work, f'id = 1\nfilter = "{work}/all"', f'id = 2\nfilter = "{work}/none"')
    running = Running(work, LIVE, "--quiet", *words, settings, work / f"{name}.ch11", "rx0=1", "rx1=2")
    running.wait_until_told("origin")
    sent = send_and_change(work, running, name, many)
    running.interrupt()
    status, printed = running.ended()
    told, files = running.told(), recordings(work, name)
    judge_quietly(f"by {name}: status {status}, {told}", status == 0)
    judge(
        f"by {name}: status 0, and each recording is approved",
        printed.count(YES) == len(files) >= many
        and re.findall(r"recording (.*)", printed) == [str(it) for it in files],
        (printed, files),
    )
    judge("no frame was dropped by the kernel", re.search(rf"rx0 frames {sent} bytes \d+ dropped 0 ", told), told)
    judge_parts(
        f"each of {sent} frames is in one of {len(files)} recordings", parts_of(work, name, 1), list(range(sent))
    )
    two = parts_of(work, name, 2)
    first = numbers_in(two)[0]
    judge_parts(
        "and of the other channel each one from the change on, in all recordings after it",
        two,
        list(range(first, sent)),
    )
    judge(
        "which was told once, and the wrong line too",
        0 < first <= FRAMES and told.count("installed") == 1 and told.count("no line no, and help has all") == 1,
    )
    judge_quietly("nothing is left", nothing_left(work))


def send_and_change(work: Path, running: Running, name: str, many: int) -> int:
    """Sends until there are so many recordings, and changes a filter whose file changes once more; how many frames."""
    send_together(0, FRAMES)
    (work / "changed").write_text(KEEPS_ALL)
    running.type_in(f"no line\nset 2 {work}/changed")
    running.wait_until_told("installed 2 1 ")
    (work / "changed").write_text(DROPS_ALL)
    sent, end = FRAMES, time.monotonic() + SECONDS
    while len(recordings(work, name)) < many and time.monotonic() < end:
        send_together(sent, 500)
        sent += 500
    send_together(sent, FRAMES)
    return sent + FRAMES


def test_a_run_becomes_one_chapter_11_file(work: Path) -> None:
    """While a filter is changed: each frame is in it once, and the audit says yes, with the sums."""
    settings = write_settings(work, f'id = 1\nfilter = "{work}/all"', f'id = 2\nfilter = "{work}/none"')
    running = Running(work, LIVE, "--quiet", "--every", 1, settings, work / "whole.ch11", "rx0=1", "rx1=2")
    running.wait_until_told("origin")
    sent = send_and_change(work, running, "whole", 3)
    running.interrupt()
    judge_quietly(running.told(), running.ended()[0] == 0)
    out, files = work / "whole.ch10", recordings(work, "whole")
    done = outcome(EXPORT, *reversed(files), out, seconds=SECONDS)
    judge(f"{len(files)} recordings are one file", done.returncode == 0 and done.stdout.startswith("times "), done)
    audit = outcome(BPFREC, "audit", out).stdout.splitlines()
    judge("approved, with the sums", audit[0] == f"channel 1 programs 1 frames {sent} offered {sent}", audit)
    judge("as all of it", audit[-1].startswith("yes ") and sums(out).returncode == 0, audit)
    judge("each frame once", numbers(extracted(out, 1, work / "one.feed")) == list(range(sent)))
    kept = numbers(extracted(out, 2, work / "two.feed"))
    judge("and of the other channel", kept == numbers_in(parts_of(work, "whole", 2)))


# ---- what happens meanwhile


def test_recordings_go_on_without_an_interface(work: Path) -> None:
    """An interface that is taken away and isn't back by the end; test_live_interfaces.py has those that come back."""
    running = Running(work, LIVE, "--quiet", "--every", 1, settings_of(work), work / "gone.ch11", "rx0=1", "rx1=2")
    running.wait_until_told("origin")
    send_together(0, 100)
    time.sleep(0.2)
    take_away("rx0")
    running.wait_until_told("rx0: the interface is gone, and is taken again once it is back")
    sent = 100
    while len(recordings(work, "gone")) < 4:
        send_numbered("tx1", sent, sent + 100)
        sent += 100
        time.sleep(0.1)
    running.interrupt()
    status, printed = running.ended()
    files = recordings(work, "gone")
    judge_quietly(f"an interface that is gone: status {status}, {printed} {running.told()}", status == 1)
    judge(
        "an interface that is gone is empty in later recordings",
        printed.count(YES) == len(files) and printed.count("channel 1 versions 1 offered 0 ") >= len(files) - 2,
    )
    judge("and is told as gone at the end", "bpfrec capture: rx0: the interface is gone\n" in running.told())
    judge_parts("and the other has all its frames", parts_of(work, "gone", 2), list(range(sent)))


def test_a_recording_goes_on_where_no_further_file_can_be_created(work: Path) -> None:
    """A disk on which no further file can be created: the recording goes on."""
    settings = settings_of(work)
    with memory_disk(work / "disk", "size=8m,nr_inodes=3") as disk:
        running = Running(work, LIVE, "--quiet", "--every", 1, settings, disk / "full.ch11", "rx0=1", "rx1=2")
        running.wait_until_told("origin")
        sent, begin = 0, time.monotonic()
        while time.monotonic() - begin < 2.5:
            send_together(sent, 20)
            sent += 20
        running.interrupt()
        status, printed = running.ended()
        told = f"bpfrec live: {disk}/full_00002.ch11 can't be begun: {disk}/full_00001.ch11 goes on"
        judge(
            "where no recording can be begun the last goes on, which is told once",
            status == 0
            and running.told().count(told) == 1
            and f"channel 1 versions 1 offered {sent} kept {sent} " in printed
            and printed.count(YES) == 1,
            (status, printed, running.told()),
        )


# ---- what can't be begun


def refusals(work: Path, settings: Path, out: Path) -> list[tuple]:
    own = work / "own.toml"
    tables = [f'[[channel]]\nid = {channel}\nfilter = "{work}/all"\n' for channel in (1, 5)]
    own.write_text("".join(tables) + 'feed = "own"\n')
    needs = f"--every and --size need an interface for each channel, and 5 of {own} has none"
    return [
        (["--every", 1, own, out, "rx0=1"], 2, f"bpfrec live: {needs}"),
        (
            ["--quiet", "--size", 5, settings, out, "rx0=1", "nowhere0=2"],
            3,
            "bpfrec capture: nowhere0: no such interface",
        ),
    ]


def test_wrong_names_of_recordings_are_refused(work: Path) -> None:
    settings, out = settings_of(work), work / "none.ch11"
    for words, status, told in refusals(work, settings, out):
        running = Running(work, LIVE, *words)
        judge(f"refused: {told}", running.ended()[0] == status and running.told() == told + "\n", running.told())
        judge_quietly("nothing is created or left", recordings(work, "none") == [] and nothing_left(work))
    (work / "none_00001.ch11").write_bytes(b"kept")
    wrong = write_settings(work, f'id = 1\nfilter = "{work}/all"\nmore = 1')
    running = Running(work, LIVE, "--quiet", "--size", 5, wrong, out, "rx0=1")
    status = running.ended()[0]
    judge(
        "a fault of the recorder ends it, and no file that is there is touched",
        status == 2
        and "settings 2 Unknown more\n" in running.told()
        and [it.read_bytes() for it in recordings(work, "none")] == [b"kept"]
        and nothing_left(work),
    )
