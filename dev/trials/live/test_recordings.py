"""Tries bin/capture and bpfrec live on interfaces: recordings, how they end, and what can't be begun."""

import os
import re
import shutil
import signal
import time
from collections.abc import Callable
from pathlib import Path

import pytest
from frames import numbered, numbers, records
from namespace import send, send_numbered, send_together
from recordings import YES, extracted, nothing_left, settings_of_one, write_settings
from sample_feeds import sample_feed
from support import (
    BPFREC,
    CAPTURE,
    LIVE,
    MILLISECOND,
    NOBODY,
    ROOT,
    SECONDS,
    Running,
    judge,
    judge_quietly,
    origin_told,
    pipe_at,
    present,
)

pytestmark = [
    pytest.mark.wanted("bin/bpfrec", "bin/capture", "ip"),
    pytest.mark.timed,
    pytest.mark.usefixtures("namespace"),
]
FRAMES = 5_000

# ---- live recordings


def test_two_interfaces_are_recorded_with_a_changed_filter(work: Path) -> None:
    """Two interfaces, of which one's filter is changed meanwhile, and a channel with a feed of its own."""
    sample_feed(work / "own.feed", 1, 50)
    settings = write_settings(
        work,
        f'id = 1\nfilter = "{work}/all"\nfeed = "nowhere" # this line gives way',
        f'  id = 2 # the second\n  filter = "{work}/none"',
        f'id = 3\nfilter = "{work}/all"\nfeed = "{work}/own.feed"',
    )
    out = work / "two.ch11"
    running = Running(work, LIVE, settings, out, "rx0=1", "rx1=2")
    running.wait_until_told("origin")
    sent = send_together(0, FRAMES)
    running.type_in(f"set 2 {work}/all")
    running.wait_until_told("installed 2 1 ")
    sent += send_together(FRAMES, FRAMES)
    time.sleep(1.2)
    running.interrupt()
    status, printed = running.ended()
    judge("Ctrl-C ends a live recording with status 0", status == 0)
    mark = int(present(re.search(r"installed 2 1 (\d+)", running.told()))[1])
    judge_report(printed.splitlines(), running.told(), mark)
    judge("pipes and settings are removed", nothing_left(work))
    one, two = (extracted(work, out, channel) for channel in (1, 2))
    judge("each frame once and in order", numbers(one) == list(range(2 * FRAMES)))
    judge(
        "and of the other channel each one from the change on",
        numbers(two) == list(range(mark, 2 * FRAMES)) and 0 < mark <= FRAMES,
    )
    judge_counters(
        origin_told(running.told()), sent, [it.counter for it in records(one)], [it.counter for it in records(two)]
    )


def judge_report(lines: list[str], told: str, mark: int) -> None:
    judge(
        "its report",
        lines[:3]
        == [
            f"channel 1 versions 1 offered {2 * FRAMES} kept {2 * FRAMES} SourceEnd",
            f"channel 2 versions 2 offered {2 * FRAMES} kept {2 * FRAMES - mark} SourceEnd",
            "channel 3 versions 1 offered 50 kept 50 SourceEnd",
        ],
    )
    judge("its audit says yes", lines[-1] == YES and any("channel 1 programs 1 frames" in it for it in lines))
    counts = re.findall(r"rx0 frames (\d+) bytes \d+ dropped (\d+) missed (\d+) skipped (\d+) waited \d+", told)
    judge(
        "a line a second, and the counts at the end",
        len(counts) > 1 and counts[-1] == (str(2 * FRAMES), "0", "0", "0"),
    )


def judge_counters(origin: int, sent: list, one: list[int], two: list[int]) -> None:
    """Counters are the time since the origin, and both channels' agree, beyond what the sender took for both."""
    mark = len(one) - len(two)
    moments = [origin + 100 * counter for counter in one]
    off = max(max(begin - at, at - end) for (begin, end), at in zip(sent, moments))
    print(f"counters are at most {off / MILLISECOND:.3f} ms outside of the time in which their frames were sent")
    judge("counters are the time since the origin", off < MILLISECOND)
    apart = max(abs(a - b) * 100 - (end - begin) for a, b, (begin, end) in zip(one[mark:], two, sent[mark:]))
    judge("frames that were sent together are less than a millisecond apart", apart < MILLISECOND)


@pytest.mark.parametrize(
    "name, tell", [("TERM", os.kill), ("HUP", os.killpg), ("INT", os.kill)], ids=["TERM", "HUP", "INT"]
)
def test_each_signal_ends_a_recording_well(work: Path, name: str, tell: Callable[[int, int], None]) -> None:
    """TERM and INT to bpfrec live alone, and HUP to all."""
    running = Running(work, LIVE, "--quiet", settings_of_one(work), work / f"{name}.ch11", "rx0=1")
    running.wait_until_told("origin")
    send_numbered("tx0", 0, 100)
    time.sleep(0.1)
    tell(running.process.pid, getattr(signal, f"SIG{name}"))
    status, printed = running.ended()
    judge(f"{name} ends it too", status == 0 and "offered 100 kept 100 SourceEnd" in printed and YES in printed)
    judge_quietly("--quiet tells the origin and the end", running.told().count("rx0 frames") == 1)


def test_a_recording_ends_once_its_channels_have_all_their_frames(work: Path) -> None:
    """The pipes of channels that have all their frames."""
    settings = write_settings(work, f'id = 1\nfilter = "{work}/all"\nmax = 10')
    running = Running(work, LIVE, settings, work / "max.ch11", "rx0=1")
    running.wait_until_told("origin")
    end, number = time.monotonic() + SECONDS, 0
    while running.process.poll() is None and time.monotonic() < end:
        send("tx0", [numbered(number)])
        number += 1
        time.sleep(0.01)
    status, printed = running.ended()
    judge(
        "it ends by itself where each channel has all its frames",
        status == 0 and "offered 10 kept 10 CountFull" in printed,
    )


def test_what_the_kernel_drops_is_not_offered(work: Path) -> None:
    """What the kernel drops isn't offered, what it passes is whole whatever the program returns, and no line is
    read."""
    # the lowest byte of the frame's number, as a constant where it is over 9 and, one instruction a line, as A
    (work / "constant").write_text("4,48 0 0 21,37 0 1 9,6 0 0 1,6 0 0 0,")
    (work / "itself").write_text("2\n48 0 0 21\n22 0 0 0\n")
    settings = write_settings(
        work,
        f'id = 1\nfilter = "{work}/constant" # in the kernel too',
        f"id = 2\n'filter'='{work}/itself'",
    )
    out = work / "prefiltered.ch11"
    running = Running(work, LIVE, "--prefilter", "--quiet", settings, out, "rx0=1", "rx1=2")
    running.wait_until_told("origin")
    send_together(0, 100)
    running.type_in(f"set 1 {work}/all")
    time.sleep(0.2)
    running.interrupt()
    status, printed = running.ended()
    told = running.told()
    judge(
        "what the kernel drops by a filter is not offered",
        status == 0
        and printed.splitlines()[:2]
        == [
            "channel 1 versions 1 offered 90 kept 90 SourceEnd",
            "channel 2 versions 1 offered 99 kept 99 SourceEnd",
        ],
    )
    for channel, least in [(1, 10), (2, 1)]:
        feed = extracted(work, out, channel)
        lengths = {len(it.frame) for it in records(feed)}
        judge("the rest is whole", (numbers(feed), lengths) == (list(range(least, 100)), {64}))
    judge("and no line changes a filter", "installed" not in told and "refused" not in told)


# ---- what can't be begun


def refusals(work: Path, settings: Path, out: Path) -> list[tuple]:
    return [
        (["--quiet", settings, out, "nowhere0=1"], 3, "bpfrec capture: nowhere0: no such interface"),
        ([settings, out, "rx0=2"], 2, f"bpfrec live: {settings} has no table [[channel]] with a line id = 2"),
        ([settings, out, "rx0=1", "rx1=1"], 2, "bpfrec live: channel 1 has two interfaces"),
        ([settings, out, "rx0"], 2, "bpfrec live: rx0: with SETTINGS name its channel, as rx0=1"),
        (
            ["--origin", "yesterday", settings, out, "rx0=1"],
            2,
            "bpfrec capture: --origin yesterday: now, zero, or a time as 1764590400.25 or 2025-12-01T12:00:00.25Z; "
            "with -r first too",
        ),
        ([settings, settings, "rx0=1"], 3, f"bpfrec live: {settings}: it is SETTINGS itself"),
        ([work / "missing.toml", out, "rx0=1"], 3, f"bpfrec live: {work / 'missing.toml'}: no such file"),
        ([settings], 2, "bpfrec live: it takes SETTINGS and OUT: bpfrec live --help has its arguments"),
    ]


def test_what_cannot_be_begun_is_said_in_one_line(work: Path) -> None:
    """What can't be begun is said in one line; nothing is lost or left."""
    settings, out = settings_of_one(work), work / "refused.ch11"
    before = settings.read_text()
    for words, status, told in refusals(work, settings, out):
        running = Running(work, LIVE, *words)
        judge(f"refused: {told}", running.ended()[0] == status and running.told() == told + "\n")
        judge_quietly("nothing is created or left", not out.exists() and nothing_left(work))
    judge("and the settings are kept", settings.read_text() == before)


@pytest.mark.parametrize(
    "name, listing",
    [("no_listing", "2,6 0 0 1,"), ("no_program", "1,7 0 0 0,")],
    ids=["no_listing", "no_program"],
)
def test_a_refused_filter_is_said_once(work: Path, name: str, listing: str) -> None:
    """The recorder reads the filter too, so either may be first to refuse it."""
    out, settings = work / "refused.ch11", work / f"{name}.toml"
    (work / name).write_text(listing)
    settings.write_text(f'[[channel]]\nid = 1\nfilter = "{work}/{name}"\n')
    running = Running(work, LIVE, "--prefilter", "--quiet", settings, out, "rx0=1")
    judge(f"a filter that is {name.replace('_', ' ')} is refused", running.ended()[0] in (1, 3) and not out.exists())
    pipe = pipe_at(work, "one.pipe")
    running = Running(work, CAPTURE, "--prefilter", f"rx0={work / name}", f"rx0={pipe}")
    judge(
        "by the capture too, in a line",
        running.ended()[0] == 3 and running.told().count("\n") == 1 and name in running.told(),
    )


def test_a_lacking_permission_is_said_in_one_line(work: Path) -> None:
    settings, open_to_all = settings_of_one(work), work / "open"
    shutil.copytree(ROOT / "host", open_to_all / "host", ignore=shutil.ignore_patterns("__pycache__"))
    (open_to_all / "bin").mkdir()
    shutil.copy(BPFREC, open_to_all / "bin/bpfrec")
    shutil.copy(CAPTURE, open_to_all / "bin/capture")
    for path in [work, *work.rglob("*")]:
        path.chmod(path.stat().st_mode | 0o555)
    (work / "private").chmod(0o777)
    line = (
        r"bpfrec capture: rx0: no permission to capture: be root, or have a group capture, as using/record.md says: "
        r"chgrp recorder F && chmod 750 F && setcap cap_net_raw=ep F, where F is \S+/capture\n"
    )
    calls: list[tuple[Path, list[object]]] = [
        (open_to_all / "bin/capture", ["rx0=-"]),
        (open_to_all / "host/bin/bpfrec", ["live", settings, "/tmp/none.ch11", "rx0=1"]),
    ]
    for program, words in calls:
        running = Running(work, program, *words, preexec_fn=lambda: os.setuid(NOBODY))
        judge(
            f"no permission of {program.name}: one line",
            running.ended()[0] == 3 and bool(re.fullmatch(line, running.told())),
            running.told(),
        )
