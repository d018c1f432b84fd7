"""Records once at full size by the commands (dev/trials/lib/full_size.py), and reads it by each command and tool. At both limits
of packets."""

import subprocess
from pathlib import Path
from typing import NamedTuple

import pytest
from full_size import (
    CHANGED,
    LIMITS,
    PATIENCE,
    VERSIONS,
    change_filters,
    feed_path,
    frames_in,
    insns_of,
    report_of,
    write_all,
)
from recorder import begin
from support import BPFREC, judge, judge_quietly, present, run

pytestmark = pytest.mark.wanted("bin/bpfrec")


class Made(NamedTuple):
    """A recording, and the feed of each of its channels."""

    out: Path
    feeds: dict[int, bytes]


@pytest.fixture(scope="module", params=LIMITS)
def made(place: Path, request: pytest.FixtureRequest) -> Made:
    settings, feeds = write_all(place / f"of limit {request.param}", request.param, {CHANGED})
    out = place / f"{request.param}.ch11"
    running = begin(settings, out, stdin=subprocess.PIPE, stderr=subprocess.PIPE)
    # Opened for both, so that it doesn't wait where the recorder has ended.
    with open(feed_path(settings.parent, CHANGED), "r+b", buffering=0) as pipe:
        change_filters(running, pipe, settings, out, feeds[CHANGED])
    present(running.stdin).close()
    printed = present(running.stdout).read().splitlines()
    judge_quietly(f"it ends: {present(running.stderr).read()}", running.wait(PATIENCE) == 0)
    judge("each channel records all", printed[:-1] == report_of(feeds), printed)
    judge("all is written", printed[-1].endswith(f" {out.stat().st_size}"), printed[-1])
    return Made(out, feeds)


def test_at_full_size_list_and_audit_have_all(made: Made) -> None:
    rows = [it.split() for it in run(BPFREC, "list", made.out, seconds=PATIENCE).splitlines()]
    frames = dict.fromkeys(made.feeds, 0)
    for row in rows[:-1]:
        if row[7] == "frames":
            frames[int(row[1])] += int(row[8])
    wanted = {channel: frames_in(feed) for channel, feed in made.feeds.items()}
    judge("list has all frames", frames == wanted, frames)
    programs = [int(row[11]) for row in rows[:-1] if row[7] == "program" and row[8] == str(CHANGED)]
    judge("and all programs", programs == [insns_of(it) for it in range(VERSIONS)], len(programs))
    audited = run(BPFREC, "audit", made.out, seconds=PATIENCE).splitlines()
    lines = {
        f"channel {it} programs {VERSIONS if it == CHANGED else int(count > 0)} frames {count} offered {count}"
        for it, count in wanted.items()
    }
    judge("audit", set(audited[:-1]) == lines and audited[-1] == "yes other 0", lines ^ set(audited))


def test_at_full_size_each_channel_is_extracted(work: Path, made: Made) -> None:
    for channel, feed in made.feeds.items():
        run(BPFREC, "extract", made.out, channel, work / "again.feed", seconds=PATIENCE)
        judge_quietly(f"channel {channel} is extracted", (work / "again.feed").read_bytes() == feed)
