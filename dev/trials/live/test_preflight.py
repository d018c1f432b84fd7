"""Tries bpfrec preflight --live, which takes the arguments of bpfrec live: each fault is one that live has too."""

import os
import re
import subprocess
import time
from pathlib import Path

import pytest
from namespace import set_link
from recordings import begin, facts_of, nothing_left, settings_of, write_settings
from support import LIVE, NOBODY, TOOLS, Running, judge, judge_quietly, outcome, run

pytestmark = [pytest.mark.wanted("bin/bpfrec", "bin/capture", "ip", "tcpdump"), pytest.mark.usefixtures("namespace")]
PREFLIGHT = TOOLS / "preflight"


def told(*words: object) -> tuple[int, list[str], list[str]]:
    """The status, the faults and the notes of a run of live that is judged."""
    done = outcome(PREFLIGHT, "--live", *words)
    lines = done.stdout.splitlines()
    judge_quietly(
        f"{words}: {done.stderr}", done.stderr == "" and lines and re.fullmatch("1 fault|[0-9]+ faults", lines[-1])
    )
    faults = [it for it in lines[:-1] if ": note: " not in it]
    judge_quietly(f"{words}: {lines[-1]}", lines[-1].split(" ")[0] == str(len(faults)))
    return done.returncode, faults, [it for it in lines[:-1] if ": note: " in it]


def test_right_arguments_have_no_fault(work: Path) -> None:
    """Channels with interfaces need no feed, and what may be lost is a note."""
    settings = settings_of(work)
    status, faults, notes = told("--every", 60, settings, work / "out.ch11", "rx0=1", "rx1=2")
    judge("nothing is wrong", (status, faults) == (0, []), faults)
    for what in ("rx0: note: it is there, and its frames are not joined", "out_00001.ch11: note: ", "buffers: note: "):
        judge(f"a note on {what}", any(what in it for it in notes), notes)
    judge("nothing is created", sorted(it.name for it in work.glob("out*")) == [] and nothing_left(work))


def test_an_interface_that_joins_frames_is_noted(work: Path) -> None:
    run("ip", "link", "add", "jx0", "type", "veth", "peer", "name", "jx1")
    set_link("jx0", "up")
    _, faults, notes = told(work / "out.ch11", "jx0")
    judge(
        "an interface whose frames are joined",
        faults == [] and any("ethtool -K jx0 " in it for it in notes),
        notes,
    )
    judge("and that has no carrier", any(it.startswith("jx0: note: it has no carrier") for it in notes), notes)


def test_a_channel_that_nothing_feeds_is_named_with_what_it_lacks(work: Path) -> None:
    settings = settings_of(work)
    status, faults, notes = told(settings, work / "out.ch11", "rx0=1")
    judge("a fault", (status, faults) == (1, [f"{settings}:7: channel 2: settings 3 Missing feed"]), faults)
    judge("and a note", f"{settings}:8: channel 2: note: no interface is this channel, as eth0=2" in notes, notes)


def cases(work: Path) -> list[tuple[list, str]]:
    settings = settings_of(work)
    (work / "there.ch11").write_bytes(b"kept")
    other = work / "other"
    other.mkdir()
    missing = write_settings(other, f'id = 1\nfilter = "{work}/missing"')
    return [
        ([settings, work / "out.ch11", "rx0=1", "nowhere0=2"], "nowhere0: no such interface"),
        (
            [settings, work / "out.ch11", "rx0=3"],
            f"bpfrec live: {settings} has no table [[channel]] with a line id = 3",
        ),
        ([settings, "rx0=1"], f"bpfrec live: OUT is missing: it stands between {settings} and rx0=1"),
        (
            [settings, work / "there.ch11", "rx0=1", "rx1=2"],
            f"{work}/there.ch11: {work}/there.ch11 is there: give it another",
        ),
        ([missing, work / "out.ch11", "rx0=1"], f"{missing}:5: channel 1: file {work}/missing: missing"),
        ([work / "out.ch11", "rx0=1:udp portt 5"], "rx0: rx0=1:udp portt 5: tcpdump: can't parse filter expression"),
        ([work / "no/out.ch11", "rx0"], f"{work}/no/out.ch11: file {work}/no/out.ch11: its folder is missing"),
    ]


def test_each_fault_is_one_that_live_has_too(work: Path) -> None:
    """Each is one that live has too, which then begins nothing."""
    for words, line in cases(work):
        status, faults, _ = told(*words)
        judge(f"a fault: {line}", status == 1 and faults[0].startswith(line), faults)
        running = Running(work, LIVE, "--quiet", *words)
        judge_quietly(f"live says so too: {running.told()}", running.ended()[0] != 0 and nothing_left(work))


def test_an_origin_is_noted_as_capture_notes_it(work: Path) -> None:
    """Counters begin at 0 again after 325 days, so by then another origin gives right times."""
    for word in ("zero", "2025-01-01T00:00:00Z", str(int(time.time()) - 86_400)):
        running = begin(work, work / f"{word}.ch11", "--quiet", "--origin", word)
        running.interrupt()
        running.ended()
        noted = facts_of(work / f"{word}.ch11")["origins"][0]["origin"]
        _, faults, notes = told("--origin", word, settings_of(work), work / "out.ch11", "rx0=1", "rx1=2")
        line = f"bpfrec capture: note: --origin {word}: the origin {noted} is noted"
        judge(f"what is noted of --origin {word}", faults == [] and any(it.startswith(line) for it in notes), notes)


def test_an_origin_that_capture_refuses_is_a_fault(work: Path) -> None:
    for word in ("2096-01-01T00:00:00Z", "yesterday", "first"):
        words = ["--origin", word, settings_of(work), work / "out.ch11", "rx0=1", "rx1=2"]
        status, faults, _ = told(*words)
        running = Running(work, LIVE, *words)
        refused = (running.ended()[0], running.told())
        # But for the digits of now.
        one, other = (re.sub(r"now, which is .*", "now", it.strip()) for it in (faults[0], refused[1]))
        judge(
            f"a fault, as capture says it: {one}",
            (status, len(faults), refused[0]) == (1, 1, 2) and one == other,
            other,
        )


def test_an_interface_that_is_down_is_a_fault(work: Path) -> None:
    set_link("rx1", "down")
    _, faults, _ = told(settings_of(work), work / "out.ch11", "rx0=1", "rx1=2")
    judge("an interface that is down", faults == ["rx1: it is down: ip link set rx1 up"], faults)


def test_buffers_past_the_memory_are_a_fault(work: Path) -> None:
    _, faults, _ = told("--buffer", 2_047, work / "out.ch11", *[f"rx0={at}" for at in range(1, 65)])
    judge(
        "more memory than there is",
        len(faults) == 1 and faults[0].startswith("buffers: the kernel keeps up to 4094 MiB"),
    )


def test_a_lacking_permission_is_a_fault(work: Path) -> None:
    for path in (work, settings_of(work), work / "all"):
        path.chmod(0o777)
    done = subprocess.run(
        [PREFLIGHT, "--live", work / "live.toml", work / "out.ch11", "rx0=1", "rx1=2"],
        user=NOBODY,
        group=NOBODY,
        extra_groups=[],
        capture_output=True,
        text=True,
        env={**os.environ, "TMPDIR": str(work)},
    )
    line = "bpfrec capture: no permission to capture: be root, or have a group capture, as using/record.md says: chgrp recorder F && "
    judge("no permission", done.returncode == 1 and line in done.stdout, done.stdout + done.stderr)
