"""Tries that a recording is the same with and without bpfrec live --prefilter.

Each listing has an interface of its own, over which mixed frames come in and go out. Two recordings run over all of
these interfaces at once, one of them with --prefilter, and what they kept is compared frame for frame. A scratch word
that is read before it is set is refused when a program is verified, so no listing of these has one.
"""

import re
import time
from collections import Counter
from collections.abc import Callable
from contextlib import ExitStack
from dataclasses import dataclass
from pathlib import Path

import pytest
from filtered_frames import KEEP_OR_DROP, TEXTS, mixed_frames
from frames import records
from namespace import make_many_pairs, socket_into, wait_until_up
from recordings import YES, extracted, folder_of
from support import BPFREC, LIVE, Running, judge, judge_quietly, outcome, run, wait_for

pytestmark = [pytest.mark.wanted("bin/bpfrec", "bin/capture", "ip", "tcpdump"), pytest.mark.timed]
EXPRESSIONS = {
    "tcpdump: udp port 53": "udp port 53",
    "tcpdump: vlan": "vlan",
    "tcpdump: vlan 100": "vlan 100",
    "tcpdump: vlan 100 and vlan 5": "vlan 100 and vlan 5",
    "tcpdump: vlan and udp port 53": "vlan and udp port 53",
    "tcpdump: not vlan": "not vlan",
    "tcpdump: less 62": "less 62",
    "tcpdump: ip6 or arp": "ip6 or arp",
}
# What the kernel runs ahead of a program, and behind one that returns A.
AHEAD, BEHIND, MOST = 6, 3, 4_096
TOO_LONG = "too long for the kernel: the recorder alone runs it"
# A burst that each kernel buffer takes, and the pause behind one over all interfaces.
A_BURST, PAUSE = 60, 0.02
SAID_TOO_LONG = {"4,096 instructions", "4,091 instructions", "4,088 instructions with ret a"}


def long_text(count: int, returns_a: bool = False) -> str:
    """A program of so many instructions, which keeps every other frame by its number."""
    lines = ["ldb [11]", "and #1", *["add #2"] * (count - (4 if returns_a else 5))]
    return "\n".join(lines + (["and #1", "ret a"] if returns_a else ["jset #1,keep,drop", KEEP_OR_DROP]))


LONG = {
    "4,096 instructions": long_text(MOST),
    "4,090 instructions": long_text(MOST - AHEAD),
    "4,091 instructions": long_text(MOST - AHEAD + 1),
    "4,087 instructions with ret a": long_text(MOST - AHEAD - BEHIND, True),
    "4,088 instructions with ret a": long_text(MOST - AHEAD - BEHIND + 1, True),
}
NAMES = [*EXPRESSIONS, *TEXTS, *LONG]

# ---- the recordings


@dataclass
class Kept:
    """What two recordings of the same frames kept, without --prefilter and with it."""

    sent: int
    told: str
    # Whether the kernel dropped frames of an interface.
    has_lost: bool
    # How many frames were offered to each channel, and the frames that it kept.
    offered_alone: list[int]
    offered: list[int]
    alone: list[list[bytes]]
    both: list[list[bytes]]


def make_listings(work: Path) -> dict[str, Path]:
    """The paths of the listings, by their names."""
    made = {name: run("tcpdump", "-y", "EN10MB", "-ddd", it) for name, it in EXPRESSIONS.items()}
    for name, text in {**TEXTS, **LONG}.items():
        (work / "text").write_text(text)
        made[name] = run(BPFREC, "asm", work / "text")
    paths = {}
    for at, (name, listing) in enumerate(made.items()):
        paths[name] = work / f"listing_{at}"
        paths[name].write_text(listing)
        judge_quietly(f"{name} is valid", run(BPFREC, "verify", paths[name]).startswith("valid"))
    return paths


def begin(work: Path, name: str, paths: dict[str, Path], words: list) -> tuple[Running, Path]:
    """Begins a recording of all interfaces; gives what runs and its OUT."""
    here, out = folder_of(work, name), work / f"{name}.ch11"
    settings = here / "live.toml"
    channels = [f'[[channel]]\nid = {at + 1}\nfilter = "{path}"\n' for at, path in enumerate(paths.values())]
    settings.write_text("limit = 65536\n" + "".join(channels))
    ways = [f"fx{at}={at + 1}" for at in range(len(paths))]
    running = Running(here, LIVE, "--quiet", "--buffer", 16, *words, settings, out, *ways)
    wait_for(
        lambda: f"{name}: it records: {running.told()}", lambda: out.exists() or running.process.poll() is not None
    )
    return running, out


def offered_by(running: Running, name: str) -> list[int]:
    """Ends a recording: how many frames were offered to each channel."""
    running.interrupt()
    status, printed = running.ended()
    judge(f"{name}: status 0, and the audit says yes", status == 0 and printed.endswith(f"{YES}\n"), running.told())
    return [int(it) for it in re.findall(r"channel \d+ versions 1 offered (\d+) ", printed)]


def frames_of(work: Path, out: Path, count: int) -> list[list[bytes]]:
    return [[it.frame for it in records(extracted(work, out, at + 1))] for at in range(count)]


def send_over_all(count: int, frames: list[bytes]) -> None:
    """Sends the frames over each interface, out and in, in bursts that the kernel's small buffers take."""
    with ExitStack() as opened:
        ways = [opened.enter_context(socket_into(f"{way}{at}")) for at in range(count) for way in ("fy", "fx")]
        for first in range(0, len(frames), A_BURST):
            for into in ways:
                for frame in frames[first : first + A_BURST]:
                    into.send(frame)
            time.sleep(PAUSE)


def record_both(work: Path, paths: dict[str, Path], frames: list[bytes]) -> Kept:
    """Two recordings of these frames."""
    alone, its_out = begin(work, "alone", paths, [])
    both, other_out = begin(work, "prefiltered", paths, ["--prefilter"])
    send_over_all(len(paths), frames)
    time.sleep(0.5)
    offered_alone, offered = offered_by(alone, "without --prefilter"), offered_by(both, "with --prefilter")
    found = [frames_of(work, it, len(paths)) for it in (its_out, other_out)]
    return Kept(2 * len(frames), both.told(), " LOST " in alone.told() + both.told(), offered_alone, offered, *found)


@pytest.fixture(scope="module")
def kept(place: Path, entering: Callable) -> Kept:
    """Both recordings, once more where the machine was too slow for a capture."""
    with entering():
        paths, frames = make_listings(place), mixed_frames()
        make_many_pairs("fy", "fx", len(paths))
        for at in range(len(paths)):
            wait_until_up(f"fx{at}")
        found = record_both(folder_of(place, "first"), paths, frames)
        return record_both(folder_of(place, "second"), paths, frames) if found.has_lost else found


# ---- the trials


@pytest.mark.parametrize("name", NAMES)
def test_a_prefilter_changes_no_frame_of_a_recording(kept: Kept, name: str) -> None:
    """What is recorded is the same with and without --prefilter."""
    at = NAMES.index(name)
    alone, both = kept.alone[at], kept.both[at]
    lost = (Counter(alone) - Counter(both)).total()
    judge(
        f"{name}: {len(both)} frames of {kept.sent} with --prefilter, {len(alone)} without, {lost} of which are lost, "
        f"and {kept.offered_alone[at] - kept.offered[at]} stayed in the kernel",
        alone == both and len(alone) > 0,
    )


def test_the_kernel_drops_what_a_prefilter_refuses(kept: Kept) -> None:
    judge("the kernel drops some", sum(kept.offered) < sum(kept.offered_alone) * 9 // 10)


def test_a_program_too_long_for_the_kernel_runs_in_the_recorder_alone(kept: Kept) -> None:
    """A program that has no room in the kernel runs in the recorder alone, and that is said."""
    said = re.findall(rf"bpfrec capture: fx(\d+): (\S+): {TOO_LONG}\n", kept.told)
    judge(
        "what is too long for the kernel is said",
        sorted(NAMES[int(at)] for at, _ in said) == sorted(SAID_TOO_LONG),
        kept.told,
    )
    for name in LONG:
        at = NAMES.index(name)
        judge(
            f"{name} runs {'in the recorder alone' if name in SAID_TOO_LONG else 'in the kernel'}",
            (kept.offered[at] == kept.offered_alone[at]) == (name in SAID_TOO_LONG),
        )


def test_a_scratch_word_that_is_read_unset_is_a_fault_before_recording(work: Path, namespace: None) -> None:
    """A scratch word that is read before it is set isn't 0, but a fault that is told before anything is recorded."""
    (work / "text").write_text("ld M[3]\nadd #1\nret a\n")
    (work / "unset").write_text(run(BPFREC, "asm", work / "text"))
    done = outcome(BPFREC, "verify", work / "unset")
    judge(
        "a scratch word that is read before it is set is refused",
        done.stdout.startswith("refused 8 Unset"),
        done.stdout,
    )
    (work / "live.toml").write_text(f'[[channel]]\nid = 1\nfilter = "{work}/unset"\n')
    running = Running(work, LIVE, "--quiet", "--prefilter", work / "live.toml", work / "unset.ch11", "rx0=1")
    judge("by a recording too", running.ended()[0] in (1, 3) and not (work / "unset.ch11").exists(), running.told())
