"""Tries bpfrec follow beside bpfrec live: what it shows is what the recordings have, in time, and it changes nothing
of them."""

import contextlib
import fcntl
import os
import signal
import statistics
import subprocess
import threading
import time
from pathlib import Path
from typing import NamedTuple, Optional

import pytest
from bpfrec_tools.follow.growing import FACTS_PATIENCE
from frames import HEAD, feed_of, numbered, records, with_check_sequence
from ground import drawn_flight
from namespace import socket_into
from pcapng_blocks import COMMENT, INTERFACE, NAME, PACKET, Block, Frame, blocks_of, frames_in
from recordings import Traffic, begin, extracted, facts_of, has_open, is_approved, parts_of, recordings, write_settings
from support import BPFREC, EXPORT, FOLLOW, judge, judge_quietly, outcome, run, wait_for
from whole_file_parts import ORIGIN

pytestmark = [pytest.mark.wanted("bin/bpfrec", "bin/capture", "ip", "tshark"), pytest.mark.usefixtures("namespace")]
SECONDS = 60


def has_bytes(path: Path, least: int = 0) -> bool:
    """Whether a recording is there, with more bytes than these."""
    return path.exists() and path.stat().st_size > least


class Shown(NamedTuple):
    """A frame that was shown: when it came here, its interface, its moment, and its bytes."""

    came: float
    interface: int
    moment: int
    frame: bytes


class Follower:
    """bpfrec follow, and what it has shown so far."""

    def __init__(self, work: Path, *words: object) -> None:
        arguments = [str(FOLLOW), *map(str, words)]
        self.errors = open(work / "follow.errors", "wb")
        self.process = subprocess.Popen(arguments, stdout=subprocess.PIPE, stderr=self.errors, cwd=work)
        self.names: list[str] = []
        self.comments: list[str] = []
        self.shown: list[Shown] = []
        self.leaves = False
        self.thread = threading.Thread(target=self.read, daemon=True)
        self.thread.start()

    def read(self) -> None:
        assert self.process.stdout
        # One that is killed leaves the last block in part.
        with self.process.stdout as stream, contextlib.suppress(ValueError):
            for block in blocks_of(stream):
                if self.leaves:
                    return
                self.take(block)

    def take(self, block: Block) -> None:
        """Takes a block."""
        if block.kind == INTERFACE:
            self.names.append(block.text(NAME))
        elif block.kind == PACKET:
            self.shown.append(Shown(time.time(), *block.frame()))
        if block.kind in (INTERFACE, PACKET) and block.text(COMMENT):
            self.comments.append(block.text(COMMENT))

    def frames(self, channel: str) -> list[bytes]:
        """The frames of an interface."""
        return [it.frame for it in self.shown if self.names[it.interface] == channel]

    def ended(self, seconds: float = SECONDS) -> int:
        """Its status once it has ended."""
        status = self.process.wait(seconds)
        self.thread.join(seconds)
        self.errors.close()
        return status


def captured(work: Path, *paths: Path) -> list[Frame]:
    """The frames that bpfrec export gives of recordings."""
    run(EXPORT, "--force", *paths, work / "all.pcapng")
    return frames_in((work / "all.pcapng").read_bytes())


def test_frames_of_recordings_that_follow_one_another_are_shown_once(work: Path) -> None:
    """With their names, times and filters, until the run ends."""
    out = work / "flight.ch11"
    (work / "other").write_text("1,6 0 0 4,")
    running = begin(work, out, "--quiet", "--every", 1, stdin=subprocess.PIPE)
    wait_for("the first", lambda: has_bytes(work / "flight_00001.ch11", -1), 10)
    follower = Follower(work, work / "flight_00001.ch11")
    traffic = Traffic()
    wait_for("three recordings", lambda: len(recordings(work, "flight")) >= 3, 20)
    assert running.process.stdin
    running.process.stdin.write(f"set 1 {work}/other\n")
    running.process.stdin.flush()
    wait_for("six recordings", lambda: len(recordings(work, "flight")) >= 6, 20)
    running.interrupt()
    traffic.end()
    judge("the run ends well", running.ended()[0] == 0, running.told())
    judge("it ends with the run", follower.ended(20) == 0, (work / "follow.errors").read_text())
    judge("the interfaces have their names", sorted(follower.names) == ["rx0", "rx1"], follower.names)
    for channel, name in ((1, "rx0"), (2, "rx1")):
        wanted = [it.frame for part in parts_of(work, "flight", channel) for it in part]
        found = follower.frames(name)
        judge(f"each frame of {name} once, in order", found == wanted, (len(found), len(wanted)))
    wanted_times = sorted((it.moment, it.bytes) for it in captured(work, *recordings(work, "flight")))
    judge("with the times of pcapng", sorted((it.moment, it.frame) for it in follower.shown) == wanted_times)
    texts = [it for it in follower.comments if "ret #4" in it]
    judge("the filter that was changed is said once", len(texts) == 1, follower.comments)


@pytest.mark.timed
@pytest.mark.parametrize("count, pause", [(4_000, 0.001), (160, 0.05)], ids=["many", "few"])
def test_a_frame_is_shown_soon_after_it_came(work: Path, count: int, pause: float) -> None:
    """Half of them within a second, also of few, by the usual span; on a quiet machine within 0.5."""
    out, settings = work / "soon.ch11", write_settings(work, f'id = 1\nfilter = "{work}/all"')
    running = begin(work, out, "--quiet", settings=settings, ways=["rx0=1"])
    follower = Follower(work, out)
    with socket_into("tx0") as one:
        for number in range(count):
            one.send(numbered(number, 300))
            time.sleep(pause)
    time.sleep(1.5)
    late = [it.came - it.moment / 1e9 for it in follower.shown]
    running.interrupt()
    judge_quietly("it ends well", (running.ended()[0], follower.ended()) == (0, 0), running.told())
    judge_quietly("it shows most of them while they come", len(late) > count * 0.6, len(late))
    judge(f"half of them within a second: {statistics.median(late):.3f}", statistics.median(late) <= 1)


@pytest.mark.parametrize("sign", [signal.SIGKILL, signal.SIGSTOP, None], ids=["killed", "stopped", "reader left"])
def test_a_recording_does_not_notice_its_follower(work: Path, sign: Optional[signal.Signals]) -> None:
    """Whether it is killed or stands still, or its reader leaves."""
    out = work / "whole.ch11"
    running = begin(work, out, "--quiet")
    follower = Follower(work, out)
    traffic = Traffic(many=5)
    wait_for("it shows frames", lambda: len(follower.shown) > 100, 20)
    follower.leaves = sign is None
    if sign:
        follower.process.send_signal(sign)
    time.sleep(1)
    sent = traffic.end()
    time.sleep(0.3)
    running.end_well()
    follower.process.kill()
    follower.process.wait(SECONDS)
    counts = facts_of(out)["counts"]
    judge("nothing is lost", [it["frames"] for it in counts] == [sent, sent] and is_approved(out), counts)


def test_what_is_there_is_left_out_with_now_and_channels_that_are_not_asked_for(work: Path) -> None:
    out = work / "now.ch11"
    running = begin(work, out, "--quiet")
    traffic = Traffic(pause=0.05)
    wait_for("packets are written", lambda: has_bytes(out, 2_000), 20)
    follower = Follower(work, "--now", "--channel", 2, out)
    wait_for("later frames are shown", lambda: len(follower.shown) > 40, 20)
    running.interrupt()
    traffic.end()
    judge_quietly("it ends well", (running.ended()[0], follower.ended()) == (0, 0), running.told())
    (part,) = [records(extracted(work, out, 2))]
    found, wanted = follower.frames("rx1"), [it.frame for it in part]
    is_rest = found == wanted[len(wanted) - len(found) :] and len(found) < len(wanted)
    judge("those of one channel, from then on", is_rest and follower.names == ["rx1"], (len(found), len(wanted)))


def test_ctrl_c_ends_it_with_a_line(work: Path) -> None:
    out = work / "interrupted.ch11"
    running = begin(work, out, "--quiet")
    follower = Follower(work, out)
    wait_for(
        "it follows",
        lambda: has_bytes(out, -1) and "follow" in Path(f"/proc/{follower.process.pid}/cmdline").read_text(),
    )
    time.sleep(1)
    follower.process.send_signal(signal.SIGINT)
    status = follower.ended(10)
    holds = (status, (work / "follow.errors").read_text()) == (130, "bpfrec follow: interrupted\n")
    judge("as other tools", holds, status)
    running.end_well()


def test_tshark_reads_it_while_it_comes(work: Path) -> None:
    out = work / "shark.ch11"
    running = begin(work, out, "--quiet")
    wait_for("it records", lambda: has_bytes(out, -1), 10)
    traffic = Traffic(pause=0.05)
    line = f"{FOLLOW} {out} | tshark -l -n -i - -T fields -e frame.interface_name -e frame.len > {work}/rows"
    shark = subprocess.Popen(["bash", "-c", line], stderr=subprocess.DEVNULL)
    wait_for("rows while the recording goes on", lambda: has_bytes(work / "rows", 200), 30)
    traffic.end()
    running.end_well()
    judge_quietly("and its end", shark.wait(SECONDS) == 0)
    rows = (work / "rows").read_text().splitlines()
    frames = sum(len(records(extracted(work, out, it))) for it in (1, 2))
    judge("a row for each frame", len(rows) == frames and set(rows) == {"rx0\t64", "rx1\t64"}, (len(rows), frames))


def test_a_recording_of_pipes_without_facts_is_followed_to_its_end(work: Path) -> None:
    """By the lock of its recorder."""
    os.mkfifo(work / "a.pipe")
    (work / "all").write_text("1,6 0 0 1,")
    (work / "s.toml").write_text(f'limit = 16424\n[[channel]]\nid = 1\nfeed = "{work}/a.pipe"\nfilter = "{work}/all"\n')
    recorder = subprocess.Popen([BPFREC, "record", "s.toml", "o.ch11"], cwd=work, stdin=subprocess.DEVNULL)
    frames = [with_check_sequence(HEAD + bytes(1_000) + number.to_bytes(2, "big")) for number in range(100)]
    with open(work / "a.pipe", "wb", buffering=0) as feed:
        feed.write(feed_of((number, 0, frame) for number, frame in enumerate(frames[:60])))
        wait_for("packets are written", lambda: has_bytes(work / "o.ch11", 16_424), 10)
        follower = Follower(work, work / "o.ch11")
        wait_for("frames are shown", lambda: len(follower.shown) > 10, 2 * FACTS_PATIENCE)
        time.sleep(0.5)
        judge("it goes on", follower.process.poll() is None)
        feed.write(feed_of((number, 0, frame) for number, frame in enumerate(frames[60:], 60)))
    judge_quietly("the recorder ends", recorder.wait(SECONDS) == 0)
    told = (follower.ended(10), (work / "follow.errors").read_text())
    judge("it ends with it, and counts the frames", told == (0, "frames 100 skipped 0\n"), told)
    judge("with all frames", follower.frames("channel 1") == frames and follower.shown[7].moment == 700)


def test_a_recording_that_has_just_begun_is_followed_by_its_facts(work: Path) -> None:
    """They come later than its first packets: names and times are theirs."""
    path = drawn_flight(work, 3)
    facts = Path(f"{path}.json").rename(work / "facts")
    with open(path, "rb") as written:
        # As its recorder has it.
        fcntl.flock(written, fcntl.LOCK_EX)
        follower = Follower(work, path)
        wait_for("it is followed", lambda: has_open(follower.process.pid, path))
        with contextlib.suppress(AssertionError):
            wait_for("frames are shown", lambda: follower.shown, 1)
        judge("none is shown ahead of the facts", not follower.shown)
        facts.rename(f"{path}.json")
    judge_quietly("it ends well", follower.ended() == 0, (work / "follow.errors").read_text())
    judge("names", sorted(set(follower.names))[-1].startswith("eth"), follower.names)
    judge("times", follower.shown and all(it.moment > ORIGIN for it in follower.shown))


def test_recordings_that_cannot_be_followed_are_refused(work: Path) -> None:
    refused: list[tuple[list[str], str]] = [
        (["none.ch11"], "none.ch11: there is no such recording, and none that is numbered, as none_00001.ch11"),
        ([str(work)], f"{work}: it is no regular file, which could be followed"),
    ]
    for words, line in refused:
        done = outcome(FOLLOW, *words, cwd=work)
        judge(line, (done.returncode, done.stderr) == (1, f"bpfrec follow: {line}\n"), done)


def test_a_run_of_before_is_not_taken_for_the_next_recording(work: Path) -> None:
    """Numbers that another run has used are skipped, as live skips them."""
    out = work / "two.ch11"
    first = begin(work, out, "--quiet", "--every", 1)
    wait_for("three recordings", lambda: len(recordings(work, "two")) >= 3, 20)
    first.end_well()
    earlier = recordings(work, "two")
    for path in earlier[:2]:
        path.unlink()
        Path(f"{path}.json").unlink()
    time.sleep(1.1)
    second = begin(work, out, "--quiet", "--every", 2)
    wait_for("its first", lambda: has_bytes(earlier[0], -1), 10)
    follower = Follower(work, earlier[0])
    traffic = Traffic()
    wait_for("further recordings", lambda: len(recordings(work, "two")) >= len(earlier) + 1, 20)
    second.interrupt()
    traffic.end()
    judge_quietly("it ends well", (second.ended()[0], follower.ended()) == (0, 0), second.told())
    paths = [it for it in recordings(work, "two") if it not in earlier[2:]]
    frames = [it.bytes for it in captured(work, *paths)]
    judge("the frames of its own run", sorted(it.frame for it in follower.shown) == sorted(frames), len(frames))
