"""Tries what bpfrec live tells of frames that the kernel loses, and how much memory its buffers take."""

import os
import re
import signal
import time
from pathlib import Path

import pytest
from accounts import judge_fed, judge_recorded
from frames import number_of, numbered, numbers, records
from namespace import long_frames, make_many_pairs, send, send_numbered, send_together
from recordings import begin, extracted, facts_of, is_recording, process_of, recordings, write_settings
from support import BPFREC, CAPTURE, LIVE, MEBIBYTE, Reader, Running, judge, pipe_at, run, wait_for

pytestmark = [
    pytest.mark.wanted("bin/bpfrec", "bin/capture", "ip"),
    pytest.mark.timed,
    pytest.mark.usefixtures("namespace"),
]
PAIRS = 64
# Of a frame with an odd number, by the last of its eight bytes.
KEEPS_ODD = "ldb [21]\njset #1, keep, drop\nkeep: ret #1\ndrop: ret #0\n"

# ---- buffers


def test_sixty_four_interfaces_share_a_quarter_of_the_memory(work: Path) -> None:
    # Where frames are joined, the kernel makes the largest rings.
    make_many_pairs("by", "bx", PAIRS, joins=True)
    settings = write_settings(work, *[f'id = {at + 1}\nfilter = "{work}/all"' for at in range(PAIRS)])
    out, started = work / "many.ch11", time.monotonic()
    running = Running(work, LIVE, "--quiet", settings, out, *[f"bx{at}={at + 1}" for at in range(PAIRS)])
    wait_for(
        lambda: f"{PAIRS} interfaces start within 20 s: {running.told()}",
        lambda: out.exists() and "origin" in running.told(),
        20,
    )
    print(f"{PAIRS} interfaces started in {time.monotonic() - started:.1f} s")
    for at in range(PAIRS):
        send(f"by{at}", [numbered(at)])
    time.sleep(0.3)
    running.interrupt()
    status, printed = running.ended()
    judge(
        f"{PAIRS} interfaces start within 20 s and are recorded",
        status == 0 and printed.count(" offered 1 kept 1 ") == PAIRS,
        running.told(),
    )
    buffers = dict(re.findall(r"bpfrec capture: (bx\d+) buffer (\d+) MiB\n", running.told()))
    judge("each has a buffer, which is told", len(buffers) == PAIRS and all(int(it) > 0 for it in buffers.values()))
    total, memory = sum(map(int, buffers.values())), os.sysconf("SC_PHYS_PAGES") * os.sysconf("SC_PAGE_SIZE")
    judge(
        f"and together at most a quarter of the memory: {total} of {memory // MEBIBYTE} MiB",
        total <= memory // MEBIBYTE // 4,
    )


# ---- losses


@pytest.mark.parametrize("words, status", [([], 0), (["--strict"], 5)], ids=["plain", "strict"])
def test_frames_that_the_kernel_drops_are_told(work: Path, words: list, status: int) -> None:
    """The recorder stands still, so that the kernel drops frames; some are longer than a feed takes."""
    out = work / "lost.ch11"
    with long_frames("tx0", "rx0"):
        running = begin(work, out, "--quiet", "--buffer", 1, *words)
        wait_for("it records", out.exists)
        recorder = process_of(out, BPFREC, "record")
        send_together(0, 100)
        os.kill(recorder, signal.SIGSTOP)
        send_numbered("tx0", 100, 8_000, 1_500)
        time.sleep(0.3)
        os.kill(recorder, signal.SIGCONT)
        time.sleep(0.3)
        send_numbered("tx0", 8_000, 8_007, 17_000)
        send("tx0", [numbered(8_007)])
        time.sleep(0.3)
        running.interrupt()
        (ended, printed), told = running.ended(), running.told()
    found = judge_recorded(work, (printed, told), [out], 8_008)
    judge("some were dropped, and others too long", found.dropped > 0 and found.skipped == 7, found)
    judge("losses are the last line of standard error", re.search(r"bpfrec live: rx0 LOST .* skipped\n\Z", told), told)
    judge_recorded(work, (printed, told), [out], 100, "rx1", 2)
    judge(f"status {ended}", ended == status)
    judge_times_of_losses(work, out)


def judge_times_of_losses(work: Path, out: Path) -> None:
    losses = facts_of(out)["losses"]
    judge("facts: the losses", all(0 <= it["from"] <= it["to"] for it in losses), losses)
    sent = [(it.counter, number_of(it.frame)) for it in records(extracted(work, out, 1))]
    gaps = [(before[0], after[0]) for before, after in zip(sent, sent[1:]) if after[1] - before[1] > 1]
    meet = [any(it["from"] <= after and before <= it["to"] for it in losses) for before, after in gaps]
    judge(f"facts: each of {len(gaps)} gaps lies where losses do", gaps != [] and all(meet), (gaps, losses))


def test_each_recording_has_the_losses_of_its_own_time(work: Path) -> None:
    """Of recordings that follow one another each has the losses of its own time; frames are filtered out too."""
    out, settings = work / "lossy.ch11", write_settings(work, f'id = 1\nfilter = "{work}/odd"')
    (work / "odd").write_text(run(BPFREC, "asm", "-", input=KEEPS_ODD))
    running = begin(work, out, "--quiet", "--buffer", 1, "--every", 1, settings=settings, ways=["rx0=1"])
    wait_for("it records", lambda: is_recording(out, work / "lossy_00001.ch11"))
    recorder = process_of(out, BPFREC, "record")
    os.kill(recorder, signal.SIGSTOP)
    send_numbered("tx0", 0, 8_000, 1_500)
    os.kill(recorder, signal.SIGCONT)
    wait_for("recordings follow", lambda: len(recordings(work, "lossy")) >= 3)
    send_together(8_000, 100)
    time.sleep(0.2)
    running.interrupt()
    (status, printed), told = running.ended(), running.told()
    files = recordings(work, "lossy")
    found = judge_recorded(work, (printed, told), files, 8_100)
    kept = [it for file in files for it in numbers(extracted(work, file, 1))]
    judge("the odd ones are kept", found.dropped > 0 and {it % 2 for it in kept} == {1}, found)
    losses = [facts_of(it)["losses"] for it in files]
    judge("facts: each recording has the losses of its time", status == 0 and losses[-1] == [], (told, losses))


@pytest.mark.parametrize("words, status", [([], 0), (["--strict"], 5)], ids=["plain", "strict"])
def test_a_frame_that_is_shorter_than_a_head_is_told(work: Path, words: list, status: int) -> None:
    """The capture by itself: a frame that is shorter than a head."""
    reader = Reader(pipe_at(work, "strict.pipe"))
    running = Running(work, CAPTURE, "--check-sequence", "given", "--quiet", *words, f"rx0={reader.path}")
    running.wait_until_told("origin")
    send("tx0", [numbered(0), numbered(1)[:14], numbered(2)])
    time.sleep(0.2)
    running.interrupt()
    ended, told = running.ended()[0], running.told()
    judge_fed(told, 3, len(numbers(reader.all())))
    judge(
        f"the capture by itself ends with status {status} and tells its losses at last",
        ended == status and told.endswith("\nbpfrec capture: rx0 LOST 0 dropped 1 skipped\n"),
        told,
    )
