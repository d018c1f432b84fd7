"""Tries what `bpfrec chapter11` refuses: arguments, SETUP, files, and recordings that have no whole file."""

import os
import resource
import signal
import subprocess
import time
from pathlib import Path

import pytest
from drawn_recording import DrawnRecording
from reading import SAMPLES
from support import BPFREC, judge, judge_quietly, outcome
from whole_file import Origin, Setup
from whole_file_trials import chapter11, judge_file, write_inputs

pytestmark = pytest.mark.wanted("bin/bpfrec")
SECOND = 10_000_000
YEAR_4000 = 64_060_588_800 * 10**9
LEAST = 'origin = "0"\n'
# One of each kind; crates/test_program/src/setup_file.rt has all.
FAULTS = {
    "": "3 Missing origin",
    "a": "1 Syntax",
    'z = 1\nb = 2\norigin = "0"': "2 Unknown b",
    LEAST + 'attributes = ["R-1\\\\N:x"]': "4 Value attributes",
}


def setup_fault(work: Path, setup: str) -> str:
    """The fault of SETUP that is told, where nothing else is."""
    done = chapter11(work, [SAMPLES[1].read_bytes()], setup)
    judge_quietly(setup, done.returncode == 2 and not done.stdout and done.stderr.startswith("setup "), done)
    judge_quietly(f"{setup}: no OUT", not (work / "flight.ch10").exists())
    return done.stderr.removeprefix("setup ").removesuffix("\n")


def test_faults_of_setup(work: Path) -> None:
    for setup, fault in FAULTS.items():
        found = setup_fault(work, setup)
        judge_quietly(setup, found == fault, (found, fault))


def test_files_that_cannot_be_read(work: Path) -> None:
    recording, setup = write_inputs(work, [SAMPLES[1].read_bytes()], LEAST)
    out, none, pipe = work / "flight.ch10", work / "none", work / "pipe"
    os.mkfifo(pipe)
    for words, named in (
        ((none, setup, out), none),
        ((work, setup, out), work),
        ((pipe, setup, out), pipe),
        ((recording, none, out), none),
        ((recording, work, out), work),
        ((recording, setup, recording), recording),
        ((recording, setup, setup), setup),
        ((recording, none, recording), recording),
        ((recording, setup, work), work),
        ((recording, setup, none / "out"), none / "out"),
    ):
        done = outcome(BPFREC, "chapter11", *words)
        judge_quietly(f"{words}", (done.returncode, done.stdout, done.stderr) == (3, "", f"file {named}\n"), done)
        judge_quietly(f"{words}: no OUT", not out.exists())
    setup.write_bytes(b'origin = "0"\nhost = "\xff"\n')
    judge("no UTF-8", outcome(BPFREC, "chapter11", recording, setup, out).stderr == f"file {setup}\n")
    setup.write_text(LEAST + "#" * (16_777_216 - len(LEAST)))
    judge("the greatest SETUP", outcome(BPFREC, "chapter11", recording, setup, out).returncode == 0)
    out.unlink()
    setup.write_text(LEAST + "#" * (16_777_217 - len(LEAST)))
    judge("a greater one", outcome(BPFREC, "chapter11", recording, setup, out).stderr == f"file {setup}\n")
    done = outcome(BPFREC, "chapter11", "-", setup, out)
    judge("standard input", done.returncode == 2 and "<RECORDING>" in done.stderr, done)
    judge("the recording is what it was", recording.read_bytes() == SAMPLES[1].read_bytes() and not out.exists())


def test_what_is_wrong_first_is_told(work: Path) -> None:
    """An OUT that is an input, then SETUP, then the recording's reading, then what is refused."""
    cut = SAMPLES[1].read_bytes()[:-1]
    done = chapter11(work, [cut], "a")
    judge("SETUP before the reading", done.stderr == "setup 1 Syntax\n", done)
    other = DrawnRecording()
    other.add_other(7)
    done = chapter11(work, [bytes(other.data) + cut], LEAST)
    judge("the reading before Other", done.returncode == 1 and done.stderr.startswith("read 1 Truncated "), done)
    recording, setup = write_inputs(work, [cut], "a")
    done = outcome(BPFREC, "chapter11", recording, setup, recording)
    judge("OUT before SETUP", done.stderr == f"file {recording}\n", done)


def test_recordings_that_have_no_whole_file(work: Path) -> None:
    other, zero, gap = DrawnRecording(), DrawnRecording(), DrawnRecording()
    other.add_frames(1, [(0, 0, 60)])
    other.add_other(7)
    other.add_other(7)
    zero.add_frames(0, [(0, 0, 60)])
    gap.add_frames(1, [(0, 0, 60)])
    gap.add_frames(1, [(7_000_000_000_000, 0, 60)])
    now, late = Setup((Origin(0, 0),)), Setup((Origin(0, YEAR_4000),))
    judge("another packet", judge_file(work, "other", bytes(other.data), now) == "refused 1 Other 104")
    judge("frames of channel 0", judge_file(work, "zero", bytes(zero.data), now) == "refused 1 Other 0")
    judge("a gap", judge_file(work, "gap", bytes(gap.data), now) == "refused 3 Gap 104")
    judge("the year 4000", judge_file(work, "year", bytes(gap.data), late) == "refused 5 Year 0")
    judge("other before the year", judge_file(work, "first", bytes(other.data), late) == "refused 1 Other 104")
    under_way = Setup((Origin(0, YEAR_4000 - 3 * 10**9),))
    four = DrawnRecording()
    for second in range(5):
        four.add_frames(1, [(second * SECOND, 0, 60)])
    judge("the year 4000 under way", judge_file(work, "four", bytes(four.data), under_way) == "refused 5 Year 0")
    none = Setup((Origin(0, 50), Origin(2**48 - 1, 99)))
    last = DrawnRecording()
    last.add_frames(1, [(2**48 - 1, 0, 60)])
    judge("no tick", judge_file(work, "last", bytes(last.data), none) == "refused 4 Origin 0")


@pytest.mark.parametrize("limit", [0, 1, 687, 688, 1_000, 1_191])
def test_an_output_that_fails(work: Path, limit: int) -> None:
    recording, setup = write_inputs(work, [SAMPLES[1].read_bytes()], 'origin = "1764590400.250000123"\n')
    out = work / "flight.ch10"

    def limited() -> None:
        signal.signal(signal.SIGXFSZ, signal.SIG_IGN)
        resource.setrlimit(resource.RLIMIT_FSIZE, (limit, limit))

    done = outcome(BPFREC, "chapter11", recording, setup, out, preexec_fn=limited)
    judge(f"at {limit} bytes", (done.returncode, done.stdout, done.stderr) == (3, "", f"file {out}\n"), done)


def test_devices_as_out(work: Path) -> None:
    recording, setup = write_inputs(work, [SAMPLES[1].read_bytes()], LEAST)
    judge("/dev/null", outcome(BPFREC, "chapter11", recording, setup, "/dev/null").returncode == 0)
    judge("/dev/full", outcome(BPFREC, "chapter11", recording, setup, "/dev/full").stderr == "file /dev/full\n")


def opens(process: int) -> bool:
    """Whether a process waits for the reader of a pipe that it opens."""
    return Path(f"/proc/{process}/wchan").read_text() == "wait_for_partner"


def test_a_recording_that_is_exchanged_between_two_looks(work: Path) -> None:
    """The first pass has ended where OUT is opened: a pipe, whose writer waits for a reader. The file of the
    second would have the same counts, since only the bytes of a frame are others."""
    data = SAMPLES[0].read_bytes()
    recording, setup = write_inputs(work, [data], LEAST)
    out = work / "out.pipe"
    os.mkfifo(out)
    with subprocess.Popen([BPFREC, "chapter11", recording, setup, out], stdout=-1, stderr=-1, text=True) as process:
        end = time.monotonic() + 20
        while not opens(process.pid) and time.monotonic() < end:
            time.sleep(0.01)
        other = data.replace(bytes.fromhex("a1b2c3d4"), bytes.fromhex("a2b2c3d4"))
        recording.write_bytes(other)
        with open(out, "rb") as reader:
            reader.read()
        said = process.communicate(timeout=20)
    judge("other bytes of a frame", other != data)
    judge("is told", (process.returncode, *said) == (3, "", f"file {recording}\n"), said)
