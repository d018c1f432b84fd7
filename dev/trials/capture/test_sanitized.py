"""Tries bin/capture under the sanitizers of gcc and clang, and its readers of capture files with drawn bytes.

Under the sanitizers of addresses and of undefined behaviour it goes through the trials of FILES; under that of threads
two interfaces go over to other feeds again and again, and a file is converted; and for a minute libFuzzer gives the
readers of capture files what it draws from capture/fuzz/corpus/. A report of any of them is wrong.
"""

import os
import signal
import sys
import time
from pathlib import Path

import pytest
from namespace import send_together
from pcapng import capture_head, captured
from support import ROOT, Reader, Running, judge, judge_quietly, outcome, pipe_at

pytestmark = pytest.mark.wanted("bin/bpfrec", "bin/capture", "gcc", "clang", "ip", "tshark", "dumpcap", "tcpdump")
CORPUS = ROOT / "capture/fuzz/corpus"
FUZZ_SECONDS = int(os.environ.get("FUZZ_SECONDS", "60"))
TRIALS = ROOT / "dev/trials"
# Of the trials those that lead the capture everywhere.
FILES = [
    *(f"capture/test_{it}.py" for it in ("bursts", "faults", "frames", "marks", "times")),
    *(f"live/test_{it}.py" for it in ("losses", "prefilter", "private", "recordings", "rotation")),
    *(f"tools/test_{it}.py" for it in ("convert", "convert_ends", "convert_pcapng")),
]
# A sanitizer slows the capture, so that its speed isn't judged.
OF_SPEED = "within_two_milliseconds"
SWITCHES = 50
PATIENCE = 500


def built(folder: Path, target: str, program: str) -> Path:
    """A program of capture/Makefile, by its target."""
    done = outcome("make", "-s", "-C", ROOT / "capture", target, f"BIN={folder}", seconds=PATIENCE)
    judge_quietly(f"make {target} builds {program}", done.returncode == 0, done.stderr[-2000:])
    return folder / target / program


@pytest.fixture(scope="module")
def of_addresses(place: Path) -> Path:
    """The capture under the sanitizers of addresses and of undefined behaviour, for everybody to run."""
    place.chmod(0o755)
    return built(place, "addresses", "capture")


@pytest.fixture
def reports(work: Path) -> Path:
    """A folder for reports."""
    folder = work / "reports"
    folder.mkdir()
    for each in (work, folder):
        each.chmod(0o777)
    return folder


def reporting_to(folder: Path) -> dict[str, str]:
    """The variables by which sanitizers write their reports there."""
    names = ("ASAN_OPTIONS", "UBSAN_OPTIONS", "TSAN_OPTIONS")
    # What a run that was refused has not freed by its end is no fault.
    return {name: f"log_path={folder}/report:detect_leaks=0" for name in names}


def judge_no_report(folder: Path) -> None:
    told = "".join(it.read_text(errors="replace")[:2000] for it in sorted(folder.iterdir()))
    judge("no report", not told, told)


@pytest.mark.parametrize("file", FILES)
def test_trials_leave_no_report_of_addresses_and_undefined_behaviour(
    of_addresses: Path, reports: Path, file: str
) -> None:
    """Feeds of files, and live captures, under the sanitizers of addresses and of undefined behaviour."""
    env = {**os.environ, **reporting_to(reports), "CAPTURE": str(of_addresses)}
    words = [sys.executable, "-m", "pytest", "-k", f"not {OF_SPEED}", TRIALS / file]
    done = outcome(*words, cwd=ROOT, env=env, seconds=PATIENCE)
    judge(f"{file} under the address sanitizer", done.returncode == 0, done.stdout[-4000:] + done.stderr[-800:])
    judge_no_report(reports)


@pytest.fixture(scope="module")
def of_threads(place: Path) -> Path:
    """The capture under the sanitizer of threads."""
    return built(place, "threads", "capture")


def test_a_file_leaves_no_report_of_threads(of_threads: Path, work: Path, reports: Path) -> None:
    """A file whose feed a thread of its own writes, under the thread sanitizer."""
    file = work / "long.pcap"
    file.write_bytes(capture_head(0xA1B23C4D) + b"".join(captured(at, 0, bytes(1_500)) for at in range(5_000)))
    done = outcome(of_threads, "-r", f"{file}={work}/made.feed", env={**os.environ, **reporting_to(reports)})
    judge("a file under the thread sanitizer", done.returncode == 0 and "frames 5000 " in done.stderr, done.stderr)
    judge_no_report(reports)


def test_two_interfaces_leave_no_report_of_threads(
    of_threads: Path, work: Path, reports: Path, namespace: None
) -> None:
    """Two interfaces that go over to other feeds, under the thread sanitizer."""
    pipes = [pipe_at(work, name) for name in ("0.pipe", "1.pipe")]
    readers = [Reader(it) for it in pipes]
    ways = [f"rx{at}={it}" for at, it in enumerate(pipes)]
    running = Running(work, of_threads, "--span", "rx0=1", *ways, adds=reporting_to(reports))
    running.wait_until_told("origin")
    for turn in range(SWITCHES):
        send_together(200 * turn, 200)
        readers += [Reader(pipe_at(work, it.name)) for it in pipes]
        running.process.send_signal(signal.SIGUSR1)
        time.sleep(0.02)
    running.interrupt()
    status = running.ended()[0]
    judge("two interfaces go over to other feeds under the thread sanitizer", status == 0, running.told()[-800:])
    judge_no_report(reports)


def test_drawn_bytes_leave_no_report_of_the_readers(work: Path) -> None:
    """The readers of capture files, with bytes that are drawn from a corpus."""
    fuzzer, drawn = built(work, "fuzzer", "readers"), work / "drawn"
    drawn.mkdir()
    limits = [f"-max_total_time={FUZZ_SECONDS}", "-rss_limit_mb=2048", "-timeout=10", f"-artifact_prefix={work}/"]
    done = outcome(fuzzer, *limits, drawn, CORPUS, errors="replace", seconds=PATIENCE)
    runs = [it for it in done.stderr.splitlines() if it.startswith("Done ")]
    holds = done.returncode == 0
    judge(f"the readers of capture files take what is drawn: {runs[-1] if runs else ''}", holds, done.stderr[-2000:])
