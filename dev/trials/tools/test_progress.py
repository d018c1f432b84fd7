"""Tries the line of progress under a pseudo terminal: what it says, when, and that there is none elsewhere."""

import os
import pty
import re
import select
import subprocess
import sys
import threading
import time
from pathlib import Path
from typing import Any

import pytest
from bpfrec_tools.cli.quantities import duration_text, size_text
from frames import FRAMES, body_of, end_packet, numbered, packet_of, program_packet, with_check_sequence
from support import EXPORT, INFO, ROOT, SALVAGE, SECONDS, judge, outcome, pipe_at, present

pytestmark = pytest.mark.wanted("bin/bpfrec")
# Runs a tool whose first line comes at once.
AT_ONCE = """
import sys
sys.path.insert(0, "host")
from bpfrec_tools import __main__
from bpfrec_tools.cli import progress
progress.FIRST_AFTER = progress.BETWEEN = 0.0
sys.argv = sys.argv[1:]
sys.exit(__main__.run_tool(sys.argv[0]))
"""
EMPTIED = "\r\033[K"


def at_terminal(*words: object, **more: Any) -> tuple[int, str, bytes]:
    """The status of a run whose standard error is a terminal, what it tells there, and what it prints elsewhere."""
    own, other = pty.openpty()
    process = subprocess.Popen([str(it) for it in words], stdout=subprocess.PIPE, stderr=other, cwd=ROOT, **more)
    os.close(other)
    told, printed = b"", b""
    end = time.monotonic() + SECONDS
    reads = [own, present(process.stdout).fileno()]
    while reads and time.monotonic() < end:
        for descriptor in select.select(reads, [], [], 0.1)[0]:
            try:
                part = os.read(descriptor, 1 << 16)
            except OSError:
                part = b""
            told, printed = (told + part, printed) if descriptor == own else (told, printed + part)
            reads = reads if part else [each for each in reads if each != descriptor]
    os.close(own)
    return process.wait(SECONDS), told.decode(), printed


@pytest.fixture(scope="module")
def recording(place: Path) -> Path:
    """A recording of four megabytes."""
    frame = with_check_sequence(numbered(0, 1_000))
    bodies = [body_of([(at * 1_000 + it, 0, frame) for it in range(60)]) for at in range(70)]
    packets = [packet_of(1, it, at, FRAMES, at * 1_000, True) for at, it in enumerate(bodies)]
    (place / "x.ch11").write_bytes(program_packet(1, 0) + b"".join(packets) + end_packet(1, 4_200))
    return place / "x.ch11"


def words_of(recording: Path, work: Path) -> dict[str, list]:
    """The tools that read a recording or a feed, each with its arguments."""
    return {
        "info": ["info", recording],
        "salvage": ["salvage", "--force", recording, work / "out.ch11"],
        "export": ["export", "--force", recording, recording.with_suffix(".pcapng")],
    }


@pytest.mark.parametrize("tool", ["info", "salvage", "export"])
def test_a_terminal_shows_bytes_rate_and_time_left(work: Path, recording: Path, tool: str) -> None:
    """Bytes, their share, a rate and the time left; the line is empty at the end. None with --quiet, and none in a
    pipe."""
    words = words_of(recording, work)[tool]
    status, told, printed = at_terminal(sys.executable, "-c", AT_ONCE, *words)
    line = rf"{re.escape(EMPTIED)}(\w+): ([\d.]+ [kM]?B of 4\.\d MB) \((\d+) %\), [\d.]+ [kMG]?B/s(, \d+ s left)?"
    found = re.findall(line, told)
    judge(f"{tool} shows its progress", status == 0 and len(found) > 2, (status, told[-500:]))
    shares = [int(it[2]) for it in found if it[0] == found[-1][0]]
    judge("which rises", shares == sorted(shares) and shares[-1] > 50, shares)
    judge("and is gone at the end", told.endswith(EMPTIED), told[-100:])
    quiet = at_terminal(sys.executable, "-c", AT_ONCE, *words, "--quiet")
    judge("--quiet shows none", quiet[1] == "" and quiet[0] == 0, quiet)
    plain = outcome(sys.executable, "-c", AT_ONCE, *words, cwd=ROOT)
    judge("a pipe gets none", plain.stderr == "" and plain.returncode == 0, plain)
    judge("and the answer is the same", plain.stdout.encode() == printed == quiet[2])


def test_what_takes_less_than_two_seconds_shows_nothing(work: Path, recording: Path) -> None:
    for words in ([INFO, recording], [SALVAGE, recording, work / "out.ch11"], [EXPORT, recording, work / "out.pcapng"]):
        status, told, _ = at_terminal(*words)
        judge(f"{words[0].name} is quick", (status, told) == (0, ""), told)


def test_from_two_seconds_on_there_is_a_line(work: Path, recording: Path) -> None:
    """From two seconds on there is a line, also where nobody knows how much there is to read."""
    feed = pipe_at(work, "slow")

    def write_slowly() -> None:
        data = recording.read_bytes()
        with open(feed, "wb", buffering=0) as pipe:
            for at in range(30):
                pipe.write(data[at * 100_000 : (at + 1) * 100_000 if at < 29 else None])
                time.sleep(0.1)

    writer = threading.Thread(target=write_slowly, daemon=True)
    writer.start()
    begin = time.monotonic()
    status, told, _ = at_terminal(SALVAGE, feed, work / "out.ch11")
    taken = time.monotonic() - begin
    lines = re.findall(r"salvage: [\d.]+ MB, [\d.]+ [kM]B/s", told)
    judge(f"{len(lines)} lines in {taken:.1f} s", status == 0 and 1 <= len(lines) <= (taken - 2) / 0.2 + 1, told)
    judge("what was read, without a share", "%" not in told and "left" not in told, told)


def test_what_is_told_meanwhile_stands_on_lines_of_its_own(work: Path, recording: Path) -> None:
    data = bytearray(recording.read_bytes())
    for at in range(500_000, len(data), 1_000_000):
        data[at] ^= 1
    (work / "damaged.ch11").write_bytes(data)
    words = ["export", work / "damaged.ch11", work / "out.pcapng"]
    status, told, _ = at_terminal(sys.executable, "-c", AT_ONCE, *words)
    lines = [it.split(EMPTIED)[-1] for it in told.split("\r\n") if "are left out" in it]
    wanted = rf"bpfrec export: {work}/damaged\.ch11: read 8 DataChecksum \d+: \d+ bytes are left out"
    judge("faults on lines of their own", status == 1 and len(lines) == 4, told)
    judge("with nothing ahead", all(re.fullmatch(wanted, it) for it in lines), lines)


def test_a_dumb_terminal_gets_no_progress(work: Path, recording: Path) -> None:
    words = [sys.executable, "-c", AT_ONCE, "salvage", recording, work / "out.ch11"]
    holds = at_terminal(*words, env={**os.environ, "TERM": "dumb"})[1] == ""
    judge("a terminal that can't empty a line gets none", holds)


def test_sizes_and_times_are_short_texts() -> None:
    sizes = [(999, "999 B"), (1_000, "1.0 kB"), (12_345, "12.3 kB"), (999_000_000, "999 MB"), (5.1e12, "5.1 TB")]
    judge("sizes", all(size_text(size) == text for size, text in sizes))
    times = [(0, "0 s"), (7.4, "7 s"), (61, "1 min 1 s"), (3_723, "1 h 2 min")]
    judge("times", all(duration_text(seconds) == text for seconds, text in times))
