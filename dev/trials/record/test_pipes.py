"""Tries `bpfrec record` on pipes: silent ones, ones that end, changes of filters meanwhile, and signals."""

import os
import resource
import signal
import subprocess
import time
from pathlib import Path

import pytest
from recorder import (
    FEW,
    RECORD_LENGTH,
    begin,
    extracted,
    is_broken_soon,
    line_within_a_second,
    make_feed,
    read_within,
    record,
    write_settings,
    writes_of,
)
from support import BPFREC, ROOT, judge, judge_quietly, outcome, present, wait_for

pytestmark = [pytest.mark.wanted("bin/bpfrec"), pytest.mark.timed]
ANSWERS = 500
IDLE_SECONDS = 5


@pytest.fixture(scope="module")
def short_feed(place: Path) -> Path:
    return make_feed(place / "short.feed", FEW)


def test_a_silent_channel_holds_up_no_change_of_filter(work: Path, short_feed: Path) -> None:
    """Two pipes, of which one is silent until a change of its filter was answered."""
    for name in ["busy.feed", "silent.feed"]:
        os.mkfifo(work / name)
    frames = short_feed.read_bytes()
    settings = write_settings(work, ["busy.feed", "silent.feed"], ["all", "none"])
    out, answers = work / "pipes.ch11", work / "answers"
    with open(answers, "w") as errors:
        running = begin(settings, out, stdin=subprocess.PIPE, stderr=errors)
    with open(work / "busy.feed", "wb") as busy, open(work / "silent.feed", "wb") as silent:
        busy.write(frames)
        busy.flush()
        wait_for("a channel records beside a silent one", lambda: out.stat().st_size > 500_000, 10)
        present(running.stdin).write(f"set 2 {work / 'all'}\n")
        present(running.stdin).flush()
        wait_for("a silent channel's filter is changed", lambda: answers.read_text() == "installed 2 1 0\n", 10)
        silent.write(frames)
    present(running.stdin).close()
    printed = present(running.stdout).read()
    judge("both record all", printed.count("offered 10000 kept 10000 SourceEnd") == 2 and running.wait() == 0)
    judge("and are read again", extracted(out, 2, work / "again.feed") == frames)


def test_a_channel_that_has_ended_closes_its_pipe(work: Path, short_feed: Path) -> None:
    """A channel that has ended closes its pipe while another one goes on."""
    names = ["short.pipe", "bad.pipe", "none.pipe", "open.pipe"]
    for name in names:
        os.mkfifo(work / name)
    settings = write_settings(work, names, ["all"] * 4)
    text = settings.read_text().replace("id = 1\n", "id = 1\nmax = 2\n").replace("id = 3\n", "id = 3\nmax = 0\n")
    settings.write_text(text)
    running = begin(settings, work / "ended.ch11")
    frames = short_feed.read_bytes()
    pipes = [os.open(work / name, os.O_WRONLY) for name in names]
    os.write(pipes[0], frames[: 2 * RECORD_LENGTH])
    os.write(pipes[1], frames[:RECORD_LENGTH] + b"\xff" * RECORD_LENGTH)
    for pipe, what in zip(pipes, ["its max frames", "a damaged record", "a max of 0"]):
        judge(f"a channel closes its pipe after {what}", is_broken_soon(pipe))
    judge("and the recording goes on", running.poll() is None)
    os.write(pipes[3], frames[:RECORD_LENGTH])
    for pipe in pipes:
        os.close(pipe)
    printed = running.communicate()[0].splitlines()
    endings = [line.split(" ", 5)[5] for line in printed[:4]]
    wanted = ["2 kept 2 CountFull", "1 kept 1 SourceFault Length", "0 kept 0 CountFull", "1 kept 1 SourceEnd"]
    judge("each with its ending", endings == wanted, endings)


def test_idle_channels_take_no_processor(work: Path) -> None:
    """64 channels whose pipes are silent for a while."""
    names = [f"idle_{channel}.feed" for channel in range(1, 65)]
    for name in names:
        os.mkfifo(work / name)
    settings = write_settings(work, names, ["all"] * 64)
    before = resource.getrusage(resource.RUSAGE_CHILDREN)
    running = begin(settings, work / "idle.ch11")
    pipes = [open(work / name, "wb") for name in names]
    time.sleep(IDLE_SECONDS)
    for pipe in pipes:
        pipe.close()
    ended = running.communicate()[0].count("SourceEnd") == 64
    after = resource.getrusage(resource.RUSAGE_CHILDREN)
    used = after.ru_utime + after.ru_stime - before.ru_utime - before.ru_stime
    print(f"64 silent channels: {used / IDLE_SECONDS:.3f} of a processor")
    judge("an idle recording uses little of a processor", ended and used < IDLE_SECONDS / 10, used)


# ---- lines of standard input


def test_a_file_that_no_line_may_name_is_refused_at_once(work: Path, short_feed: Path) -> None:
    """Files that no line may name: each is refused at once, and the recording goes on."""
    os.mkfifo(work / "odd.feed")
    os.mkfifo(work / "unwritten.pipe")
    (work / "long.txt").write_bytes(b"1,6 0 0 1," + b"\n" * 2_000_000)
    (work / "latin.txt").write_bytes(b"1,6 0 0 1,\xe9")
    settings = write_settings(work, ["odd.feed"], ["none"])
    running = begin(settings, work / "odd.ch11", stdin=subprocess.PIPE, stderr=subprocess.PIPE, text=False)
    names = ["odd.feed", "unwritten.pipe", "nowhere", "long.txt", "latin.txt"]
    with open(work / "odd.feed", "wb") as feed:
        for name in ["/dev/zero", "/dev/stdin", work, *(work / it for it in names)]:
            present(running.stdin).write(f"set 1 {name}\n".encode())
            present(running.stdin).flush()
            refused = line_within_a_second(running) == b"refused 1 File\n"
            if not refused:
                running.kill()
            judge(f"set 1 {name} is refused at once", refused)
        present(running.stdin).write(f"set 1 {work / 'all'}\n".encode())
        present(running.stdin).flush()
        judge("and a listing is installed after them", present(running.stderr).readline() == b"installed 1 1 0\n")
        feed.write(short_feed.read_bytes()[:RECORD_LENGTH])
    present(running.stdin).close()
    judge("which keeps the frame that comes then", b"offered 1 kept 1 SourceEnd" in present(running.stdout).read())
    running.wait()


def answers_read(work: Path, settings: Path, flags: int, size: int) -> list[bytes]:
    """The answers to many lines, as a reader of so many bytes at most gets them."""
    lines = "".join(f"set {1 + at % 2} {work / 'all'}\n" for at in range(ANSWERS))
    (work / "answers.lines").write_text(lines)
    reads, writes = os.pipe2(flags)
    with open(work / "answers.lines", "rb") as given:
        running = begin(settings, work / "answers.ch11", stdin=given, stdout=subprocess.DEVNULL, stderr=writes)
    os.close(writes)
    found = list(iter(lambda: os.read(reads, size), b""))
    os.close(reads)
    judge_quietly("it records", running.wait() == 0)
    return found


def test_each_answer_is_one_write(work: Path, short_feed: Path) -> None:
    """Each answer is one write: a reader by packets and one byte by byte both find whole lines."""
    settings = write_settings(work, [short_feed], ["all"])
    packets = answers_read(work, settings, os.O_DIRECT, 4096)
    holds = len(packets) == ANSWERS and all(it.count(b"\n") == 1 and it[-1:] == b"\n" for it in packets)
    judge(f"each of {ANSWERS} answers is one write", holds)
    bytes_read = answers_read(work, settings, 0, 1)
    judge("and no byte of them is lost", len(b"".join(bytes_read).splitlines()) == ANSWERS)


def test_each_printed_line_is_one_write(work: Path, short_feed: Path) -> None:
    """Each line that a command prints is one write; `list` alone prints several lines at once, all of them whole."""
    settings, out = write_settings(work, [short_feed, short_feed], ["all", "half"]), work / "lines.ch11"
    record(settings, out)
    commands: list[list[object]] = [
        ["record", settings, "/dev/null"],
        ["audit", out],
        ["extract", out, "1", work / "again.feed"],
        ["upgrade", out, work / "again.ch11"],
        ["asm", ROOT / "crates/test_cases/data/filters/arp.bpf"],
        ["verify", work / "all"],
        ["run", work / "all", "00"],
        ["simulate", ROOT / "crates/test_cases/data/scripts/changed_filter.script"],
        ["version"],
        ["verify", work / "bad"],
        ["list", work / "all"],
        ["verify", "nowhere"],
    ]
    for words in commands:
        writes = writes_of(*words)
        is_whole = writes and all(it.count(b"\n") == 1 and it.endswith(b"\n") for it in writes)
        judge(f"{words[0]} writes line by line", is_whole, writes)
    writes = writes_of("list", out)
    judge("list writes whole lines", writes and all(it.endswith(b"\n") for it in writes), writes)


# ---- what ends a recording


def test_a_full_disk_is_told_once_and_at_once(work: Path, long_feed: Path) -> None:
    """A full disk is told at once and once, though a channel is silent and standard input is open."""
    os.mkfifo(work / "still.feed")
    settings = write_settings(work, [long_feed, "still.feed"], ["all", "all"])
    running = begin(settings, "/dev/full", stdin=subprocess.PIPE, stderr=subprocess.PIPE, text=False)
    with open(work / "still.feed", "wb"):
        told = line_within_a_second(running) == b"run 2 Output 0 0\n" and running.poll() is None
        if not told:
            running.kill()
        judge("a full disk is told within a second", told)
        present(running.stdin).write(b"set 1 nowhere\n")
        present(running.stdin).flush()
        time.sleep(0.2)
    present(running.stdin).close()
    rest, printed = present(running.stderr).read(), present(running.stdout).read()
    judge("and not once more at the end", running.wait() == 1 and printed == b"" and b"Output" not in rest)


def test_a_second_recorder_on_one_out_is_refused(work: Path, short_feed: Path) -> None:
    """A second recorder on one OUT is refused, and so is an extraction into it; the first goes on."""
    os.mkfifo(work / "first.feed")
    first = write_settings(work, ["first.feed"], ["all"], "first.toml")
    second = write_settings(work, [short_feed], ["all"], "second.toml")
    out, whole, frames = work / "shared.ch11", work / "whole.ch11", short_feed.read_bytes()
    record(second, whole)
    running = begin(first, out)
    with open(work / "first.feed", "wb") as feed:
        feed.write(frames[: len(frames) // 2])
        feed.flush()
        wait_for("a first recorder writes", lambda: out.exists() and out.stat().st_size > 0, 10)
        for what, told in [
            ("a second one on its file", record(second, out)),
            ("an extraction into it", read_within("extract", whole, "1", out)),
        ]:
            judge(f"{what} is refused", (told.returncode, told.stderr) == (3, f"file {out}\n"), told)
        feed.write(frames[len(frames) // 2 :])
    judge("the first one records all", running.wait() == 0 and extracted(out, 1, work / "again.feed") == frames)


def test_ctrl_c_ends_recorder_and_feeder_well(work: Path, short_feed: Path) -> None:
    """Ctrl-C to a recorder that was started as docs/user/using/feeds.md says, and to what feeds it."""
    os.mkfifo(work / "wire.feed")
    settings = write_settings(work, ["wire.feed"], ["all"])
    out, report = work / "wire.ch11", work / "wire.report"
    script = f"""
(trap '' INT TERM; exec {BPFREC} record {settings} {out} < /dev/null > {report}) &
tail -c +1 -f {short_feed} > {work / 'wire.feed'}
"""
    # Whoever starts this in the background may ignore INT.
    heed = lambda: signal.signal(signal.SIGINT, signal.SIG_DFL)
    running = subprocess.Popen(["bash", "-c", script], start_new_session=True, preexec_fn=heed)
    wait_for("a pipeline runs", lambda: out.exists() and out.stat().st_size > 500_000, 10)
    time.sleep(0.5)
    os.killpg(running.pid, signal.SIGINT)
    running.wait()
    wait_for("Ctrl-C ends it with its report", lambda: report.exists() and "wrote " in report.read_text(), 10)
    judge("which has all frames", "offered 10000 kept 10000 SourceEnd" in report.read_text())
    judge("its recording is approved", outcome(BPFREC, "audit", out).stdout.endswith("yes other 0\n"))
    judge("and has all frames", extracted(out, 1, work / "again.feed") == short_feed.read_bytes())
