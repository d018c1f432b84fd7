"""Tries the OUT of `record`, `extract` and `upgrade`: full and failing disks, names of an input, and standard
streams."""

import os
import resource
import signal
import subprocess
from collections.abc import Callable
from pathlib import Path

import pytest
from recorder import RECORDINGS, make_feed, record, write_settings
from support import BPFREC, judge, outcome

pytestmark = [pytest.mark.wanted("bin/bpfrec", "cc"), pytest.mark.timed]
FRAMES = 100

# ---- full disks


def test_a_full_device_is_told(work: Path, long_feed: Path) -> None:
    full = record(write_settings(work, [long_feed], ["all"]), "/dev/full")
    judge("/dev/full", (full.returncode, full.stdout, full.stderr) == (1, "", "run 2 Output 0 0\n"), full)


def test_file_that_may_not_grow(work: Path, long_feed: Path) -> None:
    """Past a million bytes, with standard input closed: the numbers that are told are those of the file."""

    def limited() -> None:
        signal.signal(signal.SIGXFSZ, signal.SIG_IGN)
        resource.setrlimit(resource.RLIMIT_FSIZE, (1_000_000, 1_000_000))
        os.close(0)

    out = work / "limited.ch11"
    done = outcome(BPFREC, "record", write_settings(work, [long_feed], ["all"]), out, preexec_fn=limited)
    told = done.stderr.split()
    judge("a file that may not grow", done.returncode == 1 and told[:1] + told[2:3] == ["run", "Output"], done)
    pieces, rest = told[3:]
    os.truncate(out, out.stat().st_size - int(rest))
    listed = outcome(BPFREC, "list", out)
    judge("what it says is whole is whole", listed.stdout.splitlines()[-1:] == [f"packets {pieces} other 0"], listed)


# ---- a recording's fault, and OUT


def runs_into(recording: Path, out: Path) -> list[tuple]:
    """`extract` and `upgrade` of a recording in a file and as standard input: what each run is, and its status, and
    what it printed and told."""
    runs: list[tuple] = []
    for file in [str(recording), "-"]:
        for words in [["extract", file, "1"], ["upgrade", file]]:
            with open(recording, "rb") as given:
                told = outcome(BPFREC, *words, out, stdin=given)
            runs.append((f"{words[0]} {'-' if file == '-' else 'FILE'}", (told.returncode, told.stdout, told.stderr)))
    return runs


@pytest.mark.parametrize("what", ["below_a_file", "of_a_long_name", "of_a_loop_of_links"])
def test_faults_of_recording_and_out_have_their_order(work: Path, what: str) -> None:
    """A recording's fault goes before an OUT that can't be looked at, which is a fault where OUT is created."""
    loop = work / "loop"
    loop.symlink_to(loop)
    (work / "all").write_bytes(b"")
    out = {"below_a_file": work / "all/out", "of_a_long_name": work / ("n" * 300), "of_a_loop_of_links": loop}[what]
    cases = [
        (RECORDINGS / "cut_to_210.ch11", (1, "", "read 1 Truncated 180\n")),
        (RECORDINGS / "two_versions.ch11", (3, "", f"file {out}\n")),
    ]
    for recording, wanted in cases:
        for name, told in runs_into(recording, out):
            judge(f"{name} of {recording.name} into an OUT {what}", told == wanted, told)


def test_an_out_that_is_the_recording_goes_before_its_fault(work: Path) -> None:
    damaged, own = (RECORDINGS / "cut_to_210.ch11").read_bytes(), work / "own_damaged.ch11"
    own.write_bytes(damaged)
    for name, told in runs_into(own, own):
        refused = told == (3, "", f"file {own}\n") and own.read_bytes() == damaged
        judge(f"{name} of a damaged recording into itself is refused before it is read", refused, told)


# ---- an OUT that is an input


@pytest.fixture
def own(work: Path) -> Path:
    """Settings of a feed and a filter, all of them in the folder that is worked in."""
    make_feed(work / "own.feed", FRAMES)
    return write_settings(work, ["own.feed"], ["all"], "own.toml")


@pytest.mark.parametrize("name", ["own.toml", "all", "own.feed"])
@pytest.mark.parametrize("link", [os.symlink, os.link], ids=["symlink", "link"])
def test_an_out_that_is_an_input_is_refused_and_kept(work: Path, own: Path, name: str, link: Callable) -> None:
    """An OUT that is an input is refused, by whatever name, and keeps its bytes; a namesake elsewhere isn't."""
    before = (work / name).read_bytes()
    link(work / name, work / "linked")
    for other in [name, f"./{name}", "linked"]:
        told = record(own, other, cwd=work)
        refused = (told.returncode, told.stdout, told.stderr) == (3, "", f"file {other}\n")
        judge(f"OUT {other} is refused", refused and (work / name).read_bytes() == before, told)
    (work / "elsewhere").mkdir()
    judge(f"OUT elsewhere/{name} is written", record(own, f"elsewhere/{name}", cwd=work).returncode == 0)


@pytest.mark.parametrize(
    "how, out",
    [
        ("> stream.lines", "stream.lines"),
        (">> stream.lines", "/dev/stdout"),
        ("< stream.lines", "./stream.lines"),
        ("2>> stream.lines", "stream.lines"),
        ("2>> stream.lines", "/dev/stderr"),
    ],
    ids=["written", "appended", "read", "told", "told_by_name"],
)
@pytest.mark.parametrize("command", ["record", "extract", "upgrade", "export", "export_from", "chapter11"])
def test_a_file_that_a_standard_stream_is_is_no_out(work: Path, own: Path, command: str, how: str, out: str) -> None:
    """A file that a standard stream is, is no OUT: what is printed would be written over it."""
    lines, sample = work / "stream.lines", RECORDINGS / "two_versions.ch11"
    lines.write_text("set 9 nowhere\n")
    (work / "setup.toml").write_text('origin = "1764590400"\n')
    words = {
        "record": f"record {own} {out}",
        "extract": f"extract {sample} 1 {out}",
        "upgrade": f"upgrade {sample} {out}",
        "export": f"export {sample} {out}",
        "export_from": f"export {sample} {out} 1764590400",
        "chapter11": f"chapter11 {sample} setup.toml {out}",
    }
    kept, refusal = b"" if how.startswith("> ") else lines.read_bytes(), f"file {out}\n"
    told = outcome("sh", "-c", f"{BPFREC} {words[command]} {how}", cwd=work, stdin=subprocess.DEVNULL)
    wanted = (3, "", kept + refusal.encode()) if how.startswith("2") else (3, refusal, kept)
    judge(f"OUT {out} with {how} is refused", (told.returncode, told.stderr, lines.read_bytes()) == wanted, told)


@pytest.mark.parametrize("out", ["/dev/stdin", "/dev/fd/0", "/proc/self/fd/0"])
@pytest.mark.parametrize("command", ["extract - 1 {}", "upgrade - {}", "export - {}", "export - {} 1764590400"])
def test_a_pipe_that_is_read_is_no_out(command: str, out: str) -> None:
    """What went into it would come out of it again: an export had no end, and an extraction kept nothing."""
    piped = f"cat {RECORDINGS / 'two_versions.ch11'} | timeout 5 {BPFREC} {command.format(out)}"
    done = outcome("sh", "-c", piped)
    judge(f"{command} {out}", (done.returncode, done.stdout, done.stderr) == (3, "", f"file {out}\n"), done)


@pytest.mark.parametrize("by", ["{} >> own.ch11", "- < own.ch11 >> own.ch11"], ids=["by_name", "by_input"])
@pytest.mark.parametrize("command", [
    "list {}",
    "audit {}",
    "export {} -",
    "export {} - 1764590400",
    "export {} other",
    "export {} other 1764590400",
    "extract {} 1 other",
    "upgrade {} other",
])  # fmt: skip
def test_standard_output_is_not_the_recording_that_is_read(work: Path, command: str, by: str) -> None:
    """What is printed would go into the recording, and an export of it would never end."""
    own, (file, streams) = work / "own.ch11", by.split(" ", 1)
    own.write_bytes((RECORDINGS / "two_versions.ch11").read_bytes())
    before = own.read_bytes()
    words = command.format(file.format("own.ch11"))
    done = outcome("sh", "-c", f"timeout 5 {BPFREC} {words} {streams}", cwd=work)
    is_refused = (done.returncode, done.stderr) == (3, "file -\n")
    judge(f"{words} {streams}", is_refused and own.read_bytes() == before and not (work / "other").exists(), done)


def test_an_out_that_is_the_pipe_of_a_channel_is_refused(work: Path, own: Path) -> None:
    os.mkfifo(work / "own.pipe")
    piped = write_settings(work, ["own.pipe"], ["all"], "own_pipe.toml")
    with subprocess.Popen(["sh", "-c", f"cat {work / 'own.feed'} > {work / 'own.pipe'}"]):
        told = record(piped, "own.pipe", cwd=work)
    holds = (told.returncode, told.stderr) == (3, "file own.pipe\n")
    judge("OUT that is the pipe of a channel is refused", holds, told)


@pytest.mark.parametrize("link", [os.symlink, os.link], ids=["symlink", "link"])
def test_nothing_is_made_into_itself_by_another_name(work: Path, own: Path, link: Callable) -> None:
    """A recording isn't extracted, exported or upgraded into itself by another name, and settings aren't recorded
    into."""
    same, other = work / "same.ch11", work / "other.ch11"
    recording = (RECORDINGS / "two_versions.ch11").read_bytes()
    same.write_bytes(recording)
    link(same, other)
    for words in (["extract", same, "1"], ["export", same], ["upgrade", same]):
        told = outcome(BPFREC, *words, other)
        is_refused = (told.returncode, told.stderr) == (3, f"file {other}\n")
        judge(f"{words[0]} into itself is refused", is_refused and same.read_bytes() == recording, told)
    other.unlink()
    link(own, other)
    told = record(own, other)
    judge("settings aren't recorded into", (told.returncode, told.stderr) == (3, f"file {other}\n"), told)
