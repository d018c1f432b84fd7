"""Tries the order of what commands do to files, call by call, by a library that is preloaded
(dev/trials/lib/seen_calls.c)."""

import errno
import os
import re
import subprocess
from collections.abc import Callable
from pathlib import Path
from typing import NamedTuple

import pytest
from disks import memory_disk
from frames import counted_feed
from recorder import RECORD_LENGTH, RECORDINGS, begin, make_feed, record, write_settings
from support import BPFREC, EXPORT, LIBRARY, SALVAGE, judge, judge_quietly, outcome, present, shared_library

pytestmark = pytest.mark.wanted("bin/bpfrec", "cc")
SAMPLE = RECORDINGS / "two_versions.ch11"
FRAMES = 100
# Those that lock OUT, and those that do not.
LOCKING = ("record", "extract", "upgrade", "extract_of_input", "upgrade_of_input", "chapter11")
TOOLS = {"salvage": "salvage", "pcapng": "export"}  # each with its verb, which begins its messages
# How a file is opened that is written and not emptied, and how it is locked: alone, and without waiting.
TO_WRITE, AT_ONCE = 1, 6
# Stands for OUT among the words of a command.
OUT = "OUT"


class Call(NamedTuple):
    """A call on a file: a line of dev/trials/lib/seen_calls.c."""

    what: str
    file: str
    number: int


class Command(NamedTuple):
    """The words of a command, and its standard input."""

    words: list
    given: Path = Path("/dev/null")

    def into(self, out: object, **env: object) -> subprocess.CompletedProcess:
        with open(self.given, "rb") as stream:
            adds = {name: str(value) for name, value in env.items()}
            words = [out if it == OUT else it for it in self.words]
            return outcome(*words, stdin=stream, env={**os.environ, **adds}, seconds=60)


def commands(work: Path) -> dict[str, Command]:
    """Each command and tool that writes a file."""
    make_feed(work / "own.feed", FRAMES)
    (work / "setup.toml").write_text('origin = "1764590400"\n')
    return {
        "record": Command([BPFREC, "record", write_settings(work, ["own.feed"], ["all"]), OUT]),
        "extract": Command([BPFREC, "extract", SAMPLE, "1", OUT]),
        "upgrade": Command([BPFREC, "upgrade", SAMPLE, OUT]),
        "extract_of_input": Command([BPFREC, "extract", "-", "1", OUT], SAMPLE),
        "upgrade_of_input": Command([BPFREC, "upgrade", "-", OUT], SAMPLE),
        "chapter11": Command([BPFREC, "chapter11", SAMPLE, work / "setup.toml", OUT]),
        "export": Command([BPFREC, "export", SAMPLE, OUT]),
        "salvage": Command([SALVAGE, "--force", SAMPLE, OUT]),
        "pcapng": Command([EXPORT, "--as=pcapng", "--force", SAMPLE, OUT]),
    }


@pytest.mark.parametrize("name", [*LOCKING, *TOOLS])
def test_of_an_out_that_was_longer_nothing_is_left(work: Path, name: str) -> None:
    command, out = commands(work)[name], work / "out"
    judge_quietly("it writes", command.into(out).returncode == 0)
    made = out.read_bytes()
    out.write_bytes(b"older and longer " * 100_000)
    done = command.into(out)
    judge(f"{name} leaves nothing", done.returncode == 0 and out.read_bytes() == made, done)


def calls_of(command: Command, out: Path, seen_calls: Path) -> list[Call]:
    """The calls of a command on OUT, on its folder and on standard output."""
    told = out.with_name("calls")
    told.write_text("")
    done = command.into(out, LD_PRELOAD=seen_calls, CALLS=told)
    judge_quietly("it ends well", done.returncode == 0, done)
    lines = [present(re.fullmatch(r"(\w+) (.*) (-?\d+)\n", it)).groups() for it in told.open()]
    calls = [Call(what, file, int(number)) for what, file, number in lines]
    return [it for it in calls if it.file in (str(out), str(out.parent), "1")]


@pytest.mark.parametrize("is_there", [False, True], ids=["new", "there"])
@pytest.mark.parametrize("name", LOCKING)
def test_out_is_forced_to_its_disk_before_the_report(work: Path, seen_calls: Path, name: str, is_there: bool) -> None:
    """OUT is opened, locked, emptied, of a new one the folder is forced, it is written and forced to its disk, and then
    the report is printed."""
    command, out = commands(work)[name], work / "out"
    if is_there:
        out.write_bytes(b"older")
    calls = calls_of(command, out, seen_calls)
    begin = [Call("open", str(out), TO_WRITE), Call("lock", str(out), AT_ONCE), Call("empty", str(out), 0)]
    begin += [] if is_there else [Call("open", str(out.parent), 0), Call("force", str(out.parent), 0)]
    many, writes = len(begin), sum(it.what == "write" and it.file == str(out) for it in calls)
    told = calls[many + writes :]
    judge(f"{name}: opened, locked, emptied, written", calls[:many] == begin and 0 < writes, calls)
    judge("all before it is forced, and printed then", told[0] == Call("force", str(out), 0), told)
    judge("nothing but that", told[1:] and all(it.what == "write" and it.file == "1" for it in told[1:]), told)
    holds = sum(it.number for it in calls[many : many + writes]) == out.stat().st_size
    judge("each byte was written once", holds, calls)


@pytest.mark.parametrize("is_there", [False, True], ids=["new", "there"])
@pytest.mark.parametrize("name", TOOLS)
def test_tools_force_out_to_its_disk_before_the_report(work: Path, seen_calls: Path, name: str, is_there: bool) -> None:
    """OUT is forced to its disk behind its last byte, its folder where OUT is new, and then the report is printed."""
    command, out = commands(work)[name], work / "out"
    if is_there:
        out.write_bytes(b"older")
    calls = calls_of(command, out, seen_calls)
    printed = max(at for at, it in enumerate(calls) if it.what == "write" and it.file == "1")
    forced = [it.file for it in calls if it.what == "force"]
    last = max(at for at, it in enumerate(calls) if it.what == "force")
    written = max(at for at, it in enumerate(calls) if it.what == "write" and it.file == str(out))
    judge(f"{name} forces OUT", forced == [str(out.parent)] * (not is_there) + [str(out)], calls)
    judge("behind its last byte, and before it prints", written < calls.index(Call("force", str(out), 0)), calls)
    judge("before it prints", last < printed, calls)


@pytest.fixture(scope="module")
def failing_force(place: Path) -> Path:
    """The library of dev/trials/lib/failing_force.c."""
    return shared_library(LIBRARY / "failing_force.c", place / "failing_force.so")


def unforced(command: Command, out: Path, library: Path, error: int) -> tuple[int, str, str]:
    """The status of a command and what it prints, where neither OUT nor its folder can be forced to their disk."""
    failing = {"UNFORCED_BY": "fsync", "UNFORCED_FROM": 1, "UNFORCED_COUNT": 9, "UNFORCED_ERROR": error}
    done = command.into(out, LD_PRELOAD=library, **failing)
    return done.returncode, done.stdout, done.stderr


@pytest.mark.parametrize("name", [*LOCKING, "export", *TOOLS])
def test_where_out_or_its_folder_can_not_be_forced_nothing_is_printed(
    work: Path, failing_force: Path, name: str
) -> None:
    """The folder of a new one, which is there then; but what has no disk (EINVAL) is no fault."""
    command, out = commands(work)[name], work / "folder.ch11/out.ch11"
    begins = f"bpfrec {TOOLS[name]}: {out}: " if name in TOOLS else f"file {out}"
    out.parent.mkdir()
    for error in (errno.EIO, errno.EIO, errno.ENOSPC):
        status, printed, told = unforced(command, out, failing_force, error)
        is_refused = (status, printed) == (3, "") and told.startswith(begins) and out.exists()
        judge(f"{name}: {errno.errorcode[error]}", is_refused, (status, printed, told))
    wanted = command.into(out).stdout
    found = unforced(command, out, failing_force, errno.EINVAL)
    judge(f"{name}: EINVAL", found == (0, wanted, ""), found)


# ---- an OUT that is another file by then


@pytest.mark.parametrize("name, source", [
    ("record", "settings.toml"),
    ("record", "all"),
    ("record", "own.feed"),
    ("extract", "sample"),
    ("upgrade", "sample"),
    ("extract_of_input", "sample"),
    ("upgrade_of_input", "sample"),
    ("chapter11", "sample"),
    ("chapter11", "setup.toml"),
])  # fmt: skip
def test_an_out_that_becomes_an_input_is_refused_and_kept(work: Path, seen_calls: Path, name: str, source: str) -> None:
    """An OUT that becomes an input between two looks at its name is refused, and keeps its bytes."""
    command, out = commands(work)[name], work / "out"
    (work / "sample").write_bytes(SAMPLE.read_bytes())
    words = [work / "sample" if it == SAMPLE else it for it in command.words]
    command = Command(words, work / "sample" if command.given == SAMPLE else command.given)
    before = (work / source).read_bytes()
    out.write_bytes(b"another file")
    os.link(work / source, work / "spare")
    done = command.into(out, LD_PRELOAD=seen_calls, EXCHANGED=out, EXCHANGED_BY=work / "spare")
    judge("it was exchanged", os.path.samefile(out, work / source))
    refused = (done.returncode, done.stdout, done.stderr) == (3, "", f"file {out}\n")
    judge(f"{name} into {source} is refused", refused and (work / source).read_bytes() == before, done)


def numbered_file(disk: Path, number: int, name: str, make: Callable[[Path], object]) -> Path:
    """A file of a disk that has this number there."""
    for count in range(1_000):
        path = disk / f"{name}{count}"
        make(path)
        if path.stat().st_ino == number:
            return path
    raise AssertionError(f"no file has the number {number}")


def test_a_file_with_the_number_of_an_input_on_another_disk_is_another(work: Path) -> None:
    """A file that has the number of an input, on another disk, is another file; so are two pipes."""
    with memory_disk(work / "one") as one, memory_disk(work / "two") as two:
        make_feed(one / "own.feed", FRAMES)
        os.mkfifo(one / "own.pipe")
        out = numbered_file(two, (one / "own.feed").stat().st_ino, "out", Path.touch)
        pipe = numbered_file(two, (one / "own.pipe").stat().st_ino, "pipe", os.mkfifo)
        done = record(write_settings(work, [one / "own.feed"], ["all"]), out)
        judge("an OUT that has the number of a feed", done.returncode == 0, done)
        running = begin(write_settings(work, [one / "own.pipe", pipe], ["all", "all"]), work / "two.ch11")
        for path in (one / "own.pipe", pipe):
            path.write_bytes(make_feed(work / "few.feed", 3).read_bytes())
        printed = running.communicate(timeout=10)[0]
        judge("two pipes that have one number", printed.count("offered 3 kept 3 SourceEnd") == 2, printed)


# ---- what is told of a failed output

# Each packet has a frame of the greatest length, and a thousand of them are written at once.
LONGEST, PACKETS = 16_383, 65_600
PROGRAM_LENGTH, PACKET_LENGTH = 64, 16_428


def test_an_output_that_fails_behind_70000_packets_is_counted(work: Path, seen_calls: Path) -> None:
    """The numbers of an output that fails behind more packets than 16 bits count."""
    os.mkfifo(work / "own.feed")
    settings = write_settings(work, ["own.feed"], ["all"])
    settings.write_text("limit = 16424\n" + settings.read_text())
    room = PROGRAM_LENGTH + (PACKETS - 1) * PACKET_LENGTH + 100
    env = {**os.environ, "LD_PRELOAD": str(seen_calls), "FAILING": "/dev/null", "FAILS_AFTER": str(room)}
    running = begin(settings, "/dev/null", stderr=subprocess.PIPE, env=env)
    part = counted_feed([bytes(LONGEST)] * 100)
    with open(work / "own.feed", "wb", buffering=0) as feed:
        try:
            for _ in range(PACKETS // 100 + 100):
                feed.write(part)
        except BrokenPipeError:
            pass
    told = running.communicate(timeout=60)[1]
    judge(f"{PACKETS} packets are whole", told == f"run 2 Output {PACKETS} 100\n", told)


@pytest.mark.parametrize("more", [0, 1, 65_536, 300_000])
def test_an_output_that_fails_within_a_long_packet_is_counted(work: Path, seen_calls: Path, more: int) -> None:
    """The numbers of an output that fails within a long packet."""
    make_feed(work / "own.feed", 500_000 // RECORD_LENGTH)
    settings = write_settings(work, ["own.feed"], ["all"])
    settings.write_text("limit = 524284\n" + settings.read_text())
    env = {**os.environ, "LD_PRELOAD": str(seen_calls), "FAILING": str(work / "out"), "FAILS_AFTER": str(64 + more)}
    done = record(settings, work / "out", env=env)
    told = (done.returncode, done.stdout, done.stderr)
    judge(f"{more} bytes", told == (1, "", f"run 2 Output 1 {more}\n"), told)
    judge("they are there", (work / "out").stat().st_size == 64 + more)
