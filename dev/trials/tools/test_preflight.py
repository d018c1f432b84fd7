"""Tries bpfrec preflight on a folder of wrong settings, filters, feeds and outputs.

Each case has the lines that preflight must say, written by hand.
"""

import fcntl
import os
import re
import resource
import subprocess
from pathlib import Path

import pytest
from disks import memory_disk
from preflight_cases import ALL_CASES, FILES, FORBIDDEN_CASES, GOOD, HEAD, SECOND, Case
from support import BPFREC, LIVE, MEBIBYTE, TOOLS, judge, outcome, present

pytestmark = pytest.mark.wanted("bin/bpfrec")
PREFLIGHT = TOOLS / "preflight"
# 64 channels of 4,099 buffers of 524,284 bytes.
MOST_BUFFERS = 137_538_567_424
# What preflight and live may take of a processor for settings, with the recorder that reads them too.
# They take three on a quiet machine, and ten beside other trials.
MOST_SECONDS = 40
# By how much the memory that is available may change meanwhile.
ABOUT = 256 << 20


@pytest.fixture
def folder(work: Path) -> Path:
    """A folder with a file of each kind."""
    for name, content in FILES.items():
        (work / name).write_bytes(content)
    (work / "folder").mkdir()
    (work / "link").symlink_to("arp.txt")
    os.mkfifo(work / "live.feed")
    os.link(work / "live.feed", work / "same.feed")
    (work / "closed").write_bytes(FILES["arp.txt"])
    (work / "closed").chmod(0)
    return work


def preflight(folder: Path, *words: str, **more: str) -> subprocess.CompletedProcess:
    environment = {**os.environ, "BPFREC": str(BPFREC.absolute()), **more}
    return outcome(PREFLIGHT, *words, cwd=folder, env=environment, seconds=60)


def test_settings_without_a_feed_may_be_those_of_live(folder: Path) -> None:
    (folder / "s.toml").write_text('[[channel]]\nid = 1\nfilter = "arp.txt"\n')
    line = "s.toml: note: those of live need no feed: bpfrec preflight --live s.toml OUT INTERFACE=CHANNEL"
    judge("it is said last", preflight(folder, "s.toml").stdout.endswith(f"{line}\n1 fault\n"))


def is_said(line: str, wanted: str) -> bool:
    """Whether a line is what is wanted, where `<n>` is any number and `<text>` any text."""
    pattern = re.escape(wanted).replace("<n>", r"\d+").replace("<text>", ".+")
    return re.fullmatch(pattern, line) is not None


def judge_lines(name: str, lines: list[str], wanted: list[str]) -> None:
    holds = len(lines) == len(wanted) and all(map(is_said, lines, wanted))
    judge(name, holds, "\n".join(["it says", *lines, "where it should say", *wanted]))


def count_of(faults: list[str]) -> str:
    """The last line of a preflight that finds these."""
    return f"{len(faults)} {'fault' if len(faults) == 1 else 'faults'}"


def judge_case(folder: Path, case: Case) -> None:
    """The faults of a case, without the notes."""
    (folder / "s.toml").write_text(case.settings, encoding="utf-8", newline="")
    before = {path: os.lstat(path) for path in folder.iterdir()}
    done = preflight(folder, "s.toml", *case.words)
    faults = [line for line in done.stdout.splitlines() if ": note: " not in line]
    judge_lines(case.name, faults, [*case.faults, count_of(case.faults)])
    after = {path: os.lstat(path) for path in folder.iterdir()}
    is_same = before.keys() == after.keys() and all(before[it].st_mtime_ns == after[it].st_mtime_ns for it in before)
    judge(
        f"the status of {case.name}, and that no file is changed",
        done.returncode == (1 if case.faults else 0) and not done.stderr and is_same,
        done,
    )


@pytest.mark.parametrize("case", ALL_CASES, ids=lambda case: case.name.replace(" ", "_"))
def test_each_fault_has_its_line(folder: Path, case: Case) -> None:
    judge_case(folder, case)


@pytest.mark.parametrize("case", FORBIDDEN_CASES, ids=lambda case: case.name.replace(" ", "_"))
def test_files_that_may_not_be_read_are_faults(folder: Path, case: Case) -> None:
    if os.geteuid() == 0:
        pytest.skip("to root no file is forbidden")
    judge_case(folder, case)


def test_what_may_be_lost_is_noted(folder: Path) -> None:
    second = SECOND + 'feed = "live.feed"\nfilter = "none.txt"\n'
    third = '[[channel]]\nid = 3\nfeed = "head.feed"\nfilter = "live.feed"\nmax = 1\n'
    (folder / "s.toml").write_text("ring = 1\n" + GOOD + "max = 2\n" + second + third)
    done = preflight(folder, "s.toml", "--out", "none.txt", "--capture", "three.feed")
    wanted = [
        "s.toml:5: channel 1: note: filter arp.txt: valid 4",
        "s.toml:4: channel 1: note: feed three.feed: 3 frames, of which 2 are taken",
        "s.toml:10: channel 2: note: filter none.txt: valid 1",
        "s.toml:9: channel 2: note: feed live.feed is a pipe and was not opened",
        "s.toml:14: channel 3: note: filter live.feed is a pipe and was not opened",
        "s.toml:13: channel 3: note: feed head.feed: 1 frames",
        "s.toml:13: channel 3: note: feed head.feed: Truncated at byte 27, past the frames that are taken",
        "s.toml: note: buffers of at most 786 kB (786432 bytes; channels 3, of each 4, of 65536 bytes), "
        "and <text> (<n> bytes) are available",
        "none.txt: channel 2: file none.txt: the output is this channel's filter, none.txt",
        "three.feed: note: feed three.feed: 3 frames",
        "s.toml:5: channel 1: note: filter arp.txt keeps 2 of 3 frames of three.feed",
        "s.toml:10: channel 2: note: filter none.txt keeps 0 of 3 frames of three.feed",
        "1 fault",
    ]
    judge_lines("notes", done.stdout.splitlines(), wanted)


def test_reserved_speeds_are_noted(folder: Path) -> None:
    """Those above 4, to which Chapter 11 gives no meaning."""
    reserved = "s.toml:5: channel 1: note: speed {} is reserved in Chapter 11, so a ground station may not take it"
    for speed in (0, 4, 5, 15):
        (folder / "s.toml").write_text(GOOD + f"speed = {speed}\n")
        lines = preflight(folder, "s.toml").stdout.splitlines()
        judge(f"speed {speed}", (reserved.format(speed) in lines) == (speed > 4), lines)


def test_a_full_disk_is_a_fault(folder: Path) -> None:
    """Of an OUT that is new and of one that is there, whose own room isn't enough."""
    (folder / "s.toml").write_text(GOOD)
    with memory_disk(folder / "disk", "size=3m") as disk:
        (disk / "old.ch11").write_bytes(bytes(10))
        (disk / "full").write_bytes(bytes(free_on(disk)))
        for name, told in {"new.ch11": "", "old.ch11": "is there with 10 bytes, and will be emptied; "}.items():
            done = preflight(folder, "s.toml", "--out", str(disk / name))
            line = f"{disk / name}: file {disk / name}: {told}its disk is full: 0 B (0 bytes) are free\n"
            judge(f"{name} is a fault", (done.returncode, line in done.stdout) == (1, True), done)
        (disk / "full").unlink()
        judge("none with room", preflight(folder, "s.toml", "--out", str(disk / "new.ch11")).returncode == 0)


def available() -> int:
    """How many bytes of memory the kernel says are available."""
    found = re.search(r"^MemAvailable:\s*(\d+) kB$", Path("/proc/meminfo").read_text(), re.MULTILINE)
    return int(present(found)[1]) * 1024


def free_on(folder: Path) -> int:
    """How many bytes a disk has for all users."""
    status = os.statvfs(folder)
    return status.f_bavail * status.f_frsize


def test_notes_of_room_have_the_numbers_of_the_system(folder: Path) -> None:
    """The numbers of notes are those of statvfs and of /proc/meminfo, before and behind."""
    (folder / "s.toml").write_text("limit = 16424\nring = 4096\n" + GOOD)
    with memory_disk(folder / "disk", "size=3m") as disk, memory_disk(folder / "other", "size=5m") as other:
        (disk / "old.ch11").write_bytes(bytes(1_000_000))
        for out in (disk / "new.ch11", disk / "old.ch11", other / "new.ch11"):
            before = free_on(out.parent), available()
            done = preflight(folder, "s.toml", "--out", str(out))
            behind = free_on(out.parent), available()
            told = int(present(re.search(r" [kMGT]?B \((\d+) bytes\) are free on its disk\n", done.stdout))[1])
            judge(f"{out.name}: {told} bytes", min(before[0], behind[0]) <= told <= max(before[0], behind[0]), before)
            told = int(present(re.search(r" [MGT]B \((\d+) bytes\) are available\n", done.stdout))[1])
            near = min(before[1], behind[1]) - ABOUT <= told <= max(before[1], behind[1]) + ABOUT
            judge("memory as the kernel says", near, (before, told, behind))
    buffers = "buffers of at most 67.3 MB (67321976 bytes; channels 1, of each 4099, of 16424 bytes)"
    judge("the buffers of its settings", f"s.toml: note: {buffers}, and " in done.stdout, done.stdout)


def test_memory_past_what_there_is_is_noted(folder: Path) -> None:
    if available() > 0.9 * MOST_BUFFERS:
        pytest.skip("this machine has memory for all buffers that can be set")
    tables = "".join(GOOD.replace("id = 1", f"id = {id}") for id in range(1, 65))
    what = f"buffers of at most 138 GB ({MOST_BUFFERS} bytes; channels 64, of each 4099, of 524284 bytes)"
    fault = f"s.toml: memory: {what}, and <text> (<n> bytes) are available"
    judge_case(folder, Case("more buffers than memory", "limit = 524284\nring = 4096\n" + tables, [fault]))


def test_an_out_that_is_there_is_noted(folder: Path) -> None:
    """An OUT that is there, and one that another program writes."""
    (folder / "old.ch11").write_bytes(bytes(10))
    (folder / "s.toml").write_text(GOOD)
    note = "old.ch11: note: is there with 10 bytes, and will be emptied; <text> (<n> bytes) are free on its disk"
    lines = preflight(folder, "s.toml", "--out", "old.ch11").stdout.splitlines()
    judge_lines("OUT is there, with its note", lines[-2:], [note, "0 faults"])
    with open(folder / "old.ch11", "rb") as held:
        fcntl.flock(held, fcntl.LOCK_EX)
        fault = "old.ch11: file old.ch11: another program writes it"
        judge_case(folder, Case("OUT is locked", GOOD, [fault], ["--out", "old.ch11"]))


def test_settings_that_cannot_be_read_are_a_fault(folder: Path) -> None:
    (folder / "latin.toml").write_bytes(b"ring = 1\n# \xe9\n")
    (folder / "longer.toml").write_bytes(GOOD.encode().ljust(1_048_577, b"\n"))
    for path, reason in [
        ("no.toml", "missing"),
        ("folder", "a directory"),
        ("latin.toml", "no UTF-8 in line 2"),
        ("longer.toml", "longer than 1048576 bytes"),
    ]:
        lines = preflight(folder, path).stdout.splitlines()
        judge_lines(f"settings: {reason}", lines, [f"{path}: file {path}: {reason}", "1 fault"])


def nested(depth: int) -> str:
    return f"a = {'[' * depth}{']' * depth}\n"


def dotted(parts: int) -> str:
    return f"a{'.a' * (parts - 1)} = 1\n"


# Settings that take a reader long which isn't bounded, and what `record` says of them.
HOSTILE = {
    "90,000 keys": ("".join(f"k{it} = 1\n" for it in range(90_000)), "settings 2 Unknown k0"),
    "90,000 keys of a channel": (HEAD + "".join(f"k{it} = 1\n" for it in range(90_000)), "settings 2 Unknown k0"),
    "15,000 channels": ("".join(GOOD for _ in range(15_000)), "settings 5 Channels"),
    "a key of 200,000 parts": (dotted(200_000), "settings 1 Syntax"),
    "arrays without an end": ("a = " + "[" * 500_000, "settings 1 Syntax"),
    "more than a mebibyte": ("#" * (MEBIBYTE + 1), "file s.toml"),
    "81 parts": (dotted(81), "settings 1 Syntax"),
    "80 parts": (dotted(80), "settings 2 Unknown a"),
    "81 parts in quotes": ('"a" . ' * 80 + "a = 1", "settings 1 Syntax"),
    "81 arrays": (nested(81), "settings 1 Syntax"),
    "80 arrays": (nested(80), "settings 2 Unknown a"),
    "81 braces": (f"a = {'{a = ' * 81}1{'}' * 81}", "settings 1 Syntax"),
    "brackets and dots in texts": (
        f"a = '{'[' * 99}{'.' * 99}'\nb = \"\"\"{'[' * 99}\"\"\"\"\n",
        "settings 2 Unknown a",
    ),
    "brackets and dots in a comment": (f"# {'[' * 99}{'.' * 99}\na = 1\n", "settings 2 Unknown a"),
}


@pytest.mark.parametrize("what", HOSTILE)
def test_settings_of_any_text_are_judged_in_seconds_as_record_judges_them(folder: Path, what: str) -> None:
    """By preflight, and by live, which begins nothing then."""
    text, answer = HOSTILE[what]
    (folder / "s.toml").write_text(text)
    done = outcome(BPFREC.absolute(), "record", "s.toml", "o.ch11", cwd=folder)
    judge("so record says", (done.stdout + done.stderr).startswith(answer), done)
    before = resource.getrusage(resource.RUSAGE_CHILDREN)
    done = preflight(folder, "s.toml")
    judge("preflight says it first", done.returncode == 1 and answer in done.stdout.splitlines()[0], done.stdout[:300])
    few = not what.endswith(("keys", "keys of a channel")) or len(done.stdout.splitlines()) < 200
    judge("in few lines", few, len(done.stdout.splitlines()))
    env = {**os.environ, "TMPDIR": str(folder / "private")}
    done = outcome(LIVE, "s.toml", "o.ch11", cwd=folder, env=env, seconds=120)
    judge("live says it too", done.returncode and answer.removeprefix("file ") in done.stderr, done.stderr[:300])
    behind = resource.getrusage(resource.RUSAGE_CHILDREN)
    took = behind.ru_utime + behind.ru_stime - before.ru_utime - before.ru_stime
    judge(f"both within seconds of processor time: {took}", took < MOST_SECONDS)
    judge("nothing is left", not (folder / "o.ch11").exists() and os.listdir(folder / "private") == [])


def test_arguments_are_judged(folder: Path) -> None:
    usage = "usage: bpfrec preflight SETTINGS [--out OUT] [--capture FEED]\n"
    calls: list[list[str]] = [[], ["s.toml", "more"], ["s.toml", "--out"], ["s.toml", "--verbose"]]
    for words in calls:
        done = preflight(folder, *words)
        judge(f"wrong words {words}", done.returncode == 2 and done.stderr.startswith(usage) and not done.stdout)
    for word in ["-h", "--help"]:
        done = preflight(folder, word)
        judge(f"help by {word}", done.returncode == 0 and usage in done.stdout and not done.stderr)
    (folder / "s.toml").write_text(GOOD.replace("arp.txt", "\\x61rp.txt"))
    done = preflight(folder, "s.toml")
    not_read = "bpfrec preflight: s.toml:4: column <n>: bpfrec reads this, and Python's tomllib doesn't: <text>"
    is_told = done.returncode == 2 and is_said(done.stderr.rstrip(), not_read)
    judge("TOML 1.1 is judged, or said not to be", done.returncode == 0 or is_told)
    done = preflight(folder, "live.feed")
    judge(
        "settings are a pipe",
        (done.returncode, done.stderr) == (2, "bpfrec preflight: live.feed is a pipe and was not opened\n"),
    )
    done = preflight(folder, "s.toml", BPFREC="/no/bpfrec")
    judge("the program is missing", (done.returncode, done.stderr) == (2, "bpfrec preflight: /no/bpfrec is missing\n"))
