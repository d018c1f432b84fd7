"""Tries that calls of the kernel which bin/capture has no use for are forbidden, and writing elsewhere than it has feeds.
Builds under sanitizers are others, so they are not tried by this."""

import ctypes
import os
import re
import tempfile
from pathlib import Path

import pytest
from frames import numbers
from namespace import make_pair, send_numbered, take_away
from pcapng import capture_head, captured, frame_of
from support import CAPTURE, LIBRARY, NOBODY, Reader, Running, judge, outcome, pipe_at, run, shared_library, wait_for

pytestmark = [
    pytest.mark.wanted("bin/bpfrec", "bin/capture", "ip", "cc"),
    pytest.mark.timed,
    pytest.mark.usefixtures("namespace"),
]
# What a capture calls while interfaces go down, leave and come back, and feeds and listings are exchanged.
CALLED = """poll read write recvfrom openat close newfstatat dup fcntl pipe2 ftruncate uname bind getsockname
    getsockopt setsockopt eventfd2 capget capset futex set_robust_list rseq munmap mremap madvise brk rt_sigprocmask
    rt_sigaction exit exit_group""".split()
# The same with certain arguments alone, of which others are tried by name.
IN_PART = "mmap mprotect tgkill clone ioctl socket".split()
# Where time is asked of the kernel, an adapter's clock is used, the process is stopped or aborts, or memory is shared by
# many threads; and what other machines and C libraries call in their place.
AT_TIMES = """clock_gettime clock_nanosleep nanosleep adjtimex clock_adjtime restart_syscall rt_sigreturn gettid getpid
    sched_getaffinity ppoll readv open stat lstat fstat statx""".split()
# Which the kernel calls itself to trace a program of x86-64, past all filters; in any other place they end it.
TRACING = [335, 336]
TRIED_BY_NAME = 25
ASK_VERSION = (444, None, ctypes.c_size_t(0), 1)


@pytest.fixture(scope="module")
def tried_calls(place: Path) -> Path:
    if "libseccomp" not in run("ldd", CAPTURE):
        pytest.skip("bin/capture is built without libseccomp")
    return shared_library(LIBRARY / "tried_calls.c", place / "tried_calls.so")


@pytest.fixture(scope="module")
def failing_rights(place: Path) -> Path:
    return shared_library(LIBRARY / "failing_rights.c", place / "failing_rights.so")


def has_landlock() -> bool:
    return ctypes.CDLL(None).syscall(*ASK_VERSION) > 0


def numbers_of(names: list[str]) -> list[int]:
    """The numbers of calls on this machine."""
    library = ctypes.CDLL("libseccomp.so.2")
    return [it for it in (library.seccomp_syscall_resolve_name(name.encode()) for name in names) if it >= 0]


def tried(work: Path, library: Path, **adds: str) -> dict[str, str]:
    """What a capture whose calls are tried once they are limited says of each; it captures all the same."""
    reader = Reader(pipe_at(work, "one.pipe"))
    running = Running(work, CAPTURE, f"rx0={reader.path}", adds={"LD_PRELOAD": str(library), **adds})
    running.wait_until_told("origin")
    send_numbered("tx0", 0, 50)
    wait_for("it captures", lambda: len(reader.data) >= 50 * 73)
    running.interrupt()
    status, told = running.ended()[0], running.told()
    judge("and it captures all the same", status == 0 and numbers(reader.all()) == list(range(50)), told)
    return dict(re.findall(r"^tried ([^:]+): (.+)$", told, re.M))


def test_calls_with_arguments_that_nothing_needs_are_forbidden(work: Path, tried_calls: Path) -> None:
    """Memory that is executed, signals to others, input of terminals, other sockets, and processes."""
    found = tried(work, tried_calls)
    done = {name: how for name, how in found.items() if how != "forbidden"}
    judge("each is forbidden", len(found) == TRIED_BY_NAME and not done, done or found)


def test_each_call_but_those_that_are_needed_is_forbidden(work: Path, tried_calls: Path) -> None:
    spared = "".join(f" {it} " for it in numbers_of(CALLED + IN_PART + AT_TIMES) + TRACING)
    found = tried(work, tried_calls, SPARED=spared)
    others = {name: how for name, how in found.items() if name.startswith("call ")}
    done = {name: how for name, how in others.items() if how != "forbidden"}
    judge(f"each of {len(others)} is forbidden", len(others) > 400 and not done, done)


# ---- what is written


def test_nothing_is_written_but_below_the_folders_of_feeds(work: Path, tried_calls: Path) -> None:
    """As root, whose files they are."""
    if not has_landlock():
        pytest.skip("the kernel has no Landlock")
    elsewhere, feeds = work / "etc", work / "feeds"
    for folder in (elsewhere, feeds):
        folder.mkdir()
    (elsewhere / "crontab").write_text("kept")
    (feeds / "there").write_text("not kept")
    for path, may in ((elsewhere / "crontab", False), (feeds / "there", True)):
        found = tried(feeds, tried_calls, TRIED_FILE=str(path))
        wrote = {it: found[f"open to be {it}"] for it in ("written", "emptied", "made", "read")}
        wanted = {"written": may, "emptied": may, "made": may, "read": True}
        judge(
            f"what may be done in {path.parent.name}",
            {it: how == "done" for it, how in wrote.items()} == wanted,
            wrote,
        )
    judge("nothing was written", (elsewhere / "crontab").read_text() == "kept" and len(os.listdir(elsewhere)) == 1)


def test_feeds_events_and_counts_are_written_in_several_folders(work: Path) -> None:
    """Also after an interface was away, and once a link to a folder leads to the next one, as live turns it."""
    folders = [work / name for name in ("top/1", "top/2", "facts")]
    for folder in folders:
        folder.mkdir(parents=True)
    (work / "top/now").symlink_to("1")
    first, second = (Reader(pipe_at(it, "rx0.pipe")) for it in folders[:2])
    words = ["--events", work / "facts/events", "--hold", 3]
    routes = [f"rx0={work}/top/now/rx0.pipe", f"rx1={work}/rx1.feed"]
    with open(work / "json", "w") as file:
        descriptor = file.fileno()
        running = Running(work, CAPTURE, *words, "--counts", descriptor, *routes, pass_fds=(descriptor,))
    running.wait_until_told("origin")
    send_numbered("tx0", 0, 10)
    wait_for("the first has frames", lambda: len(first.data) >= 10 * 73)
    take_away("rx0")
    running.wait_until_told("is taken again once it is back")
    make_pair(0)
    running.wait_until_told("rx0: it is back")
    (work / "top/next").symlink_to("2")
    os.rename(work / "top/next", work / "top/now")
    os.rename(work / "rx1.feed", work / "rx1.before")
    os.kill(running.process.pid, 10)
    wait_for("the other file is made", (work / "rx1.feed").exists)
    send_numbered("tx0", 10, 20)
    wait_for("the second has frames", lambda: len(second.data) >= 10 * 73)
    running.interrupt()
    status, told = running.ended()[0], running.told()
    judge(
        "all is written",
        status == 0 and (numbers(first.all()), numbers(second.all())) == (list(range(10)), list(range(10, 20))),
        told,
    )
    judge("facts too", (work / "facts/events").stat().st_size > 0)
    judge("also those of a file that was open", '{"counts": "rx0", ' in (work / "json").read_text())


@pytest.mark.parametrize("feed", ["here/made", "/dev/stdout", "/dev/fd/1", "/proc/self/fd/1", "-", "link", "relative"])
@pytest.mark.parametrize("way", ["> there/out", "| cat > there/out", "> there/pipe"], ids=["file", "pipe", "named"])
def test_a_feed_may_be_a_stream_or_a_link_to_another_folder(work: Path, feed: str, way: str) -> None:
    for name in ("here", "there"):
        (work / name).mkdir()
    (work / "in.pcap").write_bytes(
        capture_head(0xA1B23C4D) + b"".join(captured(at, 0, frame_of(at)) for at in range(9))
    )
    (work / "there/linked").touch()
    (work / "link").symlink_to(work / "there/linked")
    reader = Reader(pipe_at(work, "there/pipe")) if way.endswith("pipe") else None
    done = outcome("sh", "-c", f'"$0" -r in.pcap={feed} {way}', CAPTURE, cwd=work)
    streams = [reader.all()] if reader else [(work / "there/out").read_bytes()]
    made = [it.read_bytes() for it in (work / "here/made", work / "there/linked", work / "relative") if it.exists()]
    judge("its frames are there", [len(it) for it in streams + made if it] == [9 * 73], done.stderr)


def test_a_device_as_feed_opens_no_other_device(work: Path, tried_calls: Path) -> None:
    if not has_landlock():
        pytest.skip("the kernel has no Landlock")
    adds = {"LD_PRELOAD": str(tried_calls), "TRIED_FILE": "/dev/zero"}
    running = Running(work, CAPTURE, "rx0=/dev/null", adds=adds)
    running.wait_until_told("tried open to be made")
    running.interrupt()
    status, told = running.ended()[0], running.told()
    judge("another device isn't written", status == 0 and "tried open to be written: forbidden\n" in told, told)


def test_a_feed_in_the_topmost_folder_opens_no_other_file(work: Path, tried_calls: Path) -> None:
    if not has_landlock():
        pytest.skip("the kernel has no Landlock")
    (work / "other").touch()
    with tempfile.NamedTemporaryFile(prefix="bpfrec_trial_", dir="/") as feed:
        adds = {"LD_PRELOAD": str(tried_calls), "TRIED_FILE": str(work / "other")}
        running = Running(work, CAPTURE, f"rx0={feed.name}", adds=adds)
        running.wait_until_told("tried open to be made")
        running.interrupt()
        status, told = running.ended()[0], running.told()
    judge("another file isn't written", status == 0 and "tried open to be written: forbidden\n" in told, told)


# ---- a kernel without Landlock


def identity_of(process: int) -> dict[str, str]:
    status = Path(f"/proc/{process}/status").read_text()
    return dict(re.findall(r"^(Uid|Gid|Groups|CapEff|CapPrm):[ \t]*(.*?)[ \t]*$", status, re.M))


def without_landlock(failing_rights: Path) -> dict[str, str]:
    return {"LD_PRELOAD": str(failing_rights), "FAILING_RIGHTS": "landlock", "SPARED": "0"}


def test_root_becomes_the_owner_of_its_feeds_where_there_is_no_landlock(work: Path, failing_rights: Path) -> None:
    work.chmod(0o755)
    pipe = pipe_at(work, "one.pipe")
    os.chown(pipe, NOBODY, NOBODY)
    reader = Reader(pipe)
    running = Running(work, CAPTURE, f"rx0={pipe}", adds=without_landlock(failing_rights))
    running.wait_until_told("origin")
    found, owner = identity_of(running.process.pid), "\t".join([str(NOBODY)] * 4)
    judge("it is their owner", (found["Uid"], found["Gid"], found["Groups"]) == (owner, owner, ""), found)
    judge(
        "with cap_net_raw to be had alone", (int(found["CapEff"], 16), int(found["CapPrm"], 16)) == (0, 1 << 13), found
    )
    take_away("rx0")
    running.wait_until_told("is taken again once it is back")
    make_pair(0)
    running.wait_until_told("rx0: it is back")
    send_numbered("tx0", 0, 10)
    wait_for("it captures again", lambda: len(reader.data) >= 10 * 73)
    running.end_well()


def test_a_line_says_that_root_stays_root_where_there_is_no_landlock(work: Path, failing_rights: Path) -> None:
    """Nobody else could open root's pipes later."""
    reader = Reader(pipe_at(work, "one.pipe"))
    running = Running(work, CAPTURE, f"rx0={reader.path}", adds=without_landlock(failing_rights))
    running.wait_until_told("origin")
    line = "bpfrec capture: it may write all that root may: the kernel has no Landlock, and its feeds are root's\n"
    judge("a line says so", line in running.told() and identity_of(running.process.pid)["Uid"].startswith("0"))
    running.end_well()
