"""What all trials share: where the programs are, judging, and running programs.

A trial is a test of pytest in a file test_*.py. The other modules beside this one have a topic each: frames.py,
namespace.py, recordings.py, clock.py and disks.py.
"""

import contextlib
import os
import re
import shutil
import signal
import subprocess
import sys
import threading
import time
from collections.abc import Callable, Iterable, Sequence
from pathlib import Path
from typing import Any, Optional, TypeVar

ROOT = Path(__file__).resolve().parents[3]
sys.path.insert(0, str(ROOT / "host"))
from bpfrec_tools.verbs import VERBS

# Another build of either is tried by the variables BPFREC and CAPTURE, by which the tools find it too.
BPFREC = Path(os.environ.get("BPFREC") or ROOT / "bin/bpfrec")
CAPTURE = Path(os.environ.get("CAPTURE") or ROOT / "bin/capture")
# The command as users call it; and each tool by a name of its own, for a trial that starts it alone.
COMMAND, TOOLS = ROOT / "host/bin/bpfrec", ROOT / "bin/tools"
LIVE, INFO, EXPORT, SALVAGE, PREFLIGHT = (TOOLS / it for it in ("live", "info", "export", "salvage", "preflight"))
CHECK, FOLLOW, PUBLISH, RECEIVE, TELL = (TOOLS / it for it in ("check", "follow", "publish", "receive", "tell"))
CHECK_SUMS = ROOT / "host/second/check_sums"
# What a trial may want besides programs: to be run by root, and what a build makes; and the packages of programs that
# are named otherwise.
ROOT_USER = "root"
BUILT = {"bin/bpfrec": BPFREC, "bin/capture": CAPTURE}
PACKAGES = {
    **dict.fromkeys(("capinfos", "dumpcap", "editcap", "mergecap"), "wireshark-common"),
    "cc": "gcc",
    "dpkg-deb": "dpkg",
    "ip": "iproute2",
    "man": "man-db",
    "mkfs.ext4": "e2fsprogs",
    "objdump": "binutils",
    "pcap-config": "libpcap-dev",
    "scapy": "python3-scapy",
    "setcap": "libcap2-bin",
    "setpriv": "util-linux",
    **dict.fromkeys(("ssh-agent", "ssh-keygen"), "openssh-client"),
}
# The modules and C files that trials share, and the scripts of hours.
LIBRARY, LONG = ROOT / "dev/trials/lib", ROOT / "dev/trials/long"
KEEPS_ALL = "1,6 0 0 1,"
DROPS_ALL = "1,6 0 0 0,"
MILLISECOND = 1_000_000
SECOND = 1_000_000_000
MEBIBYTE = 1 << 20
NOBODY = 65_534
SECONDS = 30


def judge(what: str, holds: object, details: object = "") -> None:
    """Says what was found, with the details where it is wrong, which fails the trial."""
    __tracebackhide__ = True
    if not holds:
        raise AssertionError(f"{what}{': ' if details else ''}{details}")
    print(f"ok: {what}", flush=True)


def judge_quietly(what: str, holds: object, details: object = "") -> None:
    __tracebackhide__ = True
    if not holds:
        judge(what, holds, details)


def judge_same(what: str, found: object, wanted: object) -> None:
    """Judges that what was found is what was wanted, and has both where it isn't."""
    __tracebackhide__ = True
    holds = found == wanted
    judge_quietly(what, holds, "" if holds else f"{found!r} is not {wanted!r}")


def program_at(path: Path, text: str, shell: str = "#!/bin/sh\n") -> Path:
    """A program that a shell plays."""
    path.write_text(f"{shell}{text}\n")
    path.chmod(0o755)
    return path


def is_here(name: str) -> bool:
    """Whether root is who tries, or a program or what a build makes is there."""
    if name == ROOT_USER:
        return os.geteuid() == 0
    return BUILT[name].exists() if name in BUILT else shutil.which(name) is not None


def missing(wanted: Iterable[str]) -> list[str]:
    """What is not here of programs and of what a build makes, each of them with its package or with `make build`."""
    lacking = [name for name in wanted if not is_here(name)]
    packages = sorted({PACKAGES.get(name, name) for name in lacking if name not in (*BUILT, ROOT_USER)})
    found = [f"{name} (make build)" for name in lacking if name in BUILT]
    return [*found, *({ROOT_USER} & set(lacking)), *([f"{' '.join(packages)} (make packages)"] if packages else [])]


def link_tools() -> None:
    """Makes the link of each tool, by which host/tool knows what it is to run."""
    TOOLS.mkdir(parents=True, exist_ok=True)
    for name, verb in VERBS.items():
        if verb.is_tool and not (TOOLS / name).is_symlink():
            with contextlib.suppress(FileExistsError):
                (TOOLS / name).symlink_to(ROOT / "host/tool")


link_tools()
T = TypeVar("T")


def present(found: Optional[T]) -> T:
    """A value that is there, as a pipe of a program that was given one."""
    assert found is not None
    return found


def run(*words: object, seconds: float = SECONDS, **more: Any) -> str:
    """What a program prints that ends well."""
    done = outcome(*words, seconds=seconds, **more)
    judge_quietly(f"{words}: status {done.returncode}", done.returncode == 0, done.stderr)
    return done.stdout


def sums(*words: object, **more: Any) -> subprocess.CompletedProcess:
    """What `bpfrec check` says but for the audit, and for its answer, which is that of its status."""
    done = outcome(CHECK, "--no-audit", *words, **more)
    lines = done.stdout.splitlines(keepends=True)
    if done.stdout and done.returncode in (0, 1):
        judge_quietly("the answer", lines[-1:] == [("yes\n", "no\n")[done.returncode]], done)
        done.stdout = "".join(lines[:-1])
    return done


def outcome(*words: object, seconds: float = SECONDS, **more: Any) -> subprocess.CompletedProcess:
    """How a program ended, and what it printed."""
    streams = {} if {"stdout", "stderr", "capture_output"} & set(more) else {"capture_output": True}
    how: dict[str, Any] = {"text": True, **streams, **more}
    return subprocess.run(as_given(words), timeout=seconds, **how)


def as_given(words: Sequence[object]) -> list[str | bytes]:
    """The arguments of a program: bytes as they are, and the text of all else."""
    return [word if isinstance(word, bytes) else str(word) for word in words]


def shared_library(source: Path, made: Path) -> Path:
    """A library of a C file, which can be preloaded."""
    compiler = os.environ.get("CC", "cc")
    run(compiler, "-std=gnu11", "-O2", "-Wall", "-shared", "-fPIC", "-o", made, source, "-ldl", seconds=60)
    return made


def wait_for(what: str | Callable[[], str], holds: Callable[[], object], seconds: float = SECONDS) -> None:
    """Waits until it holds; `what` is a text, or makes one when it is wanted."""
    __tracebackhide__ = True
    end = time.monotonic() + seconds
    while not holds():
        if time.monotonic() > end:
            judge(what() if callable(what) else what, False)
        time.sleep(0.005)


class Running:
    """A program in a process group of its own, with what it prints."""

    def __init__(self, work: Path, *words: object, adds: dict | None = None, **more: Any) -> None:
        self.told_in = open(work / "told", "w+")
        streams = {"stdin": subprocess.PIPE, "stdout": subprocess.PIPE, "stderr": self.told_in}
        how: dict[str, Any] = {**streams, "text": True, **more}
        self.process: subprocess.Popen[str] = subprocess.Popen(
            as_given(words),
            start_new_session=True,
            env={**os.environ, "TMPDIR": str(work / "private"), **(adds or {})},
            **how,
        )

    def told(self) -> str:
        return Path(self.told_in.name).read_text()

    def wait_until_told(self, what: str) -> None:
        wait_for(
            lambda: f"{what} is told: {self.told()}", lambda: what in self.told() or self.process.poll() is not None
        )

    def type_in(self, line: str) -> None:
        lines = present(self.process.stdin)
        lines.write(line + "\n")
        lines.flush()

    def interrupt(self) -> None:
        """Ctrl-C, which the terminal sends to all."""
        os.killpg(self.process.pid, signal.SIGINT)

    def end_well(self) -> str:
        """Ctrl-C ends it with status 0: what it printed."""
        self.interrupt()
        status, printed = self.ended()
        judge("it ends well", status == 0, self.told())
        return printed

    def ended(self) -> tuple[int, str]:
        """Its status and what it printed."""
        try:
            printed = self.process.communicate(timeout=SECONDS)[0]
        except subprocess.TimeoutExpired:
            os.killpg(self.process.pid, signal.SIGKILL)
            judge(f"{self.process.args!r} ends; it told {self.told()}", False)
        return self.process.returncode, printed


class Reader(threading.Thread):
    """Reads a pipe to its end."""

    def __init__(self, path: Path) -> None:
        super().__init__(daemon=True)
        self.path, self.data = path, bytearray()
        self.start()

    def run(self) -> None:
        with open(self.path, "rb", buffering=0) as pipe:
            while part := pipe.read(1 << 16):
                self.data += part

    def all(self) -> bytes:
        self.join(SECONDS)
        return bytes(self.data)


def pipe_at(work: Path, name: str) -> Path:
    path = work / name
    path.unlink(missing_ok=True)
    os.mkfifo(path)
    return path


def fill_pipe(descriptor: int) -> None:
    """Fills a pipe to the brim."""
    os.set_blocking(descriptor, False)
    for part in (b"x" * 1_000, b"x"):
        with contextlib.suppress(BlockingIOError):
            while True:
                os.write(descriptor, part)
    os.set_blocking(descriptor, True)


def nanoseconds(seconds: str, rest: str) -> int:
    """Of a number of seconds and the nine digits behind its point."""
    return int(seconds) * SECOND + int(rest) * (-1 if seconds.startswith("-") else 1)


def origin_told(told: str) -> int:
    """The first origin that a capture told, in nanoseconds since 1970."""
    return nanoseconds(*present(re.search(r"origin (-?\d+)\.(\d{9})", told)).groups())
