"""The program bpfrec: where it is, how it is run, and the texts of filters by it; and how a tool starts another tool."""

from __future__ import annotations

import os
import shutil
import stat
import subprocess
import sys
import tempfile
from pathlib import Path
from typing import IO, Callable, NamedTuple, Optional, Union

from bpfrec.formats.answers import Verdict
from bpfrec.formats.listing import listing_of
from bpfrec_tools.cli.progress import Progress, size_of
from bpfrec_tools.cli.streams import Refused

# Seconds between two looks at how far the program has come.
LOOK_EVERY = 0.2
# What has the tools: host/ of a checkout, or the one file of the installed ones.
HOLDER = Path(__file__).resolve().parents[2]


class Missing(Refused):
    """The program isn't there: what is missing."""

    status = 3


class Audit(NamedTuple):
    """The last line of what `bpfrec audit` said; or None, and why it wasn't asked."""

    answer: Optional[str]
    why_not: Optional[str]

    def __str__(self) -> str:
        return self.answer or self.why_not or ""

    def is_yes(self) -> bool:
        """Whether the recording was approved."""
        return Verdict.of(self.answer or "").is_yes()


def find() -> str:
    """The path of the program: what BPFREC names in the environment, or else the first of `places` that can be run."""
    named = os.environ.get("BPFREC")
    found = [it for it in (shutil.which(name) for name in ([named] if named else places())) if it]
    if not found:
        raise Missing(f"{named or 'bpfrec'} is missing{'' if named else ': make build makes it, and BPFREC names it'}")
    return os.path.abspath(found[0])


def places() -> list[str]:
    """Where the program may be: in bin/ of the checkout that has this package; or beside the archive that it is, and on
    PATH."""
    if not HOLDER.is_file():
        return [str(HOLDER.parent / "bin" / "bpfrec")]
    return [str(HOLDER.parent / "bpfrec"), "bpfrec"]


def capture_path() -> str:
    """The path of the program that captures, also where it isn't there: what CAPTURE names in the environment, or the
    one in bin/ of the checkout, or beside the archive that is this package."""
    named = os.environ.get("CAPTURE")
    if named:
        return named
    return str(HOLDER.parent / ("capture" if HOLDER.is_file() else "bin/capture"))


def run(*arguments: str, stdin: Union[int, IO[bytes]] = subprocess.DEVNULL) -> subprocess.CompletedProcess[str]:
    """Runs the program with these arguments to its end, and takes what it prints."""
    return subprocess.run(
        [find(), *arguments], stdin=stdin, capture_output=True, check=False, encoding="utf-8", errors="replace"
    )


def answer_of(done: subprocess.CompletedProcess[str]) -> str:
    """All that a run printed, or its status where it printed nothing."""
    return (done.stdout + done.stderr).strip() or f"status {done.returncode}"


def run_over(file: IO[bytes], progress: Progress, *arguments: str) -> subprocess.CompletedProcess[str]:
    """The same with a file as standard input. How far it was read is known from the place in the file, which both
    processes share."""
    pipe = subprocess.PIPE
    with subprocess.Popen(
        [find(), *arguments], stdin=file, stdout=pipe, stderr=pipe, encoding="utf-8", errors="replace"
    ) as process:
        try:
            printed, told = watched(process, lambda: progress.at(os.lseek(file.fileno(), 0, os.SEEK_CUR)))
        except BaseException:
            process.kill()
            raise
    return subprocess.CompletedProcess(arguments, process.returncode, printed, told)


def watched(process: subprocess.Popen[str], look: Callable[[], None]) -> tuple[str, str]:
    """What a process prints to its end, with a look at it now and then."""
    while True:
        try:
            return process.communicate(timeout=LOOK_EVERY)
        except subprocess.TimeoutExpired:
            look()


def audit_of(path: str, is_quiet: bool = True) -> Audit:
    """What the program's audit says of a recording, which must be a regular file: it is read twice."""
    try:
        if not stat.S_ISREG(os.stat(path).st_mode):
            return Audit(None, "not asked: no regular file, which could be read twice")
        # By standard input, so that the file may have any name.
        with open(path, "rb") as recording, Progress("audit", size_of(path), is_quiet) as progress:
            done = run_over(recording, progress, "audit", "-")
    except Missing:
        return Audit(None, "not asked: bpfrec is missing")
    except OSError as error:
        return Audit(None, f"not asked: {error.strerror}")
    answer, told = (it.strip().split("\n")[-1] for it in (done.stdout, done.stderr))
    if done.returncode != (0 if Verdict.of(answer).is_yes() else 1):
        # One that fails behind its answer has given none.
        answer = ""
    ended = f"ended by signal {-done.returncode}" if done.returncode < 0 else f"status {done.returncode}"
    return Audit(answer or told or ended, None)


class Texts:
    """The texts of filters, each asked for once."""

    def __init__(self) -> None:
        self.known: dict[bytes, str] = {}

    def text_of(self, insns: bytes) -> str:
        """A filter's text, or its listing where it has none or the program isn't there."""
        if insns not in self.known:
            self.known[insns] = disassembled(listing_of(insns))
        return self.known[insns]


def disassembled(listing: str) -> str:
    """The text of a listing, by `bpfrec dis`; or the listing itself."""
    with tempfile.TemporaryFile() as file:
        file.write(listing.encode())
        file.seek(0)
        try:
            done = run("dis", "-", stdin=file)
        except Missing:
            return listing
    return done.stdout.strip() if done.returncode == 0 and done.stdout else listing


CODE = (
    "import os, sys; os.nice(int(sys.argv.pop(1))); sys.path.insert(0, sys.argv.pop(1)); "
    "from bpfrec_tools.__main__ import run_tool; sys.exit(run_tool(sys.argv.pop(1)))"
)


def command_of(tool: str, nice: int = 0) -> list[str]:
    """The words that start a tool, behind which its own stand; with how much it is behind other programs."""
    return [sys.executable, "-I", "-B", "-c", CODE, str(nice), str(HOLDER), tool]
