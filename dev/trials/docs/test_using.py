"""Runs the commands of docs/user/using/ one after the other in one shell, and compares what they print.

The pages are those that docs/user/USING.md names, in its order.

Blocks that begin with ```sh live want root and bin/capture: then all runs in a network namespace, with interfaces eth0
and eth1 at which the frames of examples/feeds/one.feed arrive, and the numbers that such a block prints are not
compared. Those that begin with ```sh tcpdump or ```sh tshark want these. Where something is missing these blocks are
left out.
"""

import contextlib
import itertools
import os
import re
import subprocess
import threading
import time
from collections.abc import Callable, Iterator
from pathlib import Path
from typing import NamedTuple

import pytest
import support
from clock import Synchronisation
from frames import records
from namespace import make_quiet, run_batch, set_link, socket_into, turn_offloads_off
from support import ROOT, judge_quietly

pytestmark = pytest.mark.wanted("bin/bpfrec")
WANTED_BY = {"live": ("bin/capture", "ip", "ssh-keygen"), "tcpdump": ("tcpdump",), "tshark": ("tshark",)}
MARK = "== end of a command =="
FRAMES_A_SECOND = 200
PATIENCE = 180


class Command(NamedTuple):
    """A command of a page, the kind of its block, and what the page says that it prints."""

    words: str
    kind: str
    wanted: str

    def is_printed(self, got: str) -> bool:
        if self.kind != "live":
            return got == self.wanted
        plain = [re.sub(r"[0-9]+", "0", text) for text in (got, self.wanted)]
        return plain[0] == plain[1]


def commands(text: str) -> list[Command]:
    """Each command of a page, in order."""
    found: list[Command] = []
    for kind, block in re.findall(r"^```sh ?(live|tcpdump|tshark|)\n(.*?)^```$", text, re.MULTILINE | re.DOTALL):
        for line in block.splitlines(keepends=True):
            if line.startswith("$ "):
                found.append(Command(line[2:].rstrip("\n"), kind, ""))
            else:
                found[-1] = found[-1]._replace(wanted=found[-1].wanted + line)
    return found


FOLDER = ROOT / "docs/user"
PAGES = list(dict.fromkeys(re.findall(r"\((using/\w+\.md)", (FOLDER / "USING.md").read_text())))
COMMANDS = [command for page in PAGES for command in commands((FOLDER / page).read_text())]


class Sending(threading.Thread):
    """Sends the sample frames to both interfaces until it is ended."""

    def __init__(self) -> None:
        super().__init__(daemon=True)
        self.is_ending = False
        self.start()

    def run(self) -> None:
        sample = records((ROOT / "examples/feeds/one.feed").read_bytes())
        with socket_into("to_eth0") as one, socket_into("to_eth1") as two:
            for frame in itertools.cycle([it.frame[:-4] for it in sample]):
                if self.is_ending:
                    break
                for into in (one, two):
                    into.send(frame)
                time.sleep(1 / FRAMES_A_SECOND)

    def end(self) -> None:
        self.is_ending = True
        self.join()


def make_interface(name: str) -> None:
    """An interface whose other end is called after it."""
    run_batch([f"link add {name} type veth peer name to_{name}"])
    for each in (name, f"to_{name}"):
        make_quiet(each)
        set_link(each, "up")
    turn_offloads_off(name)


class Shell(NamedTuple):
    """What each command printed, and the kinds of blocks that can't be run here, with what they want."""

    printed: dict[int, str]
    left_out: dict[str, str]


def run_all(wanted: dict[int, Command], adds: dict[str, str]) -> dict[int, str]:
    """What each printed, one after the other, beside a kernel whose clock is synchronised, with a folder of its own."""
    script = "".join(f"{it.words}\necho '{MARK}'\n" for it in wanted.values())
    done = subprocess.run(
        ["bash"],
        input=script,
        cwd=ROOT,
        text=True,
        timeout=PATIENCE,
        stdout=subprocess.PIPE,
        stderr=subprocess.STDOUT,
        env={**os.environ, "PATH": f"{support.COMMAND.parent}:{os.environ['PATH']}", **adds},
    )
    parts = done.stdout.split(MARK + "\n")
    judge_quietly("each command is run", len(parts) == len(wanted) + 1, done.stdout[-2000:])
    return dict(zip(wanted, parts))


@contextlib.contextmanager
def interfaces(entering: Callable) -> Iterator[None]:
    """A namespace with both interfaces, at which frames arrive."""
    with entering():
        for name in ("eth0", "eth1"):
            make_interface(name)
        sending = Sending()
        yield
        sending.end()


@pytest.fixture(scope="module")
def shell(entering: Callable, place: Path) -> Shell:
    """All commands that can be run here, in a namespace where one can be made."""
    lacking = {kind: support.missing(wanted) for kind, wanted in WANTED_BY.items()}
    left_out = {kind: f"it needs {', '.join(it)}" for kind, it in lacking.items() if it}
    with contextlib.ExitStack() as stack:
        try:
            stack.enter_context(interfaces(entering) if "live" not in left_out else contextlib.nullcontext())
        except pytest.skip.Exception as why:
            left_out["live"] = str(why)
        chosen = {at: it for at, it in enumerate(COMMANDS) if it.kind not in left_out}
        # Folders that killed runs left elsewhere would be named.
        ran = run_all(chosen, {**Synchronisation(place).adds, "TMPDIR": str(place / "private")})
    return Shell(ran, left_out)


def name_of(at: int) -> str:
    """A command's name, by which it can be chosen."""
    return f"{at + 1}_{re.sub(r'[^a-zA-Z0-9]+', '_', COMMANDS[at].words)[:50].strip('_')}"


def test_using_names_each_of_its_pages() -> None:
    there = sorted(str(it.relative_to(FOLDER)) for it in (FOLDER / "using").iterdir())
    support.judge("each page is named", sorted(PAGES) == there, PAGES)


@pytest.mark.parametrize("at", range(len(COMMANDS)), ids=name_of)
def test_each_command_of_using_prints_what_the_page_has(shell: Shell, at: int) -> None:
    command = COMMANDS[at]
    if command.kind in shell.left_out:
        pytest.skip(shell.left_out[command.kind])
    got = shell.printed[at]
    support.judge(f"$ {command.words}", command.is_printed(got), f"\n{got}-- where the page has\n{command.wanted}")
