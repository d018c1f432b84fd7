"""Tries ways to start bpfrec live: however it is started it records, and INT and TERM end it with status 0."""

import contextlib
import os
import re
import signal
import time
from pathlib import Path

import pytest
from frames import numbers
from namespace import send_together
from recordings import RUN, YES, extracted, folder_of, is_recording, nothing_left, settings_of
from support import LIVE, Running, judge, wait_for
from terminal import Terminal

pytestmark = [
    pytest.mark.wanted("bin/bpfrec", "bin/capture", "ip"),
    pytest.mark.timed,
    pytest.mark.usefixtures("namespace"),
]


class Start:
    """A way to start bpfrec live, and the signal that ends it."""

    def __init__(self, work: Path, name: str, words: list, options: list, number: signal.Signals) -> None:
        self.name = f"{name}{' with --every' if options else ''}"
        self.words, self.options, self.number = words, options, number
        self.here = folder_of(work, re.sub(r"\W", "_", f"{self.name} {number.name}"))
        self.out, self.file = self.here / "out.ch11", self.here / ("out_00001.ch11" if options else "out.ch11")

    def begin(self, settings: Path) -> None:
        words = [*self.words, LIVE, "--quiet", "--buffer", 4, *self.options, settings, self.out, "rx0=1", "rx1=2"]
        adds = {"PID_FILE": str(self.here / "pid"), RUN: str(self.out)}
        self.running = Running(self.here, *words, adds=adds)

    def wait_until_recording(self) -> None:
        wait_for(lambda: f"{self.name}: it records: {self.told()}", lambda: is_recording(self.out, self.file), 10)

    def tell(self) -> None:
        pid = int((self.here / "pid").read_text()) if (self.here / "pid").exists() else self.running.process.pid
        with contextlib.suppress(ProcessLookupError):
            os.kill(pid, self.number)

    def ended(self) -> tuple[int, str]:
        return self.running.ended()

    def told(self) -> str:
        return self.running.told()

    def judge(self) -> None:
        status, printed = self.ended()
        is_whole = status == 0 and YES in printed and nothing_left(self.here)
        holds = is_whole and numbers(extracted(self.here, self.file, 1)) == list(range(100))
        judge(f"{self.name}: it records, and {self.number.name} ends it", holds, (status, printed, self.told()))


class Nohup(Start):
    """The terminal is closed meanwhile."""

    def wait_until_recording(self) -> None:
        super().wait_until_recording()
        os.killpg(self.running.process.pid, signal.SIGHUP)


class AtTerminal(Start):
    """In the background of an interactive bash with job control, at a terminal of its own."""

    def begin(self, settings: Path) -> None:
        self.terminal = Terminal(self.here, self.out)
        words = " ".join(map(str, ["--quiet", "--buffer", 4, *self.options, settings, self.out]))
        self.terminal.type_in(f"{LIVE} {words} rx0=1 rx1=2 > printed 2> told & echo $! > number && mv number pid")

    def tell(self) -> None:
        os.kill(int((self.here / "pid").read_text()), self.number)
        self.terminal.type_in("wait $(cat pid); echo $? > ended && mv ended status")

    def ended(self) -> tuple[int, str]:
        wait_for(lambda: f"{self.name}: {self.number.name} ends it: {self.told()}", (self.here / "status").exists)
        self.terminal.end()
        return int((self.here / "status").read_text()), (self.here / "printed").read_text()

    def told(self) -> str:
        told = self.here / "told"
        return f"{told.read_text() if told.exists() else ''} {self.terminal.shown.decode(errors='replace')}"


WAYS: dict[str, tuple[type[Start], list[object]]] = {
    "nohup": (Nohup, ["nohup"]),
    "background_of_script": (Start, ["bash", "-c", '"$@" & echo $! > "$PID_FILE"; wait $!', "bash"]),
    "background_of_terminal": (AtTerminal, []),
    "no_standard_input": (Start, ["bash", "-c", 'exec "$@" <&-', "bash"]),
    "no_standard_error": (Start, ["bash", "-c", 'exec "$@" 2>&-', "bash"]),
    "signals_ignored": (Start, ["bash", "-c", "trap '' INT TERM; exec \"$@\"", "bash"]),
}


@pytest.mark.parametrize("way", WAYS)
def test_each_way_to_start_live_records_and_ends_with_status_0(work: Path, way: str) -> None:
    """By INT and by TERM, single and with --every; the four of a way run beside one another."""
    settings, (kind, words) = settings_of(work), WAYS[way]
    both: list[list[object]] = [[], ["--every", 100]]
    starts = [kind(work, way, words, options, number) for options in both for number in (signal.SIGINT, signal.SIGTERM)]
    for start in starts:
        start.begin(settings)
    for start in starts:
        start.wait_until_recording()
    time.sleep(0.5)
    send_together(0, 100)
    time.sleep(0.2)
    for start in starts:
        start.tell()
    for start in starts:
        start.judge()
