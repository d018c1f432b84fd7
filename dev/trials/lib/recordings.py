"""What trials of live recordings share: settings, bpfrec live, its recordings and the facts beside them."""

import contextlib
import json
import os
import threading
import time
from pathlib import Path
from typing import Any

from frames import Record, numbered, numbers_in, records
from namespace import socket_into
from support import BPFREC, DROPS_ALL, KEEPS_ALL, LIVE, Running, judge, judge_quietly, outcome, run, wait_for

# Names the run that a process belongs to.
RUN = "BPFREC_TRIAL_RUN"
YES = "yes other 0"

# ---- settings


def write_settings(work: Path, *channels: str) -> Path:
    (work / "all").write_text(KEEPS_ALL)
    (work / "none").write_text(DROPS_ALL)
    path = work / "live.toml"
    path.write_text("limit = 65536 # of bytes\n" + "".join(f"\n[[channel]]\n{it}\n" for it in channels))
    return path


def settings_of_one(work: Path) -> Path:
    """Settings of channel 1, which keeps all."""
    return write_settings(work, f'id = 1\nfilter = "{work}/all"')


def settings_of(work: Path) -> Path:
    """Settings of channels 1 and 2, which keep all."""
    return write_settings(work, f'id = 1\nfilter = "{work}/all"', f'id = 2\nfilter = "{work}/all"')


def folder_of(work: Path, name: str) -> Path:
    """A folder for one run."""
    made = work / name
    (made / "private").mkdir(parents=True)
    return made


# ---- programs that run


def begin(work: Path, out: object, *options: object, adds: dict | None = None, **more: Any) -> Running:
    """Records both pairs into OUT."""
    ways = more.pop("ways", ["rx0=1", "rx1=2"])
    settings = more.pop("settings", None) or settings_of(work)
    running = Running(work, LIVE, *options, settings, out, *ways, adds={RUN: str(out), **(adds or {})}, **more)
    running.wait_until_told("bpfrec capture: origin")
    return running


def processes_of(out: Path) -> dict[int, str]:
    """The programs that a run left or has running, by their numbers."""
    found = {}
    for entry in Path("/proc").iterdir():
        with contextlib.suppress(OSError):
            if entry.name.isdigit() and f"{RUN}={out}".encode() in (entry / "environ").read_bytes().split(b"\0"):
                found[int(entry.name)] = (entry / "cmdline").read_bytes().replace(b"\0", b" ").decode(errors="replace")
    return found


def process_of(out: Path, program: Path, word: str = "") -> int:
    """The number of the program of a run with this word."""
    found: list[int] = []

    def is_found() -> bool:
        found.extend(pid for pid, words in processes_of(out).items() if runs(pid, program) and word in words)
        return bool(found)

    wait_for(lambda: f"{program.name} {word} runs", is_found)
    return found[0]


def is_recording(out: Path, file: Path) -> bool:
    """Whether the recorder of a run has this file open."""
    return any(has_open(pid, file) for pid in processes_of(out) if runs(pid, BPFREC))


def runs(pid: int, program: Path) -> bool:
    """Whether a process runs this program."""
    try:
        return os.path.samefile(f"/proc/{pid}/exe", program)
    except OSError:
        return False


def has_open(pid: int, file: Path) -> bool:
    try:
        return str(file) in [os.readlink(it) for it in Path(f"/proc/{pid}/fd").iterdir()]
    except OSError:
        return False


def nothing_left(work: Path) -> bool:
    """Whether a run has removed its pipes and its settings."""
    return os.listdir(work / "private") == []


class Traffic(threading.Thread):
    """Sends numbered frames into both pairs until it is ended."""

    def __init__(self, length: int = 60, pause: float = 0.002, many: int = 1) -> None:
        super().__init__(daemon=True)
        self.length, self.pause, self.many = length, pause, many
        self.sent, self.is_ending = 0, False
        self.start()

    def run(self) -> None:
        with socket_into("tx0") as one, socket_into("tx1") as two:
            while not self.is_ending:
                for _ in range(self.many):
                    frame = numbered(self.sent, self.length)
                    one.send(frame)
                    two.send(frame)
                    self.sent += 1
                time.sleep(self.pause)

    def end(self) -> int:
        self.is_ending = True
        self.join()
        return self.sent


# ---- recordings


def extracted(work: Path, recording: Path, channel: int) -> bytes:
    run(BPFREC, "extract", recording, channel, work / "extracted.feed")
    return (work / "extracted.feed").read_bytes()


def recordings(work: Path, name: str) -> list[Path]:
    """The recordings of a name that followed one another."""
    return sorted(work.glob(f"{name}_*.ch11"))


def parts_of(work: Path, name: str, channel: int) -> list[list[Record]]:
    """The records of a channel in each of the recordings that followed one another."""
    return [records(extracted(work, path, channel)) for path in recordings(work, name)]


def judge_parts(what: str, parts: list[list[Record]], wanted: list[int]) -> None:
    """Each frame is in one recording, in order, and the counters go on."""
    counters = [it.counter for part in parts for it in part]
    judge(what, numbers_in(parts) == wanted and counters == sorted(counters))


def is_approved(recording: Path) -> bool:
    done = outcome(BPFREC, "audit", recording)
    return done.returncode == 0 and done.stdout.endswith(YES + "\n")


# ---- facts


def facts_of(out: Path) -> dict:
    """Whenever they are read, they are whole."""
    judge_quietly(f"facts: {out.name}.json is there", Path(f"{out}.json").exists())
    return json.loads(Path(f"{out}.json").read_bytes().decode())


def has_facts(out: Path) -> bool:
    return Path(f"{out}.json").exists() and bool(facts_of(out)["origins"])
