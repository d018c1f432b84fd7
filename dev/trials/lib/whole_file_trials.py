"""Whole Chapter 11 files by `bpfrec chapter11`, beside those of the second writers (whole_file.py, joined_file.py)."""

import json
import subprocess
from collections.abc import Callable
from pathlib import Path
from typing import Any

from joined_file import Table, joined_file
from second_opinion import opinion_at
from support import BPFREC, judge_quietly, outcome
from whole_file import File, Refused, Setup, whole_file

NANOSECONDS = 10**9
# How long a command may take that reads many recordings.
PATIENCE = 120


def seconds_of(nanoseconds: int) -> str:
    """An origin as SETUP has it."""
    whole, rest = divmod(abs(nanoseconds), NANOSECONDS)
    return f"{'-' if nanoseconds < 0 else ''}{whole}.{rest:09}"


def table_of(setup: Setup) -> Table:
    """SETUP's data."""
    return {
        "origins": [{"counter": it.counter, "origin": seconds_of(it.nanoseconds)} for it in setup.origins],
        "host": setup.host,
        "program": setup.program,
        "external": setup.is_external,
        "attributes": list(setup.attributes),
        "channel": [{"id": channel, "name": name, "net": net} for channel, (name, net) in setup.channels.items()],
    }


def toml_of(value: Any) -> str:
    """A value as TOML has it in a line."""
    if isinstance(value, dict):
        return "{ " + ", ".join(f"{key} = {toml_of(it)}" for key, it in value.items()) + " }"
    if isinstance(value, list):
        return f"[{', '.join(map(toml_of, value))}]"
    return json.dumps(value)


def text_of(setup: Table) -> str:
    """SETUP of such data, with what tables hold in sections."""
    lines = [f"{key} = {toml_of(it)}" for key, it in setup.items() if key not in ("recording", "channel")]
    for name in ("recording", "channel"):
        for table in setup.get(name, []):
            lines += [f"[[{name}]]", *(f"{key} = {toml_of(it)}" for key, it in table.items())]
    return "".join(f"{it}\n" for it in lines)


def setup_text(setup: Setup) -> str:
    """SETUP that says this."""
    return text_of(table_of(setup))


def write_inputs(work: Path, recordings: list[bytes], setup: str) -> list[Path]:
    """The recordings and SETUP as files."""
    files = [work / f"flight{place}.ch11" for place in range(len(recordings))]
    for file, data in zip(files, recordings):
        file.write_bytes(data)
    settings = work / "flight.toml"
    settings.write_text(setup)
    return [*files, settings]


def chapter11(work: Path, recordings: list[bytes], setup: str, **more: Any) -> subprocess.CompletedProcess:
    """How the command ends, which writes flight.ch10."""
    out = work / "flight.ch10"
    out.unlink(missing_ok=True)
    return outcome(BPFREC, "chapter11", *write_inputs(work, recordings, setup), out, seconds=PATIENCE, **more)


def judge_file(work: Path, what: str, data: bytes, setup: Setup) -> str:
    """The command writes what the second writer writes, or refuses what that refuses: the line that it prints."""
    return judge_same(work, what, chapter11(work, [data], setup_text(setup)), lambda: whole_file(data, setup))


def judge_joined(work: Path, what: str, recordings: list[bytes], setup: Table) -> str:
    """The same of several recordings, or of one by a table of its own."""
    done = chapter11(work, recordings, text_of(setup))
    return judge_same(work, what, done, lambda: joined_file(recordings, setup), "recording" in setup)


def judge_same(
    work: Path, what: str, done: subprocess.CompletedProcess, wanted: Callable[[], File], has_recording: bool = False
) -> str:
    """What was done is as it is wanted: the line that was printed. A refusal may have the place of its recording."""
    out, found = work / "flight.ch10", (done.returncode, done.stdout, done.stderr)
    try:
        file = wanted()
    except Refused as fault:
        line = f"{fault} {fault.of}" if has_recording else str(fault)
        judge_quietly(what, found == (1, f"{line}\n", ""), (line, found))
        judge_quietly(f"{what}: no OUT", not out.exists())
        return line
    judge_quietly(what, found == (0, f"{file.line()}\n", ""), (file.line(), found))
    judge_quietly(f"{what}: its bytes", out.read_bytes() == bytes(file.data))
    return file.line()


def judge_made(work: Path, what: str, recordings: list[bytes], setup: Table) -> str:
    """The file is that of the second writer, and right for the reader of such files: the line that was printed."""
    line = judge_joined(work, what, recordings, setup)
    judge_quietly(f"{what}: not refused", line.startswith("times "), line)
    opinion = opinion_at(work / "flight.ch10")
    judge_quietly(f"{what}: by a second opinion", opinion.is_right, opinion.lines[:3])
    return line
