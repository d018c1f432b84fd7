"""A fixed text of the proved program is followed by a line for who reads it: on a terminal, and nowhere else."""

import os
import pty
import subprocess
from pathlib import Path

import pytest
from support import BPFREC, ROOT, judge

pytestmark = pytest.mark.wanted("bin/bpfrec")
OLD = ROOT / "examples" / "old.ch11"


def shown(arguments: list[str]) -> tuple[str, str]:
    """What a command prints on its standard output, a pipe, and on its standard error, a terminal."""
    terminal, slave = pty.openpty()
    printed = subprocess.run([BPFREC, *arguments], stdin=subprocess.DEVNULL, stdout=-1, stderr=slave).stdout.decode()
    os.close(slave)
    told = b""
    try:
        while part := os.read(terminal, 4_096):
            told += part
    except OSError:  # all was read
        pass
    os.close(terminal)
    return printed, told.decode().replace("\r\n", "\n")


@pytest.mark.parametrize(
    ("command", "length", "printed", "told"),
    [
        ("list", 100, "", "read 1 Truncated 60\nbpfrec: the recording ends inside of the packet there: bpfrec salvage"),
        ("audit", 60, "no 5 NoEnd 1\n", "bpfrec: the recording of that channel has no end"),
        ("audit", 0, "yes other 0\n", ""),
    ],
)
def test_a_terminal_is_told_what_an_answer_means(
    work: Path, command: str, length: int, printed: str, told: str
) -> None:
    file = work / "cut.ch11"
    file.write_bytes(OLD.read_bytes()[:length])
    said = shown([command, str(file)])
    judge("what is printed", said[0] == printed, said)
    judge("what is told", said[1].startswith(told) and bool(said[1]) == bool(told), said)
    judge("a line each", said[1].count("\n") == told.count("\n") + bool(told), said)


PCAPNG = b"\n\r\r\n\x1c\0\0\0\x4d\x3c\x2b\x1a"
WORDED = "it can't be opened or written: look at its name and its disk; a filter in words is for bpfrec filter and live"
CHANNEL = '[[channel]]\nid = 1\nfeed = "none"\nfilter = "none"\n'


@pytest.mark.parametrize(
    ("command", "given", "printed", "told"),
    [
        ("list", PCAPNG * 3, "read 2 Sync 0", "no recording begins so: bpfrec filter reads captures"),
        ("audit", b"a text, which is no recording of anything", "read 2 Sync 0", "no recording begins so"),
        ("asm", "udp port 53\n", "asm 3 UnknownMnemonic line 1", "that line begins as no instruction"),
        ("asm", "ldh [12]\njeq #x, none, none\n", "asm 1 Syntax line 2", "that line is no instruction"),
        ("asm", "1,6 0 0 1,\n", "asm 1 Syntax line 1", "that line is no instruction; a listing"),
        ("verify", "ret #0\n", "listing 1 Syntax 0", "a listing is a count, and four numbers for each instruction"),
        ("verify", "2,6 0 0 1,\n", "listing 2 Count 2 1", "the first number says how many instructions follow"),
        ("dis", "1,5 0 0 9,\n", "dis 2 JumpOut 0", "the instruction of that number jumps out of the filter"),
        ("simulate", "nothing\n", "script line 1", "that line is no order of a script"),
    ],
)
def test_a_terminal_is_told_of_a_file(work: Path, command: str, given: "str | bytes", printed: str, told: str) -> None:
    file = work / "given"
    file.write_bytes(given.encode() if isinstance(given, str) else given)
    said = shown([command, str(file)])[1]
    judge("the fixed text, and what it means", said.startswith(f"{printed}\nbpfrec: {told}"), said)
    judge("a line", said.count("\n") == 2, said)


@pytest.mark.parametrize(
    ("settings", "printed", "told"),
    [
        ("x = = 1", "settings 1 Syntax", "it is no TOML: bpfrec preflight SETTINGS names the line"),
        (f'every = "1h"\n{CHANNEL}', "settings 2 Unknown every", "the keys are limit, ring, version"),
        ('[[channel]]\nid = 1\nfilter = "none"\n', "settings 3 Missing feed", "a channel has id, feed and filter"),
        (f"ring = 0\n{CHANNEL}", "settings 4 Value ring", "it is of another type, or out of its range"),
        ("limit = 65536", "settings 5 Channels", "there are 1 to 64 tables [[channel]]"),
        (2 * CHANNEL, "settings 6 SameChannel 1", "each channel has an id of its own"),
        (CHANNEL.replace('"none"', '"udp port 53"'), "file udp port 53", WORDED),
    ],
)
def test_a_terminal_is_told_of_settings(work: Path, settings: str, printed: str, told: str) -> None:
    file = work / "settings.toml"
    file.write_text(settings)
    said = shown(["record", str(file), str(work / "out.ch11")])[1]
    judge("the fixed text, and what it means", said.startswith(f"{printed}\nbpfrec: {told}"), said)
    judge("a line", said.count("\n") == 2, said)


def test_a_filter_in_words_is_no_file() -> None:
    said = shown(["asm", "udp port 53"])[1]
    judge("what takes words", said == f"file udp port 53\nbpfrec: {WORDED}\n", said)


def test_a_terminal_is_told_what_to_look_at(work: Path) -> None:
    printed, told = shown(["list", str(work / "none")])
    judge("the file, and what may be wrong", told.startswith(f"file {work}/none\nbpfrec: it can't be opened"), told)
    judge("nothing is printed", printed == "", printed)


def test_a_pipe_is_told_nothing(work: Path) -> None:
    file = work / "cut.ch11"
    file.write_bytes(OLD.read_bytes()[:100])
    ran = subprocess.run([BPFREC, "list", file], stdout=-1, stderr=-1, text=True)
    judge("the fixed text alone", (ran.stdout, ran.stderr) == ("", "read 1 Truncated 60\n"), ran)
