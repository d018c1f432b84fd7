"""Tries lines in words: which there are, what is a filter in words, and when a run ends that was given a time."""

import subprocess
from collections.abc import Callable, Sequence
from pathlib import Path
from typing import cast

import pytest
from bpfrec_tools.live.arguments import read
from bpfrec_tools.live.control.changes import Changes, Held
from bpfrec_tools.live.control.made_filters import MadeFilter, make
from bpfrec_tools.live.control.words import Word, word_of
from bpfrec_tools.live.kept.names import Refusal
from bpfrec_tools.live.parts import expressions
from bpfrec_tools.live.parts.children import Manner, start
from bpfrec_tools.live.parts.expressions import ALL, ALL_FRAMES, arguments_for, fault_of, is_in_words
from bpfrec_tools.live.parts.folder import Folder, made_settings
from bpfrec_tools.live.parts.recorder import Recorder
from bpfrec_tools.live.run.end_of_run import EndOfRun
from support import judge, judge_same, program_at, wait_for

KEEPS = "1,6 0 0 1,"
# A recording of which nothing is asked.
ANY = cast(Recorder, None)


WORDS = {b"stop": Word.STOP, b" next \r": Word.NEXT, b"help": Word.HELP}


@pytest.mark.parametrize("line", [*WORDS, b"stop it", b"STOP", b"", b"\xff", b"set 1 stop"])
def test_a_line_is_a_word_alone(line: bytes) -> None:
    judge(repr(line), word_of(line) is WORDS.get(line))


def test_a_filter_is_in_words_where_it_is_no_listing_and_no_file_that_is_missing(
    work: Path, monkeypatch: pytest.MonkeyPatch
) -> None:
    monkeypatch.chdir(work)
    (work / "listing").write_text(f" \n{KEEPS}")
    (work / "text.bpf").write_text("; all\nret #1\n")
    (work / "folder").mkdir()
    for text in ("text.bpf", f"{work}/text.bpf", "udp port 5004", "net 10.0.0.0/8", "arp", "all"):
        judge(text, is_in_words(text))
    for text in ("listing", "folder", "missing.txt", "missing.bpf", "some/where"):
        judge(text, not is_in_words(text))
    judge("a text is assembled", arguments_for("text.bpf", "bpfrec") == ["bpfrec", "asm", "./text.bpf"])
    judge("all frames need none", arguments_for("all", "bpfrec") == arguments_for("", "") == ["echo", ALL_FRAMES])
    words = arguments_for("arp", "bpfrec") or []
    judge("of an expression tcpdump makes one", words[-4:] == ["EN10MB", "-ddd", "--", "arp"], words)
    monkeypatch.setenv("PATH", "")
    judge("where it is there", arguments_for("arp", "bpfrec") is None)


class Starter:
    """Starts nothing, and ends it when it is told."""

    def __init__(self) -> None:
        self.ended: list[Callable[[int], None]] = []

    def __call__(self, _: Sequence[str], out: Path, errors: Path, ended: Callable[[int], None]) -> None:
        out.write_text(KEEPS)
        errors.write_text("tcpdump: a warning\ntcpdump: syntax error\n")
        self.ended.append(ended)


def test_a_filter_that_is_made_waits_for_its_program(work: Path) -> None:
    """With the last line of its errors where it can't be made, and nothing left of it."""
    starter = Starter()
    good, bad = (make("arp", work / name, "bpfrec", starter) for name in ("good", "bad"))
    judge("it waits", not good.has_ended)
    starter.ended[0](0)
    starter.ended[1](1)
    judge("one is there", good.has_ended and good.fault is None and good.listing.read_text() == KEEPS)
    judge("one isn't", bad.fault == "tcpdump: syntax error" and not bad.listing.exists(), bad.fault)
    judge("nothing else is left", sorted(it.name for it in work.iterdir() if it.name in ("good", "bad")) == ["good"])

    def fails(*_: object) -> None:
        raise OSError(11, "Resource temporarily unavailable")

    refused = make("arp", work / "none", "bpfrec", fails)
    judge("a program that can't be started", refused.fault == "Resource temporarily unavailable")


@pytest.fixture
def folder(work: Path, monkeypatch: pytest.MonkeyPatch) -> Folder:
    """The private folder of a run that keeps filters."""
    monkeypatch.setenv("TMPDIR", str(work))
    given = read(["--every", "5", "out.ch11", "rx0"])
    made = Folder(*made_settings(given.routes), given)
    made.make_all()
    return made


@pytest.mark.parametrize("keeps", [True, False])
def test_lines_wait_with_what_the_recorder_gets_of_them(folder: Folder, keeps: bool) -> None:
    asked: list[str] = []

    def make_filter(text: str, listing: Path) -> MadeFilter:
        asked.append(text)
        return MadeFilter(listing)

    changes = Changes(folder, keeps, make_filter)
    held = changes.held(b"set 1 udp port 5004")
    made = held.made
    assert made
    judge("an expression is made first", asked == ["udp port 5004"] and not held.is_ready() and held.fault() is None)
    made.listing.write_text(KEEPS)
    made.end(["tcpdump"], 0)
    line, change = held.asked()
    judge("then its listing is handed on", line == f"set 1 {made.listing}".encode() and held.is_ready())
    changes.answered(change, True, folder.top)
    is_kept = folder.kept_filter(1).exists() and folder.kept_filter(1).read_text() == KEEPS
    judge("it is kept for later recordings, or goes", is_kept == keeps and not made.listing.exists())
    judge("with its words", folder.kept_words(1) == ("udp port 5004" if keeps else None))
    wrong = changes.held(b"set 1 udp prt 5004")
    assert wrong.made
    wrong.made.refuse("syntax error")
    judge("a fault has the line", wrong.fault() == "bpfrec live: set 1 udp prt 5004: syntax error", wrong.fault())
    other = changes.held(b"nonsense")
    judge("another line goes as it is", other.asked()[0] == b"nonsense" and other.is_ready() and other.word is None)
    judge("a word is one", Held(b"stop").word is Word.STOP)


NEEDS = "it needs a channel and a filter, as set 7 udp port 5004"


@pytest.mark.parametrize(
    "line, why",
    [
        ('set "bus B" arp', None),
        ('set "bus B" ""', None),
        ('set 1 ""', None),
        ('set "bus B"', NEEDS),
        ('set "bus B" ', NEEDS),
        ("set 1 ", NEEDS),
        ('set "bus C" arp', "no channel bus C: 1"),
        ('set "bus C"', "no channel bus C: 1"),
        ("set 2 arp", "no channel 2: 1"),
    ],
)
def test_why_a_line_is_refused(folder: Folder, line: str, why: str | None) -> None:
    folder.names = {1: "bus B"}
    judge_same(line, Changes(folder, True, lambda _, listing: MadeFilter(listing)).why_refused(line.encode()), why)


def test_what_the_recorder_refuses_of_a_file_is_said(folder: Folder) -> None:
    """Behind its answer; of a filter in words it says all itself."""
    (folder.top / "bad.txt").write_text("2,21 9 0 1,6 0 0 1,")
    changes = Changes(folder, True, lambda _, listing: MadeFilter(listing))
    top = folder.top
    for text, word, why in [
        (f"{top}/no", "File", f": {top}/no: no such file"),
        ("/", "File", ": /: it is a directory"),
        (f"{top}/bad.txt", "File", f": {top}/bad.txt is no listing: bpfrec asm makes one"),
        (f"{top}/bad.txt", "Listing", f": {top}/bad.txt is no listing: bpfrec asm makes one"),
        (f"{top}/bad.txt", "Program", f": bpfrec verify {top}/bad.txt says why"),
        (f"{top}/bad.txt", "VersionsFull", ""),
        ("arp", "Program", ""),
    ]:
        found = changes.held(f"set 1 {text}".encode()).change.why_refused(f"refused 1 {word}")
        judge(f"{text}: {word}", found == why, found)


def test_an_empty_filter_in_quotes_is_that_of_all_frames(folder: Folder) -> None:
    held = Changes(folder, True, lambda _, listing: MadeFilter(listing)).held(b'set 1 ""')
    judge("it is made of no words", held.made and (held.change.words, held.change.name) == ("", ALL), held.change)


def test_a_run_ends_once_after_its_time_from_the_first_recording_on() -> None:
    ended: list[int] = []
    end = EndOfRun(3, lambda: ended.append(1))
    judge("not before a recording has begun", end.deadline() is None)
    end.begun(ANY)
    moment = end.deadline()
    assert moment is not None
    end.begun(ANY)
    judge("from the first one on", end.deadline() == moment)
    end.tick(moment - 0.1)
    judge("not before", ended == [])
    end.tick(moment)
    end.tick(moment + 9)
    judge("once", ended == [1] and end.deadline() is None)
    forever = EndOfRun(None, lambda: ended.append(2))
    forever.begun(ANY)
    judge("never without a time", forever.deadline() is None)


SECONDS = {"90": 90, "10m": 600, "10min": 600, "1h30min": 5_400, "1h30m": 5_400, "1d2h3m4s": 93_784}


@pytest.mark.parametrize("word", [*SECONDS, "1h30", "1s1m", "1m1m", "m", "01m", "1x"])
def test_a_time_has_units(word: str) -> None:
    try:
        found = read(["--for", word, "out.ch11", "rx0"]).seconds
    except Refusal:
        found = None
    judge(word, found == SECONDS.get(word), found)


def tcpdump(work: Path) -> Path:
    """A folder with a program that stands for tcpdump."""
    (work / "bin").mkdir()
    refuses = 'if [ "$5" = "bad one" ]; then echo "tcpdump: syntax error" >&2; exit 1; fi'
    program_at(work / "bin/tcpdump", f'{refuses}\necho "made of $5"')
    return work / "bin"


def test_an_expression_that_takes_too_long_is_given_up(work: Path, monkeypatch: pytest.MonkeyPatch) -> None:
    """As live starts its programs, with signals blocked."""
    folder = work / "slow"
    folder.mkdir()
    program_at(folder / "tcpdump", "exec sleep 50")
    monkeypatch.setenv("PATH", f"{folder}:/usr/bin:/bin")
    monkeypatch.setattr(expressions, "PATIENCE", 1)
    arguments = arguments_for("host far.away", "bpfrec") or []
    child = start(arguments, (subprocess.DEVNULL, None, None), Manner())
    wait_for("it ends", lambda: child.status() is not None, 20)
    fault = fault_of(arguments, child.status() or 0, b"")
    judge("by its program and its status", fault == "tcpdump ended with status 137", fault)
    child.close()
