"""Tries each command with each form of its input and of its OUT, which answer alike, and with streams that fail."""

import os
import subprocess
import threading
from pathlib import Path
from typing import NamedTuple

import pytest
from recorder import RECORDINGS, make_feed, write_settings
from support import BPFREC, ROOT, judge, judge_quietly, present

pytestmark = pytest.mark.wanted("bin/bpfrec")
DATA = ROOT / "crates/test_cases/data"
WHOLE, CUT = RECORDINGS / "two_versions.ch11", RECORDINGS / "cut_to_210.ch11"
OLDER = b"older and longer " * 1_000
# Stand for the input and for OUT in a command's arguments.
INPUT, OUT = "INPUT", "OUT"
# The commands that read a recording: with OUT, and with standard output alone.
MAKING = ("extract INPUT 1 OUT", "upgrade INPUT OUT", "export INPUT OUT", "export INPUT OUT 1764590400")
PRINTING = ("list INPUT", "audit INPUT", "export INPUT -", "export INPUT - 1764590400")
# Each command, with what its input has; that of `chapter11` and of `record` is a file alone.
COMMANDS = {
    "asm INPUT": DATA / "filters/arp.bpf",
    "dis INPUT": DATA / "arp",
    "verify INPUT": DATA / "arp",
    "run INPUT ffffffffffff0200000000010806": DATA / "arp",
    "simulate INPUT": DATA / "scripts/changed_filter.script",
    **{command: WHOLE for command in (*MAKING, *PRINTING)},
}
OF_FILES = {"chapter11 INPUT setup.toml OUT": WHOLE, "record INPUT OUT": Path("settings.toml")}
REFUSED = {
    "asm INPUT": DATA / "arp",
    "dis INPUT": DATA / "wrong_count",
    "verify INPUT": DATA / "unset_scratch",
    "run INPUT ff": DATA / "unset_scratch",
    "simulate INPUT": DATA / "arp",
    **{command: CUT for command in (*MAKING, *PRINTING)},
}


class Answer(NamedTuple):
    """What a run answers: its status, what it prints on both outputs, and what OUT has then; None where it isn't there."""

    status: int
    printed: bytes
    faults: bytes
    made: bytes | None


@pytest.fixture(autouse=True)
def folder(work: Path, monkeypatch: pytest.MonkeyPatch) -> None:
    """What arguments name beside INPUT and OUT."""
    monkeypatch.chdir(work)
    make_feed(work / "own.feed", 10)
    write_settings(work, ["own.feed"], ["all"])
    Path("setup.toml").write_text('origin = "1764590400"\n')


def answer(command: str, given: str, out: str, stdin: int = subprocess.DEVNULL) -> Answer:
    """What a command answers whose input and OUT have these names."""
    words = [{INPUT: given, OUT: out}.get(word, word) for word in command.split()]
    done = subprocess.run([str(BPFREC), *words], stdin=stdin, capture_output=True, timeout=30, check=False)
    faults = done.stderr.replace(out.encode(), OUT.encode())
    is_file = not out.startswith("/dev/") and os.path.isfile(out)
    return Answer(done.returncode, done.stdout, faults, Path(out).read_bytes() if is_file else None)


def by_name(command: str, given: Path) -> Answer:
    """What it answers by names, where OUT is new."""
    return answer(command, str(given), "new")


def piped_in(command: str, given: Path, name: str) -> Answer:
    """What it answers of a pipe with this name."""
    with subprocess.Popen(["cat", str(given)], stdout=subprocess.PIPE) as cat:
        return answer(command, name, "out", present(cat.stdout).fileno())


def linked(command: str, given: Path) -> Answer:
    """What it answers of a link to its input."""
    Path("link").symlink_to(given.absolute())
    return answer(command, "link", "out")


def judge_inputs(command: str, given: Path) -> None:
    """Judges that each form of the input is answered as its name is."""
    wanted = by_name(command, given)
    for name in ("-", "/dev/stdin"):
        judge_quietly(f"a pipe as {name}", piped_in(command, given, name) == wanted, command)
        Path("out").unlink(missing_ok=True)
        with open(given, "rb") as stream:
            found = answer(command, name, "out", stream.fileno())
        judge_quietly(f"a file as {name}", found == wanted, (command, found, wanted))
        Path("out").unlink(missing_ok=True)
    judge(f"{command}: by name, by link and as standard input", linked(command, given) == wanted, command)


@pytest.mark.parametrize("command", COMMANDS)
def test_each_form_of_an_input_is_answered_alike(command: str) -> None:
    judge("it answers", by_name(command, COMMANDS[command]).status == 0)
    Path("new").unlink(missing_ok=True)
    judge_inputs(command, COMMANDS[command])


@pytest.mark.parametrize("command", REFUSED)
def test_each_form_of_an_input_is_refused_alike(command: str) -> None:
    judge("it refuses", by_name(command, REFUSED[command]).status == 1)
    Path("new").unlink(missing_ok=True)
    judge_inputs(command, REFUSED[command])


@pytest.mark.parametrize("command", OF_FILES)
def test_an_input_that_is_a_file_alone_is_known_by_a_link_too(command: str) -> None:
    judge_quietly(command, linked(command, OF_FILES[command]) == by_name(command, OF_FILES[command]))
    refused = answer(command, "-", "absent")
    judge("as - it is refused", refused.status in (2, 3) and refused.made is None and not refused.printed, refused)


# ---- OUT


def piped_out(command: str, given: Path) -> Answer:
    """What it answers where OUT is a pipe with a name."""
    os.mkfifo("pipe")
    read: list[bytes] = []
    reader = threading.Thread(target=lambda: read.append(Path("pipe").read_bytes()))
    reader.start()
    found = answer(command, str(given), "pipe")
    reader.join(30)
    return found._replace(made=read[0])


@pytest.mark.parametrize("command", [*MAKING, *OF_FILES])
def test_each_form_of_out_gets_the_same(command: str) -> None:
    given = {**COMMANDS, **OF_FILES}[command]
    wanted = by_name(command, given)
    made = present(wanted.made)
    judge_quietly("it answers", wanted.status == 0 and made, wanted)
    Path("there").write_bytes(OLDER)
    judge_quietly("one that was longer", answer(command, str(given), "there") == wanted, command)
    Path("away").symlink_to("elsewhere")
    Path("elsewhere").write_bytes(OLDER)
    judge_quietly("a link", answer(command, str(given), "away") == wanted and Path("away").is_symlink(), command)
    judge_quietly("a pipe", piped_out(command, given) == wanted, command)
    # What is printed stands behind what was made, on one stream.
    streamed = answer(command, str(given), "/dev/stdout")
    judge_quietly("standard output", streamed == wanted._replace(printed=made + wanted.printed, made=None), streamed)
    kept = answer(command, str(given), "/dev/null")
    judge(f"{command}: each OUT", kept == wanted._replace(made=None), kept)


@pytest.mark.parametrize("command", MAKING)
def test_what_a_refused_recording_leaves_of_each_out(command: str) -> None:
    """`export` has written what stands ahead of the fault; the others touch no OUT."""
    wanted = by_name(command, CUT)
    is_export = command.startswith("export")
    judge_quietly("a new one", (wanted.made is not None) == is_export, wanted)
    Path("there").write_bytes(OLDER)
    found = answer(command, str(CUT), "there")
    judge_quietly("one that is there", found == wanted._replace(made=wanted.made or OLDER), found)
    streamed = answer(command, str(CUT), "/dev/stdout")
    judge_quietly("a stream", streamed == wanted._replace(printed=wanted.made or b"", made=None), streamed)
    full = answer(command, str(CUT), "/dev/full")
    wanted_full = Answer(3, b"", b"file OUT\n", None) if is_export else wanted
    judge(f"{command}: each OUT", full == wanted_full, full)


@pytest.mark.parametrize("words", [["-1"], ["9223372036854775808"], ["1.5"], [""], ["0x1"], ["1", "2"]])
@pytest.mark.parametrize("out", ["out", "-"])
def test_an_origin_that_is_none_is_an_argument_that_is_wrong(out: str, words: list[str]) -> None:
    done = subprocess.run([str(BPFREC), "export", str(WHOLE), out, *words], capture_output=True, check=False)
    is_refused = (done.returncode, done.stdout) == (2, b"") and b"error: " in done.stderr
    judge(f"{words}", is_refused and not Path("out").exists(), done)


@pytest.mark.parametrize("origin", ["0", "1", "1764590400", "9223372036854775807"])
def test_an_export_to_standard_output_has_its_origin(origin: str) -> None:
    named = answer(f"export INPUT OUT {origin}", str(WHOLE), "named")
    streamed = answer(f"export INPUT - {origin}", str(WHOLE), "named")
    plain = answer("export INPUT -", str(WHOLE), "named")
    judge_quietly("the same bytes", streamed.printed == named.made, origin)
    judge("others than without one", streamed.printed != plain.printed, origin)


# ---- streams that fail


def streamed(command: str, given: Path, streams: str) -> Answer:
    """What a command answers by names, with some streams of its own."""
    words = " ".join({INPUT: str(given), OUT: "out"}.get(word, word) for word in command.split())
    done = subprocess.run(["sh", "-c", f"{BPFREC} {words} {streams}"], capture_output=True, timeout=30, check=False)
    made = Path("out").read_bytes() if os.path.isfile("out") else None
    return Answer(done.returncode, done.stdout, done.stderr.replace(b"out\n", b"OUT\n"), made)


# What prints where all is well, the help of some, and what prints of a refusal, as an export what stands ahead of a fault.
ENDINGS = [
    *{**COMMANDS, **OF_FILES, **dict.fromkeys(("version", "help", "list --help"), WHOLE)}.items(),
    *REFUSED.items(),
]


@pytest.mark.parametrize("stream", ["> /dev/full", ">&-"], ids=["full", "closed"])
@pytest.mark.parametrize("command, given", ENDINGS)
def test_an_output_that_fails_is_status_3(command: str, given: Path, stream: str) -> None:
    """Where there is something to print; OUT was made by then."""
    wanted, found = by_name(command, given), streamed(command, given, stream)
    fails = wanted._replace(status=3, printed=b"", faults=b"file -\n") if wanted.printed else wanted
    judge(f"{command} {stream}", found == fails, found)


@pytest.mark.parametrize("stream", ["2> /dev/full", "2>&-"], ids=["full", "closed"])
@pytest.mark.parametrize("command", REFUSED)
def test_faults_that_nobody_can_read_change_no_answer(command: str, stream: str) -> None:
    wanted, found = by_name(command, REFUSED[command]), streamed(command, REFUSED[command], stream)
    judge(f"{command} {stream}", found == wanted._replace(faults=b""), found)
