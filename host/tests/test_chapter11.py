"""Tries bpfrec export: SETUP by facts and by the command line, what is refused, and the program that it runs, which
is played."""

import os
import shutil
import signal
import subprocess
from pathlib import Path
from typing import Any

import pytest
import tomllib
from expected_facts import UNKNOWN_SCALE
from frames import FRAMES, body_of, packet_of
from reading import SAMPLES
from setups import CHAPTER11, setup_by, with_facts
from support import EXPORT, judge, judge_quietly, outcome, program_at

# Plays the program: what it is given, and how it ends.
PLAYED = """
printf '%s\\n' "$@" > "$(dirname "$0")/given"
cat "$3" > "$(dirname "$0")/setup"
echo 'times 1 packets 1 records 3 index 2 bytes 1192'
echo 'played' >&2
eval "$PLAYED"
"""
ANSWER = "times 1 packets 1 records 3 index 2 bytes 1192\n"
ONE: list[tuple] = [("1764590400.250000000", 0, None)]
ORIGIN = ("--origin", "1764590400.25")


@pytest.fixture
def recording(work: Path) -> Path:
    """A recording without facts."""
    return Path(shutil.copy(SAMPLES[1], work / "flight.ch11"))


def by(recording: Path, *words: object, plays: str = "", **more: Any) -> subprocess.CompletedProcess:
    """Runs the tool beside a played program."""
    env = {**os.environ, "BPFREC": str(program_at(recording.with_name("played"), PLAYED)), "PLAYED": plays}
    return outcome(*CHAPTER11, *words, env=env, cwd=recording.parent, **more)


# ---- SETUP


def test_without_facts_the_origin_is_given(recording: Path) -> None:
    for text in ("0", "1764590400", "-1.5", "1764590400.250000123", "999999999999.999999999"):
        judge_quietly(text, setup_by(recording, "--origin", text) == {"origin": text, "channel": [{"id": 1}]})
    for text in ("", "1.", ".5", "1.0000000000", "1000000000000", "+1", "1e3", "now", "2025-12-01T12:00:00Z", "1\n"):
        done = outcome(*CHAPTER11, f"--origin={text}", recording, "out")
        judge_quietly(repr(text), done.returncode == 2 and "is no time in seconds since 1970" in done.stderr, done)


def test_names_are_those_of_the_facts(recording: Path) -> None:
    interfaces = [
        {"interface": "eth1", "channel": 9},
        {"interface": 'wing "left"\\ \u00e9\x7f\ud800', "channel": 1},
        {"interface": "no channel", "channel": 65_536},
        {"interface": 7, "channel": 3},
    ]
    with_facts(recording, ONE, host="b\u00fcch \ud800;", program="bpfrec 0.1.0", interfaces=interfaces)
    found = setup_by(recording)
    judge("the host and the program", (found["host"], found["program"]) == ("b\u00fcch \ufffd;", "bpfrec 0.1.0"), found)
    channels = [{"id": 1, "name": 'wing "left"\\ \u00e9\x7f\ufffd'}]
    judge("the interfaces of its channels", found["channel"] == channels, found["channel"])
    for program in (None, 7, "x" * 256):
        with_facts(recording, ONE, program=program)
        judge_quietly(f"no program: {program!r:.9}", "program" not in setup_by(recording))


def test_network_identifiers_are_those_of_frames(recording: Path) -> None:
    """Of the first frame of each channel, wherever its packet stands; 0 stands where there is none."""
    frames: dict[int, list[tuple[int, int, bytes]]] = {
        3: [(0, 7 << 16, bytes(60)), (1, 8 << 16, bytes(60))],
        5: [(0, 0, bytes(60))],
        8: [],
        65_535: [(9, 0xFF << 16 | 5 << 24, bytes(61))],
    }
    packets = [packet_of(it, body_of(each), 0, FRAMES, 0, it != 5) for it, each in frames.items()]
    other = packet_of(4, b"another's data, of no Ethernet", 0, 0x40, 0, True)
    later = packet_of(3, body_of([(2, 9 << 16, bytes(60))]), 1, FRAMES, 5, True)
    recording.write_bytes(recording.read_bytes() + other + b"".join(packets) + later)
    with_facts(recording, ONE, interfaces=[{"interface": "eth0", "channel": 3}, {"interface": "eth1", "channel": 8}])
    due = [
        {"id": 1},
        {"id": 3, "name": "eth0", "net": 7},
        {"id": 5},
        {"id": 8, "name": "eth1"},
        {"id": 65_535, "net": 255},
    ]
    judge("with facts", setup_by(recording)["channel"] == due, setup_by(recording))
    recording.with_name("flight.ch11.json").unlink()
    due = [{"id": 1}, {"id": 3, "net": 7}, {"id": 5}, {"id": 8}, {"id": 65_535, "net": 255}]
    judge("and without", setup_by(recording, *ORIGIN)["channel"] == due)
    recording.write_bytes(recording.read_bytes()[:-400])
    judge("up to a damaged place", 65_535 not in [it["id"] for it in setup_by(recording, *ORIGIN)["channel"]])


def test_what_the_command_line_says_stands_in_setup(recording: Path) -> None:
    with_facts(recording, ONE)
    words = ["--external", "--attribute", "G\\SC:U", "--attribute", 'P-1\\X:a "b" :c', "--attribute", "G\\SC:"]
    found = setup_by(recording, *words)
    judge("external", found["external"] is True and "external" not in setup_by(recording), found)
    judge("the attributes, in their order", found["attributes"] == ["G\\SC:U", 'P-1\\X:a "b" :c', "G\\SC:"], found)
    keys = ["origins", "host", "program", "external", "attributes", "channel"]
    judge("no other keys", list(found) == keys, list(found))


def test_facts_may_be_another_file(recording: Path) -> None:
    beside = with_facts(recording, ONE, host="one").rename(recording.with_name("facts"))
    judge("another file", setup_by(recording, "--facts", beside)["host"] == "one")
    with_facts(recording, ONE, host="two")
    judge("also where there are others", setup_by(recording, "--facts", beside)["host"] == "one")
    done = by(recording, "--print-setup", "--facts", "-", recording, stdin=open(beside))
    judge("standard input", tomllib.loads(done.stdout)["host"] == "one", done)


# ---- what is refused


def refused(recording: Path, status: int, line: str, *words: object) -> None:
    """Judges that words are refused with this line, and the program isn't run."""
    done = by(recording, *words)
    judge_quietly(f"{words}", (done.returncode, done.stdout, done.stderr) == (status, "", line), done)
    judge_quietly("the program isn't run", not recording.with_name("given").exists())


def test_arguments_that_make_no_setup_are_refused(recording: Path) -> None:
    where = "no facts beside it: --facts or --origin says when it was recorded"
    refused(recording, 2, f"bpfrec export: flight.ch11: {where}\n", "flight.ch11", "out")
    twice = "bpfrec export: -: it is standard input, and a whole file is made by reading twice\n"
    refused(recording, 2, twice, *ORIGIN, "-", "out")
    with_facts(recording, ONE)
    both = "bpfrec export: flight.ch11.json has the origins, and --origin is for a recording without facts\n"
    refused(recording, 2, both, *ORIGIN, "flight.ch11", "out")
    arguments: list[list[object]] = [
        [recording],
        ["--facts", "x", *ORIGIN, recording, "out"],
        ["--utc", "--tai", "37", recording, "out"],
        ["--tai", "256", recording, "out"],
        ["--tai", "-1", recording, "out"],
        *(["--attribute", it, recording, "out"] for it in ("G\\SC", ":U", "a:b;", "a:\u00e9", "a:b\n", "\u00e9:b", "")),
    ]
    for words in arguments:
        done = by(recording, *words)
        judge_quietly(f"{words}", done.returncode == 2 and done.stderr.startswith("usage: bpfrec export "), done)


OF_A_WHOLE_FILE = ["--facts=x", "=".join(ORIGIN), "--utc", "--tai=0", "--external", "--attribute=P:1", "--gaps"]


@pytest.mark.parametrize("word", [*OF_A_WHOLE_FILE, "--from=0.01", "--to=0.01", "--channel=1"])
def test_an_option_of_what_out_does_not_become_is_refused(work: Path, word: str) -> None:
    """With what to do instead."""
    option = {"--utc": "--utc and --tai", "--tai": "--utc and --tai"}.get(word.split("=")[0], word.split("=")[0])
    whole, slices = "a whole Chapter 11 file", ", which has all: a slice is OUT.pcapng"
    is_whole = word in OF_A_WHOLE_FILE
    done = outcome(EXPORT, word, "flight.ch11", f"flight.{'pcapng' if is_whole else 'ch10'}", cwd=work)
    what = f"{whole}, and OUT is a capture" if is_whole else f"a capture, and OUT is {whole}{slices}"
    line = f"bpfrec export: error: {option} is for {what}\n"
    judge(word, done.returncode == 2 and done.stderr.endswith(line) and not done.stdout, done)


def test_facts_that_say_no_times_are_refused(recording: Path) -> None:
    beside = with_facts(recording, UNKNOWN_SCALE)
    scale = "its scale is unknown: --utc says that it is UTC, and --tai 37 that it is 37 s ahead"
    line = f"bpfrec export: flight.ch11.json: the origin from counter 0 on: {scale}\n"
    refused(recording, 1, line, "flight.ch11", "out")
    beside.write_text("{}")
    refused(
        recording, 1, "bpfrec export: flight.ch11.json: no facts of a recording: facts isn't 1\n", "flight.ch11", "out"
    )
    beside.unlink()
    beside.mkdir()
    refused(recording, 3, "bpfrec export: flight.ch11.json: Is a directory\n", "flight.ch11", "out")
    refused(recording, 3, "bpfrec export: none: No such file or directory\n", "--facts", "none", "flight.ch11", "out")


def test_recordings_that_are_no_files_are_refused(recording: Path) -> None:
    refused(recording, 3, "bpfrec export: none: No such file or directory\n", *ORIGIN, "none", "out")
    refused(recording, 3, "bpfrec export: .: Is a directory\n", *ORIGIN, ".", "out")
    # It waits for no writer.
    os.mkfifo(recording.with_name("pipe"))
    refused(
        recording, 3, "bpfrec export: pipe: it is no regular file, which could be read twice\n", *ORIGIN, "pipe", "out"
    )


def test_an_output_that_is_an_input_is_refused(recording: Path) -> None:
    beside = with_facts(recording, ONE)
    recording.with_name("link").hardlink_to(recording)
    recording.with_name("other").symlink_to(beside)
    for out, taken in (
        ("flight.ch11", "flight.ch11"),
        ("link", "flight.ch11"),
        ("flight.ch11.json", "flight.ch11.json"),
        ("other", "flight.ch11.json"),
    ):
        refused(recording, 3, f"bpfrec export: {out}: it is {taken} itself\n", "flight.ch11", out)
    for path in (recording, beside):
        before = path.read_bytes()
        with open(path, "ab") as stream:
            done = by(recording, "--print-setup", "flight.ch11", stdout=stream, stderr=subprocess.PIPE)
        line = f"bpfrec export: -: it is {path.name} itself\n"
        judge_quietly("standard output", (done.returncode, done.stderr) == (3, line), done)
        judge_quietly("the input stays", path.read_bytes() == before)


def test_an_out_that_has_bytes_is_refused_without_force(recording: Path) -> None:
    """An empty one isn't, nor a device."""
    with_facts(recording, ONE)
    out = recording.with_name("out")
    out.write_text("another's")
    refused(recording, 3, "bpfrec export: out is there: give it another name, or --force\n", "flight.ch11", "out")
    judge("it stays", out.read_text() == "another's")
    judge("options stand anywhere", by(recording, "flight.ch11", "--force", "out").stdout == ANSWER)
    judge("with --force it is the program's", by(recording, "--force", "flight.ch11", "out").stdout == ANSWER)
    out.write_text("")
    for path in ("out", "/dev/null"):
        judge(path, by(recording, "flight.ch11", path).stdout == ANSWER)


# ---- the program


def test_the_program_is_given_the_recording_setup_and_out(recording: Path) -> None:
    with_facts(recording, ONE)
    before = {it.name for it in recording.parent.iterdir()}
    done = by(recording, "flight.ch11", "out.ch10")
    judge("its lines", (done.returncode, done.stdout, done.stderr) == (0, ANSWER, "played\n"), done)
    given = recording.with_name("given").read_text().split("\n")
    judge("its operands", given[:2] + given[3:] == ["chapter11", "flight.ch11", "out.ch10", ""], given)
    setup = recording.with_name("setup").read_text()
    judge("SETUP is what is printed", setup == by(recording, "--print-setup", "flight.ch11").stdout, setup)
    names = {it.name for it in recording.parent.iterdir()}
    judge("no other file is made", names == before | {"given", "played", "setup"}, names)


def test_names_that_look_like_options_are_operands(recording: Path) -> None:
    recording.rename(recording.with_name("-r"))
    done = by(recording, *ORIGIN, "--", "-r", "-o")
    given = recording.with_name("given").read_text().split("\n")
    judge("as paths", done.returncode == 0 and (given[1], given[3]) == ("./-r", "./-o"), (done, given))


@pytest.mark.parametrize("status", [0, 1, 2, 3, 4])
def test_the_status_is_the_programs(recording: Path, status: int) -> None:
    done = by(recording, *ORIGIN, recording, "out", plays=f"exit {status}")
    judge("its status", (done.returncode, done.stdout, done.stderr) == (status, ANSWER, "played\n"), done)


def test_a_program_that_is_missing_is_said(recording: Path) -> None:
    done = outcome(*CHAPTER11, *ORIGIN, recording, "out", env={**os.environ, "BPFREC": "/none/bpfrec"})
    judge("missing", (done.returncode, done.stderr) == (3, "bpfrec export: /none/bpfrec is missing\n"), done)


@pytest.mark.parametrize("number", [signal.SIGINT, signal.SIGTERM, signal.SIGKILL], ids=lambda it: it.name)
def test_what_ends_it_ends_the_program(recording: Path, number: signal.Signals) -> None:
    """A signal to the tool alone, as `live` sends it."""
    played = program_at(recording.with_name("slow"), "echo begun\nexec sleep 60")
    words = [str(it) for it in (*CHAPTER11, *ORIGIN, recording, "out")]
    env = {**os.environ, "BPFREC": str(played)}
    with subprocess.Popen(words, env=env, stdout=subprocess.PIPE, text=True) as running:
        assert running.stdout
        running.stdout.readline()
        running.send_signal(number)
        # The end of its output is that of the program too.
        rest = running.communicate(timeout=10)[0]
    judge(f"{number.name}", (running.returncode, rest) == (-number, ""), running.returncode)


def test_an_output_whose_reader_has_left_is_said(recording: Path) -> None:
    """By the program, which no SIGPIPE ends."""
    plays = "trap 'echo killed >&2' PIPE; sleep 0.2; echo more || echo broken >&2; exit 3"
    script = f"{EXPORT} --as=chapter11 --origin 0 flight.ch11 out | :"
    played = program_at(recording.with_name("played"), PLAYED.replace("echo 'times", "true 'times"))
    done = outcome("sh", "-c", script, env={**os.environ, "BPFREC": str(played), "PLAYED": plays}, cwd=recording.parent)
    judge("it is told of a failed write", "broken" in done.stderr and "killed" not in done.stderr, done)


def test_an_out_that_is_a_recording_or_a_folder_is_refused(recording: Path) -> None:
    """With --force too, as where OUT was forgotten."""
    with_facts(recording, ONE)
    other = Path(shutil.copy(recording, recording.with_name("wing.ch11")))
    with_facts(other, ONE)
    line = "bpfrec export: wing.ch11 is a recording, with its facts beside it: give OUT another name\n"
    refused(recording, 3, line, "--force", "flight.ch11", "wing.ch11")
    judge("it stays", other.read_bytes() == recording.read_bytes())
    (recording.parent / "folder").mkdir()
    refused(recording, 3, "bpfrec export: folder: it is a folder\n", "--force", "flight.ch11", "folder")
