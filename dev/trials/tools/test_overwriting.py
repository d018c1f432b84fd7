"""Tries that no tool overwrites what is there unasked, and never what it reads, also as its standard output."""

import os
import shutil
import subprocess
from pathlib import Path

import pytest
from reading import SAMPLES
from recorder import make_feed
from sample_feeds import capture_of
from support import CHECK, EXPORT, INFO, SALVAGE, TOOLS, judge, outcome, run

pytestmark = pytest.mark.wanted("bin/bpfrec")
MAKING = ("salvage", "pcapng", "filter")


def words_of(work: Path, tool: str, out: object, *options: str) -> list:
    """The words of a tool that makes OUT."""
    recording, capture = work / "own.ch11", work / "own.pcap"
    shutil.copy(SAMPLES[1], recording)
    capture_of(make_feed(work / "own.feed", 10), capture)
    return {
        "salvage": [SALVAGE, *options, recording, out],
        "pcapng": [EXPORT, "--as=pcapng", *options, recording, out],
        "filter": [TOOLS / "filter", "arp", *options, capture, out],
    }[tool]


def name_of(tool: str) -> str:
    return f"bpfrec {'export' if tool == 'pcapng' else tool}"


@pytest.mark.parametrize("tool", MAKING)
def test_an_out_that_exists_is_refused_without_force(work: Path, tool: str) -> None:
    out = work / "out"
    out.write_text("another's")
    done = outcome(*words_of(work, tool, out))
    told = f"{name_of(tool)}: {out} is there: give it another name, or --force\n"
    judge("refused", (done.returncode, done.stderr, out.read_text()) == (3, told, "another's"), done)
    run(*words_of(work, tool, out, "--force"))
    judge("and with --force overwritten", out.read_bytes()[:9] != b"another's")


@pytest.mark.parametrize("tool", MAKING)
def test_a_recording_with_its_facts_is_overwritten_by_no_tool(work: Path, tool: str) -> None:
    """With --force too, as where OUT was forgotten, or stands first in one tool and last in another."""
    out = work / "flight.ch11"
    shutil.copy(SAMPLES[0], out)
    (work / "flight.ch11.json").write_text("{}")
    done = outcome(*words_of(work, tool, out, "--force"))
    told = f"{name_of(tool)}: {out} is a recording, with its facts beside it: give OUT another name\n"
    kept = out.read_bytes() == SAMPLES[0].read_bytes()
    judge("refused", (done.returncode, done.stderr) == (3, told) and kept, done)


@pytest.mark.parametrize("tool", MAKING)
def test_pipes_devices_and_standard_output_are_no_files_that_exist(work: Path, tool: str) -> None:
    run(*words_of(work, tool, "/dev/null"))
    if tool != "salvage":
        with open(work / "streamed", "wb") as out:
            run(*words_of(work, tool, "-"), stdout=out, stderr=subprocess.DEVNULL)
        judge("what was redirected is there", (work / "streamed").stat().st_size > 0)


@pytest.mark.parametrize("tool", MAKING)
def test_an_out_that_is_the_input_is_refused_with_force_too(work: Path, tool: str) -> None:
    words = words_of(work, tool, work / "link", "--force")
    given = next(it for it in words if it in [work / "own.ch11", work / "own.feed", work / "own.pcap"])
    (work / "link").hardlink_to(given)
    before = given.read_bytes()
    done = outcome(*words)
    judge("refused", done.returncode in (1, 3) and not done.stdout, done)
    judge("and the input stays", given.read_bytes() == before)


READING = {
    "info": ([INFO, "own.ch11"], 3, "bpfrec info: -: it is RECORDING itself\n"),
    "info --json": ([INFO, "--json", "own.ch11"], 3, "bpfrec info: -: it is RECORDING itself\n"),
    "check": ([CHECK, "own.ch11"], 3, "bpfrec check: -: it is own.ch11 itself\n"),
    "salvage": ([SALVAGE, "own.ch11", "out"], 3, "bpfrec salvage: -: it is DAMAGED itself\n"),
    "pcapng": ([EXPORT, "own.ch11", "out.pcapng"], 3, "bpfrec export: -: it is own.ch11 itself\n"),
    "pcapng -": ([EXPORT, "own.ch11", "-"], 3, "bpfrec export: -: it is own.ch11 itself\n"),
}


@pytest.mark.parametrize("name", READING)
def test_standard_output_that_is_the_input_is_refused(work: Path, name: str) -> None:
    words, status, told = READING[name]
    path = work / "own.ch11"
    shutil.copy(SAMPLES[1], path)
    before = path.read_bytes()
    with open(path, "ab") as out:
        done = outcome(*words, cwd=work, stdout=out, stderr=subprocess.PIPE)
    judge("refused", (done.returncode, done.stderr) == (status, told), done)
    judge("and the input stays", path.read_bytes() == before and not (work / "out").exists())


def test_facts_are_no_standard_output_either(work: Path) -> None:
    shutil.copy(SAMPLES[1], work / "own.ch11")
    (work / "own.ch11.json").write_text("kept")
    with open(work / "own.ch11.json", "a") as out:
        done = outcome(INFO, work / "own.ch11", stdout=out, stderr=subprocess.PIPE)
    judge("refused", (done.returncode, done.stderr) == (3, "bpfrec info: -: it is RECORDING.json itself\n"), done)


def test_one_pipe_twice_is_refused(work: Path) -> None:
    done = outcome("sh", "-c", f"cat {SAMPLES[1]} | {SALVAGE} /dev/stdin /proc/self/fd/0", cwd=work, seconds=10)
    judge(
        "refused",
        (done.returncode, done.stderr) == (3, "bpfrec salvage: /proc/self/fd/0: it is DAMAGED itself\n"),
        done,
    )


def test_a_recording_twice_is_refused(work: Path) -> None:
    """A capture would have each of its frames doubled."""
    for name in ("own.ch11", "other.ch11"):
        shutil.copy(SAMPLES[1], work / name)
    (work / "link.ch11").symlink_to(work / "own.ch11")
    for words, told in (("own.ch11 other.ch11 own.ch11", "own.ch11: it is given twice"),
                        ("own.ch11 link.ch11", "link.ch11: it is given twice, as own.ch11 too")):  # fmt: skip
        done = outcome(EXPORT, "--as=pcapng", *words.split(), "out", cwd=work)
        judge(words, (done.returncode, done.stdout, done.stderr) == (1, "", f"bpfrec export: {told}\n"), done)
    judge("nothing is made", not (work / "out").exists())


# ---- what is no recording


def test_what_is_no_recording_is_refused_by_name(work: Path) -> None:
    text, capture = work / "README.md", work / "x.pcapng"
    text.write_text("a text\n" * 100)
    run(EXPORT, SAMPLES[1], capture)
    for path, guess in ((text, "a text"), (capture, "a pcapng capture")):
        done = outcome(INFO, path)
        wanted = (1, "", f"bpfrec info: {path}: no recording ({guess}?)\n")
        judge("info says what it may be", (done.returncode, done.stdout, done.stderr) == wanted, done)
        done = outcome(SALVAGE, path, work / "out")
        wanted = (1, "", f"bpfrec salvage: {path}: no recording ({guess}?): no packet of it is whole\n")
        judge("salvage refuses it", (done.returncode, done.stdout, done.stderr) == wanted, done)
        for words in (["--as", "pcapng"], ["--as", "chapter11", "--origin", "1764590400"]):
            done = outcome(EXPORT, *words, path, work / "out")
            wanted = (1, "", f"bpfrec export: {path}: no recording ({guess}?)\n")
            judge("so does export", (done.returncode, done.stdout, done.stderr) == wanted, done)
        judge("and they leave nothing", not (work / "out").exists())
        done = outcome(CHECK, path)
        said = done.stdout.startswith(f"no recording ({guess}?)\n") and done.stdout.endswith("\nno\n")
        judge("check says no", done.returncode == 1 and said, done)


def test_salvage_says_where_times_and_names_are(work: Path) -> None:
    damaged, left = work / "damaged.ch11", work / "left.ch11"
    damaged.write_bytes(SAMPLES[1].read_bytes()[:-8])
    Path(f"{damaged}.json").write_text("{}")
    done = outcome(SALVAGE, damaged, left)
    line = f"{left} has no times and names, which are in {damaged}.json: cp {damaged}.json {left}.json"
    judge("a line says it", (done.returncode, done.stderr) == (1, f"bpfrec salvage: {line}\n"), done)


def test_a_recording_without_a_packet_is_no_answer(work: Path) -> None:
    """But in a run, where others have some."""
    empty, out = work / "empty.ch11", work / "out"
    empty.write_bytes(b"")
    whole = [EXPORT, "--as", "chapter11", "--origin", "1764590400"]
    cases: list[list] = [[SALVAGE], [EXPORT, "--as", "pcapng"], whole]
    for words in cases:
        done = outcome(*words, empty, out)
        judge("it is refused", done.returncode == 1 and "it is empty: there is no packet" in done.stderr, done)
        judge("and nothing is made", not out.exists())
    done = outcome(CHECK, empty)
    judge("check says no", done.returncode == 1 and done.stdout.endswith("\nno\n"), done)
    done = outcome(EXPORT, "--as", "pcapng", empty, SAMPLES[1], out)
    judge("beside another one it is taken", done.returncode == 0 and out.exists(), done)


def test_a_page_takes_no_other_files_place(work: Path) -> None:
    other, page = work / "other.ch11", work / "page.html"
    other.write_bytes(SAMPLES[0].read_bytes())
    for path in (other, work / "notes.txt"):
        path.write_bytes(b"notes" if path.suffix == ".txt" else other.read_bytes())
        done = outcome(INFO, "--html", path, SAMPLES[1])
        line = f"bpfrec info: {path} is there, and is no page: give FILE another name\n"
        judge("it is refused", (done.returncode, done.stderr) == (3, line), done)
    judge("and left", other.read_bytes() == SAMPLES[0].read_bytes())
    for _ in range(2):
        done = outcome(INFO, "--html", page, SAMPLES[1])
        judge("a page may be made again", done.returncode == 0, done)


def test_a_pipe_of_what_is_no_recording_is_refused_too(work: Path) -> None:
    done = outcome("sh", "-c", f"yes | head -n 50 | {INFO} /dev/stdin")
    holds = (done.returncode, done.stdout, done.stderr) == (1, "", "bpfrec info: /dev/stdin: no recording\n")
    judge("by info", holds, done)


@pytest.mark.parametrize("words", ["cut.ch11 out", "- out < cut.ch11", "cut.ch11 - > out", "- - < cut.ch11 > out"])
def test_salvage_takes_standard_streams(work: Path, words: str) -> None:
    """The lines are those of files; where standard output has OUT, standard error has them."""
    (work / "cut.ch11").write_bytes(SAMPLES[1].read_bytes()[:-4])
    done = outcome("sh", "-c", f"{SALVAGE} {words}", cwd=work)
    lines, nothing = (done.stdout, done.stderr) if ">" not in words else (done.stderr, done.stdout)
    ends = "\nkept 3 packets 192 bytes, lost 52 bytes at 1 places\n"
    judge(words, done.returncode == 1 and lines.endswith(ends) and not nothing, done)
    judge("all that is whole", (work / "out").read_bytes() == SAMPLES[1].read_bytes()[:192])
    left = sorted(os.listdir(work))
    judge("and no file of the name -", left == ["cut.ch11", "out", "private"], left)
