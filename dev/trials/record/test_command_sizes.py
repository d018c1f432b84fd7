"""Tries commands at sizes that samples don't have: long inputs, long texts, programs and recordings of many parts."""

import os
import subprocess
from pathlib import Path

import pytest
from frames import counted_feed, end_packet, feed_of, frames_packet, program_packet
from recorder import ONE_FRAME, begin, extracted, record, write_settings
from support import (
    BPFREC,
    CHECK,
    EXPORT,
    INFO,
    KEEPS_ALL,
    MEBIBYTE,
    PREFLIGHT,
    SALVAGE,
    judge,
    outcome,
    present,
    run,
    sums,
    wait_for,
)

pytestmark = pytest.mark.wanted("bin/bpfrec")
# What docs/user/formats/ has as bounds.
LISTING_BYTES, TEXT_BYTES, LINES_BYTES = MEBIBYTE, 64 * MEBIBYTE, 16 * MEBIBYTE
# Between the powers of two that other trials have.
INSNS = (300, 3_000)
FRAME = ONE_FRAME[9:]
READERS = ("list", "audit", "extract", "upgrade", "salvage", "check", "info", "pcapng")
PATIENCE = 120


def program_of(insns: int) -> str:
    """A listing of so many instructions: it counts in A, and keeps what comes then."""
    return f"{insns}," + "4 0 0 1," * (insns - 2) + "7 0 0 0,6 0 0 1,"


def text_of(insns: int) -> str:
    return "add #1\n" * (insns - 2) + "tax\nret #1\n"


# ---- long inputs


@pytest.mark.parametrize("more", [0, 1])
def test_a_control_line_is_read_up_to_its_last_byte(work: Path, more: int) -> None:
    """Lines up to the last byte that is read, of which the last installs a program; a byte more, and it isn't read."""
    (work / "one.feed").write_bytes(b"")
    settings = write_settings(work, ["one.feed"], ["none"])
    length, last = 4_096, f"set 1 {work / 'all'}\n".encode()
    unknown = b"set 9 ".ljust(length - 1, b"/") + b"\n"
    count = LINES_BYTES // length
    padding = b"set 9 ".ljust(length - len(last) + more - 1, b"/") + b"\n"
    lines = unknown * (count - 1) + padding + last
    (work / "lines").write_bytes(lines + b"set 8 nowhere\n")
    with open(work / "lines", "rb") as given, open(work / "answers", "wb") as answers:
        running = begin(settings, work / "lines.ch11", stdin=given, stdout=subprocess.DEVNULL, stderr=answers)
    judge("it records", running.wait(PATIENCE) == 0)
    told = (work / "answers").read_text().splitlines()
    wanted = ["refused 9 File"] * count + ["installed 1 1 0"] * (1 - more)
    judge(f"{len(lines):,} bytes of lines", told == wanted, (len(told), told[-2:]))


@pytest.mark.parametrize("length", [70_000, 600_000, LISTING_BYTES])
def test_settings_are_read_up_to_their_last_byte(work: Path, length: int) -> None:
    """Settings whose channel stands behind so many bytes, and paths with blanks; one byte more than may be is
    refused."""
    folder = work / "a folder of  its own"
    folder.mkdir()
    (folder / "one.feed").write_bytes(ONE_FRAME * 3)
    settings, out = write_settings(folder, ["one.feed"], ["all"], "my settings.toml"), folder / "its recording.ch11"
    text = settings.read_text()
    padding = "# a comment of settings, one of many\n" * ((length - len(text)) // 37)
    settings.write_text((padding + text).ljust(length))
    done = record(settings, out)
    judge(f"{length:,} bytes of settings", done.stdout.startswith("channel 1 versions 1 offered 3 kept 3 "), done)
    judge("its frames are extracted", extracted(out, 1, folder / "again and again.feed") == ONE_FRAME * 3)
    settings.write_text(settings.read_text().ljust(LISTING_BYTES + 1))
    done = record(settings, out)
    judge("a byte more than may be", (done.returncode, done.stderr) == (3, f"file {settings}\n"), done)


def test_a_control_line_names_a_path_with_blanks(work: Path) -> None:
    """A line names a file whose path has blanks, also at its ends."""
    folder = work / " a folder "
    folder.mkdir()
    (folder / " keeps all ").write_text(KEEPS_ALL)
    (work / "one.feed").write_bytes(b"")
    settings = write_settings(work, ["one.feed"], ["none"])
    done = outcome(BPFREC, "record", settings, work / "one.ch11", input=f"set 1 {folder}/ keeps all \n")
    judge("a path with blanks", (done.returncode, done.stderr) == (0, "installed 1 1 0\n"), done)


# ---- texts and listings


@pytest.mark.parametrize("how", ["file", "input"])
@pytest.mark.parametrize("command, most", [("asm", TEXT_BYTES), ("dis", LISTING_BYTES), ("verify", LISTING_BYTES)])
def test_texts_at_the_bounds_are_read_and_one_past_refused(work: Path, command: str, most: int, how: str) -> None:
    """The shortest text, the longest, and one that is a byte too long."""
    given, shortest, printed = {
        "asm": ("ret #1", "", "1,6 0 0 1,\n"),
        "dis": ("1,6 0 0 1,", "0", "ret #1\n"),
        "verify": ("1,6 0 0 1,", "0", "valid 1\n"),
    }[command]
    file = work / "text"
    word = str(file) if how == "file" else "-"
    padded = f"{given}\n".ljust if how == "file" else given.rjust
    cases = [
        (shortest, {"asm": (0, "0,\n", ""), "dis": (0, "", ""), "verify": (1, "refused 1 Empty\n", "")}[command]),
        (padded(most), (0, printed, "")),
        (padded(most + 1), (3, "", f"file {word}\n")),
    ]
    for text, wanted in cases:
        file.write_text(text)
        with open(file, "rb") as stream:
            done = outcome(BPFREC, command, word, stdin=stream, seconds=PATIENCE)
        told = (done.returncode, done.stdout, done.stderr)
        judge(f"{command} of {len(text):,} bytes by {how}", told == wanted, told)


def places_of(work: Path, listing: str) -> dict[str, tuple[list, str]]:
    """For each command that takes a program: the words that give it this one, and what is printed then."""
    insns = int(listing.split(",")[0])
    first, later = (f"channel 1 0 0 9 {it}" for it in (listing, KEEPS_ALL))
    (work / "program").write_text(listing)
    (work / "text").write_text(text_of(insns))
    for name, lines in (("first", [first]), ("later", [later, f"install 1 {listing}"])):
        events = [f"take 1 5 0 {FRAME.hex()}", "close 1", "send 1"]
        (work / f"{name}.script").write_text("\n".join(["recorder 65536 4 8", *lines, *events]))
    told = "took 0 {} 1\nclosed 1 1\nsent program {}\n"
    return {
        "asm": (["asm", work / "text"], f"{listing}\n"),
        "dis": (["dis", work / "program"], text_of(insns)),
        "verify": (["verify", work / "program"], f"valid {insns}\n"),
        "run": (["run", work / "program", "00"], f"1 {insns}\n"),
        "lines": ([], f"1 {insns}\n"),
        "simulate": (["simulate", work / "first.script"], told.format(0, 0)),
        "install": (["simulate", work / "later.script"], "installed 1 0\n" + told.format(1, 1)),
    }


@pytest.mark.parametrize("insns", INSNS)
@pytest.mark.parametrize("place", ["asm", "dis", "verify", "run", "lines", "simulate", "install"])
def test_a_program_of_each_length_is_taken_everywhere(work: Path, place: str, insns: int) -> None:
    """A program of so many instructions in each place that takes one."""
    listing = program_of(insns)
    words, wanted = places_of(work, listing)[place]
    done = outcome(BPFREC, *words, input=f"{listing}\n00\n")
    judge(f"{place} takes {insns} instructions", (done.stdout, done.stderr) == (wanted, ""), done.stderr)


@pytest.fixture(scope="module", params=INSNS)
def two_versions(place: Path, request: pytest.FixtureRequest) -> Path:
    """A recording of two programs of so many instructions: a channel's first, and one that a line installed."""
    os.mkfifo(place / f"{request.param}.feed")
    settings, out = write_settings(place, [f"{request.param}.feed"], ["all"]), place / f"{request.param}.ch11"
    (place / "all").write_text(program_of(request.param))
    running = begin(settings, out, stdin=subprocess.PIPE, stderr=subprocess.PIPE)
    # Opened for both, so that it doesn't wait where the recorder has ended.
    with open(place / f"{request.param}.feed", "r+b", buffering=0) as feed:
        feed.write(ONE_FRAME)
        wait_for("its program is written", lambda: out.exists() and out.stat().st_size > 0 or running.poll())
        present(running.stdin).write(f"set 1 {place / 'all'}\n")
        present(running.stdin).flush()
        answer = present(running.stderr).readline()
        feed.write(ONE_FRAME)
    printed, told = running.communicate()
    judge("it is recorded", printed.startswith("channel 1 versions 2 offered 2 kept 2 "), (answer, printed, told))
    return out


@pytest.mark.parametrize("tool", [*READERS])
def test_readers_of_recordings_take_programs_of_each_length(work: Path, two_versions: Path, tool: str) -> None:
    """What reads recordings takes the programs."""
    new, old = work / "new", two_versions.read_bytes()
    cases: dict[str, tuple[list[object], str, bytes | None]] = {
        "list": ([BPFREC, "list", two_versions], "packets 5 other 0\n", None),
        "audit": ([BPFREC, "audit", two_versions], "yes other 0\n", None),
        "extract": ([BPFREC, "extract", two_versions, 1, new], "frames 2 passed 0\n", ONE_FRAME * 2),
        "upgrade": ([BPFREC, "upgrade", two_versions, new], "upgraded 0 copied 5\n", old),
        "salvage": ([SALVAGE, two_versions, new], "lost 0 bytes at 0 places\n", old),
        "check": ([CHECK, "--no-audit", two_versions], "checksums 5 without 0 wrong 0\nyes\n", None),
        "info": ([INFO, two_versions], "version 0 to 1             from frame 0, counter 32\n", None),
        "pcapng": ([EXPORT, "--as=pcapng", two_versions, new], "frames 2 skipped 0\n", None),
    }
    words, wanted, made = cases[tool]
    told = run(*words)
    judge(f"{tool}", told.endswith(wanted) and (made is None or new.read_bytes() == made), told)


@pytest.mark.parametrize("insns", INSNS)
def test_judges_of_settings_take_programs_of_each_length(work: Path, insns: int) -> None:
    """So does what judges settings."""
    (work / "one.feed").write_bytes(ONE_FRAME)
    settings = write_settings(work, ["one.feed"], ["all"])
    (work / "all").write_text(program_of(insns))
    told = run(PREFLIGHT, settings)
    judge("preflight", f"filter {work}/all: valid {insns}\n" in told and told.endswith("0 faults\n"), told)


# ---- recordings


def many_packets(count: int) -> bytes:
    """A recording of so many packets of frames, without data checksums."""
    frames = (frames_packet([(at, 0, FRAME)], at, at, False) for at in range(count))
    return program_packet(1, 0, is_summed=False) + b"".join(frames) + end_packet(1, count, is_summed=False)


@pytest.mark.parametrize("count", [10_000, 100_000])
def test_extract_and_upgrade_take_many_packets(work: Path, count: int) -> None:
    """`extract` and `upgrade` of so many packets, of a file and of a stream."""
    old, new, feed = work / "old.ch11", work / "new.ch11", work / "again.feed"
    old.write_bytes(many_packets(count))
    wanted = counted_feed([FRAME] * count)
    for how in ("file", "input"):
        for path in (new, feed):
            path.unlink(missing_ok=True)
        word = str(old) if how == "file" else "-"
        with open(old, "rb") as given, open(old, "rb") as given_again:
            told = run(BPFREC, "extract", word, 1, feed, stdin=given, seconds=PATIENCE)
            judge(f"extract by {how}", told == f"frames {count} passed 0\n" and feed.read_bytes() == wanted, told)
            told = run(BPFREC, "upgrade", word, new, stdin=given_again, seconds=PATIENCE)
        judge(f"upgrade by {how}", told == f"upgraded {count + 2} copied 0\n", told)
        told = sums(new).stdout
        judge("with right sums", told == f"packets {count + 2} data checksums {count + 2} without 0 wrong 0\n", told)
        judge("and the same frames", extracted(new, 1, feed) == wanted)


# ---- scripts


def test_the_longest_packet_is_simulated_as_recorded(work: Path) -> None:
    """The longest packet, and one of over 65,536 bytes, as `record` writes them."""
    lengths = [16_383] * 31 + [15_968] + [16_383] * 8
    frames = [(at, at % 4, bytes(12) + b"\x08\x00" + bytes([at]) * (it - 14)) for at, it in enumerate(lengths)]
    (work / "long.feed").write_bytes(feed_of(frames))
    settings = write_settings(work, ["long.feed"], ["all"])
    settings.write_text("limit = 524284\n" + settings.read_text())
    record(settings, work / "long.ch11")
    takes = "".join(f"take 1 {counter} {marks} {frame.hex()}\n" for counter, marks, frame in frames)
    sends = "send 1\nwrite 1\n" * 4
    (work / "script").write_text(f"recorder 524284 4 8\nchannel 1 0 0 99 {KEEPS_ALL}\n{takes}close 1\n{sends}")
    told = run(BPFREC, "simulate", work / "script").splitlines()
    wrote = [bytes.fromhex(it[6:]) for it in told if it.startswith("wrote ")]
    judge("its packets are those of record", b"".join(wrote) == (work / "long.ch11").read_bytes())
    holds = [len(it) for it in wrote] == [64, 524_288, 8 * 16_396 + 32, 56]
    judge("of these lengths", holds, [len(it) for it in wrote])


@pytest.mark.parametrize("lines", [999, 1_000, 70_000])
def test_many_lines_of_a_script_are_answered_by_number(work: Path, lines: int) -> None:
    """So many lines are answered, and the fault of the next one has its number."""
    head = f"recorder 16424 4 8\nchannel 1 0 0 99 {KEEPS_ALL}\n"
    (work / "script").write_text(head + "send 2\n" * (lines - 2) + "wrong\n")
    done = outcome(BPFREC, "simulate", work / "script")
    wanted = (1, "refused 1 NoChannel\n" * (lines - 2), f"script line {lines + 1}\n")
    judge(f"line {lines + 1}", (done.returncode, done.stdout, done.stderr) == wanted, done.stderr)
