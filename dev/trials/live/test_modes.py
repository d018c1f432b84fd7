"""Tries who may read what a run makes, and that it touches nothing of others: each file, folder and socket is in a table
with its mode, whatever umask says, so that one that nobody thought of is seen."""

import os
import re
import stat
from collections.abc import Iterator
from pathlib import Path

import pytest
from ground import Station
from recordings import Traffic, begin, recordings
from signing import made_key
from support import judge, wait_for

pytestmark = [
    pytest.mark.wanted("bin/bpfrec", "bin/capture", "ip", "ssh-keygen"),
    pytest.mark.usefixtures("namespace"),
]
# What a run makes, and its temporary folder, by names: what each is, and its mode where umask takes nothing away. What
# is within the folder, nobody else reaches.
MADE = {
    r"out/flight_\d{5}\.ch11": ("file", 0o640),
    r"out/flight_\d{5}\.ch11\.json": ("file", 0o640),
    r"out/flight_\d{5}\.ch11\.json\.sig": ("file", 0o640),
    r"out/flight_\d{5}\.ch11\.ch10": ("file", 0o640),
    r"out/flight_\d{5}\.ch11\.(json|ch10|json\.sig)\.new\d*": ("file", 0o640),
    r"out/flight\.control": ("socket", 0o600),
    r"private/bpfrec\.[0-9a-f]{16}": ("folder", 0o700),
}
# Of these some are there only for a moment.
MOMENTARY = [name for name in MADE if "new" in name]
KINDS = {stat.S_IFREG: "file", stat.S_IFSOCK: "socket", stat.S_IFDIR: "folder"}


def made_in(work: Path) -> Iterator[tuple[str, tuple[str, int]]]:
    """What stands in the folders of a run: what it is, and its mode."""
    for path in (it for top in ("out", "private") for it in (work / top).iterdir()):
        try:
            mode = path.lstat().st_mode
        except FileNotFoundError:
            continue
        yield str(path.relative_to(work)), (KINDS.get(stat.S_IFMT(mode), "other"), stat.S_IMODE(mode))


def judge_modes(work: Path, umask: int) -> set[str]:
    """All that is there is in the table, with its mode: the rows of which there is something."""
    seen = set()
    for name, found in made_in(work):
        rows = [it for it in MADE if re.fullmatch(it, name)]
        judge(f"{name} is known", len(rows) == 1, (name, rows))
        what, mode = MADE[rows[0]]
        judge(f"{name}: {what} of {mode & ~umask:o}", found == (what, mode & ~umask), found)
        seen.add(rows[0])
    return seen


@pytest.mark.parametrize("umask", [0o022, 0o000, 0o077], ids=oct)
def test_all_that_a_run_makes_is_known_and_has_its_mode(work: Path, umask: int) -> None:
    key, station = made_key(work, "fc1"), Station()
    (work / "out").mkdir()
    words = ["--quiet", "--every", 1, "--chapter11", "--sign", key, "--status", 0, "--publish", station.address]
    before = os.umask(umask)
    try:
        running = begin(work, work / "out/flight.ch11", *words)
    finally:
        os.umask(before)
    traffic = Traffic()
    wait_for("two whole files", lambda: len([*(work / "out").glob("*.ch10")]) >= 2, 20)
    seen = judge_modes(work, umask)
    judge("each of the table is there", set(MADE) - seen <= set(MOMENTARY), set(MADE) - seen)
    running.end_well()
    traffic.end()
    gone = {it for it in MADE if "control" in it or "private" in it}
    judge("its socket and its folder go", judge_modes(work, umask) == set(MADE) - gone - set(MOMENTARY))
    station.close()


# What others have in the folder: beside what the run makes, and at the names by which it writes files anew.
OTHERS = ["flight_00001.ch11.json.new", "flight_00001.ch11.ch10.new", "flight_00001.ch11.json.sig.new", "flight.toml"]
OTHERS += ["flight_00001.ch11.pcapng", "flight_0001.ch11", "flight.ch11", "other_00001.ch11", "flight_00001.ch11.json~"]


@pytest.mark.parametrize("is_link", [False, True], ids=["files", "links"])
def test_files_of_others_are_neither_written_nor_removed(work: Path, is_link: bool) -> None:
    """By a run that removes its own oldest ones, with --force too; where these are links, what they lead to is left."""
    key, out, kept = made_key(work, "fc1"), work / "out", work / "kept"
    for folder in (out, kept):
        folder.mkdir()
    for name in OTHERS:
        (kept if is_link else out).joinpath(name).write_text(name)
        if is_link:
            (out / name).symlink_to(kept / name)
    words = ["--quiet", "--force", "--every", 1, "--keep", 1, "--chapter11", "--sign", key]
    running = begin(work, out / "flight.ch11", *words)
    traffic = Traffic()
    wait_for("the first is removed", lambda: (out / "flight_00003.ch11").exists() and not first_of(out).exists(), 30)
    running.end_well()
    traffic.end()
    judge("their names", [it for it in OTHERS if (out / it).is_symlink() != is_link] == [], os.listdir(out))
    judge("their bytes", [it for it in OTHERS if (out / it).read_text() != it] == [])
    judge("the run has one, beside flight_0001.ch11", len(recordings(out, "flight")) == 2, os.listdir(out))


def first_of(out: Path) -> Path:
    return out / "flight_00001.ch11"
