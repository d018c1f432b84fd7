"""Tries which recordings of bpfrec live are removed, without a run: by how many they are, and by the room on a disk."""

import threading
from collections.abc import Callable, Iterator
from pathlib import Path

import pytest
from bpfrec_tools.live.kept import retention
from bpfrec_tools.live.kept.names import remove
from bpfrec_tools.live.kept.retention import PAUSE, Kept, Retention
from support import SECONDS, judge

FREE = 1_000


def kept(path: Path) -> Kept:
    """A recording of this name, with its facts and a file that goes with it."""
    beside = f"{path}.ch10"
    for name in (path, Path(f"{path}.json"), Path(beside)):
        name.write_text(path.name)
    found = path.stat()
    return Kept(str(path), found.st_dev, found.st_ino, [beside])


class Disk:
    """A disk with recordings, whose room is what the test says; each file is removed once that is let."""

    def __init__(self, work: Path, monkeypatch: pytest.MonkeyPatch) -> None:
        self.work, self.room, self.err, self.let = work, FREE - 1, list[str](), threading.Event()
        self.let.set()
        self.in_work, self.held = "", list[tuple[str, Callable[[], None]]]()
        monkeypatch.setattr(retention, "remove", self.remove)

    def remove(self, path: str) -> None:
        self.let.wait(SECONDS)
        remove(path)

    def retention(self, count: int, keep: int | None = None, keep_free: int | None = None) -> Retention:
        """The retention of so many recordings."""
        made = Retention(keep, keep_free, lambda: self.room, self.let_go, self.err.append)
        for number in range(count):
            made.add(kept(self.work / f"{number}.ch11"))
        return made

    def let_go(self, out: str, why: str, remove_it: Callable[[], None]) -> None:
        """Has what isn't in work removed at once, and keeps the rest back."""
        if out == self.in_work:
            self.held.append((why, remove_it))
        else:
            remove_it()

    def left(self) -> list[str]:
        """The files that are there."""
        return sorted(it.name for it in self.work.iterdir() if it.is_file())


@pytest.fixture
def disk(work: Path, monkeypatch: pytest.MonkeyPatch) -> Iterator[Disk]:
    made = Disk(work, monkeypatch)
    yield made
    made.let.set()


def files_of(*numbers: int) -> list[str]:
    return [f"{number}.ch11{ending}" for number in numbers for ending in ("", ".ch10", ".json")]


def look(made: Retention, now: float) -> int:
    """Has the room be looked at, and waits for what is removed: how many recordings are left."""
    made.tick(now)
    made.join()
    return len(made.kept)


# ---- by their number


def test_the_oldest_is_removed_once_there_are_more_than_stay_with_all_that_goes_with_it(disk: Disk) -> None:
    made = disk.retention(3, keep=3)
    judge("as many as stay", disk.left() == files_of(0, 1, 2) and disk.err == [], disk.left())
    made.add(kept(disk.work / "3.ch11"))
    made.join()
    line = f"bpfrec live: {disk.work}/0.ch11 was removed: --keep 3"
    judge("one more", (disk.left(), disk.err) == (files_of(1, 2, 3), [line]), (disk.left(), disk.err))
    judge("no disk is looked at", made.deadline() is None)


# What takes a recording's name between its audit and its removal.
EXCHANGES: dict[str, Callable[[Path], object]] = {
    "another": lambda path: path.write_text("another"),
    "link": lambda path: path.symlink_to("moved"),
    "nothing": lambda _: None,
}


@pytest.mark.parametrize("keep_free", [None, FREE], ids=["keep", "keep_free"])
@pytest.mark.parametrize("name", EXCHANGES)
def test_a_name_that_is_another_file_by_then_stays_with_what_is_beside_it(
    disk: Disk, name: str, keep_free: int | None
) -> None:
    made = disk.retention(1, keep=None if keep_free else 1, keep_free=keep_free)
    out = disk.work / "0.ch11"
    out.replace(disk.work / "moved")
    EXCHANGES[name](out)
    before = disk.left()
    if not keep_free:
        made.add(kept(disk.work / "1.ch11"))
        before = sorted([*before, *files_of(1)])
    look(made, 0.0)
    judge("nothing is removed or said", (disk.left(), disk.err) == (before, []), (disk.left(), disk.err))


# ---- by the room of their disk


def test_where_a_disk_lacks_room_the_oldest_alone_is_removed_and_the_next_a_second_later(disk: Disk) -> None:
    made = disk.retention(4, keep_free=FREE)
    judge("at once", made.deadline() == 0 and look(made, 0.0) == 3)
    judge("and not again within a second", look(made, PAUSE - 0.01) == 3 and made.deadline() == PAUSE)
    disk.room = FREE
    judge("as much as is to be free is enough", look(made, PAUSE) == 3 and made.deadline() == 2 * PAUSE)
    disk.room = FREE - 1
    judge("the next one goes where it isn't", look(made, 2 * PAUSE) == 2)
    lines = [f"bpfrec live: {disk.work}/{number}.ch11 was removed: --keep-free {FREE}" for number in (0, 1)]
    judge("each is said", (disk.err, disk.left()) == (lines, files_of(2, 3)), disk.err)


def test_a_disk_that_says_its_room_late_loses_one_recording(disk: Disk) -> None:
    """As one does while a long file is removed, and a moment after: meanwhile it is looked at each second, and no more
    often."""
    made = disk.retention(4, keep_free=FREE)
    disk.let.clear()
    made.tick(0.0)
    for now in (0.5, 1.0, 1.5, 2.0, 3.0, 3.1):
        made.tick(now)
        judge("nothing else is removed meanwhile", len(made.kept) == 3 and len(disk.err) == 1, disk.err)
        judge("and the next look is ahead", 0 < (made.deadline() or 0) - now <= PAUSE, made.deadline())
    disk.let.set()
    made.join()
    judge("nor once it is removed", look(made, 3.2) == 3)
    disk.room = FREE
    judge("nor once the disk says so", look(made, 4.0) == look(made, 5.0) == 3)


def test_where_nothing_can_be_removed_no_disk_is_looked_at(disk: Disk) -> None:
    made = disk.retention(1, keep_free=FREE)
    look(made, 0.0)
    judge("there is no other", made.deadline() is None and look(made, 5.0) == 0 and disk.left() == [])


# ---- what is in work


def test_a_recording_in_work_goes_once_that_is_done_with_what_was_made_meanwhile(disk: Disk) -> None:
    """The ring counts it all the same, so that no other goes in its place."""
    made = disk.retention(2, keep=2)
    going, disk.in_work = made.kept[0], f"{disk.work}/0.ch11"
    made.add(kept(disk.work / "2.ch11"))
    made.join()
    judge("it is there, and said", disk.left() == files_of(0, 1, 2) and len(disk.err) == len(disk.held) == 1, disk.err)
    judge("another waits for it", made.is_removing() and len(made.kept) == 2)
    (disk.work / "0.ch11.json.sig").touch()
    going.beside.append(f"{disk.work}/0.ch11.json.sig")
    why, remove_it = disk.held[0]
    remove_it()
    made.join()
    judge("it went with all that was made", disk.left() == files_of(1, 2) and not made.is_removing(), disk.left())
    judge("why is handed on", why == "it was removed: --keep 2", why)
