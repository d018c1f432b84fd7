"""Tries what bpfrec live makes, keeps and removes of recordings by themselves, without a run."""

import json
import os
import tempfile
from functools import partial
from pathlib import Path
from types import SimpleNamespace
from typing import Any, cast

import pytest
from bpfrec.formats.names import Names
from bpfrec_tools.live.kept.facts import KILLED_STATUS, About, Writer
from bpfrec_tools.live.kept.names import Files
from bpfrec_tools.live.kept.retention import Kept, approved
from bpfrec_tools.live.kept.whole_files import Job, WholeFiles
from bpfrec_tools.live.model import Recording
from bpfrec_tools.live.parts import outputs
from bpfrec_tools.live.parts.guard import Guard, write_facts
from bpfrec_tools.live.parts.loop import Loop
from bpfrec_tools.live.parts.recorder import Recorder
from bpfrec_tools.live.parts.recordings import ROOM, Recordings
from bpfrec_tools.live.run.recorders import Recorders
from support import judge, judge_same

YES, NO = "channel 1 programs 1 frames 1 offered 1\nyes other 0\n", "no 5 NoEnd 1\n"


def recorder_of(work: Path, audit: str = YES) -> Recorder:
    """A recorder of OUT, which is created, and its audit."""
    made = work / "1"
    made.mkdir()
    os.mkfifo(made / "answers")
    (made / "audit").write_text(audit)
    recorder = Recorder(Recording(1, str(work / "out")), made, About(1, str(work / "out"), 0, "2025-12-01T12:00:00Z"))
    recorder.take_output(Files().create(recorder.about.out))
    return recorder


# ---- which recordings may be removed, and which files


@pytest.mark.parametrize(
    "status, audit, is_approved", [(0, YES, True), (3, YES, False), (137, YES, False), (0, NO, False), (0, "", False)]
)
def test_a_recording_may_be_removed_whose_status_is_0_and_whose_audit_says_yes(
    work: Path, status: int, audit: str, is_approved: bool
) -> None:
    recorder = recorder_of(work, audit)
    found, out = os.stat(recorder.about.out), recorder.about.out
    wanted = Kept(out, found.st_dev, found.st_ino) if is_approved else None
    judge("it is that file", approved(recorder, status) == wanted, approved(recorder, status))
    recorder.close()


def test_another_file_that_has_the_name_of_out_is_no_recording_of_the_run_and_stays(work: Path) -> None:
    recorder, out = recorder_of(work), work / "out"
    out.rename(work / "moved")
    out.write_text("another")
    judge("it is not approved", approved(recorder, 0) is None)
    outputs.discard(recorder)
    judge("it stays", out.read_text() == "another" and not recorder.is_created)
    recorder.close()


def test_an_out_that_is_discarded_is_removed_where_it_is_still_there(work: Path) -> None:
    recorder = recorder_of(work)
    outputs.discard(recorder)
    judge("it is", not (work / "out").exists())
    outputs.discard(recorder)
    recorder.close()


@pytest.mark.parametrize("status", [0, 1], ids=["whole", "failed"])
@pytest.mark.parametrize("is_there", [True, False], ids=["there", "new"])
def test_a_file_gets_its_name_once_it_is_whole(work: Path, is_there: bool, status: int) -> None:
    """One that was there stays; what failed is removed."""
    err: list[str] = []
    files = WholeFiles([], Files(), cast(Loop, None), cast(Guard, None), err.append)
    out, following, kept = work / "x.ch11.ch10", work / "x.ch11.ch10.new", Kept(str(work / "x.ch11"), 0, 0)
    following.write_text("this one's")
    if is_there:
        out.write_text("another's")
    with tempfile.TemporaryFile() as told:
        told.write(b"bpfrec export: why\n")
        files.end(Job(kept, str(out), str(following), told), status)
    left = {it.name: it.read_text() for it in work.glob("x.*")}
    is_named = status == 0 and not is_there
    wanted = "this one's" if is_named else "another's"
    judge("it has its name", left == ({out.name: wanted} if is_named or is_there else {}), left)
    line = (
        f"{out}: bpfrec export: why"
        if is_named
        else f"{out} isn't made: " + ("bpfrec export: why" if status else "File exists")
    )
    judge("it is said", err == [f"bpfrec live: {line}"], err)
    judge("and goes with its recording", kept.beside == ([str(out)] if is_named else []), kept)
    judge("the status is its own", files.status == (0 if is_named else status or 3), files.status)


def test_a_recording_that_has_to_go_waits_for_no_whole_file(work: Path) -> None:
    """One that waits goes at once, one in work once its tool has ended: what that has made goes too."""
    err: list[str] = []
    gone: list[str] = []
    files = WholeFiles([], Files(), cast(Loop, None), cast(Guard, None), err.append)
    first, second = (Kept(str(work / name), 0, 0) for name in ("a", "b"))
    with tempfile.TemporaryFile() as told:
        files.job = Job(first, f"{work}/a.ch10", f"{work}/a.ch10.new", told)
        files.waiting.append(second)
        judge("it is awaited", files.awaited() == f"{work}/a.ch10, the whole file, and 1 more", files.awaited())
        for kept in (second, first):
            files.let_go(kept.out, "why", partial(gone.append, kept.out))
        judge("one that waits goes", gone == [second.out] and not files.waiting, gone)
        files.end(files.job, 137)
    lines = [f"bpfrec live: {work}/b.ch10 isn't made: why", f"bpfrec live: {work}/a.ch10 isn't made: why"]
    holds = (gone, err, files.awaited(), files.status) == ([second.out, first.out], lines, "", 0)
    judge("and one in work", holds, (gone, err))


# ---- the next recording


def test_an_out_whose_recording_can_not_be_made_is_closed_and_gone(work: Path) -> None:
    """So its name is tried again."""
    removed: list[int] = []

    def fails(_: str) -> Recording:
        raise OSError(28, "full")

    folder = SimpleNamespace(remove=removed.append)
    played = SimpleNamespace(files=Files(), prepare=fails, folder=folder, count=4)
    before = len(os.listdir("/proc/self/fd"))
    with pytest.raises(OSError):
        Recordings.created(cast(Recordings, played), str(work / "out"))
    judge("nothing is left", not (work / "out").exists() and removed == [5], removed)
    judge("nor open", len(os.listdir("/proc/self/fd")) == before)


@pytest.mark.parametrize("room, has_room", [(ROOM - 1, False), (ROOM, True)])
def test_a_next_recording_has_room_from_a_mebibyte_on(
    work: Path, monkeypatch: pytest.MonkeyPatch, room: int, has_room: bool
) -> None:
    monkeypatch.setattr(outputs, "room_beside", lambda _: room)
    judge("it has", Recordings.has_room(cast(Recordings, None), Recording(1, "out")) == has_room and ROOM == 1 << 20)


@pytest.mark.parametrize("ending", ["", ".json", ".json.sig", ".ch10"], ids=["out", "facts", "signature", "whole"])
def test_a_number_is_skipped_that_a_file_of_a_recording_has(work: Path, ending: str) -> None:
    """Also where that is a link that leads nowhere."""
    (work / f"f_00001.ch11{ending}").write_text("kept")
    (work / f"f_00002.ch11{ending}").symlink_to("nowhere")
    judge_same("the next one is taken", Names(str(work / "f.ch11")).next(), (3, f"{work}/f_00003.ch11"))


def test_a_recording_that_went_before_is_no_sync_of_the_one_that_goes_on() -> None:
    """Its keeper forces it to its disk a last time while the next one goes on."""
    synced: list[float] = []
    current, before = Recording(2, "b"), Recording(1, "a")
    part = SimpleNamespace(forced=lambda _, moment: synced.append(moment))
    recorders = Recorders(cast(Any, SimpleNamespace(machine=SimpleNamespace(current=current), parts=[part])))
    for recording, moment in ((before, 1.0), (current, 2.0), (before, 3.0)):
        recorders.forced(cast(Recorder, SimpleNamespace(recording=recording)), moment)
    judge("that one alone is told", synced == [2.0], synced)


# ---- what the guard writes of a run that was killed


ORIGIN = '{"origin": "1764590400.250000000", "counter": 0, "scale": "UTC"}\n'


@pytest.mark.parametrize(
    "earlier, wanted",
    [
        (None, [(None, KILLED_STATUS)]),
        ({"state": "recording", "sync_fault": None}, [(None, KILLED_STATUS)]),
        ({"state": "recording", "sync_fault": "EIO"}, [("EIO", KILLED_STATUS)]),
        ({"state": "ended", "sync_fault": None}, []),
    ],
    ids=["none", "recording", "unforced", "ended"],
)
def test_the_guard_writes_the_last_facts_of_what_has_none(work: Path, earlier: dict | None, wanted: list) -> None:
    """With why it couldn't be forced to its disk, as it stood there; of what has ended they stay as they are."""
    written: list[tuple[Any, Any]] = []
    played = SimpleNamespace(
        folder=SimpleNamespace(events=work / "events"),
        write=lambda about, noted, status: written.append((noted["sync_fault"], status)),
    )
    (work / "events").write_text(ORIGIN)
    (work / "out").write_bytes(b"")
    (work / "about.json").write_text(json.dumps(About(1, str(work / "out"), 0, "2025-12-01T12:00:00Z")))
    if earlier:
        (work / "out.json").write_text(json.dumps(earlier))
    write_facts(cast(Writer, played), work)
    judge("they are those", written == wanted, written)
