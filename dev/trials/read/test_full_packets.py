"""Tries all that reads or writes recordings on a packet that is full to its last byte (dev/trials/lib/corners.py)."""

from collections.abc import Callable
from pathlib import Path

import bpfrec
import pytest
from bpfrec_tools.verbs import VERBS
from corners import FULL, MOST_PACKET, Full
from exports import wanted_of
from frames import feed_of
from ground import Receiver, free_port, send, stream_of, write_facts
from packets import packets_in
from pcapng_blocks import frames_in
from reading import facts_of, salvaged
from recorder import record, write_settings
from rows import rows_of
from second_opinion import opinion_at
from streamed import Stream
from support import BPFREC, CHECK, EXPORT, FOLLOW, judge, outcome, run, sums
from whole_file import Origin, Setup, whole_file
from whole_file_trials import setup_text

pytestmark = pytest.mark.wanted("bin/bpfrec", "tshark")
ORIGIN = 1_764_590_400_250_000_000
SETUP = Setup((Origin(0, ORIGIN),), channels={1: ("eth1", 0)})
# The verbs that neither read nor write packets of recordings.
OF_NO_PACKETS = {"preflight", "tell", "filter", "capture", "asm", "dis", "verify", "run", "simulate"}


class Case:
    """A corner as a file, with facts beside it, a folder, and the frames that tools give: an empty one is none."""

    def __init__(self, work: Path, corner: Full) -> None:
        self.work, self.corner, self.path = work, corner, work / "x.ch11"
        self.path.write_bytes(corner.data)
        write_facts(self.path, SETUP)
        self.kept = [it for it in corner.frames if len(it[2]) >= 18]

    def judge(self, what: str, found: object, wanted: object) -> None:
        """They are equal; neither is shown, since they are long."""
        judge(what, found == wanted, (str(found)[:200], str(wanted)[:200]))

    def judge_capture(self, what: str, data: bytes) -> None:
        """A capture has the frames, with their times."""
        found = [(it.moment, it.bytes) for it in frames_in(data)]
        self.judge(what, found, [(ORIGIN + 100 * counter, frame) for counter, _, frame in self.kept])

    def judge_python(self, path: Path) -> None:
        found = [(it.counter, it.bytes) for it in bpfrec.open(path)]
        self.judge("frames in Python", found, [(counter, frame) for counter, _, frame in self.kept])


def by_record(case: Case) -> None:
    """Writes it of a feed; only the second profile is written, and no recorder takes an empty frame."""
    if not case.corner.is_summed or case.kept != case.corner.frames:
        return
    (case.work / "one.feed").write_bytes(feed_of(case.corner.frames))
    settings = write_settings(case.work, ["one.feed"], ["all"])
    settings.write_text(f"limit = {MOST_PACKET - 4}\n{settings.read_text()}")
    done = record(settings, case.work / "made.ch11")
    case.judge("it is recorded", (done.returncode, (case.work / "made.ch11").read_bytes()), (0, case.corner.data))


def by_list(case: Case) -> None:
    rows = [it.split() for it in run(BPFREC, "list", case.path).splitlines()]
    frames = [(int(it[4]), int(it[8])) for it in rows if it[7:8] == ["frames"]]
    lengths = lengths_in(case.corner.data)[1:3]
    case.judge("a full packet and a short one", frames, [*zip(lengths, (len(case.corner.frames) - 1, 1))])
    judge("no other", rows[-1] == ["packets", "4", "other", "0"], rows[-1])


def places_in(data: bytes) -> list[int]:
    return [it[0] for it in packets_in(data)]


def lengths_in(data: bytes) -> list[int]:
    places = [*places_in(data), len(data)]
    return [after - at for at, after in zip(places, places[1:])]


def by_audit(case: Case) -> None:
    count = len(case.corner.frames)
    wanted = [f"channel 1 programs 1 frames {count} offered {count}", "yes other 0"]
    if case.kept != case.corner.frames:
        wanted = ["no 3 NotAccepted 1 0"]
    case.judge("audit", outcome(BPFREC, "audit", case.path).stdout.splitlines(), wanted)


def by_extract(case: Case) -> None:
    told = run(BPFREC, "extract", case.path, 1, case.work / "out.feed")
    case.judge("counts", told, f"frames {len(case.kept)} passed {len(case.corner.frames) - len(case.kept)}\n")
    case.judge("the feed", (case.work / "out.feed").read_bytes(), feed_of(case.kept))


def by_export(case: Case) -> None:
    run(BPFREC, "export", case.path, case.work / "out.pcapng")
    case.judge("by its page", (case.work / "out.pcapng").read_bytes(), wanted_of(case.corner.data).bytes)
    run(EXPORT, case.path, case.work / "times.pcapng")
    case.judge_capture("with times", (case.work / "times.pcapng").read_bytes())
    run(EXPORT, case.path, case.work / "times.ch10")
    judge("a whole file", opinion_at(case.work / "times.ch10").is_right)
    case.judge_python(case.work / "times.ch10")


def by_chapter11(case: Case) -> None:
    """At once and as a stream; what reads whole files reads it."""
    (case.work / "setup.toml").write_text(setup_text(SETUP))
    made, words = case.work / "made.ch10", [BPFREC, "chapter11"]
    run(*words, case.path, case.work / "setup.toml", made)
    case.judge("the whole file", made.read_bytes(), bytes(whole_file(case.corner.data, SETUP).data))
    done = outcome(*words, "--stream", case.work / "setup.toml", input=case.corner.data, text=False)
    stream = Stream(SETUP)
    for packet in packets_in(case.corner.data):
        stream.put(*packet)
    case.judge("the stream", (done.returncode, done.stdout), (0, bytes(stream.file.data)))
    case.judge_python(made)


def by_upgrade(case: Case) -> None:
    """All packets get sums but the one for whose sum there is no room."""
    run(BPFREC, "upgrade", case.path, case.work / "new.ch11")
    found = [it[4] for it in packets_in((case.work / "new.ch11").read_bytes())]
    case.judge("data", found, [it[4] for it in packets_in(case.corner.data)])
    flags = [case.corner.is_summed or length < MOST_PACKET for length in lengths_in(case.corner.data)]
    kept = (case.work / "new.ch11").read_bytes()
    case.judge("profiles", [kept[at + 14] == 3 for at in places_in(kept)], flags)


def by_info(case: Case) -> None:
    told = facts_of(case.path)
    count, channel = len(case.corner.frames), told["channels"]["1"]
    case.judge("info", (channel["frames"], channel["offered"], told["damaged_count"]), (count, count, 0))


def by_check(case: Case) -> None:
    Path(f"{case.path}.json").unlink()
    is_whole = case.kept == case.corner.frames
    case.judge("check", outcome(CHECK, case.path).returncode, 0 if is_whole else 1)
    told, summed = sums(case.path).stdout, 4 * case.corner.is_summed
    case.judge("its sums", told, f"packets 4 data checksums {summed} without {4 - summed} wrong 0\n")


def by_follow(case: Case) -> None:
    done = outcome(FOLLOW, case.path, text=False)
    judge("it ends", done.returncode == 0, done.stderr)
    case.judge_capture("follow", done.stdout)


def by_publish(case: Case) -> None:
    """And by receive, in datagrams of the usual size."""
    port = free_port()
    receiver = Receiver(case.work, "ground.ch10", f"127.0.0.1:{port}")
    counts = send(case.path, f"127.0.0.1:{port}")
    status, received = receiver.ended()
    case.judge("all comes", (status, received.lost, received.datagrams), (0, 0, counts.datagrams))
    case.judge("as the second writer has it", receiver.out.read_bytes(), bytes(stream_of(case.path).file.data))


def by_salvage(case: Case) -> None:
    """Also where the byte before the full packet isn't one of a recording."""
    case.judge("salvage", salvaged(case.corner.data)[0], case.corner.data)
    at = places_in(case.corner.data)[1]
    case.judge("behind damage", salvaged(b"x" + case.corner.data[at:])[0], case.corner.data[at:])


def by_package(case: Case) -> None:
    case.judge_python(case.path)


def by_plugin(case: Case) -> None:
    rows = rows_of(case.work, case.path)
    found = [(int(it["counter"]), int(it["length"]), int(it["number"])) for it in rows if "number" in it]
    wanted = [(counter, len(frame), at) for at, (counter, _, frame) in enumerate(case.corner.frames)]
    case.judge("frames in the plugin", found, wanted)
    judge("and a program and an end", len(rows) == len(wanted) + 2, len(rows))


READERS: dict[str, Callable[[Case], None]] = {
    "record": by_record,
    "list": by_list,
    "audit": by_audit,
    "extract": by_extract,
    "export": by_export,
    "chapter11": by_chapter11,
    "upgrade": by_upgrade,
    "info": by_info,
    "check": by_check,
    "follow": by_follow,
    "publish": by_publish,
    "salvage": by_salvage,
    "the Python package": by_package,
    "the plugin": by_plugin,
}


@pytest.mark.parametrize("name", FULL)
@pytest.mark.parametrize("reader", READERS)
def test_a_full_packet_is_read_and_written_to_its_last_byte(work: Path, reader: str, name: str) -> None:
    READERS[reader](Case(work, FULL[name]()))


def test_each_verb_that_reads_or_writes_packets_has_its_row() -> None:
    """That of publish has receive too, and dev/trials/live/test_full_packets.py what live records."""
    assert set(VERBS) - set(READERS) == OF_NO_PACKETS | {"receive", "live"}
