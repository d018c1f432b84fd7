"""Tries how long bpfrec info, bpfrec salvage and the plugin of Wireshark search in headers that all claim long
packets."""

import time
from pathlib import Path

import pytest
from bpfrec.formats.packet import header_or_fault
from bpfrec.formats.reader import reader_of
from frames import COMPUTER, FRAMES, body_of, header_of, packet_of, program_packet
from reading import facts_of, salvaged
from rows import rows_of
from support import INFO, MEBIBYTE, SALVAGE, judge, outcome

pytestmark = pytest.mark.wanted("bin/bpfrec", "tshark")
OTHER = 0x30
LENGTH, SHORT_LENGTH = 8_000_000, 1_000_000
# On a quiet machine each takes less than ten seconds, and before the search was linear minutes.
PATIENCE = 40


def header(kind: int, length: int, data_len: int, sequence: int = 12) -> bytes:
    """A header with a data checksum where the data leave room for one, of channel 5; records have channel 0."""
    return header_of(5 * (kind != COMPUTER), (length, data_len), sequence, kind, 1, length - data_len == 28)


# Each piece claims a packet that reaches over thousands of the next ones, whose frames are wrong at their end.
PIECES = {
    "frames": header(FRAMES, 524_288, 524_264),
    "frames_with_sums": header(FRAMES, 524_288, 524_260),
    # Each of these leads to another header.
    "leading": header(FRAMES, 524_280, 524_256),
    "leading_with_sums": header(FRAMES, 524_280, 524_252),
    "empty_frames": header(FRAMES, 524_288, 524_264) + bytes(12),
    "other": header(OTHER, 524_288, 524_264, 100),
    "other_with_sums": header(OTHER, MEBIBYTE, MEBIBYTE - 28),
    "records": header(COMPUTER, MEBIBYTE, MEBIBYTE - 24) + bytes(4) + b"CBPR" + bytes(4),
    # Their data are short, so that each is a damaged place.
    "short_data": header(FRAMES, 524_288, 4) + b"\1\0\0\0",
    "sync_patterns": b"\x25\xeb",
}
each_piece = pytest.mark.parametrize("name", PIECES)


def hostile(work: Path, name: str) -> Path:
    """A recording of a program and of these pieces, back to back."""
    length = LENGTH if name == "frames" else SHORT_LENGTH
    (work / "hostile.ch11").write_bytes(program_packet(1, 0) + b"junk" + PIECES[name] * (length // len(PIECES[name])))
    return work / "hostile.ch11"


@each_piece
def test_salvage_of_hostile_headers_ends_in_seconds(work: Path, name: str) -> None:
    done = outcome(SALVAGE, hostile(work, name), "/dev/null", seconds=PATIENCE)
    judge("what is no packet is lost", done.returncode == 1 and "lost " in done.stdout, done)


@each_piece
def test_info_of_hostile_headers_ends_in_seconds(work: Path, name: str) -> None:
    done = outcome(INFO, hostile(work, name), seconds=PATIENCE)
    judge("what is no packet is damaged", done.returncode == 1 and "DAMAGED" in done.stdout, done)


@each_piece
def test_the_plugin_ends_in_seconds(work: Path, name: str) -> None:
    path = hostile(work, name)
    rows = rows_of(work, path, seconds=PATIENCE)
    damaged = sum(int(it.get("damaged_length", 0)) for it in rows)
    packets = sum(int(it["row_length"]) for it in rows if "damage" not in it and "first" in it)
    others = [it for it in rows if it.get("type") == f"0x{OTHER:02x}"]
    judge("nothing is left out", others or damaged + packets == path.stat().st_size, (damaged, packets))
    judge("a damaged place that takes long is several rows", name != "frames" or len(rows) > 2, len(rows))


@pytest.mark.parametrize("name", ["frames", "frames_with_sums", "other_with_sums"])
def test_what_is_whole_behind_such_headers_is_kept(name: str) -> None:
    frames = [packet_of(1, body_of([(at, 0, bytes(1_500))] * 40), at, FRAMES, at, False) for at in range(10)]
    damaged = program_packet(1, 0) + b"junk" + PIECES[name] * 20_000
    kept, told = salvaged(damaged + b"".join(frames))
    judge("the packets behind them", kept == program_packet(1, 0) + b"".join(frames), told)


def test_many_damaged_places_take_seconds(work: Path) -> None:
    """A search that was right gives back what it judged."""
    frames = [packet_of(1, body_of([(at, 0, bytes(1_500))] * 40), at, FRAMES, at, False) for at in range(300)]
    (work / "many.ch11").write_bytes(program_packet(1, 0) + b"\1".join(frames))
    begun = time.monotonic()
    facts = facts_of(work / "many.ch11")
    judge("all frames are there", facts["channels"]["1"]["frames"] == 12_000, facts["damaged_count"])
    judge("soon", time.monotonic() - begun < PATIENCE)


def test_a_header_is_judged_once_in_each_damaged_place(monkeypatch: pytest.MonkeyPatch, work: Path) -> None:
    """So eight megabytes of headers, each a damaged place, take seconds."""
    (work / "headers.ch11").write_bytes((header(FRAMES, 28, 0) + bytes(4)) * 1_000)
    judged: list[bytes] = []

    def counted(head: bytes) -> object:
        judged.append(head)
        return header_or_fault(head)

    monkeypatch.setattr("bpfrec.formats.held.header_or_fault", counted)
    with open(work / "headers.ch11", "rb") as file:
        places = list(reader_of(file).pieces())
    judge("each is a damaged place", len(places) == 1_000, len(places))
    judge("each is judged once", len(judged) == 1_000, len(judged))
