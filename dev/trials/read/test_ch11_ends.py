"""Tries the two readers of recordings, bpfrec's and that of host/, at both ends of each length and number, and with
bytes set that neither judges. What each case is, is known by docs/user/formats/recording.md."""

import struct
from pathlib import Path

import pytest
from bpfrec.formats.body import Frames
from bpfrec.formats.packet import What
from bpfrec.formats.records import Program
from frames import COMPUTER, FRAMES, HEADER_LENGTH, PROGRAM, end_data, insns_of, record_data, sum_of
from reading import packets_of, salvaged
from support import BPFREC, judge, outcome

pytestmark = pytest.mark.wanted("bin/bpfrec")
MOST_ETHERNET = 524_288
FRAME = b"\xff" * 18


def packet(data: bytes, kind: int = FRAMES, channel: int = 1, **more: int) -> bytes:
    """A packet whose header may have other numbers than those that follow from its data."""
    flags, filler, counter = more.get("flags", 0), more.get("filler", -len(data) % 4), more.get("counter", 7)
    body = data + bytes([more.get("filler_byte", 0)]) * filler
    body += sum_of(body, 4).to_bytes(4, "little") if flags & 3 == 3 else b""
    length = more.get("packet_len", HEADER_LENGTH + len(body))
    head = struct.pack("<HHII", 0xEB25, channel, length, more.get("data_len", len(data)))
    head += struct.pack("<BBBB", more.get("version", 8), more.get("sequence", 0), flags, kind)
    head += counter.to_bytes(6, "little")
    return head + sum_of(head, 2).to_bytes(2, "little") + body


def frame(content: bytes = FRAME, counter: int = 5, word: int = 0, **more: int) -> bytes:
    """A frame of a body; its word may have other bits, and its filler may be set or missing."""
    filler = bytes([more.get("filler", 0)]) * (len(content) % 2)
    head = counter.to_bytes(6, "little") + more.get("after", 0).to_bytes(2, "little")
    return head + (word | len(content)).to_bytes(4, "little") + content + filler


def body(*frames: bytes, word: int = 0) -> bytes:
    return struct.pack("<I", word | len(frames)) + b"".join(frames)


def program(insns: int, said: int | None = None, zero: int = 0) -> bytes:
    count = insns if said is None else said
    return record_data(PROGRAM, 1, struct.pack("<IQHH", 0, 0, count, zero) + insns_of((6, 0, 0, 1)) * insns)


END, GREATEST_END = end_data(1, 2**64 - 1, 2**64 - 1), f"end 1 {2**64 - 1} {2**64 - 1}"
OF_ONE = body(frame())
COMPUTED = {"kind": COMPUTER, "channel": 0}
ETHERNET_ROOM = MOST_ETHERNET - HEADER_LENGTH
OTHER, CHECKSUMMED = {"kind": 0x40}, {"flags": 3}
# By name: a packet, and how `list` ends its line, or the fault.
PACKETS: dict[str, tuple[bytes, str]] = {
    # lengths of packets and data
    "header_alone": (packet(b"", **OTHER), "other"),
    "header_alone_with_sum": (packet(b"", **OTHER, **CHECKSUMMED), "other"),
    "under_header": (packet(b"", **OTHER, packet_len=20), "read 4 Length 0"),
    "no_multiple_of_4": (packet(OF_ONE, filler=1) + b"\0", "read 4 Length 0"),
    "data_fill_packet": (packet(bytes(8), **OTHER, data_len=8), "other"),
    "data_over_packet": (packet(bytes(8), **OTHER, data_len=9), "read 4 Length 0"),
    "data_up_to_sum": (packet(bytes(8), **OTHER, **CHECKSUMMED, data_len=8), "other"),
    "data_over_sum": (packet(bytes(8), **OTHER, **CHECKSUMMED, data_len=9), "read 4 Length 0"),
    "sum_without_room": (packet(b"", **OTHER, flags=2, packet_len=24), "other"),
    "longest_of_frames": (packet(OF_ONE, filler=ETHERNET_ROOM - len(OF_ONE)), "frames 1"),
    "over_longest_of_frames": (packet(OF_ONE, filler=ETHERNET_ROOM - len(OF_ONE) + 4), "read 4 Length 0"),
    "longer_of_another": (packet(bytes(ETHERNET_ROOM + 4), **OTHER), "other"),
    # lengths of bodies and frames
    "body_of_3_bytes": (packet(bytes(3)), "read 5 Body 0"),
    "body_of_no_frame": (packet(body()), "frames 0"),
    "empty_frame": (packet(body(frame(b""))), "frames 1"),
    "frame_of_17": (packet(body(frame(bytes(17)))), "frames 1"),
    "frame_of_18": (packet(OF_ONE), "frames 1"),
    "longest_frame": (packet(body(frame(bytes(16_383)))), "frames 1"),
    "most_frames": (packet(body(*[frame(b"")] * 43_000)), "frames 43000"),
    "frame_is_missing": (packet(body(word=1)), "read 5 Body 0"),
    "frame_is_cut": (packet(body(frame(FRAME)[:-1])), "read 5 Body 0"),
    "frame_left_over": (packet(body(frame()) + b"\0"), "read 5 Body 0"),
    "filler_is_missing": (packet(body(frame(bytes(19))[:-1])), "frames 1"),
    "filler_of_the_first_is_missing": (packet(body(frame(bytes(19))[:-1], frame())), "read 5 Body 0"),
    "greatest_counter": (packet(body(frame(counter=2**48 - 1)), counter=2**48 - 1), "frames 1"),
    "format_1": (packet(body(frame(), word=1 << 28)), "other"),
    "format_15": (packet(body(frame(), word=15 << 28)), "other"),
    # lengths of records
    "no_instruction": (packet(program(0), **COMPUTED), "program 1 0 0 0"),
    "most_instructions": (packet(program(65_535), **COMPUTED), "program 1 0 0 65535"),
    "instruction_missing": (packet(program(1, 2), **COMPUTED), "read 5 Body 0"),
    "instruction_left_over": (packet(program(2, 1), **COMPUTED), "read 5 Body 0"),
    "tag_alone": (packet(bytes(4) + b"CBPR", **COMPUTED), "read 5 Body 0"),
    "cut_tag": (packet(bytes(4) + b"CBP", **COMPUTED), "other"),
    "head_of_11": (packet(record_data(1, 1, b"")[:11], **COMPUTED), "read 5 Body 0"),
    "head_of_12": (packet(record_data(1, 1, b""), **COMPUTED), "read 5 Body 0"),
    "greatest_end": (packet(END, **COMPUTED), GREATEST_END),
    "end_of_27": (packet(END[:-1], **COMPUTED), "read 5 Body 0"),
    "end_of_29": (packet(END + b"\0", **COMPUTED), "read 5 Body 0"),
    "kind_0": (packet(record_data(0, 1, bytes(16)), **COMPUTED), "read 5 Body 0"),
    "kind_3": (packet(record_data(3, 1, bytes(16)), **COMPUTED), "read 5 Body 0"),
    "channel_0": (packet(record_data(2, 0, bytes(16)), **COMPUTED), "read 5 Body 0"),
    "greatest_channel": (packet(record_data(2, 65_535, bytes(16)), **COMPUTED), "end 65535 0 0"),
    "record_of_channel_1": (packet(END, kind=COMPUTER, channel=1), "other"),
    # what isn't judged
    "any_word_of_a_body": (packet(body(frame(), word=0x0FFF0000)), "frames 1"),
    "any_two_behind_a_counter": (packet(body(frame(after=0xFFFF))), "frames 1"),
    "any_two_bits_of_a_word": (packet(body(frame(word=0xC000))), "frames 1"),
    "any_word_of_a_frame": (packet(body(frame(word=0xFFFFC000))), "frames 1"),
    "any_filler_of_a_frame": (packet(body(frame(bytes(19), filler=255), frame())), "frames 2"),
    "any_filler_of_a_packet": (packet(body(frame(bytes(19))), filler_byte=255), "frames 1"),
    "any_filler_at_the_sum": (packet(END, **COMPUTED, **CHECKSUMMED, filler=8, filler_byte=255), GREATEST_END),
    "any_word_of_a_record": (packet(record_data(2, 1, bytes(16), word=2**32 - 1), **COMPUTED), "end 1 0 0"),
    "any_zero_of_a_program": (packet(program(1, zero=65_535), **COMPUTED), "program 1 0 0 1"),
    "any_version_and_sequence": (packet(OF_ONE, version=255, sequence=255), "frames 1"),
    "any_counter": (packet(OF_ONE, counter=2**48 - 1), "frames 1"),
    **{f"flag_bit_{bit}": (packet(OF_ONE, flags=1 << bit), "frames 1") for bit in (2, 3, 4, 5)},
    **{f"flag_bit_{bit}": (packet(OF_ONE, flags=1 << bit), "other") for bit in (0, 1, 6, 7)},
    # sums
    "sum": (packet(OF_ONE, **CHECKSUMMED), "frames 1"),
    "wrong_sum": (packet(OF_ONE, **CHECKSUMMED)[:-1] + b"\x01", "read 8 DataChecksum 0"),
    "wrong_sum_and_body": (packet(bytes(3), **CHECKSUMMED)[:-1] + b"\x01", "read 8 DataChecksum 0"),
    "wrong_sum_of_another": (packet(OF_ONE, **OTHER, **CHECKSUMMED)[:-1] + b"\x01", "other"),
}


def described(what: What) -> str:
    """What a packet holds for the reader of host/, in the words of `list`."""
    if isinstance(what, Frames):
        return f"frames {len(what.counters)}"
    if isinstance(what, Program):
        return f"program {what.channel} {what.version} {what.first} {len(what.insns) // 8}"
    return "other" if what is None else f"end {what.channel} {what.offered} {what.kept}"


@pytest.mark.parametrize("name", PACKETS)
def test_both_readers_take_or_refuse_a_packet_alike(work: Path, name: str) -> None:
    """`list` and salvage take a packet, or say why it is none."""
    data, wanted = PACKETS[name]
    (work / "one.ch11").write_bytes(data)
    done = outcome(BPFREC, "list", work / "one.ch11")
    if wanted.startswith("read "):
        judge(f"list: {wanted}", (done.returncode, done.stderr) == (1, f"{wanted}\n"), done)
        kept, told = salvaged(data)
        judge(f"bpfrec salvage: {wanted}", f"after {wanted}".rsplit(" ", 1)[0] in told and kept == b"", told)
        return
    lines = done.stdout.splitlines()
    judge(f"list: {wanted}", len(lines) == 2 and lines[0].split(" ", 7)[7] == wanted, done)
    kept, told = salvaged(data)
    judge("salvage keeps it", kept == data, told)
    found = packets_of(data)
    judge("it is one packet for info", len(found) == 1 and found[0].bytes == data, found)
    judge("which holds the same", described(found[0].what) == wanted, found[0].what)
