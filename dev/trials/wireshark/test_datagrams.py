"""Tries the plugin for Wireshark on datagrams by which packets are published: each frame is dissected, at a port that a
preference names."""

import struct
from pathlib import Path

import pytest
from bpfrec_tools.publish.datagrams import Datagrams
from frames import FRAMES
from ground import drawn_flight, stream_of
from packets import frames_in
from pcapng import MICROSECONDS, capture_head, captured
from rows import printed
from support import judge
from whole_file_parts import Part, parts_of

pytestmark = pytest.mark.wanted("tshark")
PORT = 50_000
AT_PORT = ("-o", f"ch10udp.port:{PORT}")


def datagrams_of(parts: list[Part], most: int) -> list[bytes]:
    """The datagrams of packets, of which each three are flushed."""
    found: list[bytes] = []
    datagrams = Datagrams(most, found.append)
    for number, part in enumerate(parts):
        datagrams.add(part.bytes())
        if number % 3 == 2:
            datagrams.flush()
    datagrams.flush()
    return found


def by_udp(data: bytes, sender: int) -> bytes:
    """A frame of Ethernet that has a datagram of a sender's port."""
    udp = struct.pack(">HHHH", sender, PORT, 8 + len(data), 0) + data
    addresses = bytes([127, 0, 0, 1]) * 2
    return bytes(12) + b"\x08\0" + struct.pack(">BBHIBBH", 0x45, 0, 20 + len(udp), 0, 64, 17, 0) + addresses + udp


def write(work: Path, *streams: list[bytes]) -> Path:
    """A capture of the datagrams of several senders, in turn."""
    path, data = work / "udp.pcap", [capture_head(MICROSECONDS, 262_144)]
    for number in range(max(map(len, streams))):
        data += [captured(number, 0, by_udp(it[number], at)) for at, it in enumerate(streams, 40_000) if it[number:]]
    path.write_bytes(b"".join(data))
    return path


def shown(work: Path, path: Path, field: str, *words: object) -> list[str]:
    """What tshark shows of a field, over all datagrams."""
    lines = printed(work, *words, "-r", path, "-T", "fields", "-e", field)
    return [value for line in lines for value in line.split(",") if value]


def counters_of(parts: list[Part]) -> list[str]:
    """The counters of packets and frames in the order in which they stand."""
    found = []
    for part in parts:
        found.append(part.counter)
        found += [it.counter for it in frames_in(part.data)] if part.kind == FRAMES else []
    return [str(it) for it in found]


def packets_of_frames(work: Path, seed: int) -> list[Part]:
    """Packets of frames that are published."""
    return [it for it in parts_of(bytes(stream_of(drawn_flight(work, seed)).file.data)) if it.kind == FRAMES]


@pytest.mark.parametrize("most, passes", [(64, []), (300, ["-2"]), (1_472, []), (65_504, [])])
def test_each_frame_of_datagrams_is_dissected(work: Path, most: int, passes: list[str]) -> None:
    """Also of packets in parts, where two senders have the same."""
    parts = packets_of_frames(work, 3)
    datagrams = datagrams_of(parts, most)
    path = write(work, datagrams)
    counters = shown(work, path, "ch11.counter", *AT_PORT, *passes)
    judge("packets and frames", counters == counters_of(parts), (len(counters), len(counters_of(parts))))
    numbers = shown(work, path, "ch10udp.number", *AT_PORT)
    judge("numbers of datagrams", numbers == [str(it) for it in range(len(datagrams))], numbers[:5])
    both = write(work, datagrams, datagrams)
    judge("of two senders", len(shown(work, both, "ch11.counter", *AT_PORT, *passes)) == 2 * len(counters))
    frames = printed(work, *AT_PORT, "-r", path, "-T", "fields", "-e", "eth.fcs")
    holds = sum(map(len, (it.split(",") for it in frames if it))) > len(parts) // 2
    judge("as Ethernet with its check sequence", holds)


def test_a_packet_whose_parts_are_missing_or_exchanged_is_left_out(work: Path) -> None:
    parts = packets_of_frames(work, 3)
    datagrams = datagrams_of(parts, 64)
    kinds = [it[0] >> 4 for it in datagrams]
    cut = kinds.index(1) + 1
    ahead, (one, other, *behind) = datagrams[:cut], datagrams[cut:]
    for what, between in (("missing", [other]), ("exchanged", [other, one])):
        counters = shown(work, write(work, [*ahead, *between, *behind]), "ch11.counter", *AT_PORT)
        judge(what, counters == counters_of(parts[1:]), len(counters))


def test_damaged_packets_and_other_datagrams_are_said(work: Path) -> None:
    (whole, *_) = datagrams_of(packets_of_frames(work, 3), 65_504)
    changed = whole[:8] + b"\xff" + whole[9:]
    path = write(work, [changed, b"\x01\0\0\0", b"\x02", b""])
    lines = printed(work, *AT_PORT, "-r", path)
    judge("no packet", "datagram 0: 0 packets, 0 frames" in lines[0] and "datagram 0: no packet" in lines[1], lines)
    judge("another's", all(" UDP " in it for it in lines[2:]), lines)
    judge("damage is told", shown(work, path, "_ws.expert.message", *AT_PORT)[0] == "Bytes that are no packet")


def test_without_a_port_they_are_data(work: Path) -> None:
    path = write(work, datagrams_of(packets_of_frames(work, 3), 1_472))
    judge("no field", shown(work, path, "ch10udp.number") == [])
    judge("nor at another port", shown(work, path, "ch10udp.number", "-o", "ch10udp.port:5") == [])
