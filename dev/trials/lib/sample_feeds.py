"""Feeds of sample frames for trials, and captures of feeds: ARP, and UDP over IPv4."""

import random
import struct
from pathlib import Path

from frames import record_of, records, with_check_sequence
from pcapng import NANOSECONDS, capture_head, captured

SOURCE = bytes.fromhex("020000000001")
TARGET = bytes.fromhex("020000000002")
BROADCAST = bytes.fromhex("ffffffffffff")
# A group, 239.1.2.3, and its address on Ethernet.
GROUP, TO_GROUP = bytes((239, 1, 2, 3)), bytes.fromhex("01005e010203")
SENDER, RECEIVER = bytes((10, 0, 0, 1)), bytes((10, 0, 0, 2))
# The tag of VLAN 100.
VLAN_TAG = b"\x81\x00\x00\x64"
# The ticks between two frames.
LEAST_PAUSE, MOST_PAUSE = 100, 10_100
SOURCE_PORT, FIRST_PORT, PORTS, MOST_PAYLOAD = 50_000, 50_001, 4, 400
LEAST_LENGTH, CHECK_SEQUENCE = 60, 4
# The link type of Ethernet whose frames end with check sequences, of two words.
WITH_CHECK_SEQUENCES = 1 | 1 << 26 | 2 << 28
MOST_CAPTURED = 262_144


def internet_checksum(header: bytes) -> int:
    """The checksum of an IPv4 header, in which its field is 0."""
    total = sum(struct.unpack(f">{len(header) // 2}H", header))
    while total >> 16:
        total = (total & 0xFFFF) + (total >> 16)
    return total ^ 0xFFFF


def udp_datagram(source: bytes, target: bytes, port: int, payload: bytes) -> bytes:
    """UDP over IPv4; a UDP checksum of 0 says that there is none."""
    udp = struct.pack(">HHHH", SOURCE_PORT, port, 8 + len(payload), 0) + payload
    header = struct.pack(">BBHHHBBH", 0x45, 0, 20 + len(udp), 0, 0, 64, 17, 0) + source + target
    return header[:10] + struct.pack(">H", internet_checksum(header)) + header[12:] + udp


def arp_request() -> bytes:
    """A request for the receiver's address."""
    request = struct.pack(">HHBBH", 1, 0x0800, 6, 4, 1) + SOURCE + SENDER + bytes(6) + RECEIVER
    return BROADCAST + SOURCE + b"\x08\x06" + request


def sample_frame(draw: random.Random) -> bytes:
    """One of: ARP, UDP to the ports 50001 to 50004 (some of VLAN 100), and to the group 239.1.2.3."""
    kind = draw.random()
    payload = bytes(int(draw.random() * 256) for _ in range(int(draw.random() * MOST_PAYLOAD)))
    port = FIRST_PORT + int(draw.random() * PORTS)
    if kind < 0.1:
        return arp_request()
    if kind < 0.3:
        return TO_GROUP + SOURCE + b"\x08\x00" + udp_datagram(SENDER, GROUP, port, payload)
    tag = VLAN_TAG if kind < 0.4 else b""
    return TARGET + SOURCE + tag + b"\x08\x00" + udp_datagram(SENDER, RECEIVER, port, payload)


def sample_feed(path: Path, seed: int, count: int) -> Path:
    """Writes a feed of sample frames, the same for the same seed; the first counter is 0."""
    draw, counter, parts = random.Random(seed), 0, []
    for _ in range(count):
        parts.append(record_of(counter, with_check_sequence(sample_frame(draw).ljust(LEAST_LENGTH, b"\0"))))
        counter += LEAST_PAUSE + int(draw.random() * (MOST_PAUSE - LEAST_PAUSE))
    path.write_bytes(b"".join(parts))
    return path


def capture_of(feed: Path, path: Path, origin: int = 0, has_check_sequences: bool = True) -> Path:
    """Writes a classic capture of a feed, by the moment of counter 0 in nanoseconds."""
    head = capture_head(NANOSECONDS, MOST_CAPTURED, WITH_CHECK_SEQUENCES if has_check_sequences else 1)
    end = None if has_check_sequences else -CHECK_SEQUENCE
    frames = (
        captured(*divmod(origin + it.counter * 100, 10**9), it.frame[:end]) for it in records(feed.read_bytes())
    )
    path.write_bytes(head + b"".join(frames))
    return path
