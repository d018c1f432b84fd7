"""Programs as texts, and frames of all kinds that they keep or drop."""

KEEP_OR_DROP = "keep: ret #1\ndrop: ret #0\n"
TEXTS = {
    "an outer tag 0x8100": f"ldh [12]\njeq #0x8100,keep,drop\n{KEEP_OR_DROP}",
    "an outer tag 0x88a8": f"ldh [12]\njeq #0x88a8,keep,drop\n{KEEP_OR_DROP}",
    "an inner tag 0x8100": f"ldh [16]\njeq #0x8100,keep,drop\n{KEEP_OR_DROP}",
    "the priority of a tag": f"ldh [12]\njne #0x8100,drop\nldb [14]\nrsh #5\njeq #5,keep,drop\n{KEEP_OR_DROP}",
    "a length of 60 or more": f"ld len\njge #60,keep,drop\n{KEEP_OR_DROP}",
    "another length than 64, by ret a": "ld len\nsub #64\nret a\n",
    "a byte behind short frames": f"ldb [59]\njeq #0,keep,drop\n{KEEP_OR_DROP}",
    "a byte behind short frames and a tag": "ldb [61]\nld len\nsub #1514\nret a\n",
    "bytes by ret a": "ldh [12]\nxor #0x0800\nret a\n",
    "A and X before they are set": f"add #12\nadd x\ntax\nldh [x + 0]\njeq #0x8100,keep,drop\n{KEEP_OR_DROP}",
    "A as it begins, by ret a": "jeq #0,L1,L2\nL1: txa\nadd #0\njeq #0,L3,L2\nL2: ret #0\nL3: ldb [11]\nand #1\nret a\n",
    "scratch words": "ld len\nst M[15]\nldx M[15]\nstx M[0]\nldh [12]\nst M[7]\nld M[0]\nsub #60\ntax\nld M[7]\nsub x\n"
    "and #2\nret a\n",
}


def ipv4(port: int, protocol: int = 17) -> bytes:
    head = bytes.fromhex("45000024 00010000 40") + bytes([protocol]) + bytes.fromhex("0000 0a000001 0a000002")
    return head + port.to_bytes(2, "big") + (4_000).to_bytes(2, "big") + bytes.fromhex("00100000")


def payloads() -> list[bytes]:
    """What follows the addresses: with and without tags."""
    plain = [
        b"\x08\x00" + ipv4(53),
        b"\x08\x00" + ipv4(54),
        b"\x08\x00" + ipv4(53, 6),
        b"\x08\x06" + bytes(28),
        b"\x88\xb5" + bytes(range(30)),
        b"\x86\xdd" + bytes.fromhex("60000000 0008 11 40") + bytes(32) + bytes.fromhex("0035 0fa0 0008 0000"),
    ]
    tags = [
        b"",
        b"\x81\x00\x00\x64",
        b"\x81\x00\x00\x05",
        b"\x81\x00\xa0\x00",
        b"\x88\xa8\x00\x64",
        b"\x88\xa8\x00\x64\x81\x00\x00\x05",
        b"\x81\x00\x00\x64\x81\x00\x00\x05",
        b"\x88\xa8\x00\x05\x88\xa8\x00\x64\x81\x00\xa0\x64",
    ]
    return [tag + data for data in plain for tag in tags]


def mixed_frames() -> list[bytes]:
    """Frames of all these kinds, cut or padded to many lengths, with their numbers in their senders' addresses."""
    kinds = payloads()
    lengths = [60, 61, 62, 63, 64, 68, 100, 1_514]
    shaped = [(kinds[1], 0), *[(kind, length) for kind in kinds for length in lengths]]
    # Of a tagged frame of fewer bytes than its head and tag the kernel shows nothing.
    shaped += [(kinds[at % len(kinds)], length) for length in range(14, 60) for at in range(length, length + 5)]
    shaped += [(kinds[at], length) for at in (0, 8, 16, 24, 32) for length in range(14, 60)]
    frames = []
    for number, (kind, length) in enumerate(shaped):
        addresses = bytes.fromhex("020000000002 0200") + number.to_bytes(4, "big")
        whole = addresses + kind
        frames.append(whole if length == 0 else whole[:length].ljust(length, b"\0"))
    return frames
