"""Inputs of every kind that are drawn or damaged, and the samples of the repository, for fuzz.py."""

from collections.abc import Iterator
from random import Random

from frames import FRAMES, sum_of
from packets import frames_in, packets_in
from support import ROOT

# Counter, marks and bytes.
Frame = tuple[int, int, bytes]
Program = list[list[int]]
DATA = ROOT / "crates/test_cases/data"
CODES = bytes.fromhex(
    "00 01 02 03 04 05 06 07 0c 14 15 16 1d 20 24 25 28 2c 30 34 35 3c"
    "40 44 45 48 50 54 5c 60 61 64 6c 74 80 81 84 87 94 9c a4 ac b1"
)
WORDS = [0, 1, 2, 4, 12, 14, 15, 16, 31, 32, 254, 255, 256, 2048, 2054, 65535, 2**31, 2**32 - 1]
TOKENS = (
    b"ldh|ld|ldb|ldx|ldxb|st|stx|jmp|ja|jeq|jne|jlt|jle|jgt|jge|jset|add|sub|mul|div|mod|neg|and|or|"
    b"xor|lsh|rsh|tax|txa|ret|[12]|[x + 1]|M[0]|M[15]|#0x806|#1|#-1|x|a|len|#len|4*([14]&0xf)|,|:|"
    b"drop|yes|no|\n|;|/*|*/|0|08|4294967296|%x"
).split(b"|")


def drawn_program(draw: Random) -> Program:
    """Instructions most of which have a legal code and a target in the program."""
    count = draw.choice([0, 1, 2, 3, 5, 8, 20, draw.randrange(1, 60)])
    insns = []
    for at in range(count):
        code = draw.choice(CODES) if draw.random() < 0.98 else draw.randrange(0x200)
        left = max(count - at - 2, 0)
        k = draw.randrange(left + 1) if code == 5 and draw.random() < 0.95 else draw.choice(WORDS)
        if code in (2, 3, 0x60, 0x61) and draw.random() < 0.95:
            k %= 16
        test = code & 7 == 5 and code != 5
        jump = [draw.randrange(min(left, 255) + 1) if test else 0 for _ in range(2)]
        insns.append([code, *jump, k])
    if insns and draw.random() < 0.9:
        insns[-1] = draw.choice([[6, 0, 0, 0], [6, 0, 0, 2**32 - 1], [0x16, 0, 0, 0]])
    return insns


def listing_of(insns: Program) -> bytes:
    return (",".join([str(len(insns)), *(" ".join(map(str, insn)) for insn in insns)]) + ",").encode()


def damaged(draw: Random, whole: bytes) -> bytes:
    """Some bytes set, taken out, put in twice or cut off."""
    content = bytearray(whole)
    for _ in range(draw.choice([1, 1, 2, 5])):
        at = draw.randrange(len(content) + 1)
        match draw.randrange(5):
            case 0 if at < len(content):
                content[at] = draw.choice([0, 1, 9, 10, 32, 44, 45, 48, 57, 127, 128, 255, draw.randrange(256)])
            case 1:
                del content[at : at + draw.choice([1, 2, 4, 60])]
            case 2:
                content[at:at] = content[at : at + draw.choice([1, 8, 60, 300])]
            case 3:
                content[at:at] = bytes(draw.choice([b"\n", b",", b" ", b"\r", b"-", b"99999999999", b"\xff", b"#"]))
            case _ if draw.random() < 0.3:
                del content[at:]
    return bytes(content)


# Names of an OUT that can't be looked at: below a file, in no folder, too long, and empty.
ODD_OUTPUTS = ("in/out", "no_folder/out", 300 * "n", 20 * "long/" + 5_000 * "n", "")


def drawn_frames(draw: Random) -> list[Frame]:
    """Frames; sometimes more of the longest than the longest packet has room for."""
    count = draw.choice([0, 1, 2, 7, 40])
    lengths = [18, 19, 60, 300, 1518, 16383]
    if draw.random() < 0.1:
        count, lengths = draw.randrange(30, 70), [16_382, 16_383]
    return [
        (
            draw.choice([0, 16, 2**48 - 1, draw.randrange(2**48)]),
            draw.randrange(4),
            draw.choice([b"\xff", b"\x00", bytes([draw.randrange(256)])]) * 12
            + draw.choice([b"\x08\x06", b"\x08\x00", b"\x86\xdd"])
            + draw.randbytes(draw.choice(lengths) - 14),
        )
        for _ in range(count)
    ]


def with_sums(draw: Random, given: bytes) -> bytes:
    """The same, mostly with the right checksums in each packet that still begins with the sync pattern."""
    recording, at = bytearray(given), 0
    while draw.random() < 0.98 and recording[at : at + 2] == b"\x25\xeb" and len(recording) >= at + 24:
        recording[at + 22 : at + 24] = sum_of(recording[at : at + 22], 2).to_bytes(2, "little")
        end = at + max(int.from_bytes(recording[at + 4 : at + 8], "little"), 24)
        if draw.random() < 0.9:
            set_data_sum(recording, at, end)
        at = end
    return bytes(recording)


def set_data_sum(recording: bytearray, at: int, end: int) -> None:
    """Makes the data checksum of a packet right, where it has one and is whole."""
    if recording[at + 14] & 3 == 3 and at + 28 <= end <= len(recording):
        recording[end - 4 : end] = sum_of(recording[at + 24 : end - 4], 4).to_bytes(4, "little")


def with_time_marks(draw: Random, frames: list[Frame], span: int) -> list[Frame]:
    """The same with time marks among them, which are frames of no byte."""
    found: list[Frame] = []
    for counter, marks, content in frames:
        while draw.random() < 0.3:
            found.append(((counter + draw.choice([0, 1, span - 1, span, -span])) % 2**48, 0, b""))
        found.append((counter, marks, content))
    return found


def frames_of_feed(feed: bytes, has_time_marks: bool) -> Iterator[Frame]:
    """The frames and time marks of a feed, up to its first fault."""
    at = 0
    while len(feed) - at >= 9:
        counter, marks = int.from_bytes(feed[at : at + 6], "little"), feed[at + 6]
        length = int.from_bytes(feed[at + 7 : at + 9], "little")
        is_time_mark = has_time_marks and length == marks == 0
        if not (18 <= length <= 16383 or is_time_mark) or marks > 3 or len(feed) - at - 9 < length:
            return
        yield counter, marks, feed[at + 9 : at + 9 + length]
        at += 9 + length


def held_frames(recording: bytes) -> Iterator[tuple[Frame, int, int]]:
    """The frames of a recording, each with its net and speed, by docs/user/formats/recording.md."""
    for *_, kind, _, data in packets_in(recording):
        for counter, word, content in frames_in(data) if kind == FRAMES else []:
            yield (counter, word >> 31 & 1 | word >> 29 & 2, content), word >> 16 & 255, word >> 24 & 15


class Corpus:
    """The samples of the repository, by kind."""

    def __init__(self) -> None:
        def read(*patterns: str) -> list[bytes]:
            return [path.read_bytes() for pattern in patterns for path in sorted(DATA.glob(pattern)) if path.is_file()]

        self.texts = read("filters/*.bpf", "texts/*.bpf")
        self.listings = read("*")
        self.recordings = read("recordings/*.ch11")
        self.scripts = read("scripts/*.script") + [
            path.read_bytes() for path in sorted((ROOT / "examples").glob("*.script"))
        ]
        self.settings = read("records/*.toml")
