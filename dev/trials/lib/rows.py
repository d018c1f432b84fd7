"""The rows that tshark makes of a recording by bin/bpfrec.lua, and those that it should make."""

import hashlib
import os
import random
import struct
import subprocess
from collections.abc import Callable
from pathlib import Path
from typing import Any, NamedTuple

from bpfrec.formats.body import Frames
from bpfrec.formats.packet import Damage, Packet
from bpfrec.formats.reader import reader_of
from bpfrec.formats.records import End, Program
from frames import COMPUTER, FRAMES, body_of, end_packet, packet_of, program_packet
from support import BPFREC, ROOT, SECONDS, judge_quietly, outcome, run

PLUGIN = ROOT / "bin/bpfrec.lua"
FIELDS = {
    "time": "frame.time_epoch",
    "sum": "frame.md5_hash",
    "row_length": "frame.len",
    "channel": "ch11.channel",
    "version": "ch11.version",
    "number": "ch11.number",
    "counter": "ch11.counter",
    "net": "ch11.net",
    "speed": "ch11.speed",
    "content": "ch11.content",
    "wrong_fcs": "ch11.wrong_fcs",
    "other_error": "ch11.other_error",
    "length": "ch11.length",
    "packet": "ch11.packet",
    "place": "ch11.place",
    "first": "ch11.first",
    "instructions": "ch11.instructions",
    "offered": "ch11.offered",
    "kept": "ch11.kept",
    "type": "ch11.header.type",
    "damage": "ch11.damage",
    "damaged_length": "ch11.damaged_length",
}
# What tshark says on standard error where root runs it.
AS_ROOT = "Running as user"
# Rows have so many bytes of a packet that is none of frames.
MOST_IN_ROW = 65_536
TICKS_A_SECOND = 10_000_000


class Held(NamedTuple):
    """A frame of a packet: its place in it, its counter, its word and its bytes."""

    at: int
    counter: int
    word: int
    bytes: bytes


def tshark(work: Path, *words: object, seconds: float = SECONDS, **more: Any) -> subprocess.CompletedProcess[str]:
    """How tshark with the plugin of this checkout alone ends, and what it prints; its warning of root is left out."""
    (work / "private").mkdir(exist_ok=True)
    env = {**os.environ, "HOME": str(work / "private"), "WIRESHARK_PLUGIN_DIR": str(work / "private"), "TZ": "UTC"}
    done = outcome("tshark", "-X", f"lua_script:{PLUGIN}", "-n", *words, env=env, seconds=seconds, **more)
    done.stderr = "".join(it for it in done.stderr.splitlines(True) if AS_ROOT not in it)
    return done


def printed(work: Path, *words: object, **more: Any) -> list[str]:
    """The lines that tshark prints, which ends well and warns of nothing."""
    done = tshark(work, *words, **more)
    judge_quietly(f"tshark {words}", (done.returncode, done.stderr) == (0, ""), done)
    return done.stdout.splitlines()


def rows_of(work: Path, recording: Path, *words: object, **more: Any) -> list[dict[str, str]]:
    """The rows of a recording; a field that a row hasn't is left out."""
    asked = [word for field in FIELDS.values() for word in ("-e", field)]
    asked += ["-o", "frame.generate_md5_hash:TRUE", "-T", "fields"]
    lines = printed(work, "-r", recording, *words, *asked, **more)
    return [{name: it for name, it in zip(FIELDS, line.split("\t")) if it} for line in lines]


# ---- what rows there should be


def frames_in(packet: Packet) -> list[Held]:
    """The frames of a packet, by docs/user/formats/recording.md."""
    found, at = [], 28
    for _ in range(struct.unpack_from("<H", packet.bytes, 24)[0]):
        counter, word = struct.unpack_from("<QI", packet.bytes, at)
        length = word & 0x3FFF
        found.append(Held(at, counter & (1 << 48) - 1, word, packet.bytes[at + 12 : at + 12 + length]))
        at += 12 + length + length % 2
    return found


def seconds_of(counter: int) -> str:
    return f"{counter // TICKS_A_SECOND}.{counter % TICKS_A_SECOND:07d}00"


def sum_of(data: bytes) -> str:
    return hashlib.md5(data).hexdigest()


class Expected:
    """The rows of pieces of a recording, in order."""

    def __init__(self, time_of: Callable[[int], str] = seconds_of) -> None:
        self.rows: list[dict[str, str]] = []
        self.counts: dict[int, int] = {}
        self.versions: dict[int, int] = {}
        self.time_of = time_of

    def add(self, **told: Any) -> None:
        self.rows.append({name: str(value) for name, value in told.items() if value is not None})

    def take(self, piece: Packet | Damage, data: bytes) -> None:
        """Takes a packet or a damaged place of a recording of these bytes."""
        if isinstance(piece, Damage):
            begins = data[piece.fault.at : piece.fault.at + min(piece.length, MOST_IN_ROW)]
            length = len(begins)
            self.add(
                sum=sum_of(begins),
                row_length=length,
                damage=piece.fault,
                damaged_length=piece.length,
                place=piece.fault.at,
            )
        elif isinstance(piece.what, Frames) and piece.what.counters:
            for frame in frames_in(piece):
                self.take_frame(piece, frame)
        else:
            self.take_packet(piece)

    def take_frame(self, packet: Packet, frame: Held) -> None:
        channel, word = packet.header.channel, frame.word
        number = self.counts.get(channel, 0)
        self.counts[channel] = number + 1
        self.add(
            time=self.time_of(frame.counter),
            sum=sum_of(frame.bytes),
            row_length=len(frame.bytes),
            channel=channel,
            version=self.versions.get(channel),
            number=number,
            counter=frame.counter,
            net=word >> 16 & 0xFF,
            speed=word >> 24 & 0xF,
            content=word >> 28 & 3,
            wrong_fcs=word >> 31,
            other_error=word >> 30 & 1,
            length=len(frame.bytes),
            packet=packet.at,
            place=packet.at + frame.at,
        )

    def take_packet(self, packet: Packet) -> None:
        header, what = packet.header, packet.what
        shared = {
            "time": self.time_of(header.counter),
            "sum": sum_of(packet.bytes[:MOST_IN_ROW]),
            "row_length": len(packet.bytes),
            "counter": header.counter,
            "place": packet.at,
            "type": f"0x{header.kind:02x}",
        }
        if isinstance(what, Program):
            self.versions[what.channel] = what.version
            count = len(what.insns) // 8
            self.add(**shared, channel=what.channel, version=what.version, first=what.first, instructions=count)
        elif isinstance(what, End):
            self.add(**shared, channel=what.channel, offered=what.offered, kept=what.kept)
        else:
            self.add(**shared, channel=header.channel)


def expected_rows(recording: Path, time_of: Callable[[int], str] = seconds_of) -> list[dict[str, str]]:
    """The rows of a recording, as the reader in Python finds its packets and its damaged places."""
    data, expected = recording.read_bytes(), Expected(time_of)
    with open(recording, "rb") as file:
        for piece in reader_of(file).pieces():
            expected.take(piece, data)
    return expected.rows


# ---- recordings and captures


def drawn_recording(draw: random.Random, is_summed: bool) -> bytes:
    """Packets of three channels with any words and lengths of frames, programs, ends, and packets of other kinds."""
    parts, sequences, counter = [], [0] * 10, 0

    def add(channel: int, data: bytes, kind: int) -> None:
        parts.append(packet_of(channel, data, sequences[channel], kind, counter, is_summed))
        sequences[channel] += 1

    for _ in range(40):
        channel, kind = draw.randint(1, 3), draw.randrange(10)
        counter += draw.randrange(2**40) if draw.random() < 0.1 else draw.randrange(5_000)
        if kind < 6:
            words = [
                draw.randrange(1 << 18) << 14 & ~(3 << 14) if kind else draw.randrange(1 << 8) << 16 for _ in range(9)
            ]
            frames = [
                (counter + at, it, draw.randbytes(draw.choice([18, 60, 61, 0, 300]))) for at, it in enumerate(words)
            ]
            add(channel, body_of(frames[: draw.randrange(10)]), FRAMES)
        elif kind == 6:
            parts.append(program_packet(channel, draw.randrange(1_000), is_summed=is_summed))
        elif kind == 7:
            parts.append(end_packet(channel, draw.randrange(2**40), is_summed=is_summed))
        else:
            add(draw.randrange(10), draw.randbytes(draw.randrange(200)), draw.choice([COMPUTER, 0x01, 0x19, 0x40]))
    return b"".join(parts)


def flight_of(work: Path) -> Path:
    """The recording of the examples' settings."""
    for name in ("arp", "udp_port"):
        (ROOT / "bin").mkdir(exist_ok=True)
        (ROOT / f"bin/{name}.txt").write_text(run(BPFREC, "asm", ROOT / f"examples/filters/{name}.bpf"))
    run(BPFREC, "record", "examples/feeds.toml", work / "flight.ch11", cwd=ROOT, stdin=subprocess.DEVNULL)
    return work / "flight.ch11"


def saved(work: Path, recording: Path, channel: int) -> bytes:
    """The frames of a channel, as tshark saves them."""
    words = ["-r", recording, "-Y", f"ch11.channel == {channel} && eth", "-F", "nsecpcap", "-w", work / "saved.pcap"]
    printed(work, *words)
    return (work / "saved.pcap").read_bytes()
