"""Tries `bpfrec chapter11 --stream` on hostile recordings and setups: each ends with a named refusal in little memory, and
what went out is what the packets ahead give."""

import itertools
import random
import resource
import struct
import subprocess
import threading
from collections.abc import Iterable, Iterator
from pathlib import Path
from typing import NamedTuple

import pytest
from drawn_recording import DrawnRecording, drawn_insns
from frames import COMPUTER, FRAMES, body_of, header_of, packet_of
from packets import packets_in
from reading import SAMPLES
from stream_trials import NOW, ORIGIN, SECOND, drawn, expected, frame, judge_stream, settings, streamed
from support import BPFREC, judge, judge_quietly, outcome, present
from whole_file import Origin, Setup
from whole_file_parts import parts_of
from whole_file_trials import setup_text

pytestmark = pytest.mark.wanted("bin/bpfrec")
MEMORY, MIB = 64 << 20, 1 << 20
OTHER = 0x40
MAX_SETUP_LEN = 16_777_216


def sample() -> bytes:
    """A recording with each kind of packet, of which another recorder's is one."""
    made = DrawnRecording()
    made.add_program(1, 0, SECOND, drawn_insns(random.Random(1)))
    made.add_frames(1, [frame(SECOND), frame(2 * SECOND, 61)])
    made.add(2, b"\xaa" * 8, OTHER, SECOND, "other")
    made.add_frames(2, [frame(2 * SECOND)])
    made.add_end(1, 0, 2 * SECOND)
    return bytes(made.data)


def judge_fault(work: Path, what: str, data: bytes, fault: str, ahead: bytes) -> None:
    """The recording ends with this fault, behind what the packets ahead of it give."""
    done, (out, *_) = streamed(work, data, NOW), expected(ahead, NOW)
    judge_quietly(what, (done.returncode, done.stderr.decode()) == (1, f"{fault}\n"), (done.stderr, fault))
    judge_quietly(f"{what}: what went out", done.stdout == out, (len(done.stdout), len(out)))


# ---- damaged recordings


def places() -> list[int]:
    return [it[0] for it in packets_in(sample())]


@pytest.mark.parametrize("number", range(len(places())))
def test_a_header_that_is_damaged(work: Path, number: int) -> None:
    """Each byte of the header of each packet."""
    at = places()[number]
    for offset in range(24):
        data = bytearray(sample())
        data[at + offset] ^= 0x40
        fault = "2 Sync" if offset < 2 else "3 Checksum"
        judge_fault(work, f"byte {offset} of a header", bytes(data), f"read {fault} {at}", sample()[:at])
    judge("each byte", True)


@pytest.mark.parametrize("number", range(len(places())))
def test_a_body_that_is_damaged(work: Path, number: int) -> None:
    """Each byte behind a header: another recorder's packet has no body to it."""
    ends = [*places()[1:], len(sample())]
    at, kind = places()[number], [it[2] for it in packets_in(sample())][number]
    for place in range(at + 24, ends[number]):
        data = bytearray(sample())
        data[place] ^= 0x01
        if kind == OTHER:
            judge_stream(work, f"byte {place}", bytes(data))
            continue
        done, (out, *_) = streamed(work, bytes(data), NOW), expected(sample()[:at], NOW)
        told = (done.returncode, done.stderr.decode() in (f"read 8 DataChecksum {at}\n", f"read 5 Body {at}\n"))
        # A record whose tag is damaged is another recorder's.
        is_tag = kind == COMPUTER and place - at - 24 in range(4, 8)
        judge_quietly(f"byte {place}", is_tag or told == (1, True), done.stderr)
        judge_quietly(f"what went out ahead of byte {place}", is_tag or done.stdout == out)
    judge("each byte", True)


@pytest.mark.parametrize("kind", [OTHER, FRAMES, COMPUTER])
@pytest.mark.parametrize("length", [28, 60, 10_000, 524_288, 524_292, MIB, 0xFFFFFFFC])
def test_a_length_that_claims_more_than_there_is(work: Path, kind: int, length: int) -> None:
    """With a header's sum that is right: it takes no memory but for what came."""
    ahead, data = sample(), length - 28
    for claimed in {data, data + 4, 0xFFFFFFFF} if length > 28 else {4, 0xFFFFFFFF}:
        head = header_of(1, (length, claimed), 0, kind, SECOND, True)
        is_long = claimed > data or kind == FRAMES and length > 524_288
        wanted = f"read {'4 Length' if is_long else '1 Truncated'} {len(ahead)}\n".encode()
        told = within(work, [ahead, head, bytes(8)])
        judge_quietly(f"{length} {claimed}", told == Ended(1, wanted, expected(ahead, NOW)[0]), told[:2])
    judge("each ends so", True)


@pytest.mark.parametrize("length", [0, 4, 20, 24, 26, 27])
def test_a_length_that_is_none(work: Path, length: int) -> None:
    head = header_of(1, (length, 0), 0, FRAMES, SECOND, True)
    judge_fault(work, f"{length}", sample() + head + bytes(60), f"read 4 Length {len(sample())}", sample())
    judge("it ends so", True)


@pytest.mark.parametrize(
    "body",
    [
        b"",
        b"\1\0\0",
        struct.pack("<I", 0xFFFF),
        struct.pack("<I", 2) + body_of([(SECOND, 0, bytes(18))])[4:],
        body_of([(SECOND, 0, bytes(18))]) + bytes(2),
        struct.pack("<IQI", 1, SECOND, 0x3FFF) + bytes(18),
    ],
    ids=["no word", "half a word", "65,535 frames", "two that are one", "left over", "a long frame"],
)
def test_a_body_that_claims_more_than_there_is(work: Path, body: bytes) -> None:
    packet = packet_of(1, body, 9, FRAMES, SECOND, True)
    judge_fault(work, "a body", sample() + packet, f"read 5 Body {len(sample())}", sample())
    judge("it ends so", True)


@pytest.mark.parametrize("seed", range(40))
def test_drawn_damage(work: Path, seed: int) -> None:
    """Bytes changed and cut: a named end."""
    draw = random.Random(seed)
    data = bytearray(drawn(draw, [1, 2, 3], 0, 3, SECOND).data)
    for _ in range(draw.choice([1, 3])):
        at = draw.randrange(len(data))
        data[at] ^= 1 << draw.randrange(8)
    done = streamed(work, bytes(data[: draw.randrange(len(data))]), NOW)
    told = done.stderr.decode()
    is_named = told.startswith(("read ", "refused ", "packets ")) and told.count("\n") == 1
    holds = is_named and done.returncode == (0 if told.startswith("packets ") else 1)
    judge("a named end", holds, (told, done.returncode))


# ---- memory, and inputs without end


class Ended(NamedTuple):
    """How the command ended in little memory: its status, standard error, and what went out, where that was kept."""

    status: int
    told: bytes
    out: bytes


def within(work: Path, pieces: Iterable[bytes], setup: Setup = NOW, keeps: bool = True) -> Ended:
    """Gives the command these pieces, until it takes no more, with 64 MiB of data."""

    def bound() -> None:
        resource.setrlimit(resource.RLIMIT_DATA, (MEMORY, MEMORY))

    words = [str(BPFREC), "chapter11", "--stream", str(settings(work, setup_text(setup)))]
    pipe = subprocess.PIPE
    got: list[bytes] = []
    with subprocess.Popen(words, stdin=pipe, stdout=pipe, stderr=pipe, preexec_fn=bound) as process:
        reader = threading.Thread(target=read_on, args=(process, got, keeps))
        reader.start()
        # Where it was refused its input is closed.
        try:
            for piece in pieces:
                present(process.stdin).write(piece)
            present(process.stdin).close()
        except BrokenPipeError:
            pass
        reader.join()
        told = present(process.stderr).read()
    return Ended(process.returncode, told, b"".join(got))


def read_on(process: subprocess.Popen[bytes], got: list[bytes], keeps: bool) -> None:
    """Reads what goes out to its end."""
    for data in iter(lambda: present(process.stdout).read(MIB), b""):
        if keeps:
            got.append(data)


def repeated(data: bytes, length: int) -> Iterator[bytes]:
    """The same bytes, again and again."""
    return itertools.repeat(data, length // len(data) + 1)


def packets_without_a_counter() -> bytes:
    """Packets of no frames."""
    return b"".join(packet_of(1, body_of([]), number, FRAMES, 5, True) for number in range(256))


def packets_of_another() -> bytes:
    """Packets of another kind."""
    return b"".join(packet_of(9, bytes(1_000), number, OTHER, 5, True) for number in range(256))


def frames_and_programs() -> bytes:
    """Many frames, and a filter with them."""
    made = DrawnRecording()
    made.add_program(1, 0, SECOND, drawn_insns(random.Random(1)))
    made.add_frames(1, [frame(number * 1_000, 1_500) for number in range(300)])
    return bytes(made.data)


@pytest.mark.parametrize("make", [packets_without_a_counter, packets_of_another, frames_and_programs])
def test_memory_does_not_grow_with_the_input(work: Path, make: object) -> None:
    """Two hundred megabytes in 64 MiB."""
    assert callable(make)
    ended = within(work, repeated(make(), 200 * MIB), keeps=False)
    judge("all of it", ended.status == 0 and ended.told.startswith(b"packets "), ended.told)


def test_an_input_without_a_packet_is_refused_at_once(work: Path) -> None:
    """However long it is."""
    for data in (bytes(MIB), b"\xff" * MIB, b"\x25" * MIB):
        ended = within(work, itertools.repeat(data))
        judge("as its first bytes", ended == Ended(1, b"read 2 Sync 0\n", b""), ended)


def test_a_packet_without_an_end_is_out_of_memory(work: Path) -> None:
    """It is held as it comes, since it goes out if it is whole; what stands ahead of it has gone out."""
    head = header_of(1, (0xFFFFFFFC, 0xFFFFFFFC - 28), 0, OTHER, SECOND, True)
    ended = within(work, itertools.chain([sample(), head], itertools.repeat(bytes(MIB))))
    judge("a named end", ended == Ended(4, b"memory\n", expected(sample(), NOW)[0]), ended[:2])


# ---- setups


def test_setups_at_the_limit_of_their_length(work: Path) -> None:
    text = setup_text(NOW)
    for length in (MAX_SETUP_LEN, MAX_SETUP_LEN + 1):
        file = settings(work, text + "\n#" + "a" * (length - len(text) - 2))
        judge_quietly("its length", file.stat().st_size == length)
        done = outcome(BPFREC, "chapter11", "--stream", file, input=SAMPLES[1].read_bytes(), text=False, seconds=120)
        wanted = (0, expected(SAMPLES[1].read_bytes(), NOW)[0], b"packets 1 records 3 times 1 late 0 other 0\n")
        refused = (3, b"", f"file {file}\n".encode())
        found = (done.returncode, done.stdout, done.stderr)
        judge(f"{length} bytes", found == (wanted if length == MAX_SETUP_LEN else refused), found[::2])


def test_a_channel_twice_is_refused(work: Path) -> None:
    text = 'origin = "0"\n' + "[[channel]]\nid = 7\n" * 2
    done = outcome(BPFREC, "chapter11", "--stream", settings(work, text), input=b"", text=False)
    judge("named", (done.returncode, done.stdout, done.stderr) == (2, b"", b"setup 4 Value id\n"), done)


def test_attributes_twice_and_those_of_the_recorder(work: Path) -> None:
    """A name of a user may stand twice, and no other one is taken for the recorder's, however it is written."""
    setup = Setup((Origin(0, ORIGIN),), channels=NOW.channels, attributes=("X:a", "X:a", "X:b", "G\\PN:mine"))
    judge_stream(work, "twice", sample(), setup)
    text = parts_of(streamed(work, sample(), setup).stdout)[0].data
    judge("each stands there", text.count(b"\r\nX:a;") == 2 and text.count(b"\r\nX:b;") == 1)
    for name in ("R-1\\N", "r-1\\n", " R-01\\N", "R-1\\TK1-2", "R-1\\CDT-999", "G\\106", "R-1\\COM"):
        setup = Setup((Origin(0, 0),), attributes=(f"{name}:1",))
        done = streamed(work, sample(), setup)
        found = (done.returncode, done.stdout, done.stderr)
        judge_quietly(name, found == (2, b"", b"setup 4 Value attributes\n"), found)
    judge("no other one", True)


def test_a_setup_of_all_channels_in_little_memory(work: Path) -> None:
    """All but that of the time."""
    setup = Setup((Origin(0, ORIGIN),), channels={it: ("c", 0) for it in range(1, 65_535)})
    file = settings(work, setup_text(setup))
    done = outcome(BPFREC, "chapter11", "--stream", file, input=sample(), text=False, seconds=120)
    judge("it goes out", (done.returncode, done.stdout) == (0, expected(sample(), setup)[0]), done.stderr)
