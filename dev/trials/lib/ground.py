"""A ground station for trials: a receiver of datagrams by docs/user/formats/whole_file.md alone, and a relay that loses,
doubles and exchanges what goes through it."""

import contextlib
import json
import random
import re
import select
import socket
import struct
import subprocess
import threading
from pathlib import Path
from typing import Any, NamedTuple, Optional

from frames import FRAMES
from packets import frames_in
from packets import packets_in as recorded_packets
from recordings import extracted
from rows import printed
from streamed import Stream
from support import BPFREC, PUBLISH, RECEIVE, SECONDS, judge_quietly, nanoseconds, outcome, present, wait_for
from whole_file import Origin, Setup
from whole_file_clock import SECOND
from whole_file_parts import ORIGIN, parts_of, recorded

PUBLISHED = re.compile(r"published packets (\d+) datagrams (\d+) lost (\d+) late (\d+)\n\Z")
RECEIVED = re.compile(
    r"received packets (\d+) datagrams (\d+) lost (\d+) doubled (\d+) damaged (\d+) skipped (\d+) foreign (\d+)\n"
)
BUFFER = 64 << 20
SO_RCVBUFFORCE = 33


class Counts(NamedTuple):
    """What receive prints at its end."""

    packets: int
    datagrams: int
    lost: int
    doubled: int
    damaged: int
    skipped: int
    foreign: int


class Published(NamedTuple):
    """What publish prints at its end."""

    packets: int
    datagrams: int
    lost: int
    late: int


def published(text: str) -> Published:
    return Published(*map(int, present(PUBLISHED.search(text)).groups()))


def listening(address: str = "127.0.0.1") -> socket.socket:
    """A socket with room for all of a trial; its port is one that is free."""
    made = socket.socket(socket.AF_INET, socket.SOCK_DGRAM)
    with contextlib.suppress(PermissionError):
        made.setsockopt(socket.SOL_SOCKET, SO_RCVBUFFORCE, BUFFER)
    made.bind((address, 0))
    return made


class Station(threading.Thread):
    """Takes datagrams as they come, until it is closed."""

    def __init__(self, through: Optional[socket.socket] = None) -> None:
        super().__init__(daemon=True)
        self.socket = through or listening()
        self.port = self.socket.getsockname()[1]
        self.address = f"127.0.0.1:{self.port}"
        self.datagrams: list[bytes] = []
        self.is_ending = False
        self.start()

    def run(self) -> None:
        poll = select.poll()
        poll.register(self.socket, select.POLLIN)
        while True:
            while poll.poll(0 if self.is_ending else 100):
                with contextlib.suppress(OSError):
                    self.take(self.socket.recv(65_535))
            if self.is_ending:
                return

    def take(self, datagram: bytes) -> None:
        self.datagrams.append(datagram)

    def close(self) -> list[bytes]:
        """Reads what is there still: all datagrams."""
        self.is_ending = True
        self.join(SECONDS)
        self.socket.close()
        return self.datagrams


class Relay(Station):
    """Sends on what comes to a port, but for what it loses, where it does; some come twice, and some after those behind
    them."""

    def __init__(self, draw: random.Random, port: int, chance: float, loses: bool = True) -> None:
        self.draw, self.to, self.chance, self.loses = draw, ("127.0.0.1", port), chance, loses
        self.out = socket.socket(socket.AF_INET, socket.SOCK_DGRAM)
        self.held: list[bytes] = []
        self.lost = self.doubled = self.came = 0
        super().__init__()

    def take(self, datagram: bytes) -> None:
        self.came += 1
        what = self.draw.random() / self.chance
        # The first is the setup record, without which nothing is written.
        if self.came == 1 or what >= 3:
            self.send(datagram)
        elif what < 1 and self.loses:
            self.lost += 1
        elif what < 2:
            self.doubled += 1
            self.send(datagram)
            self.send(datagram)
        else:
            self.held.append(datagram)

    def send(self, datagram: bytes) -> None:
        """Sends a datagram, and behind it those that were held back."""
        self.out.sendto(datagram, self.to)
        for held in self.held:
            self.out.sendto(held, self.to)
        self.held = []

    def close(self) -> list[bytes]:
        found = super().close()
        for held in self.held:
            self.out.sendto(held, self.to)
        self.out.close()
        return found


def packets_in(datagrams: list[bytes]) -> bytes:
    """The packets of datagrams of which none is missing, by a plain reading."""
    found = bytearray()
    begins = 0
    for number, datagram in enumerate(datagrams):
        (word,) = struct.unpack_from("<I", datagram)
        judge_quietly("its number", word >> 8 == number % 2**24, (word >> 8, number))
        if word & 0xFF == 0x01:
            begins = len(found) + len(datagram) - 4
            found += datagram[4:]
            continue
        judge_quietly("a part", word & 0xFF == 0x11, hex(word))
        channel, sequence, at = struct.unpack_from("<HHI", datagram, 4)
        begins = begins if at else len(found)
        judge_quietly("its place", at == len(found) - begins, (at, len(found) - begins))
        found += datagram[12:]
        head = found[begins : begins + 24]
        judge_quietly("its packet", (channel, sequence) == (int.from_bytes(head[2:4], "little"), head[13]))
    return bytes(found)


class Receiver:
    """bpfrec receive, which writes what comes to a port into a file."""

    def __init__(self, work: Path, name: str, address: str, *options: object) -> None:
        self.out, self.errors = work / name, work / f"{name}.errors"
        words = [str(it) for it in (RECEIVE, *options, address, self.out)]
        with open(self.errors, "wb") as errors:
            self.process = subprocess.Popen(words, stdout=subprocess.PIPE, stderr=errors, text=True)
        wait_for(lambda: f"it listens: {self.errors.read_text()}", self.out.exists)

    def ended(self) -> tuple[int, Counts]:
        """Its status and what it counted; TERM ends it."""
        self.process.terminate()
        return self.over()

    def over(self) -> tuple[int, Counts]:
        """The same, where it ends by itself."""
        printed, _ = self.process.communicate(timeout=SECONDS)
        found = RECEIVED.fullmatch(printed)
        judge_quietly("it prints its counts", found, (printed, self.errors.read_text()))
        return self.process.returncode, Counts(*map(int, present(found).groups()))


def free_port() -> int:
    """A port at which nobody listens."""
    with listening() as made:
        return int(made.getsockname()[1])


def is_taken(port: int) -> bool:
    """Whether somebody listens at a port; to bind it would take it from whoever is about to."""
    rows = [line.split() for line in Path("/proc/net/udp").read_text().splitlines()[1:]]
    return port in (int(row[1].rpartition(":")[2], 16) for row in rows)


def write_facts(path: Path, setup: Setup, state: str = "ended", **more: Any) -> None:
    """Facts beside a recording that say this."""
    facts: dict[str, Any] = {"facts": 1, "host": setup.host, "program": setup.program, "losses": []}
    origins = [(it.counter, divmod(it.nanoseconds, SECOND)) for it in setup.origins]
    facts["origins"] = [{"counter": counter, "origin": f"{it[0]}.{it[1]:09}"} for counter, it in origins]
    facts["interfaces"] = [{"interface": name, "channel": it} for it, (name, _) in setup.channels.items()]
    facts.update(begun="2025-12-01T12:00:00Z", state=state, **more)
    Path(f"{path}.json").write_text(json.dumps(facts))


def drawn_flight(work: Path, seed: int, seconds: int = 25) -> Path:
    """A recording that has ended, with its facts: some channels over some seconds."""
    draw = random.Random(seed)
    channels = sorted(draw.sample(range(1, 300), 4))
    path = work / "flight.ch11"
    path.write_bytes(bytes(recorded(draw, channels, draw.randrange(2**40), seconds).data))
    write_facts(path, Setup((Origin(0, ORIGIN),), channels={it: (f"eth{it}", 0) for it in channels[1:]}))
    return path


def stream_of(path: Path) -> Stream:
    """The stream that a second writer makes of a recording, by the facts beside it."""
    facts, data = json.loads(Path(f"{path}.json").read_bytes()), path.read_bytes()
    origins = tuple(Origin(it["counter"], nanoseconds(*it["origin"].split("."))) for it in facts["origins"])
    named = {part.channel or int.from_bytes(part.data[10:12], "little") for part in parts_of(data)}
    names = {it["channel"]: it["interface"] for it in facts["interfaces"]}
    channels = {it: (names.get(it, "channel"), 0) for it in named}
    attributes = (f"G\\COM:{path.name}",)
    stream = Stream(Setup(origins, facts["host"], facts["program"], attributes=attributes, channels=channels))
    for packet in recorded_packets(data):
        stream.put(*packet)
    return stream


def rows_of(stream: Stream) -> list[str]:
    """What tshark should print of the frames of a stream. Their times are those of its time packets, to the tick."""
    found = []
    for part in parts_of(bytes(stream.file.data)):
        for frame in frames_in(part.data) if part.kind == FRAMES else []:
            seconds, rest = divmod(stream.setup.origins[0].nanoseconds // 100 * 100 + frame.counter * 100, 10**9)
            name, _ = stream.setup.channels[part.channel]
            found.append(f"{name}\t{seconds}.{rest:09}\t{len(frame.bytes)}")
    return found


def rows_in(work: Path, capture: Path) -> list[str]:
    """What tshark prints of the frames of a capture."""
    fields = [word for it in ("interface_name", "time_epoch", "len") for word in ("-e", f"frame.{it}")]
    return printed(work, "-r", capture, "-T", "fields", *fields)


def send(path: Path, address: str, *options: object) -> Published:
    """Publishes a recording that has ended, as fast as it goes: what it counts."""
    done = outcome(PUBLISH, "--fast", *options, path, address)
    judge_quietly("it ends well", done.returncode == 0, done.stderr)
    return published(done.stderr)


def answers(path: Path, channels: list[int], work: Path) -> list[object]:
    """What the audit and extract answer of a recording."""
    audit = outcome(BPFREC, "audit", path)
    lines = audit.stdout.splitlines()
    return [audit.returncode, lines[:-1], lines[-1].split()[0], *(extracted(work, path, it) for it in channels)]
