#!/usr/bin/env python3
"""Times bpfrec publish and bpfrec receive: how many frames a second they take, and how late a packet is sent.

usage: bench/publish.py [--frames N] [--length BYTES] [--packets N]

It makes a recording of N frames (500,000 of 300 bytes), whose counters are those of 100,000 a second, and publishes it
with --fast to bpfrec receive on this machine: frames a second by the clock and of each program's processor. Then it
plays a recorder: it writes a packet of 10 frames each 50 ms into a recording that goes on, which publish follows, and
prints how long after each write the datagram came here.

Goals: 300,000 frames a second of 300 bytes of publish's processor, its stream's with it, and 99 of 100 frames here within
25 ms of the packet's write; the status is 1 where one is missed.
It needs bin/bpfrec (make build). Files go to TMPDIR.
"""
import argparse
import os
import socket
import statistics
import subprocess
import sys
import tempfile
import time
from pathlib import Path

ROOT = Path(__file__).resolve().parent.parent
sys.dont_write_bytecode = True
sys.path[:0] = [str(ROOT / "dev/trials/lib"), str(ROOT / "host")]
import random

from drawn_recording import DrawnRecording, drawn_insns
from frames import numbered, write_feed
from ground import listening, published, write_facts
from support import BPFREC, KEEPS_ALL, PUBLISH, RECEIVE
from whole_file import Origin, Setup

GOAL, MOST_LATE, TICKS_A_FRAME, PATIENCE = 300_000, 0.025, 100, 120
SETUP = Setup((Origin(0, 1_764_590_400_250_000_000),), channels={1: ("eth0", 0)})


def ended(process: subprocess.Popen) -> tuple[str, float]:
    """What a program printed on its pipe, and the seconds of its processor."""
    pipe = process.stderr or process.stdout
    assert pipe
    told = pipe.read()
    _, status, used = os.wait4(process.pid, 0)
    process.returncode = os.waitstatus_to_exitcode(status)
    return told, used.ru_utime + used.ru_stime


def made_recording(work: Path, frames: int, length: int) -> Path:
    """A recording of one channel, with facts beside it."""
    write_feed(work / "a.feed", ((at * TICKS_A_FRAME, numbered(at, length)) for at in range(frames)))
    (work / "all").write_text(KEEPS_ALL)
    (work / "s.toml").write_text(f'[[channel]]\nid = 1\nfeed = "{work}/a.feed"\nfilter = "{work}/all"\n')
    subprocess.run([BPFREC, "record", work / "s.toml", work / "a.ch11"], check=True, stdout=subprocess.DEVNULL)
    write_facts(work / "a.ch11", SETUP)
    return work / "a.ch11"


def time_rate(work: Path, frames: int, length: int) -> float:
    """Prints the frames a second: those of publish's processor."""
    recording, out = made_recording(work, frames, length), work / "a.ch10"
    with listening() as made:
        address = f"127.0.0.1:{made.getsockname()[1]}"
    receiver = subprocess.Popen([RECEIVE, address, out], stdout=subprocess.PIPE, text=True)
    while not out.exists():
        time.sleep(0.01)
    begin = time.monotonic()
    sender = subprocess.Popen([PUBLISH, "--fast", recording, address], stderr=subprocess.PIPE, text=True)
    told, sending = ended(sender)
    took = time.monotonic() - begin
    receiver.terminate()
    received, receiving = ended(receiver)
    print(f"{frames:,} frames of {length} bytes: {told.strip()}; {received.strip()}")
    rates = (frames / took, frames / sending, frames / receiving)
    print("frames a second: {:,.0f} by the clock, publish {:,.0f} and receive {:,.0f} of a processor".format(*rates))
    return frames / sending


def time_latency(work: Path, packets: int) -> float:
    """Prints how long after a packet was written its datagram came: in seconds, that of 99 of 100 at most."""
    made = DrawnRecording()
    made.add_program(1, 0, 0, drawn_insns(random.Random(1)))
    path, late = work / "b.ch11", []
    write_facts(path, SETUP, "recording")
    with listening() as station, open(path, "wb", buffering=0) as file:
        file.write(made.data)
        address = f"127.0.0.1:{station.getsockname()[1]}"
        sender = subprocess.Popen([PUBLISH, path, address], stderr=subprocess.PIPE, text=True)
        station.settimeout(PATIENCE)
        station.recv(65_535)
        for number in range(packets):
            time.sleep(0.05 + random.random() / 50)
            begin, end = len(made.data), (number + 1) * 500_000
            made.add_frames(1, [(end - it, 0, 60) for it in range(10, 0, -1)])
            file.write(made.data[begin:])
            written = time.monotonic()
            late.append(arrived(station, end - 10) - written)
        sender.terminate()
        print(f"played recorder: {published(ended(sender)[0])}")
    hundredths = statistics.quantiles(late, n=100)
    print(f"a packet is sent after {1e3 * hundredths[49]:.1f} ms (median), 99 of 100 within {1e3 * hundredths[98]:.1f}")
    return hundredths[98]


def arrived(station: socket.socket, counter: int) -> float:
    """When the packet of frames with this counter came."""
    wanted = counter.to_bytes(6, "little")
    while wanted not in station.recv(65_535):
        pass
    return time.monotonic()


def main() -> int:
    parser = argparse.ArgumentParser(description=__doc__, formatter_class=argparse.RawDescriptionHelpFormatter)
    parser.add_argument("--frames", type=int, default=500_000)
    parser.add_argument("--length", type=int, default=300)
    parser.add_argument("--packets", type=int, default=400)
    words = parser.parse_args()
    with tempfile.TemporaryDirectory() as folder:
        rate = time_rate(Path(folder), words.frames, words.length)
        late = time_latency(Path(folder), words.packets)
    print(f"load: {os.getloadavg()[0]:.1f} on {os.cpu_count()} processors")
    return 0 if rate >= GOAL and late <= MOST_LATE else 1


if __name__ == "__main__":
    sys.exit(main())
