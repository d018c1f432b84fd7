#!/usr/bin/env python3
"""Times `bpfrec chapter11` of a recording, of several and as a stream beside `cp` of the same file.

BPFREC is the program that `make build` leaves in bin/. The recordings have MEGABYTES (1,024) together, of packets of
65,536 bytes at most, of four channels in turn, with frames of 1,500 bytes and of 64, a microsecond after one another, in
a temporary folder (TMPDIR). With --recordings N these are N recordings of one length, which become one file.
`cp --reflink=never`, with `sync` of the copy, since `chapter11` forces its file to the disk (of several `cat` takes its
place), `chapter11`, and `chapter11 --stream` of the first recording, run ROUNDS times each, in turn, and what they wrote
is removed in between. It prints the median of each with the least and the greatest time, how many times as long
`chapter11` takes by the medians, and the most memory that both take. The status is 1 if one recording takes over 3 times
as long at 1,500 bytes, or 5 at 64.
"""
import argparse
import os
import statistics
import struct
import sys
import tempfile
from pathlib import Path

from upgrade import copying, memory_of, times_of

sys.path.insert(0, str(Path(__file__).resolve().parent.parent / "dev/trials/lib"))
from frames import FRAMES, packet_of

# By the length of a frame: the most times as long as `cp`.
MOST_TIMES = {1_500: 3.0, 64: 5.0}
CHANNELS = 4
# The bytes of a packet, and those of it and of a frame that are no frame's bytes.
PACKET, AROUND_PACKET, AROUND_FRAME = 65_536, 32, 12
TICKS_A_FRAME = 10
ORIGIN = 1_764_590_400
STREAM = f'origin = "{ORIGIN}"\n' + "".join(f"[[channel]]\nid = {it}\n" for it in range(1, CHANNELS + 1))
# Of a program, SETUP, a recording and the output; of an output and recordings.
STREAMING, JOINING = 'exec "$0" chapter11 --stream "$1" < "$2" > "$3"', 'cat "$@" > "$0" && sync "$0"'


def packet(number: int, length: int) -> bytes:
    """The packet of this number: frames that follow those of the packet before."""
    step = AROUND_FRAME + length
    count = (PACKET - AROUND_PACKET) // step
    first = number * count * TICKS_A_FRAME
    frame = struct.pack("<QI", 0, length) + bytes(at % 251 for at in range(length))
    body = bytearray(struct.pack("<I", count) + frame * count)
    counters = struct.pack(f"<{count}Q", *range(first, first + count * TICKS_A_FRAME, TICKS_A_FRAME))
    for at in range(6):
        body[4 + at :: step] = counters[at::8]
    channel = 1 + number % CHANNELS
    return packet_of(channel, bytes(body), number // CHANNELS % 256, FRAMES, first, True)


def write_recording(path: Path, length: int, megabytes: int) -> int:
    """Writes a recording of frames of a length: the number of its packets."""
    count = megabytes * 2**20 // len(packet(0, length))
    with open(path, "wb") as recording:
        for number in range(count):
            recording.write(packet(number, length))
    return count


def setup_of(recordings: int) -> str:
    """SETUP of recordings that began a second after one another."""
    if recordings == 1:
        return f'origin = "{ORIGIN}"\n'
    return "".join(f'[[recording]]\norigin = "{ORIGIN + it}"\n' for it in range(recordings))


def measure(bpfrec: str, work: Path, length: int, megabytes: int, recordings: int) -> bool:
    """Prints what was measured with frames of a length: whether it is fast enough."""
    files, out = [str(work / f"recording{it}") for it in range(recordings)], str(work / "out")
    (work / "setup").write_text(setup_of(recordings))
    (work / "stream").write_text(STREAM)
    count = sum(write_recording(Path(it), length, megabytes // recordings) for it in files)
    runs = {
        "cp": copying(files[0], out) if recordings == 1 else ["sh", "-c", JOINING, out, *files],
        "chapter11": [bpfrec, "chapter11", *files, str(work / "setup"), out],
        "--stream": ["sh", "-c", STREAMING, bpfrec, str(work / "stream"), files[0], out],
    }
    times = times_of(runs, out)
    print(f"{recordings} of {megabytes} MiB together, {count} packets of frames of {length} bytes")
    for name, spent in times.items():
        print(f"{name:10} {statistics.median(spent):.2f} s ({min(spent):.2f} to {max(spent):.2f})")
    longer = statistics.median(times["chapter11"]) / statistics.median(times["cp"])
    memory = [memory_of(runs[it]) for it in ("chapter11", "--stream")]
    print(f"chapter11 takes {longer:.2f} times as long as cp, and {memory[0]:.1f} MB; --stream {memory[1]:.1f} MB")
    print(f"load: {os.getloadavg()[0]:.1f} on {os.cpu_count()} processors", flush=True)
    # The goals are those of one recording.
    return recordings > 1 or longer <= MOST_TIMES[length]


def main() -> int:
    parser = argparse.ArgumentParser(description=__doc__, formatter_class=argparse.RawDescriptionHelpFormatter)
    parser.add_argument("bpfrec", metavar="BPFREC")
    parser.add_argument("megabytes", nargs="?", type=int, default=1024, metavar="MEGABYTES", help="1024 (default)")
    parser.add_argument("--recordings", type=int, default=1, metavar="N", help="how many; 1 (default)")
    words = parser.parse_args()
    found = []
    for length in MOST_TIMES:
        with tempfile.TemporaryDirectory() as work:
            bpfrec = os.path.abspath(words.bpfrec)
            found.append(measure(bpfrec, Path(work), length, words.megabytes, words.recordings))
    return 0 if all(found) else 1


if __name__ == "__main__":
    sys.exit(main())
