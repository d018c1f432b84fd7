#!/usr/bin/env python3
"""Times `bpfrec export` of a recording beside `cp` and `bpfrec extract` of the same file.

BPFREC is the program that `make build` leaves in bin/. The recording has MEGABYTES (1,024) of packets that are full
of frames of LENGTH bytes (1,518), with data checksums, in a temporary folder (TMPDIR). `cp --reflink=never`, since a
shared copy reads and writes nothing, with `sync` of the copy, since `export` forces its file to the disk, `extract`
and `export` run five times each, in turn, and what they wrote is removed in between. It prints the median of each
with the least and the greatest time, how many times as long `export` takes as the others, and the most memory that it
takes, beside that of one packet alone. The status is 1 if it takes over 1.6 times as long as `cp`, longer than
`extract`, or over a megabyte more than for one packet.
"""
import argparse
import os
import statistics
import sys
import tempfile
from pathlib import Path

sys.path.insert(0, str(Path(__file__).resolve().parent.parent / "dev/trials/lib"))
from frames import frames_packet
from upgrade import copying, memory_of, show, times_of, write_packets

# what `export` may take: times as long as `cp`, and megabytes more than for one packet
MOST_TIMES = 1.6
MOST_MORE = 1

# the length of a packet of frames, at most, and what a frame has beside its bytes
PACKET_LENGTH, FRAME_HEADER = 65_536, 12


def packet(length: int) -> bytes:
    """A packet that is full of frames of this length."""
    frame = bytes(at % 251 for at in range(length))
    count = PACKET_LENGTH // (FRAME_HEADER + length + length % 2) - 1
    return frames_packet([(0, 0, frame)] * count, 0, 0, True)


def main() -> int:
    parser = argparse.ArgumentParser(description=__doc__, formatter_class=argparse.RawDescriptionHelpFormatter)
    parser.add_argument("bpfrec", metavar="BPFREC")
    parser.add_argument("megabytes", nargs="?", type=int, default=1024, metavar="MEGABYTES", help="1024 (default)")
    parser.add_argument("length", nargs="?", type=int, default=1_518, metavar="LENGTH", help="1518 (default)")
    words = parser.parse_args()
    bpfrec, megabytes = os.path.abspath(words.bpfrec), words.megabytes
    with tempfile.TemporaryDirectory() as work:
        one, whole, out = (f"{work}/{it}" for it in ("one.ch11", "whole.ch11", "out"))
        content = packet(words.length)
        count = megabytes * 2**20 // len(content)
        write_packets(one, content, 1)
        write_packets(whole, content, count)
        export, extract = [bpfrec, "export", whole, out], [bpfrec, "extract", whole, "1", out]
        times = times_of({"cp": copying(whole, out), "extract": extract, "export": export}, out)
        memory = [memory_of([bpfrec, "export", it, out]) for it in (one, whole)]
    show(times, megabytes, count, content)
    medians = {name: statistics.median(spent) for name, spent in times.items()}
    longer, beside = medians["export"] / medians["cp"], medians["export"] / medians["extract"]
    print(f"export takes {longer:.2f} times as long as cp and {beside:.2f} times as long as extract,")
    print(f"and {memory[1]:.1f} MB, for one packet {memory[0]:.1f} MB")
    return 0 if longer <= MOST_TIMES and beside <= 1 and memory[1] - memory[0] <= MOST_MORE else 1


if __name__ == "__main__":
    sys.exit(main())
