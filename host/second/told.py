"""What a file is told to be, line by line: what is wrong with it, and what it has."""

from __future__ import annotations

from typing import BinaryIO

from second.check import Check
from second.contents import Clock, Frame, time_text
from second.packets import Packet
from second.sums import HEADER, Out, begins_whole_file, check_recording


def tell(file: BinaryIO, out: Out, shows_frames: bool = False) -> bool:
    """Tells a recording's sums, or all of a whole file; where frames are shown any file is judged as one, and a line for
    each frame stands ahead. Whether all is right."""
    begun = file.read(HEADER.size)
    if shows_frames or begins_whole_file(begun):
        return tell_whole(file, begun, out, shows_frames)
    return check_recording(file, begun, out)


def tell_whole(file: BinaryIO, begun: bytes, out: Out, shows_frames: bool) -> bool:
    """The same of a whole file, of which these bytes were read."""

    def say(at: int, what: str) -> None:
        out(f"{at} {what}")

    found = Check(say)

    def show(packet: Packet, frames: list[Frame], clock: Clock) -> None:
        for frame in frames:
            time = time_text(clock.ticks(frame.counter))
            out(f"{time} {packet.channel} {frame.length} {found.name_of(packet.channel)}")

    if shows_frames:
        found.show = show
    found.read(file, begun)
    for channel, total in sorted(found.channels.items()):
        times = f"{time_text(total.first)} {time_text(total.last)}"
        out(f"channel {channel} packets {total.packets} frames {total.frames} {times} {found.name_of(channel)}")
    counts = f"packets {found.packets} times {found.times} records {found.records} index {found.indexes}"
    out(f"{counts} wrong {found.wrong}")
    return not found.wrong
