"""A second opinion on recordings and whole Chapter 11 files, written from docs/user/formats/ alone. It shares no code with
what writes them nor with the other tools, and imports nothing but itself.

`check_sums` of `sums` judges the sums of a recording, and of a whole file all that the standard asks for, by `Check`:
setup record, time packets, frames, records and index.
"""

from second.check import Check
from second.contents import Clock, Frame, time_text
from second.packets import Packet

__all__ = ["Check", "Clock", "Frame", "Packet", "time_text"]
