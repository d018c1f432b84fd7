"""What a whole Chapter 11 file says of its channels and its times, as its packets come: by its setup record and its time
packets."""

from __future__ import annotations

from contextlib import suppress
from typing import Optional

from bpfrec.formats.facts import Facts, NoFacts
from bpfrec.formats.follow import Follower, Front
from bpfrec.formats.held import File
from bpfrec.formats.limits import HEADER_LEN, SETUP
from bpfrec.formats.packet import Header, has_right_sum
from bpfrec.formats.whole_file import WholeFile, is_own

# The setup record and the first time packet.
FIRST_PACKETS = 2


class Within:
    """A whole file as far as it came."""

    def __init__(self) -> None:
        self.whole, self.text = WholeFile(), b""
        # The same as facts, from the first time packet on.
        self.known: Optional[Facts] = None

    def take(self, header: Header, packet: bytes) -> bool:
        """Takes a setup record, with another text of another stream, or a time packet: whether it can be read."""
        is_other = header.kind == SETUP and packet[HEADER_LEN:] != self.text
        if is_other and header.has_checksum() and has_right_sum(packet):
            self.whole, self.text = WholeFile(), packet[HEADER_LEN:]
        before = len(self.whole.clocks)
        is_read = self.whole.take(header, packet)
        if len(self.whole.clocks) > before:
            # Times that no facts have are those of none.
            with suppress(NoFacts):
                self.known = self.whole.facts()
        return is_read

    def name(self, channel: int) -> str:
        """What the setup record calls a channel."""
        return self.whole.name_of(channel) or f"channel {channel}"


def beginning_of(path: str) -> Optional[Facts]:
    """What the file at a path says by its first packets; None where it is no whole file, or they aren't there yet."""
    with open(path, "rb") as opened:
        file, within = File(path, opened), Within()

        def take(front: Front) -> None:
            if is_own(front.header.kind) and front.header.packet_len <= front.header.most_len():
                within.take(front.header, file.read_at(front.at, front.header.packet_len))

        follower = Follower(file.read_at, take)
        for _ in follower.read_on(file.size, FIRST_PACKETS):
            break
    return within.known if follower.is_whole else None
