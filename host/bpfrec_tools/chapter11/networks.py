"""The network identifiers of a recording's channels, which each frame has in its word."""

from __future__ import annotations

import os
import stat
from typing import Optional

from bpfrec.formats.follow import Follower, Front
from bpfrec.formats.held import File


class Networks:
    """The network identifier of each channel that packets name, by its first frame."""

    def __init__(self) -> None:
        self.found: dict[int, Optional[int]] = {}

    def take(self, channel: int, network: Optional[int]) -> None:
        """Takes a packet that names a channel, and the identifier of its first frame, where it has one."""
        if self.found.get(channel) is None:
            self.found[channel] = network

    def known(self) -> dict[int, int]:
        """Those of channels that have a frame."""
        return {channel: network for channel, network in self.found.items() if network is not None}

    def of_all(self) -> dict[int, int]:
        """Those of all channels, 0 of one without a frame."""
        return {channel: network or 0 for channel, network in self.found.items()}


def networks_of(path: str) -> Networks:
    """The network identifiers of a recording's channels. Behind a damaged place none is looked for, since bpfrec refuses
    such a recording."""
    networks = Networks()

    def take(front: Front) -> None:
        channel = follower.channel(front)
        if channel:
            networks.take(channel, front.network())

    with open(path, "rb", opener=at_once) as file:
        known = os.fstat(file.fileno())
        if not stat.S_ISREG(known.st_mode):
            raise OSError(0, "it is no regular file, which could be read twice", path)
        follower, before = Follower(File(path, file).read_at, take), None
        while before != follower.at:
            before = follower.at
            if any(follower.read_on(known.st_size)):
                break
    return networks


def at_once(path: str, flags: int) -> int:
    """Opens a file, and waits for no writer of a pipe."""
    return os.open(path, flags | os.O_NONBLOCK)
