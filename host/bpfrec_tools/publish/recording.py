"""A recording that is published: its packets as they come, by their places, and what SETUP says of it."""

from __future__ import annotations

import os
import time
from collections import deque
from typing import Callable, NamedTuple, Optional

from bpfrec.formats.facts import SCALE_UNKNOWN, Facts, Origin
from bpfrec.formats.follow import Front
from bpfrec.formats.limits import MAX_BYTE, MAX_CHANNEL_ID, TICKS_A_SECOND
from bpfrec.formats.names import facts_path
from bpfrec.formats.records import End, Program
from bpfrec.formats.settings import NoReader, NoToml, settings_of
from bpfrec_tools.chapter11.networks import networks_of
from bpfrec_tools.chapter11.options import cleaned, comment_of
from bpfrec_tools.chapter11.setup import Asked, setup_text, told_by
from bpfrec_tools.cli.streams import Refused
from bpfrec_tools.follow.growing import Growing, Report

# How long a name is in a setup record at most.
MAX_NAME_LEN = 32


class Placed(NamedTuple):
    """A packet in the recording's file: its place, its length, its counter, the channel that it is of, 0 where it is
    another's, and whether it is a filter's program."""

    at: int
    length: int
    counter: int
    channel: int
    is_filter: bool


class Recording(Growing):
    """A recording, and its packets that wait for their stream. `asked` is what the command line says."""

    def __init__(self, path: str, report: Report, asked: Asked) -> None:
        super().__init__(path, report)
        self.asked = asked
        self.networks = networks_of(path)
        self.waiting: deque[Placed] = deque()
        # Up to this place packets are left out.
        self.hidden_to = 0
        # The last filter of each channel that has gone out or was left out.
        self.filters: dict[int, Placed] = {}
        # Whether it goes out at the pace of its counters: when its first packet did, and the counter of that.
        self.is_paced = False
        self.paced_from: Optional[tuple[float, int]] = None

    def begin(self, begins_now: bool, is_given_up: Callable[[], bool]) -> None:
        """Finds out when it was recorded, and leaves out what is there where only what comes is published."""
        if begins_now:
            self.hidden_to = self.file.size_now()
        if self.asked.origin:
            self.look_at_facts()
        else:
            self.wait_for_facts(is_given_up)
        self.judge_times()

    def judge_times(self) -> None:
        """Refuses a whole file, and a recording of which nobody says when it was recorded; a scale that nobody knows is
        reported."""
        if self.begins_whole():
            raise Refused(f"{self.path}: it is a whole Chapter 11 file, and a recording is published")
        if self.known and self.asked.origin:
            beside = facts_path(self.path)
            raise Refused(f"{beside} has the origins, and --origin is for a recording without facts")
        if not self.known and not self.asked.origin:
            raise Refused(f"{self.path}: no facts beside it: --origin says when it was recorded")
        if self.known and not self.known.are_all_utc() and self.asked.ahead is None:
            self.report(f"{facts_path(self.path)}: {SCALE_UNKNOWN}")

    # ---- its packets

    def take(self, front: Front) -> None:
        """Takes a packet, whose place is kept."""
        header, record = front.header, self.follower.record(front)
        channel = self.follower.channel(front)
        if channel:
            self.named.add(channel)
            self.networks.take(channel, front.network())
        if isinstance(record, End):
            self.ended.add(channel)
        placed = Placed(front.at, header.packet_len, header.counter, channel, isinstance(record, Program))
        if front.at < self.hidden_to:
            self.pass_by(placed)
        else:
            self.waiting.append(placed)

    def pass_by(self, placed: Placed) -> None:
        """A packet has gone out, or is left out."""
        if placed.is_filter:
            self.filters[placed.channel] = placed

    def repeat_filters(self) -> None:
        """Has the filters that are in force go out ahead of the next packet."""
        self.waiting.extendleft(sorted(self.filters.values(), reverse=True))

    def place(self) -> int:
        """The place of the next packet."""
        return self.waiting[0].at if self.waiting else self.follower.at

    def due_in(self, placed: Placed) -> float:
        """In how many seconds a packet is due, by the counter of the first one."""
        if not self.is_paced:
            return 0.0
        now = time.monotonic()
        self.paced_from = self.paced_from or (now, placed.counter)
        begun, first = self.paced_from
        return begun + (placed.counter - first) / TICKS_A_SECOND - now

    def leave_rest(self) -> int:
        """Leaves out what hasn't gone out: how many packets."""
        left = 0
        while self.waiting or self.read_on():
            left += len(self.waiting)
            self.waiting.clear()
        return left

    # ---- what SETUP says

    def origins(self) -> list[Origin]:
        """The origins that are known by now."""
        return self.known.origins if self.known else []

    def channels(self) -> dict[int, int]:
        """The channels that it names by now, or will by its facts, with their network identifiers."""
        if not self.known or self.known.has_ended:
            return self.networks.of_all()
        known = self.known
        expected = {**dict.fromkeys(known.interfaces, 0), **set_networks(known)}
        return {**self.networks.of_all(), **expected, **self.networks.known()}

    def setup(self, channels: dict[int, int], at: int) -> str:
        """SETUP of the stream of these channels from a place on. It has the recording's name, and the place where it
        isn't the first, so that no two streams have the same text."""
        name = cleaned(os.path.basename(self.path))[:MAX_NAME_LEN]
        comments = [comment_of(name or "NONE"), *([comment_of(f"from byte {at}")] if at else [])]
        ahead = 0 if self.known and self.asked.ahead is None else self.asked.ahead
        asked = self.asked._replace(ahead=ahead, attributes=(*self.asked.attributes, *comments))
        return setup_text(asked, told_by(self.known) if self.known else None, channels)


def set_networks(known: Facts) -> dict[int, int]:
    """The channels that the settings of a recording have, with their network identifiers; none where they can't be
    read."""
    try:
        tables = [it.table for it in settings_of("-", known.settings).channels]
    except (NoReader, NoToml):
        return {}
    found: dict[int, int] = {}
    for table in tables:
        channel, net = table.get("id"), table.get("net", 0)
        if type(channel) is int and type(net) is int and 1 <= channel <= MAX_CHANNEL_ID and 0 <= net <= MAX_BYTE:
            found[channel] = net
    return found
