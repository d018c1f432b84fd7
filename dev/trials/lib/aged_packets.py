"""A second writer of a channel's recording whose packets are cut by their age too, by docs/user/formats/ alone: plain
and slow, all in lists.

It shares no code with the program, whose recordings are compared with its own byte for byte.
"""

import random
from collections.abc import Callable, Iterator, Sequence
from typing import NamedTuple, Optional

from frames import COMPUTER, FRAMES, HEADER_LENGTH, body_of, end_data, insns_of, packet_of, program_data, record_of

COUNTERS = 1 << 48


class Filter(NamedTuple):
    """A listing, and which frames it keeps."""

    listing: str
    keeps: Callable[[bytes], bool]


FILTERS = {
    "all": Filter("1,6 0 0 1,", lambda frame: True),
    "none": Filter("1,6 0 0 0,", lambda frame: False),
    "odd": Filter("4,48 0 0 14,69 0 1 1,6 0 0 1,6 0 0 0,", lambda frame: len(frame) > 18 and frame[14] % 2 == 1),
    "low": Filter("4,48 0 0 12,53 1 0 128,6 0 0 7,6 0 0 0,", lambda frame: frame[12] < 128),
}


class Item(NamedTuple):
    """A record of a feed: a frame with its error flags, or a time mark, which has no frame."""

    counter: int
    frame: Optional[bytes] = None
    flags: int = 0


class Channel(NamedTuple):
    """What a channel is set to, and its filters: from which frame on each is in force, the latest last."""

    filters: Sequence[tuple[int, str]]
    span: int = 0
    limit: int = 16_424
    number: int = 1
    net: int = 0
    speed: int = 0
    most: int = 1 << 63


class Moment(NamedTuple):
    """A frame that was offered, or a time mark: its counter, and the frame if it was kept."""

    counter: int
    kept: Optional[Item] = None


class Group(NamedTuple):
    """What came while one version was in force, from this frame on."""

    version: int
    first: int
    counter: int
    moments: list[Moment]


def feed_of_items(items: Sequence[Item]) -> bytes:
    return b"".join(record_of(it.counter, it.frame or b"", it.flags) for it in items)


def taken(channel: Channel, items: Sequence[Item]) -> list[Item]:
    """The frames that may be taken, and the time marks behind each; those ahead of the first do nothing."""
    found: list[Item] = []
    frames = 0
    for item in items:
        frames += item.frame is not None
        if frames > channel.most:
            break
        if frames:
            found.append(item)
    return found


def groups(channel: Channel, items: Sequence[Item]) -> list[Group]:
    """The moments, by the version that each frame meets."""
    found: list[Group] = []
    number = 0
    for item in taken(channel, items):
        if item.frame is None:
            found[-1].moments.append(Moment(item.counter))
            continue
        version = max(at for at, (first, _) in enumerate(channel.filters) if first <= number)
        if not found or found[-1].version != version:
            found.append(Group(version, number, item.counter, []))
        keeps = FILTERS[channel.filters[version][1]].keeps(item.frame)
        found[-1].moments.append(Moment(item.counter, item if keeps else None))
        number += 1
    return found


def word_of(channel: Channel, item: Item) -> int:
    return channel.net << 16 | channel.speed << 24 | (item.flags & 1) << 31 | (item.flags >> 1) << 30


def body(channel: Channel, kept: Sequence[Item]) -> bytes:
    return body_of((it.counter, word_of(channel, it), it.frame or b"") for it in kept)


def are_together(channel: Channel, moments: Sequence[Moment]) -> bool:
    """Whether moments are of one packet: it is no longer than the limit, and none is a span after its first frame."""
    kept = [(at, it.kept) for at, it in enumerate(moments) if it.kept]
    if not kept:
        return True
    size = HEADER_LENGTH + len(body(channel, [it for _, it in kept]))
    if size + -size % 4 > channel.limit:
        return False
    at, first = kept[0]
    ages = ((it.counter - first.counter) % COUNTERS for it in moments[at + 1 :])
    return not channel.span or all(age < channel.span for age in ages)


def parts(channel: Channel, moments: list[Moment]) -> Iterator[list[Item]]:
    """The kept frames of each part, where it has some: each part is the longest beginning of what is left."""
    while moments:
        sizes = range(1, len(moments) + 1)
        longest = max(size for size in sizes if are_together(channel, moments[:size]))
        kept = [it.kept for it in moments[:longest] if it.kept]
        if kept:
            yield kept
        moments = moments[longest:]


def program(channel: Channel, group: Group) -> bytes:
    _, *listed = FILTERS[channel.filters[group.version][1]].listing.strip(",").split(",")
    insns = insns_of(*(tuple(map(int, it.split())) for it in listed))
    return program_data(channel.number, group.version, insns, group.first)


def recording(channel: Channel, items: Sequence[Item], is_summed: bool = True) -> bytes:
    """The recording of a feed, in the second profile or in the first."""
    packets: list[bytes] = []
    sequences = {0: 0, channel.number: 0}
    count = kept = counter = 0

    def add(number: int, data: bytes, kind: int, counter: int) -> None:
        packets.append(packet_of(number, data, sequences[number], kind, counter, is_summed))
        sequences[number] += 1

    for group in groups(channel, items):
        add(0, program(channel, group), COMPUTER, group.counter)
        for part in parts(channel, group.moments):
            add(channel.number, body(channel, part), FRAMES, part[0].counter)
            kept += len(part)
    for item in taken(channel, items):
        if item.frame is not None:
            count, counter = count + 1, item.counter
    add(0, end_data(channel.number, count, kept), COMPUTER, counter)
    return b"".join(packets)


# ---- drawn feeds


def drawn_frame(rng: random.Random) -> bytes:
    """A frame that a filter may keep or not, sometimes so long that a packet has room for few."""
    return rng.randbytes(rng.choice([18, 19, 60, 60, 64, 64, 1_518, 5_000, 16_383]))


def drawn_items(rng: random.Random, span: int, count: int) -> list[Item]:
    """Frames and, with a span, time marks: their counters rise, stay, fall and turn."""
    counter = rng.choice([0, 5, COUNTERS - 3, rng.randrange(COUNTERS)])
    scale = span or 1_000
    steps = [0, 1, scale // 3, scale // 2, scale - 1, scale, scale + 1, 3 * scale, -1, -scale, -2 * scale]
    found = []
    for _ in range(count):
        counter = (counter + rng.choice(steps)) % COUNTERS
        is_mark = span and rng.random() < 0.4
        found.append(Item(counter) if is_mark else Item(counter, drawn_frame(rng), rng.choice([0, 0, 1, 2, 3])))
    return found
