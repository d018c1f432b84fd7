"""The index of a whole file: nodes that name its packets, and roots that name its nodes."""

from __future__ import annotations

import struct
from typing import Iterator, NamedTuple, Optional

from second.packets import INDEX, Packet, Wrong

# Entries of a node, and nodes of a root.
MOST_NAMED = 16_384
WORD_LEN = 4
NODE_BIT, COUNT_BITS = 1 << 31, 0xFFFF
NODE_ENTRY, ROOT_ENTRY = struct.Struct("<QHBBQ"), struct.Struct("<QQ")


class Entry(NamedTuple):
    """What a node has of a packet: its counter, channel, type, a zero, and the place of its first byte."""

    counter: int
    channel: int
    kind: int
    zero: int
    at: int


class Place(NamedTuple):
    """What a root has of a node or of a root: its counter, and the place of its first byte."""

    counter: int
    at: int


class Index:
    """The index as far as it was read, beside the packets that it has to name."""

    def __init__(self, most_named: int = MOST_NAMED) -> None:
        self.most_named = most_named
        # Packets that no node has named, and nodes that no root has.
        self.unnamed: list[Entry] = []
        self.nodes: list[Place] = []
        self.root: Optional[Place] = None
        self.ends_by_root = False
        # Whether a node or a root went out before it was full, as only the last ones do.
        self.is_closed = False

    def take(self, packet: Packet) -> Iterator[str]:
        """Takes a packet that is no index packet: what is wrong with it."""
        self.ends_by_root = False
        if self.is_closed:
            self.is_closed = False
            yield "a packet behind the end of the index"
        if len(self.unnamed) == self.most_named:
            self.unnamed = []
            yield f"no node names the {self.most_named} packets ahead of it"
        self.unnamed.append(Entry(packet.counter, packet.channel, packet.kind, 0, packet.at))

    def take_index(self, packet: Packet, greatest: int) -> Iterator[str]:
        """Takes an index packet: what is wrong with it."""
        if packet.counter != greatest:
            yield "the counter of an index packet isn't the greatest"
        place = Place(packet.counter, packet.at)
        self.ends_by_root = False
        if len(packet.data) >= WORD_LEN and packet.data[3] >> 7:
            yield from self.take_node(place, packet.data)
        else:
            yield from self.take_root(place, packet.data)

    def take_node(self, place: Place, data: bytes) -> Iterator[str]:
        """Takes a node."""
        named, self.unnamed = self.unnamed, []
        self.nodes.append(place)
        if self.is_closed:
            yield "a node behind the last one"
        if len(self.nodes) > self.most_named:
            yield f"no root names the {self.most_named} nodes ahead of it"
        self.is_closed = len(named) < self.most_named
        rows = [Entry(*it) for it in entries_in(data, NODE_ENTRY)]
        yield from node_faults(rows, named)

    def take_root(self, place: Place, data: bytes) -> Iterator[str]:
        """Takes a root."""
        nodes, before = self.nodes, self.root
        self.nodes, self.root, self.ends_by_root = [], place, True
        self.is_closed |= len(nodes) < self.most_named
        rows = [Place(*it) for it in entries_in(data, ROOT_ENTRY)]
        if rows[:-1] != nodes:
            yield "a root doesn't name its nodes"
        if rows[-1] != (before or place):
            yield "a root doesn't name the root before, or itself as the first"
        if not nodes and before:
            yield "a root without a node"

    def end(self) -> Iterator[str]:
        """What is wrong with the end of the file."""
        if self.unnamed or self.nodes or not self.ends_by_root:
            yield "the file doesn't end with a root that names all"


def entries_in(data: bytes, form: struct.Struct) -> list[tuple[int, ...]]:
    """The entries of an index packet, one at least."""
    word = struct.unpack_from("<I", data)[0] if len(data) >= WORD_LEN else 0
    count = word & COUNT_BITS
    if word & ~(NODE_BIT | COUNT_BITS) or len(data) != WORD_LEN + count * form.size or not count:
        raise Wrong(f"the word of an index packet is {word:#x}")
    return list(form.iter_unpack(data[WORD_LEN:]))


def node_faults(rows: list[Entry], named: list[Entry]) -> Iterator[str]:
    """What is wrong with the entries of a node that has to name these packets: of the first that is wrong."""
    if len(rows) != len(named):
        yield f"a node names {len(rows)} packets, and {len(named)} stand ahead of it"
        return
    for number, (row, packet) in enumerate(zip(rows, named), 1):
        names = [name for name, has, due in zip(Entry._fields, row, packet) if has != due]
        if names:
            what = {"kind": "type", "at": "place"}.get(names[0], names[0])
            yield f"entry {number} of a node has another {what} than the packet at {packet.at}"
            return


def is_index(packet: Packet) -> bool:
    """Whether a packet is an index packet, which no node names."""
    return packet.channel == 0 and packet.kind == INDEX
