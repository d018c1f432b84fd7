"""Where a run is published: what `--publish` says."""

from __future__ import annotations

import argparse
from typing import Callable, NamedTuple

from bpfrec_tools.cli.addresses import UdpAddress, length_of, ttl_of, udp_address

OPTIONS: dict[str, Callable[[str], object]] = {"ttl": ttl_of, "interface": str, "datagram": length_of}


class Target(NamedTuple):
    """Where a run is published: the address, and the options of bpfrec publish that stand behind it."""

    address: UdpAddress
    options: dict[str, str]
    # What the setup record says beside the facts, as arguments.
    setup: tuple[str, ...] = ()

    def lacks(self) -> str:
        """What is said where the interface by which the run is published isn't here; nothing where it is."""
        return self.address.lacks(self.options.get("interface"))

    def arguments(self) -> list[str]:
        """These as arguments of bpfrec publish."""
        return [*(f"--{name}={value}" for name, value in self.options.items()), *self.setup]


def target_of(word: str) -> Target:
    """The target that ADDRESS:PORT is, with options as ,ttl=4 behind it."""
    first, *others = word.split(",")
    options = {}
    for other in others:
        name, mark, value = other.partition("=")
        if not mark or not value or name not in OPTIONS or name in options:
            raise argparse.ArgumentTypeError(f"{other}: needs ttl=N, interface=NAME or datagram=BYTES, each once")
        OPTIONS[name](value)
        options[name] = value
    target = Target(udp_address(first), options)
    if "interface" in options and not target.address.is_multicast():
        raise argparse.ArgumentTypeError(f"{word}: interface= is for a multicast group")
    return target
