"""The options of bpfrec live that are the capture's own, which are passed on as they were given, but for times of day and
sizes with a unit."""

from __future__ import annotations

import argparse
import re
import time
from typing import Optional

from bpfrec_tools.cli.moments import last_to, time_of_day
from bpfrec_tools.cli.quantities import size

# Those with a value, of which some are a choice, and those without.
ORIGIN, BUFFER = "--origin", "--buffer"
VALUED: dict[str, Optional[tuple[str, ...]]] = {
    ORIGIN: None,
    BUFFER: None,
    "--direction": ("both", "in", "out"),
    "--clock": ("host", "adapter"),
    "--check-sequence": ("adapter", "given", "missing"),
}
PLAIN = ("--quiet", "--no-promiscuous")
ABOUT = {
    ORIGIN: "the moment of counter 0: now, zero or a time",
    BUFFER: "the kernel's buffer of each interface, in MiB",
    "--direction": "frames that come in, that go out, or both",
    "--clock": "whose times frames have",
    "--check-sequence": "which frames have their frame check sequence (FCS)",
    "--quiet": "prints no counts, and shows no table",
    "--no-promiscuous": "takes no frames that are for others",
}
MEBIBYTE = 1 << 20


def add_capture_options(parser: argparse.ArgumentParser, group: argparse._ArgumentGroup) -> None:
    """Has a group of a parser take them, as a list `options`."""
    options: list[str] = []
    for option, choices in VALUED.items():
        value = "|".join(choices) if choices else "VALUE"
        group.add_argument(option, metavar=value, choices=choices, action=kept(options), help=ABOUT[option])
    for option in PLAIN:
        group.add_argument(option, nargs=0, action=kept(options), help=ABOUT[option])
    parser.set_defaults(options=options)


def kept(options: list[str]) -> type[argparse.Action]:
    """An action that keeps an option of the capture's."""

    class Kept(argparse.Action):
        """Keeps the option and its value."""

        def __call__(self, _: object, __: object, values: object, option: Optional[str] = None) -> None:
            options.extend([option or "", *([for_capture(option, values)] if isinstance(values, str) else [])])

    return Kept


def for_capture(option: Optional[str], value: str) -> str:
    """The value as the capture takes it: an origin with its date, which is the last such moment, and a buffer in whole
    mebibytes."""
    of_day = time_of_day(value) if option == ORIGIN else None
    if of_day is not None:
        from bpfrec.formats.facts import utc_of

        return utc_of(last_to(of_day, time.time_ns()))
    is_size = option == BUFFER and re.fullmatch(r"[1-9][0-9]{0,6}[MG]B?", value)
    return str(max(size(value) // MEBIBYTE, 1)) if is_size else value
