"""A tool's name and arguments, as its command line has them."""

from __future__ import annotations

import argparse
from collections.abc import Iterable
from typing import IO, Any, NoReturn, Optional, Union, cast

from bpfrec.formats.limits import MAX_CHANNEL_ID
from bpfrec_tools.cli import printing

# What argparse says of options and words that nobody takes.
UNKNOWN = "unrecognized arguments: "


def name_of(tool: str) -> str:
    """How a tool is called, and what begins each line that it prints of itself."""
    return f"bpfrec {tool}"


def meant_by(word: str, known: Iterable[str]) -> str:
    """The known word that is most like another one; nothing where none is."""
    # Here, since it takes long to load, as what else is imported in a function.
    import difflib

    return next(iter(difflib.get_close_matches(word.partition("=")[0], list(known), 1)), "")


def nearest(word: str, known: Iterable[str]) -> str:
    """What a line about an unknown word ends in: the known one that it means, if any."""
    found = meant_by(word, known)
    return f": did you mean {found}?" if found else ""


class Parser(argparse.ArgumentParser):
    """A parser that keeps the lines of a tool's help as they are written, and whose help fails as all else that is
    printed does, where standard output can't take it. Options stand anywhere, and each is written whole."""

    def __init__(self, **more: object) -> None:
        more.setdefault("formatter_class", argparse.RawDescriptionHelpFormatter)
        more.setdefault("allow_abbrev", False)
        super().__init__(**more)  # type: ignore[arg-type]

    def parse_args(self, *words: Any) -> argparse.Namespace:  # type: ignore[override]
        """What words say, wherever options stand; but behind operands that take all that follows."""
        is_last = any(it.nargs == argparse.REMAINDER for it in self._get_positional_actions())
        found = super().parse_args(*words) if is_last else self.parse_intermixed_args(*words)
        return cast(argparse.Namespace, found)

    def print_help(self, file: Optional[IO[str]] = None) -> None:
        """Prints the help on standard output."""
        printing.out(self.format_help())

    def error(self, message: str) -> NoReturn:
        """Says what is wrong with the arguments, and ends."""
        if message.startswith(UNKNOWN):
            words = message[len(UNKNOWN) :].split()
            options = [it for action in self._actions for it in action.option_strings]
            message = f"no such option: {words[0]}{nearest(words[0], options)}" if words[0][0] == "-" else message
        printing.err(f"{self.format_usage()}{self.prog}: error: {message}")
        self.exit(2)


def channel_id(word: str) -> int:
    """The channel ID that a word is."""
    return natural_up_to(word, MAX_CHANNEL_ID, f"channel ID, 0 to {MAX_CHANNEL_ID}")


def channel_of(word: str) -> Union[int, str]:
    """The channel ID that a word is, or else the name or the interface."""
    return channel_id(word) if word.isdigit() else word


def no_channel(asked: Union[int, str], known: Iterable[tuple[int, str]]) -> str:
    """What is said of a channel that isn't there, with those that are."""
    return f"no channel {asked}: {', '.join(f'{channel} {name}'.strip() for channel, name in sorted(set(known)))}"


def natural(word: str) -> int:
    """The number that decimal digits are."""
    if not word.isascii() or not word.isdigit():
        raise argparse.ArgumentTypeError(f"{word} is no number")
    return int(word)


def natural_up_to(word: str, most: int, what: str) -> int:
    """The same of a number that is at most another one; `what` says what a greater one isn't."""
    number = natural(word)
    if number > most:
        raise argparse.ArgumentTypeError(f"{word} is no {what}")
    return number
