"""Filters in words, of which programs make listings: a text for `bpfrec asm`, or an expression of tcpdump; and the filter
of all frames."""

from __future__ import annotations

import os
import re
import shutil
import subprocess
from typing import Container, Optional

from bpfrec.formats.answers import is_no_listing
from bpfrec.formats.listing import listing_in, no_listing
from bpfrec.formats.settings import Channel, Settings
from bpfrec_tools.cli import program
from bpfrec_tools.live.arguments import Arguments
from bpfrec_tools.live.kept.names import is_special, refused, unreadable
from bpfrec_tools.live.operands import Route

ALL_FRAMES = "1,6 0 0 4294967295,"
# An expression may name hosts, which are looked up: so many seconds at most.
PATIENCE = 30
# How much of a file says what it is.
LOOKED_AT = 4_096
# What is a file's name, and no expression.
FILE_NAME = re.compile(r"\S*/\S*|\S+\.(?:txt|bpf)")
# The name of a filter that keeps all frames, and how long a name may be.
ALL, MOST_NAME = "all", 255
NO_TCPDUMP = "tcpdump is missing, which makes a filter of an expression: apt-get install tcpdump"


def name_of(text: Optional[str]) -> str:
    """A filter as people know it: an expression as it is, a file by its name, and none or an empty one as `all`."""
    if text is None or not text.strip():
        return ALL
    is_file = os.path.lexists(text) or FILE_NAME.fullmatch(text)
    name = os.path.basename(text) if is_file else " ".join(text.split())
    return name if len(name) <= MOST_NAME else f"{name[:MOST_NAME - 1]}…"


def is_in_words(text: str) -> bool:
    """Whether a filter is a text for the assembler or an expression: not a listing, and no file that isn't there. With a
    zero byte it is neither."""
    if "\0" in text:
        return False
    data = listing_in(text, LOOKED_AT)
    if data is None:
        return not os.path.lexists(text) and not FILE_NAME.fullmatch(text)
    return not data.lstrip()[:1].isdigit()


def arguments_for(text: str, bpfrec: str) -> Optional[list[str]]:
    """The program that makes a listing of a filter in words; None where it is missing. Of an expression it is tcpdump,
    of no interface: so it finds the tags of VLANs in the frames' bytes, as the wire and the recorder have them."""
    if os.path.lexists(text):
        return [bpfrec, "asm", text if text.startswith("/") else f"./{text}"]
    if text.strip() in ("", ALL):
        return ["echo", ALL_FRAMES]
    tcpdump = shutil.which("tcpdump")
    if tcpdump is None:
        return None
    # What live starts has the signal of `timeout` blocked, but for this one.
    return ["env", "LC_ALL=C", "timeout", "-s", "KILL", str(PATIENCE), tcpdump, "-y", "EN10MB", "-ddd", "--", text]


def fault_of(arguments: list[str], status: int, errors: bytes) -> str:
    """Why a program made no listing: the last line that it printed, or how it ended."""
    told = errors.decode(errors="replace").strip().splitlines()
    program_name = "bpfrec asm" if arguments[1:2] == ["asm"] else "tcpdump"
    return told[-1] if told else f"{program_name} ended with status {status}"


def listing_in_words(place: str, text: str) -> str:
    """The listing of a filter in words, which stands at this place; a Refusal where it has none."""
    arguments = arguments_for(text, program.find())
    if arguments is None:
        raise refused(3, f"{NO_TCPDUMP}")
    done = subprocess.run(arguments, stdin=subprocess.DEVNULL, capture_output=True, check=False)
    if done.returncode != 0:
        raise refused(2, f"{place}: {fault_of(arguments, done.returncode, done.stderr)}")
    return done.stdout.decode()


def listing_of(route: Route) -> str:
    """The listing of an interface's filter."""
    if route.expression is None:
        return ALL_FRAMES
    return listing_in_words(f"{route.interface}={route.channel}:{route.expression}", route.expression)


def gives_filter(route: Route, given: Arguments) -> bool:
    """Whether the arguments give an interface its filter."""
    return bool(route.expression) or given.settings is None


def words_in(settings: Settings, given: Container[int]) -> list[tuple[int, tuple[str, str]]]:
    """The filters that settings give in words, each with its channel and its place; but of channels with another
    filter."""
    found = []
    for channel in settings.channels:
        named, text = channel.table.get("id"), channel.path("filter")
        if isinstance(named, int) and named not in given and text is not None and is_in_words(text):
            found.append((named, (f"{place_of(settings, channel)}: filter {text} of {channel.name}", text)))
    return found


def place_of(settings: Settings, channel: Channel) -> str:
    """The file of settings, and the line of a channel's filter where it is known."""
    return ":".join(str(it) for it in (settings.file, channel.line("filter")) if it)


def settings_text(routes: list[Route]) -> str:
    """Settings of interfaces for which none were given, as the facts have them; filters stand there beside."""
    lines = ["# live was given no settings"]
    for route in routes:
        lines += [
            "",
            "[[channel]]",
            f"id = {route.channel}",
            f"# {route.expression or 'all frames'}".replace("\n", " "),
        ]
    return "".join(f"{line}\n" for line in lines)


def judge_filters(settings: Settings, given: Arguments) -> None:
    """Refuses a filter that can't be installed, but of a channel whose filter the arguments give, or SETTINGS in
    words."""
    replaced = {it.channel for it in given.routes if it.expression or given.settings is None}
    judged = set()
    for channel in settings.recorded():
        path = channel.path("filter")
        if path is None or path in judged or is_in_words(path):
            continue
        if channel.table.get("id") not in replaced:
            judged.add(path)
            judge_filter(f"{place_of(settings, channel)}: {channel.name}", path)


def judge_filter(name: str, path: str) -> None:
    """Refuses a file that is no valid listing; one that is a pipe is the recorder's to open."""
    why = unreadable(path)
    if why:
        raise refused(3, f"{name}: {why}")
    if is_special(path):
        return
    # A path that begins with - would be an option or standard input.
    done = program.run("verify", path if path.startswith("/") else f"./{path}")
    # One that a signal ended was ended with live.
    if done.returncode > 0:
        answer = program.answer_of(done)
        what = no_listing(path) if is_no_listing(answer) else f"{answer}: filter {path}"
        raise refused(done.returncode, f"{name}: {what}")
