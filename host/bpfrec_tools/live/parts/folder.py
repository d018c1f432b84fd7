"""The private folder of a run: for each recording the settings with its pipes, and what its recorder prints.

Its files, below `top`:

    settings        SETTINGS, as it was when the run began
    events          what the capture notes, a line of JSON each
    now             a link to the folder of the recording that goes on; to `gate` until OUT is there
    given/          the filters that the arguments give channels, and those that SETTINGS give in words
    filters/        of recordings that follow one another: the filter that each channel has by now, and the words of one
                    that a line gave it
    <number>/       a recording: <channel>.pipe, settings.toml, answers, report, audit, audit_errors, each of the last
                    three `.room` until it is printed into, and what facts need: about.json, filters and marks
"""

from __future__ import annotations

import fcntl
import os
import re
from pathlib import Path
from typing import Any, BinaryIO, Optional

from bpfrec.formats.limits import MAX_COUNTER, MAX_LISTING_LEN
from bpfrec.formats.listing import listing_in
from bpfrec.formats.settings import Settings, settings_of
from bpfrec.formats.settings_text import text_of
from bpfrec_tools.live.arguments import Arguments
from bpfrec_tools.live.flight import read_toml, texts_of, without_flight
from bpfrec_tools.live.kept.names import refused
from bpfrec_tools.live.operands import Route
from bpfrec_tools.live.parts import system
from bpfrec_tools.live.parts.expressions import (
    gives_filter,
    listing_in_words,
    listing_of,
    name_of,
    settings_text,
    words_in,
)
from bpfrec_tools.live.parts.spans import shortest_of, spans_of

# What the private folders of runs are called.
NAME = re.compile(r"bpfrec\.[0-9a-f]{16}")
# What programs print into files of a recording's folder, and how much room each of these and the events are sure to
# have, also where the disk of TMPDIR is full by then.
PRINTED, MARKS = ("report", "audit", "audit_errors"), "marks"
PRINTED_ROOM, EVENTS_ROOM = 1 << 16, 1 << 20
# What stands behind the name of a filter that is kept, in that of its words.
WORDS = ".words"


def read_settings(path: str) -> tuple[str, Settings]:
    """The text of SETTINGS and what it says; a Refusal where it can't be read."""
    text, settings = read_toml(path)
    return text, without_flight(settings)


def made_settings(routes: list[Route]) -> tuple[str, Settings]:
    """The settings of a run that was given none."""
    text = settings_text(routes)
    return text, settings_of("-", text)


def judge_settings(settings: Settings, given: Arguments) -> None:
    """Refuses settings that lack a channel of an interface, or its filter where the kernel is to run it; and channels
    without interfaces of recordings that follow one another."""
    wanted = {it.channel for it in given.routes}
    for channel in settings.channels:
        named = channel.id()
        if given.is_rotating() and named is not None and named not in wanted:
            what = "--every and --size need an interface for each channel"
            raise refused(2, f"{what}, and {named} of {given.settings} has none")
    for route in given.routes:
        tables = [it for it in settings.channels if is_channel(it.table, route.channel)]
        if not tables:
            raise refused(2, f"{given.settings} has no table [[channel]] with a line id = {route.channel}")
        has_filter = route.expression or given.settings is None or any(it.path("filter") for it in tables)
        if given.is_prefiltered and not has_filter:
            what = f'--prefilter needs a line filter = ".." of channel {route.channel}'
            raise refused(2, f"{what} in {given.settings}")


def is_channel(table: dict[str, Any], channel: int) -> bool:
    """Whether a table is that of a channel."""
    named = table.get("id")
    return isinstance(named, int) and not isinstance(named, bool) and named == channel


class Folder:
    """The private folder of a run."""

    def __init__(self, text: str, settings: Settings, given: Arguments) -> None:
        self.text, self.settings, self.routes = text, settings, given.routes
        # The names of channels, by their IDs.
        self.names = texts_of(settings_of("-", text), "name")
        # The listings of filters that the arguments give channels, or SETTINGS in words.
        self.listings = {it.channel: listing_of(it) for it in given.routes if gives_filter(it, given)}
        self.words = dict(words_in(settings, {it.channel for it in given.routes if gives_filter(it, given)}))
        self.listings |= {channel: listing_in_words(*named) for channel, named in self.words.items()}
        self.keeps_filters, self.spans = given.is_rotating(), spans_of(settings, given)
        self.holder = os.environ.get("TMPDIR") or "/tmp"
        self.top = Path(self.holder, f"bpfrec.{os.urandom(8).hex()}")
        self.events = self.top / "events"
        self.held: Optional[int] = None

    def make_all(self) -> None:
        """Makes the folder and what all recordings share, once there is somebody who removes it where live is
        killed."""
        try:
            self.top.mkdir(mode=0o700)
        except OSError as error:
            raise refused(3, f"{self.holder}: {error.strerror}") from None
        self.hold()
        (self.top / "settings").write_text(self.text, encoding="utf-8")
        (self.top / "filters").mkdir()
        (self.top / "given").mkdir()
        for channel, listing in self.listings.items():
            self.given_filter(channel).write_text(listing, encoding="utf-8")
        write_room(self.events, EVENTS_ROOM)
        self.make_pipes("gate")
        self.point_to("gate")
        if self.keeps_filters:
            self.keep_filters()

    def hold(self) -> None:
        """Has the folder known as one of a run that goes on, as long as this process does."""
        try:
            self.held = os.open(self.top, os.O_RDONLY | os.O_DIRECTORY | os.O_CLOEXEC)
            fcntl.flock(self.held, fcntl.LOCK_SH)
        except OSError:
            pass

    def leftovers(self) -> list[str]:
        """The folders beside this one that are left of runs of which live and its guard were killed."""
        try:
            names = sorted(os.listdir(self.holder))
        except OSError:
            return []
        return [it for it in (f"{self.holder}/{name}" for name in names if NAME.fullmatch(name)) if is_left(it)]

    # ---- recordings

    def of(self, number: int) -> Path:
        """The folder of a recording."""
        return self.top / str(number)

    def make_pipes(self, name: str) -> None:
        """Makes a folder with a pipe for each interface."""
        made = self.top / name
        made.mkdir()
        for route in self.routes:
            os.mkfifo(made / f"{route.channel}.pipe")

    def make(self, number: int) -> Path:
        """Makes the folder of a recording: the pipes, and the settings with them."""
        self.make_pipes(str(number))
        made = self.of(number)
        os.mkfifo(made / "answers")
        for name in PRINTED:
            write_room(room_of(made, name), PRINTED_ROOM)
        write_room(made / MARKS, PRINTED_ROOM)
        (made / "settings.toml").write_text(text_of(self.document(made)), encoding="utf-8", errors="surrogateescape")
        return made

    def remove(self, number: int) -> None:
        """Removes the folder of a recording."""
        remove_folder(self.of(number))

    def remove_all(self) -> None:
        """Removes all of it, also where descriptors are short: then by the one that was held."""
        remove_folder(self.top)
        if self.held is not None:
            os.close(self.held)
            self.held = None
            remove_folder(self.top)

    def point_to(self, name: str) -> None:
        """Has the capture find the pipes of this folder."""
        following = self.top / "next"
        following.unlink(missing_ok=True)
        following.symlink_to(name)
        following.replace(self.top / "now")

    def pipes(self, number: int) -> list[Path]:
        """The pipes of a recording."""
        return [self.of(number) / f"{route.channel}.pipe" for route in self.routes]

    def sources(self) -> list[str]:
        """The capture's arguments: each interface with its pipe."""
        return [f"{route.interface}={self.top}/now/{route.channel}.pipe" for route in self.routes]

    # ---- settings

    def document(self, made: Path) -> dict[str, Any]:
        """The settings of a recording: of channels with interfaces pipes in place of feeds, and their spans; and the
        filters that are kept in place of those of SETTINGS."""
        document = dict(self.settings.document)
        tables = document.get("channel")
        if isinstance(tables, list):
            document["channel"] = [self.table(it, made) if isinstance(it, dict) else it for it in tables]
        return document

    def table(self, table: dict[str, Any], made: Path) -> dict[str, Any]:
        """The same of a channel's table."""
        named = table.get("id")
        if not isinstance(named, int):
            return table
        path = self.filter_of(named, table.get("filter"))
        changed = table if path is None else {**table, "filter": path}
        interface = next((it.interface for it in self.routes if it.channel == named), None)
        if interface is None:
            return changed
        # A channel without one gets the marks of another one of its interface, for which it must have a span.
        span = self.spans[named] or (MAX_COUNTER if interface in shortest_of(self.routes, self.spans) else 0)
        return {**changed, "feed": f"{made}/{named}.pipe", "span": span}

    def span_arguments(self) -> list[str]:
        """The capture's arguments by which it says in feeds how time goes by."""
        spans = shortest_of(self.routes, self.spans)
        return [word for interface, span in spans.items() for word in ("--span", f"{interface}={span}")]

    # ---- filters

    def kept_filter(self, channel: int) -> Path:
        """Where a channel's filter is kept."""
        return self.top / "filters" / str(channel)

    def keep_words(self, channel: int, words: str) -> None:
        """Keeps the words of which the filter was made that a line gave a channel; none of a listing."""
        self.kept_filter(channel).with_suffix(WORDS).write_bytes(os.fsencode(words))

    def kept_words(self, channel: int) -> Optional[str]:
        """The same; None where no line gave it a filter."""
        try:
            return os.fsdecode(self.kept_filter(channel).with_suffix(WORDS).read_bytes())
        except FileNotFoundError:
            return None

    def given_filter(self, channel: int) -> Path:
        """Where the listing is of a filter that the arguments give a channel, or SETTINGS in words."""
        return self.top / "given" / str(channel)

    def filter_of(self, channel: int, path: Any) -> Any:
        """The file of a channel's filter, for which SETTINGS have this path: one that is kept, or given, or that."""
        for kept in (self.kept_filter(channel), self.given_filter(channel)):
            if kept.exists():
                return str(kept)
        return path

    def keep_filters(self) -> None:
        """Keeps the filters as they are at the beginning, for all recordings."""
        for channel, path in self.filters():
            copy_listing(path, self.kept_filter(channel))

    def filters(self) -> list[tuple[int, str]]:
        """The file of each channel's filter, as it is by now."""
        found = []
        for channel in self.settings.channels:
            named = channel.table.get("id")
            path = self.filter_of(named, channel.path("filter")) if isinstance(named, int) else None
            if isinstance(named, int) and path:
                found.append((named, path))
        return found

    def filter_names(self) -> dict[int, str]:
        """Each channel's filter at the beginning of the run, as people know it."""
        given = {it.channel: it.expression for it in self.routes if it.expression}
        tables = [(it.table.get("id"), it.path("filter")) for it in self.settings.channels]
        return {named: name_of(given.get(named, path)) for named, path in tables if isinstance(named, int)}

    def prefilters(self) -> list[str]:
        """The capture's arguments that give the kernel the filters."""
        found: list[str] = []
        for route in self.routes:
            given = self.given_filter(route.channel)
            tables = [it for it in self.settings.channels if is_channel(it.table, route.channel)]
            paths = [str(given)] if given.exists() else [it.path("filter") or "" for it in tables]
            found += ["--prefilter", f"{route.interface}={next(it for it in paths if it)}"]
        return found


def is_left(path: str) -> bool:
    """Whether nobody holds a folder of this user's."""
    try:
        descriptor = os.open(path, os.O_RDONLY | os.O_DIRECTORY | os.O_NOFOLLOW | os.O_CLOEXEC)
    except OSError:
        return False
    try:
        fcntl.flock(descriptor, fcntl.LOCK_EX | fcntl.LOCK_NB)
        return os.fstat(descriptor).st_uid == os.geteuid()
    except OSError:
        return False
    finally:
        os.close(descriptor)


def remove_folder(path: Path) -> None:
    """Removes a folder of our own, by one descriptor at a time, since they may be short."""
    try:
        for name in os.listdir(path):
            held = path / name
            if held.is_dir() and not held.is_symlink():
                remove_folder(held)
            else:
                held.unlink()
        path.rmdir()
    except OSError:
        pass


def copy_listing(path: str, copy: Path) -> bool:
    """Copies a listing that is a regular file, and a byte more than one may have: whether it is one."""
    data = listing_in(path, MAX_LISTING_LEN + 1)
    if data is None:
        return False
    try:
        copy.write_bytes(data)
    except OSError:
        copy.unlink(missing_ok=True)
        return False
    return True


def write_room(path: Path, length: int) -> None:
    """Creates an empty file that has room for so many bytes."""
    with open(path, "wb") as file:
        system.reserve(file.fileno(), length)


def room_of(made: Path, name: str) -> Path:
    """The file in a recording's folder that has the room for what is to be printed."""
    return made / f"{name}.room"


def open_printed(made: Path, name: str) -> BinaryIO:
    """Opens a file of a recording's folder for what a program prints, with the room that was kept for it."""
    os.replace(room_of(made, name), made / name)
    return open(made / name, "r+b")
