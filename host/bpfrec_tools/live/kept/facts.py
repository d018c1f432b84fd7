"""The facts beside a recording, OUT.json, by docs/user/formats/live.md: made, and put in the place of earlier ones."""

from __future__ import annotations

import contextlib
import json
import os
import socket
import subprocess
from pathlib import Path
from typing import Any, Iterator, NamedTuple, Optional

from bpfrec.formats.facts import NoFacts, origin_in, utc_of
from bpfrec.formats.names import facts_path
from bpfrec_tools.cli.streams import force_folder
from bpfrec_tools.live.arguments import Arguments
from bpfrec_tools.live.kept.names import Files, created_beside, remove
from bpfrec_tools.live.kept.noted import FILTERS, add_line, filter_entry, lines_in, marks_of
from bpfrec_tools.live.kept.synchronisation import synchronisation
from bpfrec_tools.live.operands import Route
from bpfrec_tools.live.parts.adapters import adapter_of
from bpfrec_tools.live.parts.folder import Folder

Entry = dict[str, Any]
# Where a run was killed, as shells have it.
KILLED_STATUS = 137


class About(NamedTuple):
    """A recording: its number, its OUT, the number of its feed, and when it began."""

    number: int
    out: str
    feed: int
    begun: str


class Writer:
    """Makes the facts of recordings of a run, and writes them."""

    def __init__(self, given: Arguments, folder: Folder, bpfrec: str, files: Files) -> None:
        self.given, self.folder, self.bpfrec, self.files = given, folder, bpfrec, files

    def prepare(self, about: About) -> None:
        """Leaves what is known of a recording when it begins, for whoever writes its facts where live is killed."""
        folder = self.folder.of(about.number)
        (folder / "about.json").write_text(json.dumps(about), encoding="utf-8")
        try:
            # By now, since a line may change a filter until the facts are written first.
            (folder / FILTERS).touch()
            for found in self.filters():
                add_line(folder / FILTERS, found)
        except OSError:
            remove(str(folder / FILTERS))

    def beginning(self, about: About) -> Entry:
        """What is known of a recording when it begins, which is found once, and each filter that was noted since."""
        kept = self.folder.of(about.number) / "beginning.json"
        try:
            found: Entry = json.loads(kept.read_bytes())
        except (OSError, ValueError):
            found = self.found_at_the_beginning(about)
        noted = [self.with_text(it) for it in self.noted_filters(about)[len(found["filters"]) :]]
        found["filters"] += noted
        if noted or not kept.exists():
            with contextlib.suppress(OSError):
                kept.write_bytes(encoded(found))
        return found

    def found_at_the_beginning(self, about: About) -> Entry:
        """The same but for filters."""
        return {
            "facts": 1,
            "recording": os.path.basename(about.out),
            "host": socket.gethostname(),
            "program": self.answer("version").strip(),
            "begun": about.begun,
            "clock": self.given.clock(),
            "prefilter": self.given.is_prefiltered,
            "origin_utc": None,
            "adapters": [
                adapter_of(it.interface, self.given.clock()) for it in self.given.routes if not it.is_capture()
            ],
            "synchronisation": {"begin": self.synchronisation(), "end": None},
            "interfaces": [self.interface_of(it) for it in self.given.routes],
            "settings": self.folder.text,
            "spans": [{"channel": channel, "span": span} for channel, span in self.folder.spans.items()],
            "filters": [],
        }

    def synchronisation(self) -> Optional[Entry]:
        """What holds the host's clock right; None where no frame has a time of it."""
        return None if self.given.reads_captures() else synchronisation()

    def interface_of(self, route: Route) -> Entry:
        """Which interface is which channel, with the channel's name where it has one."""
        found: Entry = {"interface": route.interface, "channel": route.channel}
        return {**found, "name": self.folder.names[route.channel]} if route.channel in self.folder.names else found

    def noted_filters(self, about: About) -> list[Entry]:
        """The filters that a recording began with, then those in words that lines set; those by now, where there was no
        room for them."""
        try:
            return list(lines_in(self.folder.of(about.number) / FILTERS))
        except OSError:
            return list(self.filters())

    def filters(self) -> Iterator[Entry]:
        """The filters that channels have by now: their listings, and the words of which they were made."""
        for channel, path in self.folder.filters():
            found = filter_entry(channel, path, self.words_of(channel))
            if found:
                yield found

    def with_text(self, found: Entry) -> Entry:
        """A filter with its text, which the program prints."""
        text = self.answer("dis", "-", given=found["listing"].encode())
        return {"channel": found["channel"], "listing": found["listing"], "text": text, **found}

    def words_of(self, channel: int) -> str:
        """The words of which a channel's filter was made, as it is by now; none of a listing."""
        kept = self.folder.kept_words(channel)
        if kept is not None:
            return kept
        given = [it.expression for it in self.given.routes if it.channel == channel and it.expression]
        given += [text for named, (_, text) in self.folder.words.items() if named == channel]
        return given[0] if given else ""

    def answer(self, *arguments: str, given: bytes = b"") -> str:
        """What the program prints; nothing where it can't be run."""
        try:
            # In a session of its own, so that no signal to all ends it.
            done = subprocess.run(
                [self.bpfrec, *arguments], input=given, capture_output=True, check=False, start_new_session=True
            )
        except OSError:
            return ""
        return done.stdout.decode(errors="ignore")

    def write(self, about: About, noted: Entry, status: Optional[int], following: Optional[str] = None) -> Entry:
        """Writes the facts by what was noted, and returns them; the status is None while the recording goes on, and
        `following` the OUT of the next recording, where one has begun. An OSError says that they can't be written; then
        those of before stay."""
        facts = {**self.beginning(about), **noted, **self.ending(about, status)}
        facts["next"] = following and os.path.basename(following)
        facts["marks"] = marks_of(self.folder.of(about.number), noted["origins"])
        facts["origin_utc"] = utc_of_origin(noted["origins"])
        if status is not None:
            facts["synchronisation"] = {**facts["synchronisation"], "end": self.synchronisation()}
        replace(facts_path(about.out), self.files, encoded(facts))
        return facts

    def ending(self, about: About, status: Optional[int]) -> Entry:
        """What is known of a recording's end; its hash and the recording before come once it is hashed."""
        unhashed = {"sha256": None, "bytes": None, "before": None}
        if status is None:
            return {"state": "recording", "report": None, "audit": None, "status": None, **unhashed}
        folder = self.folder.of(about.number)
        return {
            "state": "ended",
            "report": lines_of(folder / "report"),
            "audit": lines_of(folder / "audit"),
            "status": status,
            **unhashed,
        }


def utc_of_origin(origins: list[Entry]) -> Optional[str]:
    """The moment of counter 0 as UTC, by the first origin; None where there is none of a year with four digits, or
    nobody knows its scale."""
    try:
        first = origin_in(origins[0], "origin") if origins else None
    except NoFacts:
        return None
    return utc_of(first.moment) if first and first.scale else None


def replace(path: str, files: Files, data: bytes) -> None:
    """Writes a file anew, so that it is whole at any moment, also where power is lost."""
    following, descriptor = created_beside(path, files)
    try:
        with open(descriptor, "wb") as file:
            file.write(data)
            file.flush()
            os.fdatasync(descriptor)
        os.replace(following, path)
    except OSError:
        remove(following)
        raise
    force_folder(os.path.dirname(path) or ".")


def lines_of(path: Path) -> Optional[list[str]]:
    """The lines of a file; None where it isn't there."""
    try:
        return path.read_bytes().decode(errors="ignore").splitlines()
    except OSError:
        return None


def encoded(facts: Entry) -> bytes:
    """Facts as JSON, a line for each key; what a name has beside UTF-8 is left out."""
    lines = [f" {json.dumps(key)}: {json.dumps(value, ensure_ascii=False)}" for key, value in facts.items()]
    return ("{\n" + ",\n".join(lines) + "\n}\n").encode(errors="ignore")
