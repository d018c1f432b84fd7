"""What trials of bpfrec info and bpfrec salvage share: these tools as modules, for many calls, and recordings."""

import contextlib
import io
import json
import os
import random
import tempfile
from pathlib import Path
from typing import BinaryIO, cast

from bpfrec.formats.packet import Packet
from bpfrec.formats.reader import reader_of
from bpfrec.formats.search import BlockSums
from bpfrec_tools.cli.program import audit_of
from bpfrec_tools.info import as_json
from bpfrec_tools.info.contents import read
from bpfrec_tools.info.facts_file import time_of
from bpfrec_tools.info.page import page_parts
from bpfrec_tools.info.text import text_parts
from bpfrec_tools.salvage import command as salvage
from frames import HEAD, feed_of, with_check_sequence
from recorder import RECORDINGS, record, write_settings
from sample_feeds import sample_feed
from support import INFO, judge_quietly, run

__all__ = ["BlockSums", "as_json", "audit_of", "page_parts", "read", "salvage", "text_parts", "time_of"]
# The same recording without data checksums and with them.
SAMPLES = [RECORDINGS / it for it in ("two_versions.ch11", "two_versions_checked.ch11")]
SEED = 1


def put_beside(recording: Path, facts: dict) -> Path:
    beside = Path(f"{recording}.json")
    beside.write_text(json.dumps(facts))
    return beside


def json_of(recording: Path) -> dict:
    return json.loads(run(INFO, "--json", recording))


def facts_of(recording: Path) -> dict:
    """What info says of a recording, as JSON has it; the text and the page can be made too."""
    answer = audit_of(str(recording))
    found = read(str(recording), not answer.is_yes())
    holds = [*text_parts(found, answer), *page_parts("recording", found, answer)]
    judge_quietly(f"text and page of {recording}", holds)
    return json.loads(json.dumps(as_json.object_of(found, answer.answer)))


def salvaged(data: bytes) -> tuple[bytes, str]:
    """What salvage keeps of these bytes, and what it prints."""
    # In memory, since it forces what it made to its disk.
    out_file = open(os.memfd_create("out"), "w+b")
    with tempfile.TemporaryFile() as damaged, out_file as out, contextlib.redirect_stdout(io.StringIO()) as told:
        damaged.write(data)
        damaged.seek(0)
        salvage.salvage(cast(BinaryIO, damaged), cast(BinaryIO, out))
        out.seek(0)
        return out.read(), told.getvalue()


def packets_of(data: bytes) -> list[Packet]:
    with tempfile.TemporaryFile() as file:
        file.write(data)
        file.seek(0)
        return [it for it in reader_of(cast(BinaryIO, file)).pieces() if isinstance(it, Packet)]


# ---- recordings


def odd_feed(draw: random.Random) -> bytes:
    """A feed whose counters step back and leave gaps, with frames that are marked since their check sequence is
    wrong."""
    counter, found = 5_000, []
    for number in range(2_000):
        is_wrong = number % 50 == 7
        frame = with_check_sequence(HEAD + draw.randbytes(draw.randrange(46, 200)))
        counter += draw.choice([10, 1_000, 30_000]) if number % 200 else 37_000_000
        counter -= 4_000_000 * (number % 300 == 299)
        found.append((counter, int(is_wrong), frame[:-4] + bytes([frame[-4] ^ is_wrong]) + frame[-3:]))
    return feed_of(found)


def recording_of_three(work: Path) -> Path:
    """A recording of three channels: one that keeps all, one that drops some, one with odd counters."""
    for channel, frames in ((1, 3_000), (2, 500)):
        sample_feed(work / f"{channel}.feed", channel, frames)
    (work / "3.feed").write_bytes(odd_feed(random.Random(SEED)))
    (work / "some").write_text("4,48 0 0 21,69 0 1 1,6 0 0 1,6 0 0 0,")
    settings = write_settings(work, ["1.feed", "2.feed", "3.feed"], ["all", "some", "all"], "three.toml")
    settings.write_text("limit = 16424\n" + settings.read_text())
    judge_quietly("three channels are recorded", record(settings, work / "three.ch11").returncode == 0)
    return work / "three.ch11"
