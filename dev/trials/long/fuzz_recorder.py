"""The commands that record, `record` and `simulate`, on drawn and damaged inputs: what they write must agree; for fuzz.py."""

import re
from collections.abc import Iterable, Iterator
from random import Random

from frames import feed_of
from fuzz_answers import Case, Run, Wrong, judge_frames
from fuzz_inputs import (
    ODD_OUTPUTS,
    Corpus,
    Frame,
    damaged,
    drawn_frames,
    drawn_program,
    frames_of_feed,
    listing_of,
    with_time_marks,
)
from fuzz_readings import readings, refused_output
from support import present


def feeds(run: Run, draw: Random, corpus: Corpus) -> None:
    """A recording of one channel and a script of the same frames write the same bytes."""
    program = drawn_program(draw)
    if not program or draw.random() < 0.5:
        program = draw.choice([[[6, 0, 0, 1]], [[0x28, 0, 0, 12], [0x15, 0, 1, 2054], [6, 0, 0, 1], [6, 0, 0, 0]]])
    frames, span = drawn_frames(draw), draw.choice([0, 0, 1, 1_000, 2**47, 2**48 - 1])
    feed = feed_of(with_time_marks(draw, frames, span) if span else frames)
    if draw.random() < 0.3:
        feed = damaged(draw, feed)
    net, speed, most = draw.randrange(256), draw.randrange(16), draw.choice([0, 1, 5, 1000])
    limit, version = draw.choice([16424, 20000, 65536, 524284]), draw.randrange(256)
    listing = listing_of(program)
    settings = (
        f"limit = {limit}\nring = {draw.choice([1, 4, 64])}\nversion = {version}\n[[channel]]\nid = 7\n"
        f'feed = "feed"\nfilter = "filter"\nnet = {net}\nspeed = {speed}\nmax = {most}\n'
        f"span = {span}\n"
    )
    files = {"settings": settings.encode(), "feed": feed, "filter": listing}
    lines = draw.choice([b"", b"x\n", b"set 9 filter\n", b"set 7 nowhere\nset 7 feed\n", b"set 7 /dev/zero\nset 7 .\n"])
    recorded = run(Case(["record", "settings", "out"], files, lines))
    verdict = run(Case(["verify", "in"], {"in": listing}))
    if (recorded.status == 0) != (verdict.status == 0):
        raise Wrong("record and verify disagree")
    if recorded.status != 0:
        return
    refused_output(run, ["record", "settings"], draw.choice(["settings", "feed", "./feed", "filter"]), files)
    refused = run(Case(["record", "settings", draw.choice(ODD_OUTPUTS)], {**files, "in": b""}))
    if (refused.status, refused.output) != (3, ""):
        raise Wrong(f"an OUT that can't be looked at: {refused.errors}")
    recorded = run(Case(["record", "settings", "out"], files, lines))
    recording = present(recorded.file("out"))
    taken = list(frames_of_feed(feed, span > 0))
    judge_frames(recording, taken, net, speed, recorded.output)
    readings(run, recording)
    audited = run(Case(["audit", "in"], {"in": recording}))
    if audited.status != 0:
        raise Wrong(f"a recording isn't approved: {audited.output}")
    head = [f"recorder {limit} 4096 {version}", f"channel 7 {net} {speed} {most} {listing.decode()}"]
    if simulated(run, head + [f"span 7 {span}"] * (span > 0), taken, recorded.output) != recording:
        raise Wrong("record and simulate wrote other bytes")


def simulated(run: Run, head: list[str], frames: Iterable[Frame], report: str) -> bytes:
    """What a script writes that takes the frames which a report says were offered, as many pieces as it says."""
    offered, pieces = int(report.split()[5]), int(report.split()[-2])
    script = [*head, *events(frames, offered)]
    script += ["close 7", *["send 7", "write 7"] * pieces]
    done = run(Case(["simulate", "in"], {"in": "\n".join(script).encode()}))
    return bytes.fromhex("".join(re.findall(r"wrote (\w+)", done.output)))


def events(frames: Iterable[Frame], offered: int) -> Iterator[str]:
    """The lines of a script for so many frames, and for the time marks ahead of and among them."""
    for counter, marks, content in frames:
        if not content:
            yield f"time 7 {counter}"
        elif offered:
            yield f"take 7 {counter} {marks} {content.hex()}"
            offered -= 1
        else:
            return


def scripts(run: Run, draw: Random, corpus: Corpus) -> None:
    """A script, damaged or drawn."""
    script = damaged(draw, draw.choice(corpus.scripts))
    if draw.random() < 0.5:
        program, frame = listing_of([[6, 0, 0, 1]]).decode(), "00" * 18
        events = [
            f"take 1 5 0 {frame}",
            f"install 1 {program}",
            "send 1",
            "write 1",
            "close 1",
            "send 2",
            "take 1 5 4 00",
            "time 1 9",
        ]
        script = "\n".join(
            [
                "recorder 16424 2 8",
                f"channel 1 0 0 9 {program}",
                *["span 1 4"] * draw.randrange(2),
                *draw.choices(events, [9, 3, 6, 6, 1, 1, 0.1, 3], k=draw.randrange(60)),
            ]
        ).encode()
    run(Case(["simulate", "in"], {"in": script}))


def settings(run: Run, draw: Random, corpus: Corpus) -> None:
    """Settings, damaged, beside a feed and a filter; the lines of standard input are damaged too."""
    content = damaged(draw, draw.choice(corpus.settings))
    files = {"in": content.replace(b"records/", b""), "keeps": b"1,6 0 0 1,", "one.feed": feed_of(drawn_frames(draw))}
    lines = damaged(draw, b"set 1 keeps\nset 9 keeps\nset 1 nowhere\nset 1 in\n")
    run(Case(["record", "in", "out"], files, lines))
