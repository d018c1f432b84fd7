"""The commands that read a recording, whose answers must agree, with an OUT that is refused; for fuzz.py."""

from collections import Counter
from random import Random

from fuzz_answers import Answer, Case, Run, Wrong
from fuzz_inputs import ODD_OUTPUTS, Corpus, damaged, with_sums
from pcapng_blocks import frames_in
from support import present


def recordings(run: Run, draw: Random, corpus: Corpus) -> None:
    """A recording, whole or damaged: `list`, `audit`, `extract` of each channel, and `upgrade`."""
    recording = draw.choice(corpus.recordings)
    if draw.random() < 0.9:
        recording = with_sums(draw, damaged(draw, recording))
    readings(run, recording)
    odd_outputs(run, draw, recording)


def odd_outputs(run: Run, draw: Random, recording: bytes) -> None:
    """An OUT that can't be looked at is a fault behind that of the recording."""
    listed, out = run(Case(["list", "in"], {"in": recording})), draw.choice(ODD_OUTPUTS)
    wanted = listed.errors if listed.status else f"file {out}\n"
    for words in (["extract", "in", "1"], ["upgrade", "in"]):
        told = run(Case([*words, out], {"in": recording}))
        if told.errors != wanted or told.output:
            raise Wrong(f"OUT {out[:20]} of {words[0]}: {told.errors}")


def readings(run: Run, recording: bytes) -> None:
    files = {"in": recording}
    listed = run(Case(["list", "in"], files))
    audited = run(Case(["audit", "in"], files))
    piped = run(Case(["list", "-"], input=recording))
    if (piped.status, piped.output, piped.errors) != (listed.status, listed.output, listed.errors):
        raise Wrong("list of a file and of standard input disagree")
    if listed.status != 0:
        if (audited.status, audited.errors) != (listed.status, listed.errors):
            raise Wrong("list and audit disagree")
        for words in (["extract", "in", "1"], ["upgrade", "in"]):
            done = run(Case([*words, "out"], files))
            if done.errors != listed.errors or done.file("out") is not None:
                raise Wrong(f"list and {words[0]} disagree")
        exports(run, files, listed)
        return
    frames, programs_of = Counter[str](), Counter[str]()
    for line in listed.output.splitlines()[:-1]:
        words = line.split()
        if words[7] == "frames":
            frames[words[1]] += int(words[8])
        if words[7] == "program":
            programs_of[words[8]] += 1
    if audited.status == 0:
        for line in audited.output.splitlines()[:-1]:
            _, channel, _, programs_said, _, frames_said, _, _ = line.split()
            if (int(programs_said), int(frames_said)) != (programs_of[channel], frames[channel]):
                raise Wrong("list and audit count otherwise")
        if audited.output.split()[-1] != listed.output.split()[-1]:
            raise Wrong("list and audit count other packets otherwise")
    refused_output(run, ["extract", "in", "1"], "in", files)
    for channel in {*frames, "1"}:
        extracted = run(Case(["extract", "in", channel, "out"], files))
        _, written, _, passed = extracted.output.split()
        if int(written) + int(passed) != frames[channel]:
            raise Wrong("list and extract count otherwise")
    if exports(run, files, listed) != sum(frames.values()):
        raise Wrong("list and export count otherwise")
    upgrades(run, recording, listed, audited)


def exports(run: Run, files: dict[str, bytes], listed: Answer) -> int:
    """What is exported, to a file and to standard output alike, ends as the list does: how many frames."""
    refused_output(run, ["export", "in"], "in", files)
    exported = run(Case(["export", "in", "out", "1764590400"], files))
    if (exported.status, exported.errors) != (listed.status, listed.errors):
        raise Wrong("list and export disagree")
    try:
        return len(frames_in(present(exported.file("out"))))
    except ValueError as fault:
        raise Wrong(f"an export has {fault}") from None


def upgrades(run: Run, recording: bytes, listed: Answer, audited: Answer) -> None:
    """What is listed is upgraded, says the same then, and is its own upgrade."""
    refused_output(run, ["upgrade", "in"], "in", {"in": recording})
    upgraded = run(Case(["upgrade", "in", "out"], {"in": recording}))
    new = present(upgraded.file("out"))
    given, copied = (int(upgraded.output.split()[at]) for at in (1, 3))
    if given + copied != len(listed.output.splitlines()) - 1:
        raise Wrong("list and upgrade count otherwise")
    again = run(Case(["list", "in"], {"in": new}))
    if [said_of(line) for line in again.output.splitlines()] != [said_of(line) for line in listed.output.splitlines()]:
        raise Wrong("an upgrade is listed otherwise")
    judged = run(Case(["audit", "in"], {"in": new}))
    if (judged.status, judged.output) != (audited.status, audited.output):
        raise Wrong("an upgrade is judged otherwise")
    feeds_of = [run(Case(["extract", "in", "1", "out"], {"in": it})).file("out") for it in (recording, new)]
    if feeds_of[0] != feeds_of[1]:
        raise Wrong("an upgrade has other frames")
    twice = run(Case(["upgrade", "in", "out"], {"in": new}))
    if twice.file("out") != new or twice.output != f"upgraded 0 copied {given + copied}\n":
        raise Wrong("an upgrade is upgraded once more")


def said_of(line: str) -> list[str]:
    """A line of `list` without the places and lengths of packets."""
    words = line.split()
    return [*words[1:4], *words[5:]] if len(words) > 7 else words


def refused_output(run: Run, words: list[str], out: str, files: dict[str, bytes]) -> None:
    """An output that is an input: it is refused and keeps its bytes."""
    refused = run(Case([*words, out], files))
    if refused.errors != f"file {out}\n" or any(refused.file(name) != content for name, content in files.items()):
        raise Wrong(f"an output that is the input {out} isn't refused, or was changed")
