"""The commands on one filter, whose answers must agree: a text and its listing, `asm` and `dis`, `verify` and `run`; for fuzz.py."""

import re
from random import Random

from fuzz_answers import Case, Run, Wrong
from fuzz_inputs import TOKENS, Corpus, damaged, drawn_program, listing_of


def texts(run: Run, draw: Random, corpus: Corpus) -> None:
    """A text; and where it is assembled, its program's own text is assembled to the same program."""
    text = draw.choice(corpus.texts)
    if draw.random() < 0.4:
        text = b" ".join(draw.choice(TOKENS) for _ in range(draw.randrange(40)))
    elif draw.random() < 0.9:
        text = damaged(draw, text)
    listing = run(Case(["asm", "in"], {"in": text}))
    if listing.status == 0:
        programs(run, draw, listing.output.encode(), assembled=True)


def listings(run: Run, draw: Random, corpus: Corpus) -> None:
    """A listing, drawn or damaged."""
    listing = listing_of(drawn_program(draw))
    if draw.random() < 0.4:
        listing = damaged(draw, draw.choice(corpus.listings) if draw.random() < 0.5 else listing)
    programs(run, draw, listing)


def programs(run: Run, draw: Random, listing: bytes, assembled: bool = False) -> None:
    """The commands on one listing: `dis` and back, `verify` and `run`."""
    text = run(Case(["dis", "in"], {"in": listing}))
    if assembled and text.status != 0:
        raise Wrong("asm made a program that has no text")
    if text.status == 0:
        again = run(Case(["asm", "in"], {"in": text.output.encode()}))
        if again.status == 0:
            numbers = [int(it) for it in re.findall(rb"\d+", listing)]
            if [int(it) for it in re.findall(r"\d+", again.output)] != numbers:
                raise Wrong(f"dis and asm gave another program: {again.output}")
        elif not again.errors.startswith("asm 9"):
            count = re.match(rb"\s*,*\s*(\d+)", listing)
            if count and int(count[1]) > 0:
                raise Wrong(f"asm refuses the text of dis: {again.errors}")
    verdict = run(Case(["verify", "in"], {"in": listing}))
    view = draw.randbytes(draw.choice([0, 1, 14, 60])).hex()
    ran = run(Case(["run", "in", view], {"in": listing}))
    if verdict.status == 0:
        steps = int(ran.output.split()[1]) if ran.status == 0 else None
        if steps is None or not 1 <= steps <= int(verdict.output.split()[1]):
            raise Wrong(f"a valid program ran: {ran.output}{ran.errors}")
    elif (ran.status, ran.output, ran.errors) != (verdict.status, verdict.output, verdict.errors):
        raise Wrong(f"verify and run disagree: {ran.output}{ran.errors}")
    line = b" ".join(listing.split(b"\n"))
    piped = run(Case([], input=line + b"\n" + view.encode() + b"\n"))
    if b"\n" not in listing and (piped.status, piped.output) != (ran.status, ran.output):
        raise Wrong(f"run by words and by lines disagree: {piped.output}{piped.errors}")
