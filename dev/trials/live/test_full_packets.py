"""Tries a live run whose packets are as long as they may be."""

import subprocess
from pathlib import Path

import pytest
from corners import MOST_PACKET
from frames import numbered, numbers
from ground import Receiver, free_port
from namespace import socket_into
from recordings import begin, extracted, facts_of, is_approved, write_settings
from second_opinion import opinion_at
from support import BPFREC, CHECK, FOLLOW, judge, outcome, run

pytestmark = [pytest.mark.wanted("bin/bpfrec", "bin/capture", "ip"), pytest.mark.usefixtures("namespace")]
# Of 64 bytes with their check sequence; in a full packet, of frames that long, and in all.
LENGTH, IN_A_PACKET, SENT = 60, (MOST_PACKET - 32) // (12 + 64), 15_000


def test_full_packets_are_recorded_followed_published_and_made_whole_files(work: Path) -> None:
    out, settings, port = work / "flight.ch11", write_settings(work, f'id = 1\nfilter = "{work}/all"'), free_port()
    settings.write_text(settings.read_text().replace("limit = 65536", f"limit = {MOST_PACKET - 4}"))
    receiver = Receiver(work, "ground.ch10", f"127.0.0.1:{port}")
    options = ["--quiet", "--span", 0, "--chapter11", "--publish", f"127.0.0.1:{port}"]
    running = begin(work, out, *options, settings=settings, ways=["rx0=1"], stdin=subprocess.DEVNULL)
    follower = subprocess.Popen([FOLLOW, out], stdout=subprocess.PIPE)
    with socket_into("tx0") as one:
        for number in range(SENT):
            one.send(numbered(number, LENGTH))
    running.end_well()
    shown = follower.communicate(timeout=60)[0]
    status, received = receiver.ended()
    rows = [it.split() for it in run(BPFREC, "list", out).splitlines()]
    counts = [int(it[8]) for it in rows if it[7:8] == ["frames"]]
    judge("packets are full", counts == [IN_A_PACKET, IN_A_PACKET, SENT - 2 * IN_A_PACKET], counts)
    judge("each frame is recorded", numbers(extracted(work, out, 1)) == list(range(SENT)))
    judge("the audit says yes", is_approved(out) and run(CHECK, out).endswith("yes\n"))
    judge("so do the facts", f"offered {SENT} kept {SENT} " in facts_of(out)["report"][0], facts_of(out))
    judge("follow shows all", (follower.returncode, shown.count(numbered(0, LENGTH)[:14])) == (0, SENT), len(shown))
    judge("all is published", (status, received.lost, received.damaged) == (0, 0, 0), received)
    for made in (receiver.out, Path(f"{out}.ch10")):
        judge(f"{made.name} is whole", outcome(CHECK, made).returncode == 0 and opinion_at(made).is_right)
        judge("with each frame", numbers(extracted(work, made, 1)) == list(range(SENT)))
