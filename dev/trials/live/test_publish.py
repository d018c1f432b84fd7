"""Tries bpfrec publish and live --publish: by a receiver of its own beside bpfrec receive, and where nobody listens or no
route leads."""

import contextlib
import os
import random
import socket
from collections.abc import Iterator
from pathlib import Path

import pytest
from frames import FRAMES, numbers_in, records
from ground import (
    Receiver,
    Station,
    answers,
    drawn_flight,
    free_port,
    packets_in,
    published,
    send,
    stream_of,
    write_facts,
)
from reading import SAMPLES
from recordings import Traffic, begin, extracted, facts_of, is_approved, nothing_left, recordings, settings_of_one
from support import LIVE, PREFLIGHT, PUBLISH, ROOT, judge, judge_quietly, outcome, run, wait_for
from whole_file import Origin, Setup
from whole_file_parts import ORIGIN, SAMPLE_SETUP, parts_of, recorded, sample_recording

pytestmark = [pytest.mark.wanted("bin/bpfrec", "bin/capture", "ip"), pytest.mark.usefixtures("namespace")]
PAGE = ROOT / "docs/user/formats/whole_file.md"


@pytest.mark.parametrize("seed, most", [(1, 1_472), (2, 64), (3, 65_504), (4, 300)])
def test_the_packets_are_those_of_a_stream(work: Path, seed: int, most: int) -> None:
    """Byte for byte what a second writer makes of the recording; and what is received is that too, and answers as the
    recording does."""
    path = drawn_flight(work, seed)
    stream = stream_of(path)
    station = Station()
    counts = send(path, station.address, "--datagram", most)
    datagrams = station.close()
    judge("each datagram comes", (len(datagrams), counts.lost) == (counts.datagrams, 0), counts)
    judge("none is longer", max(map(len, datagrams)) <= most)
    wanted = bytes(stream.file.data)
    judge("its bytes", packets_in(datagrams) == wanted, counts)
    judge("its counts", (counts.packets, counts.late) == (sum(stream.file.counts.values()), stream.late), counts)
    port = free_port()
    receiver = Receiver(work, "ground.ch10", f"127.0.0.1:{port}")
    sent = send(path, f"127.0.0.1:{port}", "--datagram", most)
    status, received = receiver.ended()
    judge("nothing is lost", (status, received.lost, received.damaged) == (0, 0, 0), received)
    judge("counts", (received.datagrams, received.packets) == (sent.datagrams, counts.packets), (sent, received))
    judge("the file", receiver.out.read_bytes() == wanted)
    channels = sorted({it.channel for it in parts_of(wanted) if it.kind == FRAMES})
    judge("it answers as the recording", answers(receiver.out, channels, work) == answers(path, channels, work))


def test_the_datagrams_of_the_worked_row_are_those_of_the_page(work: Path) -> None:
    path = work / "flight.ch11"
    path.write_bytes(SAMPLES[1].read_bytes())
    section = PAGE.read_text().partition("## The same packets by UDP")[2]
    lines = [it.removesuffix(" ..").replace(" ", "") for it in section.split("```")[1].split("\n") if it]
    for most in (1_472, 400):
        station = Station()
        send(path, station.address, "--datagram", most, "--origin", "1764590400.250000123")
        sent = station.close()
        judge(f"of at most {most}", len(packets_in(sent)) == 964, [len(it) for it in sent])
    judge("the setup record", [len(it) for it in sent[:2]] == [400, 300], [len(it) for it in sent])
    is_right = len(lines) == 3 and all(it.hex().startswith(line) for it, line in zip(sent, lines))
    judge("their bytes", is_right, [it.hex() for it in sent])


def test_what_is_recorded_is_received_as_it_grows(work: Path) -> None:
    """Of recordings that follow one another each is a file, whose frames are those of the recording; datagrams come while
    the recording goes on."""
    station, out = Station(), work / "flight.ch11"
    port = free_port()
    receiver = Receiver(work, "ground.ch10", f"127.0.0.1:{port}")
    words = ("--publish", f"127.0.0.1:{port},datagram=9000", "--publish", station.address)
    running = begin(work, out, "--quiet", "--every", 2, *words)
    traffic = Traffic(length=300)
    wait_for("three recordings", lambda: any(it.stat().st_size > 1_000 for it in recordings(work, "flight")[2:]), 60)
    judge("it is sent while the recording goes on", len(station.datagrams) > 10, len(station.datagrams))
    running.interrupt()
    sent = traffic.end()
    status, _ = running.ended()
    told = running.told()
    judge("it ends well", status == 0 and nothing_left(work), told)
    lines = [it for it in told.splitlines() if "published packets" in it]
    judge("and says what was published", len(lines) == 2 and all(" lost 0 " in it for it in lines), told)
    status, counts = receiver.ended()
    judge("nothing is lost", (status, counts.lost, counts.skipped) == (0, 0, 0), counts)
    station.close()
    ground = [receiver.out, *sorted(work.glob("ground_*.ch10"))]
    flights = recordings(work, "flight")
    judge("a file for each recording", len(ground) == len(flights), (ground, flights))
    for one, other in zip(flights, ground):
        judge_quietly(f"{other.name} answers as {one.name}", answers(one, [1, 2], work) == answers(other, [1, 2], work))
    parts = [records(extracted(work, it, 1)) for it in ground]
    numbers = numbers_in(parts)
    judge("all frames, once", numbers == list(range(numbers[0], sent)), (len(numbers), sent))


def test_nobody_listens(work: Path) -> None:
    """Datagrams are lost, and the recording is as ever."""
    address = f"127.0.0.1:{free_port()}"
    running = begin(work, work / "flight.ch11", "--quiet", "--publish", address)
    traffic = Traffic()
    wait_for(running.told, lambda: "connection refused" in running.told())
    running.interrupt()
    sent = traffic.end()
    status, _ = running.ended()
    judge("it ends well", status == 0 and is_approved(work / "flight.ch11"), running.told())
    frames = [it["frames"] for it in facts_of(work / "flight.ch11")["counts"]]
    judge("with all frames", frames == [sent, sent], (frames, sent))
    line = f"bpfrec live: publish {address}: connection refused: datagrams lost: 1"
    judge("a line says so", line in running.told().splitlines(), running.told())
    (last,) = [it for it in running.told().splitlines() if "published packets" in it]
    judge("and the last one", published(f"{last}\n").lost > 0, last)


def test_a_route_that_comes_later_is_taken(work: Path) -> None:
    address = "192.0.2.77:50077"
    running = begin(work, work / "flight.ch11", "--quiet", "--publish", address)
    traffic = Traffic()
    wait_for("a line", lambda: f"bpfrec live: publish {address}: no route: " in running.told())
    run("ip", "addr", "add", "192.0.2.77/32", "dev", "lo")
    with socket.socket(socket.AF_INET, socket.SOCK_DGRAM) as made:
        made.bind(("192.0.2.77", 50_077))
        made.settimeout(30)
        judge("datagrams come", made.recv(65_535)[0] & 15 == 1)
    running.interrupt()
    traffic.end()
    judge("it ends well", running.ended()[0] == 0 and is_approved(work / "flight.ch11"), running.told())


@contextlib.contextmanager
def slow_loopback() -> Iterator[None]:
    """The loopback sends a kilobyte a second while it lasts. What waits then is dropped at its end, since that would keep
    the namespace and what the kernel answers for hours."""
    if outcome(*"tc qdisc add dev lo root tbf rate 8kbit burst 2000 limit 1000000000".split()).returncode:
        pytest.skip("this kernel has no tbf, by which an interface is slow")
    try:
        yield
    finally:
        run(*"tc qdisc del dev lo root".split())


def test_a_full_socket_ends_no_publisher(work: Path) -> None:
    """Behind an interface that sends nearly nothing the rest is lost, which takes no longer."""
    path, station = work / "flight.ch11", Station()
    path.write_bytes(long_recording(24 << 20))
    write_facts(path, Setup((Origin(0, ORIGIN),)))
    with slow_loopback():
        done = outcome(PUBLISH, "--fast", path, station.address, seconds=60)
    station.close()
    judge("it ends", done.returncode == 0 and published(done.stderr).lost > 0, done)
    judge("and says why", f"bpfrec publish: {station.address}: socket full: " in done.stderr, done.stderr)


def test_a_group_is_sent_to_by_an_interface(work: Path) -> None:
    """With the hops of --ttl; a receiver that has joined on the interface gets all."""
    path = work / "flight.ch11"
    path.write_bytes(sample_recording())
    write_facts(path, SAMPLE_SETUP)
    run("ip", "addr", "add", "192.0.2.1/24", "dev", "tx0")
    receiver = Receiver(work, "ground.ch10", "239.1.2.3:50000", "--interface", "tx0", "--idle", 1)
    with contextlib.closing(socket.socket(socket.AF_PACKET, socket.SOCK_RAW, 0x0008)) as seen:
        seen.bind(("rx0", 0x0800))
        seen.settimeout(30)
        counts = send(path, "239.1.2.3:50000", "--ttl", 5, "--interface", "tx0")
        frame = seen.recv(65_535)
        while frame[14 + 9] != socket.IPPROTO_UDP:
            frame = seen.recv(65_535)
    judge("the group's Ethernet address", frame[:6].hex() == "01005e010203", frame[:6].hex())
    judge("its hops and its port", (frame[14 + 8], int.from_bytes(frame[36:38], "big")) == (5, 50_000), frame[:40])
    status, received = receiver.over()
    judge("it is received", (status, received.datagrams) == (0, counts.datagrams), received)
    judge("whole", [it.kind for it in parts_of(receiver.out.read_bytes())].count(FRAMES) > 0)


@pytest.mark.parametrize("address", ["[::1]:50001", "[ff02::1:5%tx0]:50001", "[ff05::1:5]:50001"])
def test_addresses_of_ipv6_are_sent_to(work: Path, address: str) -> None:
    Path("/proc/sys/net/ipv6/conf/tx0/disable_ipv6").write_text("0")
    run("ip", "-6", "addr", "add", "fe80::1/64", "dev", "tx0", "nodad")
    options = ("--interface", "tx0") if "%" not in address and "ff" in address else ()
    path = drawn_flight(work, 8)
    receiver = Receiver(work, "ground.ch10", address, *options)
    counts = send(path, address, *options)
    status, received = receiver.ended()
    judge("all is received", (status, received.datagrams, counts.lost) == (0, counts.datagrams, 0), (received, counts))


def test_in_a_silence_datagrams_go_on(work: Path) -> None:
    """One a second without a packet, from the beginning of the recording on; the numbers have no gap."""
    out, station = work / "flight.ch11", Station()
    running = begin(work, out, "--quiet", "--publish", station.address)
    wait_for("three", lambda: len(station.datagrams) > 2)
    judge("no packet", {len(it) for it in station.datagrams[:3]} == {4})
    traffic = Traffic()
    wait_for("frames", lambda: FRAMES in [it.kind for it in parts_of(packets_in(station.datagrams))])
    traffic.end()
    before = len(station.datagrams)
    wait_for("silence again", lambda: [len(it) for it in station.datagrams[before:]][-2:] == [4, 4])
    running.end_well()
    judge_quietly("numbers", packets_in(station.close()))


def test_what_cannot_be_published_is_refused(work: Path) -> None:
    path = work / "flight.ch11"
    path.write_bytes(sample_recording())
    refused: list[tuple[list[object], int, str]] = [
        (
            [path, "127.0.0.1:50000"],
            1,
            f"bpfrec publish: {path}: no facts beside it: --origin says when it was recorded",
        ),
        ([work / "none.ch11", "127.0.0.1:5"], 1, "there is no such recording"),
        ([work, "127.0.0.1:5"], 1, "it is no regular file, which could be followed"),
        ([path, "ground:5"], 2, "ground:5: no name is looked up, so it needs ADDRESS:PORT"),
        (["--interface", "lo", path, "127.0.0.1:5"], 2, "--interface is for a multicast group"),
        (["--datagram", "60", path, "127.0.0.1:5"], 2, "60 is no multiple of 4 from 64 to 65507"),
        (["--datagram", "66", path, "127.0.0.1:5"], 2, "66 is no multiple of 4 from 64 to 65507"),
        (["--ttl", "256", path, "127.0.0.1:5"], 2, "256 is no number from 0 to 255"),
    ]
    for words, status, what in refused:
        done = outcome(PUBLISH, *words)
        judge(what, (done.returncode, what in done.stderr) == (status, True), done)
    write_facts(path, SAMPLE_SETUP)
    data = bytearray(path.read_bytes())
    data[400] ^= 1
    path.write_bytes(data)
    done = outcome(PUBLISH, "--fast", path, f"127.0.0.1:{free_port()}")
    judge("damage is said", done.returncode == 1 and "read 8 DataChecksum" in done.stderr, done)


def test_live_refuses_what_it_cannot_publish(work: Path) -> None:
    settings = settings_of_one(work)
    for word, what in [
        ("ground:5", "--publish ground:5: no name is looked up, so it needs ADDRESS:PORT"),
        ("127.0.0.1:5,interface=lo", "interface= is for a multicast group"),
        ("239.1.2.3:5,ttl=x", "--publish x is no number"),
        ("239.1.2.3:5,speed=5", "speed=5: needs ttl=N, interface=NAME or datagram=BYTES, each once"),
    ]:
        words = ("--publish", word, settings, work / "x.ch11", "rx0=1")
        done = outcome(LIVE, *words)
        judge(what, done.returncode == 2 and what in done.stderr, done)
        done = outcome(PREFLIGHT, "--live", *words)
        judge("a fault for preflight", done.returncode == 1 and what in done.stdout, done)
    os.mkfifo(work / "pipe")
    done = outcome(LIVE, "--publish", "127.0.0.1:5", settings, work / "pipe", "rx0=1")
    judge("a pipe", (done.returncode, done.stderr) == (2, "bpfrec live: --publish needs an OUT that is a file\n"), done)
    words = ("--publish", "239.1.2.3:5,interface=none0", settings, work / "x.ch11", "rx0=1")
    done = outcome(PREFLIGHT, "--live", *words)
    judge("an interface that is missing", "--publish 239.1.2.3:5: no such interface: none0" in done.stdout, done)


def long_recording(length: int) -> bytes:
    """A recording of at least this length: one packet, again and again."""
    made = recorded(random.Random(1), [1], 0, 1)
    made.add_frames(1, [(10_000_000, 0, 16_000)] * 30)
    end = len(made.data)
    made.add_frames(1, [(10_000_000, 0, 16_000)] * 30)
    packet = bytes(made.data[end:])
    return bytes(made.data) + packet * (length // len(packet))
