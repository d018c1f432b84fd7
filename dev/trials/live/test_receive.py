"""Tries bpfrec receive on what a network does to datagrams, and what it refuses."""

import fcntl
import random
import shutil
import signal
import socket
import subprocess
import time
from collections import Counter
from pathlib import Path

import pytest
from bpfrec.formats.transfer import whole_head
from bpfrec_tools.receive.source import DEAD, SILENCE
from frames import packet_of
from ground import Receiver, Relay, Station, drawn_flight, free_port, is_taken, send, stream_of
from support import BPFREC, RECEIVE, judge, judge_quietly, outcome, wait_for
from whole_file import SETUP
from whole_file_parts import parts_of

pytestmark = [pytest.mark.wanted("bin/bpfrec", "ip"), pytest.mark.usefixtures("namespace")]


@pytest.mark.parametrize("seed", [1, 2, 3])
def test_what_a_network_loses_doubles_and_exchanges_is_counted(work: Path, seed: int) -> None:
    path = drawn_flight(work, seed)
    port = free_port()
    receiver = Receiver(work, "ground.ch10", f"127.0.0.1:{port}")
    relay = Relay(random.Random(seed), port, 0.05)
    counts = send(path, relay.address, "--datagram", 200)
    wait_for("all has come to the relay", lambda: relay.came == counts.datagrams)
    relay.close()
    seen = relay.came - relay.lost + relay.doubled
    status, received = receiver.ended()
    judge("all that came is counted", received.datagrams == seen, (received, seen))
    judge("lost", (received.lost, status) == (relay.lost, 1), (received, relay.lost))
    judge("doubled", (received.doubled, received.damaged) == (relay.doubled, 0), (received, relay.doubled))
    errors = receiver.errors.read_text().splitlines()
    gaps = sum(int(it.split()[3]) for it in errors if it.startswith("bpfrec receive: gap "))
    judge("each gap is said", gaps == relay.lost, errors)
    got, wanted = parts_of(receiver.out.read_bytes()), parts_of(bytes(stream_of(path).file.data))
    rest = Counter(it.data for it in got) - Counter(it.data for it in wanted)
    judge("what is written was sent", not rest and 0 < len(got) < len(wanted), (len(got), len(wanted)))
    judge("and can be read", outcome(BPFREC, "list", receiver.out).returncode == 0)


@pytest.mark.parametrize("seed", [1, 2, 3])
def test_what_is_doubled_and_exchanged_alone_costs_nothing(work: Path, seed: int) -> None:
    """Where a third of all comes twice or out of order, the file is the stream, byte for byte."""
    path, port = drawn_flight(work, seed), free_port()
    receiver = Receiver(work, "ground.ch10", f"127.0.0.1:{port}")
    relay = Relay(random.Random(seed), port, 0.1, loses=False)
    counts = send(path, relay.address, "--datagram", 200)
    wait_for("all has come to the relay", lambda: relay.came == counts.datagrams)
    relay.close()
    status, received = receiver.ended()
    judge("nothing is lost", (status, received.lost, received.doubled) == (0, 0, relay.doubled), received)
    judge("some came twice", relay.doubled > 2, relay.doubled)
    judge("the stream", receiver.out.read_bytes() == bytes(stream_of(path).file.data))


def test_what_came_ahead_of_the_end_is_written(work: Path) -> None:
    """Also where receive has read none of it yet."""
    path, port = drawn_flight(work, 6), free_port()
    receiver = Receiver(work, "ground.ch10", f"127.0.0.1:{port}")
    receiver.process.send_signal(signal.SIGSTOP)
    counts = send(path, f"127.0.0.1:{port}", "--datagram", 64)
    judge_quietly("more than a turn takes", counts.datagrams > 1_024, counts)
    receiver.process.terminate()
    receiver.process.send_signal(signal.SIGCONT)
    status, received = receiver.over()
    judge("all of it", (status, received.datagrams) == (0, counts.datagrams), (received, counts))


def test_what_cannot_be_received_is_refused(work: Path) -> None:
    (work / "there").write_text("x")
    with socket.socket(socket.AF_INET, socket.SOCK_DGRAM) as made:
        made.bind(("127.0.0.1", 0))
        taken = made.getsockname()[1]
        for words, what in [
            ([f"127.0.0.1:{free_port()}", work / "there"], "there is there: give it another name, or --force"),
            ([f"127.0.0.1:{taken}", work / "a"], "Address already in use"),
            ([f"192.0.2.9:{taken}", work / "a"], "Cannot assign requested address"),
        ]:
            done = outcome(RECEIVE, *words)
            judge(what, (done.returncode, what in done.stderr) == (3, True), done)
    done = outcome(RECEIVE, "--for", 1, f"127.0.0.1:{free_port()}", work / "b")
    line = "received packets 0 datagrams 0 lost 0 doubled 0 damaged 0 skipped 0 foreign 0\n"
    judge("nothing comes", (done.returncode, done.stdout) == (1, line), done)


def test_streams_that_follow_one_another_have_their_own_files(work: Path) -> None:
    """Also of the same recording, which begins at the same time, once the sender before is silent."""
    path, port = drawn_flight(work, 9), free_port()
    receiver = Receiver(work, "ground.ch10", f"127.0.0.1:{port}")
    counts = []
    for most in (200, 200, 1_472):
        counts.append(send(path, f"127.0.0.1:{port}", "--datagram", most))
        time.sleep(SILENCE + 0.2)
    status, received = receiver.ended()
    judge("nothing is lost", (status, received.datagrams) == (0, sum(it.datagrams for it in counts)), received)
    files = [work / name for name in ("ground.ch10", "ground_00002.ch10", "ground_00003.ch10")]
    judge("three that are alike", len({it.read_bytes() for it in files}) == 1 and parts_of(files[0].read_bytes()))


def test_an_out_that_finds_no_room_ends_it(work: Path) -> None:
    path, port = drawn_flight(work, 7), free_port()
    receiver = subprocess.Popen([RECEIVE, f"127.0.0.1:{port}", "/dev/full"], stderr=subprocess.PIPE, text=True)
    wait_for("it listens", lambda: is_taken(port))
    send(path, f"127.0.0.1:{port}")
    _, told = receiver.communicate(timeout=30)
    line = "bpfrec receive: /dev/full: No space left on device\n"
    judge("a line and a status", (receiver.returncode, told) == (3, line), (receiver.returncode, told))


def test_recordings_that_began_in_the_same_second_have_their_own_files(work: Path) -> None:
    path, port = drawn_flight(work, 9), free_port()
    for name in ("run_00001.ch11", "run_00002.ch11"):
        shutil.copy(path, work / name)
        shutil.copy(f"{path}.json", work / f"{name}.json")
    receiver = Receiver(work, "ground.ch10", f"127.0.0.1:{port}")
    counts = send(work / "run_00001.ch11", f"127.0.0.1:{port}")
    status, received = receiver.ended()
    judge("nothing is lost", (status, received.datagrams) == (0, counts.datagrams), received)
    for name, run in (("ground.ch10", "run_00001.ch11"), ("ground_00002.ch10", "run_00002.ch11")):
        judge(name, (work / name).read_bytes() == bytes(stream_of(work / run).file.data))


# ---- by hand


class Sender:
    """Sends datagrams to a port, from one of its own."""

    def __init__(self, port: int) -> None:
        self.socket = socket.socket(socket.AF_INET, socket.SOCK_DGRAM)
        self.socket.connect(("127.0.0.1", port))

    def send(self, datagrams: list[bytes]) -> None:
        for number, datagram in enumerate(datagrams):
            self.socket.send(datagram)
            if not number % 100:
                time.sleep(0.005)


def datagrams_of(path: Path, *options: object) -> list[bytes]:
    """The datagrams by which a recording is published."""
    station = Station()
    send(path, station.address, *options)
    return station.close()


def test_datagrams_of_another_sender_are_left_out_and_counted(work: Path) -> None:
    path, port = drawn_flight(work, 4), free_port()
    datagrams = datagrams_of(path)
    receiver = Receiver(work, "ground.ch10", f"127.0.0.1:{port}")
    sender, other = Sender(port), Sender(port)
    sender.send(datagrams[:3])
    other.send([whole_head(3_000_000) + b"x", whole_head(0) + b"x", *datagrams])
    sender.send(datagrams[3:])
    status, received = receiver.ended()
    judge("they are counted", received.foreign == len(datagrams) + 2, received)
    judge("and change nothing", (status, received.datagrams, received.lost) == (0, len(datagrams), 0), received)
    judge("a line says so", " are left out: the stream is of 127.0.0.1 port " in receiver.errors.read_text())
    wanted = bytes(stream_of(path).file.data)
    judge("the file", receiver.out.read_bytes() == wanted)


def test_a_publisher_that_was_killed_is_a_gap(work: Path) -> None:
    """Another one is taken once it is silent."""
    path, port = drawn_flight(work, 4), free_port()
    datagrams = datagrams_of(path)
    receiver = Receiver(work, "ground.ch10", f"127.0.0.1:{port}")
    Sender(port).send(datagrams[:-2])
    time.sleep(SILENCE + 0.2)
    Sender(port).send(datagrams)
    status, received = receiver.ended()
    judge("it isn't well", (status, received.lost, received.foreign) == (1, 0, 0), received)
    line = "bpfrec receive: gap of unknown length: another stream begins before the recording has ended"
    judge("a line says so", line in receiver.errors.read_text().splitlines(), receiver.errors.read_text())
    wanted = bytes(stream_of(path).file.data)
    judge("the other has its file", (work / "ground_00002.ch10").read_bytes() == wanted)


def test_one_sender_is_asked_for(work: Path) -> None:
    path, port = drawn_flight(work, 4), free_port()
    for sender, is_it in (("127.0.0.1", True), ("192.0.2.7", False)):
        receiver = Receiver(work, f"{sender}.ch10", f"127.0.0.1:{port}", "--from", sender)
        counts = send(path, f"127.0.0.1:{port}")
        status, received = receiver.ended()
        found = (status, received.foreign)
        judge(sender, found == ((0, 0) if is_it else (1, counts.datagrams)), received)
    judge("an empty file is said", "192.0.2.7.ch10 is empty: no recording was received" in receiver.errors.read_text())


def test_setup_records_without_end_make_few_files(work: Path) -> None:
    """And TERM ends it."""
    port, draw = free_port(), random.Random(1)
    receiver = Receiver(work, "ground.ch10", f"127.0.0.1:{port}")
    begun, sender = time.monotonic(), Sender(port)
    for number in range(40):
        setups = (packet_of(0, bytes([12, 0, 0, 0]) + draw.randbytes(4), 0, SETUP, 1, True) for _ in range(1_500))
        sender.send([whole_head(number) + b"".join(setups)])
    receiver.ended()
    took = time.monotonic() - begun
    count = len(list(work.glob("ground*.ch10")))
    judge("ten a second", 1 < count <= 10 * (took + 1) + 1, (count, took))


# ---- silences, and an OUT that is written


def test_a_dead_recorder_is_told_from_a_quiet_one(work: Path) -> None:
    """Which sends a datagram without a packet each second."""
    path, port = drawn_flight(work, 4), free_port()
    datagrams = datagrams_of(path)
    receiver = Receiver(work, "ground.ch10", f"127.0.0.1:{port}")
    sender, came = Sender(port), len(datagrams) - 2
    whose = f"127.0.0.1 port {sender.socket.getsockname()[1]}"
    sender.send(datagrams[:came])
    for beat in range(5):
        time.sleep(0.9)
        sender.send([whole_head(came + beat)])
    judge("a quiet one", not receiver.errors.read_text(), receiver.errors.read_text())
    last = time.time()
    time.sleep(DEAD + 1.5)
    sender.send([whole_head(came + 5)])
    wait_for("datagrams come again", lambda: receiver.errors.read_text().count("\n") == 2)
    dead, again = receiver.errors.read_text().splitlines()
    begin, since = dead[: -len("2026-12-01T10:00:00Z")], dead.split()[-1]
    line = f"bpfrec receive: nothing has come to 127.0.0.1:{port} from {whose} since "
    judge("whose silence it is", begin == line, dead)
    times = [time.strftime("%Y-%m-%dT%H:%M:%SZ", time.gmtime(last + it)) for it in (-1, 0)]
    judge("since when", since in times, (since, times))
    begin = f"bpfrec receive: datagrams come again, of {whose}, after "
    judge("and its end", again.startswith(begin) and 4 <= float(again.split()[-2]) <= 10, again)
    status, received = receiver.ended()
    judge("nothing is lost by it", (status, received.lost, received.datagrams) == (0, 0, came + 6), received)


def test_where_nothing_comes_at_all_a_line_says_so(work: Path) -> None:
    for words, whose in (((), ""), (("--from", "192.0.2.7"), " from 192.0.2.7")):
        address = f"127.0.0.1:{free_port()}"
        done = outcome(RECEIVE, "--force", "--for", DEAD + 2, *words, address, work / "a.ch10")
        line = f"bpfrec receive: nothing has come to {address}{whose} since "
        judge("one line", [it.startswith(line) for it in done.stderr.splitlines()][:-1] == [True], done.stderr)


def test_an_out_that_another_program_writes_is_refused(work: Path) -> None:
    """By receive, of receive and of a recorder, and by a recorder; what is written stays."""
    address, out, line = f"127.0.0.1:{free_port()}", work / "out.ch10", "another program writes it"
    receiver = Receiver(work, "out.ch10", address)
    (work / "a.feed").touch()
    (work / "all").write_text("1,6 0 0 1,")
    (work / "s.toml").write_text(f'[[channel]]\nid = 1\nfeed = "{work}/a.feed"\nfilter = "{work}/all"\n')
    done = outcome(RECEIVE, "--force", f"127.0.0.1:{free_port()}", out)
    judge("a receiver's", (done.returncode, done.stderr) == (3, f"bpfrec receive: {out}: {line}\n"), done)
    done = outcome(BPFREC, "record", work / "s.toml", out, input="")
    judge("by a recorder", (done.returncode, done.stderr) == (3, f"file {out}\n"), done)
    send(drawn_flight(work, 4), address)
    wanted = bytes(stream_of(work / "flight.ch11").file.data)
    wait_for("what is received is there", lambda: out.read_bytes() == wanted)
    receiver.ended()
    with open(out, "rb") as written:
        # As a recorder has it.
        fcntl.flock(written, fcntl.LOCK_EX)
        done = outcome(RECEIVE, "--force", address, out)
        judge("a recorder's", (done.returncode, done.stderr) == (3, f"bpfrec receive: {out}: {line}\n"), done)
    judge("its bytes stay", out.read_bytes() == wanted)
    judge("and it may be written again", outcome(RECEIVE, "--force", "--for", 0.1, address, out).returncode == 1)
