"""Network namespaces with pairs of interfaces, and sending frames into them.

A process enters a namespace of its own by itself, so that a trial can be run alone by pytest.
"""

import array
import contextlib
import ctypes
import fcntl
import functools
import os
import signal
import socket
import struct
import subprocess
import time
from collections.abc import Iterator
from pathlib import Path

from frames import numbered
from support import SECONDS, judge_quietly, run, wait_for

CLONE_NEWNS, CLONE_NEWNET = 0x00020000, 0x40000000
MS_REC, MS_PRIVATE = 1 << 14, 1 << 18
LIBC = ctypes.CDLL(None, use_errno=True)

# ---- the namespace


def call(name: str, *words: object) -> None:
    """A call of the C library."""
    if getattr(LIBC, name)(*words) != 0:
        number = ctypes.get_errno()
        raise OSError(number, f"{name}: {os.strerror(number)}")


@functools.cache
def leave_mounts_of_others() -> None:
    """What this process mounts from now on nobody else sees, and it is gone with the process."""
    call("unshare", CLONE_NEWNS)
    call("mount", None, b"/", None, MS_REC | MS_PRIVATE, None)


@contextlib.contextmanager
def own_namespace() -> Iterator[None]:
    """A network namespace of our own while it lasts. What still runs in it at its end is killed.

    An OSError says that none can be made here."""
    leave_mounts_of_others()
    before = os.open("/proc/thread-self/ns/net", os.O_RDONLY)
    try:
        call("unshare", CLONE_NEWNET)
        inside = os.stat("/proc/thread-self/ns/net").st_ino
        try:
            yield
        finally:
            end_all_in(inside)
            call("setns", before, CLONE_NEWNET)
    finally:
        os.close(before)


def processes_in(namespace: int) -> list[int]:
    """The other processes that run in a namespace."""
    found = []
    for entry in Path("/proc").iterdir():
        with contextlib.suppress(OSError):
            if entry.name.isdigit() and (entry / "ns/net").stat().st_ino == namespace:
                found.append(int(entry.name))
    return [it for it in found if it != os.getpid()]


def end_all_in(namespace: int) -> None:
    for _ in range(100):
        left = processes_in(namespace)
        if not left:
            return
        for pid in left:
            with contextlib.suppress(ProcessLookupError):
                os.kill(pid, signal.SIGKILL)
        time.sleep(0.02)


# ---- interfaces


def make_pair(number: int) -> None:
    run("ip", "link", "add", f"tx{number}", "type", "veth", "peer", "name", f"rx{number}")
    for name in (f"tx{number}", f"rx{number}"):
        make_quiet(name)
        turn_offloads_off(name)
        run("ip", "link", "set", name, "up")
    wait_until_up(f"rx{number}")


def make_quiet(name: str) -> None:
    """No frames of the kernel's own."""
    quiet = Path(f"/proc/sys/net/ipv6/conf/{name}/disable_ipv6")
    if quiet.exists():
        quiet.write_text("1")


def wait_until_up(name: str) -> None:
    wait_for(f"{name} is up", lambda: "LOWER_UP" in run("ip", "link", "show", name))


def take_away(name: str) -> None:
    run("ip", "link", "del", name)


def set_link(name: str, *words: object) -> None:
    run("ip", "link", "set", name, *words)


def make_many_pairs(outer: str, inner: str, count: int, joins: bool = False) -> None:
    """Makes pairs of these names, from 0 on, at once; `joins` leaves the joining of frames on."""
    make_quiet("default")
    lines = []
    for at in range(count):
        lines.append(f"link add {outer}{at} type veth peer name {inner}{at}")
        lines += [f"link set {name}{at} up" for name in (outer, inner)]
    run_batch(lines)
    for at in range(0 if joins else count):
        turn_offloads_off(f"{outer}{at}")
        turn_offloads_off(f"{inner}{at}")


def run_batch(lines: list[str]) -> None:
    """Commands of `ip`."""
    given = "\n".join(lines) + "\n"
    done = subprocess.run(["ip", "-batch", "-"], input=given, text=True, capture_output=True, timeout=SECONDS)
    judge_quietly("ip takes the commands", done.returncode == 0, done.stderr)


def turn_offloads_off(name: str) -> None:
    """What ethtool -K NAME tso off gso off gro off does."""
    with socket.socket(socket.AF_INET, socket.SOCK_DGRAM) as asked:
        for command in (0x1F, 0x24, 0x2C):  # ETHTOOL_STSO, ETHTOOL_SGSO, ETHTOOL_SGRO
            value = array.array("I", [command, 0])
            request = struct.pack("16sP16x", name.encode(), value.buffer_info()[0])
            fcntl.ioctl(asked, 0x8946, request)  # SIOCETHTOOL


@contextlib.contextmanager
def long_frames(*names: str) -> Iterator[None]:
    """These interfaces take frames past the length of a feed's while it lasts."""
    for name in names:
        set_link(name, "mtu", 20_000)
    yield
    for name in names:
        set_link(name, "mtu", 1_500)


# ---- sending


def socket_into(interface: str) -> socket.socket:
    made = socket.socket(socket.AF_PACKET, socket.SOCK_RAW)
    made.bind((interface, 0))
    return made


def send(interface: str, frames: list[bytes]) -> None:
    with socket_into(interface) as into:
        for frame in frames:
            into.send(frame)


def send_numbered(interface: str, first: int, end: int, length: int = 60) -> None:
    """Sends the frames of these numbers."""
    send(interface, [numbered(number, length) for number in range(first, end)])


def send_together(first: int, count: int) -> list[tuple[int, int]]:
    """Sends each frame into both pairs, and returns when each was sent."""
    sent = []
    with socket_into("tx0") as one, socket_into("tx1") as two:
        for number in range(first, first + count):
            frame, begin = numbered(number), time.time_ns()
            one.send(frame)
            two.send(frame)
            sent.append((begin, time.time_ns()))
            if number % 10 == 0:
                time.sleep(0.0005)
    return sent
