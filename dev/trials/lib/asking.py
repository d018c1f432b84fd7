"""Asks the server of the status of a scripted run: as bytes, and as an answer in its parts."""

import contextlib
import socket
import time
from collections.abc import Iterator
from pathlib import Path

from scripted import Flight, Wire, endpoint_in
from support import judge_quietly, present


@contextlib.contextmanager
def served(work: Path) -> Iterator[Flight]:
    """A run of two channels that is served at a port of its own."""
    made = Flight(work, {1: Wire("eth0"), 2: Wire("eth1", kept=0)}, endpoint=endpoint_in("0"))
    made.begin()
    made.pass_seconds(5)
    yield made
    made.status.close()


def place_of(flight: Flight) -> tuple[str, int]:
    found = present(flight.status.server).endpoint
    return str(found.address), found.port


def connection(flight: Flight) -> socket.socket:
    return socket.create_connection(place_of(flight), 10)


def raw(flight: Flight, request: bytes, is_calm: bool = False) -> bytes:
    """All bytes that a request is answered; `is_calm` has a connection that is reset fail."""
    with connection(flight) as client:
        client.sendall(request)
        time.sleep(0.05 * is_calm)
        found = b""
        with contextlib.suppress(*[] if is_calm else [ConnectionResetError]):
            while part := client.recv(1 << 16):
                found += part
    return found


def parts_of(answer: bytes) -> tuple[int, dict[str, str], bytes]:
    head, _, body = answer.partition(b"\r\n\r\n")
    first, *lines = head.decode("ascii").split("\r\n")
    judge_quietly(f"an answer of HTTP: {first}", first.startswith("HTTP/1.1 "))
    pairs = [line.split(": ", 1) for line in lines]
    judge_quietly(f"no header comes twice: {pairs}", len({it[0].lower() for it in pairs}) == len(pairs))
    return int(first.split(" ")[1]), {name.lower(): value for name, value in pairs}, body


def asked(flight: Flight, path: str = "/status.json", method: str = "GET", host: str = "localhost") -> tuple:
    return parts_of(raw(flight, f"{method} {path} HTTP/1.1\r\nHost: {host}\r\n\r\n".encode()))
