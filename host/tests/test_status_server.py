"""Tries the server of the status: what it answers, where it serves, and that no word of a client gets into an
answer."""

import json
import os
import signal
import socket
import sys
import threading
import time
from pathlib import Path
from typing import Any

import pytest
from asking import asked, connection, parts_of, place_of, raw
from scripted import Flight, Wire, as_json, status
from support import ROOT, judge, judge_quietly, present, run, wait_for

PATHS = ("/", "/status.json", "/metrics")
# What each answer must have, by names in lower case.
SAFE = {
    "cache-control": "no-store",
    "x-content-type-options": "nosniff",
    "referrer-policy": "no-referrer",
    "cross-origin-resource-policy": "same-origin",
    "connection": "close",
}


# ---- what is answered


@pytest.mark.parametrize("path", PATHS)
def test_each_path_is_answered_with_its_type_and_headers(flight: Flight, path: str) -> None:
    found, headers, body = asked(flight, path)
    judge(f"{path} is answered", found == 200 and len(body) == int(headers["content-length"]) > 100)
    kinds = {
        "/": "text/html; charset=utf-8",
        "/status.json": "application/json",
        "/metrics": "text/plain; version=0.0.4; charset=utf-8",
    }
    judge("with its type", headers["content-type"] == kinds[path])
    judge("and what keeps it safe", SAFE.items() <= headers.items(), headers)
    policy = headers["content-security-policy"]
    holds = policy.startswith("default-src 'none'; ") and "unsafe" not in policy and "*" not in policy
    judge("its policy lets nothing in", holds)
    holds = set(headers) == {*SAFE, "content-type", "content-length", "content-security-policy"}
    judge("it names no version", holds, headers)
    head = asked(flight, path, "HEAD")
    holds = head == (200, {**headers, "content-length": head[1]["content-length"]}, b"")
    judge("HEAD has the same head and no body", holds, head)
    judge("a query changes nothing", asked(flight, f"{path}?x=1")[0] == 200)


def test_json_is_that_of_the_run(flight: Flight) -> None:
    told = json.loads(asked(flight)[2])
    judge("it is the run's", told["recording"]["name"] == "flight.ch11" and len(told["channels"]) == 2)
    flight.pass_second()
    judge("and goes on with it", json.loads(asked(flight)[2])["uptime"] == told["uptime"] + 1)


def test_what_was_told_last_is_told_with_its_age(flight: Flight) -> None:
    present(flight.status.server).answers.clock = lambda: flight.now() + 7.25
    judge("its age is told", json.loads(asked(flight)[2])["age"] == 7.2)
    judge("in the metrics too", b"bpfrec_status_age_seconds 7.25\n" in asked(flight, "/metrics")[2])
    present(flight.status.server).answers.clock = lambda: flight.now() - 1
    judge("none is of tomorrow", json.loads(asked(flight)[2])["age"] == 0)


def test_texts_are_made_once_a_second_however_many_ask(flight: Flight, monkeypatch: pytest.MonkeyPatch) -> None:
    made: list[int] = []
    make = as_json.text_of

    def slowly(*told: Any) -> str:
        made.append(1)
        time.sleep(0.3)
        return make(*told)

    monkeypatch.setattr(as_json, "text_of", slowly)
    asking = [threading.Thread(target=asked, args=(flight,)) for _ in range(8)]
    for thread in asking:
        thread.start()
    for thread in asking:
        thread.join()
    judge("one makes it for all", len(made) == 1, made)


def test_before_the_first_tick_nothing_is_known(work: Path) -> None:
    flight = Flight(work, {1: Wire("eth0")}, endpoint=status.endpoint_in("0"))
    judge("before the first tick", [asked(flight, it)[0] for it in PATHS] == [200, 503, 503])
    flight.status.close()


def test_other_paths_are_404_and_other_methods_405(flight: Flight) -> None:
    for path in ("/x", "/status.json/", "/../etc/passwd", "/%2e%2e/", "//", "http://evil/", "*", "/favicon.ico"):
        judge_quietly(f"{path}: 404 or the page", asked(flight, path)[0] in ((404,) if path != "//" else (200, 404)))
    for method in ("POST", "PUT", "DELETE", "OPTIONS", "TRACE", "CONNECT", "PATCH", "get", "GETX", "\u00e9"):
        found, headers, _ = asked(flight, "/", method)
        judge_quietly(f"{method}: 405", found == 405 and headers["allow"] == "GET, HEAD", found)
    head = b"POST / HTTP/1.1\r\nHost: localhost\r\nContent-Length: 60000\r\n\r\n"
    for _ in range(20):
        found = raw(flight, head + b"x" * 60_000, is_calm=True)
        judge_quietly("a body is dropped, and the answer comes", parts_of(found)[0] == 405)


WRONG = {
    "nothing": (b"\r\n\r\n", 400),
    "one word": (b"GET\r\n\r\n", 400),
    "four words": (b"GET / x HTTP/1.1\r\n\r\n", 400),
    "no version": (b"GET / HTTX\r\nHost: localhost\r\n\r\n", 400),
    "version 2": (b"GET / HTTP/2.0\r\nHost: localhost\r\n\r\n", 400),
    "no host": (b"GET / HTTP/1.1\r\n\r\n", 400),
    "two hosts": (b"GET / HTTP/1.1\r\nHost: localhost\r\nHost: evil\r\n\r\n", 400),
    "too long": (b"GET / HTTP/1.1\r\nHost: localhost\r\nX: " + b"y" * 9_000 + b"\r\n\r\n", 431),
    "too many headers": (b"GET / HTTP/1.1\r\nHost: localhost\r\n" + b"X: y\r\n" * 150 + b"\r\n", 400),
    "bytes": (bytes(range(1, 256)) + b"\r\n\r\n", 400),
    "an old client": (b"GET / HTTP/1.0\r\n\r\n", 200),
    "line feeds alone": (b"GET / HTTP/1.0\n\n", 200),
}


@pytest.mark.parametrize("name", WRONG)
def test_a_wrong_request_is_refused_without_its_words(flight: Flight, name: str) -> None:
    request, wanted = WRONG[name]
    found, headers, body = parts_of(raw(flight, request))
    judge(f"{name}: {wanted}", found == wanted, (found, body))
    judge("none of its words come back", b"yyy" not in body and SAFE.items() <= headers.items())


def test_no_header_is_injected_by_a_client(flight: Flight) -> None:
    for path in ("/x%0d%0aSet-Cookie:a=b", "/x\rSet-Cookie:a=b", "/?\r\tSet-Cookie: a"):
        answer = raw(flight, f"GET {path} HTTP/1.1\r\nHost: localhost\r\n\r\n".encode())
        holds = b"Set-Cookie" not in answer and b"a=b" not in answer
        judge_quietly(f"{path!r}: no header of the client's", holds, answer)


HOSTS = {
    **dict.fromkeys(
        ["localhost", "localhost:9", "LOCALHOST", "127.0.0.1", "127.0.0.1:8080", "127.9.9.9", "[::1]", "[::1]:80"], 200
    ),
    **dict.fromkeys(
        ["evil.example", "localhost.evil.example", "127.0.0.1.evil.example", "evil:127", "10.0.0.1", "[::2]"], 421
    ),
    **dict.fromkeys(["", "0.0.0.0", "127.0.0.x", "[::1].evil", "localhost@evil", "evil@localhost"], 421),
}


@pytest.mark.parametrize("host", HOSTS)
def test_a_name_that_leads_here_from_the_web_gets_nothing(flight: Flight, host: str) -> None:
    judge(f"Host: {host}", asked(flight, host=host)[0] == HOSTS[host])


OTHER_HOSTS = {
    **dict.fromkeys(
        ["127.0.0.1", "127.0.0.1:80", "Recorder.Example:80", "recorder.example.", "tap", "localhost:9"], 200
    ),
    **dict.fromkeys(["evil.example", "recorder.example.evil", "example", "0.0.0.0", "10.0.0.1", "[::1]x", ""], 421),
}


@pytest.mark.parametrize("host", OTHER_HOSTS)
def test_at_an_address_that_others_reach_it_has_that_name_and_those_that_are_given(work: Path, host: str) -> None:
    place = status.endpoint_in("0.0.0.0:0", ["recorder.example", "TAP"])
    flight = Flight(work, {1: Wire("eth0")}, endpoint=place)
    found = asked(flight, "/", host=host)[0]
    flight.status.close()
    judge(f"Host: {host}", found == OTHER_HOSTS[host], found)


@pytest.mark.parametrize("name", ["", "a b", "recorder:80", "[::1]", "x/y", "-x", "x" * 254])
def test_a_name_that_no_host_has_is_refused(name: str) -> None:
    with pytest.raises(status.BadEndpoint) as refused:
        status.endpoint_in("8080", [name])
    judge("with the status 2", refused.value.status == 2 and f"--status-name {name}: " in str(refused.value))


# ---- where it serves


def test_places_to_serve_at_are_read_and_others_refused() -> None:
    wanted = {
        "8080": ("127.0.0.1", 8080),
        "0": ("127.0.0.1", 0),
        "127.0.0.2:80": ("127.0.0.2", 80),
        "0.0.0.0:65535": ("0.0.0.0", 65_535),
        "192.0.2.7:1": ("192.0.2.7", 1),
        "[::1]:8080": ("::1", 8080),
        "[::]:8080": ("::", 8080),
    }
    found = {it: status.endpoint_in(it) for it in wanted}
    judge("places", {k: (str(it.address), it.port) for k, it in found.items()} == wanted)
    judge("and as they are told", str(found["[::1]:8080"]) == "[::1]:8080" and str(found["8080"]) == "127.0.0.1:8080")
    others = "x -1 65536 99999 :80 localhost:80 1.2.3:80 1.2.3.4.5:80 256.1.1.1:80 ::1:80 [::1] [1.2.3.4]x:80 \u0668"
    for word in ("", "80\n", *others.split()):
        with pytest.raises(status.BadEndpoint) as refused:
            status.endpoint_in(word)
        holds = refused.value.status == 2 and word in str(refused.value)
        judge_quietly(f"{word!r} is refused with the status 2", holds)


def test_a_port_that_cannot_be_had_is_refused_before_recording(flight: Flight, work: Path) -> None:
    place = present(flight.status.server).endpoint
    with pytest.raises(status.NoServer) as refused:
        status.Status(endpoint=place)
    told = (refused.value.status, str(refused.value))
    judge("another's port", told == (3, f"--status {place}: Address already in use"), told)
    with pytest.raises(status.NoServer) as refused:
        status.Status(endpoint=status.endpoint_in("192.0.2.7:8080"))
    judge("another machine's address", str(refused.value).endswith(": Cannot assign requested address"), refused.value)


def test_an_address_of_ipv6_is_told_in_brackets_and_answers(work: Path) -> None:
    try:
        flight = Flight(work, {1: Wire("eth0")}, endpoint=status.endpoint_in("[::1]:0"))
    except status.NoServer as refused:
        pytest.skip(f"no IPv6 here: {refused}")
    flight.begin()
    flight.pass_second()
    holds = present(flight.status.address()).startswith("http://[::1]:")
    judge("it is told in brackets", holds, flight.status.address())
    judge("and answers", asked(flight, host="[::1]")[0] == 200)
    flight.status.close()


def test_an_address_of_ipv6_serves_nobody_of_ipv4(work: Path) -> None:
    try:
        flight = Flight(work, {1: Wire("eth0")}, endpoint=status.endpoint_in("[::]:0"))
    except status.NoServer as refused:
        pytest.skip(f"no IPv6 here: {refused}")
    with pytest.raises(OSError):
        socket.create_connection(("127.0.0.1", place_of(flight)[1]), 5)
    flight.status.close()


def test_without_an_address_the_loopback_alone_is_served(flight: Flight) -> None:
    found = [it.split() for it in Path("/proc/net/tcp").read_text().splitlines()[1:]]
    mine = [
        it[1].split(":")[0] for it in found if it[3] == "0A" and int(it[1].split(":")[1], 16) == place_of(flight)[1]
    ]
    judge("without an address nobody else reaches it", mine == ["0100007F"], mine)


# ---- its threads, and its end


def test_no_signal_comes_to_a_thread_of_the_server(flight: Flight) -> None:
    wanted = {int(it) for it in signal.valid_signals()} - {signal.SIGKILL, signal.SIGSTOP}
    connected = connection(flight)
    wait_for("it is taken", lambda: present(flight.status.server).open)
    wait_for("its threads have begun", lambda: all(it.native_id for it in threading.enumerate()))
    masks = {}
    for thread in threading.enumerate():
        if thread is not threading.main_thread() and (thread.name == "status" or "process_request" in thread.name):
            text = Path(f"/proc/self/task/{thread.native_id}/status").read_text()
            mask = int(next(line.split()[1] for line in text.splitlines() if line.startswith("SigBlk")), 16)
            masks[thread.name] = {number for number in wanted if number < 32 and not mask >> number - 1 & 1}
    connected.close()
    judge("all are blocked there", len(masks) >= 2 and not any(masks.values()), masks)


def test_the_server_ends_at_once(work: Path) -> None:
    flight = Flight(work, {1: Wire("eth0")}, endpoint=status.endpoint_in("0")).flown(1)
    hanging = connection(flight)
    wait_for("it is taken", lambda: present(flight.status.server).open)
    begin = time.monotonic()
    flight.status.close()
    judge("it ends at once", time.monotonic() - begin < 2)
    judge("and so does who hangs", hanging.recv(1) == b"" and time.monotonic() - begin < 2)
    with pytest.raises(OSError):
        connection(flight)


# ---- as it is installed


def test_the_page_is_in_the_one_file_that_is_installed(work: Path) -> None:
    run(ROOT / "dev/package/make_host.py", work / "host.pyz")
    script = f"""
import sys
sys.path.insert(0, {str(work / "host.pyz")!r})
from bpfrec_tools.live.status.server import PAGE
import bpfrec_tools
print(bpfrec_tools.__file__.startswith({str(work)!r}), len(PAGE))
"""
    size = (ROOT / "host/bpfrec_tools/live/status/page.html").stat().st_size
    told = run(sys.executable, "-c", script, cwd=work, env={**os.environ, "PYTHONPATH": ""})
    judge("it is whole", told.split() == ["True", str(size)], told)
