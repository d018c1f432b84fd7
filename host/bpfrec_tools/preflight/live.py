"""What `bpfrec live` would refuse or lose with the same arguments: interfaces, permission, offloads, buffers, the origin
and OUT."""

from __future__ import annotations

import argparse
import fcntl
import os
import re
import shutil
import socket
import struct
import time
from functools import partial
from typing import Callable, Container, Optional

from bpfrec.formats.facts import seconds_of
from bpfrec.formats.limits import BUFFER_FOLD, BUFFERS_IN_MEMORY, MAX_COUNTER, NANOSECONDS_A_TICK, USUAL_BUFFER
from bpfrec.formats.names import Names
from bpfrec.formats.settings import Settings
from bpfrec_tools.cli import program
from bpfrec_tools.cli.moments import moment_of
from bpfrec_tools.live import ahead
from bpfrec_tools.live.arguments import Arguments, arguments_of, given_by
from bpfrec_tools.live.flight import Flight, option_of, without_flight
from bpfrec_tools.live.kept.clock_watch import by_others, by_the_kernel
from bpfrec_tools.live.kept.names import Files, Refusal, is_special, refuse_long, refused
from bpfrec_tools.live.parts.adapters import asked
from bpfrec_tools.live.parts.expressions import gives_filter, listing_in_words, listing_of, words_in
from bpfrec_tools.live.parts.folder import judge_settings as refuse_settings
from bpfrec_tools.live.status import BadEndpoint, NoServer, endpoint_in
from bpfrec_tools.live.targets import Target
from bpfrec_tools.preflight.flights import UNKNOWN, interfaces_of, judge_flight, refusal_of, tell_flight
from bpfrec_tools.preflight.inputs import judge_settings
from bpfrec_tools.preflight.keys import place_in, read_settings
from bpfrec_tools.preflight.output import available_memory, judge_out
from bpfrec_tools.preflight.report import CAPTURE, LIVE, Report

MEBIBYTE = 1 << 20
# How a group gets the permission, as capture itself says it.
BY_GROUP = "as using/record.md says: chgrp recorder F && chmod 750 F && setcap cap_net_raw=ep F, where F is"
# What capture says of another origin than these.
ORIGINS = "now, zero, or a time as 1764590400.25 or 2025-12-01T12:00:00.25Z; with -r first too"
NO_FIRST = "it needs -r, since the first frames of interfaces aren't known"
# The time after which counters begin at 0 again.
COUNTER_TURN = (MAX_COUNTER + 1) * NANOSECONDS_A_TICK
# Stands for the pipes of live's: nothing is ever there.
NOWHERE = "/dev/null"
SIOCGIFFLAGS, UP, RUNNING = 0x8913, 0x1, 0x40
FLAGS = struct.Struct("16sH22x")
# The commands of ethtool that ask whether frames are joined, by what ethtool -K calls it, and the bit of the answer.
OFFLOADS = {"gro": (0x2B, 1), "gso": (0x23, 1), "tso": (0x1E, 1), "lro": (0x25, 1 << 15)}
VALUE = struct.Struct("II")


def judge_live(arguments: list[str], report: Report) -> None:
    """Judges the arguments of a run of live."""
    try:
        line = given_by(arguments)
        faulty = judge_flight(line, line.flight, report) if line.flight else set()
        given = arguments_of(line)
    except Refusal as refusal:
        report.fault(LIVE, refusal.what())
        return
    settings = read_settings(given.settings, report) if given.settings is not None else None
    # Of a channel without an ID nobody knows whether it has an interface.
    piped = {None, *(it.channel for it in given.routes)}
    if settings:
        with_pipes(without_flight(settings), piped)
        for channel in (it for it in settings.channels if "feed" not in it.table and it.id()):
            report.note(place_in(settings, channel, "id"), ahead.no_interface(channel))
    is_right = not report.faults
    judge_refusals(given, settings, report)
    for what in ahead.apart(given):
        # What an option lacks isn't missing where that has a fault of its own.
        if not any(option_of(key) in what.split() for key in faulty):
            report.fault(LIVE, what)
    if line.flight and is_right:
        tell_flight(given, line.flight, report)
    if settings:
        worded = words_in(settings, {it.channel for it in given.routes if gives_filter(it, given)})
        judge_settings(settings, report, piped, {None, *(it for it, _ in worded)})
        for _, (place, text) in worded:
            at = place.partition(": filter ")[0]
            judge_words(at, text, partial(listing_in_words, place.removeprefix(f"{at}: "), text), report)
    for route in given.routes:
        if route.expression:
            judge_words(route.interface, route.expression, partial(listing_of, route), report)
    if given.out != UNKNOWN:
        judge_live_out(given, settings, report)
    judge_clock(given, report)
    for target in given.targets:
        judge_target(target, report)
    if given.routes and not given.reads_captures():
        judge_capture(given, line.flight, report)


def judge_refusals(given: Arguments, settings: Optional[Settings], report: Report) -> None:
    """What live would refuse, each alone, so that one fault hides no other."""
    count = max(len(given.routes), len(settings.recorded()) if settings else 0)
    of_options = (ahead.refuse_captures, ahead.refuse_alarm_command, ahead.refuse_control, ahead.refuse_signing)
    refusals: list[Callable[[], object]] = [partial(it, given) for it in (*of_options, refuse_endpoint)]
    refusals += [
        partial(ahead.refuse_inputs, given, ()),
        ahead.refuse_holder,
        partial(ahead.refuse_few_descriptors, given, count),
    ]
    if settings:
        known = settings._replace(channels=[it for it in settings.channels if it.id() is not None])
        refusals += [partial(refuse_settings, known, given)]
    for what in filter(None, map(refusal_of, refusals)):
        report.fault(LIVE, what)


def refuse_endpoint(given: Arguments) -> None:
    """Refuses an address of the status that is none, or that can't be had."""
    if given.status is None:
        return
    # Here, since few runs have one.
    from bpfrec_tools.live.status.server import Server

    try:
        Server(endpoint_in(given.status, given.status_names)).server_close()
    except (BadEndpoint, NoServer) as why:
        raise refused(why.status, f"{why}") from None


def with_pipes(settings: Settings, piped: Container[object]) -> None:
    """Gives the channels that have interfaces a feed, as live does, and those that may have one, so that none is
    missing."""
    for channel in settings.channels:
        if channel.id() in piped:
            channel.table["feed"] = f"{NOWHERE}/{channel.id()}"


def judge_words(place: str, text: str, listing: Callable[[], str], report: Report) -> None:
    """A filter in words, at this place."""
    try:
        count = re.split("[,\n]", listing())[0]
        report.note(place, f"filter {text}: {count} instructions")
    except Refusal as refusal:
        report.fault(place, refusal.what())


def judge_live_out(given: Arguments, settings: Optional[Settings], report: Report) -> None:
    """OUT, or the first of the recordings that follow one another."""
    out = Names(given.out).next()[1] if given.is_rotating() else given.out
    try:
        Files(given.mode, given.is_forced).refuse_overwriting(out)
        if os.path.isdir(os.path.dirname(out) or ".") and not is_special(out):
            refuse_long(out, bool(given.routes), given.sign is not None)
    except Refusal as refusal:
        report.fault(out, refusal.what())
        return
    if given.is_rotating() and is_special(given.out):
        report.fault(given.out, "--every and --size make files, and it is not a file")
    channels = [] if settings is None else settings.channels
    inputs = [it for it in channels if os.path.dirname(it.path("feed") or "") != NOWHERE]
    judge_out(out, given.settings or os.devnull, inputs, report)


def judge_clock(given: Arguments, report: Report) -> None:
    """How right the clock is, and whether it is worse than somebody asks for."""
    state = by_the_kernel()._replace(source=by_others())
    fault = state.fault(given.clock_error)
    if fault:
        report.fault("clock", f"--require-clock: {fault}")
    else:
        report.note("clock", state.text())


# ---- interfaces


def judge_capture(given: Arguments, flight: Optional[Flight], report: Report) -> None:
    """What the capture of interfaces needs."""
    for interface in interfaces_of(given, flight):
        judge_interface(interface, report)
    judge_origin(given, report)
    judge_permission(report)
    judge_buffers(given, report)


def judge_interface(interface: str, report: Report) -> None:
    """Whether an interface is there and up, and whether the kernel joins its frames."""
    flags = flags_of(interface)
    if flags is None:
        report.fault(interface, "no such interface")
        return
    if not flags & UP:
        report.fault(interface, f"it is down: ip link set {interface} up")
    elif not flags & RUNNING:
        report.note(interface, "it has no carrier, as where no cable is in it")
    joins = [name for name, (command, bit) in OFFLOADS.items() if is_on(interface, command, bit)]
    if joins:
        options = " ".join(f"{name} off" for name in joins)
        report.note(interface, f"the kernel may join frames ({', '.join(joins)}): ethtool -K {interface} {options}")
    else:
        report.note(interface, "it is there, and its frames are not joined")


def judge_target(target: Target, report: Report) -> None:
    """Whether the interface by which the run is published is there."""
    if target.lacks():
        report.fault(LIVE, f"--publish {target.lacks()}")


def flags_of(interface: str) -> Optional[int]:
    """The flags of an interface; None where there is none."""
    try:
        with socket.socket(socket.AF_INET, socket.SOCK_DGRAM) as through:
            told = fcntl.ioctl(through, SIOCGIFFLAGS, FLAGS.pack(os.fsencode(interface)[:15], 0))
    except OSError:
        return None
    return int(FLAGS.unpack(told)[1])


def is_on(interface: str, command: int, bit: int) -> bool:
    """Whether the driver says that it does something."""
    told = asked(interface, command, VALUE)
    return bool(told and told[1] & bit)


def judge_permission(report: Report) -> None:
    """Whether the capture is there and may capture."""
    capture = program.capture_path()
    if not shutil.which(capture):
        report.fault(CAPTURE, f"{capture} is missing: make build makes it where libpcap's headers are")
        return
    try:
        socket.socket(socket.AF_PACKET, socket.SOCK_RAW, 0).close()
        return
    except OSError:
        pass
    try:
        os.getxattr(capture, "security.capability")
    except OSError:
        report.fault(CAPTURE, f"no permission to capture: be root, or have a group capture, {BY_GROUP} {capture}")


def judge_buffers(given: Arguments, report: Report) -> None:
    """What the kernel may keep of all interfaces' frames, beside the memory that is available."""
    memory, available = os.sysconf("SC_PHYS_PAGES") * os.sysconf("SC_PAGE_SIZE"), available_memory()
    share = max(1, memory // MEBIBYTE // BUFFERS_IN_MEMORY // BUFFER_FOLD // len(given.routes))
    each = asked_buffer(given) or min(USUAL_BUFFER, share)
    total = each * BUFFER_FOLD * len(given.routes)
    what = f"the kernel keeps up to {each * BUFFER_FOLD} MiB of each interface's frames, {total} MiB of all"
    if available is not None and total * MEBIBYTE > available:
        report.fault("buffers", f"{what}, and {available // MEBIBYTE} MiB are available")
    else:
        report.note("buffers", what)


def asked_buffer(given: Arguments) -> Optional[int]:
    """The buffer that --buffer asks for, in MiB."""
    value = value_of(given, "--buffer")
    return int(value) if value and re.fullmatch(r"[0-9]{1,4}", value) else None


def value_of(given: Arguments, option: str) -> Optional[str]:
    """The last value of an option of the capture's."""
    values = [value for name, value in zip(given.options, given.options[1:]) if name == option]
    return values[-1] if values else None


def judge_origin(given: Arguments, report: Report) -> None:
    """The origin that --origin names: as capture refuses it, or notes it by now."""
    word = value_of(given, "--origin")
    if word is None:
        return
    now = time.time_ns()
    try:
        origin = moment_of(word)
    except argparse.ArgumentTypeError:
        report.fault(CAPTURE, f"--origin {word}: {NO_FIRST if word == 'first' else ORIGINS}")
        return
    if origin > now:
        report.fault(CAPTURE, f"--origin {word}: {seconds_of(origin)} lies ahead of now, which is {seconds_of(now)}")
        return
    turns = (now - origin) // COUNTER_TURN
    why = f", since counters have begun at 0 again {turns} times" if turns else ""
    report.note(CAPTURE, f"--origin {word}: the origin {seconds_of(origin + turns * COUNTER_TURN)} is noted{why}")
