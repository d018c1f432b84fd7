"""What a run needs of the system, which is judged before anything is begun: descriptors, and a folder of its own."""

from __future__ import annotations

import os
import resource
import shutil
from typing import Container, Iterable, Iterator

from bpfrec.formats.limits import CHANNEL_KEYS
from bpfrec.formats.settings import Channel, Settings
from bpfrec_tools.cli.signatures import Unsigned
from bpfrec_tools.cli.streams import input_at
from bpfrec_tools.live.arguments import Arguments
from bpfrec_tools.live.control.sockets import MOST_CLIENTS, Heard, is_left
from bpfrec_tools.live.kept.clock_watch import by_the_kernel
from bpfrec_tools.live.kept.names import Refusal, is_special, refused
from bpfrec_tools.live.kept.signer import LONGEST_TRIAL, Signer

# How many descriptors live has open at most: while it records, while recordings follow one another, and for browsers.
RECORDING, ROTATING, SERVING = 32, 48, 40
# And for the program that is run for alarms.
ALARMING = 8
# And for ssh-keygen, while it signs.
SIGNING = 8
# For what publishes at an address: its end and its lines, and what is open while it starts.
PUBLISHING = 4
# For the socket by which lines come, with its clients.
LISTENING = 1 + MOST_CLIENTS
# How many the capture and the recorder have open, and how many more for each channel.
CAPTURING, FOR_A_CHANNEL = 24, 4
# What is signed to see whether a key can.
PROBE = b"bpfrec: can this key sign?\n"
# The standard streams, and what signals are read from.
OPEN_BY_NOW = 5


def refuse_few_descriptors(given: Arguments, channels: int) -> None:
    """Takes as many descriptors as are allowed where the usual number is too small, and refuses where that is too."""
    soft, hard = resource.getrlimit(resource.RLIMIT_NOFILE)
    own = (ROTATING if given.is_rotating() else RECORDING) + (SERVING if given.status is not None else 0)
    own += (ALARMING if given.on_alarm else 0) + (SIGNING if given.sign else 0) + PUBLISHING * len(given.targets)
    own += LISTENING if given.socket() else 0
    needed = max(own, CAPTURING + FOR_A_CHANNEL * channels) + inherited()
    if is_under(soft, needed) and not is_under(hard, needed):
        resource.setrlimit(resource.RLIMIT_NOFILE, (hard, hard))
    elif is_under(soft, needed):
        raise refused(3, f"it needs {needed} descriptors, and may have {hard}: ulimit -n {needed}")


def refuse_many_channels(settings: Settings) -> None:
    """Refuses more channels than a recording has, before each of them is looked at."""
    fault = settings.count_fault()
    if fault:
        raise refused(2, f"{settings.file}: {fault}")


def refuse_lacking(settings: Settings, given: Arguments) -> None:
    """Refuses a channel without an ID, with that of another one, or with neither an interface nor a feed, in the words of
    record."""
    known: list[Channel] = []
    there: set[object] = {it.id() for it in settings.channels}
    routed: set[object] = {it.channel for it in given.routes}
    if not routed <= there:
        routed = there  # an interface of a channel that isn't there is refused for that
    for channel in settings.channels:
        what = lack_of(channel, known, routed)
        if what:
            place = ":".join(str(it) for it in (settings.file, channel.line("id")) if it)
            raise refused(2, f"{place}: {channel.name}: {what}")
        known.append(channel)


def lack_of(channel: Channel, known: list[Channel], routed: Container[object]) -> str:
    """What a channel lacks, beside those ahead of it; nothing of an ID or a key that is none, which the recorder refuses
    first."""
    if "id" not in channel.table:
        return "settings 3 Missing id"
    if channel.id() is None or set(channel.table) - set(CHANNEL_KEYS):
        return ""
    if any(it.id() == channel.id() for it in known):
        return f"settings 6 SameChannel {channel.id()}"
    is_fed = "feed" in channel.table or channel.id() in routed
    return "" if is_fed else f"settings 3 Missing feed: {no_interface(channel)}"


def no_interface(channel: Channel) -> str:
    """What is said of a channel that no interface is, and that has no feed."""
    return f"no interface is this channel, as eth0={channel.id()}"


def refuse_inputs(given: Arguments, channels: Iterable[Channel]) -> None:
    """Refuses an OUT that the run reads, into which it would be written."""
    inputs = [it.path(key) for it in channels for key in ("filter", "feed")]
    taken = None if given.is_rotating() else input_at(given.out, filter(None, [given.sign, *inputs]))
    if taken:
        raise refused(3, f"{given.out}: it is {taken} itself, which is read")


def refuse_feeds_alone(given: Arguments) -> None:
    """Refuses recordings that follow one another without an interface."""
    if given.is_rotating() and not given.routes:
        raise refused(2, "--every and --size need an interface")


def is_under(limit: int, needed: int) -> bool:
    """Whether a limit is less than what is needed."""
    return limit != resource.RLIM_INFINITY and limit < needed


def inherited() -> int:
    """How many descriptors live was given beside the standard streams."""
    try:
        return max(0, len(os.listdir("/proc/self/fd")) - 1 - OPEN_BY_NOW)
    except OSError:
        return 0


def refuse_holder() -> None:
    """Refuses a TMPDIR whose name settings can't have, in which the recorder finds its pipes."""
    holder = os.environ.get("TMPDIR", "")
    try:
        holder.encode()
    except UnicodeEncodeError:
        raise refused(3, f"TMPDIR is not UTF-8: {os.fsencode(holder)!r}") from None


def refuse_clock(given: Arguments) -> None:
    """Refuses a clock that is worse than one that is asked for."""
    fault = by_the_kernel().fault(given.clock_error)
    if fault:
        raise refused(3, f"--require-clock: {fault}")


def refuse_alarm_command(given: Arguments) -> None:
    """Refuses a program for alarms that isn't there."""
    if given.on_alarm and not shutil.which(given.on_alarm[0]):
        raise refused(3, f"--on-alarm: {given.on_alarm[0]} is missing, or can't be run")


def refuse_control(given: Arguments) -> None:
    """Refuses a path of --control at which no socket can be made, and a run whose name another one has."""
    path = given.socket()
    try:
        if path is not None:
            is_left(path)
    except Refusal as why:
        if given.control is not None or isinstance(why, Heard):
            raise


def refuse_signing(given: Arguments) -> None:
    """Refuses a key that can't sign, also where that is known by a text that is signed for a trial alone."""
    try:
        if given.sign is not None:
            Signer(given.sign, longest=LONGEST_TRIAL).sign(PROBE)
    except Unsigned as why:
        raise refused(3, f"--sign {given.sign}: {why}") from None


def refuse_captures(given: Arguments) -> None:
    """Refuses options that captures don't go with, and captures that aren't files, of which the origin isn't known."""
    live_alone = {
        "--every": given.every,
        "--size": given.size,
        "--prefilter": given.is_prefiltered or None,
        "--require-clock": given.clock_error,
    }
    asked = [option for option, value in live_alone.items() if value is not None]
    if given.reads_captures() and asked:
        raise refused(2, f"{asked[0]} is for interfaces")
    for route in given.routes if given.reads_captures() else ():
        if not os.path.isfile(route.interface):
            what = "it is no regular file" if os.path.exists(route.interface) else "no such file"
            raise refused(3, f"{route.interface}: {what}")


def refuse_together(given: Arguments) -> None:
    """Refuses options that don't go together."""
    refuse_captures(given)
    for what in apart(given):
        raise refused(2, what)


def apart(given: Arguments) -> Iterator[str]:
    """What is wrong with options that don't go together."""
    if given.setup and not given.makes_whole_files and not given.targets:
        yield f"{given.setup[0].partition('=')[0]} is for --chapter11 and --publish"
    is_ring = given.keep is not None or given.keep_free is not None
    if is_ring and not given.is_rotating():
        yield "--keep and --keep-free need --every or --size"
    if is_ring and not given.is_audited:
        yield "--keep and --keep-free remove what was audited, and --no-audit audits nothing"
    if given.makes_whole_files and not given.is_audited:
        yield "--chapter11 is made of what was audited, and --no-audit audits nothing"
    if given.makes_whole_files and not given.routes:
        yield "--chapter11 needs an interface"
    if given.targets and not given.routes:
        yield "--publish needs an interface"
    if given.targets and is_special(given.out):
        yield "--publish needs an OUT that is a file"
    if given.status_names and given.status is None:
        yield "--status-name needs --status"
    if given.sign is not None and not given.routes:
        yield "--sign needs an interface"
    if given.span is not None and not given.routes:
        yield "--span needs an interface"
