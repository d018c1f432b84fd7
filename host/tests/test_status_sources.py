"""Tries each number of the status and of its metrics beside the one that it stands for: no two are alike."""

import json
import re
from collections.abc import Iterable
from types import SimpleNamespace
from typing import Any, NamedTuple, cast

import pytest
from bpfrec.formats.clock_state import ClockState
from bpfrec.formats.packet import Header
from bpfrec_tools.live.operands import Route
from bpfrec_tools.live.parts.folder import Folder
from bpfrec_tools.live.parts.recorder import Recorder
from bpfrec_tools.live.reports.observers import Observers
from bpfrec_tools.live.run.ports import Counts, Observer, Sent, Setup
from bpfrec_tools.live.status import alarms, as_json, metrics
from bpfrec_tools.live.status.growth import Kept, kept_by
from bpfrec_tools.live.status.model import Model
from bpfrec_tools.live.status.view import (
    Audits,
    ChannelView,
    ClockView,
    DiskView,
    EndedView,
    FilterView,
    GroundView,
    LinkView,
    MarkView,
    RecordingView,
    Second,
    State,
    SyncView,
    View,
)
from support import judge, judge_quietly, judge_same

COUNTS = Counts(201, 202, 203, 204, 205, 206)
SECONDS = [
    Second(11.0, 12.0, 13.0, 14.0, 15, 16, 17, 18, 19, 20.0),
    Second(21.0, 22.0, 33.0, 54.0, 25, 26, 27, 28, 29, 30.0),
]
CHANNEL = ChannelView(
    channel=7,
    interface="eth0",
    version=5,
    counts=COUNTS,
    counts_age=0.5,
    frame_age=1.5,
    lost_age=2.5,
    kept_frames=207,
    kept_bytes=208,
    seconds=62.0,
    has_ended=True,
    unkept=None,
    history=tuple(SECONDS),
    filter=FilterView("udp", 6),
    link=LinkView(True, "no carrier", 1.5, 211),
    name="bus A",
)
VIEW = View(
    now=1_000.0,
    state=State.RECORDING,
    uptime=71.5,
    recording=RecordingView(3, "f.ch11", 72.5, 301, 302.0, 303, "a fault"),
    disk=DiskView(304, 305.0),
    sync=SyncView(0.02, 3.5, 306),
    channels=(CHANNEL,),
    recordings=(EndedView(2, "e.ch11", 307, 3, "yes other 0"),),
    audits=Audits(308, 309, 310),
    marks=(MarkView("f.ch11", 311, "2025-12-01T12:00:00.2500000Z", "text", 4.5),),
    host="fc1",
    # Times are of the millisecond that has begun.
    utc=1_764_590_400.9876,
    clock=ClockView(ClockState(True, 0.000125, "chrony (a)"), 0.25),
    ground=(GroundView("192.0.2.1:5000", 401, 402, 403, True, 404.0),),
)
STATUS: dict[str, Any] = {
    "age": 0.8,
    "status": 1,
    "state": "recording",
    "level": "ok",
    "uptime": 71.5,
    "alarms": [],
    "recording": {
        "number": 3,
        "name": "f.ch11",
        "seconds": 72.5,
        "bytes": 301,
        "bytes_per_second": 302,
        "unread": 303,
        "fault": "a fault",
    },
    "disk": {"free": 304, "seconds_left": 305},
    "sync": {"interval": 0.02, "age": 3.5},
    "clock": {"is_synchronised": True, "maximum_error": 0.000125, "source": "chrony (a)", "required": 0.25},
    "channels": [
        {
            "channel": 7,
            "interface": "eth0",
            "name": "bus A",
            "level": "ok",
            "words": [],
            "version": 5,
            "filter": "udp",
            "changes": 6,
            # A second, of the same seconds.
            "offered": {"frames": 201, "bytes": 202, "frames_per_second": 16.0, "bytes_per_second": 17.0},
            "kept": {"frames": 207, "bytes": 208, "frames_per_second": 23.0, "bytes_per_second": 34.0},
            "dropped": 203,
            "missed": 204,
            "skipped": 205,
            "waited": 206,
            "frame_age": 1.5,
            "away": "no carrier",
            "interruptions": 211,
            "has_ended": True,
            "history": {name: [one, two] for name, one, two in zip(Second._fields, *SECONDS)},
        }
    ],
    "recordings": [{"number": 2, "name": "e.ch11", "bytes": 307, "status": 3, "audit": "yes other 0"}],
    "audits": {"yes": 308, "no": 309, "none": 310},
    "ground": [{"address": "192.0.2.1:5000", "datagrams": 401, "lost": 402, "late": 403, "is_sent_to": True}],
    "marks": [{"name": "f.ch11", "counter": 311, "time": "2025-12-01T12:00:00.2500000Z", "text": "text", "age": 4.5}],
    "host": "fc1",
    "utc": "2025-12-01T12:00:00.987Z",
}
STATION = '{address="192.0.2.1:5000"}'


def numbers(text: str) -> dict[str, float]:
    """The numbers of a text of NAME:VALUE, by their names."""
    return {name: float(value) for name, _, value in (it.rpartition(":") for it in text.split())}


OF_RUN = numbers(
    "status_age_seconds:0.75 uptime_seconds:71.5 recording:1 recording_number:3 recording_seconds:72.5 "
    "recording_bytes:301 disk_free_bytes:304 disk_seconds_left:305 sync_age_seconds:3.5 sync_faults_total:306 "
    'clock_synchronised:1 clock_max_error_seconds:0.000125 audits_total{answer="yes"}:308 '
    'audits_total{answer="no"}:309 audits_total{answer="none"}:310 '
    f"ground_datagrams_total{STATION}:401 ground_lost_datagrams_total{STATION}:402 "
    f"ground_late_packets_total{STATION}:403 ground_is_sent_to{STATION}:1"
)
OF_CHANNEL = numbers(
    "offered_frames_total:201 offered_bytes_total:202 kept_frames_total:207 kept_bytes_total:208 "
    "dropped_frames_total:203 missed_frames_total:204 skipped_frames_total:205 waited_seconds_total:0.206 "
    "filter_version:5 filter_changes_total:6 last_frame_age_seconds:1.5 away:1 interruptions_total:211"
)


def test_each_value_of_the_status_is_the_one_that_it_stands_for() -> None:
    found = json.loads(as_json.with_age(as_json.text_of(VIEW, ()), 0.75))
    for key in STATUS:
        judge_quietly(f"{key}: {found.get(key)}", found.get(key) == STATUS[key])
    judge("and nothing else is told", set(found) == set(STATUS))


def test_each_metric_is_the_one_that_it_stands_for() -> None:
    text = metrics.with_age(metrics.text_of(VIEW, ()), 0.75)
    found = {name: float(value) for name, value in re.findall(r"^bpfrec_(.+) (\S+)$", text, re.MULTILINE)}
    labels = 'channel="7",interface="eth0",name="bus A"'
    wanted: dict[str, float] = {**OF_RUN, f'channel_filter_info{{{labels},filter="udp"}}': 1}
    wanted |= {f"channel_{name}{{{labels}}}": value for name, value in OF_CHANNEL.items()}
    wanted |= {f'alarms{{name="{name.value}"}}': 0 for name in alarms.Name}
    judge("all and nothing else", found == wanted, set(found.items()) ^ set(wanted.items()))


# ---- how numbers come there


def counted(model: Model, at: float, *counts: int) -> None:
    model.capture_counted("eth0", Counts(*counts), at)
    model.pass_time(at)


@pytest.mark.parametrize("passed", [1, 3])
def test_what_was_lost_and_waited_is_told_once_each_by_its_own_count(passed: int) -> None:
    """Also behind a pause of several seconds, in whose last one it is."""
    model = Model(0.0, 1.0)
    model.recording_begun(1, "f.ch11", [Setup(7, "eth0")], 0.0)
    counted(model, 1.0, 100, 6_000, 1, 2, 3, 4)
    counted(model, 1.0 + passed, 200, 12_000, 11, 22, 33, 44)
    (channel,) = model.view(1.0 + passed).channels
    found = [(it.dropped, it.missed, it.skipped, it.waited) for it in channel.history]
    judge("each", found == [(1, 2, 3, 4), *[(0, 0, 0, 0)] * (passed - 1), (10, 20, 30, 40)], found)


@pytest.mark.parametrize("count", [0, 1, 255, 256, 4_095, 4_096, 43_690, 65_535])
def test_a_packet_has_as_many_frames_and_bytes_as_it_says(count: int) -> None:
    header = Header(7, 0, 4 + 12 * count + 61, 0, 0, 0, 0x68, 0)
    judge_same("these", kept_by(header, count.to_bytes(4, "little")), Kept(7, count, 61))


def test_what_is_sent_to_the_ground_is_that_of_all_publishers_of_a_run() -> None:
    """One that has died, and the one that was begun again, whose counts begin anew."""
    model = Model(0.0, 1.0)
    told: list[tuple[Any, tuple[int, int, int, bool, Any]]] = [
        (Sent(100, 0, 0), (100, 0, 0, True, None)),
        (Sent(200, 3, 1), (200, 3, 1, True, 0.0)),
        (Sent(300, 3, 1), (300, 3, 1, True, 1.0)),
        (None, (300, 3, 1, False, 2.0)),
        (Sent(50, 0, 0), (350, 3, 1, True, 3.0)),
    ]
    for at, (sent, wanted) in enumerate(told):
        model.published("a:1", sent, float(at))
        (found,) = model.view(float(at)).ground
        judge(f"after {sent}", found == GroundView("a:1", *wanted), found)
    model.published("b:1", Sent(1, 0, 0), 9.0)
    judge("each address is another one", [it.address for it in model.view(9.0).ground] == ["a:1", "b:1"])


class Begun(NamedTuple):
    """An observer that keeps the channels of a recording that has begun."""

    found: list[Setup]

    def recording_begun(self, number: int, path: str, channels: Iterable[Setup], now: float) -> None:
        self.found.extend(channels)


def test_a_channel_is_observed_with_its_interface_its_filter_and_its_name() -> None:
    folder = SimpleNamespace(
        routes=[Route("eth0", 7)], names={7: "bus A"}, filter_names=lambda: {7: "udp port 5004", 8: "all"}
    )
    begun = Begun([])
    recorder = SimpleNamespace(recording=SimpleNamespace(number=1), about=SimpleNamespace(out="f.ch11"))
    Observers(cast(Observer, begun), cast(Folder, folder), print).begun(cast(Recorder, recorder))
    judge("each", begun.found == [Setup(7, "eth0", "udp port 5004", "bus A"), Setup(8, None, "all")], begun.found)
