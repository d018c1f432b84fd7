"""What is in a recording, as an object of JSON: times are ticks of 100 ns, and null stands for what isn't known."""

from __future__ import annotations

from typing import Any, Optional

from bpfrec.formats.facts import TAI, Origin
from bpfrec.formats.marks import Mark
from bpfrec_tools.info import whole_file
from bpfrec_tools.info.contents import MOST_PLACES, Channel, Recording
from bpfrec_tools.info.facts_file import FactsFile, span_of, utc_at
from bpfrec_tools.info.names import utc_time, words_of


def object_of(recording: Recording, audit: Optional[str], beside: Optional[FactsFile] = None) -> dict[str, Any]:
    """All that is known of a recording; `audit` is what the audit answered."""
    return {
        "facts": beside and beside_object(beside),
        "whole_file": recording.whole and whole_file.as_object(recording.whole),
        "bytes": recording.bytes,
        "packets": {kind: recording.kinds[kind] for kind in recording.packet_kinds()},
        "missing_sequence_numbers": dict(sorted(recording.missing.items())),
        "gap_count": recording.gap_count,
        "gaps": [
            {"at": it.at, "channel": it.channel, "from": it.first, "missing": it.missing} for it in recording.gaps
        ],
        "damaged_count": recording.damage_count,
        "damaged_bytes": recording.damaged_bytes,
        "damaged": [{"at": it.fault.at, "fault": it.fault.name, "bytes": it.length} for it in recording.damages],
        "audit": audit,
        "channels": {number: channel_object(number, it, beside) for number, it in sorted(recording.channels.items())},
    }


def beside_object(beside: FactsFile) -> dict[str, Any]:
    """What the facts beside a recording say."""
    origins = beside.known.origins
    return {
        "path": beside.path,
        "host": beside.known.host,
        "origin_count": len(origins),
        "origins": [origin_object(it) for it in origins[:MOST_PLACES]],
        "clock": {moment: state._asdict() for moment, state in beside.clocks().items()},
        "losses": beside.known.losses,
        "interruptions": [dict(zip(("interface", "why", "from", "to"), it)) for it in beside.known.interruptions],
        "marks": [mark_object(it, beside) for it in beside.known.marks],
    }


def origin_object(origin: Origin) -> dict[str, Any]:
    """An origin of the facts, as it stands there."""
    return {
        "origin": origin.text,
        "counter": origin.counter,
        "set_by": origin.set_by,
        "scale": origin.scale,
        "tai_offset": origin.tai_offset if origin.scale == TAI else None,
    }


def mark_object(mark: Mark, beside: FactsFile) -> dict[str, Any]:
    """A mark of the facts, with its time by them."""
    return {"counter": mark.counter, "time": utc_at(mark.counter, beside), "text": mark.text}


def channel_object(number: int, channel: Channel, beside: Optional[FactsFile]) -> dict[str, Any]:
    """What is known of a channel."""
    first, last, least, greatest = channel.counters() or (None, None, None, None)
    return {
        "name": channel.name or (beside.known.names.get(number) if beside else None),
        "span": span_of(number, beside),
        "frames": channel.frames,
        "bytes": channel.bytes,
        "offered": channel.offered(),
        "dropped_by_filter": channel.dropped(),
        "first_counter": first,
        "last_counter": last,
        "first_time": utc_time(first, channel.first_time, beside),
        "last_time": utc_time(last, channel.last_time, beside),
        "least_counter": least,
        "greatest_counter": greatest,
        "time": channel.span(),
        "mean_rate": channel.mean_rate(),
        "greatest_rate": channel.rates.greatest(),
        "greatest_rate_seconds": channel.rates.seconds(),
        "longest_gap": channel.longest_gap(),
        "steps_back": channel.steps_back,
        "marked": channel.marked,
        "version_count": channel.version_count,
        "versions": [
            {
                "version": it.number,
                "until": it.until,
                "first_frame": it.first,
                "counter": it.counter,
                "words": words_of(number, it, beside),
            }
            for it in channel.versions
        ],
        "has_end": channel.end is not None,
    }
