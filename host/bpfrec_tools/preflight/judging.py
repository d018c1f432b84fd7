"""The findings of a preflight: all that is named is judged."""

from __future__ import annotations

import argparse

from bpfrec.formats.limits import MAX_NUMBER
from bpfrec.formats.settings import NoReader, reader
from bpfrec_tools.cli import printing, program
from bpfrec_tools.cli.arguments import name_of
from bpfrec_tools.live.flight import flight_at
from bpfrec_tools.preflight.inputs import judge_capture, judge_feed, judge_settings
from bpfrec_tools.preflight.keys import read_settings
from bpfrec_tools.preflight.live import judge_live
from bpfrec_tools.preflight.output import judge_out
from bpfrec_tools.preflight.report import NotJudged, Report


def judge(given: argparse.Namespace, report: Report) -> None:
    """Judges all that is named."""
    if given.live is not None:
        judge_live(given.live, report)
        return
    if flight_at(given.settings):
        judge_live([given.settings, *([given.out] if given.out else [])], report)
        return
    settings = read_settings(given.settings, report)
    valid = [] if settings is None else judge_settings(settings, report)
    if given.out is not None:
        judge_out(given.out, given.settings, settings.channels if settings else [], report)
    if given.capture is not None and judge_feed(given.capture, MAX_NUMBER, given.capture, report) and settings:
        for channel in valid:
            judge_capture(settings, channel, given.capture, report)
    if settings and settings.channels and not any("feed" in it.table for it in settings.channels):
        what = f"those of live need no feed: bpfrec preflight --live {settings.file} OUT INTERFACE=CHANNEL"
        report.note(settings.file, what)


def findings(given: argparse.Namespace) -> int:
    """Names what is wrong: the status."""
    report = Report()
    try:
        reader()
        program.find()
        judge(given, report)
    except (NoReader, NotJudged, program.Missing) as why:
        printing.err(f"{name_of('preflight')}: {why}")
        return 2
    printing.out(f"{report.ending()}\n")
    return 1 if report.faults else 0
