"""The command line of bpfrec live."""

from __future__ import annotations

from typing import TYPE_CHECKING, Optional

from bpfrec_tools.live.arguments import parser, read
from bpfrec_tools.live.kept.names import Refusal
from bpfrec_tools.live.reports import journal

if TYPE_CHECKING:
    from bpfrec_tools.live.run.ports import Observer

__all__ = ["parser", "run"]


def run(arguments: list[str], observer: Optional[Observer] = None) -> int:
    """Records: the status."""
    try:
        given = read(arguments)
    except Refusal as refusal:
        journal.err(refusal.line)
        return refusal.status
    # Here, since help and a refusal need nothing of it.
    from bpfrec_tools.live.beginning import record

    return record(given, observer)
