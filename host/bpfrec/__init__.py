"""Reads recordings of bpfrec, and the whole Chapter 11 files that are made of them, frame by frame:

    import bpfrec

    for frame in bpfrec.open("flight.ch11"):
        print(frame.channel, frame.time_ns, len(frame.bytes), frame.fcs_wrong)

What `__all__` names is promised, with its public attributes. All else, the modules of this package too, may change with
any version. It needs Python 3.9 or later and no other package, and no program is run.
"""

from __future__ import annotations

import importlib
from typing import TYPE_CHECKING, Any

if TYPE_CHECKING:
    from bpfrec.errors import BadFacts, Damaged, Error, Fault, NotARecording, NoTimes, UnknownChannel
    from bpfrec.reading import Reading
    from bpfrec.recording import Recording, open
    from bpfrec.values import Channel, End, Facts, Filter, Frame, Mark, Origin

__version__ = "0.1.0"
__all__ = [
    "BadFacts",
    "Channel",
    "Damaged",
    "End",
    "Error",
    "Facts",
    "Fault",
    "Filter",
    "Frame",
    "Mark",
    "NoTimes",
    "NotARecording",
    "Origin",
    "Reading",
    "Recording",
    "UnknownChannel",
    "open",
]


def __getattr__(name: str) -> Any:
    """What is promised is loaded where it is asked for: the tools import formats alone, and start sooner so."""
    if name not in __all__:
        raise AttributeError(f"module {__name__!r} has no attribute {name!r}")
    modules = (importlib.import_module(f"bpfrec.{it}") for it in ("errors", "values", "reading", "recording"))
    found = next(vars(it)[name] for it in modules if name in vars(it))
    globals()[name] = found
    return found
