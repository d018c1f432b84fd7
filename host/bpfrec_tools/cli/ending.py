"""How a tool ends: with a line and a status for each fault, with no traceback."""

from __future__ import annotations

import errno
import io
import sys
from typing import Callable

from bpfrec_tools.cli import printing

# The statuses of faults that any tool may meet: a file, no memory, and Ctrl-C, as shells have it.
FILE_STATUS, MEMORY_STATUS, INTERRUPTED_STATUS = 3, 4, 130


class Refused(Exception):
    """What is wrong with an input, an output or an argument, and where."""

    status = 1


def failed(tool: str, error: OSError) -> int:
    """Tells which file couldn't be read or written: the status for it."""
    printing.silence(1)
    if error.errno == errno.ENOMEM:
        printing.err(f"{tool}: out of memory")
        return MEMORY_STATUS
    printing.err(f"{tool}: {'' if error.filename is None else f'{error.filename}: '}{error.strerror}")
    return FILE_STATUS


def guarded(tool: str, command: Callable[[], int]) -> int:
    """The status of a command: the one that it returns, or that of the fault that ended it, which is told."""
    try:
        printing.hold_streams()
        if isinstance(sys.stdout, io.TextIOWrapper):
            # Paths and facts may have letters that it has no bytes for.
            sys.stdout.reconfigure(errors="replace")
        return command()
    except Refused as refused:
        printing.err(f"{tool}: {refused}")
        return refused.status
    except OSError as error:
        return failed(tool, error)
    except KeyboardInterrupt:
        printing.err(f"{tool}: interrupted")
        return INTERRUPTED_STATUS
    except ImportError as error:
        # A part of Python that is a shared object, for which there is no room.
        if "failed to map segment" not in str(error):
            raise
        printing.err(f"{tool}: out of memory")
        return MEMORY_STATUS
    except MemoryError:
        printing.err(f"{tool}: out of memory")
        return MEMORY_STATUS
