"""The Pythons that are here, of those on which the package `bpfrec` is promised to run."""

import functools
import os
import shutil
from pathlib import Path
from typing import Optional

from support import outcome

PROMISED = ("python3.9", "python3.11")


@functools.lru_cache
def interpreter(name: str) -> Optional[str]:
    """A Python of this version that runs: Debian's, that of the path, or one of pyenv."""
    kept = Path(os.environ.get("PYENV_ROOT") or Path.home() / ".pyenv").glob(f"versions/*/bin/{name}")
    for found in [f"/usr/bin/{name}", shutil.which(name) or "", *map(str, sorted(kept))]:
        if os.access(found, os.X_OK) and outcome(found, "-c", "").returncode == 0:
            return found
    return None
