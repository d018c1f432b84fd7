"""What the facts beside a recording claim of its bytes. They are judged by type before any of them is used."""

from __future__ import annotations

import json
import re
from typing import Any, NamedTuple, Optional

# The longest facts that are read.
MAX_LEN = 64 << 20
HASH = re.compile(r"[0-9a-f]{64}")


class NoClaims(Exception):
    """Why facts claim nothing that can be judged."""


class Before(NamedTuple):
    """The recording before: its name and its hash, which is None where nobody knew it."""

    name: str
    digest: Optional[str]


class Claims(NamedTuple):
    """The recording's name, its SHA-256 and its length, which are None until it is hashed, the recording before, None
    of the first of a run, and the name of the next, None of the last."""

    name: str
    digest: Optional[str]
    length: Optional[int]
    before: Optional[Before]
    following: Optional[str] = None


def claims_in(data: bytes) -> Claims:
    """The claims of facts of these bytes."""
    if len(data) > MAX_LEN:
        raise NoClaims(f"they have more than {MAX_LEN >> 20} MiB")
    try:
        told = json.loads(data.decode())
    except (ValueError, RecursionError):
        raise NoClaims("they are no JSON that can be read") from None
    if not isinstance(told, dict) or not isinstance(told.get("recording"), str):
        raise NoClaims("they name no recording")
    length = told.get("bytes")
    if length is not None and (type(length) is not int or length < 0):
        raise NoClaims("bytes is no length")
    following = told.get("next")
    if not isinstance(following, (str, type(None))):
        raise NoClaims("next names no recording")
    return Claims(told["recording"], digest_in(told, "sha256"), length, before_in(told.get("before")), following)


def digest_in(told: dict[str, Any], key: str) -> Optional[str]:
    """A hash; None where there is none."""
    found = told.get(key)
    if found is not None and not (isinstance(found, str) and HASH.fullmatch(found)):
        raise NoClaims(f"{key} is no hash")
    return found


def before_in(told: Any) -> Optional[Before]:
    """The recording before, as facts name it."""
    if told is None:
        return None
    if not isinstance(told, dict) or not isinstance(told.get("recording"), str):
        raise NoClaims("before names no recording")
    return Before(told["recording"], digest_in(told, "sha256"))
