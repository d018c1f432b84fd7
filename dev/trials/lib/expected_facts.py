"""Facts beside a recording, by docs/user/formats/live.md: written, judged and damaged by a reading of our own."""

import json
import random
import time
from collections.abc import Iterator
from fractions import Fraction
from typing import Any

# Two hold from counter 32 on, of which the last counts; the clock was set back by an hour.
THREE_ORIGINS = [
    ("1764590400.250000000", 0, None),
    ("1764590401.000000000", 32, "0.750000000"),
    ("1764586800.250000123", 32, "-3600.749999877"),
]
BEFORE_1970 = [("-3589.750000000", 0, None), ("10.000000000", 9, "3599.750000000")]
# Of an adapter's clock, which ran UTC and then TAI; and one of which nobody knows how it ran.
TAI_37: list[tuple] = [("1764590400.250000000", 0, None, "UTC"), ("1764590437.250000123", 17, None, "TAI", 37)]
UNKNOWN_SCALE: list[tuple] = [("1764590400.250000000", 0, None, None)]
ODD_VALUES: list[object] = [None, True, False, -1, 0, 1, 2, 1.0, 1e300]
ODD_VALUES += [2**48 - 1, 2**48, 2**63 - 1, 2**63, 10**30]
ODD_VALUES += ["", "x", "1", "-1.5", "0.0000000000", "-0.000000001", "+1.000000000", "1764590400.250000000\n"]
ODD_VALUES += ["\u0661.000000000", "-62135596800.000000000", "-62135596800.000000001"]
ODD_VALUES += ["253370764799.999999999", "253370764800.000000000", "1" * 13 + ".000000000"]
ODD_VALUES += ["UTC", "TAI", "tai", 100_000, 100_001]
ODD_VALUES += ["\ud800", "a" * 255, "a" * 256, [], [[]], [1], {}, {"a": {}}]


def object_of(origin: str, counter: int, set_by: str | None, *scale: object) -> dict:
    """An origin as facts have it; of before scales were noted it has none."""
    setting = {} if set_by is None else {"set_by": set_by}
    return {"origin": origin, "counter": counter, **setting, **dict(zip(("scale", "tai_offset"), scale))}


def origins_in(told: dict) -> list[tuple]:
    """The origins of facts."""
    names = ("scale", "tai_offset")
    return [(it["origin"], it["counter"], None, *(it[name] for name in names if name in it)) for it in told["origins"]]


def facts_of_run(origins: list, losses: tuple | list = ()) -> dict:
    """Facts with these origins, each of seconds, a counter, by how much the clock was set and its scale, and losses."""
    told = [object_of(*it) for it in origins]
    lost = [
        {"interface": "eth0", "from": 1_200, "to": 11_200, **dict(zip(("dropped", "missed", "skipped"), it))}
        for it in losses
    ]
    return {
        "facts": 1,
        "recording": "x.ch11",
        "host": "fc1",
        "program": "bpfrec 0.1.0",
        "state": "ended",
        "begun": "2025-12-01T12:00:00Z",
        "clock": "host",
        "origins": told,
        "interfaces": [{"interface": "eth0", "channel": 1}],
        "settings": "# text\n",
        "filters": [],
        "counts": [],
        "losses": lost,
        "report": None,
        "audit": None,
        "status": None,
    }


# ---- times


def origin_at(origins: list, counter: int) -> Fraction | None:
    """The origin that holds at a counter, less what TAI is ahead of UTC; None before the first one."""
    found = [Fraction(it[0]) - (it[4] if it[3:4] == ("TAI",) else 0) for it in origins if it[1] <= counter]
    return found[-1] if found else None


def is_utc(origins: list, counter: int) -> bool:
    """Whether somebody knows in which scale the origin is that holds at a counter."""
    return [it[3:4] != (None,) for it in origins if it[1] <= counter][-1:] == [True]


def moments_by(origins: list, counters: list[int]) -> list[int]:
    """The moment of each counter by origins, in nanoseconds, in the way of docs/user/formats/live.md."""
    found = [(origin_at(origins, it), it) for it in counters]
    return [int(origin * 10**9) + 100 * counter for origin, counter in found if origin is not None]


def time_by(origins: list, counter: int) -> str | None:
    """The time of a counter by origins, as text; None before the first one."""
    origin = origin_at(origins, counter)
    if origin is None:
        return None
    ticks = (origin + Fraction(counter, 10**7)) * 10**7 // 1
    day = time.gmtime(ticks // 10**7)
    return (
        f"{day.tm_year:04}-{day.tm_mon:02}-{day.tm_mday:02}T{day.tm_hour:02}:{day.tm_min:02}:{day.tm_sec:02}"
        f".{ticks % 10**7:07}Z"
    )


def drawn_origins(draw: random.Random, most: int) -> list[tuple]:
    """Origins of which some hold from one counter on, in the order of their counters or not; whole ticks and others,
    before 1970 too."""
    counters = [
        draw.choice([0, most, draw.randrange(most + 1), draw.randrange(2**48)]) for _ in range(draw.randrange(1, 6))
    ]
    if draw.random() < 0.8:
        counters = [0, *sorted(counters)]
    found: list[tuple] = []
    at = draw.choice([0, -3_589_750_000_000, draw.randrange(-(10**18), 10**19), 1_764_590_400_250_000_000])
    for counter in counters:
        sign, whole = "-" if at < 0 else "", abs(at)
        scale: tuple = draw.choice([(), ("UTC",), ("TAI", draw.choice([0, 37, 38, 100_000]))])
        set_by = draw.choice([None, "-3600.000000000"])
        found.append((f"{sign}{whole // 10**9}.{whole % 10**9:09}", counter, set_by, *scale))
        at += draw.choice([-3_600_000_000_000, 500_001, draw.randrange(-(10**12), 10**12)])
    return found


# ---- whether something is facts


def are_seconds(value: object) -> bool:
    digits = value[value.startswith("-") :] if isinstance(value, str) else ""
    whole, _, rest = digits.partition(".")
    return set(whole + rest) <= set("0123456789") and 1 <= len(whole) <= 12 and len(rest) == 9


def is_count(value: object, most: int) -> bool:
    return isinstance(value, int) and not isinstance(value, bool) and 0 <= value <= most


def is_origin(value: object) -> bool:
    if not isinstance(value, dict) or value.get("scale", "UTC") not in ("UTC", "TAI", None):
        return False
    is_tai = value.get("scale") == "TAI"
    if is_tai and not is_count(value.get("tai_offset"), 100_000):
        return False
    return (
        are_seconds(value.get("origin"))
        and -62_135_596_800 <= Fraction(value["origin"]) - is_tai * value.get("tai_offset", 0) < 253_370_764_800
        and is_count(value.get("counter"), 2**48 - 1)
        and (value.get("set_by") is None or are_seconds(value["set_by"]))
    )


def is_loss(value: object) -> bool:
    names = ("dropped", "missed", "skipped")
    return isinstance(value, dict) and all(is_count(value.get(name), 2**63 - 1) for name in names)


def are_facts(told: object) -> bool:
    """Whether a value of JSON is facts by docs/user/formats/live.md, as far as they are used."""
    if not isinstance(told, dict) or not is_count(told.get("facts"), 1) or told["facts"] != 1:
        return False
    host, origins, losses = (told.get(it) for it in ("host", "origins", "losses"))
    if not isinstance(host, str) or len(host) > 255:
        return False
    if not isinstance(origins, list) or not origins or not isinstance(losses, list):
        return False
    return all(map(is_origin, origins)) and all(map(is_loss, losses))


def no_constant(name: str) -> None:
    raise ValueError(name)


def value_of(data: bytes) -> object:
    """The value of bytes of JSON; None where they are none."""
    try:
        return json.loads(data.decode(errors="replace"), parse_constant=no_constant)
    except (ValueError, RecursionError):
        return None


# ---- damage


def places_in(value: Any) -> Iterator[tuple]:
    """Each place of a value of JSON, as what holds it and by which key."""
    for key in value if isinstance(value, dict) else range(len(value)) if isinstance(value, list) else ():
        yield value, key
        yield from places_in(value[key])


def damaged_value(draw: random.Random, made: dict) -> None:
    """Changes a value of facts, takes it out or puts it in twice."""
    holder, key = draw.choice(list(places_in(made)))
    kind = draw.randrange(4)
    if kind == 0:
        del holder[key]
    elif kind == 1 and isinstance(holder, list):
        holder.insert(key, holder[key])
    elif kind == 2 and isinstance(holder[key], int):
        holder[key] = draw.choice([draw.randrange(2**50), draw.randrange(100)])
    else:
        holder[key] = draw.choice(ODD_VALUES)


def damaged_facts(draw: random.Random, told: dict) -> bytes:
    """The bytes of facts in which values were changed, taken out or put in twice, or bytes were."""
    made = json.loads(json.dumps(told))
    for _ in range(draw.randrange(3)):
        damaged_value(draw, made)
    data = bytearray(json.dumps(made, ensure_ascii=draw.random() < 0.9).encode("utf-8", "surrogatepass"))
    for _ in range(draw.choice([0, 0, 1, 3])):
        at = draw.randrange(len(data))
        data[at : at + draw.choice([0, 1, 1, 5])] = draw.choice(
            [b"", draw.randbytes(1), draw.randbytes(3), b"9" * draw.randrange(40), b"[" * 5]
        )
    return bytes(data[: draw.randrange(len(data))] if draw.random() < 0.05 else data)
