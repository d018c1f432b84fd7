"""What the kernel says of an interface's adapter: its driver, where it sits, and its clock."""

from __future__ import annotations

import array
import fcntl
import socket
import struct
from typing import Any, Optional

SIOCETHTOOL, SIOCGIFHWADDR = 0x8946, 0x8927
GET_DRIVER, GET_CLOCK = 0x3, 0x41
NAME_LEN = 15
# The command; driver, version, firmware and place of the adapter; and what follows them.
DRIVER = struct.Struct("I32s32s32s32s88x")
# The command, what may be stamped, and the number of the clock, or -1; and what follows.
CLOCK = struct.Struct("IIi36x")
REQUEST = struct.Struct("16sP16x")
# The family of the address, and the address.
ADDRESS = struct.Struct("16sH6s16x")


def adapter_of(interface: str, clock: str) -> dict[str, Any]:
    """The adapter of an interface, as the facts have it. What the kernel doesn't say is None."""
    told = asked(interface, GET_DRIVER, DRIVER)
    driver, _, firmware, place = (text_of(it) for it in told[1:]) if told else (None,) * 4
    clock_told = asked(interface, GET_CLOCK, CLOCK)
    return {
        "interface": interface,
        "driver": driver,
        "firmware": firmware,
        "place": place,
        "address": address_of(interface),
        "clock": clock,
        "hardware_clock": clock_told[2] if clock_told and clock_told[2] >= 0 else None,
    }


def text_of(field: bytes) -> Optional[str]:
    """The text in a field, where it has one."""
    return field.split(b"\0")[0].decode(errors="replace") or None


def asked(interface: str, command: int, form: struct.Struct) -> Optional[tuple[Any, ...]]:
    """What the driver answers to a command of ethtool; None where it answers nothing."""
    answer = array.array("B", form.size * b"\0")
    struct.pack_into("I", answer, 0, command)
    request = REQUEST.pack(interface.encode(errors="surrogateescape")[:NAME_LEN], answer.buffer_info()[0])
    try:
        with socket.socket(socket.AF_INET, socket.SOCK_DGRAM) as through:
            fcntl.ioctl(through, SIOCETHTOOL, request)
    except OSError:
        return None
    return form.unpack(answer.tobytes())


def address_of(interface: str) -> Optional[str]:
    """The address of an adapter, as 02:00:00:00:00:01."""
    try:
        with socket.socket(socket.AF_INET, socket.SOCK_DGRAM) as through:
            request = ADDRESS.pack(interface.encode(errors="surrogateescape")[:NAME_LEN], 0, b"")
            told = fcntl.ioctl(through, SIOCGIFHWADDR, request)
    except OSError:
        return None
    return ":".join(f"{byte:02x}" for byte in ADDRESS.unpack(told)[2])
