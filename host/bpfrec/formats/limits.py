"""The numbers of formats and settings, as docs/user/formats/ has them. Lengths are in bytes.

dev/checks/limits.py writes the numbers of the program, as its stored run prints them, and compares all with those of
the document and of the plugin for Wireshark.
"""

from __future__ import annotations

from typing import NamedTuple, Optional

# ---- of the program: counters, in ticks of the relative time counter

COUNTER_BITS = 48
COUNTER_LEN = 6

# ---- of the program: frames and feeds

# With the frame check sequence.
MIN_FRAME_LEN = 18
MAX_FRAME_LEN = 16_383
CHECK_SEQUENCE_LEN = 4
# What a record of a feed has before its frame.
RECORD_HEAD_LEN = 9
# The marks of a frame: its check sequence is wrong; it has a frame error.
MARK_CHECK_SEQUENCE = 1
MARK_OTHER_FAULT = 2

# ---- of the program: filters

MAX_INSNS = 4_096
INSN_LEN = 8
# Of a listing, and of settings; of an assembler text, and of a script.
MAX_LISTING_LEN = 1_048_576
MAX_TEXT_LEN = 67_108_864
# How many programs a channel may have, one after the other.
MAX_VERSIONS = 1_024

# ---- of the program: packets

SYNC_PATTERN = 0xEB25
HEADER_LEN = 24
CHECKSUM_LEN = 4
MAX_ETHERNET_PACKET_LEN = 524_288
ETHERNET_DATA = 0x68
COMPUTER_GENERATED_DATA = 0x00
# The word that a body of frames begins with, and what stands before each frame.
BODY_WORD_LEN = 4
FRAME_HEADER_LEN = 12
# The channel ID of records; their kinds; their heads, up to the channel; a program's record before its instructions; an
# end's record.
RECORD_CHANNEL = 0
PROGRAM_RECORD = 1
END_RECORD = 2
TAGGED_HEAD_LEN = 12
PROGRAM_HEAD_LEN = 28
END_RECORD_LEN = 28

# ---- of the program: settings, with what holds where a key isn't set

MIN_LIMIT = 16_424
MAX_LIMIT = 524_284
DEFAULT_LIMIT = 65_536
MAX_RING = 4_096
DEFAULT_RING = 64
DEFAULT_VERSION = 8
MAX_CHANNELS = 64
DEFAULT_NET = 0
MAX_SPEED = 15
DEFAULT_SPEED = 0
# TOML's whole numbers have 64 bits with a sign.
MAX_NUMBER = 9_223_372_036_854_775_807
DEFAULT_MAX = 9_223_372_036_854_775_807
# A channel has these buffers, and the one that is being filled, beside one for each piece that may wait.
SPARE_BUFFERS = 2

# ---- of the capture: the kernel's buffers

# Of each interface in MiB, and the part of the memory that all have at most; the kernel makes up to so many times as
# much of what is asked for.
USUAL_BUFFER = 256
BUFFERS_IN_MEMORY = 4
BUFFER_FOLD = 2

# ---- what follows from these

MAX_COUNTER = (1 << COUNTER_BITS) - 1
MAX_MARKS = MARK_CHECK_SEQUENCE | MARK_OTHER_FAULT
MIN_NUMBER = -1 - MAX_NUMBER
BUFFERS_BESIDE_RING = SPARE_BUFFERS + 1

# ---- of the document alone

RECORD_TAG = b"CBPR"
# The type of setup records of whole files, whose packets may be the longest.
SETUP, MAX_SETUP_PACKET_LEN = 0x01, 134_217_728
NANOSECONDS_A_SECOND = 1_000_000_000
NANOSECONDS_A_TICK = 100
TICKS_A_SECOND = NANOSECONDS_A_SECOND // NANOSECONDS_A_TICK
MIN_CHANNELS, MAX_CHANNEL_ID, MAX_BYTE = 1, 65_535, 255
# The greatest Ethernet speed that has a meaning in IRIG 106-17 Chapter 11; the others are reserved.
MAX_KNOWN_SPEED = 4


class Range(NamedTuple):
    """The numbers that a key may have, and the one that it has where it isn't set; None where it must be set."""

    least: int
    most: int
    default: Optional[int]


# The keys of the document, but for the channels.
TOP_KEYS = {
    "limit": Range(MIN_LIMIT, MAX_LIMIT, DEFAULT_LIMIT),
    "ring": Range(1, MAX_RING, DEFAULT_RING),
    "version": Range(0, MAX_BYTE, DEFAULT_VERSION),
}
# The keys of a channel, in the order of docs/user/formats/; those without a range are paths.
CHANNEL_KEYS = {
    "id": Range(1, MAX_CHANNEL_ID, None),
    "feed": None,
    "filter": None,
    "net": Range(0, MAX_BYTE, DEFAULT_NET),
    "speed": Range(0, MAX_SPEED, DEFAULT_SPEED),
    "max": Range(0, MAX_NUMBER, DEFAULT_MAX),
    "span": Range(0, MAX_COUNTER, 0),
}

# ---- the facts beside a recording

MAX_FACTS_MIB, MAX_HOST_LEN, COUNT_BITS = 64, 255, 63
MAX_FACTS_LEN = MAX_FACTS_MIB << 20
MAX_COUNT = (1 << COUNT_BITS) - 1
# Marks of a recording, and the characters of each.
MAX_NOTED_MARKS, MAX_MARK_LEN = 1_024, 255
# What Linux takes (MAX_TAI_OFFSET of its timekeeping), in seconds.
MAX_TAI_OFFSET = 100_000
