"""Tries the check sequences (FCS) of bin/capture, by libdeflate and by zlib, beside Python's."""

import zlib
from pathlib import Path

import pytest
from support import ROOT, run

pytestmark = pytest.mark.wanted("gcc")
LENGTHS, PLACES = [*range(2100), *range(2100, 16_385, 119)], 16
# Prints the check sequence of each length and place, of bytes that the formula in `drawn` gives too.
DRIVER = """
#include "check_sequence.c"
#include <stdio.h>
int main(void) {
    static unsigned char bytes[16384 + 16];
    for (size_t i = 0; i < sizeof bytes; i++)
        bytes[i] = (unsigned char)(i * i * 31 >> 3 ^ i);
    for (size_t len = 0; len <= 16384; len += len < 2100 ? 1 : 119)
        for (size_t at = 0; at < 16; at++)
            printf("%08x\\n", check_sequence(bytes + at, len));
    return 0;
}
"""


@pytest.mark.parametrize("flags", [["-ldeflate"], ["-DWITHOUT_LIBDEFLATE", "-lz"]], ids=["libdeflate", "zlib"])
def test_check_sequences_are_those_of_zlib_of_python(work: Path, flags: list[str]) -> None:
    library = "libdeflate.h" if len(flags) == 1 else "zlib.h"
    if not (Path("/usr/include") / library).exists():
        pytest.skip(f"{library} is missing: apt-get install libdeflate-dev zlib1g-dev")
    (work / "driver.c").write_text(DRIVER)
    run("gcc", "-std=gnu11", "-O2", "-I", ROOT / "capture/src", "-o", work / "driver", work / "driver.c", *flags)
    drawn = bytes((i * i * 31 >> 3 ^ i) & 0xFF for i in range(16_384 + PLACES))
    wanted = [zlib.crc32(drawn[at : at + length]) for length in LENGTHS for at in range(PLACES)]
    assert [int(line, 16) for line in run(work / "driver").split()] == wanted
