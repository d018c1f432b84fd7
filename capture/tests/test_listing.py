"""Listings of programs: what is read, and what is refused (capture/src/listing.c)."""

import pytest
from c_units import Script

REFUSED = "no listing of a program: <count>,<code> <jt> <jf> <k>,.."
MOST_INSNS, MOST_BYTES = 4_096, 1_048_576
IPV4 = "4,40 0 0 12,21 0 1 2048,6 0 0 262144,6 0 0 0"
# What may stand in place of a comma, and behind the last one.
ENDS = {",": ["", ",", ",\n"], "\n": ["", "\n"], "\r\n": ["\r\n"], ",\n\n,, ,\t": [""], "\n\r": [""], " \r,  \t": [""]}
WRONG = """| |,,\n,|0|0,|4|1,6 0 0|1,6 0 0 0 0|1,6 0 0 0,6 0 0 0|2,6 0 0 0|6 0 0 0|6 0 0 0,1|1,1,6 0 0 0|1 6 0 0 0|1,6 0 0 -1\
|1,6 0 0 +1|1,6 0 0 0x1|1,6 0 0 1.0|1,6 0 0 a|1,6 0 0 0;|one,6 0 0 0|+1,6 0 0 0|4294967297,6 0 0 0|1,6\r0 0 0\
|1,6\v0 0 0|1,6 0 0 0\f|1,6 0 0 0\0|1,6 0 0 0,\0|\0|1,6 0 0 0,\xff""".split(
    "|"
)

LOADS = [0x00, 0x20, 0x28, 0x30, 0x40, 0x48, 0x50, 0x60, 0x80, 0x01, 0x61, 0x81, 0xB1]
OPERATIONS = [it for base in range(0x04, 0xB4, 0x10) if base != 0x84 for it in (base, base + 8)] + [0x84]
LEGAL = {*LOADS, *OPERATIONS, 0x02, 0x03, 0x05, *range(0x15, 0x4E, 8), 0x06, 0x16, 0x07, 0x87}


class Unit(Script):
    PROGRAM = "listing"

    def read(self, text: str) -> str:
        """What is read of a listing, in its own form without a comma at its end, or why it is refused."""
        (self.work / "listing").write_bytes(text.encode("latin-1"))
        return self.ask("listing", self.work / "listing")


def test_listings_of_asm_and_of_tcpdump_ddd_are_read_with_any_blanks_between(unit: Unit) -> None:
    texts = [IPV4.replace(",", between) + end for between, ends in ENDS.items() for end in ends]
    blanks, zeros = " \t" + IPV4.replace(" ", " \t "), IPV4.replace("40 0", "00040 000000000000")
    for text in [*texts, blanks, zeros]:
        assert unit.read(text) == IPV4, text


@pytest.mark.parametrize("text", WRONG)
def test_what_is_not_a_count_and_so_many_instructions_is_refused(unit: Unit, text: str) -> None:
    assert unit.read(text) == REFUSED


@pytest.mark.parametrize("at, most", [(1, 255), (2, 255), (3, 2**32 - 1)], ids=["jt", "jf", "k"])
def test_each_field_is_read_up_to_its_most_and_refused_beyond(unit: Unit, at: int, most: int) -> None:
    def with_field(value: int) -> str:
        return "1," + " ".join(str(value if at == field else 1) for field in range(4))

    assert unit.read(with_field(most)) == with_field(most)
    for value in (most + 1, most + 2**32, 2**64, 2**64 + most + 1, 10**40):
        assert unit.read(with_field(value)) == REFUSED


def test_the_legal_codes_alone_are_read(unit: Unit) -> None:
    for code in [*range(256), *(0x100 | it for it in LEGAL), 65_535]:
        text = f"2,{code} 0 0 1,6 0 0 1"
        assert unit.read(text) == (text if code in LEGAL else "the code of an instruction is not legal"), code
    assert unit.read("1,65536 0 0 1") == REFUSED


def test_a_listing_has_as_many_instructions_as_the_kernel_takes_and_a_mebibyte_at_most(unit: Unit) -> None:
    most, more = ",6 0 0 1" * MOST_INSNS, ",6 0 0 1" * (MOST_INSNS + 1)
    assert unit.read(f"{MOST_INSNS}{most}") == f"{MOST_INSNS}{most}"
    assert unit.read(f"{MOST_INSNS + 1}{more}") == unit.read(f"{MOST_INSNS}{more}") == REFUSED
    assert unit.read(IPV4.ljust(MOST_BYTES)) == IPV4
    assert unit.read(IPV4.ljust(MOST_BYTES + 1)) == "a listing has at most 1,048,576 bytes"


def test_a_file_that_can_not_be_read_is_refused_with_its_error(unit: Unit) -> None:
    assert unit.ask("listing", unit.work / "none") == "No such file or directory"
    assert unit.ask("listing", unit.work) == "Is a directory"


def test_nothing_is_left_of_the_listing_that_was_read_before(unit: Unit) -> None:
    assert (unit.read(IPV4), unit.read("1,6 0 0 7"), unit.read("2,6 0 0 7")) == (IPV4, "1,6 0 0 7", REFUSED)
