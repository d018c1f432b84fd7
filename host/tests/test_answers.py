"""Tries what is read of the lines of bpfrec, by the worked lines of docs/user/formats/ and by others that are near."""

import pytest
from bpfrec.formats.answers import Answer, Report, Verdict, file_fault, is_no_listing, is_output_fault

# The last of each kind of other lines is what `simulate` prints.
OTHER_REPORTS = ["channel 1 versions 1 offered 10 kept 10 SourceEnd", "wrote 3", "wrote 3 832 ", "", "wrote 25eb0100"]
REPORTS: dict[str, Report | None] = {
    "wrote 3 832": Report(3, 832),
    "wrote 0 0": Report(0, 0),
    "wrote 18446744073709551615 18446744073709551615": Report(2**64 - 1, 2**64 - 1),
    **dict.fromkeys(OTHER_REPORTS),
}
OTHER_ANSWERS = ["run 2 Output 3 0", "file flight.ch11", "memory", "refused", "", "installed 1 0"]
ANSWERS: dict[str, Answer | None] = {
    "installed 2 1 40": Answer(2, 1),
    "installed 65535 1023 281474976710655": Answer(65_535, 1_023),
    "refused 0 Line": Answer(0, None),
    **dict.fromkeys(["refused 2 File", "refused 2 Listing", "refused 2 Program"], Answer(2, None)),
    "refused 7 NoChannel": Answer(7, None),
    "refused 1 VersionsFull": Answer(1, None),
    **dict.fromkeys(OTHER_ANSWERS),
}
NO_VERDICTS = ["no 3 NotAccepted 2 0", "no 5 NoEnd 1", "read 1 Truncated 64", "yes", ""]
VERDICTS = {
    "yes other 0": Verdict(0),
    "yes other 12": Verdict(12),
    **dict.fromkeys([*NO_VERDICTS, "channel 1 programs 1 frames 10 offered 10"], Verdict(None)),
}


@pytest.mark.parametrize("line", REPORTS)
def test_a_report_ends_with_packets_and_bytes(line: str) -> None:
    assert Report.of(line) == REPORTS[line]


@pytest.mark.parametrize("line", ANSWERS)
def test_an_answer_has_the_channel_and_the_version_that_is_in_force(line: str) -> None:
    answer = Answer.of(line)
    assert answer == ANSWERS[line]
    assert answer is None or answer.is_installed() == line.startswith("installed ")


@pytest.mark.parametrize("line", VERDICTS)
def test_a_verdict_is_a_yes_or_is_none(line: str) -> None:
    assert Verdict.of(line) == VERDICTS[line]
    assert Verdict.of(line).is_yes() == line.startswith("yes other ")


def test_a_failed_output_is_told_from_other_faults() -> None:
    lines = ["run 2 Output 3 128", "run 2 Output 0 0", "run 3 Link", "run 4 History", "run 2 Output", "memory"]
    assert [is_output_fault(it) for it in lines] == [True, True, False, False, False, False]


def test_a_text_that_is_no_listing_is_told_from_a_listing_that_is_refused() -> None:
    lines = ["listing 1 Syntax 0", "listing 2 Count 1 2", "refused 1 Empty", "valid 4"]
    assert [is_no_listing(it) for it in lines] == [True, False, False, False]


def test_a_file_that_cannot_be_used_has_its_name_in_the_line() -> None:
    assert [file_fault("-"), file_fault("a b.ch11")] == ["file -", "file a b.ch11"]
