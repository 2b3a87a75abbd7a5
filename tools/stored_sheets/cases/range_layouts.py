"""Cases of sheet 5: the ranges of a C block."""

from sheet_blocks import condition
from stored_sheets.cases.block_changes import balanced, patched
from stored_sheets.cases.layouts import beyond
from stored_sheets.cases.samples import ranges_of
from stored_sheets.rules.limits import MOST_NUMBER


def c_rules(cases):
    """Range count and ranges of a C block."""
    for count in (0, 1, 2, 12, 23, 24):
        cases.accepted(f"C: {count} ranges", condition(ranges=ranges_of(count)))
    for count in (25, 26, 32, 128, 255):
        cases.sheet(5, f"C: range count {count}",
                    condition(ranges=ranges_of(24), range_count=count))
    cases.sheet(5, "C: range count 0, one there", condition(ranges=[(1, 1, 1, 1)],
                                                            range_count=0))
    cases.sheet(5, "C: range count 23, 24 there", condition(ranges=ranges_of(24),
                                                            range_count=23))
    cases.accepted("C: range of zeros counted", condition(range_count=1))
    cases.accepted("C: 24 ranges of zeros", condition(range_count=24))
    cases.sheet(5, "C: 25 ranges of zeros", condition(range_count=25))
    beyond(cases, "C: byte 67", condition(), 67, (1, 2, 128, 255))
    for at in (0, 1, 11, 23):
        for start in (0, 1):
            for end in (0, 1, 2):
                span = (start, end, 9 * start, 5 * end)
                cases.accepted(f"C: range {at}, kinds {start} {end}",
                               condition(ranges=[(1, 1, 2, 7)] * at + [span]))
        for bad in (2, 3, 128, 255):
            cases.sheet(5, f"C: range {at}, start kind {bad}",
                        condition(ranges=[(1, 1, 2, 7)] * at + [(bad, 1, 2, 7)]))
        for bad in (3, 4, 128, 255):
            cases.sheet(5, f"C: range {at}, end kind {bad}",
                        condition(ranges=[(1, 1, 2, 7)] * at + [(1, bad, 2, 7)]))


def range_25(cases):
    """A 25th range would run over the check word, whatever the bytes are."""
    block = condition(ranges=ranges_of(24), range_count=25)
    for kinds in (b"\0\1", b"\0\2", b"\1\1", b"\1\2"):
        cases.sheet(5, f"C: 25th range of kinds {kinds.hex()}",
                    patched(block, (500, kinds)))
    for check in (0, 65_535):
        cases.sheet(5, f"C: 25th range of zeros, check word {check}",
                    balanced(condition(ranges=[(1, 1, 7, 7)] * 24, range_count=25),
                             76, check))


def absent_ends(cases):
    """The number of an absent start or end is zero, byte by byte."""
    for at in (0, 23):
        before = [(1, 1, 2, 7)] * at
        for number in (1, MOST_NUMBER):
            for end in (0, 1, 2):
                cases.sheet(5, f"C: range {at}, absent start {number}, end {end}",
                            condition(ranges=before + [(0, end, number, end)]))
            for start in (0, 1):
                cases.sheet(5, f"C: range {at}, absent end {number}, start {start}",
                            condition(ranges=before + [(start, 0, start, number)]))
    for i in range(8):
        number = 1 << 8 * i
        cases.sheet(5, f"C: absent start, byte {7 - i} not zero",
                    condition(ranges=[(0, 2, number, 5)]))
        cases.sheet(5, f"C: absent end, byte {7 - i} not zero",
                    condition(ranges=[(1, 0, 5, number)]))
        cases.accepted(f"C: start and end, byte {7 - i} not zero",
                       condition(ranges=[(1, 2, number, number)]))


SECTIONS = (c_rules, range_25, absent_ends)
