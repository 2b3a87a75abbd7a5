"""Step 5: the conditions; and the ranges of each, clipped."""

from sheet_blocks import INCLUDED, NONE, SLICE
from stored_sheets.rules.blocks import blocks_of, blocks_of_kind, name_of, number_at
from stored_sheets.rules.fields import field_named, largest_value
from stored_sheets.rules.groups import ACCEPTED, COND

MOST_ENTRIES = 8


def step_5(sheet):
    """Cond 1 to 7 for each entry in turn, then cond 8."""
    listed = []
    for place, block in blocks_of_kind(sheet, b"C"):
        number = entry_refusal(sheet, listed, block)
        if number != 0:
            return COND, number, place
        listed.append(name_of(block))
    if len(listed) > MOST_ENTRIES:
        return COND, 8, len(blocks_of(sheet))
    return ACCEPTED


def entry_refusal(sheet, listed, block):
    """The number of the first cond refusal of one entry, 8 apart, or 0.

    `listed` are the names of the entries before it.
    """
    found = field_named(sheet, name_of(block))
    if found is None:
        return 1
    if found.repr == SLICE:
        return 2
    earlier = []
    for span in spans_of(block):
        first, last = clipped(span, largest_value(found.bits))
        if first > last:
            return 4
        if any(meet((first, last), other) for other in earlier):
            return 6
        earlier.append((first, last))
    if name_of(block) in listed:
        return 7
    return 0


def spans_of(block):
    """The ranges of a C block, each as start kind, end kind, start and end."""
    return [(block[at], block[at + 1], number_at(block, at + 2, at + 10),
             number_at(block, at + 10, at + 18))
            for at in range(68, 68 + 18 * block[66], 18)]


def clipped(span, largest):
    """The first and the last number of a range. It is empty if the last is less."""
    start_kind, end_kind, start, end = span
    first = start if start_kind == INCLUDED else 0
    if end_kind == NONE:
        return first, largest
    last = end if end_kind == INCLUDED else end - 1
    return first, min(last, largest)


def meet(one, other):
    """Whether a number lies in both."""
    return one[0] <= other[1] and other[0] <= one[1]


def ranges(sheet):
    """For each entry of a sheet that passes step 5 its ranges, clipped."""
    return [[clipped(span, largest_value(field_named(sheet, name_of(block)).bits))
             for span in spans_of(block)]
            for _, block in blocks_of_kind(sheet, b"C")]
