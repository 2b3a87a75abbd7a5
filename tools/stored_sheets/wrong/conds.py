"""Wrong rules of step 5, each of which the cases of that step have to notice."""

from sheet_blocks import EXCLUDED, INCLUDED, NONE
from stored_sheets.rules.blocks import blocks_of, blocks_of_kind, name_of
from stored_sheets.rules.conds import clipped, entry_refusal, meet, spans_of, step_5
from stored_sheets.rules.fields import field_named, largest_value
from stored_sheets.rules.groups import ACCEPTED, COND
from stored_sheets.rules.limits import MOST_NUMBER


def excluded_at_255(span, largest):
    """An excluded end of one over the largest clipped to the largest, excluded."""
    first, last = clipped(span, largest)
    if span[1] == EXCLUDED:
        last = min(span[3], largest) - 1
    return first, last


def not_clipped(span, largest):
    start_kind, end_kind, start, end = span
    last = largest if end_kind == NONE else end - (end_kind == EXCLUDED)
    return clipped(span, largest)[0], last


def clipped_start(span, largest):
    """The start clipped too."""
    first, last = clipped(span, largest)
    return min(first, largest), last


def always_included(span, largest):
    start_kind, end_kind, start, end = span
    return clipped((start_kind, end_kind and INCLUDED, start, end), largest)


def from_1(span, largest):
    """No start taken as 1."""
    first, last = clipped(span, largest)
    return (first if span[0] == INCLUDED else 1), last


def no_end_at_the_top(span, largest):
    """A start of 2^64 - 1 without an end counts as empty."""
    if span[1] == NONE and span[2] == MOST_NUMBER:
        return 1, 0
    return clipped(span, largest)


def clipped_spans(sheet, block):
    """The ranges of an entry, clipped."""
    largest = largest_value(field_named(sheet, name_of(block)).bits)
    return [clipped(span, largest) for span in spans_of(block)]


def last_range_only(sheet, listed, block):
    """Each range held against the one before it alone."""
    number = entry_refusal(sheet, listed, block)
    if number == 6:
        spans = clipped_spans(sheet, block)
        if not any(meet(*pair) for pair in zip(spans, spans[1:])):
            return 0
    return number


def first_range_only(sheet, listed, block):
    """Each range held against the first alone."""
    number = entry_refusal(sheet, listed, block)
    if number == 6:
        spans = clipped_spans(sheet, block)
        if not any(meet(spans[0], other) for other in spans[1:]):
            return 0
    return number


def empty_ranges_first(sheet, listed, block):
    """Cond 4 of any range before cond 6 of any."""
    number = entry_refusal(sheet, listed, block)
    if number == 6:
        spans = clipped_spans(sheet, block)
        return 4 if any(first > last for first, last in spans) else 6
    return number


def meeting_first(sheet, listed, block):
    """Cond 6 of any range before cond 4 of any."""
    number = entry_refusal(sheet, listed, block)
    if number == 4:
        spans = clipped_spans(sheet, block)
        spans = [span for span in spans if span[0] <= span[1]]
        pairs = [(i, j) for i in range(len(spans)) for j in range(i)]
        return 6 if any(meet(spans[i], spans[j]) for i, j in pairs) else 4
    return number


def listed_first(sheet, listed, block):
    """Cond 7 before cond 4 and 6."""
    number = entry_refusal(sheet, listed, block)
    return 7 if number in (4, 6) and name_of(block) in listed else number


def ranges_before_slices(sheet, listed, block):
    """Cond 2 only where there are ranges."""
    number = entry_refusal(sheet, listed, block)
    return 0 if number == 2 and block[66] == 0 else number


def ranges_needed(sheet, listed, block):
    """An entry without ranges refused."""
    return entry_refusal(sheet, listed, block) or (4 if block[66] == 0 else 0)


def eight_at_the_ninth(sheet):
    """Cond 8 at once at the ninth entry."""
    entries = blocks_of_kind(sheet, b"C")
    refusal = step_5(sheet)
    if len(entries) > 8 and refusal != ACCEPTED and refusal[2] >= entries[8][0]:
        return COND, 8, len(blocks_of(sheet))
    return refusal


def neighbours_only(sheet):
    """Cond 7 only for the entry just before."""
    refusal = step_5(sheet)
    if refusal[:2] == (COND, 7):
        blocks = blocks_of(sheet)
        if name_of(blocks[refusal[2] - 1]) != name_of(blocks[refusal[2]]):
            return ACCEPTED
    return refusal


# Names of rules/conds.py and what stands wrongly for them.
WRONG_CONDS = (
    ("MOST_ENTRIES", 7), ("MOST_ENTRIES", 9),
    ("clipped", excluded_at_255), ("clipped", not_clipped), ("clipped", clipped_start),
    ("clipped", always_included), ("clipped", from_1), ("clipped", no_end_at_the_top),
    ("meet", lambda one, other: one[0] < other[1] and other[0] < one[1]),
    ("meet", lambda one, other: one[0] <= other[1] + 1 and other[0] <= one[1] + 1),
    ("meet", lambda one, other: other[0] <= one[0] <= other[1]),
    ("meet", lambda one, other: other[0] <= one[1] <= other[1]),
    ("meet", lambda one, other: one == other),
    ("entry_refusal", last_range_only), ("entry_refusal", first_range_only),
    ("entry_refusal", empty_ranges_first), ("entry_refusal", meeting_first),
    ("entry_refusal", listed_first), ("entry_refusal", ranges_before_slices),
    ("entry_refusal", ranges_needed))

# What stands wrongly for the whole step.
WRONG_STEPS_5 = (eight_at_the_ninth, neighbours_only)
