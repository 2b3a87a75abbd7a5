"""All cases in their order. Each module of cases lists its sections, which add the cases."""

from stored_sheets.cases import (
    changed_bytes, cond_precedence, conds, fields, header_bytes, header_names,
    header_positions, header_precedence, header_sums, layouts, length_limits,
    length_precedence, length_slots, lengths, mixed_headers, mixed_lengths_and_conds,
    range_layouts, sheet_and_field_precedence, sheets, step_precedence, templates,
    tree_forms, tree_layouts)
from stored_sheets.cases.case_list import Cases


def sections_of(*modules):
    return [section for module in modules for section in module.SECTIONS]


# Sections whose cases state the answer of steps 1 and 2.
SHEETS_AND_FIELDS = sections_of(
    sheets, layouts, tree_layouts, range_layouts, sheet_and_field_precedence, fields,
    changed_bytes)

# Sections whose cases state the answer of steps 1 to 3.
HEADERS = sections_of(
    header_names, header_bytes, header_sums, header_precedence, templates,
    header_positions, mixed_headers)

# Sections whose cases state the answer of steps 1 to 5: of lengths, of
# conditions, and of both.
LENGTHS = sections_of(lengths, length_limits, length_slots, tree_forms, length_precedence)
CONDS = sections_of(conds, cond_precedence)
LENGTHS_AND_CONDS = sections_of(step_precedence, mixed_lengths_and_conds)


def all_cases():
    cases = Cases()
    for steps, sections in ((2, SHEETS_AND_FIELDS), (3, HEADERS),
                            (5, LENGTHS + CONDS + LENGTHS_AND_CONDS)):
        cases.steps = steps
        for section in sections:
            section(cases)
    return cases
