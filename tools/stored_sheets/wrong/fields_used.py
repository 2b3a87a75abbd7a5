"""Wrong ways to the field of a length or a condition and to its largest value.

The cases of step 4 and those of step 5 have to notice each.
"""

from stored_sheets.rules.blocks import fields_of, name_of
from stored_sheets.rules.fields import resolved


def near_name(sheet, name):
    """A name found by its beginning."""
    for block in fields_of(sheet):
        if name_of(block).startswith(name):
            return resolved(block)
    return None


def any_case(sheet, name):
    """A name found in large or small letters."""
    for block in fields_of(sheet):
        if name_of(block).lower() == name.lower():
            return resolved(block)
    return None


# Names that both rules/lengths.py and rules/conds.py use, and what stands wrongly for them.
WRONG_FIELDS_USED = (
    ("largest_value", lambda bits: 2 ** bits),
    ("largest_value", lambda bits: 2 ** bits - 2),
    ("largest_value", lambda bits: 2 ** min(bits, 63) - 1),
    ("largest_value", lambda bits: 2 ** (8 * ((bits + 7) // 8)) - 1),
    ("field_named", near_name), ("field_named", any_case))
