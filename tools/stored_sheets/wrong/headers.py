"""Wrong rules of step 3, each of which the cases of that step have to notice."""

from sheet_blocks import SLICE
from stored_sheets.rules.blocks import fields_of
from stored_sheets.rules.headers import header_refusal, starts, template
from stored_sheets.rules.limits import MOST_BITS


def four_before_three(names, start, name, found):
    """Header 4 before header 3."""
    number = header_refusal(names, start, name, found)
    return 4 if number == 3 and found.repr == SLICE else number


def limit_in_bits(names, start, name, found):
    """The limit held against the bits, not against whole bytes."""
    number = header_refusal(names, start, name, found)
    return 5 if number == 0 and start + found.bits > MOST_BITS else number


def any_case(names, start, name, found):
    """Names that differ only in case taken as equal."""
    names = [name.lower() for name in names]
    return header_refusal(names, start, name.lower(), found)


def shared_bytes_cleared(sheet):
    """Each shared byte cleared when a later field in it is written."""
    out = bytearray(template(sheet))
    for start, block in zip(starts(sheet), fields_of(sheet)):
        if start % 8 != 0 and start // 8 < len(out):
            out[start // 8] &= 255 >> start % 8
    return bytes(out)


# Names of rules/headers.py and what stands wrongly for them.
WRONG_HEADERS = (
    ("touched_bytes", lambda start, bits: (bits + 7) // 8),
    ("touched_bytes", lambda start, bits: (start % 8 + bits) // 8 + 1),
    ("touched_bytes", lambda start, bits: 9 if start % 8 and bits > 56 else 8),
    ("name_of", lambda block: block[2:2 + min(block[1], 63)]),
    ("MOST_BYTES", 4_194_302),
    ("MOST_BYTES", 4_194_304),
    ("bit_mask", lambda bit: 1 << bit),
    ("header_refusal", four_before_three),
    ("header_refusal", limit_in_bits),
    ("header_refusal", any_case),
    ("template", shared_bytes_cleared),
)
