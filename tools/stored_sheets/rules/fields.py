"""Step 2: the items of each field; and the field that they make, nothing of it absent."""

from collections import namedtuple

from sheet_blocks import ABSENT, BOOL, BYTES, CODE, NUMBER, SLICE, U8, U16, U32, U64
from stored_sheets.rules.blocks import blocks_of, fields_of, name_of, number_at
from stored_sheets.rules.groups import ACCEPTED, FIELD
from stored_sheets.rules.limits import MOST_BITS


def step_2(sheet):
    """Field 1 to 7 for each F block in turn."""
    for place, block in enumerate(blocks_of(sheet)):
        if block[0:1] == b"F":
            number = field_refusal(block)
            if number != 0:
                return FIELD, number, place
    return ACCEPTED


def field_refusal(block):
    """The number of the first field refusal of one F block, or 0."""
    bits = number_at(block, 66, 70)
    if bits == 0 or (bits > 64 and bits % 8 != 0) or bits > MOST_BITS:
        return 1
    rep, arg = block[70], block[71]
    if rep == ABSENT:
        rep = inferred_repr(bits)
    elif rep != inferred_repr(bits):
        if not (rep == SLICE and bits > 8 and bits % 8 == 0):
            return 2
    if arg == ABSENT:
        arg = rep
    elif arg != rep and not (arg == BOOL and bits == 1) and arg != CODE:
        return 3
    return default_refusal(block, bits, rep, arg)


def inferred_repr(bits):
    if bits <= 8:
        return U8
    if bits <= 16:
        return U16
    if bits <= 32:
        return U32
    if bits <= 64:
        return U64
    return SLICE


def default_refusal(block, bits, rep, arg):
    """Field 4 to 7, with repr and arg resolved. An absent default passes."""
    kind, fixed = block[73], block[74]
    number, count = number_at(block, 76, 84), number_at(block, 84, 86)
    if kind == ABSENT:
        return 0
    if arg == BOOL:
        if kind != NUMBER or number > 1:
            return 4
    elif rep == SLICE:
        if kind != BYTES or count != bits // 8:
            return 5
    elif kind != NUMBER or number >= 2 ** bits:
        return 6
    if kind == BYTES and fixed == 1:
        return 7
    return 0


Resolved = namedtuple(
    "Resolved", "bits repr arg gen fixed guard kind number data")

BYTE_SIZE = {U8: 1, U16: 2, U32: 4, U64: 8}


def resolved(block):
    """The field of an F block that passes steps 1 and 2, nothing absent."""
    bits = number_at(block, 66, 70)
    rep = block[70] if block[70] != ABSENT else inferred_repr(bits)
    arg = block[71] if block[71] != ABSENT else rep
    gen = 0 if block[72] == 1 else 1
    fixed = block[74]
    size = bits // 8 if rep == SLICE else BYTE_SIZE[rep]
    guard = int(fixed == 1 or bits % 8 != 0 or bits // 8 != size)
    kind = BYTES if rep == SLICE else NUMBER
    count = number_at(block, 84, 86)
    return Resolved(bits, rep, arg, gen, fixed, guard, kind,
                    number_at(block, 76, 84), block[86:86 + count])


def field_named(sheet, name):
    """The field of that name, resolved, or None."""
    for block in fields_of(sheet):
        if name_of(block) == name:
            return resolved(block)
    return None


def largest_value(bits):
    return 2 ** bits - 1
