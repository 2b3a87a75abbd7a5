"""Step 1: the length of a sheet, and of each block its check, its kind and its layout."""

from sheet_blocks import ABSENT, BLOCK, BYTES, TRUTH, ones_complement_sum
from stored_sheets.rules.blocks import blocks_of, number_at, zeros
from stored_sheets.rules.groups import ACCEPTED, SHEET
from stored_sheets.rules.limits import MOST_BLOCKS


def step_1(sheet):
    """Sheet 1, then for each block in turn sheet 2 to 6."""
    if len(sheet) % BLOCK != 0 or len(sheet) > MOST_BLOCKS * BLOCK:
        return SHEET, 1, 0
    kinds = b""
    slots = []
    for place, block in enumerate(blocks_of(sheet)):
        kind = block[0:1]
        if ones_complement_sum(block) != 65_535:
            return SHEET, 2, place
        if kind not in (b"F", b"L", b"C") or out_of_order(kinds, kind):
            return SHEET, 3, place
        kinds += kind
        if kinds.count(b"F") > 64 or kinds.count(b"C") > 32:
            return SHEET, 4, place
        if not in_layout(block):
            return SHEET, 5, place
        if kind == b"L":
            if block[66] in slots:
                return SHEET, 6, place
            slots.append(block[66])
    return ACCEPTED


def out_of_order(kinds, kind):
    """F stands before L, and L before C."""
    if kind == b"F":
        return b"L" in kinds or b"C" in kinds
    if kind == b"L":
        return b"C" in kinds
    return False


def in_layout(block):
    """Whether every byte is inside the layout of the block's kind."""
    rule = {b"F": f_in_layout, b"L": l_in_layout, b"C": c_in_layout}
    return name_in_layout(block) and rule[block[0:1]](block)


def name_in_layout(block):
    """Byte 1 is the name length, 2..66 the name, then zeros."""
    length = block[1]
    if block[0:1] == b"L" and block[67] == 0:
        if length != 0:
            return False
    elif not 1 <= length <= 64:
        return False
    letters = block[2:2 + length]
    return (all(33 <= letter <= 126 for letter in letters)
            and zeros(block, 2 + length, 66))


def f_in_layout(block):
    """Bytes 66..510 of an F block. Bits, 66..70, may be any number."""
    kind, fixed = block[73], block[74]
    number, count = number_at(block, 76, 84), number_at(block, 84, 86)
    if block[70] > 6 or block[71] > 7 or block[72] > 2 or kind > 3:
        return False
    if fixed > 1 or (kind == ABSENT and fixed != 0):
        return False
    if block[75] != 0:
        return False
    if kind in (ABSENT, BYTES) and number != 0:
        return False
    if kind == TRUTH and number > 1:
        return False
    if count > 424 or (kind != BYTES and count != 0):
        return False
    return zeros(block, 86 + count, 510)


# How many of the two numbers each form of an L block uses.
NUMBERS_USED = {0: 0, 1: 0, 2: 1, 3: 1, 4: 2, 5: 2, 6: 0}


def l_in_layout(block):
    """Bytes 66..510 of an L block."""
    slot, form, count = block[66], block[67], block[84]
    if slot > 2 or form > 6:
        return False
    if not zeros(block, 68 + 8 * NUMBERS_USED[form], 84):
        return False
    if form != 6:
        return zeros(block, 84, 510)
    if not 1 <= count <= 32 or not zeros(block, 85, 88):
        return False
    for index in range(count):
        start = 88 + 12 * index
        if not node_in_layout(index, block[start:start + 12]):
            return False
    return zeros(block, 88 + 12 * count, 510)


def node_in_layout(index, node):
    """One node: kind, left, right, zero, number."""
    kind, left, right, number = node[0], node[1], node[2], number_at(node, 4, 12)
    if kind > 5 or node[3] != 0:
        return False
    if kind == 0:
        return left == 0 and right == 0
    if kind == 1:
        return left == 0 and right == 0 and number == 0
    return left < index and right < index and number == 0


def c_in_layout(block):
    """Bytes 66..510 of a C block."""
    count = block[66]
    if count > 24 or block[67] != 0:
        return False
    for index in range(count):
        start = 68 + 18 * index
        if not range_in_layout(block[start:start + 18]):
            return False
    return zeros(block, 68 + 18 * count, 510)


def range_in_layout(span):
    """One range: start kind, end kind, start, end."""
    if span[0] > 1 or span[1] > 2:
        return False
    if span[0] == 0 and not zeros(span, 2, 10):
        return False
    return span[1] != 0 or zeros(span, 10, 18)
