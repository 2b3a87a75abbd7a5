"""Cases with one byte changed. Their answers come from the rules alone."""

from sheet_blocks import (
    BOOL, BYTES, CODE, NUMBER, SLICE, U8, U64, condition, field, length, tree)
from stored_sheets.cases.block_changes import patched
from stored_sheets.cases.chance import Chance
from stored_sheets.cases.known_sheets import lister_sheet, rfc_791_sheet
from stored_sheets.cases.samples import LEAF, X, ranges_of, tree_of_32
from stored_sheets.rules.limits import MOST_BITS, MOST_NUMBER


def seeds_of_changes():
    """Sheets that pass steps 1 and 2, whose bytes are then changed."""
    return [
        lister_sheet(),
        rfc_791_sheet(),
        [field(b"bytes", 72, SLICE, CODE, 2, BYTES, data=b"123456789"),
         field(b"one", 1, U8, BOOL, 1, NUMBER, 1, 1)],
        [field(b"wide", 64, U64, U64, 0, NUMBER, 1, MOST_NUMBER),
         field(b"all", MOST_BITS)],
        [field(b"a", 24, SLICE, SLICE, kind=BYTES, data=b"abc"),
         length(b"a", 0, 4, 3, 5), length(form=0, slot=1),
         condition(b"a", ranges_of(3))],
        [tree(X, LEAF, (2, 0, 1, 0), (4, 2, 1, 0), slot=1),
         length(b"y", 2, 5, 7, 9), condition(b"z", ranges_of(6))],
        [tree(*tree_of_32())],
        [condition(b"c", ranges_of(24))],
    ]


# The bytes of codes, counts and numbers that are changed most often.
LIVE = {b"F": (*range(66, 75), *range(66, 75), 82, 83, 84, 85, 86),
        b"L": (66, 67, 75, 83, 84, *range(88, 136)),
        b"C": (66, *range(68, 104))}


def changed_byte(chance, block):
    """Offset and new value of one byte below 510."""
    way = chance.below(4)
    if way == 0:
        offset = chance.below(510)
    elif way == 1:
        offset = chance.one_of([i for i in range(510) if block[i] != 0])
    else:
        offset = chance.one_of(LIVE[block[0:1]])
    old = value = block[offset]
    while value == old:
        value = chance.one_of((0, 1, 2, 3, 4, 5, 6, 7, 8, 16, 32, 64, 72, 255, old ^ 1,
                               old ^ 2, old ^ 128, chance.below(256)))
    return offset, value


def changed_bytes(cases):
    """400 sheets that passed steps 1 and 2, with one byte changed, sealed again."""
    chance = Chance(791)
    seeds = seeds_of_changes()
    for count in range(400):
        which = chance.below(len(seeds))
        blocks = list(seeds[which])
        place = chance.below(len(blocks))
        old = blocks[place]
        offset, value = changed_byte(chance, old)
        blocks[place] = patched(old, (offset, value))
        cases.computed(f"change {count}: sheet {which}, block {place}, byte {offset} "
                       f"from {old[offset]} to {value}", b"".join(blocks))


SECTIONS = (changed_bytes,)
