"""Inputs by chance: what is no sheet, and sheets that come far enough to be told apart."""

import random

from shapes import MOST_BYTES_OF_SHEET, ROOM_OF_TEMPLATE
from sheet_blocks import BLOCK, NUMBER, SLICE, condition, field, length, sealed
from stored_sheets.cases.block_changes import patched
from stored_sheets.cases.chance import Chance
from stored_sheets.cases.changed_bytes import changed_byte
from stored_sheets.cases.mixed_headers import mixed_header_sheet
from stored_sheets.cases.mixed_lengths_and_conds import mixed_length_sheet
from stored_sheets.record_readers import read_sheets
from stored_sheets.rules.blocks import blocks_of
from stored_sheets.rules.groups import SHEET
from stored_sheets.rules.limits import MOST_NUMBER

STORED_SHEETS = "crates/test_stored/data/sheets"


def inputs(home, seed):
    """Inputs without end. They depend on the seed and on the stored sheets alone."""
    chance, stored = Chance(seed), Stored(home)
    while True:
        yield chance.one_of(WAYS)(chance, stored)


class Stored:
    """The stored sheets of the tests, and those of them that pass step 1."""

    def __init__(self, home):
        records = read_sheets((home / STORED_SHEETS).read_bytes())
        self.sheets = [record.sheet for record in records]
        self.passed = [record.sheet for record in records
                       if record.sheet and record.answer[0] != SHEET]


def some_bytes(chance, count):
    return random.Random(chance.below(2 ** 31)).randbytes(count)


def noise(chance, stored):
    """Any bytes, also whole blocks of them and more than a sheet may have."""
    size = chance.one_of((chance.below(64), chance.below(2 * BLOCK), BLOCK,
                          BLOCK * chance.below(6), BLOCK * chance.below(104),
                          MOST_BYTES_OF_SHEET + chance.below(3)))
    return some_bytes(chance, size)


def blocks_of_noise(chance, stored):
    """Blocks with a known kind and a check that holds, the rest a few bytes."""
    blocks = []
    for _ in range(1 + chance.below(4)):
        block = bytearray(BLOCK)
        block[0:3] = chance.one_of((b"F", b"L", b"C")) + b"\1n"
        for _ in range(chance.below(5)):
            block[chance.one_of((66 + chance.below(40), chance.below(BLOCK)))] = chance.one_of(
                (1, 1, 2, chance.below(8), chance.below(256)))
        blocks.append(sealed(block))
    return b"".join(blocks)


def as_stored(chance, stored):
    return chance.one_of(stored.sheets)


def cut_or_grown(chance, stored):
    """A stored sheet that ends early, within a block or with one, or goes on."""
    sheet = chance.one_of(stored.sheets)
    cut = chance.below(len(sheet) + 1)
    return chance.one_of((sheet[:cut], sheet[:cut // BLOCK * BLOCK],
                          sheet + some_bytes(chance, 1 + chance.below(2 * BLOCK)),
                          sheet + bytes(BLOCK), sheet * (1 + chance.below(4))))


def flipped(chance, stored):
    """A stored sheet with a few bits changed and no check made right."""
    sheet = bytearray(chance.one_of(stored.passed))
    for _ in range(1 + chance.below(3)):
        sheet[chance.below(len(sheet))] ^= 1 << chance.below(8)
    return bytes(sheet)


def changed(chance, stored):
    """A stored sheet that passes step 1, with a few bytes changed, sealed again."""
    blocks = blocks_of(chance.one_of(stored.passed))
    for _ in range(1 + chance.below(3)):
        place = chance.below(len(blocks))
        if blocks[place][0:1] in (b"F", b"L", b"C"):
            blocks[place] = patched(blocks[place], changed_byte(chance, blocks[place]))
    return b"".join(blocks)


def rearranged(chance, stored):
    """The blocks of two stored sheets, some left out, doubled or in another place."""
    blocks = blocks_of(chance.one_of(stored.passed))
    others = blocks_of(chance.one_of(stored.passed))
    for _ in range(1 + chance.below(3)):
        place = chance.below(len(blocks) + 1)
        way = chance.below(3)
        if way == 0 and blocks:
            del blocks[place % len(blocks)]
        elif way == 1 and blocks:
            blocks.insert(place, blocks.pop(chance.below(len(blocks))))
        else:
            blocks.insert(place, chance.one_of(others))
    if chance.below(2) == 0:
        blocks.sort(key=lambda block: b"FLC".find(block[0:1]))
    return b"".join(blocks)


def put_together(chance, stored):
    """A header, or lengths and conditions, as the stored sheets have some by chance."""
    return chance.one_of((mixed_header_sheet, mixed_length_sheet))(chance)


def large(chance, stored):
    """Long names, long numbers, many ranges, and a header about as long as the room.

    Up to 62 fields of 64 bits, one of 16 for the lengths, and the rest as bytes.
    """
    names = [bytes([33 + place]).ljust(64 - chance.below(2), b"n") for place in range(64)]
    count = chance.below(63)
    rest = ROOM_OF_TEMPLATE - 2 - 8 * count - chance.one_of((-1, 0, 0, 1, chance.below(4_000)))
    blocks = [field(name, 64) for name in names[:count]]
    blocks += [field(names[62], 16, gen=1, kind=NUMBER, number=ROOM_OF_TEMPLATE),
               field(names[63], 8 * rest, SLICE)]
    for slot in chance.one_of(((), (0,), (0, 1), (2, 0))):
        blocks.append(chance.one_of((length(names[62], slot), length(slot=slot, form=0))))
    for name in names[:chance.below(min(count, 9) + 1)]:
        blocks.append(condition(name, large_ranges(chance)))
    return b"".join(blocks)


def large_ranges(chance):
    """Up to 24 ranges of 20 digits each number, from the largest downwards."""
    ranges, at = [], MOST_NUMBER
    for _ in range(chance.one_of((0, 24, chance.below(25)))):
        start = at - chance.below(1_000)
        ranges.append((1, 1, start, at))
        at = start - 1 - chance.below(2)
    return ranges


# Each way as often as it stands here.
WAYS = (noise, as_stored, flipped, large, *[blocks_of_noise] * 2, *[cut_or_grown] * 2,
        *[changed] * 5, *[rearranged] * 3, *[put_together] * 4)
