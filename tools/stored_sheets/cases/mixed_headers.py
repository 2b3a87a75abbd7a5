"""Headers put together by chance. Their answers come from the rules alone."""

from sheet_blocks import BOOL, BYTES, CODE, NUMBER, SLICE, condition, field, length
from stored_sheets.cases.chance import Chance
from stored_sheets.cases.sheet_texts import place_name
from stored_sheets.rules.limits import MOST_BITS

# Names that are prefixes of one another or differ in one letter.
NEAR_NAMES = (b"type", b"types", b"typ", b"Type", b"n", b"n" * 8, b"n" * 63, b"n" * 64)


def mixed_width(chance, bits):
    """A width for a field that begins at this bit, and whether to state a byte slice."""
    way, left = chance.below(20), -bits % 8
    if left != 0 and way < 7:
        return left, False
    if way < 12:
        return 1 + chance.below(16), False
    if way < 15:
        return 1 + chance.below(64), False
    if left != 0 and chance.below(8) != 0:
        return left + 8 * chance.below(7), False
    if way < 17:
        return 16 + 8 * chance.below(7), True
    if way < 19:
        return 72 + 8 * chance.below(20), False
    rest = max(MOST_BITS - bits, 80) // 8 * 8
    return chance.one_of((65_536, 524_288, 2 ** 24, MOST_BITS, rest - 8, rest)), False


def mixed_name(chance, place):
    way = chance.below(120)
    if way < 2 and place > 0:
        return place_name(chance.below(place))
    if way < 6:
        return chance.one_of(NEAR_NAMES)
    return place_name(place)


def mixed_field(chance, name, bits, stated):
    """A field that step 2 accepts, with or without a default."""
    made = dict(bits=bits, repr=SLICE if stated else 0, gen=chance.below(3))
    if chance.below(6) == 0:
        made.update(arg=CODE)
    if stated or bits > 64:
        if bits <= 96 and chance.below(3) != 0:
            made.update(kind=BYTES,
                        data=bytes(chance.below(256) for _ in range(bits // 8)))
    elif chance.below(4) != 0:
        number = chance.one_of((2 ** bits - 1, 2 ** (bits - 1), 1, *[
            chance.below(2 ** 31) << 62 | chance.below(2 ** 31) << 31
            | chance.below(2 ** 31)] * 5)) % 2 ** bits
        made.update(kind=NUMBER, number=number, fixed=chance.below(2))
        if bits == 1 and chance.below(2) == 0:
            made.update(arg=BOOL)
    return field(name, **made)


def mixed_header_sheet(chance):
    """Fields, in most sheets up to the end of a byte, then some L and C blocks."""
    blocks, names, bits = [], [], 0
    count = 1 + chance.below(5) + (12 if chance.below(20) == 0 else 0)
    while len(blocks) < count:
        width, stated = mixed_width(chance, bits)
        names.append(mixed_name(chance, len(blocks)))
        blocks.append(mixed_field(chance, names[-1], width, stated))
        bits += width
    if bits % 8 != 0 and chance.below(4) != 0:
        names.append(mixed_name(chance, len(blocks)))
        blocks.append(mixed_field(chance, names[-1], 8 - bits % 8, False))
    names += [b"z", b"typ"]
    for slot in range(3):
        if chance.below(8) == 0:
            blocks.append(length(chance.one_of(names), slot))
    while chance.below(4) == 0:
        blocks.append(condition(chance.one_of(names)))
    return b"".join(blocks)


def mixed_headers(cases):
    """400 headers of small and large fields."""
    chance = Chance(768)
    for count in range(400):
        cases.computed(f"mixed header {count}", mixed_header_sheet(chance))


SECTIONS = (mixed_headers,)
