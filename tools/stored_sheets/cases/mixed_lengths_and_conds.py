"""Lengths and conditions by chance. Their answers come from the rules alone."""

from sheet_blocks import CODE, NUMBER, SLICE, condition, field, length
from stored_sheets.cases.chance import Chance
from stored_sheets.cases.sheet_texts import planted
from stored_sheets.rules.limits import MOST_BYTES, MOST_NUMBER

# A width and whether a byte slice is stated.
WIDTHS = ((1, 0), (3, 0), (4, 0), (7, 0), (8, 0), (8, 0), (8, 0), (12, 0), (16, 0),
          (16, 0), (20, 0), (22, 0), (23, 0), (24, 0), (32, 0), (64, 0), (16, SLICE),
          (72, 0))

SHAPES = ("x", "x+{0}", "{0}+x", "x*{0}", "{0}*x", "(x+{0})*{1}", "{1}*({0}+x)",
          "(x*{0})+{1}", "{1}+({0}*x)", "x-{0}", "(x+{0})+{1}", "{0}")


def mixed_fields(chance):
    """One to three fields up to the end of a byte, and the name and width of each."""
    blocks, names, bits = [], [], 0
    for name in (b"a", b"b", b"c")[:1 + chance.below(3)]:
        width, stated = chance.one_of(WIDTHS)
        if stated and bits % 8 != 0 or width > 16 and bits % 8 != 0:
            width, stated = 8 - bits % 8, 0
        made = dict(gen=chance.one_of((*[1] * 18, 0, 2)), repr=stated)
        if chance.below(16) == 0:
            made.update(arg=CODE)
        if not stated and width <= 64 and chance.below(4) != 0:
            number = chance.one_of((2 ** width - 1, 1, chance.below(2 ** 31) % 2 ** width))
            made.update(kind=NUMBER, number=number, fixed=int(chance.below(8) == 0))
        blocks.append(field(name, width, **made))
        names.append((name, width))
        bits += width
    if bits % 8 != 0:
        blocks.append(field(b"d", 8 - bits % 8))
    return blocks, names


def mixed_name(chance, names):
    """Name and width of a field, or now and then a name that no field has."""
    return (b"e", 8) if chance.below(24) == 0 else chance.one_of(names)


def mixed_length(chance, slot, names):
    """An L block of any form, its numbers small or near one of the limits."""
    name, width = mixed_name(chance, names)
    factor = chance.one_of((0, 1, 1, 2, 3, 4, 8))
    largest = 2 ** width - 1
    term = chance.one_of((0, 1, 4, 9, 20, 20, 100, max(MOST_BYTES - largest * factor, 0),
                          max(MOST_BYTES - largest * factor + 1, 0),
                          min(max(MOST_NUMBER - largest * factor + 1, 0), MOST_NUMBER)))
    form = chance.below(6)
    if form == 0:
        return length(slot=slot, form=0)
    if chance.below(12) == 0:
        text = chance.one_of(SHAPES).format(factor, term)
        return planted(text.replace("x", name.decode()), slot=slot)
    numbers = {1: (0, 0), 2: (term, 0), 3: (factor, 0), 4: (term, factor),
               5: (factor, term)}[form]
    return length(name, slot, form, *numbers)


def mixed_ranges(chance, width):
    """Up to three ranges that rise, now and then one that falls or meets the last."""
    spans, at, largest = [], 0, 2 ** min(width, 64) - 1
    for _ in range(chance.below(4)):
        start = at + chance.below(3) if chance.below(12) else max(at - 1, 0)
        end = start + chance.one_of((0, 1, 2, 2, 5, 9))
        kinds = chance.below(12)
        if kinds < 5:
            span = (1, 1, start, end)
        elif kinds < 9:
            span = (1, 2, start, end + int(chance.below(6) != 0))
        elif kinds == 9:
            span = (1, 0, start, 0)
        elif kinds == 10:
            span = (0, 1, 0, end)
        else:
            end = chance.one_of((largest, min(largest + 1, MOST_NUMBER), MOST_NUMBER))
            span = (1, 1 + chance.below(2), start, end)
        if min(start, end) > MOST_NUMBER:
            break
        spans.append(span)
        at = end + 1
        if at > MOST_NUMBER:
            break
    return spans


def mixed_length_sheet(chance):
    """Fields, then lengths in any order of slots, then conditions."""
    blocks, names = mixed_fields(chance)
    slots = chance.one_of(((), (0,), (1,), (2,), (0, 1), (1, 0), (0, 2), (2, 0), (1,), (2,),
                           (1, 2), (2, 0, 1)) if chance.below(3) == 0 else
                          ((), (), (0,), (1,), (2,), (1, 0), (0, 2)))
    blocks += [mixed_length(chance, slot, names) for slot in slots]
    left = list(names)
    while left and chance.below(3) != 0:
        name, width = mixed_name(chance, left)
        if (name, width) in left and chance.below(10) != 0:
            left.remove((name, width))
        blocks.append(condition(name, mixed_ranges(chance, width)))
    return b"".join(blocks)


def mixed_lengths_and_conds(cases):
    """130 small sheets with lengths and conditions."""
    chance = Chance(4_194_303)
    for count in range(130):
        cases.computed(f"mixed lengths {count}", mixed_length_sheet(chance))


SECTIONS = (mixed_lengths_and_conds,)
