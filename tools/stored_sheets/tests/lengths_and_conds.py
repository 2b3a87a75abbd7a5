"""Steps 4 and 5, by hand and in another way."""

from sheet_blocks import field
from stored_sheets.cases.known_sheets import rfc_791_sheet
from stored_sheets.cases.sheet_texts import told
from stored_sheets.rules.answers import answer
from stored_sheets.rules.blocks import blocks_of, name_of
from stored_sheets.rules.conds import step_5
from stored_sheets.rules.groups import ACCEPTED, COND, LENGTH
from stored_sheets.rules.lengths import formula_of, forward, step_4
from stored_sheets.rules.limits import MOST_NUMBER
from stored_sheets.tests.lengths_and_conds_again import (
    cond_faults, expression_at, fields_by_name, held_by, length_faults, numbers_held, spans_in,
    worked_out)


def check_lengths_told(case, slots):
    """The three slots by the other way, and by all values of fields up to 8 bits."""
    wanted, named = [None, None, None], fields_by_name(case.sheet)
    for block in blocks_of(case.sheet):
        if block[0:1] == b"L":
            held, found = held_by(block), named.get(name_of(block))
            wanted[block[66]] = held and (
                *held, worked_out(held, 2 ** found.bits - 1)[-1],
                worked_out(held, found.number)[-1])
            if held and found.bits <= 8:
                check_all_values(case, block, found)
    assert slots == wanted, case.title


def check_all_values(case, block, found):
    """Every value of a small field has a length, and none is over the largest one's.

    This is why no sheet comes to length 13.
    """
    formula = formula_of(block)
    lengths = [forward(formula, x) for x in range(2 ** found.bits)]
    assert None not in lengths and max(lengths) == lengths[-1] <= 4_194_303, case.title
    assert lengths == sorted(lengths), case.title
    if block[67] == 6:
        whole = expression_at(block, block[84] - 1)
        assert lengths == [value_of(whole, x) for x in range(2 ** found.bits)], case.title


def value_of(expression, x):
    """The value of an expression of sums and products."""
    if expression == "x":
        return x
    if isinstance(expression, int):
        return expression
    left, sign, right = expression
    left, right = value_of(left, x), value_of(right, x)
    return left + right if sign == "+" else left * right


def check_ranges_told(case, entries):
    """The ranges by all numbers of fields up to 8 bits, and by their ends on wider ones."""
    blocks = [block for block in blocks_of(case.sheet) if block[0:1] == b"C"]
    named = fields_by_name(case.sheet)
    assert len(entries) == len(blocks), case.title
    for block, spans in zip(blocks, entries):
        bits = named[name_of(block)].bits
        assert len(spans) == len(spans_in(block)), case.title
        for span, (first, last) in zip(spans_in(block), spans):
            if bits <= 8:
                held = numbers_held(span, bits)
                assert held == set(range(first, last + 1)) and held, case.title
            near = {x for end in (first, last) for x in (end - 1, end, end + 1)
                    if 0 <= x < 2 ** bits}
            for x in near:
                assert (first <= x <= last) == lies_in(x, span), case.title


def lies_in(x, span):
    start_kind, end_kind, start, end = span
    below = (True, x <= end, x < end)[end_kind]
    return below and (start_kind == 0 or start <= x)


def check_lengths_and_conds(cases):
    """The fault of the least rank is the answer of step 4, and that of step 5."""
    for case in cases:
        if answer(case.sheet, 3) == ACCEPTED:
            wanted = least(LENGTH, length_faults(case.sheet))
            assert step_4(case.sheet) == wanted, case.title
        if answer(case.sheet, 4) == ACCEPTED:
            wanted = least(COND, cond_faults(case.sheet))
            assert step_5(case.sheet) == wanted == case.expected, case.title


def least(group, faults):
    if not faults:
        return ACCEPTED
    _, number, place = min(faults)
    return group, number, place


def check_forward():
    """Lengths worked by hand, and each step at 2^64 - 1."""
    for text, x, wanted in (
            ("x", 7, 7), ("x+3", 7, 10), ("x*3", 7, 21), ("(x+2)*4", 5, 28),
            ("x*4+2", 5, 22), (f"x+{MOST_NUMBER}", 0, MOST_NUMBER),
            (f"x+{MOST_NUMBER}", 1, None), (f"(x+{MOST_NUMBER})*0", 1, None),
            (f"(x+{MOST_NUMBER})*0", 0, 0), (f"x*{MOST_NUMBER}+0", 1, MOST_NUMBER),
            (f"x*{MOST_NUMBER}+1", 1, None), (f"x*{MOST_NUMBER}+0", 2, None)):
        assert forward(formula_of(told(f"L0={text}")), x) == wanted, text


def check_known_lengths():
    """Both sides of the lines that the rules name."""
    for text, wanted in (
            ("x:22 | L1=x", ACCEPTED), ("x:23 | L1=x", (LENGTH, 9, 2)),
            ("x:8 L1=x L2=x", (LENGTH, 1, 3)), ("x:8=1 L0=x L1=x", ACCEPTED),
            ("x:8 C:x=..<256", ACCEPTED), ("x:8 C:x=300..400", (COND, 4, 1)),
            ("x:8 C:x=0..<4,4..9", ACCEPTED), ("x:8 C:x=0..<5,4..9", (COND, 6, 1))):
        assert answer(told(text)) == wanted, text
    short = rfc_791_sheet()
    short[1] = field(b"ihl", 4, gen=1, kind=1, number=4)
    assert answer(b"".join(short)) == (LENGTH, 10, 12)


def check_places(cases):
    """Each number of steps 4 and 5 at several places and, of a slot, in its slots."""
    places, slots = {}, {}
    for case in cases:
        group, number, place = case.expected
        if group in (LENGTH, COND):
            places.setdefault((group, number), set()).add(place)
            if group == LENGTH and number != 1:
                block = blocks_of(case.sheet)[place]
                slots.setdefault(number, set()).add(block[66])
    assert all(len(found) >= 3 for found in places.values()), places
    for number, found in slots.items():
        wanted = {7: {1, 2}, 10: {0}}.get(number, {0, 1, 2})
        assert found == wanted, number
