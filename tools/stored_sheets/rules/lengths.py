"""Step 4: the length slots; and what each holds, with the lengths that come of it."""

from collections import namedtuple

from sheet_blocks import (
    ADD, MULTIPLY, PLAIN, PRODUCT, PRODUCT_PLUS, SLICE, SUM, SUM_TIMES, THE_FIELD, TREE,
    UNDEFINED, VALUE)
from stored_sheets.rules.blocks import blocks_of, blocks_of_kind, name_of, number_at
from stored_sheets.rules.fields import field_named, largest_value
from stored_sheets.rules.groups import ACCEPTED, LENGTH
from stored_sheets.rules.headers import header_length
from stored_sheets.rules.limits import MOST_BYTES, MOST_NUMBER

Formula = namedtuple("Formula", "form first second")


def step_4(sheet):
    """Length 12 by L block, then length 1, then for each slot in turn length 3 to 10."""
    given = {}
    for place, block in blocks_of_kind(sheet, b"L"):
        if block[67] == TREE and tree_formula(nodes_of(block)) is None:
            return LENGTH, 12, place
        given[block[66]] = place, block
    if 1 in given and 2 in given:
        return LENGTH, 1, len(blocks_of(sheet))
    for slot in sorted(given):
        place, block = given[slot]
        number = slot_refusal(sheet, slot, block)
        if number != 0:
            return LENGTH, number, place
    return ACCEPTED


def slot_refusal(sheet, slot, block):
    """The number of the first length refusal of one slot, 1 and 12 apart, or 0.

    No sheet comes to 13. The default is at most the largest value, and more x
    never makes a form's steps smaller. So where no step of the largest value
    passes 2^64 - 1, none of the default does.
    """
    formula = formula_of(block)
    if formula is None:
        return 0
    found = field_named(sheet, name_of(block))
    if found is None:
        return 3
    if found.bits > 64:
        return 4
    if found.gen == 1:
        return 5
    if found.arg != found.repr or found.repr == SLICE:
        return 6
    if found.fixed == 1 and slot != 0:
        return 7
    longest = forward(formula, largest_value(found.bits))
    if longest is None:
        return 8
    if longest > MOST_BYTES:
        return 9
    if slot == 0:
        usual = forward(formula, found.number)
        if usual is None:
            return 13
        if usual < header_length(sheet):
            return 10
    return 0


def formula_of(block):
    """The form of an L block and its two numbers, None where it is undefined."""
    form = block[67]
    if form == UNDEFINED:
        return None
    if form == TREE:
        return tree_formula(nodes_of(block))
    return Formula(form, number_at(block, 68, 76), number_at(block, 76, 84))


def forward(formula, x):
    """The length of x, None where a step passes 2^64 - 1."""
    form, first, second = formula
    steps = {PLAIN: (),
             SUM: ((ADD, first),),
             PRODUCT: ((MULTIPLY, first),),
             SUM_TIMES: ((ADD, first), (MULTIPLY, second)),
             PRODUCT_PLUS: ((MULTIPLY, first), (ADD, second))}
    for operator, number in steps[form]:
        x = x + number if operator == ADD else x * number
        if x > MOST_NUMBER:
            return None
    return x


def nodes_of(block):
    """The nodes of a tree, each as kind, left, right and number."""
    nodes = []
    for start in range(88, 88 + 12 * block[84], 12):
        nodes.append((*block[start:start + 3], number_at(block, start + 4, start + 12)))
    return nodes


def tree_formula(nodes):
    """The form that a tree is, None where it is none. The root is the last node."""
    kind, left, right, _ = nodes[-1]
    for part, other in ((left, right), (right, left)):
        if kind in (ADD, MULTIPLY) and nodes[other][0] == VALUE:
            inner, number = simple_formula(nodes, part), nodes[other][3]
            if inner and kind == ADD and inner.form == PRODUCT:
                return Formula(PRODUCT_PLUS, inner.first, number)
            if inner and kind == MULTIPLY and inner.form == SUM:
                return Formula(SUM_TIMES, inner.first, number)
    return simple_formula(nodes, len(nodes) - 1)


def simple_formula(nodes, index):
    """x, or a number and x added or multiplied. None where the node is neither."""
    kind, left, right, _ = nodes[index]
    if kind == THE_FIELD:
        return Formula(PLAIN, 0, 0)
    if kind in (ADD, MULTIPLY):
        for part, other in ((left, right), (right, left)):
            if nodes[part][0] == THE_FIELD and nodes[other][0] == VALUE:
                return Formula(SUM if kind == ADD else PRODUCT, nodes[other][3], 0)
    return None


def lengths(sheet):
    """For each slot of a sheet that passes step 4 what it holds.

    None where it is absent, () where it is undefined; else the form, its two
    numbers, the largest length and the default's length.
    """
    out = [None, None, None]
    for _, block in blocks_of_kind(sheet, b"L"):
        formula = formula_of(block)
        out[block[66]] = ()
        if formula is not None:
            found = field_named(sheet, name_of(block))
            out[block[66]] = (*formula, forward(formula, largest_value(found.bits)),
                              forward(formula, found.number))
    return out
