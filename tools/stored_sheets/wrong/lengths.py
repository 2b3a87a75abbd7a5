"""Wrong rules of step 4, each of which the cases of that step have to notice."""

from sheet_blocks import (
    ADD, DIVIDE, MULTIPLY, PLAIN, PRODUCT, PRODUCT_PLUS, SLICE, SUBTRACT, SUM, SUM_TIMES,
    THE_FIELD, TREE, UNDEFINED, VALUE)
from stored_sheets.rules.blocks import blocks_of, blocks_of_kind, name_of
from stored_sheets.rules.fields import field_named, largest_value
from stored_sheets.rules.groups import ACCEPTED, LENGTH
from stored_sheets.rules.headers import header_length
from stored_sheets.rules.lengths import (
    Formula, formula_of, forward, simple_formula, slot_refusal, step_4, tree_formula)
from stored_sheets.rules.limits import MOST_BYTES, MOST_NUMBER


def without_limit(formula, x):
    """The length of x, whatever its steps pass."""
    form, first, second = formula
    return {PLAIN: x, SUM: x + first, PRODUCT: x * first,
            SUM_TIMES: (x + first) * second, PRODUCT_PLUS: x * first + second}[form]


def last_step_only(formula, x):
    """Only the length itself held against 2^64 - 1."""
    length = without_limit(formula, x)
    return length if length <= MOST_NUMBER else None


def first_step_only(formula, x):
    """Only the first step held against 2^64 - 1."""
    if formula.form in (SUM_TIMES, PRODUCT_PLUS):
        form = SUM if formula.form == SUM_TIMES else PRODUCT
        x = forward(Formula(form, formula.first, 0), x)
        if x is None:
            return None
        second = formula.second
        return x * second if form == SUM else x + second
    return forward(formula, x)


def wrapping(formula, x):
    """Steps that pass 2^64 - 1 begin again at 0."""
    return without_limit(formula, x) % 2 ** 64


def swapped_numbers(form):
    """The two numbers of a form the other way round."""
    def wrong(formula, x):
        if formula.form == form:
            formula = Formula(form, formula.second, formula.first)
        return forward(formula, x)
    return wrong


def swapped_forms(formula, x):
    """(x+a)*m taken as x*m+a and the reverse."""
    form = {SUM_TIMES: PRODUCT_PLUS, PRODUCT_PLUS: SUM_TIMES}.get(formula.form)
    if form:
        formula = Formula(form, formula.second, formula.first)
    return forward(formula, x)


def without(missing):
    """One number of a slot that is never given."""
    def wrong(sheet, slot, block):
        number = slot_refusal(sheet, slot, block)
        return 0 if number == missing else number
    return wrong


def earlier(before, after):
    """One number of a slot asked for before another that should come first."""
    def wrong(sheet, slot, block):
        number = slot_refusal(sheet, slot, block)
        if number == after and has_fault(sheet, slot, block, before):
            return before
        return number
    return wrong


def has_fault(sheet, slot, block, number):
    """Whether a slot has that fault, whatever others it has."""
    found, formula = field_named(sheet, name_of(block)), formula_of(block)
    if number == 5:
        return found.gen == 1
    if number == 6:
        return found.arg != found.repr or found.repr == SLICE
    if number == 7:
        return found.fixed == 1 and slot != 0
    longest = forward(formula, largest_value(found.bits))
    if number == 8:
        return longest is None
    if number == 9:
        return longest is not None and longest > MOST_BYTES
    usual = forward(formula, found.number)
    return slot == 0 and usual is not None and usual < header_length(sheet)


def ten_in_all_slots(sheet, slot, block):
    number = slot_refusal(sheet, slot, block)
    return number or slot_refusal(sheet, 0, block)


def seven_in_all_slots(sheet, slot, block):
    number = slot_refusal(sheet, slot, block)
    return slot_refusal(sheet, slot or 1, block) if number in (0, 10) else number


def ten_where_equal(sheet, slot, block):
    number, formula = slot_refusal(sheet, slot, block), formula_of(block)
    if number == 0 and slot == 0 and formula is not None:
        usual = forward(formula, field_named(sheet, name_of(block)).number)
        return 10 if usual <= header_length(sheet) else 0
    return number


def ten_by_the_largest(sheet, slot, block):
    """The largest length held against the header, not the default's."""
    number, formula = slot_refusal(sheet, slot, block), formula_of(block)
    if number == 10:
        found = field_named(sheet, name_of(block))
        longest = forward(formula, largest_value(found.bits))
        return 10 if longest < header_length(sheet) else 0
    return number


def one_after_the_slots(sheet):
    """Length 1 after the faults of the slots."""
    refusal = step_4(sheet)
    if refusal[:2] == (LENGTH, 1):
        for place, block in blocks_of_kind(sheet, b"L"):
            number = slot_refusal(sheet, block[66], block)
            if number:
                return LENGTH, number, place
    return refusal


def one_before_twelve(sheet):
    slots = {block[66] for _, block in blocks_of_kind(sheet, b"L")}
    if slots >= {1, 2}:
        return LENGTH, 1, len(blocks_of(sheet))
    return step_4(sheet)


def one_but_for_undefined(sheet):
    """Length 1 only where payload and packet both hold an expression."""
    refusal = step_4(sheet)
    forms = [block[67] for _, block in blocks_of_kind(sheet, b"L") if block[66]]
    return ACCEPTED if refusal[:2] == (LENGTH, 1) and UNDEFINED in forms else refusal


def slots_by_block(sheet):
    """The slots checked in the order of their blocks."""
    refusal = step_4(sheet)
    if refusal[1] in range(3, 11):
        for place, block in blocks_of_kind(sheet, b"L"):
            number = slot_refusal(sheet, block[66], block)
            if number:
                return LENGTH, number, place
    return refusal


def twelve_by_slot(sheet):
    """Length 12 in the turn of its slot."""
    blocks = sorted(blocks_of_kind(sheet, b"L"), key=lambda pair: pair[1][66])
    for place, block in blocks:
        if block[67] == TREE and formula_of(block) is None:
            return LENGTH, 12, place
        number = slot_refusal(sheet, block[66], block)
        if number:
            break
    return step_4(sheet)


def undefined_ends_step_4(sheet):
    """An undefined slot 0 ends the whole step."""
    blocks = blocks_of_kind(sheet, b"L")
    refusal = step_4(sheet)
    if any(block[66:68] == b"\0\0" for _, block in blocks) and refusal[1] in range(3, 11):
        return ACCEPTED
    return refusal


def one_order(kind):
    """A tree's number must stand to the right of this operator."""
    def wrong(nodes):
        root = nodes[-1]
        if root[0] == kind and nodes[root[1]][0] == VALUE:
            return None
        return tree_formula(nodes)
    return wrong


def inner_order(nodes, index):
    """The number must stand to the right of the inner operator."""
    kind, left, right, _ = nodes[index]
    if kind in (ADD, MULTIPLY) and nodes[left][0] == VALUE:
        return None
    return simple_formula(nodes, index)


def also(kind, form):
    """Another operator taken for + or *."""
    def wrong(nodes, index):
        root, left, right, _ = nodes[index]
        if root == kind and nodes[left][0] == THE_FIELD and nodes[right][0] == VALUE:
            return Formula(form, nodes[right][3], 0)
        return simple_formula(nodes, index)
    return wrong


def folded_sums(nodes):
    """(x+a)+b taken for x+(a+b)."""
    kind, left, other, _ = nodes[-1]
    if kind == ADD and nodes[other][0] == VALUE:
        inner = simple_formula(nodes, left)
        if inner and inner.form == SUM:
            return Formula(SUM, inner.first + nodes[other][3], 0)
    return tree_formula(nodes)


def any_x(nodes):
    """x+x and x*x taken for a form."""
    kind, left, other, _ = nodes[-1]
    if kind in (ADD, MULTIPLY) and nodes[left][0] == nodes[other][0] == THE_FIELD:
        return Formula(PRODUCT, 2, 0)
    return tree_formula(nodes)


def first_node_is_root(nodes):
    return tree_formula(nodes[:1])


def loose_nodes_count(nodes):
    """A node that the root does not reach makes length 12 too."""
    if any(kind in (SUBTRACT, DIVIDE) for kind, *_ in nodes):
        return None
    return tree_formula(nodes)


def swapped_tree_numbers(nodes):
    formula = tree_formula(nodes)
    if formula and formula.form in (SUM_TIMES, PRODUCT_PLUS):
        return Formula(formula.form, formula.second, formula.first)
    return formula


# Names of rules/lengths.py and what stands wrongly for them.
WRONG_LENGTHS = (
    ("MOST_BYTES", 4_194_302), ("MOST_BYTES", 4_194_304),
    ("MOST_NUMBER", 2 ** 64 - 2), ("MOST_NUMBER", 2 ** 64), ("MOST_NUMBER", 2 ** 63 - 1),
    ("header_length", lambda sheet: 0),
    ("header_length", lambda sheet: 8 * header_length(sheet)),
    ("forward", last_step_only), ("forward", first_step_only), ("forward", wrapping),
    ("forward", swapped_numbers(SUM_TIMES)), ("forward", swapped_numbers(PRODUCT_PLUS)),
    ("forward", swapped_forms),
    *[("slot_refusal", without(number)) for number in (3, 4, 5, 6, 7, 8, 9, 10)],
    *[("slot_refusal", earlier(before, after)) for before, after in (
        (5, 4), (6, 4), (6, 5), (7, 5), (8, 5), (9, 5), (10, 5), (7, 6), (8, 6), (9, 6),
        (10, 6), (8, 7), (9, 7), (10, 8), (10, 9))],
    ("slot_refusal", ten_in_all_slots), ("slot_refusal", seven_in_all_slots),
    ("slot_refusal", ten_where_equal), ("slot_refusal", ten_by_the_largest),
    ("tree_formula", one_order(ADD)), ("tree_formula", one_order(MULTIPLY)),
    ("simple_formula", inner_order), ("simple_formula", also(SUBTRACT, SUM)),
    ("simple_formula", also(DIVIDE, PRODUCT)), ("tree_formula", folded_sums),
    ("tree_formula", any_x), ("tree_formula", first_node_is_root),
    ("tree_formula", loose_nodes_count), ("tree_formula", swapped_tree_numbers))

# What stands wrongly for the whole step.
WRONG_STEPS_4 = (
    one_after_the_slots, one_before_twelve, one_but_for_undefined, slots_by_block,
    twelve_by_slot, undefined_ends_step_4)
