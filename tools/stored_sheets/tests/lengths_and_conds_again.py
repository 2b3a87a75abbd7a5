"""Steps 4 and 5 in another way: by cases on whole expressions and by bounds.

It takes the blocks and the resolved fields from the rules, and nothing from their
steps 4 and 5.
"""

from sheet_blocks import BOOL, CODE, SLICE
from stored_sheets.rules.blocks import blocks_of, fields_of, name_of, number_at
from stored_sheets.rules.fields import resolved

TOP = 2 ** 64 - 1
SIGNS = {2: "+", 3: "-", 4: "*", 5: "/"}


def fields_by_name(sheet):
    return {name_of(block): resolved(block) for block in fields_of(sheet)}


def expression_at(block, index):
    """A node with all that hangs on it: a number, "x", or a triple with a sign."""
    at = 88 + 12 * index
    kind, left, right = block[at], block[at + 1], block[at + 2]
    if kind == 0:
        return number_at(block, at + 4, at + 12)
    if kind == 1:
        return "x"
    return expression_at(block, left), SIGNS[kind], expression_at(block, right)


def usable(expression):
    """The form of an expression and its two numbers, or None."""
    match expression:
        case "x":
            return 1, 0, 0
        case (("x", "*", int(m)) | (int(m), "*", "x"), "+", int(a)):
            return 5, m, a
        case (int(a), "+", ("x", "*", int(m)) | (int(m), "*", "x")):
            return 5, m, a
        case (("x", "+", int(a)) | (int(a), "+", "x"), "*", int(m)):
            return 4, a, m
        case (int(m), "*", ("x", "+", int(a)) | (int(a), "+", "x")):
            return 4, a, m
        case ("x", "+", int(a)) | (int(a), "+", "x"):
            return 2, a, 0
        case ("x", "*", int(m)) | (int(m), "*", "x"):
            return 3, m, 0
    return None


def held_by(block):
    """() for an undefined slot, None for a tree that is no form, else form and numbers."""
    if block[67] == 0:
        return ()
    if block[67] == 6:
        return usable(expression_at(block, block[84] - 1))
    return block[67], number_at(block, 68, 76), number_at(block, 76, 84)


def worked_out(held, x):
    """The values that x passes through, the last of them the length."""
    form, first, second = held
    if form == 1:
        return [x]
    if form in (2, 4):
        values = [x + first]
        return values + [values[0] * second] if form == 4 else values
    values = [x * first]
    return values + [values[0] + second] if form == 5 else values


def length_faults(sheet):
    """All faults of step 4, each as its rank in the order and what is answered."""
    named, count, faults, given = fields_by_name(sheet), len(blocks_of(sheet)), [], {}
    size = sum(found.bits for found in named.values()) // 8
    for place, block in enumerate(blocks_of(sheet)):
        if block[0:1] != b"L":
            continue
        slot, held = block[66], held_by(block)
        given[slot] = place
        if held is None:
            faults.append(((0, place), 12, place))
        elif held:
            numbers = slot_faults(slot, held, named.get(name_of(block)), size)
            faults += [((2, slot, rank), number, place)
                       for rank, number in enumerate(numbers)]
    if given.keys() >= {1, 2}:
        faults.append(((1,), 1, count))
    return faults


def slot_faults(slot, held, found, size):
    """All numbers that one slot could be refused with, as far as they have a meaning."""
    if found is None:
        return [3]
    numbers = [number for number, fault in (
        (4, found.bits > 64), (5, found.gen), (6, found.arg in (CODE, BOOL)
                                               or found.repr == SLICE),
        (7, slot and found.fixed)) if fault]
    if found.bits <= 64:
        longest = worked_out(held, 2 ** found.bits - 1)
        if max(longest) > TOP:
            numbers.append(8)
        elif longest[-1] >= 2 ** 22:
            numbers.append(9)
        if slot == 0 and worked_out(held, found.number)[-1] < size:
            numbers.append(10)
    return numbers


def numbers_held(span, bits):
    """Each number of that many bits that lies in a range, by trying all."""
    start_kind, end_kind, start, end = span
    return {x for x in range(2 ** bits)
            if (start_kind == 0 or start <= x)
            and (end_kind == 0 or (x <= end if end_kind == 1 else x < end))}


def updated(span, largest):
    """Start and end as bounds, the end clipped: ("included", n), ("excluded", n), None."""
    start_kind, end_kind, start, end = span
    start = ("included", start) if start_kind else None
    if end_kind == 0 or end_kind == 1 and end > largest:
        return start, ("included", largest)
    if end_kind == 2 and largest < TOP and end > largest + 1:
        return start, ("included", largest)
    return start, ("included" if end_kind == 1 else "excluded", end)


def is_empty(bounds):
    start, (kind, end) = bounds
    if start is None:
        return kind == "excluded" and end == 0
    return start[1] > end or kind == "excluded" and start[1] == end


def intersection(one, other):
    starts = [bounds[0][1] for bounds in (one, other) if bounds[0] is not None]
    start = ("included", max(starts)) if starts else None
    # Of two ends the smaller one, of equal ones the excluded.
    _, _, end = min((bounds[1][1], bounds[1][0] == "included", bounds[1])
                    for bounds in (one, other))
    return start, end


def spans_in(block):
    spans = block[68:68 + 18 * block[66]]
    return [(spans[at], spans[at + 1], number_at(spans, at + 2, at + 10),
             number_at(spans, at + 10, at + 18)) for at in range(0, len(spans), 18)]


def cond_faults(sheet):
    """All faults of step 5, each as its rank in the order and what is answered."""
    named, count, faults, seen = fields_by_name(sheet), len(blocks_of(sheet)), [], []
    for place, block in enumerate(blocks_of(sheet)):
        if block[0:1] != b"C":
            continue
        name, found = name_of(block), named.get(name_of(block))
        if found is None:
            faults.append(((place, 0), 1, place))
        elif found.repr == SLICE:
            faults.append(((place, 1), 2, place))
        else:
            held = [updated(span, 2 ** found.bits - 1) for span in spans_in(block)]
            for i, bounds in enumerate(held):
                if is_empty(bounds):
                    faults.append(((place, 2 + i, 4), 4, place))
                if any(not is_empty(intersection(earlier, bounds)) for earlier in held[:i]):
                    faults.append(((place, 2 + i, 6), 6, place))
        if name in seen:
            faults.append(((place, 99), 7, place))
        seen.append(name)
    if len(seen) > 8:
        faults.append(((count, 0), 8, count))
    return faults
