"""Cases of steps 1 and 2: where each refusal can stand, and which of two comes first."""

from sheet_blocks import (
    BLOCK, BOOL, BYTES, NUMBER, SLICE, U8, U16, U32, U64, field, length, tree)
from stored_sheets.cases.block_changes import patched
from stored_sheets.cases.samples import X
from stored_sheets.cases.sheet_texts import spelled
from stored_sheets.rules.groups import FIELD, SHEET
from stored_sheets.rules.limits import MOST_BITS


def places_of_sheet_2_and_3(cases):
    """First, middle and last places of a bad check and a bad kind."""
    cases.spelled("F! F*63 L0 L1 L2 C*32", (SHEET, 2, 0))
    cases.spelled("F*49 F! F*14 L0 L1 L2 C*32", (SHEET, 2, 49))
    cases.spelled("F*63 F! L0 L1 L2 C*32", (SHEET, 2, 63))
    cases.spelled("F*64 L0 L1! L2 C*32", (SHEET, 2, 65))
    cases.spelled("F*64 L0 L1 L2 C*31 C!", (SHEET, 2, 98))
    cases.spelled("X F*63 L0 L1 L2 C*32", (SHEET, 3, 0))
    cases.spelled("F*49 X F*14 L0 L1 L2 C*32", (SHEET, 3, 49))
    cases.spelled("F*64 L0 X L2 C*32", (SHEET, 3, 65))
    cases.spelled("F*64 L0 L1 L2 C*31 X", (SHEET, 3, 98))
    cases.spelled("L0 F", (SHEET, 3, 1))
    cases.spelled("C F", (SHEET, 3, 1))
    cases.spelled("C L0", (SHEET, 3, 1))
    cases.spelled("F L0 F", (SHEET, 3, 2))
    cases.spelled("F C F", (SHEET, 3, 2))
    cases.spelled("F C L0", (SHEET, 3, 2))
    cases.spelled("L0 C L1", (SHEET, 3, 2))
    cases.spelled("L0 C F", (SHEET, 3, 2))
    cases.spelled("F*30 L0 L1 F C*20", (SHEET, 3, 32))
    cases.spelled("F*30 L0 C*17 L1 C", (SHEET, 3, 48))
    cases.spelled("F*30 L0 C*18 F C", (SHEET, 3, 49))
    cases.spelled("F*63 L0 L1 L2 F", (SHEET, 3, 66))
    cases.spelled("F*64 L0 L1 C*31 L2", (SHEET, 3, 97))
    cases.spelled("F*64 L0 L1 C*32 L2", (SHEET, 3, 98))
    cases.spelled("F*63 L0 L1 L2 C*32 F", (SHEET, 3, 98))


def places_of_sheet_4_to_6(cases):
    """First, middle and last places of too many, stray byte and second slot."""
    cases.spelled("F*65", (SHEET, 4, 64))
    cases.spelled("F*66", (SHEET, 4, 64))
    cases.spelled("F*99", (SHEET, 4, 64))
    cases.spelled("F*65 L0 L1 L2 C*31", (SHEET, 4, 64))
    cases.spelled("C*33", (SHEET, 4, 32))
    cases.spelled("F C*33", (SHEET, 4, 33))
    cases.spelled("L0 C*34", (SHEET, 4, 33))
    cases.spelled("F*31 L0 L1 C*34", (SHEET, 4, 65))
    cases.spelled("C*99", (SHEET, 4, 32))
    cases.spelled("F*64 C*33", (SHEET, 4, 96))
    cases.spelled("F*64 L0 C*33", (SHEET, 4, 97))
    cases.spelled("F*64 L0 L1 C*33", (SHEET, 4, 98))
    cases.spelled("F*63 L0 L1 L2 C*33", (SHEET, 4, 98))
    cases.spelled("F~ F*63 L0 L1 L2 C*32", (SHEET, 5, 0))
    cases.spelled("F*31 F~ F*32 L0 L1 L2 C*32", (SHEET, 5, 31))
    cases.spelled("F*63 F~ L0 L1 L2 C*32", (SHEET, 5, 63))
    cases.spelled("L0~ L1 L2 C", (SHEET, 5, 0))
    cases.spelled("F*64 L0~ L1 L2 C*32", (SHEET, 5, 64))
    cases.spelled("F*64 L0 L1~ L2 C*32", (SHEET, 5, 65))
    cases.spelled("F*64 L0 L1 L2~ C*32", (SHEET, 5, 66))
    cases.spelled("C~ C*31", (SHEET, 5, 0))
    cases.spelled("F*64 L0 L1 L2 C~ C*31", (SHEET, 5, 67))
    cases.spelled("F*64 L0 L1 L2 C*15 C~ C*16", (SHEET, 5, 82))
    cases.spelled("F*64 L0 L1 L2 C*31 C~", (SHEET, 5, 98))
    cases.spelled("L0 L0", (SHEET, 6, 1))
    cases.spelled("L1 L1 C", (SHEET, 6, 1))
    cases.spelled("L2 L2 C*32", (SHEET, 6, 1))


def second_slots(cases):
    """Sheet 6: the later L block of a slot."""
    cases.spelled("L0 L1 L0", (SHEET, 6, 2))
    cases.spelled("L0 L1 L1", (SHEET, 6, 2))
    cases.spelled("L2 L0 L2", (SHEET, 6, 2))
    cases.spelled("L1 L2 L1 L0", (SHEET, 6, 2))
    cases.spelled("L0 L1 L2 L0", (SHEET, 6, 3))
    cases.spelled("L0 L1 L2 L1", (SHEET, 6, 3))
    cases.spelled("L0 L1 L2 L2", (SHEET, 6, 3))
    cases.spelled("L2 L1 L0 L2", (SHEET, 6, 3))
    cases.spelled("L0 L1 L2 L2 L1", (SHEET, 6, 3))
    cases.spelled("F*31 L0 L1 L0 C*32", (SHEET, 6, 33))
    cases.spelled("F*64 L0 L0 L1 C*32", (SHEET, 6, 65))
    cases.spelled("F*64 L0 L1 L1 C*32", (SHEET, 6, 66))
    cases.spelled("F*64 L0 L1 L2 L0", (SHEET, 6, 67))
    cases.spelled("F*64 L0 L1 L2 L2 C*31", (SHEET, 6, 67))
    for slot in range(3):
        first, again = length(form=0, slot=slot), length(slot=slot)
        cases.sheet(6, f"slot {slot}: undefined, then x", first, again, place=1)
        cases.sheet(6, f"slot {slot}: x, then undefined", again, first, place=1)
        cases.sheet(6, f"slot {slot}: undefined twice", first, first, place=1)
        cases.sheet(6, f"slot {slot}: tree, then x*2", tree(X, slot=slot),
                    length(form=3, first=2, slot=slot), place=1)


def places_of_field_faults(cases):
    """Field 1 to 7 at the first, a middle and the last of 64 F blocks."""
    for number in range(1, 8):
        cases.spelled(f"F{number} F*63", (FIELD, number, 0))
        cases.spelled(f"F*31 F{number} F*32", (FIELD, number, 31))
        cases.spelled(f"F*63 F{number}", (FIELD, number, 63))
        cases.spelled(f"F F{number} L0 L1 C*2", (FIELD, number, 1))
    cases.spelled("F*63 F1 L0 L1 L2 C*32", (FIELD, 1, 63))
    cases.spelled("F7 F*63 L0 L1 L2 C*32", (FIELD, 7, 0))


def two_faults_in_one_block(cases):
    """The earlier number wins. 4 and 6 cannot meet: 4 is an F or C, 6 an L."""
    title = "one block"
    for text, number, place in (
            ("X!", 2, 0), ("L0 F!", 2, 1), ("C L0!", 2, 1), ("C F!", 2, 1),   # 2, 3
            ("F*64 F!", 2, 64), ("C*32 C!", 2, 32),                          # 2, 4
            ("F~!", 2, 0), ("L0~!", 2, 0), ("C~!", 2, 0),                    # 2, 5
            ("L0 L0!", 2, 1),                                                # 2, 6
            ("F*64 L0 F", 3, 65), ("F*64 C F", 3, 65),                       # 3, 4
            ("X~", 3, 0), ("L0 F~", 3, 1), ("C L0~", 3, 1), ("C F~", 3, 1),  # 3, 5
            ("L0 C L0", 3, 2), ("F L2 C L2", 3, 3),                          # 3, 6
            ("F*64 F~", 4, 64), ("C*32 C~", 4, 32),                          # 4, 5
            ("L0 L0~", 5, 1), ("F L1 L2 L1~", 5, 3),                         # 5, 6
            ("X~!", 2, 0), ("L0 F~!", 2, 1), ("F*64 L0 F!", 2, 65),
            ("F*64 L0 F~", 3, 65), ("F*64 L0 F~!", 2, 65), ("F*64 F~!", 2, 64),
            ("C*32 C~!", 2, 32), ("L0 C L0~", 3, 2), ("L0 C L0~!", 2, 2),
            ("L0 L0~!", 2, 1)):
        cases.spelled(text, (SHEET, number, place), title)
    # The check is tested before the kind, the kind before the layout.
    cases.sheet(2, "one block: zeros with a stray byte",
                bytes(300) + b"\1" + bytes(211))
    cases.sheet(3, "one block: unknown kind, all codes wrong",
                patched(b"\xff" * BLOCK, (0, b"f")))
    cases.sheet(5, "one block: slot 3 twice", length(slot=3), length(slot=3))
    cases.sheet(5, "one block: second slot and form 7", length(),
                patched(length(), (67, 7)), place=1)
    cases.sheet(5, "one block: second slot and no name", length(),
                length(name=b""), place=1)


def faults_in_two_blocks(cases):
    """The earlier block wins, whatever the numbers."""
    title = "two blocks"
    for number, place, texts in (
            (2, 0, ("F! F!", "F! X", "F! C*33", "F! F~", "F! L0 L0")),
            (3, 0, ("X F!", "X X", "X C*33", "X F~", "X L0 L0")),
            (4, 32, ("C*33 C!", "C*33 X", "C*34", "C*33 C~")),
            (4, 64, ("F*65 F!", "F*65 L0 L0", "F*65 L0 F", "F*66 F~")),
            (5, 0, ("F~ F!", "F~ X", "F~ C*33", "F~ F~", "F~ L0 L0")),
            (6, 1, ("L0 L0 C!", "L0 L0 X", "L0 L0 C*33", "L0 L0 C~", "L1 L1 L1")),
            (3, 1, ("L0 F F!", "L0 F F", "L0 F C*33", "L0 F L1~", "L0 F L0")),
            (5, 2, ("F L0 L1~ C!", "F L0 L1~ L1", "F L0 L1~ F"))):
        for text in texts:
            cases.spelled(text, (SHEET, number, place), title)


def sheet_1_first(cases):
    """Sheet 1 comes before any fault of a block."""
    for text in ("F!", "X", "C*33", "F*65", "F~", "L0 L0", "F1", "F7"):
        for tail in (b"\0", b"F"):
            cases.sheet(1, f"one byte {tail} after [{text}]", spelled(text), tail)
    cases.sheet(1, "100 blocks, all with bad checks", spelled("F!*64 C!*36"))
    cases.sheet(1, "100 blocks of F", spelled("F*100"))
    cases.sheet(1, "100 blocks of unknown kind", spelled("X*100"))
    cases.sheet(1, "100 blocks, the first with field 1", spelled("F1 F*63 C*36"))


def step_1_before_step_2(cases):
    """A fault of step 1 anywhere comes before a field fault anywhere."""
    for number in range(1, 8):
        for text, refusal, place in (
                (f"F{number} F!", 2, 1), (f"F{number} X", 3, 1),
                (f"F{number} L0 F", 3, 2), (f"F{number} C*33", 4, 33),
                (f"F{number} F~", 5, 1), (f"F{number} C~", 5, 1),
                (f"F{number} L0 L0", 6, 2), (f"F{number}!", 2, 0),
                (f"F{number}~", 5, 0), (f"L0 F{number}", 3, 1),
                (f"F! F{number}", 2, 0), (f"X F{number}", 3, 0),
                (f"F~ F{number}", 5, 0)):
            cases.spelled(text, (SHEET, refusal, place), "step 1 first")
        cases.spelled(f"F*64 F{number}", (SHEET, 4, 64), "step 1 first")
    cases.spelled("F1 F*63 L0 L1 L2 C*31 C!", (SHEET, 2, 98), "step 1 first")
    cases.spelled("F1 F*63 L0 L1 L2 C*31 C~", (SHEET, 5, 98), "step 1 first")


def two_field_faults(cases):
    """In two fields the earlier block wins."""
    for first in range(1, 8):
        for second in range(1, 8):
            cases.spelled(f"F{first} F{second}", (FIELD, first, 0), "two fields")
        cases.spelled(f"F F{first} F F{8 - first}", (FIELD, first, 1), "two fields")


def pairs_in_one_field(cases):
    """In one field the earlier number wins.

    A bool arg is never on a byte slice, so 4 and 5 cannot meet. 6 is for the
    fields that 4 and 5 leave: 4 and 6 is a number over 1 on 1 bit.
    """
    num, raw = dict(kind=NUMBER), dict(kind=BYTES)
    pairs = (
        (1, 2, dict(bits=0, repr=U16)), (1, 2, dict(bits=65, repr=U64)),
        (1, 2, dict(bits=MOST_BITS + 8, repr=U8)), (1, 2, dict(bits=0, repr=SLICE)),
        (1, 3, dict(bits=65, arg=U8)), (1, 3, dict(bits=0, arg=BOOL)),
        (1, 4, dict(bits=0, arg=BOOL, number=2, **num)),
        (1, 5, dict(bits=65, repr=SLICE, data=b"abc", **raw)),
        (1, 6, dict(bits=0, repr=U8, number=1, **num)),
        (1, 6, dict(bits=0, number=0, **num)),
        (1, 7, dict(bits=65, repr=SLICE, data=b"8letters", fixed=1, **raw)),
        (2, 3, dict(bits=9, repr=U8, arg=U32)),
        (2, 3, dict(bits=8, repr=U16, arg=U8)),
        (2, 4, dict(bits=1, repr=U16, arg=BOOL, number=2, **num)),
        (2, 5, dict(bits=8, repr=SLICE, data=b"ab", **raw)),
        (2, 5, dict(bits=17, repr=SLICE, data=b"abc", **raw)),
        (2, 6, dict(bits=9, repr=U8, number=512, **num)),
        (2, 7, dict(bits=8, repr=SLICE, data=b"a", fixed=1, **raw)),
        (3, 4, dict(bits=2, arg=BOOL, number=2, **num)),
        (3, 5, dict(bits=16, repr=SLICE, arg=U16, data=b"a", **raw)),
        (3, 5, dict(bits=72, arg=BOOL, number=1, **num)),
        (3, 6, dict(bits=3, arg=U16, number=8, **num)),
        (3, 7, dict(bits=16, repr=SLICE, arg=U8, data=b"ab", fixed=1, **raw)),
        (4, 6, dict(bits=1, arg=BOOL, number=2, **num)),
        (4, 7, dict(bits=1, arg=BOOL, data=b"a", fixed=1, **raw)),
        (5, 7, dict(bits=16, repr=SLICE, data=b"abc", fixed=1, **raw)),
        (5, 7, dict(bits=16, repr=SLICE, fixed=1, **raw)),
        (6, 7, dict(bits=8, data=b"a", fixed=1, **raw)),
        (6, 7, dict(bits=64, data=b"8letters", fixed=1, **raw)))
    for count, (number, other, made) in enumerate(pairs):
        cases.field(number, f"one field, pair {count}, {number} and {other}",
                    field(), field(**made), field(bits=0), place=1)


SECTIONS = (
    places_of_sheet_2_and_3, places_of_sheet_4_to_6, second_slots, places_of_field_faults,
    two_faults_in_one_block, faults_in_two_blocks, sheet_1_first, step_1_before_step_2,
    two_field_faults, pairs_in_one_field)
