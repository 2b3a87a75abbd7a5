"""Cases with faults of two steps, the later of them step 4 or 5: the earlier step comes first."""

from sheet_blocks import BLOCK, condition, field, length
from stored_sheets.cases.block_changes import patched, unsealed
from stored_sheets.cases.cond_precedence import ENTRIES
from stored_sheets.cases.header_precedence import FAULTS
from stored_sheets.cases.known_sheets import lister_sheet
from stored_sheets.cases.length_precedence import SLOT_FAULTS, slots_of
from stored_sheets.cases.sheet_texts import FIELD_FAULTS, shaped, told
from stored_sheets.rules.groups import LENGTH


def step_4_before_step_5(cases):
    """A length fault in any slot comes before a cond fault in any entry."""
    for number, (fields, form) in SLOT_FAULTS.items():
        slot = slots_of(number)[-1]
        cases.told(f"{fields} L{slot}={form} C:no", (LENGTH, number, 1), "step 4 first")
        cases.told(f"{fields} L{slot}={form} C:f C:f=5..4", (LENGTH, number, 1),
                   "step 4 first")
    for entry in ENTRIES.values():
        cases.told(f"x:8 y:8 s:16s L0=x L1=no C:x {entry}", (LENGTH, 10, 3),
                   "step 4 first")
    for entry in ("C:no", "C:x=5..4"):
        cases.told(f"x:8 L1 L2 {entry}", (LENGTH, 1, 4), "step 4 first")
        cases.told(f"x:8 T0=x-1 {entry}", (LENGTH, 12, 1), "step 4 first")
    nine = [field(b"f%d" % i) for i in range(9)]
    cases.length(3, "step 4 first: nine entries", *nine, length(b"no"),
                 *[condition(b"f%d" % i) for i in range(9)], place=9)


def step_3_before_steps_4_and_5(cases):
    """A header fault comes before a length fault and a cond fault."""
    for header, (text, place) in FAULTS.items():
        before = shaped(text)
        count = len(before) // BLOCK
        for title, after in (("length 3", "L0=no"), ("length 1", "L1 L2"),
                             ("cond 1", "C:no"), ("length 5", "L2=a C:no")):
            after = told(after)
            at = count + len(after) // BLOCK if header == 6 else place
            cases.header(header, f"header {header} [{text}], then {title}", before, after,
                         place=at)
        if header in (1, 3, 6):
            after = told("T0=x-1")
            cases.header(header, f"header {header} [{text}], then length 12", before,
                         after, place=count + 1 if header == 6 else place)


def step_2_before_steps_4_and_5(cases):
    """A field fault comes before a length fault and a cond fault."""
    for number, made in FIELD_FAULTS.items():
        block = field(b"f", **made)
        for text in ("L0=f", "L1 L2", "T0=f-1", "C:f=5..4"):
            cases.field(number, f"field {number}, then [{text}]", block, told(text))


def step_1_before_steps_4_and_5(cases):
    """A fault of step 1 in any block comes before a length fault and a cond fault."""
    bad, stray = unsealed(condition()), patched(condition(), (509, 1))
    for text in ("L0=no", "L1 L2", "T0=x-1", "C:no", "x:8 C:x=5..4"):
        before = told(text)
        count = len(before) // BLOCK
        cases.sheet(1, f"[{text}], then one byte", before, b"\0")
        cases.sheet(2, f"[{text}], then a bad check", before, bad, place=count)
        cases.sheet(5, f"[{text}], then a stray byte", before, stray, place=count)
        if not text.startswith("x"):
            cases.sheet(3, f"[{text}], then a field", before, field(), place=count)
    cases.sheet(6, "length 3 twice in one slot", told("L0=no L0=no"), place=1)
    cases.sheet(4, "cond 1, 33 times", told("C:no " * 33), place=32)
    cases.sheet(6, "the lister's sheet with slot 0 twice", *lister_sheet()[:7],
                length(b"hl", 0), place=7)


SECTIONS = (
    step_4_before_step_5, step_3_before_steps_4_and_5, step_2_before_steps_4_and_5,
    step_1_before_steps_4_and_5)
