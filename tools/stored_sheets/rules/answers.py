"""The answer of the five steps."""

from stored_sheets.rules.conds import step_5
from stored_sheets.rules.fields import step_2
from stored_sheets.rules.groups import ACCEPTED
from stored_sheets.rules.headers import step_3
from stored_sheets.rules.lengths import step_4
from stored_sheets.rules.sheets import step_1

STEPS = (step_1, step_2, step_3, step_4, step_5)


def answer(sheet, last=5):
    """Group, number and place of the first refusal of steps 1 to `last`."""
    for step in STEPS[:last]:
        refusal = step(sheet)
        if refusal != ACCEPTED:
            return refusal
    return ACCEPTED
