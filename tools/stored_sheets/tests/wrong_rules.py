"""The cases notice every wrong rule, and the stated operations every wrong read or write."""

from unittest.mock import patch

from stored_sheets.cases.all_cases import CONDS, HEADERS, LENGTHS
from stored_sheets.cases.case_list import Cases
from stored_sheets.rules import accesses, answers, conds, headers, lengths
from stored_sheets.rules.answers import STEPS
from stored_sheets.tests.stated_accesses import missed
from stored_sheets.wrong.accesses import WRONG_ACCESSES
from stored_sheets.wrong.conds import WRONG_CONDS, WRONG_STEPS_5
from stored_sheets.wrong.fields_used import WRONG_FIELDS_USED
from stored_sheets.wrong.headers import WRONG_HEADERS
from stored_sheets.wrong.lengths import WRONG_LENGTHS, WRONG_STEPS_4

# Each step's rules, with what stands wrongly for names of them and for the whole step;
# the sections of cases that have to notice it; and the last step that these state.
STEPS_AND_WRONG_ONES = (
    (3, headers, WRONG_HEADERS, (), HEADERS, 3),
    (4, lengths, WRONG_LENGTHS + WRONG_FIELDS_USED, WRONG_STEPS_4, LENGTHS, 5),
    (5, conds, WRONG_CONDS + WRONG_FIELDS_USED, WRONG_STEPS_5, CONDS, 5))


def check_wrong_rules():
    for step, rules, wrong_names, wrong_steps, sections, last in STEPS_AND_WRONG_ONES:
        for name, wrong in wrong_names:
            with patch.object(rules, name, wrong):
                assert not cases_hold(last, sections), (name, wrong)
        for wrong in wrong_steps:
            replaced = *STEPS[:step - 1], wrong, *STEPS[step:]
            with patch.object(answers, "STEPS", replaced):
                assert not cases_hold(last, sections), wrong
        assert cases_hold(last, sections)


def cases_hold(steps, sections):
    """Whether the cases of these sections can be made, each as it is stated."""
    cases = Cases()
    cases.steps = steps
    try:
        for section in sections:
            section(cases)
    except SystemExit:
        return False
    return True


def check_wrong_accesses():
    for name, wrong in WRONG_ACCESSES:
        with patch.object(accesses, name, wrong):
            assert missed() is not None, (name, wrong)
    assert missed() is None, missed()
