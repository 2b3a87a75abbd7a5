"""All tests of this program, each of which raises an AssertionError where it fails."""

from stored_sheets.cases.all_cases import all_cases
from stored_sheets.tests.access_records import check_access_records, check_packed_accesses
from stored_sheets.tests.block_checks import check_sums
from stored_sheets.tests.facts import check_facts
from stored_sheets.tests.groups import check_groups
from stored_sheets.tests.headers import check_headers, check_known_headers, check_templates
from stored_sheets.tests.lengths_and_conds import (
    check_forward, check_known_lengths, check_lengths_and_conds, check_places)
from stored_sheets.tests.packing import check_packing
from stored_sheets.tests.sheet_records import check_all_refusals, check_records
from stored_sheets.tests.wrong_rules import check_wrong_accesses, check_wrong_rules


def check():
    check_groups()
    check_facts()
    check_known_headers()
    check_forward()
    check_known_lengths()
    cases = all_cases()
    for check_of_cases in (
            check_all_refusals, check_sums, check_packing, check_records, check_headers,
            check_templates, check_lengths_and_conds, check_places):
        check_of_cases(cases)
    check_wrong_rules()
    print(f"{len(cases)} cases hold")
    check_wrong_accesses()
    check_packed_accesses()
    print(f"{check_access_records()} operations hold")
