"""The file of sheets read back, and held against the cases."""

import struct

from stored_sheets.record_readers import read_sheets
from stored_sheets.rules.answers import answer
from stored_sheets.rules.blocks import blocks_of, fields_of, name_of
from stored_sheets.rules.fields import resolved
from stored_sheets.rules.groups import COND, FIELD, HEADER, REFUSALS_OF_SHEETS, SHEET
from stored_sheets.rules.headers import header_length, starts, template
from stored_sheets.sheet_records import sheet_record
from stored_sheets.tests.lengths_and_conds import check_lengths_told, check_ranges_told


def check_all_refusals(cases):
    """Each refusal that there is is the answer of a case, and no other is."""
    wanted = {(group, number) for group, numbers in REFUSALS_OF_SHEETS.items()
              for number in numbers}
    assert {case.expected[:2] for case in cases} == wanted | {(0, 0)}


def check_records(cases):
    """Reads the file back and holds what it tells against the cases."""
    content = b"".join(sheet_record(case) for case in cases)
    assert len(content) < 1_300_000
    found = read_sheets(content)
    assert len(found) == len(cases)
    for case, (sheet, told_answer, known) in zip(cases, found):
        assert sheet == case.sheet, case.title
        assert told_answer == case.expected == answer(case.sheet), case.title
        if told_answer[0] not in (SHEET, FIELD):
            check_block_facts(case, known)
            check_later_facts(case, known)
        else:
            assert known == {}, case.title


def check_block_facts(case, known):
    """Counts, slots, names, fields, trees, starts and lookups."""
    blocks = blocks_of(case.sheet)
    kinds, names = [block[0:1] for block in blocks], [name_of(block) for block in blocks]
    assert known["counts"] == [kinds.count(kind) for kind in (b"F", b"L", b"C")], case.title
    for slot, place in enumerate(known["slots"]):
        given = [i for i, block in enumerate(blocks)
                 if kinds[i] == b"L" and block[66] == slot]
        assert given == ([] if place == 255 else [place]), case.title
    assert known["names"] == names, case.title
    assert known["fields"] == [resolved(block) for block in fields_of(case.sheet)]
    grown = [block for block, kind in zip(blocks, kinds) if kind == b"L" and block[67] == 6]
    for block, nodes in zip(grown, known["trees"]):
        packs = [struct.pack(">3BxQ", *node) for node in nodes]
        assert b"".join(packs) == block[88:88 + 32 * 12], case.title
    assert known["starts"] == starts(case.sheet), case.title
    for place, first in enumerate(known["lookups"]):
        same = [i for i, name in enumerate(names)
                if name == names[place] and kinds[i] == b"F"]
        assert first == min(same, default=255), case.title


def check_later_facts(case, known):
    """Header and template, lengths, ranges: each as far as the steps accept."""
    group = case.expected[0]
    assert ("template" in known) == (group != HEADER), case.title
    assert ("lengths" in known) == (group in (0, COND)), case.title
    assert ("ranges" in known) == (group == 0), case.title
    if "template" in known:
        assert known["size"] == header_length(case.sheet), case.title
        assert known["template"] == template(case.sheet), case.title
    if "lengths" in known:
        check_lengths_told(case, known["lengths"])
    if "ranges" in known:
        check_ranges_told(case, known["ranges"])
