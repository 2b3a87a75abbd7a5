"""Step 3 and the template, by hand and in another way."""

from sheet_blocks import SLICE
from stored_sheets.cases.known_sheets import lister_sheet, rfc_791_sheet
from stored_sheets.cases.sheet_texts import shaped
from stored_sheets.rules.answers import answer
from stored_sheets.rules.blocks import blocks_of, fields_of, name_of
from stored_sheets.rules.fields import resolved
from stored_sheets.rules.groups import ACCEPTED, HEADER
from stored_sheets.rules.headers import header_length, starts, step_3, template


def check_known_headers():
    """Headers worked by hand."""
    lister, internet = b"".join(lister_sheet()), b"".join(rfc_791_sheet())
    assert answer(lister) == answer(internet) == ACCEPTED
    assert starts(lister) == [0, 4, 8, 20, 21]
    assert template(lister).hex() == "41000d"
    assert starts(internet) == [0, 4, 8, 16, 32, 48, 51, 64, 72, 80, 96, 128]
    assert template(internet).hex() == "45" + 19 * "00"
    # 7 and 57 bits end with byte 7, 58 bits reach byte 8.
    assert answer(shaped("7 57")) == ACCEPTED
    assert answer(shaped("7 58 7")) == answer(shaped("1 64 7")) == (HEADER, 3, 1)
    assert answer(shaped("33554424 8")) == (HEADER, 5, 1)
    assert answer(shaped("33554424 7")) == (HEADER, 6, 2)
    assert answer(shaped("type:8 type:8")) == (HEADER, 2, 0)


def faults_of_header(sheet):
    """Step 3 in another way: all faults of all fields, as place and number."""
    count, end, names, faults = len(blocks_of(sheet)), 0, [], []
    for place, block in enumerate(fields_of(sheet)):
        found = resolved(block)
        start, end = end, end + found.bits
        names.append(name_of(block))
        if names.count(names[place]) > 1:
            faults.append((place, 1))
        if names[place] == b"type":
            faults.append((place, 2))
        if found.bits <= 64 and len({bit // 8 for bit in range(start, end)}) > 8:
            faults.append((place, 3))
        if found.repr == SLICE and start & 7:
            faults.append((place, 4))
        if end >= 8 * 4_194_304:
            faults.append((place, 5))
    if end & 7:
        faults.append((count, 6))
    return faults


def check_headers(cases):
    """The least fault, place before number, is the answer of step 3."""
    for case in cases:
        if answer(case.sheet, 2) == ACCEPTED:
            wanted = ACCEPTED
            faults = faults_of_header(case.sheet)
            if faults:
                place, number = min(faults)
                wanted = (HEADER, number, place)
            assert step_3(case.sheet) == answer(case.sheet, 3) == wanted, case.title


def check_templates(cases):
    """The template is the defaults written as digits, one field after another."""
    for case in cases:
        if (answer(case.sheet, 3) == ACCEPTED
                and header_length(case.sheet) < 100_000):
            digits = "1"
            for block in fields_of(case.sheet):
                found = resolved(block)
                if found.repr != SLICE:
                    digits += f"{found.number:0{found.bits}b}"
                elif found.data:
                    digits += "".join(f"{byte:08b}" for byte in found.data)
                else:
                    digits += "0" * found.bits
            assert f"{int(digits, 2):x}" == "1" + template(case.sheet).hex(), case.title
