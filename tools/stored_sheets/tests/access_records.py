"""The file of reads and writes: operations by hand, and all of it read back, bit by bit."""

from collections import Counter

from sheet_blocks import SLICE
from stored_sheets.access_records import access_record
from stored_sheets.cases.access_operations import Accesses, all_accesses
from stored_sheets.cases.access_sheets import NAMED_WIDTHS
from stored_sheets.packing import packed
from stored_sheets.record_readers import read_accesses
from stored_sheets.rules.answers import answer
from stored_sheets.rules.blocks import fields_of
from stored_sheets.rules.fields import resolved
from stored_sheets.rules.groups import ACCEPTED, ACCESS, COND, FIELD, HEADER, LENGTH, SHEET
from stored_sheets.tests.accesses_again import buffer_before, by_single_bits, faults_of_access
from stored_sheets.tests.stated_accesses import LISTER, PARTS, operation_of

# Operations as they stand in the file, written by hand.
PACKED = (
    (LISTER, "3 mixed: number 2", "00 02 02 0003 0000000000000305 0000 000000 0000 0000"),
    (LISTER, "9 mixed: bytes 255", "01 ff 02 0009 0000000000000000 0000 0a01ff 0000 0000"),
    (LISTER, "3 ones: number 2 = 0xabc",
     "02 02 01 0003 0000000000000abc 0000 000000 0001 0002 abcf"),
    (LISTER, "2 zeros: number 4 = 9",
     "02 04 00 0002 0000000000000009 0000 0a0204 0000 0000"),
    (PARTS, "5 mixed: bytes 2", "01 02 02 0005 0000000000000000 0002 000000 0000 0000 3055"),
    (PARTS, "5 zeros: bytes 2 = 0007",
     "03 02 00 0005 0000000000000000 0002 000000 0002 0001 0007 07"),
    (PARTS, "5 zeros: bytes 2 = 616263",
     "03 02 00 0005 0000000000000000 0003 0a0402 0000 0000 616263"))

# The head of a record of one operation: P, S and N.
HEADS = {LISTER: "00a8 1000 0001", PARTS: "0063 0a00 0001"}


def check_packed_accesses():
    for sheet, text, wanted in PACKED:
        found = access_record(Accesses(text, sheet, [operation_of(text)]))
        head, operation = bytes.fromhex(HEADS[sheet]), bytes.fromhex(wanted)
        assert found == head + packed(sheet) + operation, text


def check_operation(own, fields, told):
    """One operation of the file. `own` is the answer of the sheet itself."""
    before = buffer_before(told)
    after = before[:told.first] + told.run + before[told.first + len(told.run):]
    assert told.number == 0 or told.what in (0, 2), told
    assert told.data == b"" or told.what in (1, 3), told
    if told.run:
        last = told.first + len(told.run) - 1
        assert before[told.first] != after[told.first], told
        assert before[last] != after[last], told
    else:
        assert told.first == 0, told
    faults = faults_of_access(fields, told)
    if own != ACCEPTED or faults:
        assert told.answer == (own if own != ACCEPTED
                               else (ACCESS, min(faults), told.index))
        assert after == before, told
        assert told.what > 1 or (told.number, told.data) == (0, b""), told
    else:
        number, data, wanted = by_single_bits(fields, told)
        assert told.answer == ACCEPTED and after == wanted, told
        assert told.what > 1 or (told.number, told.data) == (number, data), told


def check_access_records():
    """Reads the file back and holds each operation against the single bits."""
    accesses = all_accesses()
    content = b"".join(access_record(each) for each in accesses)
    records = read_accesses(content)
    assert len(content) < 1_000_000 and len(records) == len(accesses)
    for each, (sheet, operations) in zip(accesses, records):
        own = answer(sheet)
        fields = [resolved(block) for block in fields_of(sheet)] if own == ACCEPTED else []
        assert sheet == each.sheet and len(operations) == len(each.operations)
        for told in operations:
            check_operation(own, fields, told)
        asked = {told[:4] + (told.what > 1 and told[4:6],) for told in operations}
        assert len(asked) == len(operations), each.title
        if own == ACCEPTED:
            check_all_asked(fields, operations)
            check_values(fields, operations)
    check_answers(records)
    check_widths(records)
    return sum(len(operations) for _, operations in records)


def check_all_asked(fields, operations):
    """Each field in a buffer of each length, by each kind of operation."""
    length = sum(found.bits for found in fields) // 8
    sizes = {size for size in (length - 1, length, length + 5) if size >= 0}
    wanted = {(what, index, size) for what in range(4) for size in sizes
              for index in (*range(len(fields) + 1), 255)}
    assert {(told.what, told.index, told.size) for told in operations} == wanted
    exact = Counter((told.index, told.filling) for told in operations
                    if told.size == length and told.index < len(fields))
    assert set(exact) == {(index, filling) for index in range(len(fields))
                          for filling in range(3)}


def check_values(fields, operations):
    """What has to be written to each field in a buffer of each length."""
    written = {}
    for told in operations:
        if told.what > 1:
            key = told.index, told.filling, told.size
            written.setdefault(key, set()).add(told.number if told.what == 2 else told.data)
    for (index, _, _), values in written.items():
        if index < len(fields):
            found = fields[index]
            count, largest = found.bits // 8, 2 ** found.bits - 1
            if found.repr == SLICE:
                wanted = {bytes(count), b"\0" * (count - 1) + b"\1", b"\xff" * count,
                          b"\xff" * (count + 1), b"\xff" * (count - 1), 0, 2 ** 64 - 1}
            else:
                wanted = {0, 1, largest, b"\xff", b"\xff" * -(-found.bits // 8)}
                wanted |= {largest + 1} if found.bits < 64 else set()
                wanted |= {found.number, found.number + 1} if found.fixed else set()
            assert values >= wanted - {2 ** 64}, found
    for told in operations:
        if told.what < 2 and told.answer == ACCEPTED:
            read = told.data if told.what else told.number
            assert read in written[told.index, told.filling, told.size], told


def check_answers(records):
    """Each kind of operation accepted, and refused in each way that it can be."""
    found = {(told.what, *told.answer[:2]) for _, operations in records
             for told in operations}
    for what in range(4):
        wanted = {0, 1, 2, 3} | ({4} if what > 1 else set()) | ({5} if what == 2 else set())
        assert {number for kind, group, number in found
                if kind == what and group in (0, ACCESS)} == wanted
        assert {group for kind, group, _ in found if kind == what} == {
            0, SHEET, FIELD, HEADER, LENGTH, COND, ACCESS}


def check_widths(records):
    """Start bits and widths of the number fields, and sizes of the byte slices."""
    numbers, slices, fixed = set(), set(), set()
    for sheet, _ in records:
        start = 0
        for found in map(resolved, fields_of(sheet) if answer(sheet) == ACCEPTED else ()):
            if found.repr == SLICE:
                slices.add((found.bits // 8, found.data != b""))
            else:
                numbers.add((start % 8, found.bits))
                fixed |= {(found.bits, found.arg, found.number)} if found.fixed else set()
            start += found.bits
    assert {(start, bits % 8) for start, bits in numbers} == {
        (start, rest) for start in range(8) for rest in range(8)}
    for bits in range(1, 65):
        least = min(65 - bits, 8 if bits in NAMED_WIDTHS or bits > 57 else 3)
        assert len({start for start, width in numbers if width == bits}) >= least, bits
    assert max(len(fields_of(sheet)) for sheet, _ in records) == 64
    assert slices >= {(size, stated) for size in (2, 3, 8, 9, 16, 53, 424)
                      for stated in (False, True)}
    assert fixed >= {(4, 1, 0), (4, 1, 15), (4, 1, 6), (1, 6, 1), (64, 4, 2 ** 64 - 1)}
