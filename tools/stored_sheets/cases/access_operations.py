"""The operations on each sheet. Which there are is told in __main__.py."""

import sys
from collections import namedtuple

from sheet_blocks import SLICE
from stored_sheets.cases.access_sheets import accepted_sheets, refused_sheets
from stored_sheets.rules.accesses import (
    MIXED, ONES, READ_BYTES, READ_NUMBER, WRITE_BYTES, WRITE_NUMBER, ZEROS, Operation, bytes_in,
    filled, number_in, opened)
from stored_sheets.rules.fields import largest_value
from stored_sheets.rules.groups import ACCEPTED
from stored_sheets.rules.limits import MOST_NUMBER

Accesses = namedtuple("Accesses", "title sheet operations")

# Beyond the header in the longest buffer.
MORE = 5


def sizes_of(length):
    """The lengths of the buffers: one byte short, exact, and longer."""
    return [size for size in (length - 1, length, length + MORE) if size >= 0]


def fillings_of(sheet, index, size):
    """All three fillings, where they are not dropped to keep the file small."""
    many, large = len(sheet.fields) > 12, sheet.fields[index].bits > 512
    if size < sheet.length and many or size != sheet.length and large:
        return (MIXED,)
    return ZEROS, ONES, MIXED


def operations_on(sheet):
    """All operations on an accepted sheet, none of them twice."""
    found = []
    for size in sizes_of(sheet.length):
        for index in range(len(sheet.fields)):
            for filling in fillings_of(sheet, index, size):
                found += operations_on_field(sheet, index, filling, size)
        for index in (len(sheet.fields), 255):
            found += four_operations(index, size)
    return list(dict.fromkeys(found))


def four_operations(index, size):
    """Each kind of operation once."""
    return [Operation(READ_NUMBER, index, MIXED, size, None),
            Operation(READ_BYTES, index, MIXED, size, None),
            Operation(WRITE_NUMBER, index, MIXED, size, 1),
            Operation(WRITE_BYTES, index, MIXED, size, b"\xff")]


def operations_on_field(sheet, index, filling, size):
    """Both reads of a field, and all writes."""
    out = [Operation(what, index, filling, size, None)
           for what in (READ_NUMBER, READ_BYTES)]
    found = sheet.fields[index]
    values = slice_values(found) if found.repr == SLICE else number_values(found)
    if size >= sheet.length:
        values += values_read(sheet, index, filling, size)
    for value in values:
        what = WRITE_BYTES if isinstance(value, bytes) else WRITE_NUMBER
        out.append(Operation(what, index, filling, size, value))
    return out


def number_values(found):
    """What is written to a number field, beside what is read there."""
    largest = largest_value(found.bits)
    values = [0, 1, largest, largest + 1]
    if found.fixed == 1:
        values += [found.number, found.number + 1]
    values = [value for value in values if value <= MOST_NUMBER]
    return values + [b"\xff", b"\xff" * ((found.bits + 7) // 8)]


def slice_values(found):
    """What is written to a byte slice, beside what is read there."""
    count = found.bits // 8
    return [bytes(count), bytes(count - 1) + b"\1", b"\xff" * count,
            b"\xff" * (count + 1), b"\xff" * (count - 1), 0, MOST_NUMBER]


def values_read(sheet, index, filling, size):
    """What is read there, and what would be in a buffer of mixed bytes."""
    found, start = sheet.fields[index], sheet.starts[index]
    read = bytes_in if found.repr == SLICE else number_in
    return [read(filled(other, size), start, found.bits) for other in (filling, MIXED)]


def all_accesses():
    """Title, sheet and operations of each record."""
    stated = [(title, sheet, ACCEPTED) for title, sheet in accepted_sheets()]
    out = []
    for title, sheet, expected in stated + refused_sheets():
        found = opened(sheet)
        if found.answer != expected:
            sys.exit(f"record {len(out)} ({title}): stated answer {expected}, "
                     f"but the rules give {found.answer}")
        operations = (operations_on(found) if expected == ACCEPTED else
                      four_operations(0, 40) + four_operations(200, 40))
        out.append(Accesses(title, sheet, operations))
    return out
