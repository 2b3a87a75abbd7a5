"""The record of a sheet with operations on its fields. The format is told in __main__.py."""

import struct

from stored_sheets.packing import packed
from stored_sheets.rules.accesses import carried_out, filled, opened


def access_record(accesses):
    sheet, pack = opened(accesses.sheet), packed(accesses.sheet)
    sizes = len(pack), len(accesses.sheet), len(accesses.operations)
    return struct.pack(">HHH", *sizes) + pack + b"".join(
        packed_operation(operation, carried_out(sheet, operation))
        for operation in accesses.operations)


def packed_operation(operation, outcome):
    """The head of 22 bytes, the bytes written or read, and those that differ after."""
    what, index, filling, size, value = operation
    value = outcome.value if value is None else value
    number = value if isinstance(value, int) else 0
    data = value if isinstance(value, bytes) else b""
    first, run = difference(filled(filling, size), outcome.buffer)
    return struct.pack(">BBBHQHBBBHH", what, index, filling, size, number, len(data),
                       *outcome.answer, first, len(run)) + data + run


def difference(before, after):
    """Where two buffers begin to differ, and the bytes from there to the last that does."""
    assert len(before) == len(after)
    places = [i for i in range(len(before)) if before[i] != after[i]]
    if not places:
        return 0, b""
    return places[0], after[places[0]:places[-1] + 1]
