"""Reading and writing a field.

Bits are counted as in RFC 791: bit 0 is the most significant bit of byte 0. So
a buffer taken as one big-endian number has all its bits in their order.
"""

from collections import namedtuple

from sheet_blocks import SLICE
from stored_sheets.rules.answers import answer
from stored_sheets.rules.blocks import fields_of
from stored_sheets.rules.fields import largest_value, resolved
from stored_sheets.rules.groups import ACCEPTED, ACCESS
from stored_sheets.rules.headers import header_length, starts

# What is asked.
READ_NUMBER, READ_BYTES, WRITE_NUMBER, WRITE_BYTES = range(4)

# What stands in the buffer before.
ZEROS, ONES, MIXED = range(3)

# A sheet as far as reads and writes need it. One that is refused has no fields.
Opened = namedtuple("Opened", "answer fields starts length")

# The value is the number or the bytes that are written, None for a read.
Operation = namedtuple("Operation", "what index filling size value")

# The value is what an accepted read gives, else None.
Outcome = namedtuple("Outcome", "answer value buffer")


def opened(sheet):
    refusal = answer(sheet)
    if refusal != ACCEPTED:
        return Opened(refusal, [], [], 0)
    fields = [resolved(block) for block in fields_of(sheet)]
    return Opened(ACCEPTED, fields, starts(sheet), header_length(sheet))


def filled(filling, size):
    """The buffer before an operation."""
    if filling == MIXED:
        return bytes((37 * i + 11) % 256 for i in range(size))
    return (b"\xff" if filling == ONES else b"\0") * size


def carried_out(sheet, operation):
    """The outcome of one operation. A refused one leaves the buffer as it is."""
    buffer = filled(operation.filling, operation.size)
    refusal = refusal_of(sheet, operation)
    if refusal != ACCEPTED:
        return Outcome(refusal, None, buffer)
    start, bits = sheet.starts[operation.index], sheet.fields[operation.index].bits
    if operation.what == READ_NUMBER:
        return Outcome(ACCEPTED, number_in(buffer, start, bits), buffer)
    if operation.what == READ_BYTES:
        return Outcome(ACCEPTED, bytes_in(buffer, start, bits), buffer)
    put = with_number if operation.what == WRITE_NUMBER else with_bytes
    return Outcome(ACCEPTED, None, put(buffer, start, bits, operation.value))


def refusal_of(sheet, operation):
    """The sheet's own refusal, then that of the access. Its place is the index asked for."""
    if sheet.answer != ACCEPTED:
        return sheet.answer
    number = access_refusal(sheet, operation)
    return (ACCESS, number, operation.index) if number else ACCEPTED


def access_refusal(sheet, operation):
    """The number of the first access refusal, or 0.

    A byte slice is never fixed in an accepted sheet: its bytes fixed are
    field 7, and a default that is absent is not fixed. So 5 is about numbers.
    """
    if operation.index >= len(sheet.fields):
        return 1
    if operation.size < sheet.length:
        return 2
    found, value = sheet.fields[operation.index], operation.value
    if (found.repr == SLICE) != (operation.what in (READ_BYTES, WRITE_BYTES)):
        return 3
    if operation.what == WRITE_BYTES and len(value) != found.bits // 8:
        return 4
    if operation.what == WRITE_NUMBER:
        if value > largest_value(found.bits):
            return 4
        if found.fixed == 1 and value != found.number:
            return 5
    return 0


def bits_after(buffer, start, bits):
    """How many bits of the buffer stand after a field."""
    return 8 * len(buffer) - start - bits


def number_in(buffer, start, bits):
    """The bits of a field as a number, the first of them the most significant."""
    whole = int.from_bytes(buffer, "big")
    return whole >> bits_after(buffer, start, bits) & largest_value(bits)


def with_number(buffer, start, bits, number):
    """The buffer with a number in the bits of a field, all others as they were."""
    after = bits_after(buffer, start, bits)
    whole = int.from_bytes(buffer, "big") & ~(largest_value(bits) << after)
    return (whole | number << after).to_bytes(len(buffer), "big")


def bytes_in(buffer, start, bits):
    """The bytes of a byte slice, which begins and ends on a byte boundary."""
    return buffer[start // 8:(start + bits) // 8]


def with_bytes(buffer, start, bits, data):
    """The buffer with other bytes in a byte slice, all others as they were."""
    return buffer[:start // 8] + data + buffer[(start + bits) // 8:]
