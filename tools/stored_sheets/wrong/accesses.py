"""Wrong rules of reads and writes, each of which the stated operations have to notice."""

from stored_sheets.rules.accesses import (
    READ_NUMBER, WRITE_BYTES, WRITE_NUMBER, Outcome, access_refusal, carried_out, filled,
    number_in, refusal_of, with_bytes, with_number)
from stored_sheets.rules.groups import ACCEPTED, ACCESS


def turned(number, bits):
    """The bits of a number the other way round."""
    return int(f"{number:0{bits}b}"[::-1], 2)


def turned_bytes(buffer):
    """Each byte with its bits the other way round."""
    return bytes(turned(byte, 8) for byte in buffer)


def read_low_bit_first(buffer, start, bits):
    """The first bit of a field taken as the least significant one."""
    return turned(number_in(buffer, start, bits), bits)


def write_low_bit_first(buffer, start, bits, number):
    return with_number(buffer, start, bits, turned(number, bits))


def read_from_the_low_end(buffer, start, bits):
    """Bits numbered from the least significant end of each byte."""
    return number_in(turned_bytes(buffer), start, bits)


def write_from_the_low_end(buffer, start, bits, number):
    changed = with_number(turned_bytes(buffer), start, bits, number)
    return turned_bytes(changed)


def read_low_byte_first(buffer, start, bits):
    """A number of whole bytes read from its last byte on."""
    found = number_in(buffer, start, bits)
    if bits % 8 == 0:
        return int.from_bytes(found.to_bytes(bits // 8, "big"), "little")
    return found


def write_low_byte_first(buffer, start, bits, number):
    if bits % 8 == 0:
        number = int.from_bytes(number.to_bytes(bits // 8, "big"), "little")
    return with_number(buffer, start, bits, number)


def shared_bytes_cleared(buffer, start, bits, number):
    """Each byte that the field touches cleared as a whole."""
    first, end = start // 8, (start + bits + 7) // 8
    cleared = buffer[:first] + bytes(end - first) + buffer[end:]
    return with_number(cleared, start, bits, number)


def first_byte_cleared(buffer, start, bits, number):
    """The bits before the field in its first byte cleared."""
    before = start // 8 * 8
    cleared = with_number(buffer, before, start - before, 0) if start % 8 else buffer
    return with_number(cleared, start, bits, number)


def last_byte_cleared(buffer, start, bits, number):
    """The bits after the field in its last byte cleared."""
    end = start + bits
    cleared = with_number(buffer, end, -end % 8, 0) if end % 8 else buffer
    return with_number(cleared, start, bits, number)


def bits_only_set(buffer, start, bits, number):
    """The bits of the number set and none cleared."""
    number |= number_in(buffer, start, bits)
    return with_number(buffer, start, bits, number)


def nothing_written(buffer, start, bits, value):
    return buffer


def bytes_after_cleared(buffer, start, bits, data):
    """What stands after a byte slice cleared."""
    out = with_bytes(buffer, start, bits, data)
    end = (start + bits) // 8
    return out[:end] + bytes(len(buffer) - end)


def bytes_turned(buffer, start, bits, data):
    """The bytes of a slice the other way round."""
    return with_bytes(buffer, start, bits, data[::-1])


def two_before_one(sheet, operation):
    short = operation.size < sheet.length
    return 2 if short else access_refusal(sheet, operation)


def with_room(sheet, operation):
    """The number that comes where the buffer is long enough."""
    operation = operation._replace(size=max(operation.size, sheet.length))
    return access_refusal(sheet, operation)


def at_the_fields_end(sheet, operation):
    """Access 2 only where the field itself does not fit."""
    number = access_refusal(sheet, operation)
    if number == 2:
        end = sheet.starts[operation.index] + sheet.fields[operation.index].bits
        return with_room(sheet, operation) if end <= 8 * operation.size else 2
    return number


def a_byte_to_spare(sheet, operation):
    """A buffer of the header's length refused."""
    number = access_refusal(sheet, operation)
    return 2 if number != 1 and operation.size <= sheet.length else number


def three_before_two(sheet, operation):
    number = access_refusal(sheet, operation)
    return 3 if number == 2 and with_room(sheet, operation) == 3 else number


def four_before_two(sheet, operation):
    number = access_refusal(sheet, operation)
    return 4 if number == 2 and with_room(sheet, operation) == 4 else number


def four_before_three(sheet, operation):
    """The value held against the width before the kind is."""
    number = access_refusal(sheet, operation)
    if number == 3 and operation.what == WRITE_NUMBER:
        return 4 if operation.value.bit_length() > sheet.fields[operation.index].bits else 3
    return number


def fixed_before_width(sheet, operation):
    number = access_refusal(sheet, operation)
    return 5 if number == 4 and sheet.fields[operation.index].fixed == 1 else number


def fixed_before_kind(sheet, operation):
    number = access_refusal(sheet, operation)
    if number == 3 and operation.what == WRITE_BYTES:
        return 5 if sheet.fields[operation.index].fixed == 1 else 3
    return number


def without(missing):
    """One number that is never given."""
    def wrong(sheet, operation):
        number = access_refusal(sheet, operation)
        return 0 if number == missing else number
    return wrong


def small_slices_as_numbers(sheet, operation):
    """A number asked of a byte slice of at most 64 bits given."""
    number = access_refusal(sheet, operation)
    if number == 3 and operation.what == READ_NUMBER:
        return 0 if sheet.fields[operation.index].bits <= 64 else 3
    return number


def counted_wrong_by(change):
    """A byte count accepted that is not the field's."""
    def wrong(sheet, operation):
        number = access_refusal(sheet, operation)
        if number == 4 and operation.what == WRITE_BYTES:
            count = sheet.fields[operation.index].bits // 8
            return 0 if len(operation.value) == count + change else 4
        return number
    return wrong


def what_stands_there(sheet, operation):
    """A fixed field that takes what it holds already."""
    number = access_refusal(sheet, operation)
    if number == 5:
        buffer = filled(operation.filling, operation.size)
        start, bits = sheet.starts[operation.index], sheet.fields[operation.index].bits
        return 0 if number_in(buffer, start, bits) == operation.value else 5
    return number


def fixed_for_good(sheet, operation):
    """A fixed field that does not take its default."""
    number = access_refusal(sheet, operation)
    if number == 0 and operation.what == WRITE_NUMBER:
        return 5 if sheet.fields[operation.index].fixed == 1 else 0
    return number


def fixed_for_reads(sheet, operation):
    """A fixed field refused to a read."""
    number = access_refusal(sheet, operation)
    if number == 0 and operation.value is None:
        return 5 if sheet.fields[operation.index].fixed == 1 else 0
    return number


def never_refused_sheets(sheet, operation):
    """Access refusals also of a refused sheet."""
    number = access_refusal(sheet, operation)
    return (ACCESS, number, operation.index) if number else sheet.answer


def place_0(sheet, operation):
    group, number, place = refusal_of(sheet, operation)
    return group, number, 0 if group == ACCESS else place


def place_of_the_last(sheet, operation):
    """An index past the fields told as the field count."""
    group, number, place = refusal_of(sheet, operation)
    return group, number, min(place, len(sheet.fields)) if group == ACCESS else place


def value_cut(sheet, operation):
    """A value over the width cut to it."""
    outcome = carried_out(sheet, operation)
    if outcome.answer[:2] == (ACCESS, 4) and operation.what == WRITE_NUMBER:
        low = operation.value % 2 ** sheet.fields[operation.index].bits
        return carried_out(sheet, operation._replace(value=low))
    return outcome


def changed_though_refused(sheet, operation):
    """A value over the width refused after its low bits are written."""
    outcome = carried_out(sheet, operation)
    if outcome.answer[:2] == (ACCESS, 4) and operation.what == WRITE_NUMBER:
        bits = sheet.fields[operation.index].bits
        start, low = sheet.starts[operation.index], operation.value % 2 ** bits
        return outcome._replace(
            buffer=with_number(outcome.buffer, start, bits, low))
    return outcome


def cut_to_the_header(sheet, operation):
    """What stands after the header lost in a write."""
    answer, value, buffer = carried_out(sheet, operation)
    if answer == ACCEPTED and operation.value is not None:
        buffer = buffer[:sheet.length].ljust(len(buffer), b"\0")
    return Outcome(answer, value, buffer)


# Names of rules/accesses.py and what stands wrongly for them.
WRONG_ACCESSES = (
    ("number_in", read_low_bit_first), ("with_number", write_low_bit_first),
    ("number_in", read_from_the_low_end), ("with_number", write_from_the_low_end),
    ("number_in", read_low_byte_first), ("with_number", write_low_byte_first),
    ("with_number", shared_bytes_cleared), ("with_number", first_byte_cleared),
    ("with_number", last_byte_cleared), ("with_number", bits_only_set),
    ("with_number", nothing_written), ("with_bytes", nothing_written),
    ("with_bytes", bytes_after_cleared), ("with_bytes", bytes_turned),
    ("access_refusal", two_before_one), ("access_refusal", at_the_fields_end),
    ("access_refusal", a_byte_to_spare), ("access_refusal", three_before_two),
    ("access_refusal", four_before_two), ("access_refusal", four_before_three),
    ("access_refusal", fixed_before_width), ("access_refusal", fixed_before_kind),
    ("access_refusal", small_slices_as_numbers), ("access_refusal", without(5)),
    ("access_refusal", counted_wrong_by(-1)), ("access_refusal", counted_wrong_by(1)),
    ("access_refusal", what_stands_there),
    ("access_refusal", fixed_for_good), ("access_refusal", fixed_for_reads),
    ("refusal_of", never_refused_sheets), ("refusal_of", place_0),
    ("refusal_of", place_of_the_last), ("carried_out", value_cut),
    ("carried_out", changed_though_refused), ("carried_out", cut_to_the_header))
