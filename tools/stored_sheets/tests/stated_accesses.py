"""Reads and writes, each with its outcome written beside it."""

import re

from stored_sheets.cases.block_changes import unsealed
from stored_sheets.cases.known_sheets import lister_sheet
from stored_sheets.cases.sheet_texts import told, written
from stored_sheets.rules import accesses
from stored_sheets.rules.accesses import (
    MIXED, ONES, READ_BYTES, READ_NUMBER, WRITE_BYTES, WRITE_NUMBER, ZEROS, Operation, Outcome,
    opened)
from stored_sheets.rules.groups import ACCEPTED, ACCESS, LENGTH, SHEET

FILLINGS = {"zeros": ZEROS, "ones": ONES, "mixed": MIXED}

# The first 16 bytes of each filling.
BEFORE = {ZEROS: "00" * 16, ONES: "ff" * 16, MIXED: "0b30557a9fc4e90e33587da2c7ec1136"}

LISTER = b"".join(lister_sheet())
BAD_CHECK = LISTER[:7 * 512] + unsealed(LISTER[7 * 512:])

# 3 bits fixed to 4, 5 bits, 2 bytes, 13 bits and 3: 5 bytes.
PARTS = written("100! 11111 x6162 1010101010101 ...")

SEVEN_AND_57 = written(f"{'.' * 7} {'.' * 57}")
PLAIN_64 = written("." * 64)
FIXED_64 = written(f"{0x0123456789abcdef:064b}!")
TOP = "0xffffffffffffffff"

# Sheet, operation and outcome. The operation names the length of the buffer,
# its filling, the kind, the field and after `=` what is written. The outcome
# is the refusal; or what the read gives, bytes as hex; or the buffer after the
# write. Where none is stated the buffer is as before.
STATED = (
    # The bits of 0b 30 55 are 0000 1011 001100000101 0 101.
    (LISTER, "3 mixed: number 0", 0), (LISTER, "3 mixed: number 1", 11),
    (LISTER, "3 mixed: number 2", 0x305), (LISTER, "3 mixed: number 3", 0),
    (LISTER, "3 mixed: number 4", 5), (LISTER, "8 mixed: number 4", 5),
    (LISTER, "3 ones: number 2", 4095), (LISTER, "3 zeros: number 2", 0),
    (LISTER, "3 zeros: number 0 = 1", "100000"),
    (LISTER, "3 ones: number 1 = 0", "f0ffff"),
    (LISTER, "3 zeros: number 2 = 0xabc", "00abc0"),
    (LISTER, "3 ones: number 2 = 0xabc", "ffabcf"),
    (LISTER, "3 mixed: number 2 = 0xabc", "0babc5"),
    (LISTER, "3 mixed: number 3 = 1", "0b305d"),
    (LISTER, "3 ones: number 3 = 0", "fffff7"),
    (LISTER, "3 mixed: number 4 = 2", "0b3052"),
    (LISTER, "3 mixed: number 4 = 5", "0b3055"),
    (LISTER, "8 ones: number 4 = 0", "fffff8ffffffffff"),
    # Access 1: fields 0 to 4. Blocks 5 to 7 are no fields.
    (LISTER, "3 mixed: number 5", (ACCESS, 1, 5)),
    (LISTER, "3 mixed: bytes 6", (ACCESS, 1, 6)),
    (LISTER, "3 mixed: number 7 = 0", (ACCESS, 1, 7)),
    (LISTER, "3 mixed: bytes 255 = 00", (ACCESS, 1, 255)),
    # 1 and 2 at once.
    (LISTER, "2 mixed: number 5", (ACCESS, 1, 5)),
    (LISTER, "0 mixed: bytes 255 = ff", (ACCESS, 1, 255)),
    # Access 2: the header has 3 bytes, though fields 0 and 1 are in the first.
    (LISTER, "2 mixed: number 0", (ACCESS, 2, 0)),
    (LISTER, "2 ones: number 1 = 0", (ACCESS, 2, 1)),
    (LISTER, "0 zeros: number 4", (ACCESS, 2, 4)),
    # 2 and 3 at once, 2 and 4 at once.
    (LISTER, "2 mixed: bytes 1", (ACCESS, 2, 1)),
    (LISTER, "2 mixed: bytes 2 = 0abc", (ACCESS, 2, 2)),
    (LISTER, "2 mixed: number 0 = 16", (ACCESS, 2, 0)),
    # Access 3 of numbers.
    (LISTER, "3 mixed: bytes 2", (ACCESS, 3, 2)),
    (LISTER, "3 mixed: bytes 2 = 0abc", (ACCESS, 3, 2)),
    (LISTER, "3 mixed: bytes 0 =", (ACCESS, 3, 0)),
    # Access 4 of numbers: the largest and one more.
    (LISTER, "3 zeros: number 0 = 15", "f00000"),
    (LISTER, "3 mixed: number 0 = 16", (ACCESS, 4, 0)),
    (LISTER, "3 mixed: number 3 = 2", (ACCESS, 4, 3)),
    (LISTER, "3 zeros: number 2 = 4095", "00fff0"),
    (LISTER, "3 mixed: number 2 = 4096", (ACCESS, 4, 2)),
    (LISTER, f"3 mixed: number 2 = {TOP}", (ACCESS, 4, 2)),
    # The bits of 0b 30 55 7a 9f are 000 01011, two bytes, 0111101010011 111.
    (PARTS, "5 mixed: number 0", 0), (PARTS, "5 mixed: number 1", 11),
    (PARTS, "5 mixed: number 3", 0xf53), (PARTS, "5 mixed: number 4", 7),
    (PARTS, "5 mixed: bytes 2", "3055"), (PARTS, "8 ones: bytes 2", "ffff"),
    (PARTS, "5 zeros: number 3 = 0x1234", "00000091a0"),
    (PARTS, "5 ones: number 3 = 0x1234", "ffffff91a7"),
    (PARTS, "8 mixed: number 3 = 0x1234", "0b305591a7c4e90e"),
    (PARTS, "5 mixed: bytes 2 = 6162", "0b61627a9f"),
    (PARTS, "8 ones: bytes 2 = 0001", "ff0001ffffffffff"),
    # Access 3 of bytes, and 3 and 4 at once.
    (PARTS, "5 mixed: number 2", (ACCESS, 3, 2)),
    (PARTS, "5 mixed: number 2 = 0x3055", (ACCESS, 3, 2)),
    (PARTS, "5 mixed: number 2 = 65536", (ACCESS, 3, 2)),
    (PARTS, f"5 mixed: number 2 = {TOP}", (ACCESS, 3, 2)),
    # Access 4 of bytes.
    (PARTS, "5 mixed: bytes 2 = 61", (ACCESS, 4, 2)),
    (PARTS, "5 mixed: bytes 2 = 616263", (ACCESS, 4, 2)),
    (PARTS, "5 mixed: bytes 2 =", (ACCESS, 4, 2)),
    (PARTS, "4 mixed: bytes 2 = 61", (ACCESS, 2, 2)),
    # Access 5: 4 is the default. What stands there is none. 12 is 4 in 3 bits.
    (PARTS, "5 mixed: number 0 = 4", "8b30557a9f"),
    (PARTS, "5 ones: number 0 = 4", "9fffffffff"),
    (PARTS, "5 mixed: number 0 = 0", (ACCESS, 5, 0)),
    (PARTS, "5 mixed: number 0 = 5", (ACCESS, 5, 0)),
    (PARTS, "5 mixed: number 0 = 7", (ACCESS, 5, 0)),
    # 4 and 5 at once, 3 and 5 at once, 2 and 5 at once.
    (PARTS, "5 mixed: number 0 = 8", (ACCESS, 4, 0)),
    (PARTS, "5 mixed: number 0 = 12", (ACCESS, 4, 0)),
    (PARTS, "5 mixed: bytes 0 = 07", (ACCESS, 3, 0)),
    (PARTS, "4 mixed: number 0 = 5", (ACCESS, 2, 0)),
    # Eight bytes.
    (SEVEN_AND_57, "8 mixed: number 0", 5),
    (SEVEN_AND_57, "8 mixed: number 1", 0x0130557a9fc4e90e),
    (SEVEN_AND_57, "8 ones: number 0 = 0x55", "abffffffffffffff"),
    (SEVEN_AND_57, "8 zeros: number 1 = 0x1ffffffffffffff", "01ffffffffffffff"),
    (SEVEN_AND_57, "9 ones: number 1 = 1", "fe00000000000001ff"),
    (SEVEN_AND_57, "8 zeros: number 1 = 0x200000000000000", (ACCESS, 4, 1)),
    (PLAIN_64, "8 mixed: number 0", 0x0b30557a9fc4e90e),
    (PLAIN_64, "9 ones: number 0 = 0x0123456789abcdef", "0123456789abcdefff"),
    (PLAIN_64, f"8 zeros: number 0 = {TOP}", "ff" * 8),
    (FIXED_64, "8 ones: number 0 = 0x0123456789abcdef", "0123456789abcdef"),
    (FIXED_64, "8 mixed: number 0 = 0x0123456789abcdee", (ACCESS, 5, 0)),
    (FIXED_64, f"8 mixed: number 0 = {TOP}", (ACCESS, 5, 0)),
    # No field, and a header of 0 bytes.
    (b"", "0 zeros: number 0", (ACCESS, 1, 0)),
    (b"", "5 mixed: bytes 0 = 00", (ACCESS, 1, 0)),
    # The sheet's own refusal first, with access 1, 2, 3 and 4 besides.
    (BAD_CHECK, "3 mixed: number 0", (SHEET, 2, 7)),
    (BAD_CHECK, "2 mixed: bytes 200 = 00", (SHEET, 2, 7)),
    (LISTER[:-1], "3 mixed: bytes 0", (SHEET, 1, 0)),
    (told("x:8 L0=x"), "1 ones: number 0 = 256", (LENGTH, 10, 1)),
    (told("x:8 L0=x"), "0 ones: number 1", (LENGTH, 10, 1)))

WORDS = re.compile(r"(\d+) (zeros|ones|mixed): (number|bytes) (\d+)( =)? ?(\w*)")


def operation_of(text):
    """The operation that a text names."""
    size, filling, kind, index, sign, value = WORDS.fullmatch(text).groups()
    if sign is None:
        what, value = READ_NUMBER if kind == "number" else READ_BYTES, None
    elif kind == "number":
        what, value = WRITE_NUMBER, int(value, 0)
    else:
        what, value = WRITE_BYTES, bytes.fromhex(value)
    return Operation(what, int(index), FILLINGS[filling], int(size), value)


def outcome_of(operation, stated):
    """The outcome that is stated for an operation."""
    before = bytes.fromhex(BEFORE[operation.filling])[:operation.size]
    if isinstance(stated, tuple):
        return Outcome(stated, None, before)
    if operation.value is not None:
        return Outcome(ACCEPTED, None, bytes.fromhex(stated))
    value = stated if isinstance(stated, int) else bytes.fromhex(stated)
    return Outcome(ACCEPTED, value, before)


def missed():
    """The first stated operation whose outcome is another one by the rule, or None."""
    for sheet, text, stated in STATED:
        operation = operation_of(text)
        found = accesses.carried_out(opened(sheet), operation)
        if found != outcome_of(operation, stated):
            return text
    return None
