"""Cases of step 2: each width, repr, arg and default on both sides of its line."""

from sheet_blocks import (
    ABSENT, BOOL, BYTES, CODE, NUMBER, SLICE, TRUTH, U8, U16, U32, U64, field)
from stored_sheets.rules.fields import Resolved
from stored_sheets.rules.groups import ACCEPTED, FIELD
from stored_sheets.rules.limits import MOST_BITS, MOST_NUMBER

# The type that each span of widths gives. 65 to 71 have none.
TYPE_OF_WIDTHS = ((1, 8, U8), (9, 16, U16), (17, 32, U32), (33, 64, U64),
                  (72, 72, SLICE))

# Widths up to 72 that may be stated as byte slice.
SLICE_WIDTHS = (16, 24, 32, 40, 48, 56, 64, 72)

# Widths of numbers that need no write guard.
GUARD_FREE = (8, 16, 32, 64)


def widths_to_72(cases):
    """Each width from 1 to 72 with each repr code, arg and default absent."""
    for first, last, code in TYPE_OF_WIDTHS:
        for bits in range(first, last + 1):
            for rep in range(7):
                title, block = f"{bits} bits, repr {rep}", field(bits=bits, repr=rep)
                if rep == SLICE and bits in SLICE_WIDTHS:
                    cases.add(title, block, ACCEPTED, "table",
                              field=Resolved(bits, 5, 5, 1, 0, 0, 2, 0, b""))
                elif rep in (0, code):
                    guard = 0 if bits in GUARD_FREE or code == SLICE else 1
                    cases.add(title, block, ACCEPTED, "table",
                              field=Resolved(bits, code, code, 1, 0, guard,
                                             2 if code == SLICE else 1, 0, b""))
                else:
                    cases.add(title, block, (FIELD, 2, 0), "table")
    for bits in range(65, 72):
        for rep in range(7):
            cases.field(1, f"{bits} bits, repr {rep}", field(bits=bits, repr=rep))


def wide_widths(cases):
    """Widths over 72, and 0."""
    for bits in (80, 88, 128, 256, 264, 3392, 3400, 65_536, 65_544, 2 ** 24,
                 2 ** 24 + 8, 33_554_408, 33_554_416, 33_554_424):
        cases.accepted(f"{bits} bits", field(bits=bits))
        cases.accepted(f"{bits} bits as byte slice", field(bits=bits, repr=SLICE))
        cases.accepted(f"{bits} bits, arg byte slice", field(bits=bits, arg=SLICE))
        cases.accepted(f"{bits} bits, arg code", field(bits=bits, arg=CODE))
        cases.field(2, f"{bits} bits as u8", field(bits=bits, repr=U8))
        cases.field(2, f"{bits} bits as u64", field(bits=bits, repr=U64))
        cases.field(2, f"{bits} bits as bool", field(bits=bits, repr=BOOL))
        cases.field(3, f"{bits} bits, arg u64", field(bits=bits, arg=U64))
        cases.field(3, f"{bits} bits, arg bool", field(bits=bits, arg=BOOL))
    for bits in (0, 73, 79, 81, 100, 127, 129, 257, 65_537, 2 ** 24 + 1, 33_554_417,
                 33_554_423, 33_554_425, 33_554_431, 33_554_432, 33_554_433,
                 33_554_440, 67_108_864, 2 ** 31, 2 ** 31 + 8, 2 ** 32 - 8,
                 2 ** 32 - 1):
        cases.field(1, f"{bits} bits", field(bits=bits))
        cases.field(1, f"{bits} bits as byte slice", field(bits=bits, repr=SLICE))


# Width, then for repr 0 to 6 the answers for arg 0 to 7: 0 accepted, else the
# number of the field refusal. The default is absent.
REPR_AND_ARG = """
 1 00333300 00333300 22222222 22222222 22222222 22222222 22222222
 7 00333330 00333330 22222222 22222222 22222222 22222222 22222222
 8 00333330 00333330 22222222 22222222 22222222 22222222 22222222
 9 03033330 22222222 03033330 22222222 22222222 22222222 22222222
16 03033330 22222222 03033330 22222222 22222222 03333030 22222222
17 03303330 22222222 22222222 03303330 22222222 22222222 22222222
24 03303330 22222222 22222222 03303330 22222222 03333030 22222222
32 03303330 22222222 22222222 03303330 22222222 03333030 22222222
33 03330330 22222222 22222222 22222222 03330330 22222222 22222222
64 03330330 22222222 22222222 22222222 03330330 03333030 22222222
65 11111111 11111111 11111111 11111111 11111111 11111111 11111111
72 03333030 22222222 22222222 22222222 22222222 03333030 22222222
80 03333030 22222222 22222222 22222222 22222222 03333030 22222222
"""


def reprs_and_args(cases):
    """Each repr code with each arg code, from the table."""
    for line in REPR_AND_ARG.split("\n")[1:-1]:
        bits, *row = line.split()
        for rep, digits in enumerate(row):
            for arg, digit in enumerate(digits):
                expected = ACCEPTED if digit == "0" else (FIELD, int(digit), 0)
                cases.add(f"{bits} bits, repr {rep}, arg {arg}",
                          field(bits=int(bits), repr=rep, arg=arg), expected, "table")


def number_defaults(cases):
    """Numbers on both sides of the largest value, for each width to 64."""
    for bits in range(1, 65):
        largest = int("1" * bits, 2)
        made = dict(bits=bits, kind=NUMBER)
        cases.accepted(f"{bits} bits, default 0", field(number=0, **made))
        cases.accepted(f"{bits} bits, default the largest",
                       field(number=largest, **made))
        cases.accepted(f"{bits} bits, fixed the largest",
                       field(number=largest, fixed=1, **made))
        if bits < 64:
            cases.field(6, f"{bits} bits, default one more",
                        field(number=largest + 1, **made))
            cases.field(6, f"{bits} bits, default 2^64 - 1",
                        field(number=MOST_NUMBER, fixed=bits % 2, **made))
    for number in (2 ** 8, 2 ** 16, 2 ** 32, 2 ** 32 + 1, 2 ** 56, 2 ** 63):
        cases.field(6, f"8 bits, default {number}", field(kind=NUMBER, number=number))
        cases.field(6, f"8 bits, arg code, default {number}",
                    field(arg=CODE, kind=NUMBER, number=number))
    for bits in (3, 8, 9, 16, 17, 32, 33, 63):
        largest = int("1" * bits, 2)
        cases.accepted(f"{bits} bits, code, default the largest",
                       field(bits=bits, arg=CODE, kind=NUMBER, number=largest))
        cases.field(6, f"{bits} bits, code, default one more",
                    field(bits=bits, arg=CODE, kind=NUMBER, number=largest + 1))


def bool_defaults(cases):
    """A bool arg, and defaults of kind 3, which never pass."""
    for number in (0, 1):
        for fixed in (0, 1):
            cases.accepted(f"bool arg, default {number}, fixed {fixed}",
                           field(bits=1, arg=BOOL, kind=NUMBER, number=number,
                                 fixed=fixed))
    for number in (2, 3, 255, 256, 257, 2 ** 32, 2 ** 63, MOST_NUMBER):
        cases.field(4, f"bool arg, default {number}",
                    field(bits=1, arg=BOOL, kind=NUMBER, number=number))
    for data in (b"", b"\0", b"\1", b"\0\0"):
        cases.field(4, f"bool arg, default bytes {data}",
                    field(bits=1, repr=U8, arg=BOOL, kind=BYTES, data=data))
    for number in (0, 1):
        for fixed in (0, 1):
            made = dict(kind=TRUTH, number=number, fixed=fixed)
            title = f"default bool {number}, fixed {fixed}"
            cases.field(4, f"{title}: bool arg", field(bits=1, arg=BOOL, **made))
            for bits, rep in ((16, SLICE), (64, SLICE), (72, ABSENT), (MOST_BITS, 0)):
                cases.field(5, f"{title}: slice of {bits} bits",
                            field(bits=bits, repr=rep, **made))
            for bits in (1, 2, 8, 9, 16, 32, 64):
                cases.field(6, f"{title}: {bits} bits", field(bits=bits, **made))
            cases.field(6, f"{title}: 1 bit, arg u8", field(bits=1, arg=U8, **made))
            cases.field(6, f"{title}: 1 bit, arg code", field(bits=1, arg=CODE, **made))
    cases.field(6, "1 bit, arg u8, default 2",
                field(bits=1, arg=U8, kind=NUMBER, number=2))
    cases.field(6, "1 bit, arg code, default 2",
                field(bits=1, arg=CODE, kind=NUMBER, number=2))


def byte_defaults(cases):
    """Byte defaults of one byte less, the right count and one more."""
    for count in (2, 3, 4, 5, 6, 7, 8, 9, 10, 32, 255, 256, 257, 423):
        made = dict(bits=8 * count, repr=SLICE, kind=BYTES)
        title = f"slice of {8 * count} bits"
        data = bytes(i % 255 + 1 for i in range(count + 1))
        cases.field(5, f"{title}, {count - 1} bytes", field(data=data[:-2], **made))
        cases.accepted(f"{title}, {count} bytes", field(data=data[:-1], **made))
        cases.field(5, f"{title}, {count + 1} bytes", field(data=data, **made))
        cases.field(7, f"{title}, fixed", field(data=data[:-1], fixed=1, **made))
        cases.field(5, f"{title}, fixed, one more", field(data=data, fixed=1, **made))
        cases.field(5, f"{title}, number 0", field(bits=8 * count, repr=SLICE,
                                                   kind=NUMBER))
    full = dict(kind=BYTES, data=b"\x5a" * 424)
    cases.field(5, "slice of 3392 bits, 423 bytes",
                field(bits=3392, kind=BYTES, data=b"\x5a" * 423))
    cases.accepted("slice of 3392 bits, 424 bytes", field(bits=3392, **full))
    cases.accepted("slice of 3392 bits, no default", field(bits=3392, repr=SLICE))
    cases.accepted("slice of 3392 bits, arg code", field(bits=3392, arg=CODE, **full))
    cases.field(7, "slice of 3392 bits, fixed", field(bits=3392, fixed=1, **full))
    cases.field(5, "slice of 3400 bits, 424 bytes", field(bits=3400, **full))
    cases.field(5, "slice of 33,554,424 bits, 424 bytes", field(bits=MOST_BITS, **full))
    # Counts that agree in their low bytes only.
    for more in (256, 65_536, 2 ** 21):
        cases.field(5, f"slice of {more} and 2 bytes, default of 2",
                    field(bits=8 * (more + 2), kind=BYTES, data=b"ab"))
    for bits in (65_536 * 8, 2 ** 24):
        cases.field(5, f"slice of {bits} bits, default of 0 bytes",
                    field(bits=bits, kind=BYTES))


def misplaced_defaults(cases):
    """Bytes where a number is due, and numbers where bytes are due."""
    for bits in (1, 7, 8, 9, 16, 24, 32, 40, 64):
        for fixed in (0, 1):
            cases.field(6, f"{bits} bits, bytes for a number, fixed {fixed}",
                        field(bits=bits, kind=BYTES, data=b"\1" * (bits // 8),
                              fixed=fixed))
    for bits in (72, 80, 3392, MOST_BITS):
        for number in (0, 1, MOST_NUMBER):
            cases.field(5, f"{bits} bits, number {number} for bytes",
                        field(bits=bits, kind=NUMBER, number=number))
    cases.field(5, "16 bits as slice, fixed number 0",
                field(bits=16, repr=SLICE, kind=NUMBER, fixed=1))
    cases.field(5, "72 bits, arg code, number 0",
                field(bits=72, arg=CODE, kind=NUMBER))
    cases.field(5, "72 bits, arg code, 8 bytes",
                field(bits=72, arg=CODE, kind=BYTES, data=b"8letters"))
    cases.field(7, "72 bits, arg code, 9 bytes fixed",
                field(bits=72, arg=CODE, kind=BYTES, data=b"9_letters", fixed=1))


# Width, code of the resolved repr, repr codes, arg codes, write guard.
COMBINATIONS = (
    (1, U8, (0, 1), (0, 1, 6, 7), 1), (8, U8, (0, 1), (0, 1, 7), 0),
    (5, U8, (0, 1), (0, 1, 7), 1), (16, U16, (0, 2), (0, 2, 7), 0),
    (32, U32, (0, 3), (0, 3, 7), 0), (24, U32, (0, 3), (0, 3, 7), 1),
    (64, U64, (0, 4), (0, 4, 7), 0), (16, SLICE, (5,), (0, 5, 7), 0),
    (64, SLICE, (5,), (0, 5, 7), 0), (72, SLICE, (0, 5), (0, 5, 7), 0))


def allowed_combinations(cases):
    """Each allowed choice of repr, arg, gen, default kind and fixed."""
    for bits, code, reps, args, guard in COMBINATIONS:
        data = bytes(range(1, bits // 8 + 1))
        if code == SLICE:
            defaults = ((0, 0, 0, b""), (BYTES, 0, 0, data))
        else:
            defaults = ((0, 0, 0, b""), (NUMBER, 0, 1, b""), (NUMBER, 1, 1, b""))
        for rep in reps:
            for arg in args:
                for gen in range(3):
                    for kind, fixed, number, stated in defaults:
                        block = field(b"f", bits, rep, arg, gen, kind, fixed,
                                      number, stated)
                        want = Resolved(bits, code, arg or code, int(gen != 1), fixed,
                                        1 if fixed else guard,
                                        BYTES if code == SLICE else NUMBER,
                                        number, stated)
                        codes = f"{rep} {arg} {gen} {kind} {fixed}"
                        cases.add(f"{bits} bits of type {code}, codes {codes}",
                                  block, ACCEPTED, "table", field=want)


SECTIONS = (
    widths_to_72, wide_widths, reprs_and_args, number_defaults, bool_defaults, byte_defaults,
    misplaced_defaults, allowed_combinations)
