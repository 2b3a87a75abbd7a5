"""Cases of header 3 and 4: the bytes that a field touches, and byte slices off a boundary."""

from sheet_blocks import SLICE, field
from stored_sheets.rules.groups import ACCEPTED, HEADER


def bytes_touched(start, width):
    """The bytes that hold the bits, each bit looked at by itself."""
    return {bit // 8 for bit in range(start, start + width)}


def filled(text, bits):
    """The text with a last field that fills the last byte."""
    return text if bits % 8 == 0 else f"{text} {8 - bits % 8}"


def touched_bytes(cases):
    """Header 3: each start bit with each width to 64 that touches a ninth byte.

    Those that touch no more than 8 bytes are in templates.py.
    """
    for start in range(8):
        for width in range(1, 65):
            if len(bytes_touched(start, width)) > 8:
                cases.shaped(filled(f"{start} {width}", start + width), (HEADER, 3, 1),
                             "ninth byte", source="table")
    title = "touched"
    cases.shaped("7 57", ACCEPTED, title)
    cases.shaped("1 63", ACCEPTED, title)
    cases.shaped("64", ACCEPTED, title)
    cases.shaped("8 7 57", ACCEPTED, title)
    cases.shaped("8 7 58 7", (HEADER, 3, 2), title)
    cases.shaped("7 1 64", ACCEPTED, title)
    cases.shaped("64 64 64", ACCEPTED, title)
    cases.shaped("7 57 7 57", ACCEPTED, title)
    cases.shaped("7 57 7 58 7", (HEADER, 3, 3), title)
    cases.shaped("7 58", (HEADER, 3, 1), title)
    cases.shaped("1 64", (HEADER, 3, 1), title)
    cases.shaped("33 31 1 64 7", (HEADER, 3, 3), title)
    cases.shaped("63 1 64", ACCEPTED, title)
    cases.shaped("63 2 64 7", (HEADER, 3, 2), title)
    cases.shaped("3 59 2 62 2", ACCEPTED, title)
    cases.shaped("3 61 61 3", ACCEPTED, title)
    cases.shaped("3 62 63", (HEADER, 3, 1), title)
    cases.shaped("1*7 57", ACCEPTED, title)
    cases.shaped("1*7 58 7", (HEADER, 3, 7), title)
    cases.shaped("72 1 64 7", (HEADER, 3, 2), title)
    cases.shaped("72 64", ACCEPTED, title)
    cases.shaped("33554352 7 57", ACCEPTED, title)
    cases.shaped("33554352 7 58 7", (HEADER, 3, 2), title)
    cases.shaped("33554352 8 64", ACCEPTED, title)
    cases.shaped("33554352 1 64 7", (HEADER, 3, 2), title)


def byte_slices(cases):
    """Header 4: byte slices at each start bit, stated to 64 bits and inferred over.

    One of 64 bits off a boundary touches nine bytes and is header 3.
    """
    for start in range(8):
        before = f"{start} " if start else ""
        for word, number in (("16s", 4), ("24s", 4), ("32s", 4), ("40s", 4), ("48s", 4),
                             ("56s", 4), ("64s", 3), ("72", 4), ("80s", 4),
                             ("65536", 4), ("33554416", 4)):
            cases.shaped(filled(f"{before}{word}", start),
                         (HEADER, number, 1) if start else ACCEPTED, "slice",
                         source="table")
    title = "slices"
    cases.shaped("16s 24s 72 64s 33554184", ACCEPTED, title)
    cases.shaped("3 5 16s", ACCEPTED, title)
    cases.shaped("1*8 72", ACCEPTED, title)
    cases.shaped("1*7 72 1", (HEADER, 4, 7), title)
    cases.shaped("1*9 72 7", (HEADER, 4, 9), title)
    cases.shaped("4 16 4", ACCEPTED, title)
    cases.shaped("4 16s 4", (HEADER, 4, 1), title)
    cases.shaped("12 16s 4", (HEADER, 4, 1), title)
    cases.shaped("12 4 16s", ACCEPTED, title)
    cases.shaped("4 4 4 16s 4", (HEADER, 4, 3), title)
    cases.shaped("16s 4 24s 4", (HEADER, 4, 2), title)
    cases.shaped("7 57 64s", ACCEPTED, title)
    cases.shaped("57 64s 7", (HEADER, 3, 1), title)
    cases.shaped("57 56s 7", (HEADER, 4, 1), title)
    cases.shaped("4 16s 4 24s", (HEADER, 4, 1), title)
    cases.shaped("4 72 72 4", (HEADER, 4, 1), title)
    cases.shaped("72 4 72 4", (HEADER, 4, 2), title)
    cases.shaped("4 16s", (HEADER, 4, 1), title)
    cases.shaped("33554400 4 16s 4", (HEADER, 4, 2), title)


def items_of_slices(cases):
    """Header 4 whatever the arg and the default."""
    for arg in (0, 5, 7):
        block = field(b"b", 16, SLICE, arg)
        cases.header(4, f"slice off a boundary, arg {arg}", field(b"a", 4), block,
                     field(b"c", 4), place=1)
    for data in (b"\0\0", b"ab"):
        block = field(b"b", 16, SLICE, kind=2, data=data)
        cases.header(4, f"slice off a boundary, default {data}", field(b"a", 4), block,
                     field(b"c", 4), place=1)


SECTIONS = (touched_bytes, byte_slices, items_of_slices)
