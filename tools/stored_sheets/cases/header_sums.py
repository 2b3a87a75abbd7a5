"""Cases of header 5 and 6: the bits of all fields, at the limit and within the last byte."""

from sheet_blocks import BLOCK, condition, length
from stored_sheets.cases.header_names import N64
from stored_sheets.cases.sheet_texts import shaped
from stored_sheets.rules.groups import ACCEPTED, HEADER


def sums_of_two(cases):
    """Header 5 by the second of two fields. 33,554,431 bits do not pass the limit."""
    title = "two fields"
    cases.shaped("33554424", ACCEPTED, title)
    cases.shaped("33554424s", ACCEPTED, title)
    for bits in range(1, 8):
        cases.shaped(f"33554424 {bits}", (HEADER, 6, 2), title)
    for bits in (8, 9, 10, 14, 15, 16, 17, 32, 57, 63, 64, 72, 33_554_416, 33_554_424):
        cases.shaped(f"33554424 {bits}", (HEADER, 5, 1), title)
    cases.shaped("33554424 16s", (HEADER, 5, 1), title)
    cases.shaped("33554416 8", ACCEPTED, title)
    for bits in (1, 7, 9, 10, 14, 15):
        cases.shaped(f"33554416 {bits}", (HEADER, 6, 2), title)
    for bits in (16, 17, 23, 24, 64, 72):
        cases.shaped(f"33554416 {bits}", (HEADER, 5, 1), title)
    cases.shaped("33554360 64", ACCEPTED, title)
    cases.shaped("33554368 63", (HEADER, 6, 2), title)
    cases.shaped("33554368 64", (HEADER, 5, 1), title)
    cases.shaped("33554352 72", ACCEPTED, title)
    cases.shaped("33554360 72", (HEADER, 5, 1), title)
    cases.shaped("8 33554416", ACCEPTED, title)
    cases.shaped("8 33554424", (HEADER, 5, 1), title)
    cases.shaped("16 33554416", (HEADER, 5, 1), title)
    cases.shaped("16 33554408", ACCEPTED, title)
    cases.shaped("64 33554360", ACCEPTED, title)
    cases.shaped("64 33554368", (HEADER, 5, 1), title)
    cases.shaped("7 33554424", (HEADER, 4, 1), title)
    cases.shaped("16777216 16777208", ACCEPTED, title)
    cases.shaped("16777208 16777216", ACCEPTED, title)
    cases.shaped("16777216 16777216", (HEADER, 5, 1), title)
    cases.shaped("16777216 16777224", (HEADER, 5, 1), title)
    cases.shaped("33488896 65528", ACCEPTED, title)
    cases.shaped("33488896 65536", (HEADER, 5, 1), title)


def sums_of_more(cases):
    """Header 5 by the field that crosses, after one that ends near the limit."""
    title = "the limit"
    cases.shaped("33554416 7 1", ACCEPTED, title)
    cases.shaped("33554416 7 2", (HEADER, 6, 3), title)
    cases.shaped("33554416 7 8", (HEADER, 6, 3), title)
    cases.shaped("33554416 7 9", (HEADER, 5, 2), title)
    cases.shaped("33554416 7 10", (HEADER, 5, 2), title)
    cases.shaped("33554424 7 1", (HEADER, 5, 2), title)
    cases.shaped("33554424 1 7", (HEADER, 5, 2), title)
    cases.shaped("33554424 7 8", (HEADER, 5, 2), title)
    cases.shaped("33554424 7 9", (HEADER, 5, 2), title)
    cases.shaped("33554424 1 64", (HEADER, 3, 2), title)
    cases.shaped("33554424 4 3", (HEADER, 6, 3), title)
    cases.shaped("33554424 4 3 L0:x C:y", (HEADER, 6, 5), title)
    cases.shaped("33554424 4 4 L0:x C:y", (HEADER, 5, 2), title)
    cases.shaped("33554424 1*7", (HEADER, 6, 8), title)
    cases.shaped("33554424 1*8", (HEADER, 5, 8), title)
    cases.shaped("33554424 1*9", (HEADER, 5, 8), title)
    cases.shaped("33554424 1*24", (HEADER, 5, 8), title)
    cases.shaped("33554416 8 1*7", (HEADER, 6, 9), title)
    cases.shaped("33554416 8 1*8", (HEADER, 5, 9), title)


def sums_of_large_parts(cases):
    """Header 5 by the field that crosses, with other fields of any size before it."""
    title = "the limit"
    cases.shaped("8*3 33554400", ACCEPTED, title)
    cases.shaped("8*3 33554408", (HEADER, 5, 3), title)
    cases.shaped("8 33554408 8", ACCEPTED, title)
    cases.shaped("8 33554408 16", (HEADER, 5, 2), title)
    cases.shaped("8 33554416 8", (HEADER, 5, 2), title)
    cases.shaped("8 33554424 8", (HEADER, 5, 1), title)
    cases.shaped("16777216 16777208 8 8 8", (HEADER, 5, 2), title)
    cases.shaped("16777208 16777216 7 8 8", (HEADER, 5, 3), title)
    cases.shaped("11184808*3", ACCEPTED, title)
    cases.shaped("11184808*2 11184816", (HEADER, 5, 2), title)
    cases.shaped("11184808 11184816 11184808", (HEADER, 5, 2), title)
    cases.shaped("11184816 11184808*2", (HEADER, 5, 2), title)
    cases.shaped("11184808 22369616", ACCEPTED, title)
    cases.shaped("11184808 22369624 8 8", (HEADER, 5, 1), title)
    cases.shaped("11184808*4", (HEADER, 5, 3), title)
    cases.shaped("33554424*3", (HEADER, 5, 1), title)
    cases.shaped("8 16 33554424 8", (HEADER, 5, 2), title)
    cases.shaped("4194296*8", ACCEPTED, title)
    cases.shaped("4194296*9", (HEADER, 5, 8), title)
    cases.shaped("4194296*8 56", ACCEPTED, title)
    cases.shaped("4194296*8 57", (HEADER, 6, 9), title)
    cases.shaped("4194296*8 63", (HEADER, 6, 9), title)
    cases.shaped("4194296*8 64", (HEADER, 5, 8), title)
    cases.shaped("4194296*8 56 8", (HEADER, 5, 9), title)
    cases.shaped("4194304*7 4194296", ACCEPTED, title)
    cases.shaped("4194304*8", (HEADER, 5, 7), title)
    cases.shaped("a:33554424 b:8 a:8", (HEADER, 5, 1), title)
    cases.shaped("a:33554416 b:8 a:8 c:8", (HEADER, 1, 2), title)
    cases.shaped("a:33554424 b:8 type:8", (HEADER, 5, 1), title)


def sums_of_64(cases):
    """Many wide fields, some of them far past the limit."""
    title = "many wide fields"
    cases.shaped("33554424*64", (HEADER, 5, 1), title,
                 starts=[33_554_424 * i for i in range(64)])
    cases.shaped("524288*63 524280", ACCEPTED, title)
    cases.shaped("524288*64", (HEADER, 5, 63), title)
    cases.shaped("1048576*31 1048568 8*2", (HEADER, 5, 32), title)


def remainders(cases):
    """Header 6, whose place is the count of all blocks."""
    title = "remainder"
    for bits in range(1, 8):
        cases.shaped(f"{bits}", (HEADER, 6, 1), title)
        cases.shaped(f"8 {bits}", (HEADER, 6, 2), title)
        cases.shaped(f"{bits} 8", (HEADER, 6, 2), title)
        cases.shaped(f"{bits} {8 - bits}", ACCEPTED, title)
        cases.shaped(f"72 {bits}", (HEADER, 6, 2), title)
        cases.shaped(f"{bits + 8}", (HEADER, 6, 1), title)
        cases.shaped(f"{bits + 56}", (HEADER, 6, 1), title)
        cases.shaped(f"{bits} L0:a", (HEADER, 6, 2), title)
        cases.shaped(f"{bits} C:a", (HEADER, 6, 2), title)
        cases.shaped(f"8 {bits} L1:a C:a*3", (HEADER, 6, 6), title)
        cases.shaped(f"{bits} L0 L1 L2 C:a C:b", (HEADER, 6, 6), title)
    cases.shaped("3 6", (HEADER, 6, 2), title)
    cases.shaped("3 6 7", ACCEPTED, title)
    cases.shaped("64 64 63", (HEADER, 6, 3), title)
    cases.shaped("1*23", (HEADER, 6, 23), title)
    cases.shaped("1*64 L0 L1 L2 C:a*32", ACCEPTED, title)
    cases.shaped("1*63 2 L0 L1 L2 C:a*32", (HEADER, 6, 99), title)
    cases.shaped("3 L0 L1 L2 C:a*32", (HEADER, 6, 36), title)


def no_fields(cases):
    """A header of 0 bytes."""
    for text in ("", "L0:a", "L0", "C:a", "L0 C:a", "L2:a L1:b L0:c",
                 "L0 L1:a L2 C:a*32"):
        sheet = shaped(text)
        cases.accepted(f"no fields [{text}]", sheet, template=b"", starts=[],
                       lookups=[255] * (len(sheet) // BLOCK))
    cases.accepted("no fields, names of 64", length(N64), condition(N64),
                   template=b"", lookups=[255, 255])


SECTIONS = (
    sums_of_two, sums_of_more, sums_of_large_parts, sums_of_64, remainders, no_fields)
