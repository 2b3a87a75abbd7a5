"""Cases of sheet 5: names, and each byte of F and L blocks."""

from sheet_blocks import (
    ABSENT, BOOL, BYTES, CODE, NUMBER, SLICE, TRUTH, condition, field, length, tree)
from stored_sheets.cases.block_changes import patched
from stored_sheets.cases.samples import ranges_of, tree_of_32
from stored_sheets.rules.limits import MOST_NUMBER

MAKERS = {"F": field, "L": length, "C": condition}


def name_lengths(cases):
    """The name length and the bytes after the name."""
    for kind, make in MAKERS.items():
        for good in (1, 2, 63, 64):
            cases.accepted(f"{kind}: name of {good}", make(b"n" * good))
        for low, high in ((b"!", b"~"), (b"~", b"!")):
            cases.accepted(f"{kind}: name {low}", make(low))
            cases.accepted(f"{kind}: name of 64, {low} first, {high} last",
                           make(low * 32 + high * 32))
        cases.sheet(5, f"{kind}: name length 0, no letters", make(b"", name_length=0))
        cases.sheet(5, f"{kind}: name length 0, one letter", make(name_length=0))
        for bad in (65, 66, 128, 255):
            cases.sheet(5, f"{kind}: name length {bad}",
                        make(b"n" * 64, name_length=bad))
        for letters, stated in ((1, 2), (63, 64), (2, 1), (64, 63), (64, 1), (1, 64)):
            cases.sheet(5, f"{kind}: {letters} letters, name length {stated}",
                        make(b"n" * letters, name_length=stated))
        cases.sheet(5, f"{kind}: name with a zero in the middle", make(b"a\0b"))
        cases.sheet(5, f"{kind}: name that ends in a zero", make(b"ab\0"))
    # The bytes of bits could be read as letters of a longer name.
    for bad in (65, 66, 67, 68):
        cases.sheet(5, f"F: name length {bad}, bits of letters",
                    field(b"n" * 64, 0x61616161, name_length=bad))


def name_bytes(cases):
    """Bytes 33 to 126 are inside a name, all others are outside."""
    for kind, make in MAKERS.items():
        for at in (0, 2, 4, 31, 63):
            letters = 5 if at < 5 else at + 1
            for value in (33, 126):
                name = bytearray(b"n" * letters)
                name[at] = value
                cases.accepted(f"{kind}: letter {at} of {letters} is {value}",
                               make(bytes(name)))
            for value in (0, 31, 32, 127, 128, 255):
                name = bytearray(b"n" * letters)
                name[at] = value
                cases.sheet(5, f"{kind}: letter {at} of {letters} is {value}",
                            make(bytes(name)))
    for value in range(256):
        title = f"one letter, {value}"
        if value in range(33, 127):
            cases.accepted(title, field(bytes([value])))
        else:
            cases.sheet(5, title, field(bytes([value])))


def stray(cases, title, block, *spans):
    """Sheet 5 for each byte of the spans, set to one of the eight bits."""
    for start, end in spans:
        for offset in range(start, end):
            assert block[offset] == 0
            cases.sheet(5, f"{title}: byte {offset} not zero",
                        patched(block, (offset, 1 << offset % 8)))


def unnamed_bytes(cases):
    """Each byte that the layout leaves zero, for each kind of block."""
    stray(cases, "F without default", field(), (3, 66), (74, 510))
    stray(cases, "L of form 1", length(), (3, 66), (68, 510))
    stray(cases, "L, tree of the field", tree((1, 0, 0, 0)),
          (3, 66), (68, 84), (85, 88), (89, 510))
    stray(cases, "C without ranges", condition(), (3, 66), (67, 510))

    stray(cases, "F with number", field(kind=NUMBER, number=5),
          (75, 76), (84, 88), (300, 301), (509, 510))
    stray(cases, "F with bytes", field(bits=16, repr=SLICE, kind=BYTES, data=b"ab"),
          (75, 84), (88, 92), (300, 301), (509, 510))
    stray(cases, "F with bool", field(kind=TRUTH), (75, 83), (84, 88), (509, 510))
    stray(cases, "L of form 0", length(form=0),
          (1, 66), (68, 92), (300, 301), (509, 510))
    for form in (2, 3):
        stray(cases, f"L of form {form}", length(form=form, first=7),
              (76, 92), (300, 301), (509, 510))
    for form in (4, 5):
        stray(cases, f"L of form {form}", length(form=form, first=7, second=8),
              (84, 92), (300, 301), (509, 510))
    stray(cases, "L, tree of a number", tree((0, 0, 0, 9)),
          (68, 84), (85, 88), (89, 92), (100, 104), (509, 510))
    stray(cases, "L, tree of 32", tree(*tree_of_32()), (68, 84), (85, 88), (472, 510))
    stray(cases, "C with one range", condition(ranges=[(1, 2, 3, 9)]),
          (67, 68), (86, 90), (300, 301), (509, 510))
    stray(cases, "C with 24 ranges", condition(ranges=ranges_of(24)),
          (67, 68), (500, 510))


def beyond(cases, title, block, offset, values):
    """Sheet 5 for each value of one byte."""
    for value in values:
        cases.sheet(5, f"{title} {value}", patched(block, (offset, value)))


def f_codes(cases):
    """The code bytes 70 to 75 of an F block."""
    stated = field(kind=NUMBER, number=1)
    beyond(cases, "F: repr", field(), 70, (7, 8, 16, 128, 255))
    beyond(cases, "F: arg", field(), 71, (8, 9, 16, 128, 255))
    beyond(cases, "F: gen", field(), 72, (3, 4, 16, 128, 255))
    beyond(cases, "F: default kind", field(), 73, (4, 5, 16, 128, 255))
    beyond(cases, "F: fixed", stated, 74, (2, 3, 16, 128, 255))
    beyond(cases, "F: byte 75", stated, 75, (1, 2, 128, 255))
    cases.field(2, "F: repr 6", field(repr=BOOL))
    cases.field(2, "F: repr 6 on 1 bit", field(bits=1, repr=BOOL))
    cases.accepted("F: arg 7", field(arg=CODE))
    cases.accepted("F: gen 0", field(gen=0))
    cases.accepted("F: gen 1", field(gen=1))
    cases.accepted("F: gen 2", field(gen=2))
    cases.field(6, "F: default kind 3", field(kind=TRUTH))
    cases.accepted("F: fixed 0", field(kind=NUMBER, number=1, fixed=0))
    cases.accepted("F: fixed 1", field(kind=NUMBER, number=1, fixed=1))
    cases.sheet(5, "F: fixed 1 without default", field(fixed=1))
    cases.sheet(5, "F: fixed 1 without default, 72 bits", field(bits=72, fixed=1))
    cases.accepted("F: fixed 0 given as number 0", field(kind=NUMBER, fixed=1))


def f_numbers(cases):
    """The number of an F block, zero for kinds 0 and 2, 0 or 1 for kind 3."""
    for number in (1, 2, 256, 2 ** 63, MOST_NUMBER):
        cases.sheet(5, f"F: kind 0, number {number}", field(number=number))
        cases.sheet(5, f"F: kind 2, number {number}",
                    field(bits=16, repr=SLICE, kind=BYTES, data=b"ab", number=number))
    for number in (0, 1):
        cases.field(6, f"F: kind 3, number {number}", field(kind=TRUTH, number=number))
    for number in (2, 3, 255, 256, 257, 2 ** 32, 2 ** 32 + 1, 2 ** 63, MOST_NUMBER):
        cases.sheet(5, f"F: kind 3, number {number}", field(kind=TRUTH, number=number))
    for offset in range(76, 84):
        block = patched(field(bits=64, kind=NUMBER), (offset, 255))
        cases.accepted(f"F: kind 1, byte {offset} is 255", block)


def f_counts(cases):
    """The byte count of an F block, and the bytes after those counted."""
    for kind in (ABSENT, NUMBER, TRUTH):
        for count in (1, 2, 255, 256, 424, 425, 65_535):
            cases.sheet(5, f"F: kind {kind}, count {count}",
                        field(kind=kind, count=count))
    for count in (2, 3, 255, 256, 257, 423, 424):
        block = field(bits=8 * count, repr=SLICE, kind=BYTES, data=b"\1" * count)
        cases.accepted(f"F: kind 2, count {count}", block)
    cases.accepted("F: kind 2, bytes all zero",
                   field(bits=3392, kind=BYTES, data=bytes(424)))
    for count in (425, 426, 511, 512, 32_768, 65_535):
        cases.sheet(5, f"F: kind 2, count {count}",
                    field(bits=3392, kind=BYTES, data=b"\1" * 424, count=count))
        cases.sheet(5, f"F: kind 2, count {count}, bits for it",
                    field(bits=8 * count, kind=BYTES, data=b"\1" * 424, count=count))
    cases.field(5, "F: kind 2, count 0", field(bits=16, repr=SLICE, kind=BYTES))
    cases.field(6, "F: kind 2, count 0, u8", field(kind=BYTES))
    for count in (0, 2, 9, 255, 256, 300, 423):
        block = field(bits=8 * max(count, 2), repr=SLICE, kind=BYTES,
                      data=b"\1" * count)
        for offset in sorted({86 + count, 509}):
            cases.sheet(5, f"F: count {count}, byte {offset} not zero",
                        patched(block, (offset, 1)))


def l_codes(cases):
    """Slot, form and name of an L block."""
    for slot in range(3):
        for form in range(7):
            nodes = [(1, 0, 0, 0)] if form == 6 else ()
            cases.accepted(f"L: slot {slot}, form {form}",
                           length(slot=slot, form=form, nodes=nodes))
    beyond(cases, "L: slot", length(), 66, (3, 4, 16, 128, 255))
    beyond(cases, "L: form", length(), 67, (7, 8, 16, 128, 255))
    beyond(cases, "L: no name, form", length(form=0), 67, (1, 2, 3, 4, 5, 6, 7, 255))
    beyond(cases, "L: no name, slot", length(form=0), 66, (3, 4, 255))
    beyond(cases, "L: form 1, node count", length(), 84, (1, 32, 255))
    beyond(cases, "L: form 5, node count", length(form=5), 84, (1, 32, 255))
    cases.sheet(5, "L: form 0 with a name", length(b"f", form=0))
    cases.sheet(5, "L: form 0 with a name of 64", length(b"f" * 64, form=0))
    cases.sheet(5, "L: form 0, a letter, length 0", length(b"f", form=0, name_length=0))
    cases.sheet(5, "L: form 0, no letter, length 1", length(form=0, name_length=1))
    cases.sheet(5, "L: no name, tree", tree((1, 0, 0, 0), name=b""))


def l_numbers(cases):
    """The two numbers of an L block; those a form does not use are zero."""
    for number in (0, 1, 2 ** 32, 2 ** 63, MOST_NUMBER):
        for form in (2, 3):
            cases.accepted(f"L: form {form}, first {number}",
                           length(form=form, first=number))
        for form in (4, 5):
            cases.accepted(f"L: form {form}, first {number}",
                           length(form=form, first=number, second=1))
            cases.accepted(f"L: form {form}, second {number}",
                           length(form=form, first=1, second=number))
    for form in (0, 1, 6):
        nodes = [(1, 0, 0, 0)] if form == 6 else ()
        cases.sheet(5, f"L: form {form}, first 1",
                    length(form=form, first=1, nodes=nodes))
    for form in (0, 1, 2, 3, 6):
        nodes = [(1, 0, 0, 0)] if form == 6 else ()
        cases.sheet(5, f"L: form {form}, second 1",
                    length(form=form, second=1, nodes=nodes))


SECTIONS = (
    name_lengths, name_bytes, unnamed_bytes, f_codes, f_numbers, f_counts, l_codes, l_numbers)
