"""Cases of step 1: lengths of sheets, block checks and kinds."""

import struct

from sheet_blocks import BLOCK, BYTES, CODE, NUMBER, SLICE, condition, field, length
from stored_sheets.cases.block_changes import balanced, patched
from stored_sheets.cases.known_sheets import lister_sheet, rfc_791_sheet
from stored_sheets.cases.sheet_texts import FULL, spelled
from stored_sheets.rules.blocks import number_at
from stored_sheets.rules.groups import ACCEPTED


def lengths_of_sheets(cases):
    """Sheet 1 and the lengths beside it."""
    one, full = spelled("F"), spelled(FULL)
    many = spelled("F*64 L0 L1 L2 C*33")
    cases.accepted("0 bytes", b"")
    cases.sheet(1, "1 byte", b"F")
    cases.sheet(1, "1 zero byte", b"\0")
    cases.sheet(1, "256 bytes", one[:256])
    cases.sheet(1, "511 bytes", one[:511])
    cases.accepted("512 bytes", one)
    cases.sheet(1, "513 bytes", one + b"\0")
    cases.sheet(1, "1,023 bytes", (one + one)[:1023])
    cases.accepted("1,024 bytes", one + one)
    cases.sheet(1, "50,687 bytes", full[:50_687])
    cases.accepted("50,688 bytes", full)
    cases.sheet(1, "50,689 bytes", full + b"\0")
    cases.sheet(1, "50,689 bytes, the last one F", full + b"F")
    cases.sheet(1, "51,199 bytes", many[:51_199])
    cases.sheet(1, "51,200 bytes", many)
    cases.sheet(1, "51,200 zero bytes", bytes(51_200))
    cases.sheet(1, "1,000 zero bytes", bytes(1_000))
    cases.sheet(2, "50,688 zero bytes", bytes(50_688))


def accepted_sheets(cases):
    """Sheets of many shapes that pass steps 1 and 2."""
    for text in ("L0", "L1", "L2", "C", "F L0", "F C", "L0 C", "F L0 C", "F*64",
                 "C*32", "F*64 C*32", "L0 L1 L2 C*32", "F*64 L0 L1 L2",
                 "F*63 L2 C*32", "F*2 L1 L0 C*3", "L0 L1 L2", "L0 L2 L1",
                 "L1 L0 L2", "L1 L2 L0", "L2 L0 L1", "L2 L1 L0", "L0 L1", "L0 L2",
                 "L1 L0", "L1 L2", "L2 L0", "L2 L1"):
        cases.spelled(text, ACCEPTED, "shape")
    cases.accepted("the lister's sheet", *lister_sheet())
    cases.accepted("RFC 791", *rfc_791_sheet())
    cases.accepted("RFC 791 without lengths", *rfc_791_sheet()[:12])
    cases.accepted("one name twice", field(b"same"), field(b"same"))
    cases.accepted("a field named type", field(b"type"))
    cases.accepted("bits no multiple of 8 in sum", field(bits=7))
    cases.accepted("byte slice off a byte boundary", field(bits=1), field(bits=72))
    cases.accepted("lengths of no field", field(b"f"), length(b"g"), condition(b"h"))
    cases.accepted("payload and packet", length(slot=1), length(slot=2))
    cases.accepted("conditions on one field", *[condition()] * 9)
    cases.accepted("empty range", condition(ranges=[(1, 1, 9, 4)]))
    cases.accepted("ranges that meet", condition(ranges=[(1, 1, 0, 9), (0, 0, 0, 0)]))
    cases.accepted("64 slices", *[field(bits=8 * i, repr=SLICE)
                                  for i in range(2, 66)])
    cases.accepted("64 stated fields", *[every_kind(i) for i in range(64)])


def every_kind(i):
    """An allowed field; neighbours differ in type, default, gen and name."""
    name = (b"n%d_" % i).ljust(i + 1, b"x")
    if i % 4 == 3:
        return field(name, 8 * i, SLICE, CODE if i % 8 == 3 else SLICE, i % 3,
                     BYTES, data=bytes(range(i)))
    return field(name, i + 1, arg=CODE if i % 5 == 0 else 0, gen=i % 3, kind=NUMBER,
                 fixed=i % 2, number=2 ** (i + 1) - 1 - i % 2)


def check_words(cases):
    """The block check, sheet 2."""
    free = {"F": (field(bits=64, kind=NUMBER, number=1), 82),
            "L": (length(form=2, first=1), 74),
            "C": (condition(ranges=[(1, 0, 1, 0)]), 76)}
    for kind, (block, offset) in free.items():
        for check in (0, 65_535):
            cases.accepted(f"{kind}: balanced, check word {check}",
                           balanced(block, offset, check))
        for check in (1, 255, 256, 32_768, 65_279, 65_534):
            cases.sheet(2, f"{kind}: balanced, check word {check}",
                        balanced(block, offset, check))
        word = number_at(block, 510, 512)
        for change in (-1, 1, 256, -256):
            check = struct.pack(">H", (word + change) % 65_536)
            cases.sheet(2, f"{kind}: check word changed by {change}",
                        block[:510] + check)
    cases.sheet(2, "all-zero block", bytes(BLOCK))
    cases.sheet(2, "all-zero block after one F", field(), bytes(BLOCK), place=1)
    cases.sheet(3, "zero block with check word 65,535", bytes(510) + b"\xff\xff")
    cases.sheet(3, "block of bytes 255", b"\xff" * BLOCK)
    cases.sheet(2, "block of bytes 255, check word 65,534",
                b"\xff" * 511 + b"\xfe")
    cases.accepted("block with 424 default bytes 255",
                   field(bits=3392, kind=BYTES, data=b"\xff" * 424))
    swapped = bytes(field()[i ^ 1] for i in range(BLOCK))
    cases.sheet(3, "all words swapped, the sum holds", swapped)
    block = field(bits=3392, kind=BYTES, data=b"\xff\xf1" * 212)
    plain = sum(struct.unpack(">255H", block[:510])) % 65_536
    cases.sheet(2, "check for a sum without the carries",
                block[:510] + struct.pack(">H", 65_535 - plain))
    cases.sheet(2, "check word holds the sum itself",
                block[:510] + struct.pack(">H", 65_535 - number_at(block, 510, 512)))


def flipped_bits(cases):
    """One bit changed and the block not sealed again, in each word."""
    block = field(b"flip", 16, kind=NUMBER, number=4660)
    for word in range(256):
        offset = 2 * word + word % 2
        body = bytearray(block)
        body[offset] ^= 1 << (word // 2 % 8)
        cases.sheet(2, f"unsealed change of byte {offset}", bytes(body))


def kind_bytes(cases):
    """Each value of byte 0. Everything else is a C block without ranges."""
    for value in range(256):
        title = f"kind byte {value}"
        block = patched(condition(), (0, value))
        if value == 70:
            cases.field(1, title, block)    # F with bits 0
        elif value == 76:
            cases.sheet(5, title, block)    # L of form 0 with a name
        elif value == 67:
            cases.accepted(title, block)    # C
        else:
            cases.sheet(3, title, block)


SECTIONS = (lengths_of_sheets, accepted_sheets, check_words, flipped_bits, kind_bytes)
