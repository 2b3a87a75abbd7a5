"""The sheets whose fields are read and written: accepted ones, then refused ones."""

from sheet_blocks import NUMBER, U8, U16, U32, U64, field
from stored_sheets.cases.block_changes import unsealed
from stored_sheets.cases.case_list import Cases
from stored_sheets.cases.chance import Chance
from stored_sheets.cases.conds import fields_of_conds
from stored_sheets.cases.header_bytes import bytes_touched
from stored_sheets.cases.header_precedence import places_of_header_faults
from stored_sheets.cases.known_sheets import lister_sheet, rfc_791_sheet
from stored_sheets.cases.layouts import f_codes
from stored_sheets.cases.lengths import known_sheets
from stored_sheets.cases.sheet_and_field_precedence import second_slots
from stored_sheets.cases.sheet_texts import told, written
from stored_sheets.cases.sheets import lengths_of_sheets
from stored_sheets.cases.templates import mixed_digits
from stored_sheets.cases.tree_forms import faults_of_trees
from stored_sheets.rules.groups import COND, FIELD, HEADER, LENGTH, SHEET


def documented_sheets():
    """The lister's sheet, RFC 791, the same with a fixed version, and no block at all."""
    internet = rfc_791_sheet()
    version = field(b"version", 4, kind=NUMBER, number=4, fixed=1)
    return [("the lister's sheet", b"".join(lister_sheet())),
            ("RFC 791", b"".join(internet)),
            ("RFC 791, version fixed", b"".join([version, *internet[1:]])),
            ("no fields", b"")]


# Widths that stand at each start bit that they may have, as do those over 57.
NAMED_WIDTHS = (1, 7, 8, 9, 15, 16, 17, 31, 32, 33, 56, 57)


def start_bits(width):
    """The start bits at which a width stands. Header 3 allows no ninth byte."""
    allowed = [start for start in range(8) if len(bytes_touched(start, width)) <= 8]
    if width in NAMED_WIDTHS or width > 57:
        return allowed
    return [start for start in allowed if (start - width // 8) % 8 in (0, 3, 6)]


def number_word(chance, width):
    """A number field for `written`: no default, zeros, ones, or one by chance."""
    way = chance.below(6)
    if way < 3:
        return ".01"[way] * width
    return mixed_digits(chance, width) + ("c" if way == 3 else "")


def next_width(left, start, count):
    """Takes out a width whose end has the most left, the widest and the narrowest by turns."""
    widths = left[start]
    most = max(len(left[(start + width) % 8]) for width in widths)
    good = [width for width in widths if len(left[(start + width) % 8]) == most]
    width = good[-(count % 2)]
    widths.remove(width)
    return width


def chain(chance, left, lead, most):
    """The text of up to `most` fields, the first of `lead` bits, the last to fill a byte.

    `left` has for each start bit the widths still to be used. Where there is
    none, a short field leads to a start bit that has some.
    """
    words, bits = [number_word(chance, lead)], lead
    if lead in left[0]:
        left[0].remove(lead)
    while any(left) and len(words) < most - 1:
        step = next(step for step in range(8) if left[(bits + step) % 8])
        width = step or next_width(left, bits % 8, len(words))
        words.append(number_word(chance, width))
        bits += width
    if bits % 8 != 0:
        words.append(number_word(chance, -bits % 8))
    return " ".join(words)


def chained_numbers():
    """Each width to 64 at its start bits, one behind another.

    The first sheet has 64 fields, the others up to 16. Their first fields have
    1 to 7 bits by turns.
    """
    chance = Chance(64)
    left = [[width for width in range(64, 0, -1) if start in start_bits(width)]
            for start in range(8)]
    texts = []
    while any(left):
        texts.append(chain(chance, left, 1 + len(texts) % 7, 16 if texts else 64))
    return [(f"numbers one behind another, {count}", written(text))
            for count, text in enumerate(texts)]


MIXED_53 = bytes(i * 11 % 256 for i in range(53)).hex()
MIXED_424 = bytes(i * 7 % 256 for i in range(424)).hex()

# Byte slices of 2, 3, 8, 9, 16, 53 and 424 bytes, with and without a default,
# between number fields.
SLICES = (
    "1111 0000 x6162 0000 1111 o2 1010101 0",
    "101 11111 o3 0 ....... xff00ff 11111111",
    "1111111 0 o8 1111111111111 000 x0123456789abcdef 1 0000000",
    "00000000 x010203040506070809 11 000000 o9 01 111111",
    "1 1111111 o16 00000001 xfedcba98765432100123456789abcdef 1000 0001",
    f"0110 1001 o53 .......... 111111 x{MIXED_53} 11111111",
    f"1010 0101 o424 11111111 x{MIXED_424} 111 00000")

# Fixed numbers: 0, the largest and between, on 1 to 64 bits. `?` is the arg bool.
FIXED = (
    "0000! 1111! 0110! 1010",
    "1?! 0?! 1? .? 1! 0! 1 0",
    "111 1010101010101! 00000000! 1 1111111!",
    f"{'0' * 64}! {'1' * 64}! {0x0123456789abcdef:064b}!",
    f"1 {0x4123456789abcdef:063b}! 11 {0x12345678f:033b}! 00000")

# For `told`: fields whose gen is false, with the arg code or bool, and sheets
# with L and C blocks.
TOLD = (
    "a:3=5 b:13c=4660 c:16s d:8g=7! e:24sc f:1b=1 g:1b h:6a=33",
    "x:8=5 y:16=9 z:8=3! L0=x L2=y*2 C:x=0..9",
    "a:4=1 x:12=9 L0 T1=2+(3*x) C:a=..3,9.. C:x",
    "h:4=15! v:4=6 p:16 s:32s L0=h*4 L1=p C:v=6..6 C:p=0..<1500",
    "a:1=1 b:2=2 c:3 d:4=9! e:5 f:6=33 g:7 h:4 C:a C:b=0..1,2..3 C:c C:d=9.. C:e C:f "
    "C:g=..<5 C:h")


def stated_types():
    """Reprs and args stated as what they are inferred to be anyway."""
    return b"".join(field(b"u%d" % bits, bits, code, code, 2, NUMBER, 0, 0x81)
                    for bits, code in ((8, U8), (16, U16), (32, U32), (64, U64)))


def accepted_sheets():
    """Title and sheet of each that is accepted."""
    return [*documented_sheets(), *chained_numbers(),
            *[(f"slices, {count}", written(text)) for count, text in enumerate(SLICES)],
            *[(f"fixed, {count}", written(text)) for count, text in enumerate(FIXED)],
            *[(f"told [{text}]", told(text)) for text in TOLD],
            ("stated types", stated_types())]


# Sections of cases, with the steps that they state, and those cases of them
# that are taken, each with its answer.
REFUSED = (
    (lengths_of_sheets, 2, "511 bytes", (SHEET, 1, 0)),
    (lengths_of_sheets, 2, "513 bytes", (SHEET, 1, 0)),
    (f_codes, 2, "F: fixed 1 without default", (SHEET, 5, 0)),
    (second_slots, 2, "[L0 L1 L0]", (SHEET, 6, 2)),
    (f_codes, 2, "F: repr 6", (FIELD, 2, 0)),
    (f_codes, 2, "F: default kind 3", (FIELD, 6, 0)),
    (places_of_header_faults, 3, "place [8*5 7 58 L1:a C:a]", (HEADER, 3, 6)),
    (places_of_header_faults, 3, "place [8*5 3 L1:a C:a]", (HEADER, 6, 8)),
    (known_sheets, 5, "the lister's sheet, hl*2", (LENGTH, 10, 5)),
    (faults_of_trees, 5, "tree [x:72 T0=2*x]", (LENGTH, 4, 1)),
    (known_sheets, 5, "the lister's sheet, ver twice", (COND, 7, 8)),
    (fields_of_conds, 5, "name [x:8 C:y]", (COND, 1, 1)))


def taken(section, steps, title):
    """The sheet of one case of a section."""
    cases = Cases()
    cases.steps = steps
    section(cases)
    return next(case.sheet for case in cases if case.title == title)


def refused_sheets():
    """Title, sheet and answer of each that is refused."""
    lister = lister_sheet()
    lister[3] = unsealed(lister[3])
    return [("the lister's sheet, a bad check", b"".join(lister), (SHEET, 2, 3)),
            *[(title, taken(section, steps, title), expected)
              for section, steps, title, expected in REFUSED]]
