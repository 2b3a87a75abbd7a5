"""Cases of step 3: where each refusal can stand, and which of two comes first."""

from sheet_blocks import BLOCK, BOOL, BYTES, NUMBER, SLICE, condition, field, length
from stored_sheets.cases.block_changes import patched, unsealed
from stored_sheets.cases.sheet_texts import FIELD_FAULTS, shaped
from stored_sheets.rules.groups import HEADER

# For each header refusal a text with that fault alone, and its place there.
# 1, 3, 4 and 5 cannot stand in the first field; 6 is told at the end.
FAULTS = {
    1: ("a:8 a:8", 1),
    2: ("type:8", 0),
    3: ("1 64 7", 1),
    4: ("1 72 7", 1),
    5: ("33554424 8", 1),
    6: ("3", 1),
}


def places_of_header_faults(cases):
    """Header 1 to 6 at the first place that they can have, at a middle and at the last.

    Header 1 at the last of 64 fields is in header_names.py.
    """
    for text, number, place in (
            ("a:8 a:8 8*6", 1, 1), ("8*6 a:8 8*8 a:8 8*4", 1, 15),
            ("8*5 a:8 a:8 L0:a C:a", 1, 6),
            ("type:8 8*6", 2, 0), ("8 type:8 8*6", 2, 1), ("8*15 type:8 8*4", 2, 15),
            ("8*63 type:8", 2, 63), ("type:8 L0:a C:a", 2, 0),
            ("1 64 7 8*6", 3, 1), ("8*14 1 64 7 8*4", 3, 15), ("8*62 1 64", 3, 63),
            ("8*5 7 58 L1:a C:a", 3, 6),
            ("1 72 7 8*6", 4, 1), ("8*14 1 16s 7 8*4", 4, 15), ("8*62 1 80", 4, 63),
            ("8*5 7 24s L1:a C:a", 4, 6),
            ("33554424 8*6", 5, 1), ("8*14 33554312 8*5", 5, 15),
            ("8*62 33553928 8", 5, 63), ("8*4 33554392 8 L1:a C:a", 5, 5),
            ("3", 6, 1), ("8*15 3 8*4", 6, 20), ("8*63 3", 6, 64),
            ("8*5 3 L1:a C:a", 6, 8)):
        cases.shaped(text, (HEADER, number, place), "place")


def two_faults_in_one_field(cases):
    """The earlier number wins. 1 and 2 cannot meet: the first `type` is header 2."""
    title = "one field"
    for text, number, place in (
            ("a:1 a:64 7", 1, 1), ("a:7 8 a:58 7", 1, 2),                     # 1, 3
            ("a:1 a:72 7", 1, 1), ("a:4 a:16s 4", 1, 1),                      # 1, 4
            ("a:33554424 a:8", 1, 1), ("8 a:8 a:33554424", 1, 2),             # 1, 5
            ("a:8 a:3", 1, 1), ("a:3 a:8", 1, 1), ("a:33554424 a:7", 1, 1),   # 1, 6
            ("1 type:64 7", 2, 1), ("7 type:58 7", 2, 1),                     # 2, 3
            ("1 type:72 7", 2, 1), ("4 type:16s 4", 2, 1),                    # 2, 4
            ("33554424 type:8", 2, 1), ("8 type:33554424", 2, 1),             # 2, 5
            ("type:3", 2, 0), ("8 type:3", 2, 1), ("33554424 type:7", 2, 1),  # 2, 6
            ("1 64s 7", 3, 1), ("7 64s 1", 3, 1), ("8 3 64s 5", 3, 2),        # 3, 4
            ("33554368 1 64 7", 3, 2), ("33554424 1 64 7", 3, 2),             # 3, 5
            ("33554368 7 58", 3, 2), ("1 64", 3, 1), ("7 58", 3, 1),          # 3, 6
            ("8 1 33554424 7", 4, 2), ("33554416 1 16s 7", 4, 2),             # 4, 5
            ("33554424 4 72 4", 4, 2), ("4 33554424", 4, 1),                  # 4, 5
            ("4 72", 4, 1), ("4 16s", 4, 1),                                  # 4, 6
            ("33554424 9", 5, 1), ("33554424 63", 5, 1),                      # 5, 6
            ("33554416 7 10", 5, 2),
            ("a:1 a:64s 7", 1, 1), ("1 type:64s 7", 2, 1),
            ("33554368 a:1 a:64s", 1, 2), ("33554368 1 type:64s", 2, 2),
            ("33554368 1 64s", 3, 2), ("33554416 a:1 a:16s", 1, 2),
            ("33554416 1 type:16s", 2, 2), ("33554416 1 16s", 4, 2)):
        cases.shaped(text, (HEADER, number, place), title)


def faults_in_two_fields(cases):
    """The earlier field wins, whatever the numbers. Header 6 comes after all fields."""
    for first, (text, place) in FAULTS.items():
        if first == 6:
            continue
        for second, (other, _) in FAULTS.items():
            other = other.replace("a:", "b:")
            cases.shaped(f"{text} {other}", (HEADER, first, place),
                         f"two fields, {first} and {second}", source="table")
    title = "two fields"
    for text, number, place in (
            ("a:8 b:8 type:8 a:8", 2, 2), ("a:8 b:8 a:8 type:8", 1, 2),
            ("a:1 64 a:7", 3, 1), ("a:1 a:7 1 64 7", 1, 1),
            ("a:1 72 a:7", 4, 1), ("a:1 62 a:1 1 72", 1, 2),
            ("a:33554424 8 a:8", 5, 1), ("a:33554416 a:8 8 8", 1, 1),
            ("type:1 64 7", 2, 0), ("1 64 type:7", 3, 1),
            ("1 type:7 1 64 7", 2, 1), ("1 64 7 type:8", 3, 1),
            ("type:1 72 7", 2, 0), ("1 72 type:7", 4, 1),
            ("type:33554424 8", 2, 0), ("33554424 8 type:8", 5, 1),
            ("1 64s 72", 3, 1), ("1 72 64s", 4, 1), ("1 16s 64", 4, 1),
            ("7 58 16s", 3, 1), ("1 64 33554424", 3, 1),
            ("33554424 9 64", 5, 1), ("33554424 9 72", 5, 1),
            ("33554368 1 64 8", 3, 2), ("33554416 16 1 64", 5, 1),
            ("33554416 15 72", 4, 2), ("33554416 16 1 72", 5, 1),
            ("1 33554424 8", 4, 1), ("3 a:8 a:8", 1, 2), ("3 type:8", 2, 1),
            ("3 8 62", 3, 2), ("3 8 72", 4, 2), ("33554424 3 5", 5, 2),
            ("3 8 3", 6, 3)):
        cases.shaped(text, (HEADER, number, place), title)


def step_2_before_step_3(cases):
    """A field fault in any field comes before a header fault in any field."""
    for header, (text, _) in FAULTS.items():
        for number, made in FIELD_FAULTS.items():
            before, fault = shaped(text), field(b"z", **made)
            cases.field(number, f"header {header} [{text}], then field {number}",
                        before, fault, place=len(before) // BLOCK)
            if header in (1, 6):
                cases.field(number, f"field {number}, then header {header} [{text}]",
                            fault, before, place=0)
    for number, made in FIELD_FAULTS.items():
        cases.field(number, f"one field: type and field {number}", field(b"type", **made))
        cases.field(number, f"one field: equal names and field {number}",
                    field(b"a"), field(b"a", **made), place=1)
    one = field(b"one", 1)
    for number, made in (
            (1, dict(bits=65)), (1, dict(bits=33_554_432)),
            (2, dict(bits=64, repr=3)), (3, dict(bits=64, arg=BOOL)),
            (5, dict(bits=64, repr=SLICE, kind=BYTES, data=b"seven__")),
            (5, dict(bits=72, kind=NUMBER)), (6, dict(bits=64, kind=BYTES)),
            (7, dict(bits=16, repr=SLICE, kind=BYTES, data=b"ab", fixed=1))):
        cases.field(number, f"one field: off a boundary and field {number} {made}",
                    one, field(b"b", **made), place=1)
    wide = field(b"w", 33_554_424)
    cases.field(1, "33,554,424 bits, then 0 bits", wide, field(b"b", 0), place=1)
    cases.field(1, "33,554,424 bits, then 8 and 0 bits", wide, field(b"a"),
                field(b"b", 0), place=2)


def step_1_before_step_3(cases):
    """A fault of step 1 in any block comes before a header fault in any field."""
    bad, odd = unsealed(condition()), patched(condition(), (0, b"X"))
    stray = patched(condition(), (509, 1))
    for header, (text, _) in FAULTS.items():
        before = shaped(text)
        count = len(before) // BLOCK
        title = f"header {header} [{text}], then"
        cases.sheet(1, f"{title} one byte", before, b"\0")
        cases.sheet(2, f"{title} a bad check", before, bad, place=count)
        cases.sheet(3, f"{title} an unknown kind", before, odd, place=count)
        cases.sheet(4, f"{title} 33 conditions", before, *[condition()] * 33,
                    place=count + 32)
        cases.sheet(5, f"{title} a stray byte", before, stray, place=count)
        cases.sheet(6, f"{title} a slot twice", before, length(), length(),
                    place=count + 1)


SECTIONS = (
    places_of_header_faults, two_faults_in_one_field, faults_in_two_fields,
    step_2_before_step_3, step_1_before_step_3)
