"""Cases of header 1 and 2: the names of fields."""

from sheet_blocks import field
from stored_sheets.rules.groups import ACCEPTED, HEADER

N63 = b"n" * 63
N64 = b"n" * 64

# Pairs of names that differ, each used in both orders.
DIFFERENT_NAMES = (
    (b"a", b"b"), (b"a", b"A"), (b"z", b"Z"), (b"@", b"`"), (b"!", b"~"),
    (b"abc", b"abd"), (b"abc", b"bbc"), (b"abc", b"acc"), (b"ab", b"ba"),
    (b"name", b"Name"), (b"name", b"namE"), (b"name", b"NAME"),
    (b"a", b"ab"), (b"ab", b"abc"), (b"b", b"ab"), (b"a", b"aa"),
    (b"n", N64), (N63, N64), (b"n" * 32, N64), (b"n" * 8, b"n" * 9),
    (N63 + b"a", N63 + b"b"), (N63 + b"n", N63 + b"N"), (b"a" + N63, b"b" + N63),
    (b"n" * 32 + b"a" + b"n" * 31, b"n" * 32 + b"b" + b"n" * 31),
    (b"n" * 7 + b"a", b"n" * 7 + b"b"), (b"n" * 8 + b"a", b"n" * 8 + b"b"),
    (b"ab" * 32, b"ba" * 32))

SAME_NAMES = (b"a", b"A", b"!", b"~", b"ab", b"name", b"types", b"n" * 8, b"n" * 32,
              N63, N64, bytes(range(63, 127)))


def names_of_fields(cases):
    """Header 1: the name of an earlier field."""
    for pair in DIFFERENT_NAMES:
        for first, second in (pair, pair[::-1]):
            cases.accepted(f"names {first} and {second}", field(first), field(second))
    for name in SAME_NAMES:
        cases.header(1, f"the name {name} twice", field(name), field(name), place=1)
    title = "equal names"
    cases.shaped("a:8 b:8 c:8", ACCEPTED, title)
    cases.shaped("a:8 b:8 a:8", (HEADER, 1, 2), title)
    cases.shaped("a:8 a:8 b:8", (HEADER, 1, 1), title)
    cases.shaped("a:8 b:8 b:8", (HEADER, 1, 2), title)
    cases.shaped("a:8 a:8 a:8", (HEADER, 1, 1), title)
    cases.shaped("a:8 b:8 b:8 a:8", (HEADER, 1, 2), title)
    cases.shaped("a:8 b:8 a:8 b:8", (HEADER, 1, 2), title)
    cases.shaped("a:1 b:64 a:7", (HEADER, 3, 1), title)
    cases.shaped("a:1 b:62 a:1", (HEADER, 1, 2), title)
    cases.shaped("a:8 a:16", (HEADER, 1, 1), title)
    cases.shaped("a:8 a:16s", (HEADER, 1, 1), title)
    cases.shaped("a:72 a:8", (HEADER, 1, 1), title)
    cases.shaped("a:8 L0:a C:a", ACCEPTED, title)
    cases.shaped("a:8 b:8 L0:a L1:a C:a C:a", ACCEPTED, title)


def fields_named_type(cases):
    """Header 2: the name `type`. A name that holds it or is near it passes."""
    title = "type"
    cases.shaped("type:8", (HEADER, 2, 0), title)
    cases.shaped("a:8 type:8", (HEADER, 2, 1), title)
    cases.shaped("type:8 a:8", (HEADER, 2, 0), title)
    cases.shaped("type:8 type:8", (HEADER, 2, 0), title)
    cases.shaped("a:8 type:8 type:8", (HEADER, 2, 1), title)
    cases.shaped("type:8 type:8 type:8", (HEADER, 2, 0), title)
    cases.shaped("types:8 type:8", (HEADER, 2, 1), title)
    cases.shaped("type:16s", (HEADER, 2, 0), title)
    cases.shaped("type:72", (HEADER, 2, 0), title)
    cases.shaped("type:33554424", (HEADER, 2, 0), title)
    cases.shaped("type:8 L0:type C:type", (HEADER, 2, 0), title)
    for name in ("types", "typ", "Type", "TYPE", "tYpe", "tyPe", "typE", "type_",
                 "_type", "ttype", "typee", "epyt", "typetype", "type1", "t", "ty"):
        cases.shaped(f"{name}:8", ACCEPTED, title)
    cases.shaped("types:8 typ:8 Type:8", ACCEPTED, title)
    cases.shaped("types:8 types:8", (HEADER, 1, 1), title)
    cases.accepted("type and 60 letters", field(b"type".ljust(64, b"s")))
    cases.accepted("60 letters and type", field(b"type".rjust(64, b"s")))
    cases.accepted("type in quotes", field(b'"type"'))
    cases.shaped("L0:type", ACCEPTED, title)
    cases.shaped("C:type", ACCEPTED, title)
    cases.shaped("a:8 L0:type", ACCEPTED, title)
    cases.shaped("a:8 C:type", ACCEPTED, title)
    cases.shaped("a:8 L0:type L2:type C:type C:type", ACCEPTED, title)


def many_names(cases):
    """64 fields, and 8 with long names, of which the last shares a name."""
    title = "64 names"
    cases.shaped("8*64", ACCEPTED, title)
    cases.shaped("a:8 8*62 a:8", (HEADER, 1, 63), title)
    cases.shaped("8*62 a:8 a:8", (HEADER, 1, 63), title)
    long_names = [field(N63 + bytes([33 + i])) for i in range(8)]
    cases.accepted("8 names of 64, the last letters differ", *long_names)
    for same in (0, 6):
        cases.header(1, f"8 names of 64, the last is that of {same}",
                     *long_names[:7], long_names[same], place=7)


SECTIONS = (names_of_fields, fields_named_type, many_names)
