"""Cases of where each field starts, and which field a name finds."""

from sheet_blocks import condition, field, length
from stored_sheets.cases.header_names import N63, N64
from stored_sheets.rules.groups import ACCEPTED, HEADER


def positions(cases):
    """The start of each field, also where the header is refused."""
    title = "starts"
    cases.shaped("3 13 8 16s 72 1 7", ACCEPTED, title,
                 starts=[0, 3, 16, 24, 40, 112, 113])
    cases.shaped("64 64 64 64", ACCEPTED, title, starts=[0, 64, 128, 192])
    cases.shaped("1 2 3 4 5 6 7 8 9 10 11 12 13 14 15 16", ACCEPTED, title,
                 starts=[0, 1, 3, 6, 10, 15, 21, 28, 36, 45, 55, 66, 78, 91, 105, 120])
    cases.shaped("33554416 8", ACCEPTED, title, starts=[0, 33_554_416])
    cases.shaped("8 33554416", ACCEPTED, title, starts=[0, 8])
    cases.shaped("33554416 1 2 4 1", ACCEPTED, title,
                 starts=[0, 33_554_416, 33_554_417, 33_554_419, 33_554_423])
    cases.shaped("a:3 a:7 a:9", (HEADER, 1, 1), title, starts=[0, 3, 10])
    cases.shaped("type:3 7 9", (HEADER, 2, 0), title, starts=[0, 3, 10])
    cases.shaped("1 64 7 8", (HEADER, 3, 1), title, starts=[0, 1, 65, 72])
    cases.shaped("1 72 7 8", (HEADER, 4, 1), title, starts=[0, 1, 73, 80])
    cases.shaped("33554424 8 33554424 1", (HEADER, 5, 1), title,
                 starts=[0, 33_554_424, 33_554_432, 67_108_856])
    cases.shaped("3 7 9", (HEADER, 6, 3), title, starts=[0, 3, 10])
    cases.shaped("3 7 9 L0:a C:a", (HEADER, 6, 5), title, starts=[0, 3, 10])


def names_looked_up(cases):
    """The first field of each block's name."""
    none, title = 255, "lookup"
    for text, expected, found in (
            ("a:8 b:8 c:8 L0:a L1:c L2:b C:a C:b C:c C:d", ACCEPTED,
             [0, 1, 2, 0, 2, 1, 0, 1, 2, none]),
            ("a:8 L0:a", ACCEPTED, [0, 0]), ("a:8 C:a", ACCEPTED, [0, 0]),
            ("a:8 L0:b", ACCEPTED, [0, none]), ("a:8 C:b", ACCEPTED, [0, none]),
            ("a:8 L0 L1:a L2", ACCEPTED, [0, none, 0, none]),
            ("a:8 C:a C:a C:a", ACCEPTED, [0, 0, 0, 0]),
            ("a:8 L0:A C:A", ACCEPTED, [0, none, none]),
            ("name:8 L0:nam L1:names L2:name C:n C:ame C:Name C:name_", ACCEPTED,
             [0, none, none, 0, none, none, none, none]),
            ("na:8 nam:8 name:8 L0:name L1:nam L2:na C:names C:n", ACCEPTED,
             [0, 1, 2, 2, 1, 0, none, none]),
            ("name:8 nam:8 na:8 L0:name L1:nam L2:na", ACCEPTED, [0, 1, 2, 0, 1, 2]),
            ("a:8 L0:type C:type", ACCEPTED, [0, none, none]),
            ("types:8 L0:type C:types", ACCEPTED, [0, none, 0]),
            ("a:8 type:8 b:8 L0:type C:type C:b", (HEADER, 2, 1), [0, 1, 2, 1, 1, 2]),
            ("type:8 type:8 L0:type", (HEADER, 2, 0), [0, 0, 0]),
            ("a:8 a:8 L0:a C:a", (HEADER, 1, 1), [0, 0, 0, 0]),
            ("a:8 b:8 a:8 b:8 L0:a C:b", (HEADER, 1, 2), [0, 1, 0, 1, 0, 1]),
            ("b:8 a:8 a:8 a:8 C:a", (HEADER, 1, 2), [0, 1, 1, 1, 1]),
            ("a:1 b:64 c:7 L2:c C:b", (HEADER, 3, 1), [0, 1, 2, 2, 1]),
            ("a:1 b:72 c:7 L2:c C:b", (HEADER, 4, 1), [0, 1, 2, 2, 1]),
            ("a:33554424 b:8 c:8 L2:c C:b", (HEADER, 5, 1), [0, 1, 2, 2, 1]),
            ("a:8 b:3 L2:b C:a", (HEADER, 6, 4), [0, 1, 1, 0]),
            ("a:8 b:16s c:72 L1:b C:c", ACCEPTED, [0, 1, 2, 1, 2])):
        cases.shaped(text, expected, title, lookups=found)
    cases.shaped("a:8 8*30 b:8 8*31 c:8 L0:a L1:b L2:c C:c C:b C:a C:d", ACCEPTED,
                 title, lookups=[*range(64), 0, 31, 63, 63, 31, 0, none])
    cases.accepted("lookup of names of 64", field(N64), field(N63), field(N63 + b"a"),
                   length(N63 + b"a"), length(N63, 1), length(N64, 2),
                   condition(N63 + b"b"), condition(N64), condition(b"n"),
                   condition(b"n" * 62), lookups=[0, 1, 2, 2, 1, 0, none, 0, none, none])


SECTIONS = (positions, names_looked_up)
