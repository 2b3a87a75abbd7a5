"""Cases of the three length slots: which are given, and the fields that they name."""

from sheet_blocks import NUMBER, field, length
from stored_sheets.cases.header_names import N63, N64
from stored_sheets.cases.lengths import only
from stored_sheets.rules.groups import ACCEPTED, LENGTH


def undefined_slots(cases):
    """Each slot absent, undefined or x, in each order of the L blocks.

    Length 1 wherever slots 1 and 2 are both given, undefined or not.
    """
    words = (None, "L%d", "L%d=x")
    for kinds in [(i, j, k) for i in range(3) for j in range(3) for k in range(3)]:
        given = [words[kind] % slot for slot, kind in enumerate(kinds) if kind]
        held = [(None, (), (1, 0, 0, 255, 1))[kind] for kind in kinds]
        for order in orders_of(given):
            text = " ".join(["x:8=1", *order])
            if kinds[1] and kinds[2]:
                cases.told(text, (LENGTH, 1, 1 + len(given)), "slots", source="table")
            else:
                cases.told(text, ACCEPTED, "slots", source="table", lengths=held)


def orders_of(words):
    """All orders of a list."""
    if not words:
        return [[]]
    return [[word, *rest] for i, word in enumerate(words)
            for rest in orders_of(words[:i] + words[i + 1:])]


def slots_of_lengths(cases):
    """Two slots with two fields, and the order in which the facts tell them."""
    for text, held in (
            ("x:8=9 y:8 L0=x L1=y", [(1, 0, 0, 255, 9), (1, 0, 0, 255, 0), None]),
            ("x:8=9 y:8 L1=y L0=x", [(1, 0, 0, 255, 9), (1, 0, 0, 255, 0), None]),
            ("x:8=9 y:8=3 L2=y*2 L0=x+1",
             [(2, 1, 0, 256, 10), None, (3, 2, 0, 510, 6)]),
            ("y:8=3 x:8=9 L2=(x+1)*2 L0=y*2+3",
             [(5, 2, 3, 513, 9), None, (4, 1, 2, 512, 20)]),
            ("x:16=9 y:16 L0 L1=y", [(), (1, 0, 0, 65_535, 0), None]),
            ("x:16=9 y:16 L1=y L0", [(), (1, 0, 0, 65_535, 0), None]),
            ("x:16=9 y:16 L0=x L2", [(1, 0, 0, 65_535, 9), None, ()]),
            ("x:16=9 y:16 L2 L0=x", [(1, 0, 0, 65_535, 9), None, ()]),
            ("x:8g L0", [(), None, None]), ("x:72 L1 L0", [(), (), None]),
            ("x:8=1 L0=x C:x", [(1, 0, 0, 255, 1), None, None])):
        cases.told(text, ACCEPTED, "two slots", lengths=held)


def names_of_lengths(cases):
    """Length 3: no field has the name. Names that are near one are no help."""
    for text, place in (
            ("L0=x", 0), ("L1=x", 0), ("L2=x", 0), ("x:8=5 L0=y", 1), ("x:8=5 L1=X", 1),
            ("x:8=5 L2=xx", 1), ("xx:8=5 L0=x", 1), ("x:8=5 y:8 z:8 L1=w", 3),
            ("name:8=5 L2=nam", 1), ("name:8=5 L0=names", 1), ("name:8=5 L1=Name", 1),
            ("name:8=5 L2=namE", 1), ("name:8=5 L0=ame", 1), ("x:8=5 L1=type", 1),
            ("L2=type*0", 0), ("x:8=5 L1=y*0", 1), ("x:8=5 L2=(y+1)*0", 1)):
        cases.told(text, (LENGTH, 3, place), "name")
    for text in ("xx:8a x:8=5 L0=x", "x:8=5 xx:8a L1=x", "X:8a Y:8a x:8=5 L0=x",
                 "nam:8a name:8=5 names:8a L2=name", "a:8a b:8a c:8=5 L0=c",
                 "c:8=5 a:8a b:8a L1=c", "a:8a c:8=5 b:8a L2=c"):
        cases.told(text, ACCEPTED, "name")
    near = [field(N63), field(N64, gen=1, kind=NUMBER, number=5), field(N63 + b"a")]
    cases.accepted("length by a name of 64", *near, length(N64),
                   lengths=only(0, (1, 0, 0, 255, 5)))
    cases.length(5, "length by a name of 63 beside one of 64", *near, length(N63, 1),
                 place=3)
    cases.length(3, "length by a name of 64 with another end", *near,
                 length(N63 + b"b", 2), place=3)


def length_1(cases):
    """Payload and packet both given, by the count of all blocks."""
    for text in ("L1 L2", "L2 L1", "L1=x L2=x", "L0 L1 L2", "L2 L1 L0", "L1 L0 L2",
                 "x:8 L1=x L2=x", "x:8 L1=x*0 L2=x*0", "x:8 y:8 L2=y L1=x",
                 "x:8=3 y:8 z:8 L0=x L1=y L2=z", "x:8=3 y:8 z:8 L2=z L1=y L0=x",
                 "x:8 L1=x L2=x C:x", "L1 L2 C:x", "x:8 L1 L2 C:x=0..5 C:x",
                 "x:8 L1 L2=x C:x", "x:16s L1=x L2=x", "x:8g L1=x L2=x",
                 "a:8 b:8 c:8 d:8 e:8 f:8 g:8 L2=a L0 L1=b C:c C:d"):
        cases.told(text, (LENGTH, 1, len(text.split())), "payload and packet")
    for text, held in (("L0 L1", [(), (), None]), ("L1 L0", [(), (), None]),
                       ("L0 L2", [(), None, ()]), ("L2 L0", [(), None, ()])):
        cases.told(text, ACCEPTED, "header with another", lengths=held)


SECTIONS = (undefined_slots, slots_of_lengths, names_of_lengths, length_1)
