"""Cases of step 5: fields, ends of ranges, ranges that meet, and how many entries."""

from sheet_blocks import BYTES, SLICE, condition, field
from stored_sheets.cases.header_names import N63, N64
from stored_sheets.cases.sheet_texts import told
from stored_sheets.rules.groups import ACCEPTED, COND
from stored_sheets.rules.limits import MOST_NUMBER

TOP = MOST_NUMBER


def widths_of_conds(cases):
    """A range without ends holds all numbers of the width."""
    for bits in (2, 3, 4, 5, 6, 7, 9, 10, 15, 16, 17, 23, 24, 31, 32, 33, 40, 48, 55, 56,
                 57, 62):
        cases.told(f"x:{bits} | C:x=..", ACCEPTED, "all numbers", source="table",
                   ranges=[[(0, int("1" * bits, 2))]])
    for bits in (2, 3, 7, 9, 15, 16, 31, 32, 33, 62):
        largest, place = int("1" * bits, 2), 1 if bits % 8 == 0 else 2
        cases.told(f"x:{bits} | C:x={largest}..", ACCEPTED, "the largest number",
                   ranges=[[(largest, largest)]])
        cases.told(f"x:{bits} | C:x={largest + 1}..", (COND, 4, place), "no number")
        cases.told(f"x:{bits} | C:x=5..<{largest + 1},..<5" if bits > 2 else
                   f"x:{bits} | C:x=1..<4,..<1", ACCEPTED, "two parts")


def fields_of_conds(cases):
    """Cond 1 and 2. Gen, arg and a fixed default are of no account."""
    for text in ("x:8g", "x:8a", "x:8", "x:8c", "x:8=5", "x:8=5!", "x:1b |", "x:1b=1! |",
                 "x:64c", "x:8ac=9!"):
        cases.told(f"{text} C:x", ACCEPTED, "field", ranges=[[]])
        cases.told(f"{text} C:x=0..0", ACCEPTED, "field", ranges=[[(0, 0)]])
    for bits in (16, 24, 32, 40, 48, 56, 64):
        cases.told(f"x:{bits}s C:x", (COND, 2, 1), "slice")
        cases.told(f"x:{bits}s C:x=0..0", (COND, 2, 1), "slice")
        cases.told(f"x:{bits} C:x=0..0", ACCEPTED, "number", ranges=[[(0, 0)]])
    for bits in (72, 80, 65_536, 33_554_424):
        cases.told(f"x:{bits} C:x", (COND, 2, 1), "slice")
        cases.told(f"x:{bits} C:x=5..4", (COND, 2, 1), "slice")
    cases.told("x:72c C:x", (COND, 2, 1), "slice")
    cases.told("x:16sc C:x=0..0", (COND, 2, 1), "slice")
    cases.cond(2, "slice with a default, C", field(b"x", 16, SLICE, kind=BYTES, data=b"ab"),
               condition(b"x", [(1, 1, 0, 0)]), place=1)
    for text, place in (
            ("C:x", 0), ("C:x=..", 0), ("x:8 C:y", 1), ("x:8 C:X", 1), ("x:8 C:xx", 1),
            ("xx:8 C:x", 1), ("xx:8 yx:8 C:x=..", 2), ("name:8 C:nam", 1),
            ("name:8 C:names", 1), ("name:8 C:Name", 1), ("name:8 C:ame", 1),
            ("x:8 L0 C:y", 2), ("x:8 C:type", 1), ("x:8 C:x C:y", 2)):
        cases.told(text, (COND, 1, place), "name")
    for text in ("x:8 xx:16s C:x", "xx:16s x:8 C:x", "nam:16s name:8 names:16s C:name",
                 "X:16s x:8 C:x", "a:16s b:72 c:8 C:c"):
        cases.told(text, ACCEPTED, "name", ranges=[[]])
    near = [field(N63), field(N64, 16), field(N63 + b"a", 16, SLICE)]
    every = condition(N64, [(0, 0, 0, 0)])
    cases.accepted("cond by a name of 64", *near, every, ranges=[[(0, 65_535)]])
    cases.accepted("cond by names of 63 and 64", *near, condition(N63), every,
                   ranges=[[], [(0, 65_535)]])
    cases.cond(2, "cond by a name of 64 with another end", *near,
               condition(N63 + b"a"), place=3)
    for name in (N63 + b"b", b"n" * 62):
        cases.cond(1, f"cond by no field's name, of {len(name)}", *near, every,
                   condition(name), place=4)


# For each start (a line) and end (a column) the last number that the range
# holds, `.` where it holds none and is cond 4. The first one is the start, 0
# where there is none. `-` is no start or no end, `=` an end included, `<` one
# excluded; m is the field's largest number, T is 2^64 - 1.
ENDS = """
      -  =0 =1 =m-1 =m =m+1 =m+2 =T <0 <1 <m-1 <m  <m+1 <m+2 <T
-     m  0  1  m-1  m  m    m    m  .  0  m-2  m-1 m    m    m
1     m  .  1  m-1  m  m    m    m  .  .  m-2  m-1 m    m    m
m-1   m  .  .  m-1  m  m    m    m  .  .  .    m-1 m    m    m
m     m  .  .  .    m  m    m    m  .  .  .    .   m    m    m
m+1   .  .  .  .    .  .    .    .  .  .  .    .   .    .    .
"""

ENDS_OF_1_BIT = """
      -  =0 =1 =2 =3 =T <0 <1 <2 <3 <T
-     1  0  1  1  1  1  .  0  1  1  1
1     1  .  1  1  1  1  .  .  1  1  1
2     .  .  .  .  .  .  .  .  .  .  .
T     .  .  .  .  .  .  .  .  .  .  .
"""

ENDS_OF_64_BITS = """
      -  =0 =1 =T-1 =T <0 <1 <T-1 <T
-     T  0  1  T-1  T  .  0  T-2  T-1
1     T  .  1  T-1  T  .  .  T-2  T-1
T-1   T  .  .  T-1  T  .  .  .    T-1
T     T  .  .  .    T  .  .  .    .
"""


def valued(word, bits):
    """The number that a word of the tables stands for on that width."""
    letter, sign, rest = word[0], word[1:2], word[2:]
    if word.isdigit():
        return int(word)
    base = TOP if letter == "T" else int("1" * bits, 2)
    return base + int(sign + rest or 0)


def ends_of_ranges(cases):
    """Each start with each end, on 1, 8, 22, 63 and 64 bits."""
    table_of_ends(cases, ENDS_OF_1_BIT, 1)
    table_of_ends(cases, ENDS, 8)
    for bits in (22, 63):
        table_of_ends(cases, ENDS, bits, ("1", "=0", "=1", "<0", "<1", "=m+2"))
    table_of_ends(cases, ENDS_OF_64_BITS, 64)


def table_of_ends(cases, table, bits, left_out=()):
    """The cases of one table, without the lines and columns that are left out."""
    heads, *lines = [line.split() for line in table.strip().split("\n")]
    place = 1 if bits % 8 == 0 else 2
    for start, *cells in lines:
        for end, last in zip(heads, cells):
            if start in left_out or end in left_out:
                continue
            first = 0 if start == "-" else valued(start, bits)
            span = ("" if start == "-" else f"{first}") + ".."
            if end != "-":
                span += end[0].replace("=", "") + f"{valued(end[1:], bits)}"
            text = f"x:{bits} | C:x={span}"
            if last == ".":
                cases.told(text, (COND, 4, place), "ends", source="table")
            else:
                cases.told(text, ACCEPTED, "ends", source="table",
                           ranges=[[(first, valued(last, bits))]])


# Ranges on 8 bits and what they hold. In each word of MEETING the first letter
# is a range that meets those of the other letters.
SPANS = {"a": ("..<4", (0, 3)), "b": ("4..9", (4, 9)), "c": ("0..<5", (0, 4)),
         "d": ("9..20", (9, 20)), "e": ("10..<21", (10, 20)), "f": ("..", (0, 255)),
         "g": ("250..", (250, 255)), "h": ("255..300", (255, 255)),
         "i": ("200..<256", (200, 255)), "j": ("21..249", (21, 249))}

MEETING = "acf bcdf cabf dbef edf fabcdeghij gfhi hfgi ifghj jfi".split()


def pairs_of_ranges(cases):
    """Cond 6: each two of ten ranges, in both orders, and each twice."""
    for line in MEETING:
        for other, (span, held) in SPANS.items():
            first, kept = SPANS[line[0]]
            text = f"x:8 C:x={first},{span}"
            if other in line:
                cases.told(text, (COND, 6, 1), "pair", source="table")
            else:
                cases.told(text, ACCEPTED, "pair", source="table", ranges=[[kept, held]])


def clipped_ranges(cases):
    """Ranges that meet, or hold nothing, only before or only after clipping."""
    for text, number in (
            ("0..254,255..", 0), ("0..255,255..", 6), ("0..<255,255..", 0),
            ("0..<256,255..", 6), ("0..9,300..400", 4), ("0..400,300..400", 4),
            ("300..400,0..9", 4), ("0..<257,256..", 4), ("0..400,200..300", 6),
            ("0..199,200..300", 0), ("200..400,0..<200", 0), ("200..400,0..200", 6),
            ("255..,..<255", 0), ("255..,..255", 6), ("..9,..9", 6),
            ("..0,..0", 6), ("..0,0..", 6), ("..<1,0..", 6), ("..<1,1..", 0),
            ("..0,1..", 0), ("5..5,5..5", 6), ("5..5,6..6", 0), ("5..<6,6..6", 0),
            ("5..<6,5..5", 6), ("0..9,3..5", 6), ("3..5,0..9", 6), ("3..5,0..3", 6),
            ("3..5,0..2", 0), ("3..5,5..9", 6), ("3..5,6..9", 0), ("3..<5,5..9", 0),
            ("3..<6,5..9", 6), ("0..<4,4..9", 0), ("4..9,0..<4", 0), ("..3,4..", 0),
            ("..4,4..", 6), ("9..,..<9", 0), ("9..,..9", 6),
            (f"254..{TOP},..<254", 0), (f"254..{TOP},..254", 6),
            (f"254..<{TOP},..<254", 0), (f"254..<{TOP},..254", 6)):
        text = f"x:8 C:x={text}"
        cases.told(text, (COND, number, 1) if number else ACCEPTED, "clipped")
    for bits, text, number in (
            (64, f"..<{TOP},{TOP}..", 0), (64, f"..{TOP},{TOP}..", 6),
            (64, f"{TOP}..,..<{TOP}", 0), (64, f"{TOP}..{TOP},{TOP}..", 6),
            (64, f"{TOP}..,..{TOP - 1}", 0), (64, f"{TOP}..,{TOP}..<{TOP}", 4),
            (64, f"{TOP - 1}..<{TOP},{TOP}..", 0), (64, f"..{2 ** 63},{2 ** 63}..", 6),
            (64, f"..<{2 ** 63},{2 ** 63}..", 0),
            (64, f"{2 ** 63}..,..{2 ** 63 - 1}", 0),
            (63, f"..<{2 ** 63 - 1},{2 ** 63 - 1}..{TOP}", 0),
            (63, f"..<{2 ** 63},{2 ** 63 - 1}..{TOP}", 6),
            (63, f"..<{2 ** 63},{2 ** 63}..{TOP}", 4),
            (1, "..0,1..", 0), (1, "..<1,1..9", 0), (1, "..<2,1..9", 6), (1, "1..,0..0", 0),
            (22, "..<4194303,4194303..", 0), (22, "..<4194304,4194303..", 6),
            (22, "0..4194302,4194303..4194304", 0)):
        place = 1 if bits % 8 == 0 else 2
        cases.told(f"x:{bits} | C:x={text}", (COND, number, place) if number else ACCEPTED,
                   "clipped")


def ranges_in_a_row(cases):
    """Three ranges and more, of which one is empty or meets an earlier one."""
    for text, number in (
            ("0..1,2..3,4..5", 0), ("4..5,2..3,0..1", 0), ("2..3,0..1,4..5", 0),
            ("0..1,2..3,1..1", 6), ("0..1,2..3,3..4", 6), ("0..1,2..3,0..9", 6),
            ("0..1,0..0,9..8", 6), ("0..1,9..8,0..0", 4), ("9..8,0..0,0..0", 4),
            ("0..1,2..3,9..8", 4), ("0..1,1..1,256..", 6), ("0..1,256..,1..1", 4),
            ("0..1,256..,1..0", 4), ("5..4,..<0", 4), ("1..1,2..2,3..3,4..4,1..1", 6),
            ("1..1,2..2,3..3,4..4,2..2", 6), ("1..1,2..2,3..3,4..4,4..4", 6),
            ("1..1,2..2,3..3,4..4,5..5", 0), ("1..1,2..2,3..3,4..4,0..9", 6),
            ("0..9,20..29,40..49,15..35", 6), ("0..9,20..29,40..49,30..39", 0),
            ("0..9,20..29,40..49,10..19", 0), ("0..9,20..29,40..49,9..19", 6),
            ("0..9,20..29,40..49,10..20", 6), ("0..9,20..29,40..49,29..39", 6),
            ("0..9,20..29,40..49,49..", 6), ("0..9,20..29,40..49,50..", 0)):
        cases.told(f"x:8 C:x={text}", (COND, number, 1) if number else ACCEPTED, "row")


def many_ranges(cases):
    """24 ranges, with the last as it should be, empty, or meeting an earlier one."""
    spans = [(1, 1, 10 * i, 10 * i + 8) for i in range(24)]
    for title, last, number in (
            ("apart", (1, 1, 230, 238), 0), ("no end", (1, 0, 239, 0), 0),
            ("empty", (1, 1, 239, 238), 4), ("over the width", (1, 1, 256, 300), 4),
            ("the first again", (1, 1, 0, 8), 6), ("in the first", (1, 2, 8, 9), 6),
            ("in the 12th", (1, 1, 118, 119), 6),
            ("the 23rd again", (1, 1, 220, 228), 6), ("in the 23rd", (1, 0, 228, 0), 6),
            ("over all", (0, 0, 0, 0), 6)):
        blocks = field(b"x"), condition(b"x", spans[:23] + [last])
        if number:
            cases.cond(number, f"24 ranges, the last: {title}", *blocks, place=1)
        else:
            cases.accepted(f"24 ranges, the last: {title}", *blocks)
    cases.cond(6, "24 ranges, the second is the first",
               field(b"x"), condition(b"x", [spans[0], spans[0], *spans[2:]]), place=1)
    cases.cond(4, "24 ranges, the first empty",
               field(b"x"), condition(b"x", [(1, 1, 5, 4), *spans[1:]]), place=1)
    singles = [(1, 1, i, i) for i in range(24)]
    cases.accepted("24 ranges of one number", field(b"x"), condition(b"x", singles),
                   ranges=[[(i, i) for i in range(24)]])


def counted(count, repeated=""):
    """Text of that many fields and an entry for each."""
    names = [f"f{i}" for i in range(count)]
    return " ".join([f"{name}:8" for name in names] + [repeated]
                    + [f"C:{name}" for name in names])


def numbers_of_entries(cases):
    """Cond 8: over 8 entries. Its place is the count of all blocks."""
    cases.accepted("no entries", told("x:8"), ranges=[])
    for count in (1, 2, 7, 8):
        cases.accepted(f"{count} entries", told(counted(count)), ranges=[[]] * count)
    for count in (9, 10, 32):
        cases.cond(8, f"{count} entries", told(counted(count)), place=2 * count)
    cases.accepted("8 entries of 9 fields", told("g:8 " + counted(8)), ranges=[[]] * 8)
    cases.accepted("8 entries of 9 fields, the last ones",
                   told("a:8 b:8 c:8 d:8 e:8 f:8 g:8 h:8 i:8 C:i C:h C:g C:f C:e C:d C:c "
                        "C:b"), ranges=[[]] * 8)
    cases.cond(8, "9 entries and two L blocks", told(counted(9, "L2 L0")), place=20)
    cases.cond(8, "9 entries with ranges",
               told(" ".join(f"{name}:8" for name in "abcdefghi") + " "
                    + " ".join(f"C:{name}=1..5" for name in "ihgfedcba")), place=18)


def entries_of_one_field(cases):
    """Cond 7: a field listed before, whatever the ranges, at the later entry."""
    for text, place in (
            ("x:8 C:x C:x", 2), ("x:8 C:x=1..1 C:x=2..2", 2), ("x:8 C:x=1..1 C:x=1..1", 2),
            ("x:8 C:x C:x C:x", 2), ("x:8 C:x C:x=..", 2), ("x:8 C:x=.. C:x", 2),
            ("x:8 y:8 C:x C:y C:x", 4), ("x:8 y:8 C:x C:y C:y", 4),
            ("x:8 y:8 C:x C:x C:y", 3), ("x:8 y:8 C:y C:x C:y", 4),
            ("x:8 y:8 z:8 C:x C:y C:z C:x", 6), ("x:8 y:8 z:8 C:x C:y C:z C:y", 6),
            ("x:8 y:8 z:8 C:x C:y C:z C:z", 6), ("x:8 L0 L1 C:x C:x", 4),
            ("x:4 y:4 C:y C:y", 3), ("x:8 C:x=0..4 C:x=5..9", 2)):
        cases.told(text, (COND, 7, place), "twice")
    for text in ("x:8 y:8 C:x C:y", "x:8 y:8 C:y C:x", "x:4 y:4 C:x=1..1 C:y=1..1",
                 "x:8 X:8 C:x C:X", "x:8 xx:8 C:x C:xx", "x:8 xx:8 C:xx C:x",
                 "nam:8 name:8 names:8 C:names C:name C:nam"):
        cases.told(text, ACCEPTED, "not twice")
    for far in (0, 3, 7):
        cases.cond(7, f"8 entries, then field {far} again",
                   told(counted(8) + f" C:f{far}"), place=16)
    cases.cond(7, "14 entries, then the first field again", told(counted(14) + " C:f0"),
               place=28)


SECTIONS = (
    widths_of_conds, fields_of_conds, ends_of_ranges, pairs_of_ranges, clipped_ranges,
    ranges_in_a_row, many_ranges, numbers_of_entries, entries_of_one_field)
