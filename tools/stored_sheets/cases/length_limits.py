"""Cases of length 8 to 10: the largest length, and the default's."""

from stored_sheets.rules.groups import ACCEPTED, LENGTH
from stored_sheets.rules.limits import MOST_NUMBER

TOP = MOST_NUMBER

# Width, the form, and its largest length, which is 4,194,303 or just over it.
# 4,194,303 is 2047 * 2049, and also 3 * 1,398,101.
AT_THE_LIMIT = (
    (1, "x+4194302", 4_194_303), (1, "x+4194303", 4_194_304),
    (8, "x+4194048", 4_194_303), (8, "x+4194049", 4_194_304),
    (16, "x+4128768", 4_194_303), (16, "x+4128769", 4_194_304),
    (21, "x+2097152", 4_194_303), (21, "x+2097153", 4_194_304),
    (22, "x+0", 4_194_303), (22, "x+1", 4_194_304), (23, "x+0", 8_388_607),
    (1, "x*4194303", 4_194_303), (1, "x*4194304", 4_194_304),
    (2, "x*1398101", 4_194_303), (2, "x*1398102", 4_194_306),
    (8, "x*16448", 4_194_240), (8, "x*16449", 4_194_495),
    (11, "x*2049", 4_194_303), (11, "x*2050", 4_196_350),
    (20, "x*4", 4_194_300), (20, "x*5", 5_242_875),
    (22, "x*1", 4_194_303), (22, "x*2", 8_388_606), (23, "x*1", 8_388_607),
    (1, "(x+0)*4194303", 4_194_303), (1, "(x+0)*4194304", 4_194_304),
    (1, "(x+1)*2097151", 4_194_302), (1, "(x+1)*2097152", 4_194_304),
    (1, "(x+4194302)*1", 4_194_303), (1, "(x+4194303)*1", 4_194_304),
    (10, "(x+1024)*2049", 4_194_303), (10, "(x+1025)*2049", 4_196_352),
    (10, "(x+1026)*2047", 4_194_303), (10, "(x+1026)*2048", 4_196_352),
    (11, "(x+0)*2049", 4_194_303), (11, "(x+1)*2049", 4_196_352),
    (22, "(x+0)*1", 4_194_303), (22, "(x+1)*1", 4_194_304),
    (1, "x*1+4194302", 4_194_303), (1, "x*1+4194303", 4_194_304),
    (1, "x*4194303+0", 4_194_303), (1, "x*4194303+1", 4_194_304),
    (10, "x*4100+3", 4_194_303), (10, "x*4100+4", 4_194_304),
    (11, "x*2049+0", 4_194_303), (11, "x*2049+1", 4_194_304),
    (11, "x*2048+2047", 4_194_303), (11, "x*2048+2048", 4_194_304),
    (22, "x*1+0", 4_194_303), (22, "x*1+1", 4_194_304),
    (8, "x*0+4194303", 4_194_303), (8, "x*0+4194304", 4_194_304))


def lengths_at_the_limit(cases):
    """Length 9: largest lengths of 4,194,303 and just more, each form in each slot.

    The default is the largest value, so that slot 0 has no other fault.
    """
    for count, (bits, form, longest) in enumerate(AT_THE_LIMIT):
        place, largest = 1 if bits % 8 == 0 else 2, int("1" * bits, 2)
        text = f"x:{bits}={largest} | L{count // 2 % 3}={form}"
        cases.told(text, (LENGTH, 9, place) if longest > 4_194_303 else ACCEPTED,
                   "limit", source="table")
    for slot in range(3):
        for form in ("x+4194048", "x*16448", "(x+1)*16383", "x*16448+63", "x*0+4194303"):
            cases.told(f"x:8=255 y:8 L{slot}={form}", ACCEPTED, "limit")
        for form in ("x+4194049", "x*16449", "(x+1)*16384", "x*16448+64", "x*0+4194304"):
            cases.told(f"x:8=255 y:8 L{slot}={form}", (LENGTH, 9, 2), "limit")


# Width, the form, and 8 where a step of the largest length passes 2^64 - 1, 9
# where none does, 0 where none does and a factor of 0 makes the length 0.
# 2^64 - 1 is 255 * 72,340,172,838,076,673, 65,535 * 281,479,271,743,489 and
# (2^32 - 1) * (2^32 + 1).
AT_THE_TOP = (
    (64, "x+0", 9), (64, "x+1", 8), (64, f"x+{TOP}", 8),
    (63, f"x+{2 ** 63}", 9), (63, f"x+{2 ** 63 + 1}", 8), (63, f"x+{2 ** 63 - 1}", 9),
    (8, f"x+{TOP - 255}", 9), (8, f"x+{TOP - 254}", 8), (8, f"x+{TOP}", 8),
    (1, f"x+{TOP - 1}", 9), (1, f"x+{TOP}", 8), (32, f"x+{TOP - 2 ** 32 + 1}", 9),
    (32, f"x+{TOP - 2 ** 32 + 2}", 8),
    (64, "x*0", 0), (64, "x*1", 9), (64, "x*2", 8), (64, f"x*{TOP}", 8),
    (64, f"x*{2 ** 63}", 8), (63, "x*2", 9), (63, "x*3", 8), (63, f"x*{TOP}", 8),
    (1, f"x*{TOP}", 9), (2, f"x*{TOP // 3}", 9), (2, f"x*{TOP // 3 + 1}", 8),
    (2, f"x*{TOP}", 8), (8, "x*72340172838076673", 9), (8, "x*72340172838076674", 8),
    (16, "x*281479271743489", 9), (16, "x*281479271743490", 8),
    (32, "x*4294967297", 9), (32, "x*4294967298", 8), (33, "x*2147483648", 9),
    (33, "x*2147483649", 8),
    (64, "(x+0)*0", 0), (64, "(x+1)*0", 8), (64, f"(x+{TOP})*0", 8),
    (64, "(x+0)*1", 9), (64, "(x+1)*1", 8), (64, "(x+0)*2", 8),
    (8, f"(x+{TOP - 255})*0", 0), (8, f"(x+{TOP - 254})*0", 8),
    (8, f"(x+{TOP - 255})*1", 9), (8, f"(x+{TOP - 254})*1", 8),
    (8, f"(x+{TOP - 255})*2", 8), (8, "(x+0)*72340172838076673", 9),
    (8, "(x+0)*72340172838076674", 8), (8, "(x+1)*72057594037927935", 9),
    (8, "(x+1)*72057594037927936", 8), (8, f"(x+1)*{TOP}", 8),
    (1, f"(x+0)*{TOP}", 9), (1, f"(x+1)*{TOP}", 8), (1, f"(x+{TOP})*0", 8),
    (1, f"(x+{TOP - 1})*0", 0), (32, "(x+4294967296)*2147483648", 9),
    (32, "(x+4294967297)*2147483648", 8),
    (64, "x*0+0", 0), (64, "x*1+0", 9), (64, "x*1+1", 8), (64, "x*2+0", 8),
    (64, f"x*0+{TOP}", 9), (64, f"x*1+{TOP}", 8), (64, f"x*{TOP}+{TOP}", 8),
    (1, f"x*{TOP}+0", 9), (1, f"x*{TOP}+1", 8), (1, f"x*1+{TOP - 1}", 9),
    (1, f"x*1+{TOP}", 8), (8, f"x*0+{TOP}", 9), (8, "x*72340172838076673+0", 9),
    (8, "x*72340172838076673+1", 8), (8, "x*72340172838076672+255", 9),
    (8, "x*72340172838076672+256", 8), (8, "x*72340172838076674+0", 8),
    (16, "x*281479271743490+1", 8), (32, "x*4294967297+0", 9),
    (32, "x*4294967297+1", 8), (32, "x*4294967298+0", 8), (63, "x*2+1", 9),
    (63, "x*2+2", 8), (63, "x*3+0", 8))

# Lengths that pass 2^64 - 1 and whose low 64 bits are a small number.
WRAPPING = (
    (64, "x+1"), (64, "x+6"), (63, f"x+{2 ** 63 + 1}"), (8, f"x+{TOP - 254}"),
    (8, f"x+{TOP - 250}"), (2, f"x*{TOP // 3 + 1}"), (2, "x*12297829382473034411"),
    (64, f"x*{TOP}"), (64, f"x*{TOP - 3}"), (8, "x*72340172838076675"),
    (32, "x*4294967298"), (64, "(x+1)*5"), (64, "(x+2)*3"), (8, f"(x+{TOP - 250})*9"),
    (8, f"(x+1)*{2 ** 56}"), (7, f"(x+{2 ** 32 - 127})*{2 ** 32}"), (64, f"x*{TOP}+5"),
    (64, "x*1+6"), (8, f"x*1+{TOP - 250}"), (2, f"x*{TOP // 3 + 1}+4"),
    (63, "x*2+9"))


def lengths_at_the_top(cases):
    """Length 8: largest lengths of 2^64 - 1 and more, at each step of each form."""
    for count, (bits, form, number) in enumerate(AT_THE_TOP):
        place, slot = 1 if bits % 8 == 0 else 2, 1 + count % 2
        cases.told(f"x:{bits} | L{slot}={form}",
                   (LENGTH, number, place) if number else ACCEPTED, "top", source="table")
        if count % 4 == 0:
            cases.told(f"x:{bits}=1 | L0={form}", (LENGTH, number or 10, place), "top",
                       source="table")
    for count, (bits, form) in enumerate(WRAPPING):
        place, slot = 1 if bits % 8 == 0 else 2, count % 3
        cases.told(f"x:{bits}=1 | L{slot}={form}", (LENGTH, 8, place), "wrapping")


# The form, the largest default whose length is less than 6, and those whose
# lengths are 6 or the next after it.
DEFAULTS_FOR_6 = (
    ("x", 5, (6, 7)), ("x+2", 3, (4, 5)), ("x+5", 0, (1,)), ("x*3", 1, (2, 3)),
    ("x*6", 0, (1,)), ("x*1", 5, (6,)), ("x*2", 2, (3,)), ("x*5", 1, (2,)),
    ("(x+1)*2", 1, (2, 3)), ("(x+2)*2", 0, (1,)), ("(x+5)*1", 0, (1, 2)),
    ("(x+0)*3", 1, (2,)), ("(x+1)*4", 0, (1,)), ("x*2+2", 1, (2, 3)),
    ("x*1+5", 0, (1, 2)), ("x*3+0", 1, (2,)), ("x*4+1", 1, (2,)), ("x*6+0", 0, (1, 2)))


def default_lengths(cases):
    """Length 10: the default's length and a header of 6 bytes. Slot 0 alone asks."""
    for count, (form, less, enough) in enumerate(DEFAULTS_FOR_6):
        text = f"y:40 L0={form}"
        cases.told(f"x:8={less} {text}", (LENGTH, 10, 2), "default", source="table")
        for number in enough:
            cases.told(f"x:8={number} {text}", ACCEPTED, "default", source="table")
        cases.told(f"x:8={less} y:40 L{1 + count % 2}={form}", ACCEPTED, "default",
                   source="table")
    for form in ("x", "x+5", "x*9", "(x+1)*5", "x*9+5", "x*0", "(x+9)*0", "x*0+5"):
        cases.told(f"x:8 y:40 L0={form}", (LENGTH, 10, 2), "default absent")
        cases.told(f"x:8=0! y:40 L0={form}", (LENGTH, 10, 2), "default fixed")
        cases.told(f"x:8 y:40 L2={form}", ACCEPTED, "default absent")
    for form in ("x+6", "(x+6)*1", "(x+2)*3", "x*9+6", "x*0+6", "x*0+7"):
        cases.told(f"x:8 y:40 L0={form}", ACCEPTED, "default absent")
        cases.told(f"x:8=0! y:40 L0={form}", ACCEPTED, "default fixed")
    for form, number in (("x", 5), ("x*2", 2), ("x+1", 4)):
        cases.told(f"x:8={number}! y:40 L0={form}", (LENGTH, 10, 2), "default fixed")
        cases.told(f"x:8={number + 1}! y:40 L0={form}", ACCEPTED, "default fixed")


def headers_of_lengths(cases):
    """Length 10 by the header's length: the fields before and after x count."""
    for text, number in (
            ("x:8=2 L0=x", 0), ("x:8=0 L0=x", 10), ("x:8 L0=x", 10),
            ("x:8=1 y:8 L0=x", 10), ("x:8=2 y:8 L0=x", 0), ("y:8 x:8=1 L0=x", 10),
            ("y:8 x:8=2 L0=x", 0), ("y:8 x:8=2 z:8 L0=x", 10), ("y:8 x:8=3 z:8 L0=x", 0),
            ("y:4 x:4=1 z:8 L0=x", 10), ("y:4 x:4=2 z:8 L0=x", 0),
            ("y:4 x:4=1 L0=x", 0), ("x:1=1 y:7 L0=x", 0), ("x:1=1 y:7 z:8 L0=x", 10),
            ("x:1=1 y:7 z:8 L0=x*2", 0), ("x:16=8 y:48 L0=x", 0),
            ("x:16=7 y:48 L0=x", 10), ("x:8=255 y:2032 L0=x", 0),
            ("x:8=255 y:2040 L0=x", 10), ("x:8=255 y:2040 L0=x+1", 0),
            ("y:16s x:8=3 L0=x", 0), ("y:16s x:8=2 L0=x", 10),
            ("x:8=255 y:524280 L0=x*257", 10), ("x:8=255 y:524272 L0=x*257", 0),
            ("x:16=65535 y:524280 L0=x", 10), ("x:16=65535 y:524264 L0=x", 0),
            ("x:22=4194303 a:2 y:33554400 L0=x", 0),
            ("x:22=4194302 a:2 y:33554400 L0=x", 10),
            ("x:22=4194303 a:2 y:33554392 L0=x", 0),
            ("x:22=4194301 a:2 y:33554392 L0=x", 10)):
        place = len(text.split()) - 1
        cases.told(text, (LENGTH, number, place) if number else ACCEPTED, "header")


SECTIONS = (lengths_at_the_limit, lengths_at_the_top, default_lengths, headers_of_lengths)
