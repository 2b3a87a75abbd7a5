"""Cases of accepted headers: the template."""

from sheet_blocks import BOOL, BYTES, NUMBER, SLICE, field
from stored_sheets.cases.chance import Chance
from stored_sheets.cases.header_bytes import bytes_touched
from stored_sheets.cases.known_sheets import lister_sheet, rfc_791_sheet
from stored_sheets.cases.sheet_texts import bytes_of_bits, written, written_bits
from stored_sheets.rules.groups import ACCEPTED


def put(cases, title, text, source="hand"):
    """An accepted header. The digits of the text, read in eights, are its template."""
    bits = written_bits(text)
    cases.add(f"{title} [{text}]" if len(text) < 80 else title, written(text), ACCEPTED,
              source, template=bytes_of_bits("".join(bits)),
              starts=[len("".join(bits[:i])) for i in range(len(bits))])


def known_headers(cases):
    """The lister's header and that of RFC 791, and parts of them."""
    cases.accepted("template: the lister's sheet", *lister_sheet(),
                   starts=[0, 4, 8, 20, 21], lookups=[0, 1, 2, 3, 4, 1, 2, 0],
                   template=bytes.fromhex("41000d"))
    cases.accepted("template: RFC 791", *rfc_791_sheet(),
                   starts=[0, 4, 8, 16, 32, 48, 51, 64, 72, 80, 96, 128],
                   lookups=[0, 1, 2, 3, 4, 5, 6, 7, 8, 9, 10, 11, 1, 3],
                   template=bytes.fromhex("45") + bytes(19))
    stated = [4, 5, 0, 0x0054, 0x1c46, 2, 0, 64, 1, 0xb1e6, 0xac100a63, 0xac100a0c]
    widths = [4, 4, 8, 16, 16, 3, 13, 8, 8, 16, 32, 32]
    cases.accepted("template: a packet of RFC 791",
                   *[field(b"f%d" % i, bits, kind=NUMBER, number=number)
                     for i, (bits, number) in enumerate(zip(widths, stated))],
                   template=bytes.fromhex(
                       "450000541c4640004001b1e6ac100a63ac100a0c"))
    cases.accepted("template: a header of RFC 768",
                   *[field(b"f%d" % i, 16, kind=NUMBER, number=number)
                     for i, number in enumerate((53, 65_535, 8, 0x1234))],
                   starts=[0, 16, 32, 48], template=bytes.fromhex("0035ffff00081234"))
    cases.accepted("template: one byte", field(kind=NUMBER, number=0x5a),
                   starts=[0], template=b"\x5a")
    cases.accepted("template: one number of 64 bits",
                   field(bits=64, kind=NUMBER, number=0x0123456789abcdef),
                   starts=[0], template=bytes.fromhex("0123456789abcdef"))
    cases.accepted("template: one number of 24 bits",
                   field(bits=24, kind=NUMBER, number=0x010203),
                   template=bytes.fromhex("010203"))
    cases.accepted("template: 3 bits and 5",
                   field(b"a", 3, kind=NUMBER, number=5),
                   field(b"b", 5, kind=NUMBER, number=1), template=b"\xa1")
    cases.accepted("template: 12 bits and 4",
                   field(b"a", 12, kind=NUMBER, number=0xabc),
                   field(b"b", 4, kind=NUMBER, number=0xd), template=b"\xab\xcd")
    cases.accepted("template: 4 bits, 16 and 4",
                   field(b"a", 4, kind=NUMBER, number=1),
                   field(b"b", 16, kind=NUMBER, number=0x2345),
                   field(b"c", 4, kind=NUMBER, number=6), template=b"\x12\x34\x56")


def around(word, start, digit):
    """The word at a start bit; the bits beside it in its bytes are all `digit`."""
    after = -(start + len(word)) % 8
    return " ".join(part for part in (digit * start, word, digit * after) if part)


def thirteen_bits(cases):
    """13 bits at each start bit, with their neighbours all 0 and all 1."""
    for start in range(8):
        for word, beside in (("1010101010101", "01"), ("0101010101010", "1"),
                             ("1111111111111", "0"), ("0000000000000", "1"),
                             ("1100000000001", "0")):
            for digit in beside:
                put(cases, "13 bits", around(word, start, digit), "table")
    put(cases, "eight of 13 bits", " ".join(["1010101010101"] * 8))
    put(cases, "eight of 13 bits, each other one zero",
        " ".join(["1111111111111", "0000000000000"] * 4))
    put(cases, "eight of 13 bits, each other one absent",
        " ".join([".............", "1111111111111"] * 4))


def single_bits(cases):
    """64 fields of one bit."""
    put(cases, "64 bits, alternating from 1", "1 0 " * 32)
    put(cases, "64 bits, alternating from 0", "0 1 " * 32)
    put(cases, "64 bits, all bool, two of three 1", "1? 1? 0? " * 21 + "1?")
    chance = Chance(1071)
    put(cases, "64 bits by chance", " ".join(str(chance.below(2)) for _ in range(64)),
        "table")
    for at in range(8):
        put(cases, "one of eight bits", " ".join(["."] * at + ["1?"] + ["."] * (7 - at)))


def neighbours(cases):
    """Ones beside zeros in a shared byte, both orders."""
    for bits, pairs in ((8, ("10", "01", "1.", ".1")), (16, ("10", "01"))):
        for left in range(1, bits):
            for first, second in pairs:
                put(cases, f"{bits} bits in two",
                    f"{first * left} {second * (bits - left)}", "table")
    for left in (1, 4, 7):
        for right in (1, 3, 7):
            middle = 24 - left - right
            for edge, inside in ("10", "01"):
                put(cases, "three bytes in three",
                    f"{edge * left} {inside * middle} {edge * right}", "table")
    for text in ("111 00 111", "000 11 000", "1 000000 1", "0 111111 0", "11 11 00 00",
                 "00 00 11 11", "10 01 10 01", "... 11 000", "111 .. 111",
                 "11 00 11 00 1111 0000 1111 0000",
                 "1111111 00 111 00000000 1111 0000000 1",
                 "0000000 11 000 11111111 0000 1111111 0",
                 "1 0000000 1 00000000 1 000000"):
        put(cases, "shared bytes", text)


def slices_between(cases):
    """Byte slices with and without a default, between numbers."""
    high, mixed = "ff" * 424, bytes(i * 7 % 256 for i in range(424)).hex()
    for text in ("x6162", "xffff", "x0000", "x00ff00", "xff00ff", "o2", "o9",
                 "x0102030405060708", "xffffffffffffffff", "x010203040506070809",
                 "1111 0000 xffff 0000 1111", "1111 1111 o2 1111 1111",
                 "0000 0001 x8001 1000 0000", "1111 1111 x0000 1111 1111",
                 "11111111 x0102 11111111", "........ xffff ........",
                 "1010101 0 x0123456789abcdef 0 1010101",
                 "o2 xffff o3 x010203 o2", "xffff o2 xffff", "o2 o3 o9", "x0102 x0304",
                 "x010203 o3 11110000 o2 x0a0b",
                 "........ 11111111 o2 11111111 ........",
                 "111 11111 o8 11111 111", "o72 1 0000000", "1 0000000 o72 1 1111111",
                 "1111111111111 ... x0001 ... 1111111111111",
                 "x0000000001 o300 x0000000001 o255 11111111"):
        put(cases, "slices", text)
    put(cases, "slice of 424 bytes ff between zeros", f"00000000 x{high} 00000000")
    put(cases, "slice of 424 bytes mixed between ones",
        f"1111 1111 x{mixed} 111 11111")
    put(cases, "slice of 424 bytes, the last one 1",
        f"x{'00' * 423}01 o424 x80{'00' * 423}")
    for code in (0, 5, 7):
        cases.accepted(f"slice with arg {code}, default ab", field(b"a", 4),
                       field(b"b", 4, kind=NUMBER, number=9),
                       field(b"c", 16, SLICE, code, 1, BYTES, data=b"ab"),
                       template=b"\x09ab")


def mixed_digits(chance, width):
    """`width` digits, the first and the last 1."""
    middle = "".join(str(chance.below(2)) for _ in range(width - 2))
    return "1" if width == 1 else f"1{middle}1"


def wide_numbers(cases):
    """57 to 64 bits at each start bit that they may have."""
    chance = Chance(8)
    for start in range(8):
        for width in range(57, 65):
            if len(bytes_touched(start, width)) <= 8:
                title = f"{width} bits at {start}"
                put(cases, f"{title}, ones", around("1" * width, start, "0"), "table")
                put(cases, f"{title}, mixed",
                    around(mixed_digits(chance, width), start, "1"), "table")


def each_width(cases):
    """A default on each width to 64."""
    chance = Chance(13)
    for width in range(1, 65):
        put(cases, f"default on {width} bits",
            around(mixed_digits(chance, width), 0, "0"), "table")


def kinds_of_numbers(cases):
    """Fixed numbers, bool and code args. They change nothing in the template."""
    for text in ("1010! 0101!", "1010! ....", "1111 0000! 1111! 0000", "11111111!",
                 "1? 0? 1? 0? 1? 0? 1? 0?", "0? 1? 0? 1? 0? 1? 0? 1?",
                 "1?! 0?! 1?! 0?! 1? 0? 1 0", ".? .? .? .? 1? 1? 1? 1?",
                 "1111111 1?", "0000000 1?", "1? 0000000", "1? .......",
                 "1111111 0?", "1111111 .?", "0? 1111111",
                 "1010c 0101c!", "1c 0c 1c! .c 1c 1? 0? 1", "10101010101c 01010",
                 "1000000000000001! 0000000110000000!"):
        put(cases, "kinds of numbers", text)
    for name, arg, digits in ((b"u8", 1, 8), (b"u16", 2, 16), (b"u32", 3, 32),
                              (b"u64", 4, 64)):
        number = int("1" + "0" * (digits - 2) + "1", 2)
        cases.accepted(f"repr and arg stated, {digits} bits",
                       field(name, digits, arg, arg, 2, NUMBER, 1, number),
                       template=b"\x81" if digits == 8 else
                       b"\x80" + bytes(digits // 8 - 2) + b"\x01")
    cases.accepted("repr u8 and arg bool stated, default 1",
                   field(b"a", 7), field(b"b", 1, 1, BOOL, 1, NUMBER, 0, 1),
                   template=b"\x01")


def starts_and_widths(cases):
    """Each start bit with each width to 64 that touches no more than 8 bytes.

    They are put one behind another, the widest first of those not yet used
    at the start bit reached. Where all are used, a short field leads to a
    start bit that has some left.
    """
    left = [[width for width in range(64, 0, -1)
             if len(bytes_touched(start, width)) <= 8] for start in range(8)]
    assert sum(len(widths) for widths in left) == 512 - 28
    chance = Chance(484)
    count = 0
    while any(left):
        words, bits = [], 0
        while any(left) and len(words) < 63:
            step = next(step for step in range(8) if left[(bits + step) % 8])
            width = step if step else left[bits % 8].pop(0)
            words.append(mixed_digits(chance, width))
            bits += width
        if bits % 8 != 0:
            words.append("1" * (8 - bits % 8))
        put(cases, f"starts and widths, {count}", " ".join(words), "table")
        count += 1


def long_headers(cases):
    """Headers with long stretches of zeros, up to 4,194,303 bytes."""
    for text, template in (
            ("o65534 11111111", bytes(65_534) + b"\xff"),
            ("o65535 11111111", bytes(65_535) + b"\xff"),
            ("o65536 11111111", bytes(65_536) + b"\xff"),
            ("o65537 11111111", bytes(65_537) + b"\xff"),
            ("10000001 o65535 x0102", b"\x81" + bytes(65_535) + b"\1\2"),
            ("10000001 o65536 x0102", b"\x81" + bytes(65_536) + b"\1\2"),
            ("o131070 11111111", bytes(131_070) + b"\xff"),
            ("o131071 11111111", bytes(131_071) + b"\xff"),
            ("o131072 11111111", bytes(131_072) + b"\xff"),
            ("o131073 x00000001", bytes(131_076) + b"\1"),
            ("1111 0000 o70000 0000 1111 o70000 1000 0001",
             b"\xf0" + bytes(70_000) + b"\x0f" + bytes(70_000) + b"\x81"),
            ("o4194303", bytes(4_194_303)),
            ("o4194302 11111111", bytes(4_194_302) + b"\xff"),
            ("11111111 o4194302", b"\xff" + bytes(4_194_302)),
            ("o4194300 x0a0b 1111 0001", bytes(4_194_300) + b"\x0a\x0b\xf1"),
            ("o2097152 1010 0101 o2097143 x0102030405 1 0000001",
             bytes(2_097_152) + b"\xa5" + bytes(2_097_143) + b"\1\2\3\4\5\x81"),
            ("........ o4194000 x0900 o292 1111111 0 x0007 ........ 11111111",
             bytes(4_194_001) + b"\x09\0" + bytes(292) + b"\xfe\0\7\0\xff"),
            ("o4194292 101 1010101010101 x00ff o2 1! 0000000 o3 10000001",
             bytes(4_194_292) + b"\xb5\x55\x00\xff\0\0\x80\0\0\0\x81")):
        cases.accepted(f"long header [{text}]", written(text), template=template)


SECTIONS = (
    known_headers, thirteen_bits, single_bits, neighbours, slices_between, wide_numbers,
    each_width, kinds_of_numbers, starts_and_widths, long_headers)
