"""Sheets of short texts, in four notations, each told where it is read.

    spelled   kinds of blocks, and faults of steps 1 and 2    F*64 L0 L1! F3 C~
    shaped    widths and names of fields, and who names them  a:8 16s L0:a C:b
    told      fields, lengths and conditions, with all items  x:8=5 L0=x*4 C:x=3..7
    written   defaults, as bits and bytes                     1010 0101! x6162 o9
"""

import re

from sheet_blocks import BOOL, BYTES, CODE, NUMBER, SLICE, U8, condition, field, length, tree
from stored_sheets.cases.block_changes import patched, unsealed

# One F block for each field refusal.
FIELD_FAULTS = {
    1: dict(bits=0),
    2: dict(bits=9, repr=U8),
    3: dict(bits=9, arg=U8),
    4: dict(bits=1, arg=BOOL, kind=NUMBER, number=2),
    5: dict(bits=16, repr=SLICE, kind=BYTES, data=b"\1"),
    6: dict(bits=3, kind=NUMBER, number=8),
    7: dict(bits=16, repr=SLICE, kind=BYTES, data=b"\1\2", fixed=1),
}

TOKEN = re.compile(r"([FLCX])(\d?)(~?)(!?)(?:\*(\d+))?")


def spelled(text):
    """The sheet of a short text, one word to a block.

    F, C and X are an F block, a C block and a block of unknown kind; L0, L1
    and L2 an L block of that slot; F1 to F7 an F block with that field fault.
    `~` adds a byte outside the layout, `!` a bad check, `*9` repeats the word.
    Names and widths change with the place.
    """
    blocks = []
    for word in text.split():
        letter, digit, stray, bad, times = TOKEN.fullmatch(word).groups()
        for _ in range(int(times or 1)):
            block = plain_block(letter, digit, len(blocks))
            if stray:
                block = patched(block, (509, 1))
            if bad:
                block = unsealed(block)
            blocks.append(block)
    return b"".join(blocks)


def place_name(place):
    return bytes([33 + place % 94])


def plain_block(letter, digit, place):
    name = place_name(place)
    if letter == "F":
        default = dict(bits=1 + place % 64)
        return field(name, **(FIELD_FAULTS[int(digit)] if digit else default))
    if letter == "L":
        return length(name, slot=int(digit))
    if letter == "C":
        return condition(name)
    return patched(condition(name), (0, b"X"))


# A sheet of as many blocks of each kind as there may be.
FULL = "F*64 L0 L1 L2 C*32"

SHAPED_FIELD = re.compile(r"(?:(\w+):)?(\d+)(s?)")
SHAPED_OTHER = re.compile(r"([LC])([012]?)(?::(\w+))?")


def shaped(text):
    """The sheet of a short text of widths and names, one word to a block.

    A number is a field of that many bits; `s` after it states the repr byte
    slice, `name:` before it gives the name. Other fields have names of one
    byte by their places, none of them a small letter. `L0:name` is an L block
    of slot 0 and form 1, `L0` alone one of form 0, `C:name` a C block. `*9`
    repeats the word.
    """
    blocks = []
    for word in text.split():
        word, _, times = word.partition("*")
        for _ in range(int(times or 1)):
            blocks.append(shaped_block(word, len(blocks)))
    return b"".join(blocks)


def shaped_block(word, place):
    other = SHAPED_OTHER.fullmatch(word)
    if other:
        letter, slot, name = other.groups()
        if letter == "C":
            return condition(name.encode())
        if name is None:
            return length(slot=int(slot), form=0)
        return length(name.encode(), slot=int(slot))
    name, bits, stated = SHAPED_FIELD.fullmatch(word).groups()
    return field(name.encode() if name else place_name(place), int(bits),
                 SLICE if stated else 0)


FIELD_WORD = re.compile(r"(\w+):(\d+)([sgabc]*)(?:=(\d+)(!?))?")
OTHER_WORD = re.compile(r"([LTC])([012]?):?(\w+)?(?:=(.+))?")
RANGE_WORD = re.compile(r"(\d*)\.\.(<?)(\d*)")

FORM_WORDS = (
    (1, re.compile(r"(\w+)")),
    (2, re.compile(r"(\w+)\+(\d+)")),
    (3, re.compile(r"(\w+)\*(\d+)")),
    (4, re.compile(r"\((\w+)\+(\d+)\)\*(\d+)")),
    (5, re.compile(r"(\w+)\*(\d+)\+(\d+)")))


def told(text):
    """The sheet of a short text of fields, lengths and conditions, one word to a block.

    `x:8` is a field x of 8 bits whose gen is false. After the width may come
    `g` for gen true, `a` for gen absent, `s` for the repr byte slice, `b` for
    the arg bool and `c` for the arg code; then `=5` for the default 5 and
    `=5!` for the same fixed. `|` is a field that fills the last byte, and
    nothing where it is full.

    `L0=x*4` is an L block of slot 0 and the form that is written, `L0` alone
    one of form 0, `T0=4*x` one of slot 0 with a tree. `C:x` is a C block
    without ranges, `C:x=3..7,9..<12,..` one with three. A range without a
    start or an end has none.
    """
    blocks, bits = [], 0
    for word in text.split():
        found = FIELD_WORD.fullmatch(word)
        if found:
            bits += int(found.group(2))
            blocks.append(told_field(*found.groups()))
        elif word != "|":
            blocks.append(told_other(word))
        elif bits % 8 != 0:
            blocks.append(field(b"_", 8 - bits % 8))
    return b"".join(blocks)


def told_field(name, bits, marks, default, fixed):
    made = dict(gen=2 if "g" in marks else 0 if "a" in marks else 1,
                repr=SLICE if "s" in marks else 0,
                arg=BOOL if "b" in marks else CODE if "c" in marks else 0)
    if default is not None:
        made.update(kind=NUMBER, number=int(default), fixed=int(fixed == "!"))
    return field(name.encode(), int(bits), **made)


def told_other(word):
    letter, slot, name, rest = OTHER_WORD.fullmatch(word).groups()
    if letter == "C":
        return condition(name.encode(), told_ranges(rest) if rest else ())
    if letter == "T":
        return planted(rest, slot=int(slot))
    if rest is None:
        return length(slot=int(slot), form=0)
    for form, shape in FORM_WORDS:
        found = shape.fullmatch(rest)
        if found:
            return length(found.group(1).encode(), int(slot), form,
                          *[int(number) for number in found.groups()[1:]])
    raise ValueError(word)


def told_ranges(text):
    spans = []
    for part in text.split(","):
        start, less, end = RANGE_WORD.fullmatch(part).groups()
        spans.append((int(start != ""), 0 if end == "" else 2 if less else 1,
                      int(start or 0), int(end or 0)))
    return spans


def planted(text, **other):
    """An L block with the tree of a text, each operator after its two parts.

    Two parts that are no leaves stand in brackets. The block has the name of
    the field that the text names, x where it names none.
    """
    words, nodes, names = re.findall(r"\w+|[-+*/()]", text), [], []

    def part():
        word = words.pop(0)
        if word == "(":
            index = whole()
            words.pop(0)
            return index
        if not word.isdigit():
            names.append(word.encode())
        nodes.append((0, 0, 0, int(word)) if word.isdigit() else (1, 0, 0, 0))
        return len(nodes) - 1

    def whole():
        left = part()
        if not words or words[0] == ")":
            return left
        kind = 2 + "+-*/".index(words.pop(0))
        nodes.append((kind, left, part(), 0))
        return len(nodes) - 1

    whole()
    return tree(*nodes, name=names[0] if names else b"x", **other)


def written(text):
    """The fields of a text of defaults, one word to a field, named by their places.

    Digits 0 and 1 are a number field, as wide as there are digits, and its
    default. Dots are a number field without a default. `!` after the digits
    fixes the default, `?` gives the arg bool, `c` the arg code. `x` with hex
    digits is a byte slice and its default bytes, `o` with a number is a byte
    slice of that many bytes without a default.
    """
    return b"".join(written_block(word, place_name(place))
                    for place, word in enumerate(text.split()))


def written_block(word, name):
    if word[0] == "o":
        return field(name, 8 * int(word[1:]), SLICE)
    if word[0] == "x":
        data = bytes.fromhex(word[1:])
        return field(name, 8 * len(data), SLICE, kind=BYTES, data=data)
    digits = word.rstrip("!?c")
    made = dict(arg=BOOL if "?" in word else CODE if "c" in word else 0)
    if word[0] != ".":
        made.update(kind=NUMBER, number=int(digits, 2), fixed=int("!" in word))
    return field(name, len(digits), **made)


def written_bits(text):
    """For each word of such a text the bits that it stands for, as digits."""
    bits = []
    for word in text.split():
        if word[0] == "o":
            bits.append("00000000" * int(word[1:]))
        elif word[0] == "x":
            bits.append("".join(f"{byte:08b}" for byte in bytes.fromhex(word[1:])))
        else:
            bits.append(word.rstrip("!?c").replace(".", "0"))
    return bits


def bytes_of_bits(digits):
    """Each eight digits are a byte, the first digit its most significant bit."""
    return bytes(int(digits[i:i + 8], 2) for i in range(0, len(digits), 8))
