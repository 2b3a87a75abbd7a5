"""Tables and the sheets that they tell. The format is told in examples/README.md."""

from expressions import Expression
from sheet_blocks import (
    BOOL, BYTES, CODE, EXCLUDED, INCLUDED, NONE, NUMBER, SLICE, TRUTH, U8, U16, U32, U64,
    UNDEFINED, condition, field, length, tree)
from words import Words, Wrong, shown

MOST_BITS_STORED = 2 ** 32 - 1
MOST_BYTES_STORED = 424
MOST_RANGES = 24

# The kinds of lines in their order, each with the most that there may be.
KINDS = {"field": 64, "length": 3, "cond": 32}

REPRS = {"u8": U8, "u16": U16, "u32": U32, "u64": U64, "bytes": SLICE, "bool": BOOL}
ARGS = {**REPRS, "code": CODE}
GENS = {"false": 1, "true": 2}
TRUTHS = {"false": 0, "true": 1}
SLOTS = {"header_len": 0, "payload_len": 1, "packet_len": 2}


def sheet_of(content):
    """The sheet of a table, both as bytes. Wrong tells the line at fault."""
    # A byte-order mark, which some editors put in front of a text, is no word.
    text = content.removeprefix(b"\xef\xbb\xbf").decode("latin-1")
    table = Table()
    for number, line in enumerate(text.split("\n"), 1):
        try:
            table.read(Words(line))
        except Wrong as wrong:
            raise Wrong(f"line {number}: {wrong}") from None
    return b"".join(table.blocks)


class Table:
    """The blocks of the lines read so far."""

    def __init__(self):
        self.blocks = []
        self.kinds = []
        self.slots = []

    def read(self, words):
        """Reads a line, which may be empty."""
        if not words.left():
            return
        kind = self.kind(words)
        if kind == "field":
            block = field_block(words)
        elif kind == "length":
            block = length_block(self.slot(words), words)
        else:
            block = condition_block(words)
        words.done()
        self.blocks.append(block)

    def kind(self, words):
        """The first word. The kinds stand in their order, and none too often."""
        order = list(KINDS)
        if not words.next_is("plain", *order):
            raise words.unlike(f"a first word ({', '.join(order)})")
        kind = words.take()
        if self.kinds and order.index(kind) < order.index(self.kinds[-1]):
            raise Wrong(f"a {kind} after a {self.kinds[-1]}: first come the fields, then the "
                        "lengths, then the conditions")
        self.kinds.append(kind)
        if self.kinds.count(kind) > KINDS[kind]:
            raise Wrong(f"there are over {KINDS[kind]} lines with {kind}")
        return kind

    def slot(self, words):
        word = words.next().text
        slot = words.one_of(SLOTS, "a length")
        if slot in self.slots:
            raise Wrong(f"{word} is given twice")
        self.slots.append(slot)
        return slot


def field_block(words):
    name = words.first_name("the name of a field")
    bits = words.number("bits", MOST_BITS_STORED)
    given, told = [], {}
    while words.left():
        item = words.next().text
        read = words.one_of(ITEMS, "an item of the field")
        if item in given:
            raise Wrong(f"{item} is given twice")
        given.append(item)
        told.update(read(words))
    if "fixed" in given and "default" not in given:
        raise Wrong("fixed without a default")
    return field(name, bits, **told)


def default(words):
    """Kind and value of a default: bytes, a bool or a number."""
    if words.next_is("bytes"):
        data = words.data()
        if len(data) > MOST_BYTES_STORED:
            raise Wrong(f"the default has {len(data)} bytes, over {MOST_BYTES_STORED}")
        return dict(kind=BYTES, data=data)
    if words.next_is("plain", *TRUTHS):
        return dict(kind=TRUTH, number=TRUTHS[words.take()])
    return dict(kind=NUMBER, number=words.number("default"))


# How each item is read, and what the writer of the block is told of it.
ITEMS = {
    "repr": lambda words: dict(repr=words.one_of(REPRS, "a type")),
    "arg": lambda words: dict(arg=words.one_of(ARGS, "a type")),
    "gen": lambda words: dict(gen=words.one_of(GENS, "a bool")),
    "default": default,
    "fixed": lambda words: dict(fixed=1),
}


def length_block(slot, words):
    if words.taken("plain", "undefined"):
        return length(slot=slot, form=UNDEFINED)
    forced = words.taken("plain", "tree")
    expression = Expression(words)
    if forced or expression.form() is None:
        return tree(*expression.nodes, name=expression.name, slot=slot)
    return length(expression.name, slot, expression.form(), *expression.numbers())


def condition_block(words):
    name = words.first_name("the name of a field")
    ranges = []
    while words.left():
        if ranges and not words.taken("mark", ","):
            raise words.unlike("a comma or the end of the line")
        ranges.append(a_range(words))
        if len(ranges) > MOST_RANGES:
            raise Wrong(f"the field {shown(name.decode())} has over {MOST_RANGES} ranges")
    return condition(name, ranges)


def a_range(words):
    """A range as start kind, end kind, start and end."""
    starts = words.number_next()
    start = words.number("start") if starts else 0
    if starts and not words.next_is("mark", "..", "..="):
        return INCLUDED, INCLUDED, start, start
    start_kind = INCLUDED if starts else NONE
    if words.taken("mark", "..="):
        return start_kind, INCLUDED, start, words.number("end")
    if not words.taken("mark", ".."):
        raise words.unlike("a range (such as 4, 1..=9 or 16..)")
    if words.number_next():
        return start_kind, EXCLUDED, start, words.number("end")
    return start_kind, NONE, start, 0
