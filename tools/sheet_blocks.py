"""The blocks of a sheet as docs/RULES.md lays them out: codes, the block check, writers.

For every tool here that makes sheets. The writers set what they are told, also
wrongly: the tests need wrong blocks, and who needs right ones sees to it first.
"""

import struct

BLOCK = 512

# Codes of repr and arg.
ABSENT, U8, U16, U32, U64, SLICE, BOOL, CODE = range(8)
# Default kinds.
NUMBER, BYTES, TRUTH = 1, 2, 3
# Forms of a length.
UNDEFINED, PLAIN, SUM, PRODUCT, SUM_TIMES, PRODUCT_PLUS, TREE = range(7)
# Kinds of nodes.
VALUE, THE_FIELD, ADD, SUBTRACT, MULTIPLY, DIVIDE = range(6)
# Kinds of the ends of a range. A start is of the first two.
NONE, INCLUDED, EXCLUDED = range(3)


def ones_complement_sum(block):
    """The sum of the 256 big-endian words, each carry added at the low end."""
    total = 0
    for word in struct.unpack(">256H", block):
        total += word
        total = (total & 65_535) + (total >> 16)
    return total


def sealed(block):
    """A copy whose bytes 510 and 511 make the sum 65,535."""
    body = bytes(block[:510])
    word = 65_535 - ones_complement_sum(body + b"\0\0")
    return body + struct.pack(">H", word)


def head(letter, name, name_length):
    """The first 66 bytes, which all kinds share."""
    size = len(name) if name_length is None else name_length
    return letter + bytes([size]) + name.ljust(64, b"\0")


def field(name=b"f", bits=8, repr=0, arg=0, gen=0, kind=0, fixed=0, number=0,
          data=b"", count=None, name_length=None):
    """An F block. The byte count is that of `data` unless it is given."""
    block = head(b"F", name, name_length)
    block += struct.pack(">I6BQH", bits, repr, arg, gen, kind, fixed, 0, number,
                         len(data) if count is None else count)
    return sealed((block + data).ljust(510, b"\0"))


def length(name=None, slot=0, form=1, first=0, second=0, nodes=(),
           node_count=None, name_length=None):
    """An L block. Nodes are (kind, left, right, number)."""
    if name is None:
        name = b"" if form == UNDEFINED else b"f"
    block = head(b"L", name, name_length)
    block += struct.pack(">BBQQ", slot, form, first, second)
    if form == TREE:
        count = len(nodes) if node_count is None else node_count
        block += struct.pack(">B3x", count)
        for node in nodes:
            block += struct.pack(">3BxQ", *node)
    return sealed(block.ljust(510, b"\0"))


def tree(*nodes, **other):
    """An L block of form 6."""
    return length(form=TREE, nodes=nodes, **other)


def condition(name=b"f", ranges=(), range_count=None, name_length=None):
    """A C block. Ranges are (start kind, end kind, start, end)."""
    block = head(b"C", name, name_length)
    block += struct.pack(">Bx", len(ranges) if range_count is None else range_count)
    for span in ranges:
        block += struct.pack(">BBQQ", *span)
    return sealed(block.ljust(510, b"\0"))
