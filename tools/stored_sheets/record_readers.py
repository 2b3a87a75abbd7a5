"""Reads both files back. It follows the formats told in __main__.py, and nothing else.

So it takes nothing from the modules that write the files but the numbers of the
groups. It stops with an AssertionError where a record is not as it is told.
"""

from collections import namedtuple

from stored_sheets.rules.groups import FIELD, HEADER, LENGTH, SHEET

Record = namedtuple("Record", "sheet answer facts")

# `data` are the bytes that an operation takes or gives, `run` those that differ after it.
StoredOperation = namedtuple(
    "StoredOperation", "what index filling size number data answer first run")


class Bytes:
    """Bytes that are read from the front."""

    def __init__(self, content):
        self.content = content
        self.at = 0

    def take(self, count):
        assert self.at + count <= len(self.content)
        self.at += count
        return self.content[self.at - count:self.at]

    def number(self, count):
        return int.from_bytes(self.take(count), "big")

    def left(self):
        return len(self.content) - self.at


def read_sheets(content):
    """All records of the file of sheets."""
    source, records = Bytes(content), []
    while source.left():
        pack, size = source.number(2), source.number(2)
        answer = source.number(1), source.number(1), source.number(1)
        known = source.number(2)
        sheet = unpack(source.take(pack), size)
        facts = Bytes(source.take(known))
        records.append(Record(sheet, answer, read_facts(facts, sheet, answer[0])))
        assert facts.left() == 0
    return records


def unpack(pack, size):
    source, out = Bytes(pack), b""
    while source.left():
        gap = source.number(2)
        out += bytes(gap)
        out += source.take(source.number(1))
    assert len(out) <= size
    return out + bytes(size - len(out))


def read_facts(source, sheet, group):
    """The facts as a dict. `group` tells the step that refused, 0 that none did."""
    if group in (SHEET, FIELD):
        return {}
    blocks = [sheet[at:at + 512] for at in range(0, len(sheet), 512)]
    trees = sum(block[0:1] == b"L" and block[67] == 6 for block in blocks)
    out = {"counts": [source.number(1) for _ in range(3)]}
    fields, _, entries = out["counts"]
    out["slots"] = [source.number(1) for _ in range(3)]
    out["names"] = [source.take(source.number(1)) for _ in blocks]
    out["fields"] = [read_field(source) for _ in range(fields)]
    out["trees"] = [[read_node(source) for _ in range(32)] for _ in range(trees)]
    out["starts"] = [source.number(4) for _ in range(fields)]
    out["lookups"] = [source.number(1) for _ in blocks]
    if group != HEADER:
        out["size"] = source.number(4)
        out["template"] = unpack(source.take(source.number(2)), out["size"])
    if group not in (HEADER, LENGTH):
        out["lengths"] = [read_length(source) for _ in range(3)]
    if group == 0:
        out["ranges"] = [read_ranges(source) for _ in range(entries)]
    return out


def read_field(source):
    """Bits; repr, arg, gen, fixed, guard and default kind; number; bytes."""
    bits = source.number(4)
    codes = [source.number(1) for _ in range(6)]
    number = source.number(8)
    return (bits, *codes, number, source.take(source.number(2)))


def read_node(source):
    return source.number(1), source.number(1), source.number(1), source.number(8)


def read_length(source):
    """None, () or the form, its numbers, the largest length and the default's."""
    state = source.number(1)
    assert state <= 2
    if state == 0:
        return None
    if state == 1:
        return ()
    return (source.number(1), *[source.number(8) for _ in range(4)])


def read_ranges(source):
    return [(source.number(8), source.number(8)) for _ in range(source.number(1))]


def read_accesses(content):
    """All records of the file of reads and writes, each a sheet and its operations."""
    source, records = Bytes(content), []
    while source.left():
        pack, size, count = source.number(2), source.number(2), source.number(2)
        sheet = unpack(source.take(pack), size)
        records.append((sheet, [read_operation(source) for _ in range(count)]))
    return records


def read_operation(source):
    what, index, filling = source.number(1), source.number(1), source.number(1)
    size, number, count = source.number(2), source.number(8), source.number(2)
    answer = source.number(1), source.number(1), source.number(1)
    first, changed = source.number(2), source.number(2)
    assert what <= 3 and filling <= 2 and size <= 2_048
    return StoredOperation(what, index, filling, size, number, source.take(count), answer,
                           first, source.take(changed))
