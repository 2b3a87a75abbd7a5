"""The facts of a sheet, as its record has them. The format is told in __main__.py."""

import struct

from stored_sheets.packing import packed
from stored_sheets.rules.blocks import blocks_of
from stored_sheets.rules.conds import ranges, step_5
from stored_sheets.rules.fields import resolved
from stored_sheets.rules.groups import ACCEPTED
from stored_sheets.rules.headers import header_length, lookups, starts, step_3, template
from stored_sheets.rules.lengths import lengths, step_4


def field_facts(block):
    found = resolved(block)
    return struct.pack(">I6BQH", *found[:8], len(found.data)) + found.data


def tree_facts(block):
    """The 32 nodes of a form 6, each without its zero byte."""
    out = b""
    for start in range(88, 88 + 12 * 32, 12):
        out += block[start:start + 3] + block[start + 4:start + 12]
    return out


def block_facts(sheet):
    """What the blocks hold, each by itself."""
    blocks = blocks_of(sheet)
    kinds = [block[0:1] for block in blocks]
    slots = [255, 255, 255]
    for place, block in enumerate(blocks):
        if kinds[place] == b"L":
            slots[block[66]] = place
    out = bytes([kinds.count(b"F"), kinds.count(b"L"), kinds.count(b"C")])
    out += bytes(slots)
    for block in blocks:
        out += block[1:2 + block[1]]
    for kind, block in zip(kinds, blocks):
        if kind == b"F":
            out += field_facts(block)
    for kind, block in zip(kinds, blocks):
        if kind == b"L" and block[67] == 6:
            out += tree_facts(block)
    out += b"".join(struct.pack(">I", start) for start in starts(sheet))
    return out + bytes(lookups(sheet))


def header_facts(sheet):
    pack = packed(template(sheet))
    return struct.pack(">IH", header_length(sheet), len(pack)) + pack


def length_facts(sheet):
    """The three slots in their order."""
    out = b""
    for held in lengths(sheet):
        if held is None:
            out += b"\0"
        elif held == ():
            out += b"\1"
        else:
            out += struct.pack(">BB4Q", 2, *held)
    return out


def range_facts(sheet):
    """The entries in their order."""
    out = b""
    for entry in ranges(sheet):
        out += bytes([len(entry)])
        out += b"".join(struct.pack(">QQ", *span) for span in entry)
    return out


def facts(sheet):
    """The facts of a sheet that passes steps 1 and 2, as far as it passes the others."""
    out = block_facts(sheet)
    for step, more in ((step_3, header_facts), (step_4, length_facts),
                       (step_5, range_facts)):
        if step(sheet) != ACCEPTED:
            break
        out += more(sheet)
    return out
