"""Step 3: the fields as a header; and where each starts, which a name finds, the template."""

from sheet_blocks import SLICE
from stored_sheets.rules.blocks import blocks_of, fields_of, name_of
from stored_sheets.rules.fields import resolved
from stored_sheets.rules.groups import ACCEPTED, HEADER
from stored_sheets.rules.limits import MOST_BYTES


def step_3(sheet):
    """Header 1 to 5 for each field in turn, then header 6."""
    names, bits = [], 0
    for place, block in enumerate(fields_of(sheet)):
        found = resolved(block)
        number = header_refusal(names, bits, name_of(block), found)
        if number != 0:
            return HEADER, number, place
        names.append(name_of(block))
        bits += found.bits
    if bits % 8 != 0:
        return HEADER, 6, len(blocks_of(sheet))
    return ACCEPTED


def header_refusal(names, start, name, found):
    """The number of the first header refusal of one field, or 0.

    `names` are those of the fields before it, `start` is the sum of their bits.
    """
    if name in names:
        return 1
    if name == b"type":
        return 2
    if found.bits <= 64 and touched_bytes(start, found.bits) > 8:
        return 3
    if found.repr == SLICE and start % 8 != 0:
        return 4
    if (start + found.bits) // 8 > MOST_BYTES:
        return 5
    return 0


def touched_bytes(start, bits):
    """From the byte of the first bit to the byte of the last, both counted."""
    return (start + bits - 1) // 8 - start // 8 + 1


def starts(sheet):
    """For each field the sum of the bits of the fields before it."""
    out, bits = [], 0
    for block in fields_of(sheet):
        out.append(bits)
        bits += resolved(block).bits
    return out


def lookups(sheet):
    """For each block the index of the first field of its name, 255 for none."""
    names = [name_of(block) for block in fields_of(sheet)]
    return [names.index(name_of(block)) if name_of(block) in names else 255
            for block in blocks_of(sheet)]


def header_length(sheet):
    return sum(resolved(block).bits for block in fields_of(sheet)) // 8


def template(sheet):
    """The bytes of the header, each field set to its default."""
    out = bytearray(header_length(sheet))
    for start, block in zip(starts(sheet), fields_of(sheet)):
        found = resolved(block)
        if found.repr == SLICE:
            out[start // 8:start // 8 + len(found.data)] = found.data
        else:
            for i in range(found.bits):
                if found.number >> (found.bits - 1 - i) & 1:
                    out[(start + i) // 8] |= bit_mask((start + i) % 8)
    return bytes(out)


def bit_mask(bit):
    """Bit 0 of a byte is its most significant one, bit 7 its least."""
    return 128 >> bit
