"""What the lister owes for a sheet, by the rules of tools/stored_sheets.

They are stated there without the crates, and so is the text here: docs/RULES.md
tells it.
"""

from shapes import ROOM_OF_TEMPLATE
from sheet_blocks import SLICE, U8, U16, U32, U64
from stored_sheets.rules.answers import answer
from stored_sheets.rules.blocks import blocks_of, blocks_of_kind, fields_of, name_of
from stored_sheets.rules.conds import ranges
from stored_sheets.rules.fields import resolved
from stored_sheets.rules.groups import ACCEPTED, ROOM, refusal_name
from stored_sheets.rules.headers import header_length, starts, template
from stored_sheets.rules.lengths import lengths

SLOT_NAMES = ("header_len", "payload_len", "packet_len")
TYPE_NAMES = {U8: "u8", U16: "u16", U32: "u32", U64: "u64", SLICE: "&[u8]"}


def listing(sheet):
    """The whole text, each line with its line feed."""
    refusal = answer(sheet)
    if refusal == ACCEPTED and header_length(sheet) > ROOM_OF_TEMPLATE:
        refusal = ROOM, 1, len(blocks_of(sheet))
    if refusal != ACCEPTED:
        group, number, place = refusal
        return f"refused {refusal_name(group, number)} {place}\n"
    lines = [f"header {header_length(sheet)}", *field_lines(sheet),
             f"template {template(sheet).hex()}".rstrip(), *length_lines(sheet),
             *cond_lines(sheet)]
    return "".join(f"{line}\n" for line in lines)


def field_lines(sheet):
    """Index, byte, bit, width, repr, guard and name of each field."""
    lines = []
    for index, (start, block) in enumerate(zip(starts(sheet), fields_of(sheet))):
        found = resolved(block)
        lines.append(f"field {index} {start // 8} {start % 8} {found.bits} "
                     f"{TYPE_NAMES[found.repr]} {found.guard} {name_of(block).decode()}")
    return lines


def length_lines(sheet):
    """Slot, name and largest length of each length that is given, by slot."""
    names = {block[66]: name_of(block).decode()
             for _, block in blocks_of_kind(sheet, b"L")}
    lines = []
    for slot, held in enumerate(lengths(sheet)):
        if held == ():
            lines.append(f"length {SLOT_NAMES[slot]} undefined")
        elif held is not None:
            _, _, _, largest, _ = held
            lines.append(f"length {SLOT_NAMES[slot]} {names[slot]} {largest}")
    return lines


def cond_lines(sheet):
    """Name, and the first and the last number of each range, by entry."""
    lines = []
    for (_, block), spans in zip(blocks_of_kind(sheet, b"C"), ranges(sheet)):
        numbers = [str(number) for span in spans for number in span]
        lines.append(" ".join(["cond", name_of(block).decode(), *numbers]))
    return lines
