"""What holds of the lister's text on any input, told without reading the sheet."""

import re

from sheet_blocks import BLOCK
from stored_sheets.rules.groups import (
    COND, HEADER, LENGTH, REFUSALS_OF_SHEETS, ROOM, SHEET, refusal_name)
from stored_sheets.rules.limits import MOST_BLOCKS

MOST_BYTES_OF_SHEET = MOST_BLOCKS * BLOCK
# The bytes of the template's buffer.
ROOM_OF_TEMPLATE = 8_192

NUMBER = r"(?:0|[1-9][0-9]{0,19})"
NAME = r"[!-~]{1,64}"

REFUSED = re.compile(rf"refused ([a-z]+) ({NUMBER}) ({NUMBER})\n")
FIELD = re.compile(rf"field ({NUMBER}) ({NUMBER}) ([0-7]) ({NUMBER}) "
                   rf"(?:u8|u16|u32|u64|&\[u8\]) [01] {NAME}\n")
LISTING = re.compile(
    rf"header (?P<header>{NUMBER})\n"
    rf"(?P<fields>(?:{FIELD.pattern}){{0,64}})"
    r"template(?: (?P<template>(?:[0-9a-f]{2})+))?\n"
    rf"(?:length header_len (?:undefined|{NAME} {NUMBER})\n)?"
    rf"(?:length (?:payload|packet)_len (?:undefined|{NAME} {NUMBER})\n)?"
    rf"(?:cond {NAME}(?: {NUMBER} {NUMBER}){{0,24}}\n){{0,8}}")

# The refusals that the lister can give: all of them, the one without a place, and those
# whose place is the block count.
REFUSALS = {refusal_name(group, number)
            for group, numbers in (*REFUSALS_OF_SHEETS.items(), (ROOM, (1,)))
            for number in numbers}
WITHOUT_PLACE = refusal_name(SHEET, 1)
OF_THE_WHOLE_SHEET = {refusal_name(group, number) for group, number in (
    (HEADER, 6), (LENGTH, 1), (COND, 8), (ROOM, 1))}


def label(text):
    """The group and the number of a refusal, or that there is none."""
    found = REFUSED.fullmatch(text)
    return f"{found[1]} {found[2]}" if found else "accepted"


def fault_of(output, size):
    """What is wrong with the bytes printed for an input of this size, or None."""
    if not output.isascii():
        return "a byte that is not ASCII"
    text = output.decode()
    found = REFUSED.fullmatch(text)
    if found:
        return refusal_fault(f"{found[1]} {found[2]}", int(found[3]), size)
    if size % BLOCK != 0 or size > MOST_BYTES_OF_SHEET:
        return "no refusal of what is no sheet by its length"
    found = LISTING.fullmatch(text)
    return listing_fault(**found.groupdict()) if found else "no known shape"


def refusal_fault(refusal, place, size):
    """The group and number of a refusal, and its place, are such as there can be."""
    count = size // BLOCK
    if refusal not in REFUSALS:
        return "an unknown refusal"
    if refusal == WITHOUT_PLACE:
        return None if place == 0 else "a place where there is none"
    if refusal in OF_THE_WHOLE_SHEET:
        return None if place == count else "a place that is not the block count"
    return None if place < count else "a place that is no block"


def listing_fault(header, fields, template):
    """The fields are numbered, stand one behind the other, and fill the header."""
    end = 0
    for index, (told, byte, bit, width) in enumerate(FIELD.findall(fields)):
        if int(told) != index or 8 * int(byte) + int(bit) != end:
            return f"field {index} out of its place"
        end += int(width)
    if end != 8 * int(header) or int(header) > ROOM_OF_TEMPLATE:
        return "fields that do not fill the header, or too long a header"
    if len(template or "") != 2 * int(header):
        return "a template that is not as long as the header"
    return None
