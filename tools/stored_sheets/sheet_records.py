"""The record of a sheet with its answer and its facts. The format is told in __main__.py."""

import struct
import sys

from stored_sheets.facts import facts
from stored_sheets.packing import packed
from stored_sheets.rules.answers import answer
from stored_sheets.rules.groups import ACCEPTED


def sheet_record(case):
    pack = packed(case.sheet)
    known = facts(case.sheet) if answer(case.sheet, 2) == ACCEPTED else b""
    if len(known) > 65_535:
        sys.exit(f"the facts of case ({case.title}) do not fit")
    sizes = len(pack), len(case.sheet)
    return struct.pack(">HHBBBH", *sizes, *case.expected, len(known)) + pack + known
