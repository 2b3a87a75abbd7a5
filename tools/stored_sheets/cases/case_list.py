"""A list of cases, each with its answer written beside it and held against the rules."""

import sys
from collections import namedtuple

from sheet_blocks import BLOCK
from stored_sheets.cases.sheet_texts import shaped, spelled, told
from stored_sheets.rules import conds, headers, lengths
from stored_sheets.rules.answers import answer
from stored_sheets.rules.fields import resolved
from stored_sheets.rules.groups import ACCEPTED, COND, FIELD, HEADER, LENGTH, SHEET

Case = namedtuple("Case", "title sheet expected source")

# What a case may state beside its answer. Each rule is looked up when it is asked, so
# that the tests can put a wrong one in its place.
STATED = {
    "field": lambda sheet: resolved(sheet[:BLOCK]),
    "starts": lambda sheet: headers.starts(sheet),
    "lookups": lambda sheet: headers.lookups(sheet),
    "template": lambda sheet: headers.template(sheet),
    "lengths": lambda sheet: lengths.lengths(sheet),
    "ranges": lambda sheet: conds.ranges(sheet),
}


class Cases(list):
    """The list of cases. Each new one is held against `answer`.

    The answers stated are those of steps 1 to `steps`. Where they stop before
    step 5 and accept, the answer of the steps after comes from `answer`.
    """

    def __init__(self):
        super().__init__()
        self.steps = 5
        self.titles = set()

    def add(self, title, sheet, expected, source="hand", **stated):
        """Adds a case. `stated` may hold the first field, resolved by hand, the
        starts, the lookups, the template, the lengths and the ranges."""
        sheet = sheet if isinstance(sheet, bytes) else b"".join(sheet)
        self.hold(title, "answer", expected, answer(sheet, self.steps))
        for what, value in stated.items():
            self.hold(title, what, value, STATED[what](sheet))
        if title in self.titles:
            sys.exit(f"case {len(self)}: the title ({title}) is used twice")
        if self.steps < 5 and expected == ACCEPTED and source != "computed":
            source += f" to step {self.steps}"
        self.titles.add(title)
        self.append(Case(title, sheet, answer(sheet), source))

    def hold(self, title, what, stated, given):
        if stated != given:
            sys.exit(f"case {len(self)} ({title}): stated {what} {brief(stated)}, "
                     f"but the rules give {brief(given)}")

    def computed(self, title, sheet):
        self.add(title, sheet, answer(sheet, self.steps), "computed")

    def accepted(self, title, *blocks, **stated):
        self.add(title, blocks, ACCEPTED, **stated)

    def sheet(self, number, title, *blocks, place=0):
        self.add(title, blocks, (SHEET, number, place))

    def field(self, number, title, *blocks, place=0):
        self.add(title, blocks, (FIELD, number, place))

    def header(self, number, title, *blocks, place=0, **stated):
        self.add(title, blocks, (HEADER, number, place), **stated)

    def length(self, number, title, *blocks, place=0):
        self.add(title, blocks, (LENGTH, number, place))

    def cond(self, number, title, *blocks, place=0):
        self.add(title, blocks, (COND, number, place))

    def spelled(self, text, expected, title=""):
        self.add(f"{title} [{text}]".strip(), spelled(text), expected)

    def shaped(self, text, expected, title="", **stated):
        self.add(f"{title} [{text}]".strip(), shaped(text), expected, **stated)

    def told(self, text, expected, title="", **stated):
        self.add(f"{title} [{text}]".strip(), told(text), expected, **stated)


def brief(value):
    """A value for a message, cut where it is long."""
    text = value.hex() if isinstance(value, bytes) else str(value)
    return text if len(text) <= 200 else text[:200] + " ..."
