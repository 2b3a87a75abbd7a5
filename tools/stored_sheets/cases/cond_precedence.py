"""Cases of step 5: where each refusal can stand, and which of two comes first."""

from stored_sheets.cases.conds import counted
from stored_sheets.cases.sheet_texts import told
from stored_sheets.rules.groups import COND

# For each cond refusal an entry with that fault alone. The sheet has the
# fields x and y of 8 bits and s, a byte slice. 7 needs an entry of x before it.
ENTRIES = {1: "C:no", 2: "C:s", 4: "C:y=5..4", 6: "C:y=1..5,5..9", 7: "C:x"}

FIELDS = "x:8 y:8 s:16s"


def places_of_cond_faults(cases):
    """Cond 1 to 7 at the first place that they can have, at a middle and at the last."""
    for number, entry in ENTRIES.items():
        for text, place in (
                (f"{FIELDS} C:x {entry}", 4), (f"{FIELDS} C:x {entry} C:y", 4),
                (f"{FIELDS} L2 L0 C:x {entry} C:no", 6)):
            cases.told(text, (COND, number, place), "place")
        if number != 7:
            cases.told(f"{FIELDS} {entry}", (COND, number, 3), "place")
            cases.told(f"{FIELDS} {entry} C:x", (COND, number, 3), "place")
            cases.told(f"{FIELDS} L1 {entry} C:x C:y", (COND, number, 4), "place")
    text = counted(32).rsplit(" ", 1)[0]
    cases.cond(6, "place: cond 6 at the last of 64 blocks", told(f"{text} C:f31=..,.."),
               place=63)


def two_faults_in_one_entry(cases):
    """The earlier number wins; of two ranges the earlier one."""
    for text, number, place in (
            # An unknown name, and ranges that no field would allow.
            ("x:8 C:no=5..4", 1, 1), ("x:8 C:no=..,..", 1, 1), ("x:8 C:no=..<0", 1, 1),
            # A byte slice, and such ranges, or listed before, which is cond 2 too.
            ("x:16s C:x=5..4", 2, 1), ("x:16s C:x=..,..", 2, 1), ("x:88 C:x=5..4", 2, 1),
            ("x:72 C:x=..,..", 2, 1), ("x:16s C:x C:x", 2, 1),
            # 4 and 6, by range.
            ("x:8 C:x=5..4,..,..", 4, 1), ("x:8 C:x=..,..,5..4", 6, 1),
            ("x:8 C:x=..,5..4", 4, 1), ("x:8 C:x=0..9,5..4", 4, 1),
            ("x:8 C:x=0..9,5..<5,0..9", 4, 1), ("x:8 C:x=0..9,0..9,5..<5", 6, 1),
            ("x:8 C:x=0..500,300..400", 4, 1), ("x:8 C:x=256..256,256..256", 4, 1),
            # 4 and 7, 6 and 7.
            ("x:8 C:x C:x=5..4", 4, 2), ("x:8 C:x=1..1 C:x=..<0", 4, 2),
            ("x:8 C:x C:x=1..1,5..4", 4, 2), ("x:8 C:x C:x=..,..", 6, 2),
            ("x:8 C:x=1..1 C:x=1..5,5..9", 6, 2), ("x:8 C:x C:x=..,..,5..4", 6, 2),
            ("x:8 C:x C:x=5..4,..,..", 4, 2), ("x:8 C:x=1..1 C:x=1..2", 7, 2),
            ("x:8 y:8 C:x C:y C:x=..,..", 6, 4)):
        cases.told(text, (COND, number, place), "one entry")


def faults_in_two_entries(cases):
    """The earlier entry wins, whatever the numbers."""
    for first, entry in ENTRIES.items():
        for other in ENTRIES.values():
            cases.told(f"{FIELDS} C:x {entry} {other}", (COND, first, 4), "two entries")
        if first != 7:
            cases.told(f"{FIELDS} {entry} C:x C:x", (COND, first, 3), "two entries")


def cond_8_last(cases):
    """Cond 8 comes after every entry."""
    names = "abcdefgh"
    fields = " ".join(f"{name}:8" for name in names) + " i:8 j:16s"
    eight = " ".join(f"C:{name}" for name in names)
    for number, entry in ((1, "C:no"), (2, "C:j"), (4, "C:i=5..4"), (6, "C:i=..,.."),
                          (7, "C:h")):
        cases.told(f"{fields} {eight} {entry}", (COND, number, 18), "before 8")
    cases.told(f"{fields} {eight} C:i", (COND, 8, 19), "before 8")
    cases.told(f"{fields} {eight} C:i C:no", (COND, 1, 19), "before 8")
    cases.told(f"{fields} {eight} C:i C:a", (COND, 7, 19), "before 8")
    cases.told(f"{fields} {eight} C:i C:i", (COND, 7, 19), "before 8")
    cases.told(f"{fields} {eight} C:a C:i", (COND, 7, 18), "before 8")


SECTIONS = (
    places_of_cond_faults, two_faults_in_one_entry, faults_in_two_entries, cond_8_last)
