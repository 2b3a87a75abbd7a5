"""The tests of this program itself: tables with faults, and code that differs."""

from code_names import differences
from table import TITLES, Wrong, constant, groups_of, read_table

ROWS = ("| sheet | 1 | the bytes are none | `WrongLength` |\n"
        "| | 3 | the sheet is long | `SheetOver64Blocks` |\n"
        "| room | 1 | there is none | `NoRoom` |\n")

ENUMS = ("\npub enum Group {\n    Sheet = 1,\n    Room = 2,\n}\n"
         "\npub enum SheetFault {\n    WrongLength = 1,\n    SheetOver64Blocks = 3,\n}\n"
         "\npub enum RoomFault {\n    NoRoom = 1,\n}\n")

PAPER = ("\ngroup_number Group.Sheet = 1\ngroup_number Group.Room = 2\n"
         "\nsheet_number SheetFault.WrongLength = 1\nsheet_number SheetFault.SheetOver64Blocks = 3\n"
         "\nnumber_of (Refusal.Room fault place) = 1\n")

# What is changed in the rows, so that they are no table.
FAULTS = (("| | 3 |", "| | 1 |"), ("| | 3 |", "| | 0 |"), ("| | 3 |", "| | x |"),
          ("| sheet |", "| |"), ("| room |", "| sheet |"), ("| room |", "| no room |"),
          ("`SheetOver64Blocks`", "`WrongLength`"), ("`SheetOver64Blocks`", "`SheetWrongLength`"),
          ("`NoRoom`", "NoRoom"), ("`NoRoom`", "`no_room`"), ("| there is none |", "| |"),
          ("there is", 'there "is"'), ("there is", "there */ is"), ("| there", "there"))

# What is changed in the code, so that it is not the table's.
CHANGES = (("    Room = 2,\n", ""), ("    WrongLength = 1,\n", ""),
           ("    NoRoom = 1,\n", "    Room = 1,\n"), ("    NoRoom = 1,\n", "    NoRoom = 1,\n    Other = 2,\n"),
           ("    SheetOver64Blocks = 3,\n", "    SheetOver64Blocks = 2,\n"), ("    NoRoom = 1,\n", "    NoRoom,\n"),
           ("Group.Room = 2", "Group.Room = 3"), ("Blocks = 3", "Blocks = 2"), ("place) = 1", "place) = 2"),
           ("\nsheet_number SheetFault.WrongLength = 1", ""))


def table(rows):
    return groups_of(read_table(f"before\n{TITLES}{rows}\nafter\n"))


def is_refused(rows):
    try:
        table(rows)
    except Wrong:
        return True
    return False


def check_program():
    groups = table(ROWS)
    assert [constant(reason) for reason in sum(groups.values(), [])] == [
        "SHEET_WRONG_LENGTH", "SHEET_OVER_64_BLOCKS", "ROOM_NO_ROOM"]
    for old, new in FAULTS:
        assert old in ROWS and is_refused(ROWS.replace(old, new)), new
    assert not list(differences(groups, ENUMS, PAPER))
    for old, new in CHANGES:
        assert old in ENUMS + PAPER and list(
            differences(groups, ENUMS.replace(old, new), PAPER.replace(old, new))), new
