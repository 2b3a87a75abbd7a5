"""The groups of refusals, and answers: group, number and place, all 0 where accepted."""

from enum import IntEnum


class Group(IntEnum):
    """The groups, numbered as in include/pktfmt.h."""

    NUMBER = 1
    TYPE = 2
    SHEET = 3
    FIELD = 4
    HEADER = 5
    LENGTH = 6
    COND = 7
    POSITION = 8
    BOUND = 9
    ACCESS = 10
    ROOM = 11


# The groups of steps 1 to 5, of reads and writes, and of the template's buffer.
SHEET, FIELD, HEADER = Group.SHEET, Group.FIELD, Group.HEADER
LENGTH, COND = Group.LENGTH, Group.COND
ACCESS, ROOM = Group.ACCESS, Group.ROOM

ACCEPTED = (0, 0, 0)

# The numbers of each group that a sheet can be refused with.
REFUSALS_OF_SHEETS = {
    SHEET: (1, 2, 3, 4, 5, 6), FIELD: (1, 2, 3, 4, 5, 6, 7), HEADER: (1, 2, 3, 4, 5, 6),
    LENGTH: (1, 3, 4, 5, 6, 7, 8, 9, 10, 12), COND: (1, 2, 4, 6, 7, 8)}


def refusal_name(group, number):
    """A refusal as the lister prints it, without its place."""
    return f"{Group(group).name.lower()} {number}"


def answer_name(answer):
    """An answer in words, without its place."""
    group, number, _ = answer
    return "accepted" if answer == ACCEPTED else refusal_name(group, number)
