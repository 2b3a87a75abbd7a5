"""The table of reasons in docs/RULES.md."""

import re
from collections import namedtuple

Reason = namedtuple("Reason", "group number words name")

TITLES = "| group | number | | name |\n|---|---|---|---|\n"
NAME = re.compile(r"`((?:[A-Z][a-z]*|[0-9]+)+)`")


class Wrong(Exception):
    """Something that cannot be written, or is not as it has to be."""


def read_table(rules):
    """The reasons, in the order of the table. A group is named in its first row alone."""
    if rules.count(TITLES) != 1:
        raise Wrong("docs/RULES.md does not have one table of reasons")
    reasons = []
    for line in rules[rules.index(TITLES) + len(TITLES):].splitlines():
        if not line.startswith("|"):
            break
        reasons.append(read_row(line, reasons))
    return reasons


def read_row(line, before):
    cells = [cell.strip() for cell in line.split("|")]
    if len(cells) != 6 or cells[0] or cells[5]:
        raise Wrong(f"not four columns: {line}")
    _, group, number, words, name, _ = cells
    if not number.isdecimal() or not NAME.fullmatch(name):
        raise Wrong(f"no number, or no name: {line}")
    if not words.isascii() or not words[:1].islower() or re.search(r'["\\`]|\*/', words):
        raise Wrong(f"words that are none, or that C or Rust would not take: {line}")
    reason = Reason(group or group_before(before), int(number), words, name.strip("`"))
    fault = fault_beside(reason, before, starts=bool(group))
    if fault:
        raise Wrong(f"{fault}: {line}")
    return reason


def group_before(before):
    if not before:
        raise Wrong("the first reason has no group")
    return before[-1].group


def fault_beside(reason, before, starts):
    """What is wrong with a reason after those before it, None if nothing is."""
    same = [each for each in before if each.group == reason.group]
    if not re.fullmatch("[a-z]+", reason.group):
        return "the group is no word"
    if starts and same:
        return "the group was there before"
    if reason.number <= (same[-1].number if same else 0):
        return "the number is not above those before it"
    if constant(reason) in map(constant, same):
        return "the name was there before"
    return None


def groups_of(reasons):
    """The reasons of each group, in order."""
    groups = {}
    for reason in reasons:
        groups.setdefault(reason.group, []).append(reason)
    return groups


def fault(group):
    """The name of a group's enum in Rattle and in Rust."""
    return f"{group.capitalize()}Fault"


def constant(reason):
    """The reason's name in capitals, with its group before it, which is not said twice."""
    words = re.findall("[A-Z][a-z]*|[0-9]+", reason.name)
    if words[0].lower() != reason.group:
        words.insert(0, reason.group)
    return "_".join(words).upper()
