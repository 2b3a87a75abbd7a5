"""The reasons as the crate `answer` has them: enums, and the numbers of their cases."""

import re

from table import Wrong, fault


def cases_of(enum, source):
    """The cases of an enum, each with its number, in order."""
    found = re.search(rf"\npub enum {enum} {{\n((?:    \w+ = [0-9]+,\n)*)}}\n", source)
    return re.findall(r"\w+ = [0-9]+", found[1]) if found else []


def group_comments(groups, source):
    """Of each group the comment above its enum."""
    found = {group: re.search(rf"\n// (.+\.)\n(?:#\[.*\]\n)*pub enum {fault(group)} {{\n", source) for group in groups}
    for group, comment in found.items():
        if not comment:
            raise Wrong(f"crates/answer/src/lib.rt has no enum {fault(group)} with a comment above it")
    return {group: comment[1] for group, comment in found.items()}


def numbers_in(definition, enum, paper):
    """What a definition says of the cases of an enum: each with its number."""
    return [f"{name} = {number}"
            for name, number in re.findall(rf"\n{definition} {enum}\.(\w+) = ([0-9]+)(?=\n)", paper)]


def reason_numbers(group, reasons, paper):
    """The numbers of a group's cases. A group of one case has no definition of its own."""
    found = numbers_in(f"{group}_number", fault(group), paper)
    alone = re.search(rf"\nnumber_of \(Refusal\.{group.capitalize()} .*\) = ([0-9]+)\n", paper)
    return [f"{reasons[0].name} = {alone[1]}"] if alone and not found else found


def differences(groups, source, paper):
    """Where the code and the table differ, a line for each enum and each definition of its numbers."""
    numbers = [f"{group.capitalize()} = {number}" for number, group in enumerate(groups, 1)]
    yield from differs("the enum Group", cases_of("Group", source), numbers)
    yield from differs("the numbers of Group", numbers_in("group_number", "Group", paper), numbers)
    for group, reasons in groups.items():
        numbers = [f"{reason.name} = {reason.number}" for reason in reasons]
        yield from differs(f"the enum {fault(group)}", cases_of(fault(group), source), numbers)
        yield from differs(f"the numbers of {fault(group)}", reason_numbers(group, reasons, paper), numbers)


def differs(what, in_code, in_table):
    if in_code != in_table:
        code = ", ".join(each for each in in_code if each not in in_table)
        table = ", ".join(each for each in in_table if each not in in_code)
        yield f"{what}: crates/answer alone has ({code}), the table alone ({table}), or the order is another"
