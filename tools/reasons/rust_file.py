"""The reasons as rust/src/reasons.rs, laid out as rustfmt does it."""

from table import fault

MOST_COLUMNS = 120

FILE = """//! The reasons of refusals. Written by tools/reasons from the table in docs/RULES.md.

/// The groups of refusals.
#[derive(Clone, Copy, Debug, PartialEq, Eq, Hash, PartialOrd, Ord)]
pub enum Group {{
{group_cases}
}}

impl Group {{
    /// All groups, in the order of their numbers.
    pub const ALL: [Group; {group_count}] = [
{all_groups}
    ];

    /// The group's name in the rules.
    pub fn name(self) -> &'static str {{
        match self {{
{group_names}
        }}
    }}
}}

{faults}
/// Why something was refused: a group, and a reason in it.
#[derive(Clone, Copy, Debug, PartialEq, Eq, Hash, PartialOrd, Ord)]
pub enum Reason {{
{reason_cases}
}}

impl Reason {{
    /// All reasons, in the order of their groups and numbers.
    pub const ALL: [Reason; {reason_count}] = [
{all_reasons}
    ];

    /// The reason's group.
    pub fn group(self) -> Group {{
        match self {{
{groups_of}
        }}
    }}

    /// The reason's number in its group.
    pub fn number(self) -> u64 {{
        match self {{
{numbers_of}
        }}
    }}

    /// The reason in words.
    pub fn words(self) -> &'static str {{
        match self {{
{words_of}
        }}
    }}

    /// The reason of a group and a number, if there is one.
    pub(crate) fn of_numbers(group: u64, number: u64) -> Option<Reason> {{
        Reason::ALL.into_iter().find(|reason| reason.group() as u64 == group && reason.number() == number)
    }}
}}
"""

FAULT = """/// {about}
#[derive(Clone, Copy, Debug, PartialEq, Eq, Hash, PartialOrd, Ord)]
pub enum {fault} {{
{cases}
}}

impl {fault} {{
    fn words(self) -> &'static str {{
        match self {{
{words}
        }}
    }}
}}
"""


def rust_text(groups, about):
    reasons = [reason for group in groups.values() for reason in group]
    return FILE.format(
        group_cases=lines(f"    /// {about[group]}\n    {group.capitalize()} = {number},"
                          for number, group in enumerate(groups, 1)),
        group_count=len(groups),
        all_groups=lines(f"        Group::{group.capitalize()}," for group in groups),
        group_names=lines(arm(f"Group::{group.capitalize()}", f'"{group}"') for group in groups),
        faults=lines(fault_text(*group, about) for group in groups.items()),
        reason_cases=lines(f"    /// {about[group]}\n    {group.capitalize()}({fault(group)}),"
                           for group in groups),
        reason_count=len(reasons),
        all_reasons=lines(f"        Reason::{each.group.capitalize()}({case(each)})," for each in reasons),
        groups_of=reason_arms(groups, "_", lambda group: f"Group::{group.capitalize()}"),
        numbers_of=reason_arms(groups, "fault", lambda group: "fault as u64"),
        words_of=reason_arms(groups, "fault", lambda group: "fault.words()"))


def fault_text(group, reasons, about):
    """The enum of a group, and the words of its cases."""
    cases = lines(f"    /// {sentence(reason.words)}\n    {reason.name} = {reason.number}," for reason in reasons)
    words = lines(arm(case(reason), f'"{reason.words}"') for reason in reasons)
    return FAULT.format(about=about[group], fault=fault(group), cases=cases, words=words)


def reason_arms(groups, bound, value):
    return lines(arm(f"Reason::{group.capitalize()}({bound})", value(group)) for group in groups)


def arm(pattern, value):
    """A case of a match. Where it does not fit into a line, its value has one to itself."""
    line = f"            {pattern} => {value},"
    if len(line) <= MOST_COLUMNS:
        return line
    return f"            {pattern} => {{\n                {value}\n            }}"


def lines(texts):
    return "\n".join(texts)


def case(reason):
    return f"{fault(reason.group)}::{reason.name}"


def sentence(words):
    return f"{words[0].upper()}{words[1:]}."
