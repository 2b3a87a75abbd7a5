"""The reasons as a part of include/pktfmt.h."""

import re

from table import Wrong, constant

SECTION = re.compile(r"(/\* reasons: begin\..*?\*/\n).*(/\* reasons: end \*/\n)", re.DOTALL)
MOST_COLUMNS = 116

ENUM = """/* {about} */
enum pktfmt_{name} {{
{cases}
}};
"""

FUNCTIONS = """/* The name of a group; "no such group" where there is none. */
static inline const char *pktfmt_group_name(uint64_t group)
{{
    switch (group) {{
{names}
    default: return "no such group";
    }}
}}

/* The words of docs/RULES.md for a refusal, wherever it points; "no such refusal" where there is none. */
static inline const char *pktfmt_reason(uint64_t group, uint64_t number)
{{
    static const struct {{
        uint64_t group, number;
        const char *words;
    }} reasons[] = {{
{rows}
    }};
    for (size_t i = 0; i < sizeof reasons / sizeof reasons[0]; i++)
        if (reasons[i].group == group && reasons[i].number == number)
            return reasons[i].words;
    return "no such refusal";
}}
"""


def with_section(header, groups, about):
    """The header with its part about reasons written anew."""
    if len(SECTION.findall(header)) != 1:
        raise Wrong("include/pktfmt.h does not have the two comments that begin and end the reasons")
    made = "\n".join(parts(groups, about))
    if any(len(line) > MOST_COLUMNS for line in made.splitlines()):
        raise Wrong(f"words that do not fit into a line of {MOST_COLUMNS} columns")
    return SECTION.sub(lambda found: f"{found[1]}\n{made}\n{found[2]}", header)


def parts(groups, about):
    yield enum("group", "The groups.", [f"    {case}" for case in group_cases(groups)])
    for group, reasons in groups.items():
        cases = [f"    /* {reason.words} */\n    PKTFMT_{constant(reason)} = {reason.number}"
                 for reason in reasons]
        yield enum(f"{group}_fault", about[group], cases)
    yield FUNCTIONS.format(names=group_names(groups), rows=rows(groups))


def enum(name, about, cases):
    return ENUM.format(name=name, about=about, cases=",\n".join(cases))


def group_constant(group):
    return f"PKTFMT_GROUP_{group.upper()}"


def group_cases(groups):
    return [f"{group_constant(group)} = {number}" for number, group in enumerate(groups, 1)]


def group_names(groups):
    return "\n".join(f'    case {group_constant(group)}: return "{group}";' for group in groups)


def rows(groups):
    return ",\n".join(f'        {{{number}, {reason.number}, "{reason.words}"}}'
                      for number, reasons in enumerate(groups.values(), 1) for reason in reasons)
