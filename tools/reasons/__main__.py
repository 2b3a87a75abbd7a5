"""Writes the reasons of refusals, of one table, for C and for Rust.

    python3 tools/reasons           writes them anew
    python3 tools/reasons --check   says what differs, and tests the program itself

The table is the one of docs/RULES.md: group, number, words and name of each reason.
From it come the part of include/pktfmt.h between its two comments `reasons`, and
rust/src/reasons.rs. What a group is about is told there by the comment above its
enum in crates/answer/src/lib.rt.

The check holds both texts to the table, byte for byte, and the table to the code: to
the enums of crates/answer/src/lib.rt with their numbers, and to those that
crates/answer/specs/Paper.antt gives to their cases.
"""

import sys
from difflib import unified_diff
from pathlib import Path

from c_section import with_section
from code_names import differences, group_comments
from reason_tests import check_program
from rust_file import rust_text
from table import Wrong, groups_of, read_table

HOME = Path(__file__).resolve().parent.parent.parent
RULES, HEADER, RUST = "docs/RULES.md", "include/pktfmt.h", "rust/src/reasons.rs"
ENUMS, PAPER = "crates/answer/src/lib.rt", "crates/answer/specs/Paper.antt"


def text_of(path):
    try:
        return (HOME / path).read_text(encoding="utf-8")
    except OSError as error:
        raise Wrong(f"{path} cannot be read: {error.strerror}") from None


def texts(groups):
    """What the header and the Rust file have to be."""
    about = group_comments(groups, text_of(ENUMS))
    return {HEADER: with_section(text_of(HEADER), groups, about), RUST: rust_text(groups, about)}


def write(groups):
    for path, text in texts(groups).items():
        (HOME / path).write_text(text, encoding="utf-8")


def check(groups):
    check_program()
    wrong = list(differences(groups, text_of(ENUMS), text_of(PAPER)))
    for path, text in texts(groups).items():
        lines = text_of(path).splitlines(), text.splitlines()
        wrong += unified_diff(*lines, path, "what the table gives", lineterm="", n=1)
    if wrong:
        raise Wrong("\n".join(wrong))
    count = sum(len(reasons) for reasons in groups.values())
    print(f"{count} reasons in {len(groups)} groups: the header, the Rust file and the code have them")


def main(arguments):
    if arguments not in ([], ["--check"]):
        sys.exit("usage: python3 tools/reasons [--check]")
    try:
        groups = groups_of(read_table(text_of(RULES)))
        check(groups) if arguments else write(groups)
    except Wrong as wrong:
        sys.exit(f"tools/reasons: {wrong}")


if __name__ == "__main__":
    main(sys.argv[1:])
