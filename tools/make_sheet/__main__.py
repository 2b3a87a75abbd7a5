"""Makes a sheet of a readable table.

    python3 tools/make_sheet TABLE SHEET   reads the table and writes the sheet
    python3 tools/make_sheet --check       tests the program itself

A table is a text with a line for each block of the sheet:

    # RFC 791, the first two bytes
    field version 4 default 4
    field ihl 4 default 5 gen false
    field type_of_service 8
    length header_len ihl * 4
    cond version 4

examples/README.md tells the whole format, and examples/ has tables.

What step 1 of docs/RULES.md would refuse is refused here, in words and with the
line, and then nothing is written; so every sheet that is written passes that step.
Steps 2 to 5 are left to the lister: it says of the sheet whether its widths,
defaults, lengths and conditions are allowed.
"""

import os
import sys
from pathlib import Path

# The folder of the tools, for what they share.
sys.path.append(str(Path(__file__).resolve().parent.parent))

from tables import sheet_of
from words import Wrong

# No table needs more: 99 lines, the longest with 424 bytes as a default.
MOST_BYTES_OF_TABLE = 2 ** 20


def read_table(path):
    try:
        with open(path, "rb") as file:
            content = file.read(MOST_BYTES_OF_TABLE + 1)
    except OSError as error:
        raise Wrong(f"the table cannot be read: {error.strerror}") from None
    if len(content) > MOST_BYTES_OF_TABLE:
        raise Wrong(f"a table has at most {MOST_BYTES_OF_TABLE} bytes")
    return content


def write_sheet(table, path, sheet):
    try:
        if os.path.exists(path) and os.path.samefile(table, path):
            raise Wrong("the sheet would be written over the table")
        with open(path, "wb") as file:
            file.write(sheet)
    except OSError as error:
        raise Wrong(f"the sheet cannot be written: {error.strerror}") from None


def make(table, path):
    try:
        write_sheet(table, path, sheet_of(read_table(table)))
    except Wrong as wrong:
        sys.exit(f"{table}: {wrong}")


def check():
    # Only the tests need the stored sheets, for the rules of step 1.
    from table_tests import check_tables
    check_tables()


def main(arguments):
    if arguments == ["--check"]:
        check()
    elif len(arguments) == 2:
        make(*arguments)
    else:
        sys.exit("usage: python3 tools/make_sheet TABLE SHEET | --check")


if __name__ == "__main__":
    main(sys.argv[1:])
