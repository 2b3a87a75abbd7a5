"""Stored test sheets for steps 1 to 5 of docs/RULES.md, and stored reads and writes.

The program holds a list of sheets, each with the answer that steps 1 (sheet
1 to 6), 2 (field 1 to 7), 3 (header 1 to 6), 4 (length 1, 3 to 10 and 12) and
5 (cond 1, 2, 4, 6, 7 and 8) must give, and writes them to one file, which is
kept as crates/test_stored/data/sheets. To a second file, which is kept as
crates/test_accesses/data/accesses, it writes reads and writes of fields (access
1 to 5), each with its answer and the bytes after it. It states the rules by
itself and takes nothing from the crates.

    python3 tools/stored_sheets OUTFILE              writes the file of sheets
    python3 tools/stored_sheets --accesses OUTFILE   writes that of reads and writes
    python3 tools/stored_sheets --show N             prints case N, counted from 0
    python3 tools/stored_sheets --show-access R N    prints operation N of record R
    python3 tools/stored_sheets --check              tests the program itself

    rules/   the rules, stated once, in the order of docs/RULES.md
    cases/   the sheets with their answers, and the operations on fields
    tests/   the tests of the program itself
    wrong/   wrong rules, each of which the tests have to notice

How the list of sheets is made. `answer` goes over the rules. The cases state
them again: each has its answer written beside it. The program stops where the
two differ. A case has one of these sources:

    hand      the answer is written beside the case
    table     the answer is read from a table written by hand
    computed  the answer comes from `answer` alone (the changed bytes, the
              mixed headers and the mixed lengths)

The cases of steps 1 and 2 state the answer of these two steps. Where they
state that both accept the sheet, the source is `hand to step 2` or `table to
step 2`, and what the later steps say of the sheet comes from `answer`. The
cases of step 3 state the answer of the first three steps in the same way, as
`hand to step 3` and `table to step 3`, and many of them the starts of the
fields, the fields found by name, or the template. The cases of steps 4 and 5
state the answer of all five steps, and many of them the lengths or the
ranges.

Length 13 has no case, since no sheet comes to it. The default is at most the
field's largest value, and a length never falls as its value rises. So where
the largest value's length can be worked out, which length 8 has made sure of
by then, the default's can be too.

The list is the same on every run. It takes no clock and no outside chance.

The answer is group, number, place. The groups are numbered as in
include/pktfmt.h: 3 is sheet, 4 is field, 5 is header, 6 is length, 7 is cond
and 10 is access. 0 0 0 is a sheet that passes the five steps, and so is
accepted, or a read or write that is.

The file of sheets is a sequence of records. All numbers are big-endian.

    2  P, length of the packed sheet
    2  S, length of the sheet, at most 51,200
    1  group
    1  number
    1  place
    2  T, length of the facts, 0 for a sheet that step 1 or 2 refuses
    P  the packed sheet
    T  the facts

The packed sheet is a sequence of runs: 2 bytes gap, the number of zero bytes
before the run; 1 byte n, 1 to 255; n bytes as they are. After the last run
come zeros up to S. The n bytes may be zeros too: a gap over 65,535 is
written as runs of gap 65,535 and one zero byte, each of them 65,536 zeros,
and then what is left of the gap. Only templates need this.

The facts are
    number of F, of L and of C blocks, 1 byte each;
    block index of slot 0, 1 and 2, 1 byte each, 255 for none;
    for every block the name length, 1 byte, and the name;
    for every F block the resolved field: 4 bytes bits; 1 byte each for repr
    (1 to 6), arg (1 to 7), gen, fixed, write guard (0 or 1) and default kind
    (1 number, 2 bytes); 8 bytes number; 2 bytes count of the stated default
    bytes; those bytes. An absent default is number 0, or for a byte slice
    bytes of which none are stated;
    for every L block of form 6 its 32 nodes of 11 bytes: kind, left, right,
    8 bytes number. Nodes past the node count are zero;
    for every F block the start of its field, 4 bytes: the sum of the bits of
    the fields before it;
    for every block of any kind 1 byte: the index of the first F block of the
    same name, 255 for none. A block without a name has 255;
    if steps 1 to 3 accept the sheet, 4 bytes the header's length in bytes; 2
    bytes Q; Q bytes the template, packed like a sheet. After its last run
    come zeros up to the header's length;
    if steps 1 to 4 accept it, for slot 0, 1 and 2 in turn, wherever their
    blocks stand, 1 byte: 0 absent, 1 given without an expression (form 0), 2
    given with one. After a 2 come 1 byte the form, 1 to 5, for a tree that
    which it is; 8 bytes and 8 bytes its two numbers in the order of the L
    block, 0 where the form has none; 8 bytes the length of the field's
    largest value; 8 bytes the length of the field's resolved default;
    if steps 1 to 5 accept it, for every C block in turn 1 byte the number of
    ranges, and for each of them 8 bytes the first and 8 bytes the last number
    that lies in it after clipping.

The file of reads and writes is a sequence of records too, each a sheet and
operations on its fields, each operation on a new buffer. All numbers are
big-endian.

    2  P, length of the packed sheet
    2  S, length of the sheet
    2  N, number of operations
    P  the packed sheet, as in the file of sheets
       then the operations:
    1  what: 0 read a number, 1 read bytes, 2 write a number, 3 write bytes
    1  field index
    1  filling of the buffer: 0 all bytes 0, 1 all bytes 255, 2 mixed: byte i is
       (37 * i + 11) % 256
    2  length of the buffer, at most 2,048
    8  the number that is written or that an accepted read gives, else 0
    2  C, count of the bytes that are written or that an accepted read gives,
       else 0
    1  group of the answer
    1  number of the refusal, 0 where accepted
    1  place of the refusal, 0 where accepted
    2  offset of the first byte of the buffer that differs after the operation,
       0 where none does
    2  K, how many bytes there are from it to the last that differs, both
       counted, 0 where none does
    C  the bytes that are written or read
    K  the bytes of the buffer after the operation, from that offset on

All other bytes of the buffer are then as before.

An accepted sheet has these operations for each field, in buffers one byte
shorter than the header (where it has a byte), as long as it, and 5 bytes
longer, each with all three fillings: both reads; to a number field writes of
0, 1, the largest value, one more, what stands there, what would stand there in
mixed bytes, and if it is fixed the default and one more, all as far as 64 bits
hold them; to a byte slice writes of zeros, zeros with a last byte 1, bytes
255, one more and one less of these, what stands there and what would in mixed
bytes; and of the other kind, to a number field 1 byte and as many as it fills,
to a byte slice 0 and 2^64 - 1. What stands there is written only where it can
be read. The indexes after the last field and 255 have all four operations in
mixed buffers of each length. Exact repeats are left out, and so are, to keep
the file small, fillings 0 and 1 of the shorter buffer where a sheet has over
12 fields, and for byte slices over 64 bytes those of the shorter and of the
longer buffer. A refused sheet has all four operations for the indexes 0 and
200 in mixed buffers of 40 bytes.

These answers come from rules/accesses.py alone. The tests hold it against
operations whose outcome is stated, and each operation of the file against a
second form that goes over single bits.
"""

import sys
from collections import Counter
from pathlib import Path

# The folder of the tools: this one is the package stored_sheets there.
sys.path.append(str(Path(__file__).resolve().parent.parent))

from stored_sheets.access_records import access_record
from stored_sheets.cases.access_operations import all_accesses
from stored_sheets.cases.all_cases import all_cases
from stored_sheets.facts import facts
from stored_sheets.packing import RUN
from stored_sheets.rules.accesses import carried_out, opened
from stored_sheets.rules.answers import answer
from stored_sheets.rules.blocks import blocks_of
from stored_sheets.rules.groups import ACCEPTED, answer_name
from stored_sheets.sheet_records import sheet_record
from stored_sheets.tests.all_tests import check


def write(path):
    cases = all_cases()
    content = b"".join(sheet_record(case) for case in cases)
    with open(path, "wb") as file:
        file.write(content)
    print(f"{len(cases)} cases")
    for label, count in sorted(Counter(answer_name(c.expected) for c in cases).items()):
        print(f"  {label}: {count}")
    for label, count in sorted(Counter(c.source for c in cases).items()):
        print(f"  stated by {label}: {count}")
    print(f"{len(content)} bytes")


def write_accesses(path):
    records, counts = all_accesses(), Counter()
    content = b"".join(access_record(each) for each in records)
    with open(path, "wb") as file:
        file.write(content)
    for each in records:
        sheet = opened(each.sheet)
        counts.update(answer_name(carried_out(sheet, operation).answer)
                      for operation in each.operations)
    print(f"{len(records)} sheets, {counts.total()} operations")
    for label, count in sorted(counts.items()):
        print(f"  {label}: {count}")
    print(f"{len(content)} bytes")


def show(index):
    cases = all_cases()
    if not 0 <= index < len(cases):
        sys.exit(f"there are cases 0 to {len(cases) - 1}")
    case = cases[index]
    print(f"case {index}: {case.title}")
    print(f"expected: {answer_name(case.expected)}, place {case.expected[2]}"
          f" (stated by {case.source})")
    print(f"sheet: {len(case.sheet)} bytes")
    for place, block in enumerate(blocks_of(case.sheet)):
        runs = [f"{run.start()}: {run.group().hex()}" for run in RUN.finditer(block)]
        print(f"  block {place}  " + "  ".join(runs))
    if answer(case.sheet, 2) == ACCEPTED:
        print(f"facts: {facts(case.sheet).hex()}")


def show_access(index, count):
    records = all_accesses()
    if index >= len(records):
        sys.exit(f"there are records 0 to {len(records) - 1}")
    each = records[index]
    if count >= len(each.operations):
        sys.exit(f"there are operations 0 to {len(each.operations) - 1}")
    operation = each.operations[count]
    outcome = carried_out(opened(each.sheet), operation)
    print(f"record {index}: {each.title}")
    print(operation)
    print(f"expected: {answer_name(outcome.answer)}, place {outcome.answer[2]}")
    print(f"read: {outcome.value}")
    print(f"buffer after: {outcome.buffer.hex()}")


def main(arguments):
    numbers = [int(word) for word in arguments if word.isdigit()]
    if arguments == ["--check"]:
        check()
    elif len(arguments) == 2 and arguments[0] == "--accesses":
        write_accesses(arguments[1])
    elif len(arguments) == 2 and arguments[0] == "--show" and len(numbers) == 1:
        show(*numbers)
    elif len(arguments) == 3 and arguments[0] == "--show-access" and len(numbers) == 2:
        show_access(*numbers)
    elif len(arguments) == 1 and not arguments[0].startswith("-"):
        write(arguments[0])
    else:
        sys.exit("usage: python3 tools/stored_sheets OUTFILE | --accesses OUTFILE | "
                 "--show N | --show-access R N | --check")


if __name__ == "__main__":
    main(sys.argv[1:])
