"""The facts of four sheets, written by hand."""

from sheet_blocks import BYTES, CODE, SLICE, field, length, tree
from stored_sheets.cases.known_sheets import lister_sheet
from stored_sheets.cases.samples import LEAF, X
from stored_sheets.cases.sheet_texts import shaped, told
from stored_sheets.facts import facts
from stored_sheets.rules.answers import answer
from stored_sheets.rules.groups import ACCEPTED, COND, HEADER, LENGTH

# The facts of the lister's sheet, written by hand.
LISTER_FACTS = """
050201 05ff06
03766572 02686c 0473697a65 04666c6167 0472657374 02686c 0473697a65 03766572
00000004 01 01 01 00 01 01 0000000000000004 0000
00000004 01 01 00 00 01 01 0000000000000001 0000
0000000c 02 02 00 00 01 01 0000000000000000 0000
00000001 01 06 01 00 01 01 0000000000000001 0000
00000003 01 01 01 00 01 01 0000000000000005 0000
00000000 00000004 00000008 00000014 00000015
00 01 02 03 04 01 02 00
00000003 0006 0000 03 41000d
02 03 0000000000000004 0000000000000000 000000000000003c 0000000000000004
00
02 01 0000000000000000 0000000000000000 0000000000000fff 0000000000000000
01 0000000000000004 0000000000000004
"""

# The facts of a sheet of three blocks: a byte slice with a stated default, a
# tree x*3 in slot 1, and an undefined slot 0. Step 4 refuses it: there is no x.
SMALL_FACTS = """
010200 02 01 ff
0161 0178 00
00000010 05 07 00 00 00 02 0000000000000000 0002 6162
01 00 00 0000000000000000
00 00 00 0000000000000003
04 00 01 0000000000000000
""" + "00" * 11 * 29 + """
00000000
00 ff ff
00000002 0005 0000 02 6162
"""

# The facts of 4 and 4 bits, x the second of them with the default 1, a tree
# 2+3*x in slot 0, slot 2 undefined, and C on the first with two ranges. After
# those of the blocks and the header come slots and ranges.
TREE_FACTS = """
020201 03 ff 02
0161 0178 00 0178 0161
00000004 01 01 00 00 01 01 0000000000000000 0000
00000004 01 01 00 00 01 01 0000000000000001 0000
00 00 00 0000000000000002
00 00 00 0000000000000003
01 00 00 0000000000000000
04 01 02 0000000000000000
02 00 03 0000000000000000
""" + "00" * 11 * 27 + """
00000000 00000004
00 01 ff 01 00
00000001 0004 0000 01 01
02 05 0000000000000003 0000000000000002 000000000000002f 0000000000000005
00
01
02 0000000000000000 0000000000000002 0000000000000009 000000000000000f
"""

# The facts of a sheet that step 3 refuses: 3 and 9 bits named a, with C on a
# and on b.
REFUSED_FACTS = """
020002 ffffff
0161 0161 0161 0162
00000003 01 01 01 00 01 01 0000000000000000 0000
00000009 02 02 01 00 01 01 0000000000000000 0000
00000000 00000003
00 00 00 ff
"""


def check_facts():
    assert facts(b"".join(lister_sheet())) == bytes.fromhex(LISTER_FACTS)
    small = field(b"a", 16, SLICE, CODE, 1, BYTES, data=b"ab")
    small += tree(X, LEAF, (4, 0, 1, 0), name=b"x", slot=1) + length(form=0)
    assert answer(small, 3) == ACCEPTED and answer(small) == (LENGTH, 3, 1)
    assert facts(small) == bytes.fromhex(SMALL_FACTS)
    full = told("a:4 x:4=1 L2 T0=2+(3*x) C:a=..<3,9..99")
    assert answer(full) == ACCEPTED
    assert facts(full) == bytes.fromhex(TREE_FACTS)
    listed = told("a:4 x:4=1 L2 T0=2+(3*x) C:a=..<3,2..99")
    assert answer(listed) == (COND, 6, 4)
    assert facts(listed) == bytes.fromhex(TREE_FACTS)[:-33]
    refused = shaped("a:3 a:9 C:a C:b")
    assert answer(refused, 2) == ACCEPTED and answer(refused) == (HEADER, 1, 1)
    assert facts(refused) == bytes.fromhex(REFUSED_FACTS)
    assert facts(b"") == bytes.fromhex("000000ffffff 00000000 0000 000000")
