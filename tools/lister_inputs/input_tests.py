"""The tests of this program itself."""

import sys
from collections import Counter
from itertools import islice

from inputs import inputs
from listing import listing
from runs import fault_of_run
from shapes import REFUSALS, fault_of, label
from sheet_blocks import condition, field, length
from stored_sheets.cases.block_changes import unsealed
from stored_sheets.cases.known_sheets import lister_sheet
from stored_sheets.cases.sheet_texts import shaped

# The listing of examples/three_bytes.sheet.
THREE_BYTES = """header 3
field 0 0 0 4 u8 1 ver
field 1 0 4 4 u8 1 hl
field 2 1 0 12 u16 1 size
field 3 2 4 1 u8 1 flag
field 4 2 5 3 u8 1 rest
template 41000d
length header_len hl 60
length packet_len size 4095
cond ver 4 4
"""

# Sheets and their texts, stated by hand.
STATED = (
    (b"", "header 0\ntemplate\n"),
    (b"".join(lister_sheet()), THREE_BYTES),
    (field(b"a", 16, 5) + length(slot=2, form=0) + length(form=0),
     "header 2\nfield 0 0 0 16 &[u8] 0 a\ntemplate 0000\n"
     "length header_len undefined\nlength packet_len undefined\n"),
    (field(b"a", 64) + condition(b"a"),
     "header 8\nfield 0 0 0 64 u64 0 a\ntemplate 0000000000000000\ncond a\n"),
    (b"x", "refused sheet 1 0\n"),
    (field() + unsealed(field()), "refused sheet 2 1\n"),
    (shaped("4 C:z"), "refused header 6 2\n"),
    (field(b"a", 65_544), "refused room 1 1\n"),
)

# What no run may print for an input of three blocks.
WRONG_TEXTS = (
    "", "\n", "refused\n", "refused sheet 2 1", "refused sheet 2 1\n\n",
    "refused sheet 2 1 \n", "refused sheet 02 1\n", "refused sheet 7 0\n",
    "refused sheet 1 1\n", "refused sheet 2 3\n", "refused access 1 0\n",
    "refused length 2 0\n", "refused length 13 0\n", "refused cond 3 0\n",
    "refused room 1 2\n", "refused header 6 1\n",
    "refused sheet 2 1\nrefused sheet 2 1\n", "header 0\n", "header 0\ntemplate \n",
    "template\n", "header 1\ntemplate\n", "header 1\ntemplate 00\n", "header 0\ntemplate 00\n",
    "header 1\nfield 0 0 0 8 u8 0 a\ntemplate 0\n",
    "header 1\nfield 1 0 0 8 u8 0 a\ntemplate 00\n",
    "header 1\nfield 0 0 1 7 u8 1 a\ntemplate 00\n",
    "header 1\nfield 0 0 0 8 u9 0 a\ntemplate 00\n",
    "header 1\nfield 0 0 0 8 u8 2 a\ntemplate 00\n",
    "header 1\nfield 0 0 0 8 u8 0 a b\ntemplate 00\n",
    "header 1\nfield 0 0 0 8 u8 0 a\ntemplate 0A\n",
    THREE_BYTES.replace("length header_len hl 60\n", "") + "length header_len hl 60\n",
    THREE_BYTES.replace("60", "060"), THREE_BYTES.replace("60", ""), THREE_BYTES + "cond ver 4\n",
    THREE_BYTES + THREE_BYTES, THREE_BYTES.replace("\n", "\r\n"), THREE_BYTES + "\u00e4\n",
)


def check_texts():
    for sheet, text in STATED:
        assert listing(sheet) == text, text
        assert fault_of(text.encode(), len(sheet)) is None, text
    assert label("refused cond 4 2\n") == "cond 4" and label(THREE_BYTES) == "accepted"


def check_examples(home):
    """The rules give the listing beside each sheet of examples/."""
    for path in (home / "examples").glob("*.sheet"):
        assert listing(path.read_bytes()) == path.with_suffix(".listing").read_text(), path


def check_shapes():
    for text in WRONG_TEXTS:
        assert fault_of(text.encode(), 3 * 512) is not None, text
    assert fault_of(THREE_BYTES.encode(), 8 * 512 + 1) is not None
    assert fault_of(THREE_BYTES.encode(), 100 * 512) is not None


def check_inputs(home):
    """They are the same every time, and reach every refusal that there is."""
    first = list(islice(inputs(home, 5), 6_000))
    assert first[:200] == list(islice(inputs(home, 5), 200))
    counts = Counter()
    for sheet in first:
        text = listing(sheet)
        assert fault_of(text.encode(), len(sheet)) is None, text
        counts[label(text)] += 1
    assert set(counts) == REFUSALS | {"accepted"}, REFUSALS - set(counts)
    assert max(len(listing(sheet)) for sheet in first) > 20_000


def check_runs():
    """Programs that print what they should, and such as do not."""
    sheet, said = field() + unsealed(field()), "refused sheet 2 1\n"
    for script, right in ((f"print({said.strip()!r})", True),
                          (f"print({said!r})", False),
                          ("print('refused sheet 2 0')", False),
                          ("pass", False),
                          (f"print({said.strip()!r}); raise SystemExit(1)", False)):
        words = [sys.executable, "-c", f"import sys; sys.stdin.buffer.read(); {script}"]
        assert (fault_of_run(words, sheet, said) is None) == right, script


def check(home):
    check_texts()
    check_examples(home)
    check_shapes()
    check_inputs(home)
    check_runs()
    print("the texts, examples, shapes, inputs and runs hold")
