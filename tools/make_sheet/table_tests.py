"""The tests of this program itself."""

import ast
import random
import subprocess
import sys
import tempfile
from pathlib import Path

from sheet_blocks import (
    ADD, BOOL, BYTES, CODE, DIVIDE, MULTIPLY, NUMBER, SLICE, SUBTRACT, THE_FIELD, TRUTH, U8,
    U16, U32, U64, VALUE, condition, field, length, tree)
from stored_sheets.cases.known_sheets import lister_sheet, rfc_791_sheet
from stored_sheets.rules.groups import ACCEPTED
from stored_sheets.rules.sheets import step_1
from tables import sheet_of
from words import Wrong

HERE = Path(__file__).resolve().parent
EXAMPLES = HERE.parent.parent / "examples"
MOST = 2 ** 64 - 1
X = (THE_FIELD, 0, 0, 0)

# Blocks written by hand: the bytes that are not zero, by their places.
BY_HAND = (
    ("field f 8", {0: "46 01 66", 66: "00 00 00 08", 510: "53 f6"}),
    ("length header_len f * 4", {0: "4c 01 66", 67: "03", 75: "04", 510: "4d f7"}),
    ("cond f 1..3", {0: "43 01 66", 66: "01 00 01 02", 77: "01", 85: "03", 510: "54 f8"}),
)

# Lines and the blocks that they stand for.
LINES = (
    ("field a 0", field(b"a", 0)),
    ("field a 4294967295", field(b"a", 2 ** 32 - 1)),
    ("field a 0x10", field(b"a", 16)),
    ("field a 8 repr u8 arg u8", field(b"a", 8, U8, U8)),
    ("field a 8 repr u16 arg u16", field(b"a", 8, U16, U16)),
    ("field a 8 repr u32 arg u32", field(b"a", 8, U32, U32)),
    ("field a 8 repr u64 arg u64", field(b"a", 8, U64, U64)),
    ("field a 8 repr bytes arg bytes", field(b"a", 8, SLICE, SLICE)),
    ("field a 8 repr bool arg bool", field(b"a", 8, BOOL, BOOL)),
    ("field a 8 arg code", field(b"a", 8, arg=CODE)),
    ("field a 8 gen false", field(b"a", 8, gen=1)),
    ("field a 8 gen true", field(b"a", 8, gen=2)),
    ("field a 8 default 007", field(b"a", 8, kind=NUMBER, number=7)),
    (f"field a 64 default {MOST}", field(b"a", 64, kind=NUMBER, number=MOST)),
    ("field a 64 default 0XffFFffFFffFFffFF", field(b"a", 64, kind=NUMBER, number=MOST)),
    ("field a 64 default " + 99 * "0" + "5", field(b"a", 64, kind=NUMBER, number=5)),
    ("field a 1 default true", field(b"a", 1, kind=TRUTH, number=1)),
    ("field a 1 default false", field(b"a", 1, kind=TRUTH)),
    ("field a 24 default [01 0aFf]", field(b"a", 24, kind=BYTES, data=b"\1\n\xff")),
    ("field a 24 default [01:0a:ff]", field(b"a", 24, kind=BYTES, data=b"\1\n\xff")),
    ("field a 24 default []", field(b"a", 24, kind=BYTES)),
    ("field a 24 default [" + 424 * "5a" + "]", field(b"a", 24, kind=BYTES, data=424 * b"Z")),
    ("field a 8 fixed gen true default 9 arg code repr u8",
     field(b"a", 8, U8, CODE, 2, NUMBER, 1, 9)),
    ("field a 1 default true fixed", field(b"a", 1, kind=TRUTH, fixed=1, number=1)),
    ("length header_len undefined", length(form=0)),
    ("length header_len a", length(b"a")),
    ("length payload_len a + 3", length(b"a", 1, 2, 3)),
    ("length packet_len a*3", length(b"a", 2, 3, 3)),
    ("length header_len (a+2)*4", length(b"a", 0, 4, 2, 4)),
    ("length header_len a * 4 + 2", length(b"a", 0, 5, 4, 2)),
    ("length header_len ((((a)*(4)))+(2))", length(b"a", 0, 5, 4, 2)),
    (f"length header_len {2_000 * '('}a{2_000 * ')'}", length(b"a")),
    (f"length header_len a+{MOST}", length(b"a", 0, 2, MOST)),
    ("length header_len tree a", tree(X, name=b"a")),
    ("length header_len tree a + 3", tree(X, (VALUE, 0, 0, 3), (ADD, 0, 1, 0), name=b"a")),
    ("length packet_len 3 * a",
     tree((VALUE, 0, 0, 3), X, (MULTIPLY, 0, 1, 0), name=b"a", slot=2)),
    ("length header_len a - 3 - a",
     tree(X, (VALUE, 0, 0, 3), (SUBTRACT, 0, 1, 0), X, (SUBTRACT, 2, 3, 0), name=b"a")),
    ("length header_len a - 3 / a * 2",
     tree(X, (VALUE, 0, 0, 3), X, (DIVIDE, 1, 2, 0), (VALUE, 0, 0, 2), (MULTIPLY, 3, 4, 0),
          (SUBTRACT, 0, 5, 0), name=b"a")),
    ("length header_len a * (2 + 1)",
     tree(X, (VALUE, 0, 0, 2), (VALUE, 0, 0, 1), (ADD, 1, 2, 0), (MULTIPLY, 0, 3, 0),
          name=b"a")),
    ("length header_len 20 of a", tree((VALUE, 0, 0, 20), name=b"a")),
    ("length header_len a of a", length(b"a")),
    ('length header_len "of" of "of"', length(b"of")),
    ('length header_len "tree"', length(b"tree")),
    ('length header_len tree "undefined"', tree(X, name=b"undefined")),
    ('length header_len "4-x" * 4', length(b"4-x", 0, 3, 4)),
    ("cond a", condition(b"a")),
    ("cond a ..", condition(b"a", [(0, 0, 0, 0)])),
    ("cond a 4", condition(b"a", [(1, 1, 4, 4)])),
    ("cond a 4..=9", condition(b"a", [(1, 1, 4, 9)])),
    ("cond a 4 .. 9", condition(b"a", [(1, 2, 4, 9)])),
    ("cond a ..9, ..=0x9", condition(b"a", [(0, 2, 0, 9), (0, 1, 0, 9)])),
    (f"cond a 4.. , {MOST}", condition(b"a", [(1, 0, 4, 0), (1, 1, MOST, MOST)])),
    ("cond a 9" + 23 * ",..", condition(b"a", [(1, 1, 9, 9)] + 23 * [(0, 0, 0, 0)])),
    ('field "#" 8', field(b"#")),
    ('field """" 8', field(b'"')),
    ('field "(a[]=.,+)" 8', field(b"(a[]=.,+)")),
    ("field ~!&:<u8>{} 8", field(b"~!&:<u8>{}")),
    (f"field {64 * 'n'} 8", field(64 * b"n")),
    ("\tfield\ta\t8# and so on\r", field(b"a")),
    ("field default 8 default 8", field(b"default", kind=NUMBER, number=8)),
)

FIELDS_64 = "".join(f"field f{place} 8\n" for place in range(64))
CONDS_32 = "".join(f"cond f{place}\n" for place in range(32))

# Tables and what is said of them. Every fault that there is stands here.
FAULTS = (
    ('field "a 8', 'line 1: a name that begins with " has no closing "'),
    ("field a 8 default [01", "line 1: bytes that begin with [ have no closing ]"),
    ("field a 8 default=4", "line 1: '=' cannot stand here"),
    ("\n\n# none\nfeild a 8",
     "line 4: a first word (field, length, cond) is expected, not 'feild'"),
    ('"field" a 8', "line 1: a first word (field, length, cond) is expected, not 'field'"),
    ("\x89PNG\r\n", "line 1: a first word (field, length, cond) is expected, not '\\x89PNG'"),
    ("cond a\nfield a 8",
     "line 2: a field after a cond: first come the fields, then the lengths, then the "
     "conditions"),
    ("cond a\nlength header_len a",
     "line 2: a length after a cond: first come the fields, then the lengths, then the "
     "conditions"),
    (FIELDS_64 + "field g 8", "line 65: there are over 64 lines with field"),
    (CONDS_32 + "cond g", "line 33: there are over 32 lines with cond"),
    ("length payload_len a\nlength payload_len undefined",
     "line 2: payload_len is given twice"),
    ("length len a",
     "line 1: a length (header_len, payload_len, packet_len) is expected, not 'len'"),
    ("field", "line 1: the name of a field is expected, not the end of the line"),
    ("field 4 8", "line 1: the name of a field is expected, not a number: a name that begins "
                  "with a digit stands in double quotes"),
    ("field a-b 8", "line 1: a name with - in it stands in double quotes"),
    ('field "" 8', "line 1: a name has at least 1 byte"),
    (f"field {65 * 'n'} 8", f"line 1: the name '{40 * 'n'} ..' has 65 bytes, over 64"),
    ('field "a b" 8',
     "line 1: the name 'a b' has the byte 32: names are of the bytes 33 to 126, printable "
     "ASCII without the space"),
    ("field gr\xc3\xb6sse 8",
     "line 1: the name 'gr\\xc3\\xb6sse' has the byte 195: names are of the bytes 33 to 126, "
     "printable ASCII without the space"),
    ("field a", "line 1: a number (bits) is expected, not the end of the line"),
    ("field a eight", "line 1: a number (bits) is expected, not 'eight'"),
    ("field a 8bit", "line 1: '8bit' is no number: digits, or hexadecimal ones after 0x"),
    ("field a 4294967296", "line 1: bits: '4294967296' is over 4294967295"),
    ("field a 8 default 18446744073709551616",
     f"line 1: default: '18446744073709551616' is over {MOST}"),
    ("field a 8 default " + 5_000 * "9", f"line 1: default: '{40 * '9'} ..' is over {MOST}"),
    ("field a 8 default -1", "line 1: a number (default) is expected, not '-'"),
    ("field a 8 default [0 1]", "line 1: '0' in [ ] is not of pairs of hexadecimal digits"),
    ("field a 8 default [" + 425 * "00" + "]", "line 1: the default has 425 bytes, over 424"),
    ("field a 8 signed", "line 1: an item of the field (repr, arg, gen, default, fixed) is "
                         "expected, not 'signed'"),
    ("field a 8 gen true gen true", "line 1: gen is given twice"),
    ("field a 8 fixed", "line 1: fixed without a default"),
    ("field a 8 repr code",
     "line 1: a type (u8, u16, u32, u64, bytes, bool) is expected, not 'code'"),
    ("field a 8 arg byte",
     "line 1: a type (u8, u16, u32, u64, bytes, bool, code) is expected, not 'byte'"),
    ("field a 8 gen 1", "line 1: a bool (false, true) is expected, not '1'"),
    ("length header_len undefined a", "line 1: the end of the line is expected, not 'a'"),
    ("length header_len",
     "line 1: a number, the name of a field or ( is expected, not the end of the line"),
    ("length header_len a +",
     "line 1: a number, the name of a field or ( is expected, not the end of the line"),
    ("length header_len a, 4", "line 1: an operator (+ - * /) is expected, not ','"),
    ("length header_len (a + 4", "line 1: a ( has no )"),
    ("length header_len a + 4)", "line 1: a ) has no ("),
    ("length header_len a * b", "line 1: 'a' and 'b': an expression has one field"),
    ("length header_len a of b", "line 1: 'a' and 'b': an expression has one field"),
    ("length header_len 20",
     "line 1: the expression names no field: `of NAME` after it says which"),
    ("length header_len a" + 16 * "+1",
     "line 1: the expression has over 32 nodes: numbers, names and operators"),
    ("cond a 4 9", "line 1: a comma or the end of the line is expected, not '9'"),
    ("cond a 4,",
     "line 1: a range (such as 4, 1..=9 or 16..) is expected, not the end of the line"),
    ("cond a 4..=", "line 1: a number (end) is expected, not the end of the line"),
    ("cond a " + 24 * "1," + "1", "line 1: the field 'a' has over 24 ranges"),
)


def laid(parts):
    """A block of zeros but for these bytes."""
    block = bytearray(512)
    for place, text in parts.items():
        data = bytes.fromhex(text)
        block[place:place + len(data)] = data
    return bytes(block)


def check_lines():
    for line, parts in BY_HAND:
        assert sheet_of(line.encode()) == laid(parts), line
    for line, block in LINES:
        assert sheet_of(line.encode()) == block, line
        assert step_1(block) == ACCEPTED, line
    whole = "\n".join(line for line, _ in BY_HAND)
    blocks = b"".join(laid(parts) for _, parts in BY_HAND)
    for text in (whole, whole.replace("\n", "\r\n"), "\n\n # .. [\n" + whole + "\n\n"):
        assert sheet_of(text.encode()) == sheet_of(b"\xef\xbb\xbf" + text.encode()) == blocks
    assert sheet_of(b"") == sheet_of(b"# nothing\n") == b""


def raised_at(error):
    """File and line where a fault was found, before its line in the table was added."""
    place = error.__context__.__traceback__
    while place.tb_next:
        place = place.tb_next
    return Path(place.tb_frame.f_code.co_filename).name, place.tb_lineno


def check_faults():
    """Each table has its fault, and every place that finds one is reached."""
    reached = set()
    for text, said in FAULTS:
        try:
            sheet_of(text.encode("latin-1"))
        except Wrong as wrong:
            assert str(wrong) == said, (said, str(wrong))
            reached.add(raised_at(wrong))
        else:
            raise AssertionError(said)
    for name in ("words.py", "expressions.py", "tables.py"):
        for node in ast.walk(ast.parse((HERE / name).read_text())):
            if isinstance(node, ast.Raise) and node.cause is None:
                lines = range(node.lineno, node.end_lineno + 1)
                assert any((name, line) in reached for line in lines), (name, node.lineno)


def passes(content):
    """A table either has a fault or makes a sheet that step 1 accepts. Which?"""
    try:
        sheet = sheet_of(content)
    except Wrong:
        return False
    assert step_1(sheet) == ACCEPTED, content
    return True


PIECES = ("field", "length", "cond", "header_len", "payload_len", "packet_len", "repr", "arg",
          "gen", "default", "fixed", "u8", "bytes", "code", "bool", "true", "false", "tree",
          "undefined", "of", "a", "b", '"a"', "0", "1", "8", "64", "0xff", str(MOST), "[00]",
          "[0", "(", ")", "+", "-", "*", "/", ",", "..", "..=", "#", "\n", "\n", "\xff", "=")


def check_chance():
    """Tables by chance: lines that were changed, pieces put together, and any bytes."""
    chance, lines = random.Random(1071), [line for line, _ in LINES]
    good = 0
    for _ in range(4_000):
        words = chance.choice(lines)[:200].split(" ")
        words[chance.randrange(len(words))] = chance.choice(PIECES)
        table = chance.choices(lines, k=chance.randrange(3)) + [" ".join(words)]
        good += passes("\n".join(table).encode("latin-1"))
        passes(" ".join(chance.choices(PIECES, k=chance.randrange(12))).encode("latin-1"))
        passes(chance.randbytes(chance.randrange(60)))
    assert good > 100


def check_known_examples():
    """Two of the examples are known from the stored sheets."""
    version_4 = condition(b"version", [(1, 1, 4, 4)])
    for name, blocks in (("three_bytes", lister_sheet()),
                         ("rfc791", [*rfc_791_sheet(), version_4])):
        table = EXAMPLES / f"{name}.table"
        assert sheet_of(table.read_bytes()) == b"".join(blocks), table


def run(*arguments):
    """Status and standard error of the program itself."""
    words = [sys.executable, str(HERE), *map(str, arguments)]
    done = subprocess.run(words, capture_output=True, text=True)
    assert done.stdout == ""
    return done.returncode, done.stderr


def check_files():
    with tempfile.TemporaryDirectory() as folder:
        table, sheet = Path(folder, "a.table"), Path(folder, "a.sheet")
        told = f"{table}: the table cannot be read: No such file or directory\n"
        assert run(table, sheet) == (1, told)
        for content, fault in ((b"field a 0\nfield 8", "line 2: the name of a field"),
                               (bytes(range(256)), "line 1: a first word"),
                               (2 ** 20 * b"#" + b"\n", "a table has at most 1048576 bytes")):
            table.write_bytes(content)
            status, said = run(table, sheet)
            assert status == 1 and said.startswith(f"{table}: {fault}"), said
            assert said.count("\n") == 1 and not sheet.exists()
        table.write_text("field a 8")
        assert run(table, sheet) == (0, "") and sheet.read_bytes() == field(b"a")
        table.write_text("field a 8\nfield a")
        assert run(table, sheet)[0] == 1 and sheet.read_bytes() == field(b"a")
        table.write_text("field a 8")
        over = f"{table}: the sheet would be written over the table\n"
        assert run(table, table) == (1, over) and table.read_text() == "field a 8"
        nowhere = f"{table}: the sheet cannot be written: Is a directory\n"
        assert run(table, folder) == (1, nowhere)
    assert run() == run("a") == (1, "usage: python3 tools/make_sheet TABLE SHEET | --check\n")


def check_tables():
    check_lines()
    check_faults()
    check_chance()
    check_known_examples()
    check_files()
    print(f"{len(BY_HAND) + len(LINES)} lines and {len(FAULTS)} faults hold")
