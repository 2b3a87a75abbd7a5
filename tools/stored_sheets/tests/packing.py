"""The packing, by hand and on the sheets of all cases."""

from stored_sheets.packing import packed
from stored_sheets.record_readers import unpack


def check_packing(cases):
    assert packed(b"") == b"" and packed(bytes(9)) == b""
    assert packed(b"\0\1\0\0\0\2") == b"\0\1\5\1\0\0\0\2"
    assert packed(b"\1\0\0\0\0\2") == b"\0\0\1\1\0\4\1\2"
    assert packed(b"\1" * 256) == b"\0\0\xff" + b"\1" * 255 + b"\0\0\1\1"
    far = b"\xff\xff\1\0"
    assert packed(bytes(65_535) + b"\1") == b"\xff\xff\1\1"
    assert packed(bytes(65_536) + b"\1") == far + b"\0\0\1\1"
    assert packed(bytes(65_537) + b"\1") == far + b"\0\1\1\1"
    assert packed(b"\1" + bytes(131_072) + b"\2") == b"\0\0\1\1" + far * 2 + b"\0\0\1\2"
    for case in cases:
        assert unpack(packed(case.sheet), len(case.sheet)) == case.sheet, case.title
