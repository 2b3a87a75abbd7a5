"""The block check: the sum of RFC 1071, by hand and on the blocks of all cases."""

import struct

from sheet_blocks import BLOCK, ones_complement_sum
from stored_sheets.rules.blocks import blocks_of


def check_sums(cases):
    """The sum of RFC 1071, section 3, and the sums seen as remainders."""
    words = bytes.fromhex("0001f203f4f5f6f7").ljust(BLOCK, b"\0")
    assert ones_complement_sum(words) == 0xddf2
    for case in cases:
        for block in blocks_of(case.sheet[:len(case.sheet) // BLOCK * BLOCK]):
            total = sum(struct.unpack(">256H", block))
            right = total != 0 and total % 65_535 == 0
            assert (ones_complement_sum(block) == 65_535) == right, case.title
