"""Changes to blocks. They set what they are told, also wrongly."""

import struct

from sheet_blocks import BLOCK, ones_complement_sum, sealed


def unsealed(block):
    """A copy whose check word is wrong in its last bit."""
    return block[:511] + bytes([block[511] ^ 1])


def balanced(block, offset, check):
    """The word at `offset` makes the other words sum to 65,535 by themselves."""
    body = bytearray(block[:510]) + b"\0\0"
    body[offset:offset + 2] = b"\0\0"
    word = 65_535 - ones_complement_sum(body)
    body[offset:offset + 2] = struct.pack(">H", word)
    body[510:512] = struct.pack(">H", check)
    return bytes(body)


def patched(block, *changes):
    """A sealed copy with changes (offset, byte) or (offset, bytes)."""
    body = bytearray(block)
    for offset, value in changes:
        value = bytes([value]) if isinstance(value, int) else value
        body[offset:offset + len(value)] = value
    assert len(body) == BLOCK
    return sealed(body)
