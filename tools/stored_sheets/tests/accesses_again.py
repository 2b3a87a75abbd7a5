"""Reads and writes in another way: bit by bit."""

from sheet_blocks import SLICE


def bit_of(buffer, k):
    """Bit k stands in byte k//8, there 7-k%8 from the least significant end."""
    return buffer[k // 8] >> 7 - k % 8 & 1


def set_bit(buffer, k, bit):
    place = 1 << 7 - k % 8
    buffer[k // 8] += place * (bit - bit_of(buffer, k))


def buffer_before(told):
    """The filling of a buffer, each mixed byte from the one before."""
    if told.filling < 2:
        return bytearray([255 * told.filling] * told.size)
    out, byte = bytearray(), 11
    for _ in range(told.size):
        out.append(byte)
        byte = (byte + 37) & 255
    return out


def faults_of_access(fields, told):
    """All access refusals that apply, as far as they have a meaning."""
    faults = [1] if told.index not in range(len(fields)) else []
    if 8 * told.size < sum(found.bits for found in fields):
        faults.append(2)
    if 1 in faults:
        return faults
    found, slices = fields[told.index], told.what in (1, 3)
    if slices ^ (found.repr == SLICE):
        faults.append(3)
    if told.what == 2 and told.number.bit_length() > found.bits:
        faults.append(4)
    if told.what == 3 and 8 * len(told.data) != found.bits:
        faults.append(4)
    if told.what > 1 and found.fixed and (slices or told.number != found.number):
        faults.append(5)
    return faults


def by_single_bits(fields, told):
    """What an accepted operation reads, number and bytes, and the buffer after it."""
    buffer, bits = buffer_before(told), fields[told.index].bits
    start = sum(found.bits for found in fields[:told.index])
    number, data = 0, bytearray(bits // 8 if told.what == 1 else 0)
    for i in range(bits):
        if told.what == 0:
            number += bit_of(buffer, start + i) << bits - 1 - i
        elif told.what == 1:
            set_bit(data, i, bit_of(buffer, start + i))
        elif told.what == 2:
            set_bit(buffer, start + i, told.number >> bits - 1 - i & 1)
        else:
            set_bit(buffer, start + i, bit_of(told.data, i))
    return number, bytes(data), buffer
