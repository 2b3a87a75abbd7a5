"""The limits that the rules name."""

# Blocks of a sheet.
MOST_BLOCKS = 99
# Bits of a field, and bytes of a header and of a length.
MOST_BITS = 33_554_424
MOST_BYTES = 4_194_303
# What 64 bits hold.
MOST_NUMBER = 2 ** 64 - 1
