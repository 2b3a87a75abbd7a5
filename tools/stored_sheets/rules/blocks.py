"""What stands in the blocks of a sheet, whether it is allowed or not."""

from sheet_blocks import BLOCK


def blocks_of(sheet):
    return [sheet[i:i + BLOCK] for i in range(0, len(sheet), BLOCK)]


def fields_of(sheet):
    """The F blocks. They stand first, so their places are their indexes."""
    return [block for block in blocks_of(sheet) if block[0:1] == b"F"]


def blocks_of_kind(sheet, kind):
    """Place and block for each block of that kind."""
    return [(place, block) for place, block in enumerate(blocks_of(sheet))
            if block[0:1] == kind]


def name_of(block):
    return block[2:2 + block[1]]


def number_at(block, start, end):
    return int.from_bytes(block[start:end], "big")


def zeros(block, start, end):
    return not any(block[start:end])
