"""The example sheet of the lister and the header of RFC 791, each as a list of blocks."""

from sheet_blocks import BOOL, NUMBER, condition, field, length


def lister_sheet():
    """The example sheet of the lister, eight blocks."""
    return [
        field(b"ver", 4, kind=NUMBER, number=4),
        field(b"hl", 4, gen=1, kind=NUMBER, number=1),
        field(b"size", 12, gen=1),
        field(b"flag", 1, arg=BOOL, kind=NUMBER, number=1),
        field(b"rest", 3, kind=NUMBER, number=5),
        length(b"hl", slot=0, form=3, first=4),
        length(b"size", slot=2),
        condition(b"ver", [(1, 1, 4, 4)]),
    ]


def rfc_791_sheet():
    """The RFC 791 header without options, with IHL*4 and the total length."""
    return [
        field(b"version", 4, kind=NUMBER, number=4),
        field(b"ihl", 4, gen=1, kind=NUMBER, number=5),
        field(b"type_of_service", 8),
        field(b"total_length", 16, gen=1),
        field(b"identification", 16),
        field(b"flags", 3),
        field(b"fragment_offset", 13),
        field(b"time_to_live", 8),
        field(b"protocol", 8),
        field(b"header_checksum", 16),
        field(b"source", 32),
        field(b"destination", 32),
        length(b"ihl", slot=0, form=3, first=4),
        length(b"total_length", slot=2),
    ]
