"""Cases of step 4: the forms, and which field a length may use."""

from sheet_blocks import BYTES, NUMBER, SLICE, condition, field, length
from stored_sheets.cases.known_sheets import lister_sheet, rfc_791_sheet
from stored_sheets.rules.groups import ACCEPTED, LENGTH


def only(slot, held):
    """The lengths of a sheet that gives this slot alone."""
    return [held if i == slot else None for i in range(3)]


def known_sheets(cases):
    """The lister's sheet and the header of RFC 791, with lengths and conditions."""
    lister = lister_sheet()
    cases.accepted("all steps: the lister's sheet", *lister,
                   lookups=[0, 1, 2, 3, 4, 1, 2, 0], template=bytes.fromhex("41000d"),
                   lengths=[(3, 4, 0, 60, 4), None, (1, 0, 0, 4095, 0)],
                   ranges=[[(4, 4)]])
    cases.length(10, "the lister's sheet, hl absent", lister[0],
                 field(b"hl", 4, gen=1), *lister[2:], place=5)
    cases.length(10, "the lister's sheet, hl*2", *lister[:5],
                 length(b"hl", 0, 3, 2), *lister[6:], place=5)
    cases.accepted("the lister's sheet, hl*3", *lister[:5],
                   length(b"hl", 0, 3, 3), *lister[6:], template=bytes.fromhex("41000d"),
                   lengths=[(3, 3, 0, 45, 3), None, (1, 0, 0, 4095, 0)])
    cases.length(5, "the lister's sheet, size generated", *lister[:2],
                 field(b"size", 12), *lister[3:], place=6)
    cases.length(6, "the lister's sheet, packet_len flag", *lister[:3],
                 field(b"flag", 1, arg=6, gen=1, kind=NUMBER, number=1), *lister[4:6],
                 length(b"flag", 2), lister[7], place=6)
    cases.cond(4, "the lister's sheet, ver 16 to 16", *lister[:7],
               condition(b"ver", [(1, 1, 16, 16)]), place=7)
    cases.cond(7, "the lister's sheet, ver twice", *lister, lister[7], place=8)
    internet = rfc_791_sheet()
    short = field(b"ihl", 4, gen=1, kind=NUMBER, number=4)
    cases.accepted("all steps: RFC 791", *internet,
                   template=bytes.fromhex("45") + bytes(19),
                   lengths=[(3, 4, 0, 60, 20), None, (1, 0, 0, 65_535, 0)], ranges=[])
    cases.length(10, "RFC 791, IHL 4", internet[0], short, *internet[2:], place=12)
    cases.length(10, "RFC 791, IHL 4, lengths in the other order", internet[0], short,
                 *internet[2:12], internet[13], internet[12], place=13)
    cases.accepted("RFC 791, IHL 4, packet_len alone", internet[0], short,
                   *internet[2:12], internet[13],
                   template=bytes.fromhex("44") + bytes(19),
                   lengths=only(2, (1, 0, 0, 65_535, 0)))
    cases.accepted("RFC 791, version 4 and protocol 6 or 17", *internet,
                   condition(b"version", [(1, 1, 4, 4)]),
                   condition(b"protocol", [(1, 1, 6, 6), (1, 2, 17, 18)]),
                   lengths=[(3, 4, 0, 60, 20), None, (1, 0, 0, 65_535, 0)],
                   ranges=[[(4, 4)], [(6, 6), (17, 17)]])


# A form on a field of 8 bits with the default 5, the form and its two numbers
# as the facts tell them, the largest length and the default's.
FORMS = (
    ("x", (1, 0, 0, 255, 5)),
    ("x+0", (2, 0, 0, 255, 5)), ("x+1", (2, 1, 0, 256, 6)),
    ("x+1000", (2, 1000, 0, 1255, 1005)),
    ("x*1", (3, 1, 0, 255, 5)), ("x*4", (3, 4, 0, 1020, 20)),
    ("x*1000", (3, 1000, 0, 255_000, 5000)),
    ("(x+0)*1", (4, 0, 1, 255, 5)), ("(x+3)*1", (4, 3, 1, 258, 8)),
    ("(x+0)*3", (4, 0, 3, 765, 15)), ("(x+2)*4", (4, 2, 4, 1028, 28)),
    ("(x+4)*2", (4, 4, 2, 518, 18)),
    ("x*1+0", (5, 1, 0, 255, 5)), ("x*3+0", (5, 3, 0, 765, 15)),
    ("x*1+3", (5, 1, 3, 258, 8)), ("x*2+4", (5, 2, 4, 514, 14)),
    ("x*4+2", (5, 4, 2, 1022, 22)), ("x*0+9", (5, 0, 9, 9, 9)),
    ("x*0+1", (5, 0, 1, 1, 1)))

# Those whose default's length is 0. Slot 0 refuses them: the header has a byte.
NOTHING = (("x*0", (3, 0, 0, 0, 0)), ("(x+7)*0", (4, 7, 0, 0, 0)),
           ("(x+0)*0", (4, 0, 0, 0, 0)), ("x*0+0", (5, 0, 0, 0, 0)))


def forms_of_lengths(cases):
    """Each form in each slot, with multipliers 0 and 1 and additions of 0."""
    for slot in range(3):
        for text, held in FORMS:
            cases.told(f"x:8=5 L{slot}={text}", ACCEPTED, "form", source="table",
                       lengths=only(slot, held))
        for text, held in NOTHING:
            if slot == 0:
                cases.told(f"x:8=5 L0={text}", (LENGTH, 10, 1), "form", source="table")
            else:
                cases.told(f"x:8=5 L{slot}={text}", ACCEPTED, "form", source="table",
                           lengths=only(slot, held))


def widths_of_lengths(cases):
    """x in the payload on each width to 64. 22 bits are the widest that pass."""
    for bits in range(1, 65):
        place = 1 if bits % 8 == 0 else 2
        title, text = "payload x", f"x:{bits} | L1=x"
        if bits <= 22:
            cases.told(text, ACCEPTED, title, source="table",
                       lengths=only(1, (1, 0, 0, int("1" * bits, 2), 0)))
        else:
            cases.told(text, (LENGTH, 9, place), title, source="table")
    for bits in (1, 8, 9, 16, 21, 22, 23, 24, 32, 33, 63, 64):
        place, largest = 1 if bits % 8 == 0 else 2, int("1" * bits, 2)
        for text, slot in ((f"x:{bits}={largest} | L0=x", 0), (f"x:{bits} | L2=x", 2)):
            if bits <= 22:
                held = (1, 0, 0, largest, 0 if slot else largest)
                cases.told(text, ACCEPTED, "x", source="table", lengths=only(slot, held))
            else:
                cases.told(text, (LENGTH, 9, place), "x", source="table")
        cases.told(f"x:{bits} | L1=x*0", ACCEPTED, "no length", source="table",
                   lengths=only(1, (3, 0, 0, 0, 0)))
        cases.told(f"x:{bits} | L2=x*0+7", ACCEPTED, "no length", source="table",
                   lengths=only(2, (5, 0, 7, 7, 7)))


def slices_of_lengths(cases):
    """Length 6: a byte slice of up to 64 bits. Length 4: one of more."""
    for slot in range(3):
        for bits in (16, 24, 32, 40, 48, 56, 64):
            cases.told(f"x:{bits}s L{slot}=x*0", (LENGTH, 6, 1), "slice")
        for bits in (72, 80, 128, 65_536, 33_554_424):
            cases.told(f"x:{bits} L{slot}=x*0", (LENGTH, 4, 1), "slice")
        cases.told(f"x:72s L{slot}=x", (LENGTH, 4, 1), "slice")
        cases.told(f"x:72c L{slot}=x", (LENGTH, 4, 1), "slice")
        cases.told(f"x:16sc L{slot}=x", (LENGTH, 6, 1), "slice")
        block = field(b"x", 16, SLICE, gen=1, kind=BYTES, data=b"ab")
        cases.length(6, f"slice with a default, slot {slot}", block,
                     length(b"x", slot), place=1)
        block = field(b"x", 72, gen=1, kind=BYTES, data=b"9_letters")
        cases.length(4, f"slice of 72 bits with a default, slot {slot}", block,
                     length(b"x", slot), place=1)


def fields_of_lengths(cases):
    """Length 5 to 7: gen, arg and fixed, in each slot."""
    for slot in range(3):
        for form in ("x", "x+1", "x*2", "(x+1)*2", "x*2+1"):
            for mark in "ga":
                cases.told(f"x:8{mark}=5 L{slot}={form}", (LENGTH, 5, 1), "gen")
            cases.told(f"x:8c=5 L{slot}={form}", (LENGTH, 6, 1), "arg")
            cases.told(f"x:1b=1 | L{slot}={form}", (LENGTH, 6, 2), "arg")
            cases.told(f"x:8=5! L{slot}={form}",
                       (LENGTH, 7, 1) if slot else ACCEPTED, "fixed")
        cases.told(f"x:1=1 y:7 L{slot}=x+1", ACCEPTED, "arg",
                   lengths=only(slot, (2, 1, 0, 2, 2)))
        cases.told(f"x:1c=1 | L{slot}=x", (LENGTH, 6, 2), "arg")
        cases.told(f"x:1=1! | L{slot}=x", (LENGTH, 7, 2) if slot else ACCEPTED, "fixed")
        cases.told(f"x:8=0! L{slot}=x+1", (LENGTH, 7, 1) if slot else ACCEPTED, "fixed")


def stated_types(cases):
    """The repr and the arg stated, as what they are inferred to be anyway."""
    for bits, code in ((1, 1), (8, 1), (9, 2), (16, 2), (17, 3), (22, 3), (32, 3),
                       (33, 4), (64, 4)):
        slot, place = bits % 3, 1 if bits % 8 == 0 else 2
        filling = [] if bits % 8 == 0 else [field(b"y", 8 - bits % 8)]
        for rep, arg in ((code, code), (0, code), (code, 0)):
            cases.accepted(f"slot {slot}, {bits} bits, repr {rep} and arg {arg}",
                           field(b"x", bits, rep, arg, 1), *filling,
                           length(b"x", slot, 5, 0, 8),
                           lengths=only(slot, (5, 0, 8, 8, 8)))
        cases.told(f"x:{bits}c | L{slot}=x*0+8", (LENGTH, 6, place), "stated code")


SECTIONS = (
    known_sheets, forms_of_lengths, widths_of_lengths, slices_of_lengths, fields_of_lengths,
    stated_types)
