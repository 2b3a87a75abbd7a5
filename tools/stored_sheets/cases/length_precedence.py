"""Cases of step 4: where each refusal can stand, and which of two comes first."""

from stored_sheets.rules.groups import COND, LENGTH
from stored_sheets.rules.limits import MOST_NUMBER

# For each length refusal of a slot a field f and a form on it with that fault
# alone. Slot 0 has no 7, the others have no 10.
SLOT_FAULTS = {
    3: ("f:8=9", "no"), 4: ("f:72", "f"), 5: ("f:8g=9", "f"), 6: ("f:8c=9", "f"),
    7: ("f:8=9!", "f"), 8: ("f:8=9", f"(f+{MOST_NUMBER})*0"), 9: ("f:8=9", "f+4194304"),
    10: ("f:8=0", "f"),
}


def slots_of(number):
    """The slots that can have that refusal."""
    return (1, 2) if number == 7 else (0,) if number == 10 else (0, 1, 2)


def places_of_length_faults(cases):
    """Length 3 to 10 in each slot, the only L block, the first and the second."""
    for number, (fields, form) in SLOT_FAULTS.items():
        for slot in slots_of(number):
            word, others = f"L{slot}={form}", (1, 2) if slot == 0 else (0,)
            cases.told(f"{fields} {word}", (LENGTH, number, 1), "place")
            for other in others:
                cases.told(f"{fields} {word} L{other}", (LENGTH, number, 1), "place")
                cases.told(f"{fields} L{other} {word}", (LENGTH, number, 2), "place")
            cases.told(f"a:8 {fields} b:8 {word} C:a", (LENGTH, number, 3), "place")
            good = "L1=a*0" if slot == 0 else "L0=a*0+99"
            cases.told(f"a:8 {fields} {good} {word}", (LENGTH, number, 3), "place")
    many = " ".join(f"a{i}:8" for i in range(9))
    cases.told(f"{many} L0 L1=no C:a0", (LENGTH, 3, 10), "place")
    cases.told(f"{many} f:8 L2=f*0 L0=f", (LENGTH, 10, 11), "place")


def two_faults_in_one_slot(cases):
    """The earlier number wins.

    3 meets none of the others: there is no field. 4 is a byte slice, so 6 is
    always with it, and its default cannot be fixed. 8 and 9 cannot meet.
    """
    top = MOST_NUMBER
    for fields, form, number, slots in (
            ("f:72g", "f", 4, "012"), ("f:72a", "f", 4, "012"),              # 4, 5
            ("f:80", "f", 4, "012"), ("f:72c", "f", 4, "012"),               # 4, 6
            ("f:72", f"f+{top}", 4, "012"), ("f:72", "f*4194304", 4, "012"),  # 4, 8, 9
            ("f:72", "f*0", 4, "0"),                                         # 4, 10
            ("f:8gc=9", "f", 5, "012"), ("f:16gs", "f", 5, "012"),           # 5, 6
            ("f:1gb=1 |", "f", 5, "012"),
            ("f:8g=9!", "f", 5, "12"), ("f:8a=9!", "f", 5, "12"),            # 5, 7
            ("f:8g=9", f"f+{top}", 5, "012"),                                # 5, 8
            ("f:8g=9", "f+4194304", 5, "012"),                               # 5, 9
            ("f:8g=0", "f", 5, "0"), ("f:8a", "f", 5, "0"),                  # 5, 10
            ("f:8c=9!", "f", 6, "12"), ("f:1b=1! |", "f", 6, "12"),          # 6, 7
            ("f:8c=9", f"f+{top}", 6, "012"), ("f:64s", "f*2", 6, "012"),    # 6, 8
            ("f:8c=9", "f+4194304", 6, "012"), ("f:32s", "f", 6, "012"),     # 6, 9
            ("f:8c=0", "f", 6, "0"), ("f:16s", "f*0", 6, "0"),               # 6, 10
            ("f:8=9!", f"f+{top}", 7, "12"), ("f:64=1!", "f+1", 7, "12"),    # 7, 8
            ("f:8=9!", "f+4194304", 7, "12"), ("f:23=9! |", "f", 7, "12"),   # 7, 9
            ("f:8=0", f"f+{top}", 8, "0"), ("f:64", "f*2", 8, "0"),          # 8, 10
            ("f:8", f"(f+{top})*0", 8, "0"), ("f:64=0!", "(f+1)*0", 8, "0"),
            ("f:23 |", "f", 9, "0"), ("f:8=0", "f*16449", 9, "0"),           # 9, 10
            ("f:8=0!", "f*16449", 9, "0"), ("f:64=3", "f", 9, "0"),
            ("f:8g=9!", "f+4194304", 5, "12"), ("f:8gc=0!", f"f+{top}", 5, "012")):
        for slot in slots:
            place = 2 if "|" in fields else 1
            cases.told(f"{fields} L{slot}={form}", (LENGTH, number, place), "one slot")


def faults_in_two_slots(cases):
    """Slot 0 is checked first, wherever its block stands, whatever the numbers."""
    for first, (fields, form) in SLOT_FAULTS.items():
        for second, (others, other) in SLOT_FAULTS.items():
            if first == 7 or second == 10:
                continue
            slot = 1 + (first + second) % 2
            texts = f"L0={form}", f"L{slot}={other}".replace("f", "g")
            both = f"{fields} {others.replace('f', 'g')}"
            cases.told(f"{both} {texts[1]} {texts[0]}", (LENGTH, first, 3), "two slots")
            if first == second or second == 3:
                cases.told(f"{both} {texts[0]} {texts[1]}", (LENGTH, first, 2),
                           "two slots")


def an_undefined_slot_0(cases):
    """A slot 0 that is undefined leaves its check. The other slot is still checked."""
    for number, (fields, form) in SLOT_FAULTS.items():
        for slot in (1, 2):
            if number != 10:
                cases.told(f"{fields} L0 L{slot}={form} C:no", (LENGTH, number, 2),
                           "slot 0 undefined")
    for slot in (1, 2):
        cases.told(f"x:8 L0 L{slot} C:no", (COND, 1, 3), "both undefined")
        cases.told(f"x:8=1 L0=x L{slot} C:no", (COND, 1, 3), "one undefined")


def length_1_before_the_slots(cases):
    """Length 1 comes before any fault of a slot."""
    for number, (fields, form) in SLOT_FAULTS.items():
        for slot in slots_of(number):
            words = [f"L{other}" for other in range(3) if other != slot]
            if slot != 0:
                words.remove("L0")
            text = " ".join([f"{fields} L{slot}={form}", *words])
            cases.told(text, (LENGTH, 1, len(text.split())), "before the slots")


def length_12_first(cases):
    """A tree that is no form, in the last L block, comes before 1 and 3 to 10."""
    for number, (fields, form) in SLOT_FAULTS.items():
        slot = slots_of(number)[-1]
        later = {0: 1, 1: 0, 2: 1}[slot]
        cases.told(f"{fields} L{slot}={form} T{later}=x-1", (LENGTH, 12, 2), "12 first")
    for text, place in (
            ("L1 L2 T0=x-1", 2), ("L1=x T2=x-1", 1), ("T1=x-1 L2", 0), ("T2=7 T1=x", 0),
            ("x:8 L1=x T2=x/1 L0=x", 2), ("x:8 L0=no T1=x+x", 2),
            ("x:8 T1=x+x L0=no", 1), ("x:8 L1=no T0=x-x C:no", 2)):
        cases.told(text, (LENGTH, 12, place), "12 first")


SECTIONS = (
    places_of_length_faults, two_faults_in_one_slot, faults_in_two_slots, an_undefined_slot_0,
    length_1_before_the_slots, length_12_first)
