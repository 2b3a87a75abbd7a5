"""Cases of length 12: which trees are a form, wherever their nodes stand."""

from sheet_blocks import field, tree
from stored_sheets.cases.lengths import only
from stored_sheets.cases.samples import X
from stored_sheets.cases.sheet_texts import told
from stored_sheets.rules.groups import ACCEPTED, LENGTH
from stored_sheets.rules.limits import MOST_NUMBER

TOP = MOST_NUMBER


def n(number):
    """A node that is a number."""
    return 0, 0, 0, number


def add(left, right):
    return 2, left, right, 0


def subtract(left, right):
    return 3, left, right, 0


def times(left, right):
    return 4, left, right, 0


def divide(left, right):
    return 5, left, right, 0


# Each tree that is a form, and what the facts tell of it on 8 bits with the
# default 5.
SHAPES = (
    ("x", (1, 0, 0, 255, 5)),
    ("x+3", (2, 3, 0, 258, 8)), ("3+x", (2, 3, 0, 258, 8)),
    ("x*3", (3, 3, 0, 765, 15)), ("3*x", (3, 3, 0, 765, 15)),
    ("(x+3)*2", (4, 3, 2, 516, 16)), ("(3+x)*2", (4, 3, 2, 516, 16)),
    ("2*(x+3)", (4, 3, 2, 516, 16)), ("2*(3+x)", (4, 3, 2, 516, 16)),
    ("(x*3)+2", (5, 3, 2, 767, 17)), ("(3*x)+2", (5, 3, 2, 767, 17)),
    ("2+(x*3)", (5, 3, 2, 767, 17)), ("2+(3*x)", (5, 3, 2, 767, 17)))


def shapes_of_trees(cases):
    """Each shape in both orders."""
    for count, (text, held) in enumerate(SHAPES):
        cases.told(f"x:8=5 T{count % 3}={text}", ACCEPTED, "tree", source="table",
                   lengths=only(count % 3, held))


# The trees of one operator that are a form.
SIMPLE = ("2+x", "x+2", "2*x", "x*2")

# And those of two operators.
DOUBLE = ("(2+x)*2", "(x+2)*2", "2*(2+x)", "2*(x+2)",
          "(2*x)+2", "(x*2)+2", "2+(2*x)", "2+(x*2)")


def small_trees(cases):
    """Each tree of one operator, and of two those near a form.

    There is no field, so that a form is length 3 and any other tree length 12.
    """
    signs = "+-*/"
    texts = [f"{a}{sign}{b}" for sign in signs for a in "2x" for b in "2x"]
    for outer in signs:
        for inner in signs:
            texts.append(f"(x{inner}2){outer}2")
            if outer in "+*" and inner in "+*":
                texts += [f"(2{inner}x){outer}2", f"(x{inner}2){outer}x",
                          f"(x{inner}x){outer}2", f"2{outer}(x{inner}2)",
                          f"2{outer}(2{inner}x)", f"x{outer}(2{inner}x)",
                          f"x{outer}(2{inner}2)"]
    texts += ["2-(x*2)", "2+(x-2)", "2*(x/2)", "2/(x+2)"]
    for text in texts:
        form = text in SIMPLE + DOUBLE
        cases.told(f"T1={text}", (LENGTH, 3 if form else 12, 0), "small tree",
                   source="table")


def larger_trees(cases):
    """Trees that hold a form and one thing more."""
    for text in ("7", "0", "((x+2)*3)+4", "4+((x+2)*3)", "((x*2)+3)*4", "4*((x*2)+3)",
                 "((x+2)*3)*4", "((x*2)+3)+4", "(x*2)+(x*3)", "(x+2)*(x+3)",
                 "(x+2)*(3*4)", "x-0", "x/1", "(x+0)+0", "(x*1)*1", "((x+0)*1)+0"):
        cases.told(f"T2={text}", (LENGTH, 12, 0), "larger tree")
    chain = "x"
    for _ in range(14):
        chain = f"({chain})+1" if chain != "x" else "x+1"
    cases.add("larger tree: fourteen additions", told(f"T0={chain}"), (LENGTH, 12, 0))


# Nodes that no root reaches, of every kind, for the places between.
LOOSE = (X, n(9), add(0, 0), subtract(0, 0), times(0, 0), divide(0, 0))


def spread(nodes, at):
    """The nodes moved to the places `at`, with loose nodes between them."""
    out = []
    for place in range(at[-1] + 1):
        if place in at:
            kind, left, right, number = nodes[at.index(place)]
            if kind > 1:
                left, right = at[left], at[right]
            out.append((kind, left, right, number))
        else:
            out.append(LOOSE[place % 6] if place else n(1))
    return out


def places_of_nodes(cases):
    """The root's children anywhere before it, and loose nodes between."""
    for nodes, places, held in (
            ([X], ([1], [2], [7], [31]), (1, 0, 0, 255, 5)),
            ([X, n(3), add(0, 1)], ([0, 2, 3], [1, 2, 5], [0, 30, 31], [7, 9, 12]),
             (2, 3, 0, 258, 8)),
            ([n(3), X, times(1, 0)], ([0, 1, 3], [4, 5, 6], [1, 16, 31]),
             (3, 3, 0, 765, 15)),
            ([n(2), X, n(3), add(2, 1), times(0, 3)],
             ([0, 1, 2, 3, 4], [1, 3, 5, 7, 9], [0, 8, 9, 30, 31]),
             (4, 3, 2, 516, 16)),
            ([n(3), X, n(2), times(1, 0), add(3, 2)],
             ([0, 1, 2, 3, 4], [2, 3, 4, 6, 10], [27, 28, 29, 30, 31]),
             (5, 3, 2, 767, 17)),
            ([X, n(3), times(0, 1), n(2), add(3, 2)], ([0, 1, 3, 4, 5],),
             (5, 3, 2, 767, 17))):
        for at in places:
            slot = at[-1] % 3
            cases.accepted(f"tree: form {held[0]}, nodes at {at}",
                           field(b"x", gen=1, kind=1, number=5),
                           tree(*spread(nodes, at), name=b"x", slot=slot),
                           lengths=only(slot, held))


def loose_and_shared_nodes(cases):
    """Only what the root reaches counts, and a node may be reached twice."""
    x = field(b"x", gen=1, kind=1, number=5)
    for title, nodes, held in (
            ("x after a division", [X, n(0), divide(0, 1), X], (1, 0, 0, 255, 5)),
            ("x after a form", [X, n(2), add(0, 1), X], (1, 0, 0, 255, 5)),
            ("x*2 with the x of x+2", [X, n(2), add(0, 1), times(0, 1)],
             (3, 2, 0, 510, 10)),
            ("x*4+4 with one 4", [X, n(4), times(0, 1), add(2, 1)], (5, 4, 4, 1024, 24)),
            ("4+4*x with one 4", [X, n(4), times(1, 0), add(1, 2)], (5, 4, 4, 1024, 24)),
            ("(x+4)*4 with one 4", [X, n(4), add(0, 1), times(2, 1)],
             (4, 4, 4, 1036, 36)),
            ("4*(4+x) with one 4", [X, n(4), add(1, 0), times(1, 2)],
             (4, 4, 4, 1036, 36)),
            ("x*2 over loose sums of itself",
             [X, n(2), add(0, 0), add(2, 2), times(3, 3), times(0, 1)],
             (3, 2, 0, 510, 10))):
        cases.accepted(f"tree: {title}", x, tree(*nodes, name=b"x", slot=1),
                       lengths=only(1, held))
    for title, nodes in (
            ("x+x of one x", [X, add(0, 0)]), ("x*x of one x", [X, times(0, 0)]),
            ("2+2 of one 2", [n(2), add(0, 0)]), ("2*2 of one 2", [n(2), times(0, 0)]),
            ("x*2+x of one x", [X, n(2), times(0, 1), add(2, 0)]),
            ("(x+2)*x of one x", [X, n(2), add(0, 1), times(2, 0)]),
            ("x+2 twice, added", [X, n(2), add(0, 1), add(2, 2)]),
            ("x*2 twice, added", [X, n(2), times(0, 1), add(2, 2)]),
            ("x+2 twice, multiplied", [X, n(2), add(0, 1), times(2, 2)]),
            ("a number after a form", [X, n(2), add(0, 1), n(2)]),
            ("x-2 after a form", [X, n(2), add(0, 1), subtract(0, 1)]),
            ("x/2 after a form", [X, n(2), times(0, 1), divide(0, 1)]),
            ("a number of zeros after x", [X, n(0)]),
            ("zeros up to 32 nodes after x", [X, *[n(0)] * 31])):
        cases.length(12, f"tree: {title}", x, tree(*nodes, name=b"x", slot=1), place=1)


def counts_of_nodes(cases):
    """Up to 32 nodes, the last of them x, or x+1 with x the first node."""
    for count in (3, 4, 16, 31, 32):
        cases.length(3, f"tree: x as node {count}",
                     tree(*[n(1)] * (count - 1), X), place=0)
    for count in (4, 17, 32):
        nodes = [X, *[n(0)] * (count - 3), n(1), add(0, count - 2)]
        cases.length(3, f"tree: x+1 as node {count}", tree(*nodes), place=0)
    cases.length(12, "tree: the 32nd node is a number", tree(*[X] * 31, n(1)), place=0)


def numbers_of_trees(cases):
    """The numbers 0, 1 and 2^64 - 1 in a tree, and those that wrap."""
    for text, number, held in (
            ("T1=x+0", 0, (2, 0, 0, 255, 0)), ("T1=0*x", 0, (3, 0, 0, 0, 0)),
            ("T2=(x*0)+0", 0, (5, 0, 0, 0, 0)), ("T2=0*(x+0)", 0, (4, 0, 0, 0, 0)),
            (f"T2=0*(x+{TOP - 255})", 0, (4, TOP - 255, 0, 0, 0)),
            ("T1=1*x", 0, (3, 1, 0, 255, 0)),
            (f"T1=x+{TOP}", 8, None), (f"T2={TOP - 255}+x", 9, None),
            (f"T1=x*{TOP}", 8, None), (f"T2=0*(x+{TOP})", 8, None),
            (f"T1={TOP}+(x*0)", 9, None), (f"T2=1+(x*{TOP})", 8, None),
            ("T1=x*16448", 0, (3, 16_448, 0, 4_194_240, 0)),
            ("T1=16449*x", 9, None), ("T0=x+1", 0, (2, 1, 0, 256, 1)),
            ("T0=x*9", 10, None), ("T0=(x*9)+1", 0, (5, 9, 1, 2296, 1))):
        if number == 0:
            cases.told(f"x:8 {text}", ACCEPTED, "numbers",
                       lengths=only(int(text[1]), held))
        else:
            cases.told(f"x:8 {text}", (LENGTH, number, 1), "numbers")


def faults_of_trees(cases):
    """Length 3 to 7 of a slot that has a tree, and a tree beside another form."""
    for text, number in (
            ("y:8 T0=2*x", 3), ("x:72 T0=2*x", 4), ("x:8g=5 T1=2*x", 5),
            ("x:8c=5 T2=2*x", 6), ("x:16s T1=2*x", 6), ("x:8=5! T1=2*x", 7),
            ("x:8=5! T2=(2*x)+1", 7)):
        cases.told(text, (LENGTH, number, 1), "tree")
    cases.told("x:8=5! T0=2*x", ACCEPTED, "tree", lengths=only(0, (3, 2, 0, 510, 10)))
    cases.told("x:8=5 y:8=6 T1=(x+1)*2 T0=2+(y*3)", ACCEPTED, "two trees",
               lengths=[(5, 3, 2, 767, 20), (4, 1, 2, 512, 12), None])
    cases.told("x:8=5 y:8=6 L2=x T0=3*y", ACCEPTED, "tree and form",
               lengths=[(3, 3, 0, 765, 18), None, (1, 0, 0, 255, 5)])
    cases.told("x:8=5 y:8=6 T2=x L0", ACCEPTED, "tree and undefined",
               lengths=[(), None, (1, 0, 0, 255, 5)])


def places_of_length_12(cases):
    """A tree that is no form at each L block, in each slot, before anything else.

    Payload and packet are both given in most of these: 12 comes before 1.
    """
    bad, good = "2-x", "x+2"
    for slot in range(3):
        others = [other for other in range(3) if other != slot]
        for at in range(3):
            words = [f"L{other}" for other in others]
            words.insert(at, f"T{slot}={bad}")
            cases.told(" ".join(["x:8", *words]), (LENGTH, 12, 1 + at), "place")
    for text, place in (
            (f"T0={bad}", 0), (f"x:8 y:8 T1={bad} C:x", 2), (f"T0={good} T1={bad}", 1),
            (f"T1={bad} T0={good}", 0), (f"T2={bad} T0={bad}", 0)):
        cases.told(text, (LENGTH, 12, place), "place")


SECTIONS = (
    shapes_of_trees, small_trees, larger_trees, places_of_nodes, loose_and_shared_nodes,
    counts_of_nodes, numbers_of_trees, faults_of_trees, places_of_length_12)
