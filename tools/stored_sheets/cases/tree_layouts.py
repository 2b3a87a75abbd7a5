"""Cases of sheet 5: the nodes of a tree."""

from sheet_blocks import tree
from stored_sheets.cases.block_changes import patched
from stored_sheets.cases.samples import LEAF, X, tree_of_32
from stored_sheets.rules.limits import MOST_NUMBER


def trees(cases):
    """Trees inside the layout, and the node count."""
    cases.accepted("tree: 32 nodes of all kinds", tree(*tree_of_32()))
    cases.accepted("tree: x", tree(X))
    cases.accepted("tree: a number", tree(LEAF))
    cases.accepted("tree: the number 0", tree((0, 0, 0, 0)))
    cases.accepted("tree: the largest number", tree((0, 0, 0, MOST_NUMBER)))
    cases.accepted("tree: (x+3)*3", tree(X, LEAF, (2, 0, 1, 0), (4, 2, 1, 0)))
    cases.accepted("tree: shared node", tree(X, (2, 0, 0, 0)))
    cases.accepted("tree: unreached nodes", tree(X, LEAF, (5, 1, 0, 0), X))
    cases.accepted("tree: 31 unreached nodes", tree(*[(0, 0, 0, i) for i in range(32)]))
    cases.accepted("tree: division by 0", tree(X, (0, 0, 0, 0), (5, 0, 1, 0)))
    cases.accepted("tree: three in three slots", tree(X, slot=2), tree(LEAF, slot=0),
                   tree(X, LEAF, (3, 0, 1, 0), slot=1))
    for count in (1, 2, 16, 31, 32):
        cases.accepted(f"tree: {count} nodes", tree(*tree_of_32()[:count]))
    cases.sheet(5, "tree: node count 0", tree(node_count=0))
    cases.sheet(5, "tree: node count 0, one node there", tree(X, node_count=0))
    cases.sheet(5, "tree: one node too many there", tree(X, X, node_count=1))
    cases.accepted("tree: a node of zeros counted", tree(X, node_count=2))
    cases.accepted("tree: 31 nodes of zeros counted", tree(X, node_count=32))
    for count in (33, 34, 35, 64, 128, 255):
        cases.sheet(5, f"tree: node count {count}",
                    tree(*tree_of_32(), node_count=count))
    cases.sheet(5, "tree: 33 nodes", tree(*tree_of_32(), X))


def nodes_at(index, node):
    """`index` leaves and then the node, with one leaf after it if it fits."""
    nodes = [X if i % 2 else LEAF for i in range(index)] + [node]
    return nodes if index == 31 else nodes + [X]


def node_rules(cases):
    """Each rule of a node, at the first, a middle and the last index."""
    for at in (0, 1, 15, 31):
        where = 88 + 12 * at
        good = tree(*nodes_at(at, LEAF))
        for kind in (6, 7, 16, 128, 255):
            cases.sheet(5, f"node {at}: kind {kind}",
                        tree(*nodes_at(at, (kind, 0, 0, 0))))
        for kind, title in ((0, "number"), (1, "x")):
            cases.accepted(f"node {at}: {title}", tree(*nodes_at(at, (kind, 0, 0, 0))))
            for child in (1, 128):
                cases.sheet(5, f"node {at}: {title}, left {child}",
                            tree(*nodes_at(at, (kind, child, 0, 0))))
                cases.sheet(5, f"node {at}: {title}, right {child}",
                            tree(*nodes_at(at, (kind, 0, child, 0))))
        for number in (1, 256, 2 ** 63, MOST_NUMBER):
            cases.accepted(f"node {at}: number {number}",
                           tree(*nodes_at(at, (0, 0, 0, number))))
            cases.sheet(5, f"node {at}: x with number {number}",
                        tree(*nodes_at(at, (1, 0, 0, number))))
        for value in (1, 128, 255):
            cases.sheet(5, f"node {at}: zero byte {value}",
                        patched(good, (where + 3, value)))


def operator_rules(cases):
    """Children are smaller than the operator's own index; its number is 0."""
    for kind, sign in ((2, "+"), (3, "-"), (4, "*"), (5, "/")):
        cases.sheet(5, f"node 0: {sign}", tree((kind, 0, 0, 0)))
        for at in (1, 2, 15, 31):
            title = f"node {at}: {sign}"
            low, high = 0, at - 1
            for left, right in sorted({(low, low), (low, high), (high, low),
                                       (high, high)}):
                cases.accepted(f"{title} of {left} and {right}",
                               tree(*nodes_at(at, (kind, left, right, 0))))
            for child in (at, at + 1, 128, 255):
                cases.sheet(5, f"{title} of {child} and 0",
                            tree(*nodes_at(at, (kind, child, 0, 0))))
                cases.sheet(5, f"{title} of 0 and {child}",
                            tree(*nodes_at(at, (kind, 0, child, 0))))
        for at in (1, 31):
            for number in (1, 2 ** 56, MOST_NUMBER):
                cases.sheet(5, f"node {at}: {sign} with number {number}",
                            tree(*nodes_at(at, (kind, 0, 0, number))))
            block = tree(*nodes_at(at, (kind, 0, 0, 0)))
            cases.sheet(5, f"node {at}: {sign} with zero byte 1",
                        patched(block, (88 + 12 * at + 3, 1)))
    for offset in range(104, 112):
        block = tree(X, (2, 0, 0, 0))
        cases.sheet(5, f"node 1: + with byte {offset} not zero",
                    patched(block, (offset, 1)))


SECTIONS = (trees, node_rules, operator_rules)
