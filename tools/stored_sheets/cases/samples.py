"""Nodes and ranges of all kinds, for blocks that are inside the layout."""

from stored_sheets.rules.limits import MOST_NUMBER

LEAF, X = (0, 0, 0, 3), (1, 0, 0, 0)


def tree_of_32():
    """32 nodes of all kinds, each operator on the two nodes before it."""
    nodes = [X, (0, 0, 0, MOST_NUMBER)]
    for index in range(2, 32):
        kind = index % 6
        if kind == 0:
            nodes.append((0, 0, 0, 1000 * index))
        elif kind == 1:
            nodes.append(X)
        else:
            nodes.append((kind, index - 2, index - 1, 0))
    return nodes


def ranges_of(count):
    """Ranges of all six kinds with numbers of their own."""
    ranges = []
    for i in range(count):
        start, end = i % 2, i % 3
        ranges.append((start, end, start * (2 * i + 1), end and MOST_NUMBER - i))
    return ranges
