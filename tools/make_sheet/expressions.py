"""Expressions of lengths: their nodes, and which of them are a plain form."""

from sheet_blocks import (
    ADD, DIVIDE, MULTIPLY, PLAIN, PRODUCT, PRODUCT_PLUS, SUBTRACT, SUM, SUM_TIMES,
    THE_FIELD, VALUE)
from words import Wrong, shown

MOST_NODES = 32

OPERATORS = {"+": ADD, "-": SUBTRACT, "*": MULTIPLY, "/": DIVIDE}
# Of two operators the one of higher rank is done first.
RANKS = {"+": 1, "-": 1, "*": 2, "/": 2}

# The kinds of nodes of each plain form, in the order in which they are finished,
# which fixes the tree. The numbers then stand in the order of the block.
PLAIN_FORMS = {
    (THE_FIELD,): PLAIN,
    (THE_FIELD, VALUE, ADD): SUM,
    (THE_FIELD, VALUE, MULTIPLY): PRODUCT,
    (THE_FIELD, VALUE, ADD, VALUE, MULTIPLY): SUM_TIMES,
    (THE_FIELD, VALUE, MULTIPLY, VALUE, ADD): PRODUCT_PLUS,
}


class Expression:
    """An expression as it is read: each operator becomes a node after its two parts.

    It is read without recursion, so that no number of brackets is too large.
    """

    def __init__(self, words):
        self.nodes = []  # finished: kind, left, right, number
        self.parts = []  # indexes of nodes that are not yet part of another
        self.waiting = []  # operators and open brackets
        self.name = None
        self.read(words)

    def read(self, words):
        self.operand(words)
        while words.next_is("mark"):
            if words.taken("mark", ")"):
                self.close()
            else:
                self.operator(words)
                self.operand(words)
        self.join(1)
        if self.waiting:
            raise Wrong("a ( has no )")
        if words.taken("plain", "of"):
            self.names(words.name("the name of a field"))
        if self.name is None:
            raise Wrong("the expression names no field: `of NAME` after it says which")

    def operand(self, words):
        while words.taken("mark", "("):
            self.waiting.append("(")
        if words.number_next():
            self.leaf(VALUE, words.number("a value"))
        elif words.name_next():
            self.names(words.name("a field"))
            self.leaf(THE_FIELD, 0)
        else:
            raise words.unlike("a number, the name of a field or (")

    def operator(self, words):
        if not words.next_is("mark", *OPERATORS):
            raise words.unlike("an operator (+ - * /)")
        sign = words.take()
        self.join(RANKS[sign])
        self.waiting.append(sign)

    def close(self):
        self.join(1)
        if not self.waiting:
            raise Wrong("a ) has no (")
        self.waiting.pop()

    def join(self, rank):
        """Finishes what is done before an operator of this rank, back to the last (."""
        while self.waiting and self.waiting[-1] != "(" and RANKS[self.waiting[-1]] >= rank:
            right, left = self.parts.pop(), self.parts.pop()
            self.node(OPERATORS[self.waiting.pop()], left, right, 0)

    def leaf(self, kind, number):
        self.node(kind, 0, 0, number)

    def node(self, kind, left, right, number):
        if len(self.nodes) == MOST_NODES:
            raise Wrong("the expression has over 32 nodes: numbers, names and operators")
        self.parts.append(len(self.nodes))
        self.nodes.append((kind, left, right, number))

    def names(self, name):
        if self.name not in (None, name):
            both = " and ".join(shown(each.decode()) for each in (self.name, name))
            raise Wrong(f"{both}: an expression has one field")
        self.name = name

    def form(self):
        """The plain form that it is, None if it is none."""
        return PLAIN_FORMS.get(tuple(kind for kind, _, _, _ in self.nodes))

    def numbers(self):
        return [number for kind, _, _, number in self.nodes if kind == VALUE]
