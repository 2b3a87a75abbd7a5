"""The words of a line, and what each place of a line asks of them."""

import re
from collections import namedtuple


class Wrong(Exception):
    """What is wrong with a table, in words."""


# A quoted name, bytes in square brackets, a mark such as + or .., or a plain word.
Word = namedtuple("Word", "kind text")

WORD = re.compile(r'''
      (?P<skipped> [ \t\r]+ | \#.* )
    | "(?P<quoted> (?: [^"] | "" )* )"
    | \[(?P<bytes> [^]]* )\]
    | (?P<mark> \.\.=? | [(),+*/-] )
    | (?P<plain> [^ \t\r"\#[\](),.+*/=-]+ )''', re.VERBOSE)

UNREADABLE = {'"': 'a name that begins with " has no closing "',
              "[": "bytes that begin with [ have no closing ]"}

DECIMAL = re.compile("[0-9]+")
HEXADECIMAL = re.compile("0[xX]([0-9a-fA-F]+)")
PAIRS = re.compile("([0-9a-fA-F]{2})*")

MOST_NUMBER = 2 ** 64 - 1
MOST_BYTES_OF_NAME = 64


def shown(text):
    """A text for a message: in quotes, of plain ASCII, and cut where it is long."""
    return ascii(text if len(text) <= 40 else text[:40] + " ..")


def words_in(line):
    """The words of a line without what is skipped."""
    words, at = [], 0
    while at < len(line):
        found = WORD.match(line, at)
        if not found:
            raise Wrong(UNREADABLE.get(line[at], f"{shown(line[at])} cannot stand here"))
        if found.lastgroup != "skipped":
            words.append(Word(found.lastgroup, found[found.lastgroup]))
        at = found.end()
    return words


class Words:
    """The words of a line, taken from the front. `what` tells a place in messages."""

    def __init__(self, line):
        self.words = words_in(line)
        self.at = 0

    def left(self):
        return self.at < len(self.words)

    def next(self):
        return self.words[self.at] if self.left() else Word("end", "")

    def next_is(self, kind, *texts):
        """Whether the next word is of this kind and, where texts are given, one of them."""
        word = self.next()
        return word.kind == kind and (not texts or word.text in texts)

    def take(self):
        self.at += 1
        return self.words[self.at - 1].text

    def taken(self, kind, *texts):
        """Takes the next word if it is such a one, and tells whether it is."""
        found = self.next_is(kind, *texts)
        self.at += found
        return found

    def unlike(self, what):
        """The fault that the next word is not what belongs here."""
        found = shown(self.next().text) if self.left() else "the end of the line"
        return Wrong(f"{what} is expected, not {found}")

    def done(self):
        if self.left():
            raise self.unlike("the end of the line")

    def one_of(self, choices, what):
        """What the choices have for the next word."""
        if not self.next_is("plain", *choices):
            raise self.unlike(f"{what} ({', '.join(choices)})")
        return choices[self.take()]

    def number_next(self):
        return self.next_is("plain") and self.next().text[0] in "0123456789"

    def number(self, what, most=MOST_NUMBER):
        if not self.number_next():
            raise self.unlike(f"a number ({what})")
        text = self.take()
        value = number_of(text)
        if value is None:
            raise Wrong(f"{shown(text)} is no number: digits, or hexadecimal ones after 0x")
        if value > most:
            raise Wrong(f"{what}: {shown(text)} is over {most}")
        return value

    def data(self):
        """The bytes in square brackets: groups of pairs of digits."""
        groups = self.take().replace(":", " ").split()
        for group in groups:
            if not PAIRS.fullmatch(group):
                raise Wrong(f"{shown(group)} in [ ] is not of pairs of hexadecimal digits")
        return bytes.fromhex("".join(groups))

    def name_next(self):
        return self.next_is("quoted") or self.next_is("plain") and not self.number_next()

    def name(self, what):
        """A name as bytes."""
        if self.number_next():
            raise Wrong(f"{what} is expected, not a number: a name that begins with a "
                        "digit stands in double quotes")
        if not self.name_next():
            raise self.unlike(what)
        quoted = self.next_is("quoted")
        text = self.take()
        return name_of(text.replace('""', '"') if quoted else text)

    def first_name(self, what):
        """The name in a place where no expression can stand."""
        name = self.name(what)
        if self.next_is("mark", *"+-*/"):
            raise Wrong(f"a name with {self.next().text} in it stands in double quotes")
        return name


def number_of(text):
    """The number that a word spells, None if it spells none.

    No place takes more than 20 decimal digits, and Python does not read any number
    of them: what has more counts as 2^64.
    """
    if DECIMAL.fullmatch(text):
        digits = text.lstrip("0")
        return int(digits or "0") if len(digits) <= 20 else MOST_NUMBER + 1
    found = HEXADECIMAL.fullmatch(text)
    return int(found[1], 16) if found else None


def name_of(text):
    name = text.encode("latin-1")
    if not name:
        raise Wrong("a name has at least 1 byte")
    if len(name) > MOST_BYTES_OF_NAME:
        raise Wrong(f"the name {shown(text)} has {len(name)} bytes, over 64")
    for byte in name:
        if not 33 <= byte <= 126:
            raise Wrong(f"the name {shown(text)} has the byte {byte}: names are of the bytes "
                        "33 to 126, printable ASCII without the space")
    return name
