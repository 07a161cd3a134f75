"""The words of a formula, with their places in the line.

A line is text in which each byte is a character (latin-1), so places count bytes. They count from 0.

    >>> [word.text for word in words_of("twice = a * 2 # doubled", 7)]
    ['a', '*', '2']
"""
from __future__ import annotations

import re
from enum import Enum
from typing import NamedTuple, Optional

MOST_NUMBER = 2**63 - 1
# How many values each function takes.
FUNCTIONS = {"not": 1, "abs": 1, "min": 2, "max": 2, "clamp": 3, "scale": 3, "if": 3}
INPUTS = ("a", "b")
BLANKS = " \t\r"
WORD = re.compile(r"(?P<blank>[ \t\r]+)|(?P<comment>#)|(?P<number>[0-9]+)|(?P<name>[A-Za-z][A-Za-z0-9_]*)|(?P<sign><=|>=|==|!=|[<>+*/%(),-])|(?P<half>[=!])")


class Kind(Enum):
    """What a word is."""

    INPUT = "an input"
    NUMBER = "a number"
    SIGN = "a sign"
    FUNCTION = "a function"
    OPEN = "("
    CLOSE = ")"
    COMMA = ","


class Word(NamedTuple):
    """A word, and the places of its first byte and of the one after its last."""

    kind: Kind
    text: str
    start: int
    end: int


class LineFault(Exception):
    """Why a line is refused, in the words of the program, and where; `about` is an earlier word that it has to do with."""

    def __init__(self, at: int, what: str, about: Optional[Word] = None):
        super().__init__(what)
        self.at, self.what, self.about = at, what, about


def words_of(line: str, start: int) -> list[Word]:
    """The words of a line from a place on, up to a `#`."""
    found, at = [], start
    while at < len(line):
        match = WORD.match(line, at)
        if match is None:
            raise LineFault(at, "unknown character")
        if match.lastgroup == "comment":
            break
        if match.lastgroup == "half":
            raise LineFault(at, "half a sign")
        if match.lastgroup != "blank":
            found.append(Word(kind_of(match), match[0], at, match.end()))
        at = match.end()
    return found


def kind_of(match: re.Match[str]) -> Kind:
    """The kind of a word; some names and numbers are none."""
    text = match[0]
    if match.lastgroup == "number":
        # Python refuses to convert very long digits.
        digits = text.lstrip("0")
        if len(digits) > 19 or int(digits or "0") > MOST_NUMBER:
            raise LineFault(match.start(), "number too large")
        return Kind.NUMBER
    if match.lastgroup == "name":
        if text in INPUTS:
            return Kind.INPUT
        if text in FUNCTIONS:
            return Kind.FUNCTION
        if text in ("and", "or"):
            return Kind.SIGN
        raise LineFault(match.start(), "unknown word")
    return Kind(text) if text in "()," else Kind.SIGN
