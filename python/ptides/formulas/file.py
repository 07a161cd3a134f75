"""A file of formulas: lines `NAME = FORMULA`, of which `#` begins a comment.

    >>> [(formula.name, formula.line, formula.text) for formula in formulas_of(b"# speeds\\ntwice = a * 2 # doubled\\n")]
    [('twice', 2, 'a * 2')]
"""
from __future__ import annotations

import re
from dataclasses import dataclass
from typing import Iterator, Optional, Sequence

from ptides.formulas.parser import parse
from ptides.formulas.tree import Node, value_of
from ptides.formulas.words import BLANKS, LineFault, Word, words_of
from ptides.program import Fault

MOST_BYTES = 65_536
MOST_BLOCKS = 64
# The blocks of the program itself.
SHIPPED = ("least", "greatest", "clip100", "dead5", "mean")
IN_NAME = re.compile("[A-Za-z0-9_]*")
NAME = re.compile("[A-Za-z][A-Za-z0-9_]{0,31}")


@dataclass(frozen=True)
class Formula:
    """A named formula: its line, from 1, the whole text of the line, the words of the formula with their places, its tree and its steps."""

    name: str
    line: int
    whole: str
    words: tuple[Word, ...]
    tree: Node
    steps: int

    @property
    def text(self) -> str:
        """The formula as it is written, without a comment."""
        return self.whole[self.words[0].start:self.words[-1].end]

    @property
    def inputs(self) -> set[str]:
        """Which of `a` and `b` it uses."""
        return {part.function for part in self.tree.walk()} & {"a", "b"}

    def part(self, node: Node) -> str:
        """A part of it as it is written."""
        return self.whole[node.start:node.end]

    def value(self, a: int, b: int) -> int:
        """Its value."""
        return value_of(self.tree, a, b)


class Refusal(Fault):
    """Why a file is refused, as the line of the program.

    `line` and `column` count from 1, and are 0 if it names none; `column` counts bytes. `about` is an earlier word of the line, and `earlier`
    an earlier line, that it has to do with.
    """

    status = 2

    def __init__(self, what: str, line: int = 0, column: int = 0, about: Optional[Word] = None, earlier: int = 0):
        place = (f" line {line}" if line else "") + (f" column {column}" if column else "")
        super().__init__(f"blocks:{place}{':' if place else ''} {what}")
        self.what, self.line, self.column, self.about, self.earlier = what, line, column, about, earlier


def formulas_of(data: bytes, known: Sequence[str] = SHIPPED) -> list[Formula]:
    """The formulas of a file, beside blocks that are known already; a file that the program doesn't take raises `Refusal`."""
    if len(data) > MOST_BYTES:
        raise Refusal("too long")
    found = list(lines_of(data))
    check_names(found, known)
    return found


def lines_of(data: bytes) -> Iterator[Formula]:
    """The formulas of the lines, whatever their names."""
    for number, line in enumerate(data.decode("latin-1").split("\n"), 1):
        try:
            formula = formula_of(line, number)
        except LineFault as fault:
            raise Refusal(fault.what, number, fault.at + 1, fault.about) from None
        if formula:
            yield formula


def formula_of(line: str, number: int) -> Optional[Formula]:
    """The formula of a line; nothing if it has no more than a comment."""
    start = after_blanks(line, 0)
    if line[start:start + 1] in ("", "#"):
        return None
    name = IN_NAME.match(line, start)[0]
    if not NAME.fullmatch(name):
        raise LineFault(start, "no name")
    equals = after_blanks(line, start + len(name))
    if line[equals:equals + 1] != "=":
        raise LineFault(equals, "no =")
    words = words_of(line, equals + 1)
    read = parse(words, len(line))
    return Formula(name, number, line, tuple(words), read.tree, read.steps)


def after_blanks(line: str, start: int) -> int:
    """The first place from this one on without a blank."""
    return len(line) - len(line[start:].lstrip(BLANKS))


def check_names(formulas: list[Formula], known: Sequence[str]) -> None:
    """Refuses a name that is there already, and the first formula for which there is no room."""
    lines = dict.fromkeys(known, 0)
    for formula in formulas:
        if formula.name in lines:
            raise Refusal("repeated name", formula.line, earlier=lines[formula.name])
        if len(lines) >= MOST_BLOCKS:
            raise Refusal(f"more than {MOST_BLOCKS} blocks", formula.line)
        lines[formula.name] = formula.line
