"""From words to a tree, with exactly the refusals of the program.

It goes from word to word, as the program does: what waits for words to come is a stack, and a word ends all that binds at least as
tightly. Nothing recurses, so a line of any depth is read.
"""
from __future__ import annotations

from dataclasses import dataclass
from enum import Enum
from typing import NamedTuple, Optional

from ptides.formulas.tree import TESTS, Node
from ptides.formulas.words import FUNCTIONS, Kind, LineFault, Word

# How many numbers, inputs and operations a formula may have.
MOST_STEPS = 64
# How tightly each sign binds, and from which level on a sign to its left is ended by it: tests don't chain.
LEVELS = {"or": 1, "and": 2, **dict.fromkeys(TESTS, 3), "+": 4, "-": 4, "*": 5, "/": 5, "%": 5}
LEFT_LEVELS = {**LEVELS, **dict.fromkeys(TESTS, 4)}


class Expects(Enum):
    """What may come next: a formula; `(`, after the name of a function; or what follows a formula."""

    VALUE = 1
    OPENING = 2
    SIGN = 3


@dataclass
class Waiting:
    """A word that waits for its formula or its `)`; of a call also the number of the formula that is being read, from 1."""

    word: Word
    is_minus: bool = False
    number: int = 1


class Reading(NamedTuple):
    """A formula that was read, and how many steps it has."""

    tree: Node
    steps: int


class Parser:
    """What was read so far."""

    def __init__(self) -> None:
        self.expects = Expects.VALUE
        self.values: list[Node] = []
        self.waiting: list[Waiting] = []
        self.function: Optional[Word] = None
        self.steps = 0

    def take(self, word: Word) -> None:
        """Reads a word."""
        {Expects.VALUE: self.value, Expects.OPENING: self.opening, Expects.SIGN: self.sign}[self.expects](word)

    def value(self, word: Word) -> None:
        """A word where a formula should be."""
        if word.kind in (Kind.INPUT, Kind.NUMBER):
            self.steps += 1
            number = int(word.text.lstrip("0") or "0") if word.kind is Kind.NUMBER else 0
            self.values.append(Node("number" if word.kind is Kind.NUMBER else word.text, (), number, word.start, word.end))
            self.expects = Expects.SIGN
        elif word.text == "-" or word.kind is Kind.OPEN:
            self.waiting.append(Waiting(word, is_minus=word.text == "-"))
        elif word.kind is Kind.FUNCTION:
            self.function, self.expects = word, Expects.OPENING
        else:
            raise LineFault(word.start, "no value")

    def opening(self, word: Word) -> None:
        """A word after the name of a function."""
        assert self.function
        if word.kind is not Kind.OPEN:
            raise LineFault(word.start, "no (", self.function)
        self.waiting.append(Waiting(self.function))
        self.expects = Expects.VALUE

    def sign(self, word: Word) -> None:
        """A word after a formula."""
        if word.kind is Kind.SIGN:
            self.release(LEFT_LEVELS[word.text])
            if word.text in TESTS and self.waiting and self.waiting[-1].word.text in TESTS:
                raise LineFault(word.start, "tests in a row", self.waiting[-1].word)
            self.waiting.append(Waiting(word))
            self.expects = Expects.VALUE
        elif word.kind is Kind.CLOSE:
            self.release(0)
            self.close(word)
        elif word.kind is Kind.COMMA:
            self.release(0)
            self.comma(word)
        else:
            raise LineFault(word.start, "no sign")

    def close(self, word: Word) -> None:
        """A `)` ends what waits for it: nothing else is left on top."""
        if not self.waiting:
            raise LineFault(word.start, ") without (")
        opened = self.waiting.pop()
        if opened.word.kind is Kind.FUNCTION:
            self.check_count(word, opened, opened.number == FUNCTIONS[opened.word.text])
            self.emit(opened.word.text, FUNCTIONS[opened.word.text], opened.word.start, word.end)
        else:
            inner = self.values.pop()
            self.values.append(Node(inner.function, inner.parts, inner.number, opened.word.start, word.end))

    def comma(self, word: Word) -> None:
        """A `,` goes on to the next formula of a call."""
        if not self.waiting or self.waiting[-1].word.kind is not Kind.FUNCTION:
            raise LineFault(word.start, ", outside a call", self.waiting[-1].word if self.waiting else None)
        call = self.waiting[-1]
        self.check_count(word, call, call.number < FUNCTIONS[call.word.text])
        call.number += 1
        self.expects = Expects.VALUE

    def check_count(self, word: Word, call: Waiting, is_right: bool) -> None:
        """Refuses a word of a call that has too many or too few formulas."""
        count = FUNCTIONS[call.word.text]
        if not is_right:
            raise LineFault(word.start, f"{call.word.text} takes {count} value{'' if count == 1 else 's'}", call.word)

    def release(self, level: int) -> None:
        """Ends each `-`, and each sign that binds as tightly as this level, up to a `(`."""
        while self.waiting and self.waiting[-1].word.kind is Kind.SIGN:
            last = self.waiting[-1]
            if last.is_minus:
                self.emit("negate", 1, last.word.start)
            elif level <= LEVELS[last.word.text]:
                self.emit(last.word.text, 2)
            else:
                break
            self.waiting.pop()

    def emit(self, function: str, count: int, start: Optional[int] = None, end: Optional[int] = None) -> None:
        """Makes one formula of the last ones."""
        parts = tuple(self.values[-count:])
        del self.values[-count:]
        self.steps += 1
        self.values.append(Node(function, parts, 0, parts[0].start if start is None else start, parts[-1].end if end is None else end))

    def finish(self, end: int) -> Reading:
        """The whole formula, at the end of the line."""
        if self.expects is Expects.VALUE:
            raise LineFault(end, "no value", self.waiting[-1].word if self.waiting else None)
        if self.expects is Expects.OPENING:
            raise LineFault(end, "no (", self.function)
        self.release(0)
        if self.waiting:
            raise LineFault(end, "( without )", self.waiting[-1].word)
        if self.steps > MOST_STEPS:
            raise LineFault(end, f"more than {MOST_STEPS} steps")
        return Reading(self.values[-1], self.steps)


def parse(words: list[Word], end: int) -> Reading:
    """The formula that these words write; `end` is the place after the line."""
    parser = Parser()
    for word in words:
        parser.take(word)
    return parser.finish(end)
