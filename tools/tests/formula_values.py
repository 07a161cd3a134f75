"""A second reader of files of formulas: the blocks that a file gives, or the line that refuses it, and what a formula gives.

It knows what docs/FORMULAS.md says, and shares nothing with the program or the package, so that a mistake in one of them shows.
"""
from __future__ import annotations

import re
from typing import Callable, NamedTuple, Optional

LEAST, MOST = -2**63, 2**63 - 1
MOST_BYTES, MOST_STEPS, MOST_BLOCKS = 65_536, 64, 64
OF_THE_PROGRAM = ("least", "greatest", "clip100", "dead5", "mean")
BLANKS = b" \t\r"
NAME = re.compile(rb"[A-Za-z][A-Za-z0-9_]{0,31}")
LETTERS = re.compile(rb"[A-Za-z0-9_]*")
WORD = re.compile(rb"[0-9]+|[A-Za-z][A-Za-z0-9_]*|[<>=!]=|[<>+\-*/%(),]")


def nearest(number: int) -> int:
    """The nearest number of 64 bits."""
    return min(max(number, LEAST), MOST)


def quotient(dividend: int, divisor: int) -> int:
    """The quotient, cut toward zero; 0 if the divisor is 0."""
    if divisor == 0:
        return 0
    size = abs(dividend) // abs(divisor)
    return nearest(size if (dividend < 0) == (divisor < 0) else -size)


def remainder(dividend: int, divisor: int) -> int:
    """What the division leaves, with the sign of the dividend; 0 if the divisor is 0."""
    if divisor == 0:
        return 0
    size = abs(dividend) % abs(divisor)
    return -size if dividend < 0 else size


def clamp(value: int, low: int, high: int) -> int:
    """The value, brought between two limits; the lower one goes first."""
    if value < low:
        return low
    return high if value > high else value


Law = Callable[..., int]
SIGNS: dict[str, Law] = {
    "or": lambda x, y: int(x != 0 or y != 0), "and": lambda x, y: int(x != 0 and y != 0),
    "<": lambda x, y: int(x < y), "<=": lambda x, y: int(x <= y), ">": lambda x, y: int(x > y), ">=": lambda x, y: int(x >= y),
    "==": lambda x, y: int(x == y), "!=": lambda x, y: int(x != y),
    "+": lambda x, y: nearest(x + y), "-": lambda x, y: nearest(x - y),
    "*": lambda x, y: nearest(x * y), "/": quotient, "%": remainder}
FUNCTIONS: dict[str, tuple[int, Law]] = {
    "not": (1, lambda x: int(x == 0)), "abs": (1, lambda x: nearest(abs(x))),
    "min": (2, min), "max": (2, max), "clamp": (3, clamp),
    "scale": (3, lambda x, numerator, denominator: quotient(x * numerator, denominator)),
    "if": (3, lambda condition, x, y: x if condition != 0 else y)}
TESTS = ("<", "<=", ">", ">=", "==", "!=")
LEVELS = {"or": 1, "and": 2, **dict.fromkeys(TESTS, 3), "+": 4, "-": 4, "*": 5, "/": 5, "%": 5}
LEVEL_OF_MINUS = 6
CLOSED = 0


class Step(NamedTuple):
    """One step of a formula: `a`, `b`, a number, or a sign or function and how many values it takes."""
    word: str
    count: int = 0


def value_of(steps: list[Step], a: int, b: int) -> int:
    """What the formula gives, whose steps are in the order in which they are computed."""
    values: list[int] = []
    for word, count in steps:
        if count == 0:
            values.append(a if word == "a" else b if word == "b" else int(word))
        elif count == 1 and word == "-":
            values.append(nearest(-values.pop()))
        else:
            law = SIGNS[word] if word in SIGNS else FUNCTIONS[word][1]
            taken = values[-count:]
            values[-count:] = [law(*taken)]
    return values[0]


class Fault(Exception):
    """What is wrong with a line, and at which byte, from 1."""

    def __init__(self, column: int, what: str) -> None:
        super().__init__(what)
        self.column, self.what = column, what


class Refused(Exception):
    """The line by which a file is refused."""


class Word(NamedTuple):
    """A word of a formula, and its column."""
    text: str
    column: int

    def begins_value(self) -> bool:
        """Whether a value begins with it, unless that is a minus."""
        return self.text in ("a", "b", "(") or self.text in FUNCTIONS or self.text.isdigit()


def words_of(line: bytes, start: int, end: int) -> list[Word]:
    """The words of a formula, from one byte of the line to before another."""
    words, place = [], start
    while place < end:
        if line[place] in BLANKS:
            place += 1
            continue
        found = WORD.match(line, place, end)
        if not found:
            raise Fault(place + 1, "half a sign" if line[place] in b"=!" else "unknown character")
        text = found[0].decode("ascii")
        if text.isdigit():
            text = text.lstrip("0") or "0"
            if len(text) > 19 or int(text) > MOST:
                raise Fault(place + 1, "number too large")
        elif text[0].isalpha() and text not in ("a", "b", "and", "or") and text not in FUNCTIONS:
            raise Fault(place + 1, "unknown word")
        words.append(Word(text, place + 1))
        place = found.end()
    return words


class Part:
    """What has been read since a parenthesis was opened: of which function, how many values, and which signs wait for their right side."""

    def __init__(self, function: str = "") -> None:
        self.function, self.values, self.is_tested = function, 1, False
        self.waiting: list[tuple[int, Step]] = []


class Formula:
    """Reads the words of a formula one by one."""

    def __init__(self) -> None:
        self.steps: list[Step] = []
        self.parts = [Part()]
        self.function: Optional[str] = None
        self.is_value_due = True

    def take(self, word: Word) -> None:
        """Takes the next word."""
        if self.function is not None:
            self.open_call(word)
        elif self.is_value_due:
            self.take_value(word)
        else:
            self.take_after_value(word)

    def open_call(self, word: Word) -> None:
        """Takes the parenthesis after the name of a function."""
        if word.text != "(":
            raise Fault(word.column, "no (")
        self.parts.append(Part(self.function or ""))
        self.function = None

    def take_value(self, word: Word) -> None:
        """Takes a word where a value is due."""
        if word.text == "-":
            self.parts[-1].waiting.append((LEVEL_OF_MINUS, Step("-", 1)))
        elif word.text == "(":
            self.parts.append(Part())
        elif word.text in FUNCTIONS:
            self.function = word.text
        elif word.begins_value():
            self.steps.append(Step(word.text))
            self.is_value_due = False
        else:
            raise Fault(word.column, "no value")

    def take_after_value(self, word: Word) -> None:
        """Takes a word that comes after a value."""
        if word.begins_value():
            raise Fault(word.column, "no sign")
        if word.text == ")":
            self.close(word)
        elif word.text == ",":
            self.next_value(word)
        else:
            self.take_sign(word)

    def take_sign(self, word: Word) -> None:
        """Takes a sign between two values."""
        part = self.parts[-1]
        if word.text in TESTS:
            if part.is_tested:
                raise Fault(word.column, "tests in a row")
            part.is_tested = True
        elif word.text in ("and", "or"):
            part.is_tested = False
        self.settle(LEVELS[word.text])
        part.waiting.append((LEVELS[word.text], Step(word.text, 2)))
        self.is_value_due = True

    def settle(self, level: int) -> None:
        """The signs of this part that bind at least as tightly have their right side."""
        waiting = self.parts[-1].waiting
        while waiting and waiting[-1][0] >= level:
            self.steps.append(waiting.pop()[1])

    def close(self, word: Word) -> None:
        """Takes a closing parenthesis."""
        part = self.parts[-1]
        if len(self.parts) == 1:
            raise Fault(word.column, ") without (")
        if part.function and part.values < FUNCTIONS[part.function][0]:
            raise Fault(word.column, takes(part.function))
        self.settle(CLOSED)
        self.parts.pop()
        if part.function:
            self.steps.append(Step(part.function, part.values))

    def next_value(self, word: Word) -> None:
        """Takes the comma between two values of a call."""
        part = self.parts[-1]
        if not part.function:
            raise Fault(word.column, ", outside a call")
        if part.values == FUNCTIONS[part.function][0]:
            raise Fault(word.column, takes(part.function))
        self.settle(CLOSED)
        part.values += 1
        part.is_tested = False
        self.is_value_due = True

    def finish(self, end: int) -> list[Step]:
        """The steps, after the last word; `end` is the column after the line."""
        if self.function is not None:
            raise Fault(end, "no (")
        if self.is_value_due:
            raise Fault(end, "no value")
        if len(self.parts) > 1:
            raise Fault(end, "( without )")
        self.settle(CLOSED)
        if len(self.steps) > MOST_STEPS:
            raise Fault(end, "more than 64 steps")
        return self.steps


def takes(function: str) -> str:
    """The fault of a call with another number of values."""
    count = FUNCTIONS[function][0]
    return f"{function} takes {count} value{'s' if count > 1 else ''}"


def line_of(line: bytes) -> Optional[tuple[str, list[Step]]]:
    """The name that a line defines and the steps of its formula, or nothing."""
    start = len(line) - len(line.lstrip(BLANKS))
    if line[start:start + 1] in (b"", b"#"):
        return None
    found = LETTERS.match(line, start)
    name = found[0] if found else b""
    if not NAME.fullmatch(name):
        raise Fault(start + 1, "no name")
    place = len(line) - len(line[start + len(name):].lstrip(BLANKS))
    if line[place:place + 1] != b"=":
        raise Fault(place + 1, "no =")
    comment = line.find(b"#", place)
    formula = Formula()
    for word in words_of(line, place + 1, len(line) if comment < 0 else comment):
        formula.take(word)
    return name.decode("ascii"), formula.finish(len(line) + 1)


def blocks_of(data: bytes) -> dict[str, list[Step]]:
    """The blocks of a file, in its order. Refused carries the line that refuses it, as it is written on standard error."""
    if len(data) > MOST_BYTES:
        raise Refused("blocks: too long\n")
    found = []
    for number, line in enumerate(data.split(b"\n"), 1):
        try:
            defined = line_of(line)
        except Fault as fault:
            raise Refused(f"blocks: line {number} column {fault.column}: {fault.what}\n") from None
        if defined:
            found.append((number, *defined))
    blocks: dict[str, list[Step]] = {}
    for number, name, steps in found:
        if name in OF_THE_PROGRAM or name in blocks:
            raise Refused(f"blocks: line {number}: repeated name\n")
        if len(OF_THE_PROGRAM) + len(blocks) == MOST_BLOCKS:
            raise Refused(f"blocks: line {number}: more than 64 blocks\n")
        blocks[name] = steps
    return blocks
