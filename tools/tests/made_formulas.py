"""Makes formulas and files of formulas by chance: good ones, and ones with mistakes."""
from __future__ import annotations

import random

LEAST, GREATEST = -(2**63), 2**63 - 1
# How tightly each sign binds.
SIGNS = {"or": 1, "and": 2, "<": 3, "<=": 3, ">": 3, ">=": 3, "==": 3, "!=": 3, "+": 4, "-": 4, "*": 5, "/": 5, "%": 5}
CALLS = {"not": 1, "abs": 1, "min": 2, "max": 2, "clamp": 3, "scale": 3, "if": 3}
NUMBERS = ["0", "1", "2", "3", "7", "10", "100", "1000", "00012", str(2**31), str(2**62), str(GREATEST)]
# What a mistake puts in, and characters of which a line without sense is made.
PIECES = ["a", "b", "c", "0", "9", "=", "==", "!", "!=", "<", "<=", ">", "+", "-", "*", "/", "%", "(", ")", ",", "#", " ", "\t", "\r", "_", ".", "&", "é", "\x00",
          "and", "or", "not", "min(", "if(", "abs", "clamp", "scale(", "mean", "least", str(2**63), str(GREATEST), "A", "x1", "\"", "²"]


class Maker:
    """Makes texts from a seed."""

    def __init__(self, seed: int):
        self.chance = random.Random(seed)

    def formula(self, size: int, level: int = 0) -> str:
        """A formula of at most that many steps, in parentheses if it binds less tightly than `level`."""
        chance = self.chance
        if size <= 1:
            return chance.choice(["a", "b", "a", "b", chance.choice(NUMBERS)])
        way = chance.random()
        if way < 0.55 and size > 2:
            return self.pair(size, level)
        if way < 0.85:
            name = chance.choice([name for name, count in CALLS.items() if count < size])
            parts = [self.formula(max(1, (size - 1) // CALLS[name])) for _ in range(CALLS[name])]
            return f"{name}{self.space()}({self.space()}{f'{self.space()},{self.space()}'.join(parts)}{self.space()})"
        if way < 0.95:
            return f"-{self.space()}{self.formula(size - 1, 6)}"
        return f"({self.formula(size)})"

    def pair(self, size: int, level: int) -> str:
        """Two formulas with a sign between them."""
        sign = self.chance.choice(list(SIGNS))
        own = SIGNS[sign]
        left = self.formula((size - 1) // 2, own + (own == 3))
        right = self.formula(max(1, size - 1 - (size - 1) // 2), own + 1)
        between = " " if sign.isalpha() else self.space()
        text = f"{left}{between}{sign}{between}{right}"
        return f"({text})" if own < level or self.chance.random() < 0.05 else text

    def space(self) -> str:
        """Blanks, or none."""
        return self.chance.choice(["", "", " ", " ", "  ", "\t"])

    def name(self) -> str:
        """A name."""
        first, rest = self.chance.choice("abcxyzABZ"), self.chance.choices("abz_019Q", k=self.chance.choice([0, 1, 3, 7, 31]))
        return first + "".join(rest)

    def line(self, size: int = 0) -> str:
        """A line with a formula."""
        text = f"{self.space()}{self.name()}{self.space()}={self.space()}{self.formula(size or self.chance.choice([1, 2, 3, 5, 8, 13, 21, 60]))}"
        return text + self.chance.choice(["", "", "", " ", "\r", " # é, and a = b", "#"])

    def mistaken(self) -> str:
        """A line with some mistakes, or one without sense."""
        chance = self.chance
        if chance.random() < 0.1:
            return f"x = {''.join(chance.choices(PIECES, k=chance.randrange(12)))}"
        if chance.random() < 0.05:
            return f"x = {' + '.join(['a'] * chance.choice([31, 32, 33, 40]))}"
        text = self.line()
        for _ in range(chance.choice([1, 1, 1, 2, 3])):
            start = chance.randrange(len(text) + 1)
            text = text[:start] + chance.choice(["", "", chance.choice(PIECES)]) + text[start + chance.choice([0, 0, 1, 1, 2]):]
        return text

    def file(self) -> bytes:
        """A file of a few lines, of which the last may be mistaken, and a name may be there twice."""
        chance = self.chance
        lines = [self.line() if chance.random() < 0.7 else chance.choice(["", "# comment", " \t\r", "mean = b"]) for _ in range(chance.choice([0, 0, 0, 1, 2]))]
        lines.append(self.mistaken() if chance.random() < 0.7 else self.line())
        return "\n".join(lines).encode() + chance.choice([b"", b"\n", b"\n\n", b"\nlast = a\n"])

    def value(self) -> int:
        """A value, often one at which something changes."""
        return self.chance.choice([0, 1, -1, 2, 7, -7, 1000, LEAST, GREATEST, LEAST + 1, 2**32, -(2**31), self.chance.randrange(-20, 20), self.chance.randrange(LEAST, GREATEST)])
