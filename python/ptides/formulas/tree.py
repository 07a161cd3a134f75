"""A formula as a tree, and its value. Each operation saturates at the ends of 64 bits.

    >>> value_of(Node("/", (Node("number", number=-7), Node("a"))), 2, 0)
    -3
"""
from __future__ import annotations

from dataclasses import dataclass, field
from typing import Callable, Iterator

LOW, HIGH = -(2**63), 2**63 - 1
TESTS = ("<", "<=", ">", ">=", "==", "!=")


@dataclass(frozen=True)
class Node:
    """A part of a formula: an input, a number, or a function of other parts. `negate` is the `-` before a formula.

    Parts that mean the same are equal, wherever they are in the line.
    """

    function: str
    parts: tuple[Node, ...] = ()
    number: int = 0
    start: int = field(default=0, compare=False)
    end: int = field(default=0, compare=False)

    def walk(self) -> Iterator[Node]:
        """This part and all below it."""
        yield self
        for part in self.parts:
            yield from part.walk()


def nearest(number: int) -> int:
    """The nearest number of 64 bits."""
    return max(LOW, min(number, HIGH))


def cut(number: int, divisor: int) -> int:
    """A quotient, cut toward zero."""
    whole = abs(number) // abs(divisor)
    return whole if (number < 0) == (divisor < 0) else -whole


def quotient(number: int, divisor: int) -> int:
    """A quotient of 64 bits; 0 if the divisor is 0."""
    return nearest(cut(number, divisor)) if divisor else 0


def remainder(number: int, divisor: int) -> int:
    """What is left of a number, with its sign; 0 if the divisor is 0."""
    return number - divisor * cut(number, divisor) if divisor else 0


def clamped(number: int, low: int, high: int) -> int:
    """A number, raised to `low` or lowered to `high` if it is outside."""
    return low if number < low else high if high < number else number


MEANINGS: dict[str, Callable[..., int]] = {
    "negate": lambda x: nearest(-x), "abs": lambda x: nearest(abs(x)), "not": lambda x: int(x == 0),
    "or": lambda x, y: int(x != 0 or y != 0), "and": lambda x, y: int(x != 0 and y != 0),
    "<": lambda x, y: int(x < y), "<=": lambda x, y: int(x <= y), ">": lambda x, y: int(x > y), ">=": lambda x, y: int(x >= y),
    "==": lambda x, y: int(x == y), "!=": lambda x, y: int(x != y),
    "+": lambda x, y: nearest(x + y), "-": lambda x, y: nearest(x - y), "*": lambda x, y: nearest(x * y), "/": quotient, "%": remainder,
    "min": min, "max": max, "clamp": clamped, "scale": lambda x, n, d: quotient(x * n, d), "if": lambda c, x, y: x if c else y}


def value_of(node: Node, a: int, b: int) -> int:
    """The value of a formula for these inputs."""
    if node.function in ("a", "b"):
        return a if node.function == "a" else b
    if node.function == "number":
        return node.number
    return MEANINGS[node.function](*(value_of(part, a, b) for part in node.parts))
