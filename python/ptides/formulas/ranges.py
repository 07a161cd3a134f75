"""Between which values the parts of a formula are, by interval arithmetic over 64 bits.

In the parts of an `if`, an `and` and an `or` it is known how the test came out. So `if(a > 0, 9 / a, 0)` never divides by 0.
"""
from __future__ import annotations

from functools import lru_cache
from itertools import product
from typing import Callable, NamedTuple, Optional

from ptides.formulas.tree import HIGH, LOW, MEANINGS, TESTS, Node, quotient


class Range(NamedTuple):
    """The least and the greatest value."""

    low: int
    high: int

    @property
    def is_single(self) -> bool:
        """Whether it is one value alone."""
        return self.low == self.high

    def has(self, number: int) -> bool:
        """Whether a number is in it."""
        return self.low <= number <= self.high

    def with_all(self, other: Range) -> Range:
        """The least range that has both."""
        return Range(min(self.low, other.low), max(self.high, other.high))


WHOLE, BOTH, TRUE, FALSE = Range(LOW, HIGH), Range(0, 1), Range(1, 1), Range(0, 0)
A, B = Node("a"), Node("b")
OPPOSITES = {"<": ">=", ">=": "<", ">": "<=", "<=": ">", "==": "!=", "!=": "=="}
TURNED = {"<": ">", ">": "<", "<=": ">=", ">=": "<=", "==": "==", "!=": "!="}


class Facts(NamedTuple):
    """What is known where a part is computed: in which ranges other parts are, and which of them aren't 0."""

    ranges: frozenset[tuple[Node, Range]] = frozenset()
    not_zero: frozenset[Node] = frozenset()

    def known(self, node: Node) -> Range:
        """The range in which a part is known to be."""
        return next((found for each, found in self.ranges if each == node), WHOLE)

    def with_range(self, node: Node, low: int, high: int) -> Optional[Facts]:
        """The same with a part known to be in a range; nothing, if it can't be."""
        now = range_of(node, self)
        found = Range(max(low, now.low), min(high, now.high))
        if found.low > found.high:
            return None
        return Facts(frozenset(each for each in self.ranges if each[0] != node) | {(node, found)}, self.not_zero)

    def with_not_zero(self, *nodes: Node) -> Optional[Facts]:
        """The same with parts known not to be 0; nothing, if one of them is 0."""
        return None if any(range_of(node, self) == FALSE for node in nodes) else Facts(self.ranges, self.not_zero | set(nodes))


def facts_of(a: Range = WHOLE, b: Range = WHOLE) -> Facts:
    """What is known of the inputs."""
    return Facts(frozenset({(A, a), (B, b)}))


# ---- ranges of parts ----------------------------------------------------------------------------------------------------


@lru_cache(maxsize=None)
def range_of(node: Node, facts: Facts) -> Range:
    """Between which values a part is."""
    found, known = computed(node, facts), facts.known(node)
    low, high = max(found.low, known.low), min(found.high, known.high)
    if node in facts.not_zero:
        low, high = low + (low == 0), high - (high == 0)
    # Facts that exclude each other are of a part that is never used.
    return Range(low, high) if low <= high else known


def computed(node: Node, facts: Facts) -> Range:
    """The range that follows from those of its parts."""
    if node.function in ("a", "b"):
        return WHOLE
    if node.function == "number":
        return Range(node.number, node.number)
    if node.function in ("if", "and", "or"):
        return chosen(node, facts)
    if node.function in TESTS and node.parts[0] == node.parts[1]:
        return FALSE if node.function in ("<", ">", "!=") else TRUE
    ranges = [range_of(part, facts) for part in node.parts]
    if all(each.is_single for each in ranges):
        return corners(MEANINGS[node.function], *ranges)
    return OF_RANGES.get(node.function, lambda *given: corners(MEANINGS[node.function], *given))(*ranges)


def chosen(node: Node, facts: Facts) -> Range:
    """The range of an `if`, an `and` or an `or`: of the parts that its first one can choose."""
    parts = {"if": node.parts[1:], "and": (node.parts[-1], None), "or": (None, node.parts[-1])}[node.function]
    found = []
    for part, truth in zip(parts, (True, False)):
        there = narrowed(node.parts[0], truth, facts)
        if there is not None:
            found.append(Range(int(truth), int(truth)) if part is None else range_of(part, there) if node.function == "if" else truth_of(range_of(part, there)))
    return Range(min(each.low for each in found), max(each.high for each in found)) if found else WHOLE


def truth_of(given: Range) -> Range:
    """Whether a value is true: any but 0 is."""
    return FALSE if given == FALSE else BOTH if given.has(0) else TRUE


def corners(function: Callable[..., int], *ranges: Range) -> Range:
    """The range of a function that rises or falls with each of its values: its extremes are at the ends."""
    values = [function(*given) for given in product(*ranges)]
    return Range(min(values), max(values))


def absolute(x: Range) -> Range:
    """Of `abs`."""
    found = corners(MEANINGS["abs"], x)
    return Range(0, found.high) if x.has(0) else found


def divided(x: Range, y: Range) -> Range:
    """Of a quotient: on each side of 0 it rises or falls with the divisor."""
    sides = [Range(max(y.low, 1), y.high), Range(y.low, min(y.high, -1))]
    values = [quotient(number, divisor) for side in sides if side.low <= side.high for number in x for divisor in side]
    values += [0] if y.has(0) else []
    return Range(min(values), max(values))


def left_over(x: Range, y: Range) -> Range:
    """Of a remainder: it has the sign of x, and is nearer to 0 than y."""
    most = max(abs(y.low), abs(y.high)) - 1
    least = 0 if y.has(0) else min(abs(y.low), abs(y.high))
    if max(abs(x.low), abs(x.high)) < least:
        return x
    return FALSE if most < 0 else Range(max(min(x.low, 0), -most), min(max(x.high, 0), most))


def clamped(x: Range, low: Range, high: Range) -> Range:
    """Of `clamp`; where low may be above high, it gives low or the lesser of x and high."""
    least = max(low.low, min(x.low, high.low)) if low.high <= high.low else min(low.low, x.low, high.low)
    return Range(least, max(low.high, min(x.high, high.high)))


def scaled(x: Range, n: Range, d: Range) -> Range:
    """Of `scale`, whose product doesn't saturate."""
    return divided(corners(lambda number, factor: number * factor, x, n), d)


def tested(x: Range, y: Range, is_less: bool, or_same: bool) -> Range:
    """Of x < y, or of x <= y, or of the opposite."""
    always, never = (x.high <= y.low, x.low > y.high) if or_same else (x.high < y.low, x.low >= y.high)
    always, never = (always, never) if is_less else (never, always)
    return TRUE if always else FALSE if never else BOTH


def same(x: Range, y: Range) -> Range:
    """Of x == y."""
    return TRUE if x.is_single and x == y else FALSE if x.high < y.low or y.high < x.low else BOTH


def opposite(given: Range) -> Range:
    """Of `not`, of something true or false."""
    return Range(1 - given.high, 1 - given.low)


OF_RANGES: dict[str, Callable[..., Range]] = {
    "abs": absolute, "not": lambda x: opposite(truth_of(x)), "/": divided, "%": left_over, "clamp": clamped, "scale": scaled,
    "<": lambda x, y: tested(x, y, True, False), "<=": lambda x, y: tested(x, y, True, True), ">": lambda x, y: tested(x, y, False, True),
    ">=": lambda x, y: tested(x, y, False, False), "==": same, "!=": lambda x, y: opposite(same(x, y))}


# ---- what follows from a test -------------------------------------------------------------------------------------------


@lru_cache(maxsize=None)
def narrowed(test: Node, truth: bool, facts: Facts) -> Optional[Facts]:
    """What is known where a test came out true, or false; nothing, if it can't come out so."""
    if test.function in TESTS:
        return compared(test, truth, facts)
    if test.function == "not":
        return narrowed(test.parts[0], not truth, facts)
    if test.function in ("and", "or") and truth == (test.function == "and"):
        first = narrowed(test.parts[0], truth, facts)
        return first and narrowed(test.parts[1], truth, first)
    return facts.with_not_zero(test) if truth else facts.with_range(test, 0, 0)


def compared(test: Node, truth: bool, facts: Facts) -> Optional[Facts]:
    """What follows from a comparison: narrower ranges of both sides, and the sign of their difference."""
    function = test.function if truth else OPPOSITES[test.function]
    found = facts.with_range(test, int(truth), int(truth))
    for one, other, sign in ((*test.parts, function), (*reversed(test.parts), TURNED[function])):
        found = found and beside(one, sign, other, found)
    return found


def beside(one: Node, sign: str, other: Node, facts: Facts) -> Optional[Facts]:
    """What follows for the one side, and for what it is more than the other."""
    that, difference = range_of(other, facts), Node("-", (one, other))
    if sign == "!=":
        found = facts.with_not_zero(difference)
        if that == FALSE:
            return found and found.with_not_zero(one)
        now = range_of(one, facts)
        return found and found.with_range(one, now.low + (that == (now.low, now.low)), now.high - (that == (now.high, now.high)))
    low, high = {"<": (LOW, that.high - 1), "<=": (LOW, that.high), ">": (that.low + 1, HIGH), ">=": (that.low, HIGH), "==": that}[sign]
    less, more = {"<": (LOW, -1), "<=": (LOW, 0), ">": (1, HIGH), ">=": (0, HIGH), "==": (0, 0)}[sign]
    found = facts.with_range(one, low, high)
    return found and found.with_range(difference, less, more)
