"""What is lawful in a file of formulas, and in a graph that uses them, and probably not meant."""
from __future__ import annotations

import difflib
from typing import Any, Iterator, Mapping, NamedTuple, Optional, Sequence

from ptides.formulas.file import SHIPPED, Formula
from ptides.formulas.ranges import FALSE, TRUE, WHOLE, Facts, Range, facts_of, narrowed, range_of
from ptides.formulas.tree import TESTS, Node

# Which part divides, of the functions that divide.
DIVISORS = {"/": 1, "%": 1, "scale": 2}


class Finding(NamedTuple):
    """What is to be said of a part of a formula."""

    part: Node
    text: str


class Use(NamedTuple):
    """Where a graph names a block: the actor, and of a guard its row with the number of it."""

    actor: dict[str, Any]
    block: str
    number: int = -1
    row: Mapping[str, int] = {}

    @property
    def is_guard(self) -> bool:
        """Whether it is a guard."""
        return self.number >= 0

    @property
    def facts(self) -> Facts:
        """What is known of the inputs."""
        return facts_of(Range(self.row["low"], self.row["high"]), Range(self.row["state"], self.row["state"])) if self.is_guard else facts_of()


def uses_of(graph: Mapping[str, Any]) -> list[Use]:
    """Each place where a graph names a block."""
    found = [Use(actor, actor["block"]) for actor in graph["actors"] if actor["kind"] == "block"]
    for actor in graph["actors"]:
        rows = enumerate(actor.get("rows", ()))
        found += [Use(actor, row["guard"], number, row) for number, row in rows if "guard" in row]
    return found


# ---- of a formula alone -------------------------------------------------------------------------------------------------


def of_formula(formula: Formula, uses: Sequence[Use]) -> Iterator[str]:
    """What is to be said of a formula, whatever feeds it, and then of its parts for the rows that have it as their guard."""
    value = range_of(formula.tree, facts_of())
    if not formula.inputs:
        yield f"`{formula.name}` uses neither a nor b: it always gives {value.low}, and no other formula can name it"
    elif value.is_single:
        yield f"`{formula.name}` gives {value.low}, whatever its inputs are"
    found = list(findings(formula, formula.tree, facts_of()))
    for each in found:
        yield f"in `{formula.name}`, {each.text}"
    if uses and all(use.is_guard for use in uses):
        known = {id(each.part) for each in found}
        for each in findings(formula, formula.tree, hull_of(uses)):
            if id(each.part) not in known:
                yield f"in `{formula.name}`, {each.text} for the inputs and states of the rows that have this guard"


def hull_of(uses: Sequence[Use]) -> Facts:
    """What is known of the inputs in all of these rows."""
    a, b = (Range(min(use.row[low] for use in uses), max(use.row[high] for use in uses)) for low, high in (("low", "high"), ("state", "state")))
    return facts_of(a, b)


def findings(formula: Formula, node: Node, facts: Facts) -> Iterator[Finding]:
    """What is to be said of a part and of all below it, each where it is computed and used."""
    for part, known in used_parts(node, facts):
        yield from findings(formula, part, known)
    if node.function in TESTS:
        truth = range_of(node, facts)
        if truth in (TRUE, FALSE):
            yield Finding(node, f"`{formula.part(node)}` {'always' if truth == TRUE else 'never'} holds")
    if node.function in DIVISORS:
        divisor = node.parts[DIVISORS[node.function]]
        found = range_of(divisor, facts)
        if found.has(0) and divisor not in facts.not_zero:
            may = "is 0" if found == FALSE else "can be 0"
            yield Finding(node, f"the divisor `{formula.part(divisor)}` of `{formula.part(node)}` {may}, and then this gives 0")


def used_parts(node: Node, facts: Facts) -> Iterator[tuple[Node, Facts]]:
    """The parts whose values count, and what is known there: behind a test, how it came out."""
    chosen = {"if": (True, False), "and": (True,), "or": (False,)}.get(node.function)
    if chosen is None:
        yield from ((part, facts) for part in node.parts)
        return
    yield node.parts[0], facts
    for part, truth in zip(node.parts[1:], chosen):
        there = narrowed(node.parts[0], truth, facts)
        if there is not None:
            yield part, there


# ---- of a graph ---------------------------------------------------------------------------------------------------------


def of_guard(use: Use, formula: Formula) -> Optional[str]:
    """What is to be said of a guard for the inputs and the state of its row."""
    value = range_of(formula.tree, use.facts)
    low, high = use.row["low"], use.row["high"]
    where = f"for {'each input' if (low, high) == WHOLE else f'inputs from {low} to {high}'} in state {use.row['state']}"
    if value.high <= 0:
        return f"row {use.number} of `{use.actor['name']}` is never taken: its guard `{use.block}` is never above 0 {where}"
    if value.low > 0:
        return f"the guard `{use.block}` of row {use.number} of `{use.actor['name']}` is always above 0 {where}: without it the row does the same"
    return None


def of_inputs(use: Use, formula: Formula, wires: Sequence[Sequence[Any]]) -> Optional[str]:
    """An input that isn't used, and has a wire from elsewhere than the other: what comes there alone makes the block fire."""
    feeding = [next(((wire[0], wire[1]) for wire in wires if list(wire[2:]) == [use.actor["name"], number]), None) for number in (0, 1)]
    unused = sorted({"a", "b"} - formula.inputs)
    if not unused or None in feeding or feeding[0] == feeding[1]:
        return None
    name = use.actor["name"]
    if len(unused) == 2:
        return f"`{use.block}` of `{name}` uses neither a nor b"
    other = "a" if unused == ["b"] else "b"
    source = feeding["ab".index(unused[0])][0]
    return (f"`{use.block}` of `{name}` doesn't use {unused[0]}, which `{source}` feeds: an event of `{source}` alone gives the value for {other} = 0; "
            f"feed both inputs from `{feeding['ab'.index(other)][0]}`")


def of_graph(graph: Mapping[str, Any], formulas: Mapping[str, Formula]) -> Iterator[tuple[str, str]]:
    """What is to be said of the places where a graph uses formulas, each with the name of the actor."""
    for use in uses_of(graph):
        formula = formulas.get(use.block)
        said_of = None if formula is None else of_guard(use, formula) if use.is_guard else of_inputs(use, formula, graph["wires"])
        if said_of:
            yield use.actor["name"], said_of


def of_file(graph: Mapping[str, Any], formulas: Mapping[str, Formula]) -> Iterator[tuple[int, str]]:
    """What is to be said of a file of formulas, each with the number of the line."""
    uses = uses_of(graph)
    for formula in formulas.values():
        here = [use for use in uses if use.block == formula.name]
        if not here:
            yield formula.line, f"no actor and no guard of the graph uses `{formula.name}`"
        yield from ((formula.line, text) for text in of_formula(formula, here))


def undefined(graph: Mapping[str, Any], formulas: Mapping[str, Formula]) -> Iterator[tuple[str, str]]:
    """The blocks that a graph names and that are nowhere, each with the name of an actor."""
    known = [*formulas, *SHIPPED]
    missing = {use.block: use.actor["name"] for use in reversed(uses_of(graph)) if use.block not in known}
    for name, actor in reversed(missing.items()):
        close = difflib.get_close_matches(name, known, 1)
        yield actor, f"`{actor}` names the block `{name}`, which is defined nowhere" + (f"; did you mean `{close[0]}`?" if close else "")
