"""A graph with the places of its parts."""
from __future__ import annotations

import re
from typing import Optional, Sequence

from ptides import program
from ptides.explain.findings import Finding, Source, Spot, listed
from ptides.explain.forms import ACTOR, BLOCK, KINDS, LIST, NAMES, PARTS, ROW, SHAPES, TOP, Leaf, Shape, from_to, leaves_of
from ptides.explain.json_text import Node
from ptides.formulas.option import file_in, formulas_in, words_of

# A part of the text, and what is put there instead.
Change = tuple[int, int, str]

class Graph:
    """The graph of a text, and its parts with their places."""

    def __init__(self, source: Source, root: Node, words: Sequence[str] = ()):
        self.source, self.root = source, root
        # The words of a command name the blocks that there are beside those of the program.
        blocks = file_in(words) if words else None
        self.blocks, self.formulas = words_of(blocks), formulas_in(blocks)
        self.second = root.get("ptides").whole() == 2
        self.parts = {part: root.get(key).items() for part, key in PARTS.items()}
        self.actors, self.wires, self.links = self.parts["actor"], self.parts["wire"], self.parts["link"]
        self.names = [actor.get("name").text() for actor in self.actors]
        # Of each wire and each link the names and numbers, if it has its form.
        ends = [wire.items() for wire in self.wires if len(wire.items()) == 4]
        self.wired = [(start.text(), output.whole(), end.text(), entry.whole()) for start, output, end, entry in ends]
        self.linked = [(link.get("from").text(), link.get("to").text()) for link in self.links]

    def actor(self, name: str) -> Node:
        """The first actor of that name."""
        return self.actors[self.names.index(name)] if name in self.names else Node("absent", None, 0, 1)

    def kind(self, name: str) -> str:
        """The kind of the actor of that name."""
        return self.actor(name).get("kind").text()

    def place(self, name: str) -> Node:
        """The platform's name in an actor."""
        return self.actor(name).get("platform")

    def error(self, pair: tuple[str, str]) -> Node:
        """The clock error of two platforms."""
        errors = {frozenset(part.text() for part in node.items()[:2]): node.items()[2] for node in self.parts["clock error"]}
        return errors.get(frozenset(pair), self.root.get("clock_error"))

    def places(self, names: list[str]) -> list[Spot]:
        """The platforms' names in these actors."""
        return [self.spot(self.place(each), f"the platform of `{each}`") for each in names]

    def spot(self, node: Node, label: str) -> Spot:
        """The place of a node."""
        return Spot(self.source, node.start, node.end, label)

    def found(self, node: Node, label: str, expected: str = "", *helps: str, better: str = "", notes: Optional[list[Spot]] = None) -> Finding:
        """A finding at a node."""
        return Finding(self.spot(node, label), expected, [*helps, better], notes or [])

    def ports(self, actor: Node) -> tuple[int, int]:
        """How many inputs and outputs an actor has."""
        kind, cells = actor.get("kind").text(), actor.get("cells").items()
        inputs = {"sensor": 0, "receive": 0, "every": 0, "add": 2, "sub": 2, "latch": 2, "block": 2, "merge": actor.number("n"),
                  "lanes": sum(cell.whole() or 0 for cell in cells)}.get(kind, 1)
        return inputs, {"send": 0, "actuator": 0, "machine": actor.number("outputs"), "lanes": len(cells)}.get(kind, 1)

    def edited(self, *changes: Change) -> str:
        """The text with these parts replaced."""
        text = self.source.text
        for start, end, new in sorted(changes, reverse=True):
            text = text[:start] + new + text[end:]
        return text

    def shape(self, part: str, node: Node) -> Shape:
        """The members or entries that a part has to have."""
        if part == "top":
            return {**TOP, "clock_errors": LIST} if self.second else TOP
        return {**ACTOR, **KINDS.get(node.get("kind").text(), {})} if part == "actor" else SHAPES[part]

    def row_shape(self, row: Node) -> Shape:
        """The members of a row of a machine; version 2 allows a guard."""
        return {**ROW, "guard": BLOCK} if self.second and row.get("guard").kind != "absent" else ROW

    def leaves(self, part: str, node: Node) -> list[Leaf]:
        """All values of a part."""
        if part == "platform":
            return [("a platform", node, NAMES)]
        found = leaves_of(self.shape(part, node), node)
        for index, row in enumerate(node.get("rows").items() if part == "actor" else []):
            found += leaves_of(self.row_shape(row), row, f" of row {index}")
        return found + [(f"cell {index}", cell, from_to(1, 8)) for index, cell in enumerate(node.get("cells").items())]


def check(graph: Graph, *changes: Change) -> program.Done:
    """What `check` answers of the graph with these parts replaced."""
    return program.run(["check", "/dev/stdin", *graph.blocks], given=graph.edited(*changes))


def checked(graph: Graph, *changes: Change) -> str:
    """What `check` does with these parts of the graph replaced."""
    done = check(graph, *changes)
    below = [row.split(",")[0] for row in done.output.splitlines() if re.search(",-[0-9]+$", row)]
    return f"says `{done.line}`" if done.status else "answers 0" + (f", with a margin below 0 for {listed(below)}" if below else "")
