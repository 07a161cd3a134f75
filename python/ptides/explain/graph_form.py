"""Faults of the form of a graph: its members, kinds, ranges and names."""
from __future__ import annotations

import re
from typing import Any, Optional

from ptides.explain.findings import Finding, Spot, a, count, first, listed, near, shown
from ptides.explain.forms import ACTOR, EMIT, FILES, KINDS, LIMITS, VALUES, VERSION_2, WHOLE, Form, Shape, better_number, wrong_name
from ptides.explain.graph import Graph
from ptides.explain.json_text import Node

def misfit(graph: Graph, what: str, node: Node, shape: Shape, more: str = "", kind: str = "an object") -> Optional[Finding]:
    """Why a value isn't an object of exactly these members, or an array of exactly these entries."""
    expected = f"{what} has exactly the members {listed(list(shape))}" if kind == "an object" else f"{what} is [{', '.join(shape)}]"
    if node.kind != kind:
        return graph.found(node, f"{what} has to be {kind}, and this is {node.kind}", expected)
    if kind == "an array":
        label = f"{what} has {len(shape)} entries, and this has {len(node.value)}"
        return graph.found(node, label, expected) if len(node.value) != len(shape) else None
    missing = [key for key in shape if key not in node.value]
    extra = next((key for key in node.value if key not in shape), None)
    if extra is not None:
        meant = near(extra, missing) or (f"; `{missing[0]}` is missing" if len(missing) == 1 else "")
        return Finding(Spot(graph.source, *node.keys[extra], f"{what} has no member `{shown(extra)}`{meant}"), expected, [more])
    place = node if node is not graph.root else Node("", None, node.start, node.start + 1)
    label = f"{what} needs the member{'s' if missing[1:] else ''} {listed(missing)}"
    return graph.found(place, label, expected, f'add "{missing[0]}": {shape[missing[0]].says}') if missing else None


def wrong_actor(graph: Graph, node: Node) -> Optional[Finding]:
    """What is wrong with the kind, the members or the rows of an actor."""
    kind, word = node.get("kind"), node.get("kind").text()
    if node.kind != "an object" or kind.kind == "absent":
        return misfit(graph, "an actor", node, {**ACTOR, **{key: VALUES for key in node.keys if not near(key, ["kind"])}})
    if word == "lanes" and not graph.second:
        return graph.found(kind, "the kind `lanes` is of version 2", "", VERSION_2)
    if word not in KINDS:
        label = f"there is no kind `{shown(word)}`{near(word, list(KINDS))}"
        label = label if kind.kind == "a text" else f"`kind` has to be a text, and this is {kind.kind}"
        return graph.found(kind, label, f"the kinds are {', '.join(KINDS)}")
    shape = graph.shape("actor", node)
    owners = [(key, [each for each in KINDS if key in KINDS[each]]) for key in node.keys if key not in shape]
    found = misfit(graph, a(word), node, shape, "".join(f"`{key}` is a member of {listed(each)}" for key, each in owners[:1] if each))
    for index, row in enumerate(node.get("rows").items()):
        guard = f"guards are of version 2: {VERSION_2}" if row.get("guard").kind != "absent" and not graph.second else ""
        found = found or misfit(graph, f"row {index} of a machine", row, graph.row_shape(row), guard)
    return found


def wrong_kind(graph: Graph, what: str, node: Node, form: Form) -> Optional[Finding]:
    """The fault of a value that isn't of its JSON kind."""
    if form is EMIT and len(node.items()) == 2:
        return first(wrong_kind(graph, f"the {each} in {what}", item, VALUES) for each, item in zip(("output", "value"), node.items()))
    good = {WHOLE: node.whole() is not None, EMIT.kind: node.kind == "null"}.get(form.kind, node.kind == form.kind)
    this = f"{node.value[:30]}, which isn't one" if node.kind == "a number" else node.kind
    better = better_number(node, form) if form.kind == WHOLE else ""
    label = f"{what} has to be {form.kind}, and this is {this}"
    return None if good or node.kind == "absent" else graph.found(node, label, form.says, better)


def member(graph: Graph, part: str, node: Node) -> Optional[Finding]:
    """One is missing, is too many, or isn't of its JSON kind."""
    what = {"top": f"a graph of version {1 + graph.second}", "clock error": "an entry of `clock_errors`"}.get(part, f"a {part}")
    more = '`clock_errors` is of version 2: write "ptides":2, or remove it' if part == "top" and not graph.second else ""
    if part == "top" and "$schema" in node.keys:
        more = "remove it: the settings of an editor name the schema, as docs/GRAPHS.md shows"
    if part == "top" and "clock_errors" in node.keys and node.get("ptides").whole() not in (1, 2):
        return graph.found(node.get("ptides"), "there are the versions 1 and 2", "1 or 2", 'with `clock_errors` write "ptides":2')
    found = wrong_actor(graph, node) if part == "actor" else None
    if part not in ("actor", "platform"):
        found = misfit(graph, what, node, graph.shape(part, node), more, "an array" if part in ("wire", "clock error") else "an object")
    found = found or first(wrong_kind(graph, *leaf) for leaf in graph.leaves(part, node))
    twice = [Spot(graph.source, start, end, f"`{key}` is there twice, and the last one counts") for key, start, end in node.earlier]
    return Finding(found.spot, found.expected, found.helps, found.notes + twice) if found else None


def too_many(graph: Graph, what: str) -> Finding:
    """The first entry past a limit."""
    most, newer = LIMITS[what][graph.second], LIMITS[what][1]
    rows = [actor.get("rows").items() for actor in graph.actors]
    cells = [cell for actor in graph.actors for cell in actor.get("cells").items()]
    entries = next(each for each in {"rows": rows, "cells": [cells]}.get(what) or [graph.parts[what[:-1]]] if len(each) > most)
    scope = {"rows": "a machine has", "cells": "all lanes together have"}.get(what, f"a graph of version {1 + graph.second} has")
    better = f"version 2 takes up to {newer:,}: {VERSION_2}" if newer > most else ""
    return graph.found(entries[most], f"number {most + 1:,} of {len(entries):,}", f"{scope} at most {most:,} {what}", better)


def out_of_range(graph: Graph, part: str, node: Node) -> Optional[Finding]:
    """A number is out of its range, or a list has no or too many entries."""
    for what, leaf, form in graph.leaves(part, node):
        number = leaf.whole()
        if number is not None and form.kind == WHOLE and not form.low <= number <= form.high:
            return graph.found(leaf, f"{what} has to be at {f'least {form.low}' if number < form.low else f'most {form.high}'}", form.says)
    if part == "top":
        return graph.found(node.get("platforms"), "there has to be a platform", "1 to 16 names", 'write "platforms":["p"]')
    if part == "clock error":
        return graph.found(node.items()[1], "the platform that is named before it", "two platforms",
                          "a platform has no clock error with itself: remove this entry")
    cells = node.get("cells").items()
    if node.get("kind").text() == "lanes":
        label = f"{count(len(cells), 'cell')} and {sum(cell.whole() or 0 for cell in cells)} inputs in all"
        return graph.found(node.get("cells"), label, "1 to 8 cells of 1 to 8 inputs each, 8 inputs in all", "use two `lanes`" if cells else "")
    return first(row_out_of_range(graph, node, index, row) for index, row in enumerate(node.get("rows").items()))


def row_out_of_range(graph: Graph, node: Node, index: int, row: Node) -> Optional[Finding]:
    """A row of a machine with `low` above `high`, or with an output that isn't there."""
    emit, outputs = row.get("emit").items(), node.number("outputs")
    if row.number("low") > row.number("high"):
        return graph.found(row.get("low"), f"`low` of row {index} is above its `high`, {row.number('high')}", "`low` <= `high`",
                          "exchange the two, if the row is for what lies between", notes=[graph.spot(row.get("high"), "its `high`")])
    if emit and not 0 <= (emit[0].whole() or 0) < outputs:
        label = f"row {index} gives output {emit[0].value}, and the machine has {count(outputs, 'output')}, numbered from 0"
        return graph.found(emit[0], label, f"an output from 0 to {outputs - 1}", notes=[graph.spot(node.get("outputs"), "its `outputs`")])
    return None


def malformed_name(graph: Graph, part: str, node: Node) -> Optional[Finding]:
    """A name or file name hasn't its form."""
    for _, leaf, form in graph.leaves(part, node):
        if form.pool and leaf.kind == "a text" and wrong_name(leaf, form):
            plain = re.sub(r"[^A-Za-z0-9_./-]+" if form is FILES else r"[^A-Za-z0-9_]+", "_", leaf.text())
            plain = plain if form is FILES else re.sub("^([0-9])", r"n\1", plain.strip("_"))
            good = plain.strip("_") and len(plain) <= 32 and plain != leaf.text()
            return graph.found(leaf, wrong_name(leaf, form), form.says, f'write "{plain}", and the same wherever it is named' if good else "")
    return None


def repeated(graph: Graph, part: str, node: Node) -> Finding:
    """The earlier one with the same name or pair."""
    def key(each: Node) -> Any:
        return each.get("name").text() if part == "actor" else each.text() or {item.text() for item in each.items()[:2]}

    earlier = next(each for each in graph.parts[part] if key(each) == key(node))
    this, other = (node.get("name"), earlier.get("name")) if part == "actor" else (node, earlier)
    what, better = f"{a(part, '')} of this name", "give one of the two another name, also in the wires and links that mean it"
    if part == "clock error":
        what, better = "this pair of platforms", "remove one of the two"
    return graph.found(this, f"{what} is there already", "each one once", better, notes=[graph.spot(other, "the earlier one")])


def unknown(graph: Graph, part: str, node: Node) -> Optional[Finding]:
    """The name that no platform or actor has."""
    pools = {"platform": [each.text() for each in graph.parts["platform"]], "actor": graph.names}
    for _, leaf, form in graph.leaves(part, node):
        pool = pools.get(form.pool, [leaf.value])
        if leaf.kind == "a text" and leaf.text() not in pool:
            other = next((f"; {a(what, '')} has it" for what in ("actor", "platform") if leaf.text() in pools[what]), "")
            label = f"no {form.pool} has this name{other}{near(leaf.text(), pool)}"
            return graph.found(leaf, label, f"one of {listed(pool)}" if pool else f"the graph has no {form.pool}")
    return None
