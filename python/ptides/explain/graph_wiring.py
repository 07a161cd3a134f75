"""Faults of wires and links."""
from __future__ import annotations

from typing import Optional

from ptides.explain.findings import Finding, a, count
from ptides.explain.graph import Graph
from ptides.explain.json_text import Node
from ptides.formulas.file import Formula


def wire_end(graph: Graph, _: str, node: Node) -> Optional[Finding]:
    """The output or input that the actor doesn't have."""
    for end, port, side, word in ((*node.items()[:2], 1, "output"), (*node.items()[2:], 0, "input")):
        actor = graph.actor(end.text())
        has = graph.ports(actor)[side]
        if (port.whole() or 0) >= has:
            numbers = "" if has == 0 else ", number 0" if has == 1 else f", numbers 0 to {has - 1}"
            label = f"`{end.text()}` is {a(graph.kind(end.text()))} and has {count(has, word)}{numbers}"
            back = "" if has else "is the wire written backwards? It is [actor, output, actor, input]"
            expected = f"an {word} below {has}" if has else f"an actor with an {word}"
            return graph.found(port if has else end, label, expected, back, notes=[graph.spot(actor, "this actor")])
    return None


def cross_wire(graph: Graph, _: str, node: Node) -> Finding:
    """The platforms of the two ends."""
    names = [item.text() for item in node.items()[::2]]
    label = " and ".join(f"`{each}` is on `{graph.place(each).text()}`" for each in names)
    return graph.found(node, label, "both ends on one platform", notes=graph.places(names),
                      better="from platform to platform: wire to a `send` on the one, from a `receive` on the other, and link the two")


def fed_twice(graph: Graph, _: str, node: Node) -> Finding:
    """The earlier wire to the input."""
    to, port = graph.wired[graph.wires.index(node)][2:]
    ends = [wire[2:] for wire in graph.wired]
    earlier = ends.index((to, port))
    free = [number for number in range(graph.ports(graph.actor(to))[0]) if (to, number) not in ends]
    better = f"did you mean input {free[0]}, which has no wire?" if free else "join them first: by a `merge` (one of them) or an `add` (both)"
    return graph.found(node, f"input {port} of `{to}` is fed by wire {earlier} already", "one wire to each input", better,
                      notes=[graph.spot(graph.wires[earlier], f"wire {earlier}")])


def unfed(graph: Graph, index: int, port: int) -> Finding:
    """The input without a wire, and an output that might feed it."""
    actor, to = graph.actors[index], graph.names[index]
    here = [(other, number) for other, each in zip(graph.names, graph.actors) for number in range(graph.ports(each)[1])
            if other != to and graph.place(other).text() == graph.place(to).text()]
    free = [each for each in here if each not in [wire[:2] for wire in graph.wired]]
    formula = graph.formulas.get(actor.get("block").text())
    if formula and "ab"[port] not in formula.inputs:
        return unused(graph, actor, formula, port)
    source, output = (free or here or [("SOURCE", 0)])[0]
    why = f"output {output} of `{source}` leads nowhere yet" if free else "or from what is meant"
    label = f"input {port} of `{to}` has no wire: {a(graph.kind(to))} has {count(graph.ports(actor)[0], 'input')}"
    better = f'add ["{source}",{output},"{to}",{port}] to "wires": {why}'
    return graph.found(actor.get("name"), label, "exactly one wire to each input", better)


def unused(graph: Graph, actor: Node, formula: Formula, port: int) -> Finding:
    """An input without a wire that the formula of its block doesn't use: the other input's source may feed it too."""
    to, name = actor.get("name").text(), "ab"[port]
    feeding = next((wire[:2] for wire in graph.wired if wire[2:] == (to, 1 - port)), ("SOURCE", 0))
    label = f"input {port} of `{to}` has no wire: a `block` has 2 inputs"
    better = f'add ["{feeding[0]}",{feeding[1]},"{to}",{port}] to "wires": `{formula.name}` doesn\'t use {name}, so let one output feed both inputs'
    return graph.found(actor.get("name"), label, "exactly one wire to each input", better)


def link_end(graph: Graph, part: str, node: Node) -> Finding:
    """An end of another kind, one platform, or not exactly one link."""
    if part == "actor":
        this, kind = node.get("name").text(), node.get("kind").text()
        links = [graph.spot(link, "one of them") for link, ends in zip(graph.links, graph.linked) if this in ends]
        ends = f'"from":"{this}","to":"RECEIVE"' if kind == "send" else f'"from":"SEND","to":"{this}"'
        better = "use a `send` for each" if kind == "send" else "use a `receive` for each, and join them by a `merge`"
        return graph.found(node.get("name"), f"{a(kind)} has exactly one link, and this has {len(links) or 'none'}", "exactly one link",
                          better if links else f'add {{{ends},"delay":TIME}} to "links"', notes=links)
    names, expected = [node.get(key).text() for key in ("from", "to")], "a link leads from a `send` to a `receive` on another platform"
    if [graph.kind(each) for each in names] == ["receive", "send"]:
        return graph.found(node, "this link leads from a `receive` to a `send`", expected, "exchange `from` and `to`")
    for key, end, wanted in zip(("from", "to"), names, ("send", "receive")):
        if graph.kind(end) != wanted:
            label = f"`{end}` is {a(graph.kind(end))}, and not {a(wanted)}"
            return graph.found(node.get(key), label, expected, notes=[graph.spot(graph.actor(end), "this actor")])
    return graph.found(node, f"both ends are on `{graph.place(names[0]).text()}`", expected, notes=graph.places(names),
                      better="on one platform a wire is enough, without `send` and `receive`")
