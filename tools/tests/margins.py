"""Offsets, margins and slacks of a graph, worked out from docs/TIMING.md and not by ptides."""
import types

import testers

MOST = 10**15
random_graph = testers.module("make-random-graph")


class Numbers:
    """The numbers of a graph, as its file gives it. Where `slacks` of senders are given they count instead of its own."""

    def __init__(self, graph):
        self.graph, self.actors = graph, {actor["name"]: actor for actor in graph["actors"]}
        pairs = {frozenset(entry[:2]): entry[2] for entry in graph.get("clock_errors", [])}
        self.wiring = types.SimpleNamespace(wires=graph["wires"], pairs=pairs, clock_error=graph["clock_error"])
        self.senders = [actor["name"] for actor in graph["actors"] if actor["kind"] == "send"]
        self.actuators = [actor["name"] for actor in graph["actors"] if actor["kind"] == "actuator"]

    def bounds(self, slacks=None):
        """The bound of each receiver."""
        actors = {name: {**actor, "slack": slacks[name]} if slacks and name in slacks else actor for name, actor in self.actors.items()}
        return {link["to"]: random_graph.bound_of(self.wiring, actors, link) for link in self.graph["links"]}

    def unit_offsets(self, slacks=None):
        """The offset of each unit that has one, by the name of its actor and the number of its cell, 0 if that isn't `lanes`."""
        bounds = {actor["name"]: actor["bound"] for actor in self.graph["actors"] if actor["kind"] == "sensor"}
        return random_graph.offsets(self.wiring, self.actors, {**bounds, **self.bounds(slacks)})

    def offsets(self, slacks=None):
        """The offset of each actor that has one: the greatest of its units."""
        found = {}
        for (name, _), offset in self.unit_offsets(slacks).items():
            found[name] = max(offset, found.get(name, offset))
        return found

    def margins(self):
        """What `check` writes."""
        offsets, lines = self.offsets(), ["actor,offset,margin\n"]
        for actor in self.graph["actors"]:
            offset = offsets.get(actor["name"])
            margin = "-" if offset is None or "slack" not in actor else actor["slack"] - (offset + 1)
            lines.append(f"{actor['name']},{'-' if offset is None else offset},{margin}\n")
        return "".join(lines)

    def least_slacks(self):
        """The least slacks of senders, and those that actuators then need; none if the senders form a ring that has no slacks."""
        slacks = dict.fromkeys(self.senders, 0)
        for _ in range(len(self.senders) + 2):
            offsets = self.offsets(slacks)
            needed = {name: max(0, offsets.get(name, -1) + 1) for name in self.senders}
            if needed == slacks:
                every = {**slacks, **{name: max(0, offsets.get(name, -1) + 1) for name in self.actuators}}
                return {actor["name"]: every[actor["name"]] for actor in self.graph["actors"] if actor["name"] in every}
            slacks = needed
        return None

    def infeasible(self, slacks):
        """The line on the first sender that can't send within these slacks; none if each can."""
        offsets = self.offsets(slacks)
        for name in self.senders:
            if name in offsets and offsets[name] >= slacks[name]:
                return f"graph: infeasible {name}, offset {offsets[name]}, slack {slacks[name]}\n"
        return None
