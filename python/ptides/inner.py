"""Inner signals: what the outputs inside a graph give, by runs of the graph with probes.

What an output gives depends only on the actors from which a way leads to it. So a run that watches some outputs has these actors and
the probes alone, and there are as many runs as are needed, since the actors of a graph and the firings of a run are limited.
"""
from __future__ import annotations

from collections import Counter
from dataclasses import dataclass, field
from typing import Any, Callable, Iterable, Mapping, NamedTuple, Optional

from ptides import tables
from ptides.limits import USUAL_CLAIMS
from ptides.logs import readings_of
from ptides.probes import LIMITS, Output, all_outputs, with_probes
from ptides.program import Refused

# How many runs there are at most, and how many names a note has.
MOST_RUNS, MOST_NAMES = 12, 10
MOST_ACTORS, MOST_WIRES = LIMITS[2]
# Runs a graph and gives what the program writes; a run that can't be used raises `Refused`.
Ask = Callable[[dict[str, Any]], str]


class Value(NamedTuple):
    """A value at a tag, and the clock reading at which its platform made it, or acted on it; nothing if there is no log."""

    time: int
    step: int
    value: int
    reading: Optional[int]


@dataclass
class Inner:
    """What each output gave, and why others aren't known."""

    values: dict[Output, list[Value]] = field(default_factory=dict)
    notes: list[str] = field(default_factory=list)

    def leave_out(self, outputs: Iterable[Output], why: str) -> None:
        """Notes that these outputs aren't known."""
        names = list(dict.fromkeys(name for name, _ in outputs))
        more = f" and {len(names) - MOST_NAMES:,} more" if len(names) > MOST_NAMES else ""
        self.notes += [f"not shown, since {why}: {', '.join(names[:MOST_NAMES])}{more}"] if names else []


def inner_signals(graph: dict[str, Any], claims: Mapping[str, int], ask: Ask, *, known: Iterable[str] = (), needed: Iterable[str] = (),
                  most: int = USUAL_CLAIMS) -> Inner:
    """What each output gives, but for actors that are known already. `claims` says how often each actor fires, and `most` how often those of a
    platform may.

    Each run has the actors that are needed, and those from which a way leads to them, whatever it watches.
    """
    found, known = Inner(), set(known)
    plan = Plan(graph, claims, needed, most)
    plan.add(output for output in all_outputs(graph) if output[0] not in known)
    for group in plan.groups:
        part, probes = with_probes(only(graph, group.actors), group.outputs)
        try:
            found.values.update(watched_values(ask(part), probes))
        except Refused as refused:
            found.leave_out(group.outputs, f"the run that watches them ends with `{refused.line or f'status {refused.status}'}`")
    found.leave_out(plan.too_long, "a run that watches them would be too long, or its graph too large")
    found.leave_out(plan.too_many, f"{MOST_RUNS} runs watch others already")
    return found


def watched_values(output: str, probes: Mapping[str, Output]) -> dict[Output, list[Value]]:
    """What actuators gave, each under the output that it is for. An actuator has an event at each of its claims."""
    table, log = tables.parts_of(output)
    events, readings = tables.events_of(table), readings_of(log, probes)
    found = {}
    for name, place in probes.items():
        mine = events.pop(name, [])
        read = readings.pop(name, []) if log else [None] * len(mine)
        found[place] = [Value(*event, reading) for event, reading in zip(mine, read)]
    return found


# ---- which outputs are watched together ---------------------------------------------------------------------------------


def sources_of(graph: Mapping[str, Any]) -> dict[str, set[str]]:
    """Each actor with all from which a way leads to it, over wires and links, and itself."""
    before: dict[str, set[str]] = {actor["name"]: set() for actor in graph["actors"]}
    for source, _, target, _ in graph["wires"]:
        before[target].add(source)
    for link in graph["links"]:
        before[link["to"]].add(link["from"])
    found = {}
    for name in before:
        reached, waiting = {name}, [name]
        while waiting:
            new = before[waiting.pop()] - reached
            reached |= new
            waiting += new
        found[name] = reached
    return found


def only(graph: Mapping[str, Any], actors: set[str]) -> dict[str, Any]:
    """The graph with these actors alone."""
    return {**graph, "actors": [actor for actor in graph["actors"] if actor["name"] in actors],
            "wires": [wire for wire in graph["wires"] if wire[2] in actors], "links": [link for link in graph["links"] if link["to"] in actors]}


@dataclass
class Group:
    """Outputs that are watched by one run, and the actors that it needs."""

    outputs: list[Output]
    actors: set[str]


class Plan:
    """The outputs in groups, a run for each, and those that are in none."""

    def __init__(self, graph: Mapping[str, Any], claims: Mapping[str, int], needed: Iterable[str], most: int):
        self.groups: list[Group] = []
        self.too_long: list[Output] = []
        self.too_many: list[Output] = []
        self.sources, self.claims, self.most = sources_of(graph), claims, most
        self.platforms = {actor["name"]: actor["platform"] for actor in graph["actors"]}
        self.wires = Counter(wire[2] for wire in graph["wires"])
        self.needed = set().union(*(self.sources[name] for name in needed))

    def add(self, outputs: Iterable[Output]) -> None:
        """Puts each output into the first group with room for it, or into a new one."""
        for output in outputs:
            for group in [*self.groups, Group([], self.needed)]:
                more = Group([*group.outputs, output], group.actors | self.sources[output[0]])
                if self.fits(more):
                    self.put(group, more)
                    break
            else:
                self.too_long.append(output)

    def put(self, group: Group, more: Group) -> None:
        """Makes a group larger; one that is new needs a run."""
        if not group.outputs and len(self.groups) == MOST_RUNS:
            self.too_many += more.outputs
            return
        self.groups += [] if group.outputs else [group]
        group.outputs, group.actors = more.outputs, more.actors

    def fits(self, group: Group) -> bool:
        """Whether a group fits into a run. A probe fires as often as its actor."""
        probes = len(group.outputs)
        if len(group.actors) + probes > MOST_ACTORS or sum(self.wires[name] for name in group.actors) + probes > MOST_WIRES:
            return False
        firings: Counter[str] = Counter()
        for name in [*group.actors, *(name for name, _ in group.outputs)]:
            firings[self.platforms[name]] += self.claims.get(name, 0)
        return max(firings.values(), default=0) <= self.most
