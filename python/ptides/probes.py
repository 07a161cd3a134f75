"""A graph with more actuators, called probes, that show what its outputs give. They change nothing for the other actors."""
from __future__ import annotations

from typing import Any, Iterable, Iterator

# The greatest slack there is: a probe is never missed.
SLACK = 10**15
# How many actors and wires a graph of versions 1 and 2 may have.
LIMITS = {1: (256, 1024), 2: (1024, 4096)}
# An actor and the number of its output.
Output = tuple[str, int]


def outputs_of(actor: dict[str, Any]) -> int:
    """How many outputs an actor has."""
    special = {"send": 0, "actuator": 0, "machine": actor.get("outputs", 0), "lanes": len(actor.get("cells", []))}
    return special.get(actor["kind"], 1)


def all_outputs(graph: dict[str, Any]) -> Iterator[Output]:
    """Each output of each actor."""
    for actor in graph["actors"]:
        yield from ((actor["name"], output) for output in range(outputs_of(actor)))


def with_probes(graph: dict[str, Any], outputs: Iterable[Output]) -> tuple[dict[str, Any], dict[str, Output]]:
    """The graph, as one of version 2, with a probe on each of these outputs, and which output each probe is on."""
    platforms = {actor["name"]: actor["platform"] for actor in graph["actors"]}
    free = (name for name in (f"probe_{number}" for number in range(10**6)) if name not in platforms)
    probes = {next(free): output for output in outputs}
    actors = [{"name": name, "platform": platforms[of], "kind": "actuator", "slack": SLACK} for name, (of, _) in probes.items()]
    wires = [[of, output, name, 0] for name, (of, output) in probes.items()]
    second = {"ptides": 2, "clock_errors": graph.get("clock_errors", [])}
    return {**graph, **second, "actors": graph["actors"] + actors, "wires": graph["wires"] + wires}, probes


def fits(graph: dict[str, Any], version: int = 2) -> bool:
    """Whether a graph of that version may have as many actors and wires."""
    return len(graph["actors"]) <= LIMITS[version][0] and len(graph["wires"]) <= LIMITS[version][1]
