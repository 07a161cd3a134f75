"""A run with what each output gave: the values of actuators from the tables, all readings from the log, inner signals by probes."""
from __future__ import annotations

import json
from collections import Counter
from dataclasses import dataclass, field
from fractions import Fraction
from functools import cached_property
from typing import Any, Iterator, Optional

from ptides import limits, probes, program
from ptides.inner import Value, inner_signals, watched_values
from ptides.logs import Entry, entries_of
from ptides.misses import Miss, misses_of
from ptides.probes import Output
from ptides.tables import parts_of


@dataclass
class Command:
    """What is run: the words before and after the graph, the text of the graph, how many claims a platform may make, and the words that name its blocks."""

    text: str
    words: list[str] = field(default_factory=lambda: ["run"])
    rest: list[str] = field(default_factory=list)
    own_clock: bool = False
    claims: int = limits.USUAL_CLAIMS
    blocks: list[str] = field(default_factory=list)

    def run(self, text: str) -> program.Done:
        """Runs this command on the text of a graph, in the current folder; a run that doesn't end raises `Refused`."""
        return program.ask([*self.words, "/dev/stdin", *self.rest, *limits.words_of(self.claims), *self.blocks, "--log"], accepted=(0, 5), given=text)


@dataclass
class Recording:
    """A run: its graph, what each output gave (number 0 for actuators and senders), the lines of the log, and what was missed."""

    graph: dict[str, Any]
    values: dict[Output, list[Value]] = field(default_factory=dict)
    entries: list[Entry] = field(default_factory=list)
    misses: list[Miss] = field(default_factory=list)
    zero: Optional[Fraction] = None

    def actors(self) -> Iterator[dict[str, Any]]:
        """The actors, platform after platform."""
        for platform in self.graph["platforms"]:
            yield from (actor for actor in self.graph["actors"] if actor["platform"] == platform)

    @cached_property
    def missed(self) -> set[tuple[str, int, int]]:
        """The actor, time and step of each event that was missed."""
        return {(miss.actor, miss.time, miss.step) for miss in self.misses}

    @cached_property
    def logged(self) -> dict[tuple[str, str], list[Entry]]:
        """The entries by what they are and whose they are."""
        found: dict[tuple[str, str], list[Entry]] = {}
        for entry in self.entries:
            found.setdefault((entry.what, entry.actor), []).append(entry)
        return found

    def outputs(self) -> Iterator[tuple[dict[str, Any], int, tuple[str, ...]]]:
        """Each actor with each of its outputs (actuators and senders have one of their own) and the names of the signal."""
        for actor in self.actors():
            count = probes.outputs_of(actor)
            for output in range(max(count, 1)):
                several = () if count <= 1 else (f"out{output}",)
                yield actor, output, (actor["platform"], actor["name"], *several)

    def part(self, first: Optional[int], last: Optional[int]) -> "Recording":
        """What happened from one time to another: what has its time, its reading or its `seen` there."""
        if first is None and last is None:
            return self

        def is_in(*times: Optional[int]) -> bool:
            return any(time is not None and (first is None or time >= first) and (last is None or time <= last) for time in times)

        values = {output: [value for value in found if is_in(value.time, value.reading)] for output, found in self.values.items()}
        entries = [entry for entry in self.entries if is_in(entry.time, entry.reading, entry.seen)]
        return Recording(self.graph, values, entries, [miss for miss in self.misses if is_in(miss.time, miss.reading)], self.zero)


def take(recording: Recording, done: program.Done, outputs: dict[str, Output]) -> None:
    """Takes what a run gave as the recording; the entries of probes are left out."""
    actuators = {actor["name"]: (actor["name"], 0) for actor in recording.actors() if actor["kind"] == "actuator"}
    recording.values.update(watched_values(done.output, {**actuators, **outputs}))
    recording.entries = [entry for entry in entries_of(parts_of(done.output)[1]) if entry.actor not in outputs]
    recording.misses = misses_of(done.notes)
    for entry in recording.entries:
        if entry.what == "sent":
            recording.values.setdefault((entry.actor, 0), []).append(Value(entry.time, entry.step, entry.value, entry.reading))


def record(command: Command, inner: bool) -> tuple[Recording, str, int]:
    """Runs the graph; also gives notes, those of the run first, and the status.

    By the paced clock inner signals come from further runs, of the same graph with probes. Two runs by clocks of their own may have other
    readings, so then all comes from one run, of the graph with probes.
    """
    recording, notes = Recording(json_of(command)), []
    if inner and command.own_clock:
        done, notes = run_with_probes(command, recording)
        if done:
            return recording, done.notes, done.status
    done = command.run(command.text)
    take(recording, done, {})
    if inner and not command.own_clock:
        notes = add_inner(command, recording)
    return recording, done.notes + "".join(f"{note}\n" for note in notes), done.status


def run_with_probes(command: Command, recording: Recording) -> tuple[Optional[program.Done], list[str]]:
    """Takes a run of the graph with a probe on each output; or gives nothing and a note, if there is no such run."""
    try:
        watched, outputs = probes.with_probes(recording.graph, probes.all_outputs(recording.graph))
    except (LookupError, TypeError, AttributeError):
        return None, []
    if not probes.fits(watched):
        return None, ["no inner signals: with an actuator on each output the graph is too large"]
    try:
        done = command.run(text_of(watched))
    except program.Refused as refused:
        return None, [f"no inner signals: with an actuator on each output the run ends with `{refused.line or f'status {refused.status}'}`"]
    take(recording, done, outputs)
    return done, []


def json_of(command: Command) -> dict[str, Any]:
    """The graph. One that can't be read has no platforms and no actors: the program then refuses it."""
    try:
        graph = json.loads(command.text)
        return graph if isinstance(graph, dict) and isinstance(graph.get("actors"), list) else {"platforms": [], "actors": [], "wires": []}
    except (ValueError, RecursionError):
        return {"platforms": [], "actors": [], "wires": []}


def text_of(graph: dict[str, Any]) -> str:
    """The graph as text."""
    return json.dumps(graph, separators=(",", ":"))


def add_inner(command: Command, recording: Recording) -> list[str]:
    """Adds the inner signals; gives notes of those that are left out."""
    claims = Counter(entry.actor for entry in recording.entries if entry.what == "claim")
    # The file of a network has all links.
    needed = [link["to"] for link in recording.graph["links"] if command.words[0] == "replay"]
    found = inner_signals(recording.graph, claims, lambda graph: command.run(text_of(graph)).output, needed=needed, most=command.claims)
    recording.values.update(found.values)
    return found.notes
