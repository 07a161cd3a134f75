"""Collects what the report of a run shows: what each part of the graph did, how late, by how much, and what was run."""
from __future__ import annotations

from typing import Any

from ptides import commands
from ptides.formulas.option import words_of
from ptides.inner import Value, inner_signals
from ptides.probes import Output
from ptides.program import Refused
from ptides.reporting.gathered import Asked, Gathered
from ptides.reporting.logged import Seen, read_log
from ptides.reporting.sources import files_of, picture, versions
from ptides.reporting.trends import network, readings, rooms, trends
from ptides.results import Result


def how_of(asked: Asked) -> dict[str, Any]:
    """How the graph is run each time."""
    return {"claims": asked.claims, "blocks": asked.blocks, "folder": asked.folder}


def run(asked: Asked) -> Result:
    """Runs what was asked for."""
    if asked.air is not None:
        return commands.replay(asked.graph, asked.air, **how_of(asked))
    return commands.run(asked.graph, clock=asked.clock, **how_of(asked))


def gather(asked: Asked, whole: bool = True) -> Gathered:
    """Runs the graph and collects. A late row or message ends the run: then the values are those of the meaning.

    Without `whole` it leaves out what is of the graph and not of the run.
    """
    refused, seen = None, Seen()
    try:
        result = run(asked)
    except Refused as fault:
        if fault.status != 4:
            raise
        refused, result = fault, commands.meaning(asked.graph, **how_of(asked))
    else:
        seen = read_log(result.entries())
    found = Gathered(asked, result, refused)
    inner = watched(found, seen)
    found.signals = [*trends(found, seen, inner), *rooms(found, seen), *readings(found, seen), *network(found, seen, inner)]
    found.files = list(files_of(found))
    if whole:
        add_graph(found)
    return found


def add_graph(found: Gathered) -> None:
    """What is of the graph alone: margins, growth, warnings and the picture."""
    graph, blocks = found.asked.graph, found.asked.blocks
    found.margins, found.timing = commands.check(graph, blocks=blocks), commands.timing(graph, blocks=blocks)
    try:
        found.remarks = commands.lint(graph, **how_of(found.asked))
    except Refused as fault:
        found.notes.append(f"No warnings were looked for: {fault.line}")
    found.picture, note = picture(graph, words_of(blocks))
    found.notes += [note] if note else []
    found.version = versions()


def watched(found: Gathered, seen: Seen) -> dict[Output, list[Value]]:
    """What each output gives; notes name those that can't be watched. What is given doesn't depend on clocks and the network."""
    def ask(graph: dict[str, Any]) -> str:
        how = how_of(found.asked)
        return (commands.meaning(graph, **how) if found.refused else commands.run(graph, log=False, **how)).output

    # The rows of sensors are in the log.
    inner = inner_signals(found.graph, seen.claims, ask, known=seen.rows, most=found.asked.claims)
    found.notes += [f"{note[0].upper()}{note[1:]}." for note in inner.notes]
    return inner.values
