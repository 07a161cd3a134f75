"""Which fault a line of the program names."""
from __future__ import annotations

import re
from typing import Optional

from ptides import limits
from ptides.explain import graph_form, graph_timing, graph_wiring
from ptides.explain.airs import air_fault
from ptides.explain.blocks import blocks_fault, no_block
from ptides.explain.command_line import read_fault, usage
from ptides.explain.findings import Finding, Source, Spot, bytes_of, report
from ptides.explain.graph import Graph
from ptides.explain.json_text import read_json
from ptides.explain.logs import log_fault
from ptides.explain.tables import sensor_fault
from ptides.program import Fault

# What finds a fault at a place, by the words of `graph: WORDS at PLACE`.
AT_PLACES = {"member": graph_form.member, "range": graph_form.out_of_range, "name": graph_form.malformed_name, "repeated": graph_form.repeated,
             "unknown": graph_form.unknown, "wire end": graph_wiring.wire_end, "cross wire": graph_wiring.cross_wire,
             "fed twice": graph_wiring.fed_twice, "link end": graph_wiring.link_end}


def too_long(source: Source, data: bytes) -> Finding:
    """A graph of too many bytes, and how many it would have without spaces."""
    spaces = len(re.sub(r'("(?:[^"\\]|\\.)*")|\s+', r"\1", source.text).encode())
    better = f"without the spaces between its parts it has {spaces:,} bytes" if spaces <= 1_048_576 else "use fewer actors, or shorter names"
    at = len(data[:1_048_576].decode("utf-8", errors="ignore"))
    return Finding(Spot(source, at, at + 1, f"past the limit: the file has {bytes_of(data)}"), "at most 1,048,576 bytes", [better])


def finding_of(line: str, notes: list[str], words: list[str], path: str, data: bytes) -> Optional[Finding]:
    """What the line means, or nothing if that isn't known."""
    if line.startswith("blocks: ") or line == "read fault: blocks":
        return blocks_fault(line, words, path)
    source = Source(path, data.decode("utf-8", errors="replace"))
    plain = {"write fault": "the output couldn't be written in full: is the disk full, or did its reader end?", "memory": "memory ran out"}
    if line in plain:
        return Finding(None, "", [plain[line]])
    if line.startswith("usage: ") or line == "read fault: graph":
        return usage(words) if line.startswith("usage: ") else read_fault(None, words, path, "")
    if line.startswith("unlawful: ") or line == "read fault: log":
        return log_fault(line, words, data)
    root = too_long(source, data) if line == "graph: too long" else read_json(source, data)
    if isinstance(root, Finding):
        return root
    graph = Graph(source, root, words)
    if line.startswith("air: ") or line == "read fault: air" or re.fullmatch("late .*, air row [0-9]+", line):
        return air_fault(graph, line, words)
    if re.match(r"sensor \w+: |late \w+ row ", line):
        return sensor_fault(graph, line, limits.claims_in(words))
    return graph_fault(graph, notes, words, path)


def graph_fault(graph: Graph, notes: list[str], words: list[str], path: str) -> Optional[Finding]:
    """What a line on the graph or on its run means."""
    line, last = notes[0], notes[0].split()[-1]
    place = re.fullmatch(r"graph: ([a-z ]+) at (top|platform|actor|wire|link|clock error)(?: (\d+))?", line)
    if place:
        node = graph.root if place[2] == "top" else graph.parts[place[2]][int(place[3])]
        if place[1] == "block":
            return no_block(graph, node, words)
        return AT_PLACES[place[1]](graph, place[2], node)
    others = [("graph: too many ", lambda: graph_form.too_many(graph, line[16:])),
              ("graph: unfed ", lambda: graph_wiring.unfed(graph, int(line.split()[3]), int(last))),
              ("graph: cycle ", lambda: graph_timing.cycle(graph, line)), ("graph: infeasible ", lambda: graph_timing.infeasible(graph, line)),
              ("graph: ring ", lambda: graph_timing.ring(graph, line)), ("missed ", lambda: graph_timing.missed(graph, notes)),
              ("late ", lambda: graph_timing.late_message(graph, line, words)), ("long ", lambda: graph_timing.long(graph, last, words)),
              ("read fault: sensor ", lambda: read_fault(graph, words, path, last))]
    find = next((find for start, find in others if line.startswith(start)), None)
    return find() if find else None


def explain(notes: list[str], words: list[str], path: str, data: Optional[bytes]) -> str:
    """The explanation of a line. If the files don't fit it, the line alone."""
    unknown = Finding(None, "", ["the files don't have this fault now, or this tool doesn't know it; docs/FORMATS.md lists all"])
    try:
        return report(notes[0], finding_of(notes[0], notes, words, path, data or b"") or unknown)
    except (LookupError, ValueError, StopIteration, AttributeError, TypeError, OSError, Fault):
        return report(notes[0], unknown)
