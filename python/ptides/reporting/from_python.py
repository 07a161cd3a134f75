"""`ptides.report`: the page of a run that a program asks for, with what it has as a graph, as sensors and as a network."""
from __future__ import annotations

import os
from contextlib import nullcontext
from pathlib import Path
from typing import Any, Mapping, Optional, Union

from ptides import commands, files, limits
from ptides.formulas.option import blocks_file
from ptides.graphs import Changes, Graph, Placed, placed
from ptides.program import Fault
from ptides.reporting.command import write_page
from ptides.reporting.gather import gather
from ptides.reporting.gathered import Asked
from ptides.reporting.page import page
from ptides.reporting.stamps import zero_as_shown
from ptides.sensors import name_of

PathLike = Union[str, os.PathLike]


def text_of(data: Any) -> str:
    """Something as Python has it; what isn't short is named by its type."""
    if isinstance(data, os.PathLike):
        return repr(os.fspath(data))
    return repr(data) if isinstance(data, (str, int, tuple)) else f"<{name_of(data)}>"


def call_of(graph: Graph, file: PathLike, options: Mapping[str, Any]) -> str:
    """The call, as on the prompt of Python."""
    words = [text_of(graph), text_of(file), *(f"{name}={text_of(value)}" for name, value in options.items())]
    return f">>> ptides.report({', '.join(words)})"


def asked_of(graph: Graph, ready: Placed, air: Any, air_path: Optional[str], how: commands.How, call: str) -> Asked:
    """What was asked for, by the names of the user."""
    name = str(ready.origin) if ready.origin else f"graph ({name_of(graph)})"
    air_file = None if air_path is None else Path(air_path)
    air_name = "" if air is None else name_of(air)
    return Asked(ready.folder / ready.word, air_file, how.clock, ready.folder, name, air_name, ready.rows_names, call, how.claims, how.blocks)


def write_report(graph: Graph, file: PathLike, air: Any, how: commands.How, changes: Changes, title: str, folder: Optional[PathLike]) -> int:
    """Runs a graph, or replays it over the recorded network `air`, and writes the page. Gives the status of the run."""
    if air is not None and how.clock != "paced":
        raise Fault("a replay takes no clock: its clocks are those of the recording")
    claims = None if how.claims == limits.USUAL_CLAIMS else how.claims
    options = {"air": air, "clock": None if how.clock == "paced" else how.clock, "claims": claims, "blocks": how.blocks, "until": changes.until, "zero": changes.zero,
               "folder": folder, **changes.sensors}
    call = call_of(graph, file, {name: value for name, value in options.items() if value is not None})
    network = nullcontext(None) if air is None else files.air_file(air)
    with placed(graph, folder, changes) as ready, network as path, blocks_file(how.blocks) as blocks:
        asked = asked_of(graph, ready, air, path, how._replace(blocks=blocks), call)
        found = gather(asked)
        write_page(file, page(found, title or asked.graph_name, zero_as_shown(ready.zero)), found)
    return found.status
