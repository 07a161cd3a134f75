"""What a report is of: the run that was asked for, and all that was collected of it."""
from __future__ import annotations

from dataclasses import dataclass, field
from pathlib import Path
from typing import Any, Mapping, NamedTuple, Optional

from ptides import commands, limits
from ptides.formulas.option import BlocksFile
from ptides.program import Refused
from ptides.reporting.series import Signal
from ptides.results import Result


class Asked(NamedTuple):
    """What to run: a graph, and over which network or by which clock. Sensor files are looked up from the folder."""

    graph: Path
    air: Optional[Path] = None
    clock: commands.Clock = "paced"
    folder: Path = Path()
    # What the user calls the graph, the air file and, by the names of the sensors, the rows, if those aren't their paths.
    name: str = ""
    air_name: str = ""
    rows_names: Mapping[str, str] = {}
    # How the user asked for it, if not by words for the program.
    call: str = ""
    claims: int = limits.USUAL_CLAIMS
    blocks: Optional[BlocksFile] = None

    @property
    def graph_name(self) -> str:
        """The graph as the user named it."""
        return self.name or str(self.graph)

    def command(self) -> str:
        """What was asked for, as a line."""
        options = commands.options_of(self.clock, None)
        words = ["run", self.graph_name, *options] if self.air is None else ["replay", self.graph_name, self.air_name or str(self.air)]
        named = ["--blocks", self.blocks.name] if self.blocks else []
        return self.call or f"$ {' '.join(['ptides', *words, *limits.words_of(self.claims), *named])}"


class File(NamedTuple):
    """A file that was read: its name, its length and its SHA-256 digest."""

    name: str
    size: int
    digest: str


@dataclass
class Gathered:
    """All that a report shows of a run. `refused` is the late row or message that ended it."""

    asked: Asked
    result: Result
    refused: Optional[Refused]
    signals: list[Signal] = field(default_factory=list)
    notes: list[str] = field(default_factory=list)
    margins: Any = ()
    timing: Optional[commands.Timing] = None
    remarks: Any = ()
    picture: str = ""
    files: list[File] = field(default_factory=list)
    version: list[str] = field(default_factory=list)
    lags: dict[str, int] = field(default_factory=dict)

    @property
    def status(self) -> int:
        """The status of the run."""
        return self.refused.status if self.refused else self.result.status

    @property
    def graph(self) -> dict[str, Any]:
        """The graph."""
        return self.result.graph
