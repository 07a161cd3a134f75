"""A graph as Python has it, the path of a file or a dict, made ready to run: with other sensor files, another horizon, probes."""
from __future__ import annotations

import copy
import json
import os
import re
import tempfile
from contextlib import contextmanager
from dataclasses import dataclass, field
from operator import index
from pathlib import Path
from typing import Any, Iterable, Iterator, Mapping, Optional, Union

from ptides import probes, sensors, times
from ptides.companion import read
from ptides.probes import Output
from ptides.program import Fault

Graph = Union[str, os.PathLike, Mapping[str, Any]]
# The name of the graph in a folder.
USUAL = "graph.json"
# What is raised by a text that is no graph. The program says why it is none.
NO_GRAPH = (ValueError, LookupError, TypeError, AttributeError, RecursionError)
NAME = re.compile("[A-Za-z][A-Za-z0-9_]*")


@dataclass
class Changes:
    """What is to be changed in a graph before it runs."""

    sensors: Mapping[str, Any] = field(default_factory=dict)
    zero: Any = None
    until: Any = None
    # The actors whose outputs are watched; `True` is all of them.
    probes: Union[bool, Iterable[str]] = ()

    def __bool__(self) -> bool:
        return bool(self.sensors or self.probes) or self.until is not None


@dataclass
class Placed:
    """A graph that is ready: the folder to run in, the word that names the graph, its text, the zero of its times, its probes.

    `home` is the folder from which the sensor files are looked up, and `origin` the file that the user knows, if the graph has one. If
    the graph was changed, `rows_names` says what the user calls the rows of each sensor.
    """

    folder: Path
    word: str
    text: bytes
    home: Path
    zero: Any = None
    probes: dict[str, Output] = field(default_factory=dict)
    origin: Optional[Path] = None
    rows_names: Mapping[str, str] = field(default_factory=dict)

    @property
    def graph(self) -> dict[str, Any]:
        """The graph; only one that the program takes is sure to have all members."""
        return json.loads(self.text)


def text_of(graph: Mapping[str, Any]) -> str:
    """A graph as text, with a line for each entry of an array. Whole numbers may be of any kind, as those of numpy."""
    parts = []
    for key, value in graph.items():
        entries = ",\n  ".join(coded(entry) for entry in value) if isinstance(value, list) else ""
        parts.append(f"{json.dumps(key)}:" + (f"[\n  {entries}]" if entries else coded(value)))
    return "{" + ",\n ".join(parts) + "}\n"


def coded(value: Any) -> str:
    """A part of a graph as JSON."""
    try:
        return json.dumps(value, separators=(",", ":"), default=index)
    except (TypeError, ValueError) as fault:
        raise Fault(f"graph: {fault}") from fault


def file_of(graph: Union[str, os.PathLike]) -> Path:
    """The file of a graph: the path, or `graph.json` in the folder that it names."""
    if not isinstance(graph, (str, os.PathLike)):
        raise Fault(f"graph: {type(graph).__name__} is no path, and no dict")
    path = Path(graph)
    return path / USUAL if path.is_dir() else path


def is_lasting(path: Path) -> bool:
    """Whether the program can read the file again. A pipe can be read only once, and a device may be another one there."""
    return path.is_file() and not str(path).startswith(("/dev/", "/proc/"))


def word_of(path: Path, home: Path) -> str:
    """The path as seen from a folder, as a word that is no option."""
    word = os.path.relpath(os.path.abspath(path), home)
    return f"./{word}" if word.startswith("-") else word


@contextmanager
def placed(graph: Graph, folder: Optional[Union[str, os.PathLike]], changes: Changes) -> Iterator[Placed]:
    """The graph, ready to run.

    One that is a file and isn't changed runs where its sensor files are: in `folder`, or else in its own folder. Otherwise it is
    written into a folder of its own, which is removed afterwards, with links to the sensor files.
    """
    path = None if isinstance(graph, Mapping) else file_of(graph)
    home = home_of(folder, path)
    text = text_of(graph).encode() if path is None else read(path)
    if path is not None and is_lasting(path) and not changes:
        yield Placed(home, word_of(path, home), text, home, zero_of(text, home, changes), origin=path)
        return
    with tempfile.TemporaryDirectory(prefix="ptides-") as work:
        yield changed(Path(work), home, text, changes, path)


def home_of(folder: Optional[Union[str, os.PathLike]], path: Optional[Path]) -> Path:
    """From where sensor files are looked up: the folder that is named, else that of the graph's file, else the current one."""
    if folder is None:
        return Path(os.path.abspath(path.parent if path else "."))
    if not isinstance(folder, (str, os.PathLike)) or not os.path.isdir(folder):
        raise Fault(f"folder: {folder} is no folder")
    return Path(os.path.abspath(folder))


def zero_of(text: bytes, home: Path, changes: Changes) -> Any:
    """The zero of the times of a graph."""
    try:
        recorded = sensors.recorded_zero(json.loads(text), home, changes.sensors)
    except NO_GRAPH:
        recorded = None
    return sensors.common_zero(changes.sensors, changes.zero, recorded)


def changed(work: Path, home: Path, text: bytes, changes: Changes, origin: Optional[Path]) -> Placed:
    """Writes the changed graph and the files of its sensors into a folder."""
    zero = zero_of(text, home, changes)
    probed: dict[str, Output] = {}
    names: dict[str, str] = {}
    try:
        graph = copy.deepcopy(json.loads(text))
        names = place_sensors(graph, work, home, changes.sensors, zero)
    except NO_GRAPH:
        pass
    else:
        if changes.until is not None:
            graph["until"] = times.microseconds(changes.until, zero, "until")
            if graph["until"] < 0:
                raise Fault(f"until: {changes.until} is below 0")
        if changes.probes:
            graph, probed = probes.with_probes(graph, watched(graph, changes.probes))
        text = text_of(graph).encode()
    (work / USUAL).write_bytes(text)
    return Placed(work, USUAL, text, home, zero, probed, origin, names)


def place_sensors(graph: dict[str, Any], work: Path, home: Path, given: Mapping[str, Any], zero: Any) -> dict[str, str]:
    """Gives each sensor a file in the folder: the data that is given for it, or a link to the file that the graph names.

    What the user calls the rows of each is the file, or the type of the data.
    """
    actors = [actor for actor in graph["actors"] if actor["kind"] == "sensor"]
    names = [actor["name"] for actor in actors]
    if len(set(names)) < len(names) or not all(map(NAME.fullmatch, names)):
        raise ValueError("the names are those of no graph")
    for name in given:
        if name not in names:
            raise Fault(f"the graph has no sensor {name}, but {', '.join(names) or 'none'}")
    called = {}
    for actor in actors:
        data = given.get(actor["name"])
        actor["file"], file = f"{actor['name']}.csv", actor["file"]
        called[actor["name"]] = file if data is None else sensors.name_of(data)
        if data is None:
            (work / actor["file"]).symlink_to(home / file)
        else:
            sensors.write(actor["name"], data, work / actor["file"], zero)
    return called


def watched(graph: dict[str, Any], chosen: Union[bool, Iterable[str]]) -> list[Output]:
    """The outputs of the actors chosen, or of all."""
    outputs = list(probes.all_outputs(graph))
    if chosen is True:
        return outputs
    if not isinstance(chosen, Iterable):
        raise Fault(f"probes: {chosen!r} is no list of actors, and not True")
    names = [chosen] if isinstance(chosen, str) else list(chosen)
    for name in names:
        if name not in {of for of, _ in outputs}:
            raise Fault(f"the graph has no actor {name} with an output")
    return [output for output in outputs if output[0] in names]
