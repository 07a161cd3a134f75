"""`ptides report`: the words, and the file that is written."""
from __future__ import annotations

import json
import os
from contextlib import contextmanager
from functools import partial
from pathlib import Path
from typing import Any, Callable, Iterator, Mapping, Optional, Union

from ptides import companion, horizon, limits, wall_time
from ptides.files import kept, readable
from ptides.formulas.option import BlocksFile, add_blocks, words_of
from ptides.graphs import is_lasting
from ptides.program import Fault, Refused
from ptides.reporting.campaign import are_folders, campaign_page
from ptides.reporting.gather import gather
from ptides.reporting.gathered import Asked, Gathered
from ptides.reporting.page import page
from ptides.reporting.stamps import Zero, zero_of

DESCRIPTION = """\
Writes a run as one page of HTML that needs nothing else: the graph with its margins, a trend of each sensor, inner signal, message and
actuator, what was missed or late, how far each number may grow, and what was run, with digests."""
EXAMPLES = """\
examples:
  ptides report graph.json -o review.html
  ptides report graph.json --zero 2026-03-29T00:58:00Z     times of the clock on the wall
  ptides report replay graph.json air.csv                  over a recorded network
  ptides report examples/stand/scenarios -o stand.html     all scenarios of `ptides bench` in a folder

Without -o it writes GRAPH's name with .html into the current folder; - is the standard output. The status is that of the run: 0, 5 if
something was missed, or 4 if a row or message was late; other refusals write no page. Of folders it is 1 if a scenario failed."""


def parser() -> companion.Parser:
    """The words."""
    found = companion.parser("report", DESCRIPTION, EXAMPLES, usage="ptides report [-h] [OPTION..] [run] GRAPH | replay GRAPH AIR | FOLDER..")
    found.add_argument("words", nargs="+", metavar="GRAPH", help="a graph; or `replay`, a graph and an air file; or folders of scenarios")
    found.add_argument("-o", "--output", metavar="FILE", help="where the page goes")
    found.add_argument("--clock", default="paced", metavar="CLOCK", help="as of ptides run: paced, step:START:STEP or machine")
    limits.add_claims(found, "how many claims a platform may make, as of ptides run")
    add_blocks(found, "a file of formulas, as of ptides run; of folders for each scenario whose words name none")
    found.add_argument("--zero", metavar="STAMP", help="the wall time of 0, as 2026-03-29T00:58:00Z (default: what `ptides rows` keeps beside "
                       "the sensor files)")
    found.add_argument("--zone", metavar="ZONE", help="the zone of the clock on the wall, as UTC, Europe/Berlin or +01:00 (default: that of the zero)")
    found.add_argument("--title", metavar="TEXT", help="the title of the page (default: the path of the graph, with its folder)")
    return found


def asked_of(words: list[str], clock: str, claims: int, blocks: Optional[BlocksFile]) -> Asked:
    """What the words ask for. The sensor files are looked up from the current folder."""
    command, rest = (words[0], words[1:]) if words[0] in ("run", "replay") and len(words) > 1 else ("run", words)
    if len(rest) != (2 if command == "replay" else 1):
        raise Fault(f"{command} takes {'a graph and an air file' if command == 'replay' else 'one graph'}, and not `{' '.join(rest)}`")
    if command == "replay" and clock != "paced":
        raise Fault("replay takes no --clock: its clocks are those of the recording")
    return Asked(Path(rest[0]), Path(rest[1]) if command == "replay" else None, clock, Path.cwd(), claims=claims, blocks=blocks)


@contextmanager
def once_read(asked: Asked) -> Iterator[Asked]:
    """The same, with a file instead of a graph that can be read only once, as a pipe."""
    if is_lasting(asked.graph) or not asked.graph.exists():
        yield asked
        return
    with kept(companion.read(asked.graph).decode("utf-8", "surrogateescape")) as path:
        yield asked._replace(graph=Path(path), name=str(asked.graph))


def stated_zero(stamp: Optional[str], zone: Optional[str], graph: Mapping[str, Any], folder: Path) -> Optional[Zero]:
    """The zero that the words state, or else the one that is kept beside the sensor files."""
    place = stated("--zone", wall_time.zone_of, zone) if zone else None
    found = stated("--zero", wall_time.seconds, stamp, place) if stamp else wall_time.zero_of(graph, folder)
    return None if found is None else zero_of(found, place)


def stated(option: str, read: Callable[..., Any], *words: Any) -> Any:
    """What an option says; what is wrong in it is said with its name."""
    try:
        return read(*words)
    except Fault as fault:
        raise Fault(f"{option}: {fault}") from fault


def title_of(path: Path) -> str:
    """What a page is called: the path as it was given, with the folder that it is in if the path doesn't say that."""
    if path.is_absolute() or len(path.parts) > 1 and path.parts[0] != "..":
        return str(path)
    return "/".join(Path(os.path.abspath(path)).parts[-2:]).lstrip("/")


def collected(asked: Asked) -> Gathered:
    """Runs, and collects. Of a run that is too long it is said what fits, and of a sensor file that can't be read its path."""
    if asked.air is not None:
        readable(asked.air, "air")
    try:
        return gather(asked)
    except Refused as refused:
        raise explained(asked, refused) from None


def explained(asked: Asked, refused: Refused) -> Fault:
    """The refusal, with what helps against it."""
    if refused.status == 6:
        return horizon.with_advice(refused, graph_of(asked), asked.claims, "report", words_of(asked.blocks))
    return unread(asked, refused) if refused.line.startswith("read fault: sensor ") else refused


def graph_of(asked: Asked) -> dict[str, Any]:
    """The graph that is asked for."""
    return json.loads(companion.read(asked.graph))


def unread(asked: Asked, refused: Refused) -> Fault:
    """The fault that a sensor file can't be read."""
    name, graph = refused.line.split(" ")[3], graph_of(asked)
    file = next(actor["file"] for actor in graph["actors"] if actor["name"] == name)
    try:
        readable(asked.folder / file, f"sensor {name}")
        return refused
    except Fault as fault:
        beside = asked.graph.parent / file
        better = f"; it is beside the graph: ptides -C {asked.graph.parent} report {asked.graph.name}" if beside.is_file() else ""
        wrong = Fault(f"{str(fault).replace(str(asked.folder / file), file)}{better}")
        wrong.status = refused.status
        return wrong


def read_files(found: Gathered) -> Iterator[Path]:
    """The files of a run."""
    asked = found.asked
    yield asked.graph
    yield from [asked.air] if asked.air else []
    yield from [Path(asked.blocks.path)] if asked.blocks else []
    yield from (asked.folder / actor["file"] for actor in found.graph["actors"] if actor["kind"] == "sensor")


def write_page(file: Union[str, os.PathLike], text: str, *runs: Gathered) -> None:
    """Writes the page, unless one of the files of the runs would be lost."""
    target = os.path.realpath(file)
    if file != "-" and any(os.path.realpath(path) == target for found in runs for path in read_files(found)):
        raise Fault(f"the page can't be written to {file}, which is a file of the run")
    companion.write(file, text)


def main() -> int:
    """Runs, and writes the page."""
    given = parser().parse_args()
    # What is wrong with the words is said before a long run.
    stated_zero(given.zero, given.zone, {"actors": []}, Path())
    if are_folders(given.words):
        title = given.title or " ".join(title_of(Path(word)) for word in given.words)
        text, status, runs = campaign_page(given.words, title, partial(stated_zero, given.zero, given.zone), given.claims, given.blocks)
        write_page(given.output or "scenarios.html", text, *runs)
        return status
    asked = asked_of(given.words, given.clock, given.claims, given.blocks)
    with once_read(asked) as ready:
        found = collected(ready)
        text = page(found, given.title or title_of(asked.graph), stated_zero(given.zero, given.zone, found.graph, Path.cwd()))
        write_page(given.output or f"{asked.graph.stem or 'graph'}.html", text, found)
    if found.refused:
        companion.say(found.refused.line)
    return found.status
