"""The commands of `ptides`, and three of its companions, as functions.

A graph is the path of its file, of a folder with a `graph.json`, or a dict. A sensor is a pandas Series or DataFrame, or the path of a
file; one that isn't given has the file that the graph names, looked up from `folder`, or else from the folder of the graph.
"""
from __future__ import annotations

import csv
import io
import os
import re
from pathlib import Path
from typing import Any, Collection, Iterable, Mapping, NamedTuple, Optional, Union

from ptides import companions, files, limits, program
from ptides.formulas.option import Blocks, BlocksFile, blocks_file, words_of
from ptides.graphs import Changes, Graph, Placed, placed
from ptides.program import Done, Fault, Refused
from ptides.results import Result, Verdict
from ptides.records import Margin, Rows, Slack
from ptides.tables import margins_of, slacks_of

PathLike = Union[str, os.PathLike]
# A clock: `paced`, `machine`, `step:START:STEP`, or ("step", START, STEP).
Clock = Union[str, tuple[str, int, int]]
Sensors = Mapping[str, Any]
NOTHING: Sensors = {}


def given(sensors: Sensors, more: Sensors) -> dict[str, Any]:
    """The sensors of both kinds."""
    if not isinstance(sensors, Mapping):
        raise Fault(f"sensors: {type(sensors).__name__} is no dict of sensors by their names")
    return {**sensors, **more}


def run(graph: Graph, *, clock: Clock = "paced", workers: Optional[int] = None, log: bool = True, until: Any = None, zero: Any = None,
        probes: Union[bool, Iterable[str]] = (), claims: Optional[int] = None, blocks: Blocks = None, folder: Optional[PathLike] = None,
        sensors: Sensors = NOTHING, **more: Any) -> Result:
    """Runs a graph. Misses are part of the result; any other fault raises `Refused`.

    Sensors are given by name, as `pedal=frame`, or in `sensors` if a name is also one of these words. `until` is another horizon than
    that of the graph. Stamps of sensors are counted from `zero`, or else from the whole second at or before the first of them. `probes`
    names actors whose outputs are to be watched too, or is `True` for all. Without `log` a long run takes less memory, and has no
    `rooms`. `claims` is how many firings a platform may make, from 200,000, the usual number, to 100,000,000.
    `blocks` is a file of formulas, or a dict of formulas by their names.

        >>> result = run("examples/governor")
        >>> result.events["valve"]
        [Event(time=3500, step=0, value=1), Event(time=4500, step=0, value=0)]
    """
    changes = Changes(given(sensors, more), zero, until, probes)
    words = [*options_of(clock, workers), *claims_words(claims), *(["--log"] if log else [])]
    with placed(graph, folder, changes) as ready, blocks_file(blocks) as file:
        return Result(ask(["run", ready.word, *words], ready, (0, 5), file), ready, claims, file)


def meaning(graph: Graph, *, until: Any = None, zero: Any = None, probes: Union[bool, Iterable[str]] = (),
            claims: Optional[int] = None, blocks: Blocks = None, folder: Optional[PathLike] = None, sensors: Sensors = NOTHING,
            **more: Any) -> Result:
    """What the definition says that a graph does: the tables alone, whatever its bounds and slacks, and whichever rows are late."""
    words = claims_words(claims)
    with placed(graph, folder, Changes(given(sensors, more), zero, until, probes)) as ready, blocks_file(blocks) as file:
        return Result(ask(["meaning", ready.word, *words], ready, blocks=file), ready, claims, file)


def replay(graph: Graph, air: Any, *, log: bool = True, until: Any = None, zero: Any = None, probes: Union[bool, Iterable[str]] = (),
           claims: Optional[int] = None, blocks: Blocks = None, folder: Optional[PathLike] = None, sensors: Sensors = NOTHING,
           **more: Any) -> Result:
    """Runs a graph over a recorded network: `air` is the path of an air file, or a DataFrame with its columns."""
    changes = Changes(given(sensors, more), zero, until, probes)
    words = [*claims_words(claims), *(["--log"] if log else [])]
    with placed(graph, folder, changes) as ready, files.air_file(air) as path, blocks_file(blocks) as file:
        return Result(ask(["replay", ready.word, path, *words], ready, (0, 5), file), ready, claims, file)


def check(graph: Graph, *, blocks: Blocks = None) -> Rows[Margin]:
    """How long each actor waits, and how much time is then left.

        >>> check("examples/governor")[-1]
        Margin(actor='valve', offset=-550, margin=549)
    """
    with placed(graph, None, Changes()) as ready, blocks_file(blocks) as file:
        return margins_of(ask(["check", ready.word], ready, blocks=file).output)


def slacks(graph: Graph, *, blocks: Blocks = None) -> Rows[Slack]:
    """The least slacks with which a graph can run.

        >>> slacks("examples/governor")
        [Slack(actor='up', slack=0), Slack(actor='valve', slack=0)]
    """
    with placed(graph, None, Changes()) as ready, blocks_file(blocks) as file:
        return slacks_of(ask(["slacks", ready.word], ready, blocks=file).output)


def audit(graph: Graph, log: Union[PathLike, Result], *, claims: Optional[int] = None, blocks: Blocks = None, folder: Optional[PathLike] = None,
          sensors: Sensors = NOTHING, **more: Any) -> Verdict:
    """Whether a log, a file or what a run wrote, is one that some run can have written.

    `claims` and `blocks` are those of the run; of a result they are known.

        >>> result = run("examples/governor")
        >>> audit("examples/governor", result).lawful
        True
    """
    options = claims_words(log.claims if claims is None and isinstance(log, Result) else claims)
    of_the_run = log.blocks if blocks is None and isinstance(log, Result) else blocks
    with placed(graph, folder, Changes(given(sensors, more))) as ready, files.kept(log_text(log), "log") as path, blocks_file(of_the_run) as file:
        words = ["audit", ready.word, path, *options]
        done = ask(words, ready, (0, 10), file)
        if not done.status:
            return Verdict()
        return Verdict(done.line, program.place_of(done.line), explanation_of(words, ready, done.line, file))


def log_text(log: Union[PathLike, Result]) -> Union[str, PathLike]:
    """The text of a log that a run wrote, or the path of a file."""
    if not isinstance(log, (str, os.PathLike, Result)):
        raise Fault(f"log: {type(log).__name__} is no path, and no result")
    return log.output if isinstance(log, Result) else Path(log)


def report(graph: Graph, file: PathLike, *, air: Any = None, clock: Clock = "paced", until: Any = None, zero: Any = None, title: str = "",
           claims: Optional[int] = None, blocks: Blocks = None, folder: Optional[PathLike] = None, sensors: Sensors = NOTHING,
           **more: Any) -> int:
    """Runs a graph, or replays it over the recorded network `air`, and writes the page of the run. Gives the status of the run."""
    from ptides.reporting.from_python import write_report

    how = How(clock, limits.claims_of(claims), blocks)
    return write_report(graph, file, air, how, Changes(given(sensors, more), zero, until), title, folder)


class Growth(NamedTuple):
    """How far a number of the graph may grow with all in time, what happens then, and whose offset it sets."""

    number: str
    of: str
    now: int
    may_grow_by: int
    then: str
    check_accepts: int
    sets_the_offset_of: str


class Offset(NamedTuple):
    """What sets the offset of an actor, and the way from there."""

    actor: str
    offset: int
    margin: Optional[int]
    set_by: str
    path: str


class Timing(NamedTuple):
    """The two tables of `ptides timing`."""

    growth: Rows[Growth]
    offsets: Rows[Offset]


def timing(graph: Graph, *, blocks: Blocks = None) -> Timing:
    """How far each bound, slack, link delay and clock error may grow, and which path sets each offset.

        >>> timing("examples/governor").growth[0].may_grow_by
        299
    """
    with placed(graph, None, Changes()) as ready, blocks_file(blocks) as file:
        growth, _, offsets = ask_companion("timing", [ready.word], ready, file).output.partition("\n\n")
    grown = (Growth(*row[:2], *map(int, row[2:4]), row[4], int(row[5]), row[6]) for row in table_of(growth))
    set_by = (Offset(row[0], int(row[1]), None if row[2] == "-" else int(row[2]), *row[3:]) for row in table_of(offsets))
    return Timing(Rows(Growth, grown), Rows(Offset, set_by))


def table_of(text: str) -> list[list[str]]:
    """The records of a table after its head."""
    return list(csv.reader(io.StringIO(text)))[1:]


class Remark(NamedTuple):
    """What is lawful in a graph and probably not meant, and the line of the graph that it is about.

    One on a formula has no line of the graph, and its text begins with the file of formulas and the line there.
    """

    line: Optional[int]
    text: str


def lint(graph: Graph, *, claims: Optional[int] = None, blocks: Blocks = None, folder: Optional[PathLike] = None, sensors: Sensors = NOTHING,
         **more: Any) -> Rows[Remark]:
    """What is lawful in a graph and probably not meant. `claims` is how many firings a platform may make in the runs that are meant.

        >>> [remark.text[:11] for remark in lint("examples/missed")]
        ['margin -101']
    """
    words = claims_words(claims)
    with placed(graph, folder, Changes(given(sensors, more))) as ready, blocks_file(blocks) as file:
        output = ask_companion("lint", [ready.word, *words], ready, file).output
        found = re.findall(r"^" + re.escape(ready.word) + r"(?::(\d+))?: warning: (.*)$", output, re.MULTILINE)
        if file:
            of_formulas = re.findall(r"^" + re.escape(file.path) + r"(:\d+: )warning: (.*)$", output, re.MULTILINE)
            found += [("", f"{file.name}{line}{text}") for line, text in of_formulas]
    return Rows(Remark, (Remark(int(line) if line else None, text) for line, text in found))


class How(NamedTuple):
    """How a graph is run: by which clock, with how many claims of a platform, and with which formulas."""

    clock: Clock = "paced"
    claims: int = limits.USUAL_CLAIMS
    blocks: Blocks = None


def claims_words(claims: Optional[int]) -> list[str]:
    """The option for a number of claims that is given, which has to be one."""
    return limits.words_of(limits.claims_of(claims))


def options_of(clock: Clock, workers: Optional[int]) -> list[str]:
    """The options of `run` for these; what is usual has none."""
    word = ":".join(map(str, clock)) if isinstance(clock, (tuple, list)) else str(clock)
    return [*([] if word == "paced" else ["--clock", word]), *([] if workers is None else ["--workers", str(workers)])]


def ask(words: list[str], ready: Placed, accepted: Collection[int] = (0,), blocks: Optional[BlocksFile] = None) -> Done:
    """What the program answers. A status that isn't accepted raises `Refused`, with what `explain` shows."""
    done = program.run([*words, *words_of(blocks)], folder=ready.folder, program=companions.program_itself(program.find_program()))
    if done.status in accepted:
        return done
    explanation = explanation_of(words, ready, done.line, blocks)
    expected = re.search(r"= expected: (.*)", explanation)
    if done.line.startswith("usage: ") and expected:
        raise Fault(f"{expected[1]}; not `{' '.join(word for word in words[2:] if word != '--log')}`")
    unread = re.match(r"read fault: sensor (\w+)", done.line)
    if unread and unread[1] in ready.rows_names:
        # The graph that was run has a link to the file.
        files.readable(ready.home / ready.rows_names[unread[1]], f"sensor {unread[1]}")
    raise Refused(done, explanation)


def explanation_of(words: list[str], ready: Placed, line: str, blocks: Optional[BlocksFile]) -> str:
    """What `explain` shows of a line; of a fault in a file that the user knows, at its place there."""
    folder, words = ready.folder, [*words, *words_of(blocks)]
    if ready.origin is not None and line.startswith("graph: "):
        folder, words[1] = Path.cwd(), str(ready.origin)
    try:
        text = companions.call("explain", "--line", line, *words, folder=folder).output
    except Fault:
        return ""
    # A changed graph has links to the files that the user knows.
    for name, known in ready.rows_names.items():
        if (ready.home / known).is_file():
            text = text.replace(f" --> {name}.csv:", f" --> {known}:")
    # The formulas are read from a copy.
    text = text.replace(blocks.path, blocks.name) if blocks else text
    return text.strip("\n")


def ask_companion(name: str, words: list[str], ready: Placed, blocks: Optional[BlocksFile]) -> Done:
    """What a companion answers about a graph."""
    done = companions.call(name, *words, *words_of(blocks), folder=ready.folder)
    if done.status:
        raise Refused(done, explanation_of(["check", ready.word], ready, done.line, blocks))
    return done
