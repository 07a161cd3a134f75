"""Scenarios: folders with a graph and what it has to give.

A scenario is a folder that has `words` or `graph.json`, and the files that docs/SCENARIOS.md describes. `ptides bench` and the plugin of
pytest judge them alike, by what is here.
"""
from __future__ import annotations

import argparse
import difflib
import os
import re
from concurrent.futures import ThreadPoolExecutor
from dataclasses import dataclass, field
from pathlib import Path
from typing import Iterable, Iterator, NamedTuple, NoReturn, Optional, Sequence

from ptides import limits
from ptides.attempts import Result, attempts
from ptides.formulas.option import BlocksFile, file_in, words_of
from ptides.graphs import word_of
from ptides.program import COMMANDS, Fault

USUAL = "graph.json"
# What a scenario can store beside its status, in the order in which it is compared.
STORED = ("expected.csv", "expected.notes", "expected.log", "expected.check")
# The time in a line of a table or of a log, or of what was missed.
TIME = re.compile(r"(?:(?:row|take|sent),\w+|claim,\d+,\w+|missed \w+ at|\w+(?=,\d+,\d+,-?\d+$))[ ,](\d+)[,.]", re.MULTILINE)
# The status of the launcher if it has no program to run.
NO_PROGRAM = 70


@dataclass
class Scenario:
    """A folder with what is stored in it; `commands` are run in it: the words, and if asked for `--log` and `check`.

    `fault` says why what is stored can't be used; then nothing is run.
    """

    name: str
    folder: Path
    words: list[str]
    status: int = 0
    stored: dict[str, str] = field(default_factory=dict)
    fault: str = ""

    def commands(self) -> list[list[str]]:
        """What is run in the folder."""
        if self.fault:
            return []
        with_log = [[*self.words, "--log"]] if "expected.log" in self.stored else []
        with_check = [self.check()] if "expected.check" in self.stored else []
        return [self.words, *with_log, *with_check]

    def check(self) -> list[str]:
        """The words that ask for the margins of its graph."""
        return ["check", self.graph(), *words_of(file_in(self.words))]

    def graph(self) -> str:
        """The word that names the graph."""
        try:
            return word_meanings(self.words).graph or USUAL
        except Fault:
            # The program refuses these words too, and a scenario may expect that.
            return USUAL


class Difference(NamedTuple):
    """The first difference: in which file, at which line from 1, and the two lines; None is the end of the file."""

    file: str
    line: int
    expected: Optional[str]
    found: Optional[str]

    @property
    def time(self) -> Optional[int]:
        """The time that the two lines are about, in microseconds: the earlier one; `None` if they have none.

            >>> Difference("expected.csv", 2, "valve,3500,0,1\\n", "valve,3400,0,1\\n").time
            3400
        """
        found = [TIME.match(line) for line in (self.expected, self.found) if line]
        return min((int(each[1]) for each in found if each), default=None)

    def message(self) -> str:
        """What differs, in a line."""
        return f"{self.file} line {self.line}: expected {shown(self.expected)}, found {shown(self.found)}"


def shown(line: Optional[str]) -> str:
    """A line as it is quoted."""
    if line is None:
        return "the end"
    return f"`{line[:-1]}`" if line.endswith("\n") else f"`{line}` without a line feed"


@dataclass
class Outcome:
    """What a scenario gave: the files as they would be stored, the first difference, and how long it took.

    `error` says why there is nothing to compare: the scenario can't be used, or the program gave no answer.
    """

    files: dict[str, str] = field(default_factory=dict)
    difference: Optional[Difference] = None
    seconds: float = 0.0
    error: str = ""

    def message(self) -> str:
        """What is wrong, or nothing."""
        return self.error or (self.difference.message() if self.difference else "")


def read(path: Path) -> str:
    """The text of a file, whatever its bytes."""
    try:
        return path.read_bytes().decode("utf-8", "surrogateescape")
    except OSError as fault:
        raise Fault(f"cannot read {path}: {fault.strerror}")


def scenario_of(folder: Path, claims: int = limits.USUAL_CLAIMS, blocks: Optional[BlocksFile] = None) -> Scenario:
    """The scenario in a folder. One that can't be used is a scenario too, with its fault: the others are run.

    `claims` is how many claims a platform may make, and `blocks` its file of formulas, if its words don't say that.
    """
    scenario = Scenario(str(folder), folder, ["run", "graph.json"])
    try:
        fill(scenario)
        allow(scenario, claims)
        give(scenario, blocks)
    except Fault as fault:
        scenario.fault = str(fault)
    return scenario


def allow(scenario: Scenario, claims: int) -> None:
    """Lets each platform make this many claims, unless the words say how many."""
    says = any(word == "--claims" or word.startswith("--claims=") for word in scenario.words)
    if scenario.words[0] in limits.COMMANDS and not says:
        # Behind `--` there are no options.
        scenario.words[1:1] = limits.words_of(claims)


def give(scenario: Scenario, blocks: Optional[BlocksFile]) -> None:
    """Gives it this file of formulas, unless the words name one. The path is seen from its folder, so that it is one on a cluster too."""
    says = any(word == "--blocks" or word.startswith("--blocks=") for word in scenario.words)
    if blocks and scenario.words[0] != "make" and not says:
        scenario.words[1:1] = ["--blocks", word_of(Path(os.path.realpath(blocks.path)), Path(os.path.realpath(scenario.folder)))]


def fill(scenario: Scenario) -> None:
    """Reads the files of a scenario."""
    folder = scenario.folder
    if (folder / "words").is_file():
        scenario.words = read(folder / "words").splitlines()
    # Beside ptides is the launcher, which also runs companions, and some of those write files.
    if not scenario.words or scenario.words[0] not in COMMANDS:
        named = f"`{scenario.words[0]}` is no command of ptides" if scenario.words else "it has no words"
        raise Fault(f"{folder / 'words'}: {named}: the first word has to be one of {', '.join(COMMANDS)}")
    if (folder / "status").is_file():
        text = read(folder / "status").strip()
        if not re.fullmatch("[0-9]{1,3}", text):
            raise Fault(f"{folder / 'status'}: `{text}` is no status")
        scenario.status = int(text)
    for name in STORED:
        if (folder / name).is_file():
            scenario.stored[name] = read(folder / name)


def scenarios_of(folders: Iterable[str], claims: int = limits.USUAL_CLAIMS, blocks: Optional[BlocksFile] = None) -> list[Scenario]:
    """The scenarios of these folders and of all below them, each once, in the order of their names."""
    found: dict[Path, None] = {}
    for folder in folders:
        if not Path(folder).is_dir():
            raise Fault(f"{folder} is no folder")
        inside = sorted({path.parent for name in ("graph.json", "words") for path in Path(folder).rglob(name) if path.is_file()})
        if not inside:
            raise Fault(f"{folder}: no scenario in it: a scenario is a folder with `words` or `graph.json`")
        found.update(dict.fromkeys(inside))
    return [scenario_of(folder, claims, blocks) for folder in found]


def first_difference(file: str, expected: str, found: str) -> Optional[Difference]:
    """The first line in which two texts differ."""
    if expected == found:
        return None
    wanted, given = expected.splitlines(keepends=True), found.splitlines(keepends=True)
    line = next((line for line, (left, right) in enumerate(zip(wanted, given)) if left != right), min(len(wanted), len(given)))
    return Difference(file, line + 1, *(lines[line] if line < len(lines) else None for lines in (wanted, given)))


def files_of(scenario: Scenario, results: list[Result]) -> dict[str, str]:
    """What the scenario would store of these results."""
    (status, output, notes), *others = results
    files = {"status": f"{status}\n", "expected.csv": output, "expected.notes": notes}
    if "expected.log" in scenario.stored:
        logged = others.pop(0)[1]
        # The log follows the tables, which the run without a log wrote too.
        files["expected.log"] = logged[len(output) :] if logged.startswith(output) else logged
    if "expected.check" in scenario.stored:
        files["expected.check"] = others.pop(0)[1]
    return files


def no_answer(scenario: Scenario, results: list[Result]) -> str:
    """Why a command gave no answer of the program; nothing if all did."""
    for status, _, notes in results:
        if status is None or status == NO_PROGRAM != scenario.status:
            return notes.split("\n", 1)[0] or "there is no program to run"
    return ""


def outcome_of(scenario: Scenario, results: list[Result], seconds: float) -> Outcome:
    """Compares the status first, since the rest follows from it, and then file after file."""
    error = scenario.fault or no_answer(scenario, results)
    if error:
        return Outcome(seconds=seconds, error=error)
    files = files_of(scenario, results)
    status, _, notes = results[0]
    difference = None
    if status != scenario.status:
        first = "".join(f" ({line})" for line in notes.splitlines()[:1])
        difference = Difference("status", 1, f"{scenario.status}\n", f"{status}{first}\n")
    for name in STORED:
        if name in files:
            difference = difference or first_difference(name, scenario.stored.get(name, ""), files[name])
    return Outcome(files, difference, seconds)


def run_here(scenarios: list[Scenario], program: str, jobs: int, seconds: float) -> Iterator[Outcome]:
    """Runs the scenarios in processes side by side; gives their outcomes in the order of the scenarios."""
    with ThreadPoolExecutor(jobs) as pool:
        asked = [pool.submit(attempts, program, str(each.folder), each.commands(), seconds) for each in scenarios]
        for scenario, future in zip(scenarios, asked):
            yield outcome_of(scenario, *future.result())


def store(scenario: Scenario, name: str, text: str) -> list[str]:
    """Stores one file of a scenario, if it isn't as it was; gives the difference."""
    path = scenario.folder / name
    before = read(path) if path.is_file() else "0\n" if name == "status" else ""
    if text == before:
        return []
    try:
        path.write_bytes(text.encode("utf-8", "surrogateescape"))
    except OSError as fault:
        raise Fault(f"cannot write {path}: {fault.strerror}") from fault
    return list(difflib.unified_diff(before.splitlines(), text.splitlines(), f"{path}, before", f"{path}, now", lineterm=""))


def update(scenario: Scenario, outcome: Outcome) -> str:
    """Stores what the scenario gave; gives the difference as lines of TAP's diagnostics. No file is removed."""
    return "".join(f"# {line}\n" for name, text in outcome.files.items() for line in store(scenario, name, text))


# ---- words --------------------------------------------------------------------------------------------------------------


class Meaning(NamedTuple):
    """What the words of a scenario ask for; `other` is the log or the air file."""

    command: str
    graph: str
    other: str
    clock: str
    workers: Optional[int]
    claims: Optional[int]
    blocks: Optional[str] = None


class Words(argparse.ArgumentParser):
    """The words of the program, as far as a scenario needs them."""

    def error(self, message: str) -> NoReturn:
        raise Fault(message)


def word_meanings(words: Sequence[str]) -> Meaning:
    """What these words ask for.

        >>> word_meanings(["run", "../../graph.json", "--clock", "step:0:50"])
        Meaning(command='run', graph='../../graph.json', other='', clock='step:0:50', workers=None, claims=None, blocks=None)
    """
    parser = Words(add_help=False, allow_abbrev=False)
    parser.add_argument("names", nargs="*")
    parser.add_argument("--log", action="store_true")
    parser.add_argument("--clock", default="paced")
    parser.add_argument("--workers", type=int)
    parser.add_argument("--claims", type=limits.number)
    parser.add_argument("--blocks")
    found = parser.parse_intermixed_args(list(words))
    command, graph, other, *_ = [*found.names, "", "", ""]
    return Meaning(command, graph, other, found.clock, found.workers, found.claims, found.blocks)
