"""A plugin of pytest: a folder with a graph and what it has to give is a file of tests.

Its tests are `table` (the status and the tables), `misses` (what is written on standard error), `margins` (what `check` writes, or if
that isn't stored, that no margin is below 0), and `log`, if one is stored. The files are those of `ptides bench`.

Two fixtures: `ptides` is this package, in the folder of the test's file, and `scenario` is the scenario that is there.
"""
from __future__ import annotations

import os
from functools import cached_property
from pathlib import Path
from typing import Any, Iterator, Mapping, Optional

import pytest

import ptides as package
from ptides import limits, misses, program, tables
from ptides.attempts import Result as Answer, attempts
from ptides.formulas.option import BlocksFile
from ptides.program import Fault, find_program
from ptides.records import Event
from ptides.scenarios import STORED, Difference, Scenario, first_difference, no_answer, outcome_of, scenario_of, store, word_meanings

# What a folder has to have beside its graph, so that it is a file of tests.
EXPECTATIONS = ("status", *STORED)
STORED_NOW = "ptides stored"


class Differs(Exception):
    """What a scenario gives isn't what is stored; the text says where."""


def pytest_addoption(parser: pytest.Parser) -> None:
    """The options of the plugin."""
    group = parser.getgroup("ptides", "scenarios of ptides")
    group.addoption("--ptides-update", action="store_true", help="store what the scenarios give, instead of comparing it")
    group.addoption("--ptides-claims", type=limits.number, default=limits.USUAL_CLAIMS, metavar="N",
                    help=f"how many claims a platform may make ({limits.USUAL_CLAIMS})")
    group.addoption("--ptides-blocks", metavar="FILE", help="a file of formulas for each scenario whose words name none")
    group.addoption("--ptides-timeout", type=float, default=600.0, metavar="SECONDS", help="the longest time for one command (600)")


def scenario_in(folder: Path, config: pytest.Config) -> Scenario:
    """The scenario of a folder, with what the options say; a path is one from where pytest was started."""
    blocks = config.getoption("--ptides-blocks")
    file = BlocksFile(str(config.invocation_params.dir / blocks), blocks) if blocks else None
    return scenario_of(folder, config.getoption("--ptides-claims"), file)


def has_expectations(folder: Path) -> bool:
    """Whether something is stored that a graph has to give."""
    return any((folder / name).is_file() for name in EXPECTATIONS)


def pytest_collect_file(file_path: Path, parent: pytest.Collector) -> Optional[pytest.Collector]:
    """A scenario is collected where its graph is, or by its words if its graph is elsewhere."""
    folder = file_path.parent
    first = "graph.json" if (folder / "graph.json").is_file() else "words"
    if file_path.name == first and has_expectations(folder):
        return ScenarioFile.from_parent(parent, path=file_path)
    return None


class ScenarioFile(pytest.File):
    """A scenario; what its commands answer is asked for once."""

    @cached_property
    def scenario(self) -> Scenario:
        """The scenario of the folder."""
        return scenario_in(self.path.parent, self.config)

    @cached_property
    def answers(self) -> list[Answer]:
        """What its commands give."""
        scenario = self.scenario
        return attempts(find_program(), str(scenario.folder), scenario.commands(), self.config.getoption("--ptides-timeout"))[0]

    def collect(self) -> Iterator[pytest.Item]:
        """The tests."""
        runs = self.scenario.words[:1] in (["run"], ["replay"])
        yield Test.from_parent(self, name="table", files=("status", "expected.csv", *(() if runs else ("expected.notes",))))
        if runs:
            yield Test.from_parent(self, name="misses", files=("expected.notes",))
            yield Margins.from_parent(self, name="margins", files=("expected.check",))
        if "expected.log" in self.scenario.stored:
            yield Test.from_parent(self, name="log", files=("expected.log",))


class Test(pytest.Item):
    """A test of a scenario: some files are as they are stored."""

    # Pytest would take this class for one of tests.
    __test__ = False

    def __init__(self, *, files: tuple[str, ...], **words: Any):
        super().__init__(**words)
        self.files = files

    @property
    def scenario(self) -> Scenario:
        """The scenario of the folder."""
        return self.parent.scenario

    def runtest(self) -> None:
        """Compares, or stores."""
        error = self.scenario.fault or no_answer(self.scenario, self.parent.answers)
        if error:
            raise Fault(error)
        outcome = outcome_of(self.scenario, self.parent.answers, 0.0)
        for name in self.files:
            if name not in outcome.files:
                continue
            if self.config.getoption("--ptides-update"):
                self.store(name, outcome.files[name])
            elif name == "status":
                self.compare(outcome.difference if outcome.difference and outcome.difference.file == "status" else None)
            else:
                self.compare(first_difference(name, self.scenario.stored.get(name, ""), outcome.files[name]))

    def store(self, name: str, text: str) -> None:
        """Stores a file; the summary at the end names it."""
        if store(self.scenario, name, text):
            self.user_properties.append((STORED_NOW, str(self.scenario.folder / name)))

    def compare(self, difference: Optional[Difference]) -> None:
        """Fails, if there is a difference."""
        if difference:
            raise Differs(shown(difference, self.parent.answers[0][2]))

    def repr_failure(self, excinfo: pytest.ExceptionInfo[BaseException], style: Any = None) -> Any:
        """What differs is said without a traceback."""
        return str(excinfo.value) if isinstance(excinfo.value, (Differs, Fault)) else super().repr_failure(excinfo, style)

    def reportinfo(self) -> tuple[os.PathLike[str], Optional[int], str]:
        """The place of the test, as a report says it."""
        return self.path, 0, f"{self.scenario.folder}: {self.name}"


class Margins(Test):
    """The margins are those that are stored; or none is below 0, unless misses are stored."""

    def runtest(self) -> None:
        """Asks `check`, if what it wrote isn't stored."""
        if "expected.check" in self.scenario.stored:
            super().runtest()
            return
        if self.scenario.fault:
            raise Fault(self.scenario.fault)
        done = program.run(self.scenario.check(), folder=self.scenario.folder)
        below = [f"  {each.actor}: {each.margin}" for each in tables.margins_of(done.output) if each.margin is not None and each.margin < 0]
        if below and self.scenario.status != 5:
            raise Differs("\n".join(["margins below 0: each event of these is missed", *below, "`ptides timing` says what may change"]))


def shown(difference: Difference, notes: str) -> str:
    """A difference, for a reader of the report."""
    time = difference.time
    when = "" if time is None else f", at {time / 1e6:.6f} s"
    lines = [f"{difference.file} line {difference.line}{when}"]
    both = difference.expected, difference.found
    lines += [f"  {label:8}  {visible(line)}" for label, line in zip(("expected", "found"), both)]
    if None not in both and both[0].rstrip("\r\n") == both[1].rstrip("\r\n"):
        lines.append("only the ends of the lines differ: the program ends each with a line feed, and Windows with \\r and a line feed")
    many = misses.note(notes).rstrip() if difference.file in ("status", "expected.notes") else ""
    return "\n".join([*lines, *([many] if many else []), "--ptides-update stores what was found; look at it before"])


def visible(line: Optional[str]) -> str:
    """A line without its line feed. What can't be seen in it, such as a carriage return or a space at its end, is written as in Python."""
    if line is None:
        return "the end"
    text = line[:-1] if line.endswith("\n") else line
    spaces = len(text) - len(text.rstrip(" "))
    shown = "".join(sign if sign.isprintable() else repr(sign)[1:-1] for sign in text.rstrip(" ")) + spaces * "\\x20"
    return shown if line.endswith("\n") else f"{shown}, without a line feed"


def pytest_terminal_summary(terminalreporter: Any) -> None:
    """Names the files that were stored."""
    paths = [path for reports in terminalreporter.stats.values() for report in reports
             for name, path in getattr(report, "user_properties", ()) if name == STORED_NOW and report.when == "call"]
    if paths:
        terminalreporter.section("stored by --ptides-update: look at it before you commit it")
        for path in dict.fromkeys(paths):
            terminalreporter.line(path)


# ---- fixtures -----------------------------------------------------------------------------------------------------------


class Tried:
    """A scenario as a test has it: `result` is what it gives, `expected` what is stored, and `run` runs it with other sensors."""

    def __init__(self, scenario: Scenario):
        self.scenario = scenario
        if self.scenario.fault:
            raise Fault(self.scenario.fault)

    @property
    def folder(self) -> Path:
        """Where it is."""
        return self.scenario.folder

    def run(self, **sensors: Any) -> package.Result:
        """Runs it, with these sensors instead of those in its folder."""
        words = word_meanings(self.scenario.words)
        options: dict[str, Any] = {"folder": self.folder, "sensors": sensors, "claims": words.claims}
        options["blocks"] = self.folder / words.blocks if words.blocks else None
        if words.command == "replay":
            return package.replay(self.folder / words.graph, self.folder / words.other, **options)
        if words.command != "run":
            raise Fault(f"{self.folder}: `{words.command}` is no run")
        return package.run(self.folder / words.graph, clock=words.clock, workers=words.workers, **options)

    @cached_property
    def result(self) -> package.Result:
        """What it gives."""
        return self.run()

    @property
    def expected(self) -> Mapping[str, list[Event]]:
        """The events that are stored, by actuator."""
        return tables.events_of(self.scenario.stored.get("expected.csv", ""))

    def __getitem__(self, actuator: str) -> Any:
        """What an actuator did, as a Series by time."""
        return self.result[actuator]


@pytest.fixture
def ptides(request: pytest.FixtureRequest, monkeypatch: pytest.MonkeyPatch) -> Any:
    """The package `ptides`; while the test runs, the current folder is that of its file."""
    monkeypatch.chdir(request.path.parent)
    return package


@pytest.fixture
def scenario(request: pytest.FixtureRequest) -> Tried:
    """The scenario in the folder of the test's file, or in the folder beside it that an indirect parameter names."""
    folder = request.path.parent / getattr(request, "param", ".")
    if not any((folder / name).is_file() for name in ("graph.json", "words")):
        pytest.fail(f"{folder} is no scenario: it has neither graph.json nor words", pytrace=False)
    return Tried(scenario_in(folder, request.config))
