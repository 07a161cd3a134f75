#!/usr/bin/env python3
"""Checks the plugin of pytest: on the examples, on scenarios that fail, in processes side by side, and its fixtures."""
from __future__ import annotations

import os
import shutil
import subprocess
import sys
import tempfile
import unittest
import xml.etree.ElementTree as xml
from pathlib import Path

import pythons

pythons.prefer("pytest", "xdist", "pandas")

from counted import EXAMPLES, Case, Done, companion, main  # noqa: E402

TESTS = """
import pytest


def test_relative(ptides):
    assert ptides.run("graph.json").events["valve"][0].time == 3500


def test_stored(scenario):
    assert scenario.result.events == scenario.expected
    assert list(scenario["valve"]) == [1, 0]


def test_other_rows(scenario, tmp_path):
    (tmp_path / "rows").write_text("time,seen,value\\n1000,1000,7\\n")
    assert scenario.run(speed=tmp_path / "rows").events == {"valve": []}
"""
CHOSEN = """
import pytest


@pytest.mark.parametrize("scenario", ["a_lost", "normal"], indirect=True)
def test_warning(scenario):
    assert bool(len(scenario["warning"])) == (scenario.folder.name == "a_lost")


@pytest.mark.parametrize("scenario", ["nothing"], indirect=True)
def test_nothing(scenario):
    pass
"""


@unittest.skipUnless(pythons.has("pytest"), "pytest isn't there")
class Plugin(Case):
    """A folder of scenarios as pytest runs it."""

    def setUp(self) -> None:
        self.folder = Path(tempfile.mkdtemp())
        self.addCleanup(shutil.rmtree, self.folder)

    def copy(self, *names: str) -> None:
        """Copies examples that can be changed."""
        for name in names:
            shutil.copytree(EXAMPLES / name, self.folder / name, ignore=shutil.ignore_patterns("*.py"))
            for path in [self.folder / name, *(self.folder / name).rglob("*")]:
                path.chmod(0o755 if path.is_dir() else 0o644)

    def pytest(self, *words: str) -> Done:
        """Runs pytest on the folder."""
        around = {**os.environ, "PYTHONPATH": str(pythons.PACKAGE), "PYTEST_PLUGINS": "ptides.pytest_plugin", "PYTHONDONTWRITEBYTECODE": "1"}
        words = ("-p", "no:cacheprovider", "-q", *words, str(self.folder))
        done = subprocess.run([sys.executable, "-m", "pytest", *words], cwd=self.folder, env=around, capture_output=True, text=True, check=False)
        return Done(done.returncode, done.stdout, done.stderr)

    def test_formulas(self) -> None:
        """A scenario may name its file of formulas, or has the one of the option, also for its margins and in its fixture."""
        self.copy("slip")
        (self.folder / "slip" / "test_slip.py").write_text("def test_shown(scenario):\n    assert list(scenario['shown'])[4] == 153\n")
        done = self.pytest("-vv")
        self.assertEqual((done.status, "slip/graph.json::margins PASSED" in done.output, "::test_shown PASSED" in done.output), (0, True, True), done.output)
        (self.folder / "slip" / "words").unlink()
        (self.folder / "slip" / "slip.blocks").rename(self.folder / "other.blocks")
        self.assertEqual(self.pytest().status, 1)
        for option in (["--ptides-blocks", "other.blocks"], ["--ptides-blocks=other.blocks"]):
            done = self.pytest(*option)
            self.assertEqual(done.status, 0, done.output)

    def test_examples(self) -> None:
        """Each example passes, and has the tests that its files ask for."""
        self.copy("governor", "missed", "network", "stand", "clocks")
        done = self.pytest("-vv")
        self.assertEqual(done.status, 0, done.output)
        for name in ("governor/graph.json::table", "governor/graph.json::misses", "governor/graph.json::margins", "governor/graph.json::log",
                     "stand/scenarios/a_lost/words::table", "missed/graph.json::misses"):
            self.assertIn(f"{name} PASSED", done.output)
        self.assertNotIn("missed/graph.json::log", done.output)

    def test_same_as_bench(self) -> None:
        """A folder passes exactly if it passes in `bench`."""
        self.copy("governor", "missed", "stand")
        (self.folder / "stand/scenarios/a_lost/status").write_text("5\n")
        (self.folder / "missed/expected.notes").write_text("")
        (self.folder / "governor/expected.log").write_text("log\n")
        bench = companion("bench", ".", folder=self.folder)
        failed = {line.split(" - ")[1] for line in bench.output.splitlines() if line.startswith("not ok")}
        done = self.pytest("-rf")
        self.assertEqual({line.split()[1].rsplit("/", 1)[0] for line in done.output.splitlines() if line.startswith("FAILED")}, failed)
        self.assertEqual(len(failed), 3)

    def test_first_difference(self) -> None:
        """What differs is said in a few lines, with its time, and without a traceback."""
        self.copy("missed", "stand")
        table = self.folder / "stand/scenarios/a_lost/expected.csv"
        table.write_text(table.read_text().replace(",0,1\n", ",0,2\n", 1))
        (self.folder / "missed/expected.notes").write_text("missed valve at 4000.0, reading 4402 past 4300\n")
        (self.folder / "stand/scenarios/normal/status").write_text("x\n")
        done = self.pytest()
        self.assertEqual(done.status, 1)
        self.assertIn("expected.csv line 2, at 0.430000 s\n  expected  warning,430000,0,2\n  found     warning,430000,0,1\n", done.output)
        self.assertIn("expected.notes line 1, at 0.004000 s\n  expected  missed valve at 4000.0, reading 4402 past 4300\n", done.output)
        self.assertIn("status: `x` is no status", done.output)
        self.assertNotIn("Traceback", done.output)
        self.assertNotIn("Error", done.output)

    def test_ends_of_lines(self) -> None:
        """What can't be seen in a line is written out: a carriage return, a space, a line feed that isn't there, and what is no text."""
        self.copy("governor")
        table = self.folder / "governor/expected.csv"
        stored = table.read_bytes()
        ends = "only the ends of the lines differ: the program ends each with a line feed, and Windows with \\r and a line feed\n"
        for data, says in ((stored.replace(b"\n", b"\r\n"), "expected.csv line 1\n  expected  actuator,time,step,value\\r\n  found     actuator,time,step,value\n" + ends),
                           (stored.replace(b",1\n", b",1\r\n"), "expected.csv line 2, at 0.003500 s\n  expected  valve,3500,0,1\\r\n  found     valve,3500,0,1\n" + ends),
                           (stored[:-1], "expected.csv line 3, at 0.004500 s\n  expected  valve,4500,0,0, without a line feed\n  found     valve,4500,0,0\n" + ends),
                           (stored.replace(b",1\n", b",1 \n"), "  expected  valve,3500,0,1\\x20\n  found     valve,3500,0,1\n"),
                           (stored.replace(b",1\n", b",1\xff\n"), "  expected  valve,3500,0,1\\udcff\n  found     valve,3500,0,1\n"),
                           (stored[:stored.index(b"valve,45")], "expected.csv line 3, at 0.004500 s\n  expected  the end\n  found     valve,4500,0,0\n")):
            table.write_bytes(data)
            with self.subTest(data=data):
                done = self.pytest("-k", "table")
                self.assertIn(says, done.output)
                self.assertNotIn("Error", done.output)

    def test_margins(self) -> None:
        """Without stored margins none may be below 0, unless misses are stored."""
        self.copy("missed", "governor")
        for name in ("missed", "governor"):
            (self.folder / name / "expected.check").unlink()
        self.assertEqual(self.pytest().status, 0)
        for name in ("status", "expected.notes"):
            (self.folder / "missed" / name).unlink()
        done = self.pytest("-k", "margins")
        self.assertIn("margins below 0: each event of these is missed\n  valve: -101\n", done.output)
        self.assertIn("1 failed, 1 passed", done.output)

    def test_side_by_side(self) -> None:
        """In two processes, with JUnit's report."""
        if not pythons.has("xdist"):
            self.skipTest("xdist isn't there")
        self.copy("stand", "governor")
        (self.folder / "governor/expected.csv").write_text("")
        done = self.pytest("-n", "2", "--junitxml", str(self.folder / "report.xml"))
        self.assertIn("1 failed", done.output)
        suite = xml.parse(self.folder / "report.xml").getroot()[0]
        self.assertEqual((suite.get("failures"), suite.get("errors")), ("1", "0"))
        self.assertEqual(int(suite.get("tests")), 3 * 12 + 1 + 4)
        failed = next(case for case in suite if len(case))
        self.assertEqual((failed.get("classname"), failed.get("name")), ("governor.graph.json", "table"))

    def test_update(self) -> None:
        """What was found is stored, and named; then all passes. What can't be used stays."""
        self.copy("governor", "missed")
        wanted = {path: path.read_bytes() for path in self.folder.rglob("expected.*") if path.suffix != ".slacks"}
        for path in wanted:
            path.write_text("nothing\n")
        (self.folder / "missed/status").write_text("0\n")
        words = ["-n", "2"] if pythons.has("xdist") else []
        done = self.pytest("--ptides-update", *words)
        self.assertEqual(done.status, 0, done.output)
        for path, data in wanted.items():
            self.assertEqual(path.read_bytes(), data)
            self.assertIn(f"\n{path}\n", done.output)
        self.assertEqual((self.folder / "missed/status").read_text(), "5\n")
        self.assertNotIn("stored by", self.pytest("--ptides-update").output)

    def test_no_scenarios(self) -> None:
        """A graph without anything stored isn't a file of tests, and other files are left alone."""
        self.copy("governor")
        for path in (self.folder / "governor").glob("expected.*"):
            path.unlink()
        (self.folder / "governor/words").write_text("run\ngraph.json\n")
        done = self.pytest()
        self.assertEqual((done.status, done.output.splitlines()[-1][:12]), (5, "no tests ran"))

    def test_fixtures(self) -> None:
        """`ptides` in the folder of the test, and `scenario` there or in a folder beside it."""
        self.copy("governor", "stand")
        (self.folder / "governor/test_governor.py").write_text(TESTS)
        (self.folder / "stand/scenarios/test_stand.py").write_text(CHOSEN)
        done = self.pytest("-k", "test_")
        self.assertIn("1 error", done.output)
        self.assertIn("5 passed", done.output)
        self.assertIn("nothing is no scenario: it has neither graph.json nor words", done.output)

    def test_no_program(self) -> None:
        """Without a program each test says so in a line."""
        self.copy("governor")
        os.environ["PTIDES"], before = "/nowhere/ptides", os.environ.get("PTIDES")
        try:
            done = self.pytest()
        finally:
            del os.environ["PTIDES"]
            os.environ.update({"PTIDES": before} if before else {})
        self.assertIn("there is no program /nowhere/ptides", done.output)
        self.assertIn("4 failed", done.output)

    def test_time_limit(self) -> None:
        """A command that takes too long fails, and says so."""
        self.copy("governor")
        done = self.pytest("--ptides-timeout", "0.000001", "-k", "table")
        self.assertIn("no end within 1e-06 seconds", done.output)


if __name__ == "__main__":
    main()
