#!/usr/bin/env python3
"""Checks the plain programs of bench/ against ptides: on random graphs they write the same and end alike, and what they lack they refuse.

They are built without optimisation, so that a number that overflows is a fault. RANDOM_GRAPHS says how many graphs there are.
"""
from __future__ import annotations

import copy
import importlib.util
import json
import os
import shutil
import subprocess
import tempfile
import unittest
from pathlib import Path
from typing import Any, Callable

from counted import TOP, Case, Done, main, ptides, run

Graph = dict[str, Any]
# Two platforms, p and q: s -> m -> w ==> r -> out.
GRAPH: Graph = {
    "ptides": 1, "until": 1000, "clock_error": 5, "platforms": ["p", "q"],
    "actors": [{"name": "s", "platform": "p", "kind": "sensor", "file": "s.csv", "bound": 10},
               {"name": "m", "platform": "p", "kind": "machine", "start": 0, "outputs": 1,
                "rows": [{"state": 0, "low": -2**63, "high": 2**63 - 1, "next": 0, "emit": [0, 7]}]},
               {"name": "w", "platform": "p", "kind": "send", "slack": 11}, {"name": "r", "platform": "q", "kind": "receive"},
               {"name": "out", "platform": "q", "kind": "actuator", "slack": 100}, {"name": "seen", "platform": "p", "kind": "actuator", "slack": 100}],
    "wires": [["s", 0, "m", 0], ["s", 0, "seen", 0], ["m", 0, "w", 0], ["r", 0, "out", 0]], "links": [{"from": "w", "to": "r", "delay": 40}]}
ROWS = "time,seen,value\n50,55,7\n70,70,8\n"
# A way to change the graph, and the line with which both programs refuse it.
LACKS: list[tuple[Callable[[Graph], Any], str]] = [
    (lambda graph: graph.update(ptides=2, clock_errors=[]), "version 2"),
    (lambda graph: graph.update(clock_errors=[["p", "q", 9]]), "member clock_errors"),
    (lambda graph: graph["actors"][1]["rows"][0].update(guard="least"), "member guard"),
    (lambda graph: graph["actors"].append({"name": "l", "platform": "p", "kind": "lanes", "cells": [1, 1]}), "kind lanes"),
    (lambda graph: graph["actors"].append({"name": "b", "platform": "p", "kind": "block", "block": "max"}), "block max")]
# Of run: a way to change the graph, the file of its rows, and the status and line that are those of ptides.
REFUSED: list[tuple[Callable[[Graph], Any], str, int, str]] = [
    (lambda graph: None, ROWS.replace("70,70", "70,81"), 4, "late s row 2, seen 81 past 80"),
    (lambda graph: graph["actors"][2].update(slack=10), ROWS, 2, "graph: infeasible w, offset 10, slack 10"),
    (lambda graph: graph.update(until=200_000, actors=graph["actors"] + [{"name": "e", "platform": "q", "kind": "every", "start": 0, "period": 1}]),
     ROWS, 6, "long q")]
# Ways to write rows, as docs/FORMATS-sensors.md allows them.
ROW_FILES = [ROWS.replace("\n", "\r\n"), ROWS.replace("\n", "\r"), "\ufeff" + ROWS, "\n" + ROWS.replace("\n", "\n\n"), ROWS.rstrip("\n"), ROWS + "2000,9000,1\n",
             "time,seen,value\n0,00000000000000000005,-9223372036854775808\n1,5,9223372036854775807\n2,5,-0\n", "time,seen,value\n"]


def generator() -> Any:
    """The module of make-random-graph.py."""
    specification = importlib.util.spec_from_file_location("make_random_graph", TOP / "tools" / "make-random-graph.py")
    assert specification and specification.loader
    module = importlib.util.module_from_spec(specification)
    specification.loader.exec_module(module)
    return module


class Plain(Case):
    """The plain programs, in a folder of their own."""
    programs: Path

    @classmethod
    def setUpClass(cls) -> None:
        if not shutil.which("rustc"):
            raise unittest.SkipTest("rustc isn't there")
        cls.programs = Path(tempfile.mkdtemp())
        cls.addClassCleanup(shutil.rmtree, cls.programs)
        for name in ("event_loop", "paced_engine"):
            subprocess.run(["rustc", "--edition", "2021", "-A", "warnings", "-o", cls.programs / name, TOP / "bench" / f"{name}.rs"], check=True)

    def setUp(self) -> None:
        self.folder = Path(tempfile.mkdtemp())
        self.addCleanup(shutil.rmtree, self.folder)

    def plain(self, name: str, *words: str) -> Done:
        """Runs a plain program on the graph."""
        return run([self.programs / name, "graph.json", *words], self.folder)

    def write(self, change: Callable[[Graph], Any] = lambda graph: None, rows: str = ROWS) -> None:
        """Writes the graph with a change, and its rows."""
        graph = copy.deepcopy(GRAPH)
        change(graph)
        (self.folder / "graph.json").write_text(json.dumps(graph))
        (self.folder / "s.csv").write_bytes(rows.encode())

    def is_same(self) -> Done:
        """The plain programs end as `run --log` and `meaning` do, with the same output. Gives how `run` ends."""
        wanted, found = ptides("run", "graph.json", "--log", folder=self.folder), self.plain("paced_engine", "--log", "--records")
        # A plain program doesn't write what was missed.
        self.assertEqual((found.status, found.notes), (wanted.status, "" if wanted.status == 5 else wanted.notes))
        self.assertTrue(found.output == wanted.output, "not the tables and the log of run")
        meaning, loop = ptides("meaning", "graph.json", folder=self.folder), self.plain("event_loop")
        self.assertEqual((loop.status, loop.notes), (meaning.status, meaning.notes))
        self.assertTrue(loop.output == meaning.output, "not the tables of the meaning")
        return wanted

    def test_random_graphs(self) -> None:
        """Random graphs of version 1; those with more actors than it has are of version 2, and are refused."""
        make = generator().make
        for seed in range(1, int(os.environ.get("RANDOM_GRAPHS", "60")) + 1):
            with self.subTest(seed=seed):
                make(seed, self.folder, 1)
                if json.loads((self.folder / "graph.json").read_text())["ptides"] == 1:
                    self.is_same()
                else:
                    self.assertEqual(self.plain("paced_engine"), (1, "", "not taken: version 2\n"))

    def test_row_files(self) -> None:
        """However a sensor file is written, its rows are the same; but fields in quotes are refused."""
        for rows in ROW_FILES:
            with self.subTest(rows=rows):
                self.write(rows=rows)
                self.assertEqual(self.is_same().status, 0)
        self.write(rows=ROWS.replace("8", '"8"'))
        for name in ("event_loop", "paced_engine"):
            self.assertEqual(self.plain(name), (1, "", "not taken: row 2 of sensor s\n"))

    def test_what_is_lacking(self) -> None:
        """What only version 2 has is refused by name."""
        for change, what in LACKS:
            self.write(change)
            for name in ("event_loop", "paced_engine"):
                with self.subTest(what=what, name=name):
                    self.assertEqual(self.plain(name), (1, "", f"not taken: {what}\n"))

    def test_refusals(self) -> None:
        """What run refuses after the graph was read is refused with its status and line."""
        for change, rows, status, line in REFUSED:
            with self.subTest(line=line):
                self.write(change, rows)
                wanted = ptides("run", "graph.json", folder=self.folder)
                self.assertEqual((wanted.status, wanted.notes), (status, line + "\n"))
                self.assertEqual(self.plain("paced_engine"), (status, "", line + "\n"))


if __name__ == "__main__":
    main()
