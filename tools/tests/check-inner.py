#!/usr/bin/env python3
"""Checks `ptides.inner`: what the outputs of a graph give, by one run or by many, is what one run with all probes gives."""
from __future__ import annotations

import json
import shutil
import sys
import tempfile
import unittest.mock
from collections import Counter
from pathlib import Path
from typing import Any

import pythons

sys.path.insert(0, str(pythons.PACKAGE))

from counted import EXAMPLES, GRAPHS, Case, blocks_in, companion, main  # noqa: E402

import ptides  # noqa: E402
from ptides import inner, probes  # noqa: E402


class Signals(Case):
    """The inner signals of graphs."""

    def setUp(self) -> None:
        self.folder = Path(tempfile.mkdtemp())
        self.addCleanup(shutil.rmtree, self.folder)
        self.asked: list[dict[str, Any]] = []

    def signals(self, folder: Path, **options: Any) -> inner.Inner:
        """What each output of the graph in a folder gives; the graphs that were run are kept."""
        def ask(graph: dict[str, Any]) -> str:
            self.asked.append(graph)
            return ptides.run(graph, folder=folder, blocks=blocks_in(folder)).output

        self.asked = []
        result = ptides.run(folder, blocks=blocks_in(folder))
        claims = Counter(entry.actor for entry in result.entries() if entry.what == "claim")
        return inner.inner_signals(result.graph, claims, ask, **options)

    def wanted(self, folder: Path) -> dict[probes.Output, list[inner.Value]]:
        """The same by one run of the whole graph with all probes."""
        result = ptides.run(folder, probes=True, blocks=blocks_in(folder))
        return inner.watched_values(result.output, result.probes)

    def chain(self, names: str, rows: int) -> Path:
        """A folder with a graph of a sensor and of actors one after the other, the last of which leads nowhere."""
        actors = [{"name": "s", "platform": "p", "kind": "sensor", "file": "s.csv", "bound": 5}]
        actors += [{"name": name, "platform": "p", "kind": "shift", "by": 1} for name in names]
        wires = [[before["name"], 0, after["name"], 0] for before, after in zip(actors, actors[1:])]
        graph = {"ptides": 1, "until": 10**9, "clock_error": 0, "platforms": ["p"], "actors": actors, "wires": wires, "links": []}
        (self.folder / "graph.json").write_text(json.dumps(graph))
        (self.folder / "s.csv").write_text("time,seen,value\n" + "".join(f"{number},{number},1\n" for number in range(rows)))
        return self.folder

    def test_examples(self) -> None:
        """Of each example by one run; and where only some actors fit into a run by several, each with as many as fit."""
        for folder in GRAPHS:
            with self.subTest(example=folder.name):
                wanted, found = self.wanted(folder), self.signals(folder)
                self.assertEqual((found.values, found.notes, len(self.asked)), (wanted, [], 1))
                most = max(len(found) for found in inner.sources_of(self.asked[0]).values()) + 1
                with unittest.mock.patch.multiple(inner, MOST_ACTORS=most, MOST_RUNS=1000):
                    found = self.signals(folder)
                self.assertEqual((found.values, found.notes), (wanted, []))
                self.assertLessEqual(max(len(graph["actors"]) for graph in self.asked), most)

    def test_known_and_needed(self) -> None:
        """What is known isn't watched; what is needed is in each run, with what leads to it."""
        found = self.signals(EXAMPLES / "network", known=["speed", "err"], needed=["down"])
        self.assertEqual({name for name, _ in found.values} & {"speed", "err"}, set())
        names = {actor["name"] for actor in self.asked[0]["actors"]}
        self.assertLessEqual({"speed", "err", "hold", "up", "down"}, names)
        self.assertNotIn("valve", names)

    def test_long_runs(self) -> None:
        """A run of 200,000 firings has no room for probes, but one without the actors behind them has. What has none is named."""
        found = self.signals(self.chain("abc", 50_000))
        self.assertEqual([len(graph["actors"]) for graph in self.asked], [4, 4])
        self.assertEqual({name: len(values) for (name, _), values in found.values.items()}, {"s": 50_000, "a": 50_000, "b": 50_000})
        self.assertEqual(found.notes, ["not shown, since a run that watches them would be too long, or its graph too large: c"])
        with unittest.mock.patch.object(inner, "MOST_RUNS", 1):
            found = self.signals(self.folder)
        self.assertEqual(found.notes, ["not shown, since a run that watches them would be too long, or its graph too large: c",
                                       "not shown, since 1 runs watch others already: b"])

    def test_refused_runs(self) -> None:
        """What is watched by a run that ends otherwise is named, at most ten actors, with the line of the program."""
        folder = self.chain("abcdefghijkl", 3)
        graph = json.loads((folder / "graph.json").read_text())

        def ask(part: dict[str, Any]) -> str:
            return ptides.run({**part, "until": -1}, folder=folder).output

        found = inner.inner_signals(graph, {}, ask)
        self.assertEqual(found.notes, ["not shown, since the run that watches them ends with `graph: range at top`: s, a, b, c, d, e, f, g, h, i and 3 more"])

    def test_waves_and_report(self) -> None:
        """`wave` and `report` show the same inner signals, also of a long run and over a recorded network."""
        folder = self.chain("ab", 50_000)
        done = companion("wave", "graph.json", "--csv", "-", folder=folder)
        self.assertEqual((done.status, done.notes), (0, ""))
        counts = Counter(line.split(",")[2] for line in done.output.splitlines() if line.startswith("event,"))
        self.assertEqual(counts, {"s": 50_000, "a": 50_000, "b": 50_000})
        done = companion("wave", "replay", "graph.json", "air.csv", "--csv", "-", folder=EXAMPLES / "network")
        counts = Counter(line.split(",")[2] for line in done.output.splitlines() if line.startswith("event,"))
        self.assertEqual(counts["gov"], 5)


if __name__ == "__main__":
    main()
