#!/usr/bin/env python3
"""Checks the tools that measure hard inputs, bench/worst*.py: their shapes, the changes of logs and recordings, the figures, and the search."""
from __future__ import annotations

import os
import random
import re
import shutil
import sys
import tempfile
import unittest
from pathlib import Path

from counted import TOP, Case, main, ptides, run

sys.path.insert(0, str(TOP / "bench"))
import worst_shapes  # noqa: E402
from worst_calls import CALLS, Call, Cost, Figure, Place  # noqa: E402
from worst_files import AIR_CHANGES, LOG_CHANGES  # noqa: E402

PROGRAM = os.path.abspath(os.environ.get("PTIDES") or TOP / "ptides")
# Sizes at which each shape is small; smaller than that a group of two isn't what the shape is about.
SMALL = 8


def small(name: str) -> worst_shapes.Graph:
    return worst_shapes.SHAPES[name](**{size: min(number, SMALL) for size, number in worst_shapes.sizes_of(name).items()})


class Worst(Case):
    """The tools, in a folder of their own."""

    def setUp(self) -> None:
        self.folder = Path(tempfile.mkdtemp())
        self.addCleanup(shutil.rmtree, self.folder)

    def test_shapes(self) -> None:
        """Each shape is lawful in each of its forms, and both forms have the same tables."""
        for name in worst_shapes.SHAPES:
            graph = small(name)
            with self.subTest(shape=name):
                outputs = []
                for form in (graph, graph.shuffled(random.Random(1)), graph.hastened()):
                    shutil.rmtree(self.folder)
                    form.write(str(self.folder))
                    self.assertEqual(ptides("check", "graph.json", folder=self.folder).status, 0)
                    if form.until == graph.until:
                        outputs.append(sorted(ptides("run", "graph.json", folder=self.folder).output.splitlines()))
                    self.assertIn(ptides("replay", "graph.json", "network.air", folder=self.folder).status, (0, 4, 5, 6))
                self.assertEqual(outputs[:1], outputs[1:2] or outputs[:1])

    def judged(self, name: str, change: str) -> str:
        """What `audit` says of the log of a shape's run after a change."""
        Place(PROGRAM, str(self.folder), small(name), [change], 3)
        done = ptides("audit", "graph.json", "run.log", folder=self.folder)
        return done.output + done.notes

    def test_changed_logs(self) -> None:
        """A log stays lawful whatever the order of posts and sends, and with quiet turns; one that leaves a claim open isn't finished."""
        for change in LOG_CHANGES:
            with self.subTest(change=change):
                wanted = "unlawful: " if change == "takes_without_claims" else "lawful\n"
                self.assertTrue(self.judged("sends_held_back", change).startswith(wanted), change)
        self.assertEqual(ptides("audit", "graph.json", "run.log", folder=self.made("claim_left_open")).notes, "unlawful: unfinished p0\n")

    def made(self, name: str) -> Path:
        Place(PROGRAM, str(self.folder), small(name))
        return self.folder

    def test_changed_recordings(self) -> None:
        """Each change of a recording is an air file that `replay` takes."""
        for change in AIR_CHANGES:
            graph = small("platforms_in_a_ring").recorded(random.Random(1))
            change(graph, random.Random(2))
            graph.write(str(self.folder))
            with self.subTest(change=change.__name__):
                self.assertIn(ptides("replay", "graph.json", "network.air", folder=self.folder).status, (0, 4, 5))

    def test_figures(self) -> None:
        """All calls of a graph are measured, and what is beyond a goal is said to be."""
        place = Place(PROGRAM, str(self.folder), small("platforms_in_a_ring"))
        self.assertGreater(place.events, 0)
        for name, figure in place.figures(1, CALLS).items():
            with self.subTest(call=name):
                self.assertIn(figure.cost.status, (0, 4, 5))
        call = Call("run", ("run", "graph.json"), "event")
        self.assertEqual(Figure(call, Cost(100.0, 1.0, 0), 20.0).times(), 4.0)
        self.assertEqual(Figure(call, Cost(100.0, 1.0, 0), 20.0).told(), "run: 20.0 us an event, 4.0 times the goal of 5; 100 ms, 1 MB")
        self.assertEqual(Figure(call, Cost(None, 1.0, None), None).times(), float("inf"))
        self.assertEqual(Figure(call, Cost(2.0, 1.0, 0), None).times(), 0.0)

    def test_tools(self) -> None:
        """The table, the growth and the search run, and wrong words give one line."""
        words = ["bench/worst.sh", "1", "chain:length=8,tags=8"]
        done = run([TOP / words[0], *words[1:]], TOP)
        self.assertEqual((done.status, done.output.count("\n| `chain`")), (0, 2), done.notes)
        done = run([TOP / words[0], "growth", *words[1:]], TOP)
        self.assertEqual((done.status, done.notes), (0, ""))
        self.assertRegex(done.output, r"\Achain: 88 events, ")
        search = TOP / "bench" / "worst_search.py"
        done = run([sys.executable, search, PROGRAM, "0.02", "1", "chain:length=8,tags=8"], self.folder)
        self.assertEqual((done.status, done.notes), (0, ""))
        self.assertRegex(done.output, re.compile(r"^\d+ inputs tried, \d+ of them lawful\.", re.MULTILINE))
        for wrong in ([], [PROGRAM, "soon"], ["no_such_program", "1"], [PROGRAM, "1", "1", "no_such_shape"], [PROGRAM, "1", "1", "chain:width=2"]):
            done = run([sys.executable, search, *wrong], self.folder)
            with self.subTest(wrong=wrong):
                self.assertEqual((done.status, done.output, done.notes.count("\n")), (1, "", 1))


if __name__ == "__main__":
    unittest.TestCase.maxDiff = None
    main()
