#!/usr/bin/env python3
"""Checks that `ptides migrate` writes the graph of each example as Python's `json` does, and each text once more."""
from __future__ import annotations

import json

from counted import GRAPHS, TOP, Case, blocks_of, main, ptides

# Refusals that speak of the graph as a whole, of the rows or of the run: the file itself is a graph.
OTHER_FAULTS = ("cycle", "infeasible", "late_row", "long_meaning", "long_run", "no_sensor_file", "sensor_fields")


def text_of(graph: dict) -> str:
    """The graph as a file of version 2: compact, with the members of each object in the order of their names."""
    return json.dumps({"clock_errors": [], **graph, "ptides": 2}, sort_keys=True, separators=(",", ":")) + "\n"


class Migrate(Case):
    """The texts of graphs."""

    def test_texts(self) -> None:
        """Of each example, and of the graphs that `run` refuses for another reason than their text."""
        for folder in [*GRAPHS, *(TOP / "examples" / "refused" / name for name in OTHER_FAULTS)]:
            with self.subTest(folder=folder.name):
                wanted = text_of(json.loads((folder / "graph.json").read_text()))
                done = ptides("migrate", "graph.json", *blocks_of(folder), folder=folder)
                self.assertEqual((done.status, done.notes, done.output), (0, "", wanted))
                again = ptides("migrate", "/dev/stdin", *blocks_of(folder), folder=folder, given=done.output)
                self.assertEqual((again.status, again.output), (0, wanted))


if __name__ == "__main__":
    main()
