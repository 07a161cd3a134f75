#!/usr/bin/env python3
"""Checks `ptides timing`: raised by its numbers all is in time and `check` answers 0, by one more it isn't and doesn't."""
from __future__ import annotations

import csv
import json

from counted import EXAMPLES, GRAPHS, Case, blocks_of, companion, main, ptides


def raised(graph, number, of, by):
    """The graph with one number raised, found by its name."""
    graph = json.loads(json.dumps(graph))
    if number == "link delay":
        holder, key = next(link for link in graph["links"] if f"{link['from']} to {link['to']}" == of), "delay"
    elif number == "clock error":
        pairs = {f"{each[0]} and {each[1]}": each for each in graph.get("clock_errors", [])}
        holder, key = (pairs[of], 2) if of in pairs else (graph, "clock_error")
    else:
        holder, key = next(actor for actor in graph["actors"] if actor["name"] == of), number
    holder[key] += by
    return json.dumps(graph)


class Timing(Case):
    """The two tables."""
    blocks: list[str] = []

    def ask(self, text):
        """Status, margins below 0, offsets; by the formulas of the example that is looked at."""
        done = ptides("check", "/dev/stdin", *self.blocks, folder=EXAMPLES, given=text)
        rows = [row.split(",") for row in done.output.splitlines()[1:]]
        return done.status, {name for name, _, margin in rows if margin.startswith("-") and margin != "-"}, {name: offset for name, offset, _ in rows}

    def test_growth(self) -> None:
        """Of each number of each example, asked of `check` itself."""
        for example in GRAPHS:
            graph, self.blocks = json.loads((example / "graph.json").read_text()), blocks_of(example)
            done = companion("timing", "--only", "growth", "graph.json", *self.blocks, folder=example)
            self.assertEqual((done.status, done.notes), (0, ""))
            base = self.ask(json.dumps(graph))
            rows = list(csv.DictReader(done.output.splitlines()))
            slacks = sum("slack" in actor for actor in graph["actors"]) + sum("bound" in actor for actor in graph["actors"])
            self.assertEqual(len(rows), slacks + len(graph["links"]) + len(graph.get("clock_errors", [])) + (len(graph["platforms"]) > 1))
            for row in rows:
                with self.subTest(example=example.name, number=row["number"], of=row["of"]):
                    grows, accepts = int(row["may grow by"]), int(row["check accepts"])
                    status, below, _ = self.ask(raised(graph, row["number"], row["of"], grows))
                    self.assertTrue(status == 0 and below <= base[1], row)
                    status, below, _ = self.ask(raised(graph, row["number"], row["of"], grows + 1))
                    late = row["then"].split()[0]
                    self.assertTrue(status == 2 or late in below - base[1], row)
                    self.assertEqual(self.ask(raised(graph, row["number"], row["of"], accepts))[0], 0)
                    self.assertEqual(self.ask(raised(graph, row["number"], row["of"], accepts + 1))[0], 2)
                    status, _, offsets = self.ask(raised(graph, row["number"], row["of"], 1))
                    changed = " ".join(name for name in offsets if offsets[name] != base[2][name]) or "-"
                    self.assertEqual(row["sets the offset of"], changed if status == 0 else row["sets the offset of"])

    def test_by_hand(self) -> None:
        """The governor as docs/TIMING.md works it out: margins 299 and 549, two paths. For the boiler the lesser slack counts."""
        done = companion("timing", "graph.json", folder=EXAMPLES / "governor")
        self.assertIn("bound,speed,200,299,up can't send in time,299,speed err hold up\n", done.output)
        self.assertIn("link delay,up to down,400,549,valve misses its time,999999999999600,down gov lead valve\n", done.output)
        self.assertIn("\n\nactor,offset,margin,set by,path\n", done.output)
        self.assertIn("up,-300,299,bound of speed,speed -> err -> hold -> up\n", done.output)
        self.assertIn("valve,-550,549,link up to down,down -> gov -> lead -> valve\n", done.output)
        done = companion("timing", "graph.json", folder=EXAMPLES / "missed")
        self.assertIn("bound,pressure,400,99,panel misses its time,", done.output)
        done = companion("timing", "--only", "offsets", "--markdown", "graph.json", folder=EXAMPLES / "lanes")
        self.assertTrue(done.output.startswith("| actor | offset | margin | set by | path |\n|---|---|---|---|---|\n"))
        self.assertIn("| brake | 50 | 49 | bound of left | left -> inputs -> jammed -> brake |\n", done.output)
        self.assertIn("| fan | 40000 | 4999 | bound of heat | heat -> inputs -> hot -> fan |\n", done.output)

    def test_two_at_once(self) -> None:
        """If a quick sensor meets a slow one, it may grow up to the slow one first. By hand: 100 - 40 - 1 for both."""
        graph = {"ptides": 1, "until": 100, "clock_error": 0, "platforms": ["p"], "links": [], "actors": [
            {"name": "slow", "platform": "p", "kind": "sensor", "file": "s", "bound": 40},
            {"name": "quick", "platform": "p", "kind": "sensor", "file": "q", "bound": 7},
            {"name": "both", "platform": "p", "kind": "add"}, {"name": "out", "platform": "p", "kind": "actuator", "slack": 100}],
            "wires": [["slow", 0, "both", 0], ["quick", 0, "both", 1], ["both", 0, "out", 0]]}
        done = companion("timing", "/dev/stdin", folder=EXAMPLES, given=json.dumps(graph))
        self.assertIn("bound,slow,40,59,out misses its time,", done.output)
        self.assertIn("bound,quick,7,92,out misses its time,", done.output)
        self.assertIn("out,40,59,bound of slow,slow -> both -> out\n", done.output)

    def test_bad_input(self) -> None:
        """Bad words, files that aren't there, refused graphs."""
        self.refuses_bad_input("timing")
        self.passes_refusals_on("timing")


if __name__ == "__main__":
    main()
