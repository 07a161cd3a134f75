#!/usr/bin/env python3
"""Checks `ptides lint`: each warning on a graph that has it, and none in the examples."""
from __future__ import annotations

import shutil
import tempfile
from pathlib import Path

from counted import EXAMPLES, GRAPHS, Case, blocks_of, companion, main

GRAPH = """{"ptides":1,"until":1000,"clock_error":0,
 "platforms":["p"],
 "actors":[
  {"name":"a","platform":"p","kind":"sensor","file":"a.csv","bound":50},
  {"name":"b","platform":"p","kind":"sensor","file":"b.csv","bound":50},
  {"name":"both","platform":"p","kind":"add"},
  {"name":"out","platform":"p","kind":"actuator","slack":60}],
 "wires":[["a",0,"both",0],["b",0,"both",1],["both",0,"out",0]],
 "links":[]}
"""
A = "time,seen,value\n100,120,1\n200,220,2\n300,320,3\n"
MACHINE = '"kind":"machine","start":0,"outputs":2,"rows":[{"state":0,"low":0,"high":9,"next":0,"emit":[0,1]}]}'
B = '{"name":"b","platform":"p","kind":"sensor","file":"b.csv","bound":50},\n'
# What is changed, the line that is named, and what is said; the sensor files are `a.csv` and `b.csv`.
WARNINGS = [
    ("never at one tag", {"b.csv": "time,seen,value\n101,120,1\n201,220,2\n301,320,3\n"}, 6,
     "the two inputs of `both` (add) come at one tag in none of 6 firings"),
    ("seldom at one tag", {"b.csv": "time,seen,value\n100,120,1\n201,220,2\n301,320,3\n"}, 6, "come at one tag in 1 of 5 firings"),
    ("a block", {"b.csv": "time,seen,value\n150,160,1\n", "graph.json": GRAPH.replace('"add"', '"block","block":"mean"')}, 6,
     "(mean) come at one tag in none of 4 firings"),
    ("one input is silent", {"graph.json": GRAPH.replace(B[27:-3], '"kind":"every","start":5,"period":5000')}, 6,
     "(add) come at one tag in none of 4 firings"),
    ("until", {"graph.json": GRAPH.replace("1000", "99")}, 4, "`until` is 99, and the first row of `a` has the time 100"),
    ("all late", {"graph.json": GRAPH.replace('"bound":50', '"bound":19', 1)}, 4,
     "all 3 rows of `a` are late: they are seen 20 to 20 after their time, and the bound is 19"),
    ("far below", {"graph.json": GRAPH.replace('"bound":50', '"bound":101', 1).replace('"slack":60', '"slack":200')}, 4,
     "the rows of `a` are seen at most 20 after their time, and all wait for its bound, 101"),
    ("no actuator", {"graph.json": GRAPH.replace('"slack":60}', '"slack":60},\n  {"name":"n","platform":"p","kind":"count"}').replace(
        '"wires":[', '"wires":[["a",0,"n",0],')}, 8,
     "no actuator is behind `n`"),
    ("an output", {"graph.json": GRAPH.replace('"kind":"add"}', MACHINE).replace('["b",0,"both",1],', '').replace(
        B, "")}, 5, "output 1 of `both` leads nowhere"),
    ("a margin", {"graph.json": GRAPH.replace('"slack":60', '"slack":50')}, 7, "margin -1: `out` misses each of its events"),
    ("no event", {"graph.json": GRAPH.replace('"kind":"add"}', '"kind":"sub"}').replace(
        '"name":"out"', '"name":"high","platform":"p","kind":"above","limit":5},\n  {"name":"out"').replace(
        '["both",0,"out",0]', '["both",0,"high",0],["high",0,"out",0]')}, 8, "`out` has no event")]


class Lint(Case):
    """The warnings."""

    def lint(self, files, *words):
        """What is said of these files."""
        folder = Path(tempfile.mkdtemp())
        self.addCleanup(shutil.rmtree, folder)
        for name, text in {"graph.json": GRAPH, "a.csv": A, "b.csv": A, **files}.items():
            (folder / name).write_text(text)
        return companion("lint", "graph.json", *words, folder=folder)

    def test_warnings(self) -> None:
        """Each warning where it belongs. The unchanged graph has none."""
        self.assertEqual(self.lint({}).output, "no warnings\n")
        for what, files, line, words in WARNINGS:
            with self.subTest(what=what):
                done = self.lint(files)
                said = [each for each in done.output.splitlines() if words in each]
                self.assertEqual((done.status, len(said)), (0, 1), done.output + done.notes)
                self.assertTrue(said[0].startswith(f"graph.json:{line}: warning: "), said[0])
                self.assertEqual(self.lint(files, "--strict").status, 1)

    def test_no_warning(self) -> None:
        """Rows whose `seen` repeats `time`, a bound of 5 times the greatest wait, half of the firings with both inputs."""
        same = "time,seen,value\n100,100,1\n200,200,2\n"
        for files in ({"a.csv": same, "b.csv": same}, {"graph.json": GRAPH.replace('"bound":50', '"bound":100').replace('"slack":60', '"slack":101')},
                      {"b.csv": "time,seen,value\n100,120,1\n200,220,2\n301,320,3\n"}):
            with self.subTest(files=files):
                self.assertEqual(self.lint(files).output, "no warnings\n")

    def test_examples(self) -> None:
        """No warning in the examples, but for the deadline that can't be kept, the inputs that idiom `hold` mends, and the actuators
        that have nothing to do in a good run: the test stand gives no warning and needs no cooler, and the relay has no fault."""
        for example in GRAPHS:
            with self.subTest(example=example.name):
                done = companion("lint", "graph.json", *blocks_of(example), folder=example)
                if example.name == "missed":
                    self.assertIn("margin -101: `valve`", done.output)
                    self.assertTrue(done.output.endswith("\n1 warning\n"))
                elif example.name == "hold":
                    self.assertIn("the two inputs of `wrong` (sub) come at one tag in none of 4 firings", done.output)
                    self.assertTrue(done.output.endswith("\n1 warning\n"))
                elif example.name == "stand":
                    said = "graph.json:24: warning: `warning` has no event\ngraph.json:29: warning: `cooler` has no event\n2 warnings\n"
                    self.assertEqual((done.status, done.output), (0, said))
                elif example.name == "relay":
                    self.assertEqual((done.status, done.output), (0, "graph.json:22: warning: `fault` has no event\n1 warning\n"))
                else:
                    self.assertEqual((done.status, done.output), (0, "no warnings\n"))

    def test_refused(self) -> None:
        """Bad words, refused graphs and refused sensor files."""
        self.refuses_bad_input("lint")
        self.passes_refusals_on("lint")
        for name, status in [("sensor_number", 3), ("no_sensor_file", 7)]:
            folder = EXAMPLES / "refused" / name
            done = companion("lint", "graph.json", folder=folder)
            self.assertEqual((done.status, done.notes), (status, (folder / "expected.notes").read_text()))
        done = companion("lint", "graph.json", folder=EXAMPLES / "refused" / "long_run")
        self.assertIn("graph.json: warning: a platform makes 200,002 firings, more than 200,000: with `--claims 200002` the whole run fits; ", done.output)


if __name__ == "__main__":
    main()
