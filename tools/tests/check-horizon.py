#!/usr/bin/env python3
"""Checks what is said of a run that is too long: which horizon fits, and in how many parts the recording goes."""
from __future__ import annotations

import json
import os
import random
import re
import shutil
import sys
import tempfile
from pathlib import Path
from typing import Any
from unittest import mock

from counted import TOP, Case, companion, main, ptides

sys.path.insert(0, str(TOP / "python"))
from ptides.horizon import Sources, Whole, claims_line  # noqa: E402


class Horizons(Case):
    """Graphs whose runs are too long, in a folder of their own."""

    def setUp(self) -> None:
        self.folder = Path(tempfile.mkdtemp())
        self.addCleanup(shutil.rmtree, self.folder)

    def test_which_horizon_fits(self) -> None:
        """Of a run that is too long the horizon that fits, by which the program then goes; with more than that it refuses."""
        actors = [{"name": "level", "platform": "tank", "kind": "sensor", "file": "level.csv", "bound": 9}]
        actors += [{"name": f"by_{number}", "platform": "tank", "kind": "shift", "by": 1} for number in range(13)]
        actors.append({"name": "out", "platform": "tank", "kind": "actuator", "slack": 10})
        wires = [[start["name"], 0, end["name"], 0] for start, end in zip(actors, actors[1:])]
        graph = {"ptides": 1, "until": 86_400_000_000, "clock_error": 0, "platforms": ["tank"], "actors": actors, "wires": wires, "links": []}
        (self.folder / "level.csv").write_text("time,seen,value\n" + "".join(f"{second}000000,{second}000005,1\n" for second in range(86_400)))
        (self.folder / "graph.json").write_text(json.dumps(graph))
        done = companion("explain", "graph.json", folder=self.folder)
        # 13,333 events of 15 firings each are 199,995.
        self.assertIn("lower `until` from 86400000000 (24 h) to 13332999999 (3 h 42 min): then `run` makes 199,995 firings on `tank`", done.output)
        # 86,400 events of 15 firings each.
        self.assertIn("or allow more firings: with `--claims 1296000` the whole run fits; it then keeps 65 to 147 MB\n", done.output)
        # 86,400 rows in parts of 13,333 at most; each part is run.
        self.assertIn("or take the recording in 7 parts of 3 h 25 min: `rows` with a --zero for each, `--from 0 --to 12342999999`, and 12342999999 as `until` "
                      "(docs/RECORDINGS.md, Long recordings)\n", done.output)
        for name, words in (("wave", ["--svg", "-"]), ("report", ["-o", "-"])):
            other = companion(name, "graph.json", *words, folder=self.folder)
            self.assertEqual((other.status, other.output, other.notes.splitlines()[0]), (6, "", "long tank"))
            self.assertEqual([line.replace(f"ptides {name}: ", "  = help: ") for line in other.notes.splitlines()[1:]],
                             [line for line in done.output.splitlines() if "= help" in line])
        for claims, status in ((1_295_999, 6), (1_296_000, 0)):
            self.assertEqual(ptides("run", "graph.json", "--claims", claims, folder=self.folder).status, status)
        for until, status in ((13_332_999_999, 0), (13_333_000_000, 6)):
            (self.folder / "graph.json").write_text(json.dumps({**graph, "until": until}))
            self.assertEqual(ptides("run", "graph.json", folder=self.folder).status, status)

    def ticking(self, period: int, until: int, count: int = 1) -> dict[str, Any]:
        """A graph whose clocks tick into an actuator each: two firings a tick."""
        actors = [actor for number in range(count) for actor in (
            {"name": f"e{number}", "platform": "p", "kind": "every", "start": 0, "period": period}, {"name": f"out{number}", "platform": "p", "kind": "actuator", "slack": 10})]
        wires = [[f"e{number}", 0, f"out{number}", 0] for number in range(count)]
        graph = {"ptides": 1, "until": until, "clock_error": 0, "platforms": ["p"], "actors": actors, "wires": wires, "links": []}
        (self.folder / "graph.json").write_text(json.dumps(graph))
        return graph

    def test_more_claims(self) -> None:
        """Of a run that is too long for the claims that it was given the horizon is that of these, to the microsecond."""
        graph = self.ticking(7, 2_100_000)
        done = companion("explain", "graph.json", "--claims", "300001", folder=self.folder)
        # A tick at 0, and 150,000 ticks of two firings before the first that doesn't fit.
        self.assertIn("at most 300,001 firings a platform\n", done.output)
        self.assertIn(f"to {150_000 * 7 - 1} (1 s 49 ms): then `run` makes 300,000 firings on `p`\n", done.output)
        self.assertIn("with `--claims 600002` the whole run fits", done.output)
        for until, status in ((150_000 * 7 - 1, 0), (150_000 * 7, 6)):
            text = json.dumps({**graph, "until": until})
            self.assertEqual(ptides("run", "/dev/stdin", "--claims=300001", folder=self.folder, given=text).status, status)

    def test_far_too_long(self) -> None:
        """Of a run that is too long to be counted it is said about how many firings it makes; also if no number of claims is enough."""
        self.ticking(10, 10**9)
        done = companion("explain", "graph.json", folder=self.folder)
        self.assertIn("the whole run makes about 200,000,002 firings on a platform, more than `--claims 100000000` allows\n", done.output)
        self.assertEqual(claims_line(Whole(20_000_000, 30_000_000, False)), "or allow more firings: the whole run makes about 20,000,000 on a platform, so "
                         "`--claims` of that and some more; it then keeps 1,500 to 3,390 MB")
        # Even the first events are more than fit.
        self.ticking(10**6, 10**6, 110)
        self.assertEqual(companion("explain", "graph.json", folder=self.folder).status, 0)

    def test_one_search(self) -> None:
        """A report looks for the horizon once, as `explain` does."""
        self.ticking(10, 2_000_000)
        real, calls = os.environ.get("PTIDES") or TOP / "ptides", self.folder / "calls"
        watched = self.folder / "watched"
        watched.write_text(f'#!/bin/sh\necho "$*" >>"{calls}"\nexec "{real}" "$@"\n')
        watched.chmod(0o755)
        counts = []
        with mock.patch.dict(os.environ, {"PTIDES": str(watched)}):
            for name, words in (("explain", []), ("report", ["-o", "-"])):
                calls.write_text("")
                self.assertEqual(companion(name, "graph.json", *words, folder=self.folder).status, 6)
                counts.append(sum("--claims" in line for line in calls.read_text().splitlines()))
        self.assertGreater(counts[0], 0)
        self.assertEqual(counts[0], counts[1])

    def test_a_horizon_of_growing_firings(self) -> None:
        """If later events make more firings than earlier ones, a horizon that fits is found still."""
        actors = [{"name": "e", "platform": "p", "kind": "every", "start": 0, "period": 10_000}, {"name": "m", "platform": "p", "kind": "merge", "n": 3},
                  {"name": "d", "platform": "p", "kind": "delay", "d": 507}, {"name": "f", "platform": "p", "kind": "delay", "d": 3331},
                  {"name": "out", "platform": "p", "kind": "actuator", "slack": 10}]
        wires = [["e", 0, "m", 0], ["m", 0, "d", 0], ["d", 0, "m", 1], ["m", 0, "f", 0], ["f", 0, "m", 2], ["m", 0, "out", 0]]
        graph = {"ptides": 1, "until": 10**8, "clock_error": 0, "platforms": ["p"], "actors": actors, "wires": wires, "links": []}
        done = companion("explain", "/dev/stdin", folder=self.folder, given=json.dumps(graph))
        until = int(re.search(r" to (\d+) \(", done.output)[1])
        self.assertEqual(ptides("run", "/dev/stdin", folder=self.folder, given=json.dumps({**graph, "until": until})).status, 0)
        self.assertEqual(ptides("run", "/dev/stdin", folder=self.folder, given=json.dumps({**graph, "until": 2 * until})).status, 6)

    def test_parts_fit(self) -> None:
        """Of random rows all are in a part, and each part fits."""
        random.seed(8)
        for number in range(60):
            scale = random.choice([1, 10**6])
            rows = sorted(random.sample(range(4000), 100))
            (self.folder / "s.csv").write_text("time,seen,value\n" + "".join(f"{row * scale},{row * scale},1\n" for row in rows))
            period = random.choice([0, 500])
            actors = [{"kind": "sensor", "file": str(self.folder / "s.csv")}]
            actors += [{"kind": "every", "start": 0, "period": period * scale}] if period else []
            sources, most = Sources({"until": 10**10, "actors": actors}), random.randrange(20, 60)
            found = sources.parts(most)
            with self.subTest(number=number):
                if found is None:
                    self.assertTrue(period)
                    continue
                ticks = (found.length - 1) // (period * scale) + 1 if period else 0
                counts = [sum(found.length * part <= row * scale < found.length * (part + 1) for row in rows) for part in range(found.number)]
                self.assertEqual(sum(counts), len(rows))
                self.assertLessEqual(max(counts) + ticks, most)

    def test_too_many_rows(self) -> None:
        """Of too many rows it is said up to where they fit, and in how many parts they go: by `rows`, and by `explain` of a sensor file."""
        lines = "".join(f"{number * 10},1\n" for number in range(250_001))
        (self.folder / "t.csv").write_text("t,v\n" + lines)
        words = ("csv", "t.csv", "--stamp", "t", "--unit", "us", "--value", "v", "--latency", "0")
        done = companion("rows", *words, folder=self.folder)
        self.assertEqual((done.status, done.notes), (1, "ptides rows: t.csv:100002: more than 100000 rows; choose a part with --from and --to: --to 999990 takes the first rows "
                                                     "that fit; all are 250001 rows, so 3 parts or more, or `--claims 250001`\n"))
        done = companion("rows", *words, "--claims", "250001", "-o", "s.csv", folder=self.folder)
        self.assertEqual((done.status, done.notes.split(",")[0]), (0, "250001 rows"))
        done = companion("rows", *words, "--to", "999990", "-o", "s.csv", folder=self.folder)
        self.assertEqual((done.status, done.notes.split(",")[0]), (0, "100000 rows"))
        (self.folder / "s.csv").write_text("time,seen,value\n" + "".join(f"{number},{number},1\n" for number in range(100_001)))
        graph = {"ptides": 1, "until": 9, "clock_error": 0, "platforms": ["p"], "actors": [{"name": "s", "platform": "p", "kind": "sensor", "file": "s.csv", "bound": 0}],
                 "wires": [], "links": []}
        (self.folder / "graph.json").write_text(json.dumps(graph))
        self.assertIn("the file has 100,001, which go in 2 parts: `--from` and `--to` of `rows` take one (docs/RECORDINGS.md, Long recordings); or allow "
                      "them: `--claims 200001`\n", companion("explain", "graph.json", folder=self.folder).output)
        self.assertEqual(ptides("run", "graph.json", "--claims", "200001", folder=self.folder).status, 0)


if __name__ == "__main__":
    main()
