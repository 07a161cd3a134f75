#!/usr/bin/env python3
"""Checks the package `ptides`: without pandas, with it, and in each version of Python that is here."""
from __future__ import annotations

import html
import json
import os
import shutil
import subprocess
import sys
import tempfile
import unittest
from pathlib import Path

import pythons

pythons.prefer("pandas")
sys.path.insert(0, str(pythons.PACKAGE))

from counted import EXAMPLES, GRAPHS, REFUSED, TOP, Case, blocks_in, copied, example_words, main, ptides as program  # noqa: E402

import ptides  # noqa: E402
from ptides import tables, wall_time  # noqa: E402

GOVERNOR = EXAMPLES / "governor"
LATE = EXAMPLES / "refused" / "late_row"


class Plain(Case):
    """What needs no pandas."""

    def setUp(self) -> None:
        self.folder = Path(tempfile.mkdtemp())
        self.addCleanup(shutil.rmtree, self.folder)

    def test_examples(self) -> None:
        """Each example gives the tables that are stored, by `run`, and by `meaning`."""
        for folder in GRAPHS:
            if example_words(folder)[0] != "run":
                continue
            stored = (folder / "expected.csv").read_text()
            with self.subTest(example=folder.name):
                blocks = blocks_in(folder)
                result = ptides.run(folder, blocks=blocks)
                self.assertEqual(result.events, {**dict.fromkeys(result.actuators, []), **tables.events_of(stored)})
                self.assertEqual(result.output.split("log\n")[0], stored)
                self.assertEqual(ptides.meaning(folder / "graph.json", blocks=blocks).events, result.events)
                expected = folder / "expected.check"
                if expected.exists():
                    self.assertEqual(ptides.check(folder, blocks=blocks), tables.margins_of(expected.read_text()))

    def test_rooms_and_misses(self) -> None:
        """By hand: the governor's margins are 299 and 549; the boiler's valve is 101 late, and what `rooms` says is what is missed."""
        self.assertEqual({(room.actor, room.room) for room in ptides.run(GOVERNOR).rooms}, {("up", 299), ("valve", 549)})
        missed = ptides.run(EXAMPLES / "missed")
        self.assertEqual((missed.status, missed.misses), (5, [ptides.Miss("valve", 4000, 0, 4401, 4300)]))
        for folder in GRAPHS:
            with self.subTest(example=folder.name):
                for clock in ("paced", ("step", 0, 150)):
                    try:
                        result = ptides.run(folder, clock=clock, blocks=blocks_in(folder))
                    except ptides.Refused:
                        continue
                    late = sorted((room.actor, room.time, room.step, room.reading) for room in result.rooms if room.room < 0)
                    self.assertEqual(late, sorted(miss[:4] for miss in result.misses))

    def test_a_dict(self) -> None:
        """A graph may be a dict; another horizon, a clock and workers are options."""
        graph = json.loads((GOVERNOR / "graph.json").read_text())
        self.assertEqual(ptides.run(graph, folder=GOVERNOR).events, ptides.run(GOVERNOR).events)
        self.assertEqual(ptides.run(graph, folder=GOVERNOR, until=1500).events, {"valve": []})
        self.assertEqual(ptides.run(GOVERNOR, clock="step:0:50", workers=2).events, ptides.run(GOVERNOR).events)
        self.assertNotEqual(ptides.run(GOVERNOR, clock=("step", 0, 7)).log, ptides.run(GOVERNOR).log)
        self.assertEqual(graph, json.loads((GOVERNOR / "graph.json").read_text()))

    def test_sensor_paths(self) -> None:
        """A sensor may be another file, of any name; one that isn't named stays as it is."""
        file = self.folder / "a name with spaces, ünd more.csv"
        file.write_text("time,seen,value\n1000,1000,150\n")
        self.assertEqual(ptides.run(GOVERNOR, speed=file).events["valve"], [ptides.Event(2500, 0, 1)])
        self.assertEqual(ptides.run(GOVERNOR, sensors={"speed": str(file)}).events["valve"], [ptides.Event(2500, 0, 1)])
        both = ptides.run(EXAMPLES / "redundant", left=EXAMPLES / "redundant" / "left.csv")
        self.assertEqual(both.events, ptides.run(EXAMPLES / "redundant").events)

    def test_probes(self) -> None:
        """Inner signals, as docs/TIMING.md works them out; the tables stay as they are."""
        plain, probed = ptides.run(GOVERNOR), ptides.run(GOVERNOR, probes=True)
        self.assertEqual((probed.events, probed.actuators, probed.rooms), (plain.events, plain.actuators, plain.rooms))
        self.assertEqual([event.value for event in probed.events_at("err")], [-2, 4, -3])
        with self.assertRaisesRegex(ptides.Fault, "no actor nothing with an output"):
            ptides.run(GOVERNOR, probes=["nothing"])
        with self.assertRaises(KeyError):
            plain.events_at("err")

    def test_refusals(self) -> None:
        """Each refused example raises what the program says, with its status, its line and what `explain` shows."""
        for folder in REFUSED:
            own = {path.name for path in folder.iterdir()} & {"make.py", "to", "graph.json"}
            if example_words(folder) != ["run", "graph.json"] or own != {"graph.json"}:
                continue
            with self.subTest(example=folder.name), self.assertRaises(ptides.Refused) as caught:
                ptides.run(folder)
            fault = caught.exception
            self.assertEqual((fault.status, fault.line + "\n"), (int((folder / "status").read_text()), (folder / "expected.notes").read_text()))
            self.assertEqual(str(fault).split("\n")[0], f"error: {fault.line}")
        with self.assertRaises(ptides.Refused) as caught:
            ptides.run(LATE)
        self.assertEqual(caught.exception.place, "sensor s row 2")
        self.assertIn("\n --> s.csv:3:4\n", str(caught.exception))
        self.assertIn("a bound of 11 takes all rows", caught.exception.explanation)

    def test_bad_words(self) -> None:
        """What a call can't use is one line that names the option and what was given."""
        network = EXAMPLES / "network"
        for call, line in ((lambda: ptides.run(GOVERNOR, speed="no.csv"), "sensor speed: cannot read no.csv: No such file or directory"),
                           (lambda: ptides.run(GOVERNOR, speed="/"), "sensor speed: cannot read /: Is a directory"),
                           (lambda: ptides.run(GOVERNOR, clock="sundial"), "`--clock` takes .*; not `--clock sundial`"),
                           (lambda: ptides.run(GOVERNOR, clock=5), "`--clock` takes .*; not `--clock 5`"),
                           (lambda: ptides.run(GOVERNOR, workers=0), "`--workers` takes a number .*; not `--workers 0`"),
                           (lambda: ptides.run(GOVERNOR, until=-5), "until: -5 is below 0"),
                           (lambda: ptides.run(GOVERNOR, until=1.5), "until: 1.5 is no time"),
                           (lambda: ptides.run(GOVERNOR, folder="/nowhere"), "folder: /nowhere is no folder"),
                           (lambda: ptides.run(GOVERNOR, probes=5), "probes: 5 is no list of actors"),
                           (lambda: ptides.run(GOVERNOR, sensors=["speed"]), "sensors: list is no dict"),
                           (lambda: ptides.run("no.json"), "cannot read no.json: No such file or directory"),
                           (lambda: ptides.run(5), "graph: int is no path, and no dict"),
                           (lambda: ptides.run({"until": object()}), "graph: .*object"),
                           (lambda: ptides.replay(network, "no.csv"), "air: cannot read no.csv: No such file or directory"),
                           (lambda: ptides.replay(network, 5), "air: int is no path, and no DataFrame with the columns what, name, value"),
                           (lambda: ptides.audit(GOVERNOR, "no.log"), "log: cannot read no.log: No such file or directory"),
                           (lambda: ptides.audit(GOVERNOR, 5), "log: int is no path, and no result")):
            with self.subTest(line=line), self.assertRaisesRegex(ptides.Fault, f"^{line}"):
                try:
                    call()
                except ptides.Fault as fault:
                    self.assertNotIn("\n", str(fault))
                    raise

    def test_faults_of_a_file_have_its_path(self) -> None:
        """Of another file for a sensor, since a link to it was read."""
        rows = self.folder / "my rows.csv"
        rows.write_text("time,seen,value\n5,5,1\n5,5,1\n")
        with self.assertRaises(ptides.Refused) as caught:
            ptides.run(GOVERNOR, speed=rows)
        self.assertIn(f" --> {rows}:3:1\n", str(caught.exception))
        graph = json.loads((GOVERNOR / "graph.json").read_text())
        graph["actors"][0]["file"] = "no.csv"
        with self.assertRaisesRegex(ptides.Fault, f"^sensor speed: cannot read {GOVERNOR / 'no.csv'}: No such file or directory$"):
            ptides.run(graph, folder=GOVERNOR)

    def test_faults_of_a_graph_have_the_place_in_its_file(self) -> None:
        """Also if another file was given for a sensor, since then a changed copy was run."""
        unknown = EXAMPLES / "refused" / "unknown"
        with self.assertRaises(ptides.Refused) as caught:
            ptides.run(unknown, s=GOVERNOR / "speed.csv")
        self.assertIn(f" --> {unknown / 'graph.json'}:6:18\n", str(caught.exception))

    def test_what_is_no_graph(self) -> None:
        """What isn't a graph, or names that lead out of the folder, is left to the program."""
        for text in ("", "[]", '{"actors":[1]}', '{"actors":[{"kind":"sensor","name":"../../x","file":"y"}]}', "[" * 100_000):
            (self.folder / "graph.json").write_text(text)
            with self.subTest(text=text[:40]), self.assertRaises(ptides.Refused) as caught:
                ptides.run(self.folder, until=7)
            self.assertEqual(caught.exception.status, 2)
        for graph in (self.folder / "none.json", self.folder / "x\0y"):
            with self.assertRaises(ptides.Fault):
                ptides.run(graph)

    def test_other_commands(self) -> None:
        """`slacks`, `audit`, `replay`, `timing` and `lint` give what the commands write."""
        for folder in GRAPHS:
            with self.subTest(example=folder.name):
                if (folder / "expected.slacks").exists():
                    self.assertEqual(ptides.slacks(folder, blocks=blocks_in(folder)), tables.slacks_of((folder / "expected.slacks").read_text()))
                if (folder / "expected.log").exists() and example_words(folder)[0] == "run":
                    self.assertTrue(ptides.audit(folder, ptides.run(folder, blocks=blocks_in(folder))))
        verdict = ptides.audit(EXAMPLES / "refused" / "log_link", EXAMPLES / "refused" / "log_link" / "run.log")
        self.assertEqual((bool(verdict), verdict.line), (False, "unlawful: link w"))
        self.assertIn("`r` takes `80,0,8` at line 23", verdict.explanation)
        network = EXAMPLES / "network"
        self.assertEqual(ptides.replay(network, network / "air.csv").output.split("log\n")[0], (network / "expected.csv").read_text())
        timing = ptides.timing(GOVERNOR)
        self.assertEqual((timing.growth[3].of, timing.growth[3].may_grow_by), ("up to down", 549))
        self.assertEqual(timing.offsets[-1].path, "down -> gov -> lead -> valve")
        self.assertEqual([remark.line for remark in ptides.lint(EXAMPLES / "missed")], [6])
        with self.assertRaises(ptides.Refused) as caught:
            ptides.timing(EXAMPLES / "refused" / "cycle")
        self.assertIn("graph: cycle", caught.exception.line)

    def test_rows(self) -> None:
        """A sensor out of a recording: what `rows` writes, its bound, and a run with it; a fault is the companion's line."""
        canlog = EXAMPLES / "canlog"
        options = {"bytes": "0:2", "order": "big", "scale": 2, "period": 20000, "phase": 0}
        speed = ptides.rows("candump", canlog / "drive.log", id="0A0", **options)
        self.assertEqual((speed.text, speed.bound), ((canlog / "speed.csv").read_text(), 823))
        self.assertEqual(ptides.run(canlog, speed=speed).events, ptides.run(canlog).events)
        part = ptides.rows("candump", canlog / "drive.log", id="0B1", bytes="2:2", order="little", signed=True, from_=500_000, latency=0)
        self.assertTrue(len(part.text) < len((canlog / "wheel.csv").read_text()))
        with self.assertRaises(ptides.Refused) as caught:
            ptides.rows("candump", canlog / "drive.log", id="0A9", **options)
        self.assertEqual(caught.exception.status, 1)
        self.assertIn("no frame", caught.exception.line)

    def test_kept_zero(self) -> None:
        """The zero beside a sensor file, or of a recording, is that of the run; different ones are refused."""
        folder = copied(EXAMPLES / "redundant", self.folder / "graph")
        self.assertEqual(ptides.run(folder)._zero, None)
        (folder / "left.zero").write_text("2026-03-29T00:58:00Z\n")
        self.assertEqual(wall_time.text_of(ptides.run(folder)._zero), "2026-03-29T00:58:00Z")
        (folder / "right.zero").write_text("2026-03-29T00:58:01Z\n")
        with self.assertRaisesRegex(ptides.Fault, "left has the zero 2026-03-29T00:58:00Z, and right has 2026-03-29T00:58:01Z"):
            ptides.run(folder)
        options = {"bytes": "0:2", "order": "big", "scale": 2, "period": 20000, "phase": 0}
        speed = ptides.rows("candump", EXAMPLES / "canlog" / "drive.log", id="0A0", **options)
        self.assertEqual(speed.zero, "2025-11-28T09:00:00Z")
        self.assertEqual(wall_time.text_of(ptides.run(EXAMPLES / "canlog", speed=speed)._zero), speed.zero)

    def test_report(self) -> None:
        """The report of a run with other sensors, as a file."""
        if not Path("/usr/share/javascript/dygraphs").exists():
            self.skipTest("libjs-dygraphs isn't there")
        file, rows = self.folder / "page.html", self.folder / "rows"
        rows.write_text("time,seen,value\n1000,1000,150\n")
        self.assertEqual(ptides.report(GOVERNOR, file, speed=rows, title="a <title>"), 0)
        page = file.read_text()
        self.assertIn("<title>a &lt;title&gt;</title>", page)
        self.assertIn(f"<td>{rows} (speed)</td>", page)
        self.assertIn(f">>> ptides.report({str(GOVERNOR)!r}, {str(file)!r}, speed={str(rows)!r})", html.unescape(page))
        self.assertNotIn("/tmp/ptides-", page)
        network = EXAMPLES / "network"
        self.assertEqual(ptides.report(network, file, air=network / "air.csv"), 0)
        self.assertIn(f"<title>{network / 'graph.json'}</title>", file.read_text())
        self.assertIn(f"<td>{network / 'air.csv'}</td>", file.read_text())
        with self.assertRaisesRegex(ptides.Fault, "a replay takes no clock"):
            ptides.report(network, file, air=network / "air.csv", clock="machine")
        with self.assertRaisesRegex(ptides.Fault, "which is a file of the run"):
            ptides.report(GOVERNOR, rows, speed=rows)
        graph = json.loads((GOVERNOR / "graph.json").read_text())
        ptides.report(graph, file, folder=GOVERNOR, speed=rows, until=5000)
        self.assertIn(f"ptides.report(<dict>, {str(file)!r}, until=5000, folder={str(GOVERNOR)!r}, speed={str(rows)!r})", html.unescape(file.read_text()))

    def test_a_pipe(self) -> None:
        """A graph may come from a pipe; its sensor files are where `folder` says."""
        text = "import sys, ptides; print(ptides.run('/dev/stdin', folder=sys.argv[1]))"
        around = {**os.environ, "PYTHONPATH": str(pythons.PACKAGE)}
        given = (GOVERNOR / "graph.json").read_text()
        done = subprocess.run([sys.executable, "-c", text, GOVERNOR], input=given, env=around, capture_output=True, text=True, check=False)
        self.assertEqual((done.stdout, done.stderr), ("<ptides.Result: status 0, 2 events, 0 missed>\n", ""))

    def test_without_a_log(self) -> None:
        """A run without a log has no rooms, and says so."""
        result = ptides.run(GOVERNOR, log=False)
        self.assertEqual(result.output, (GOVERNOR / "expected.csv").read_text())
        with self.assertRaisesRegex(ptides.Fault, "log=True"):
            result.rooms

    def test_no_program(self) -> None:
        """Without a program there is one clear line."""
        words = [sys.executable, "-c", "import ptides\ntry:\n    ptides.run('x.json')\nexcept ptides.NoProgram as fault:\n    print(fault)"]
        (self.folder / "x.json").write_text("{}")
        around = {**os.environ, "PTIDES": "/nowhere/ptides", "PYTHONPATH": str(pythons.PACKAGE)}
        done = subprocess.run(words, cwd=self.folder, env=around, capture_output=True, text=True, check=False)
        self.assertEqual((done.stdout, done.stderr), ("there is no program /nowhere/ptides\n", ""))

    def test_without_pandas(self) -> None:
        """A Python without pandas runs, writes a report with wall times, and says in one line what a Series needs."""
        folder = copied(GOVERNOR, self.folder / "mine")
        (folder / "speed.zero").write_text("2026-03-29T00:58:00Z\n")
        text = ("import sys, ptides\nresult = ptides.run(sys.argv[1])\nprint(result.events, result.misses, result.log[0].time)\n"
                "try:\n    result['valve']\nexcept ptides.Fault as fault:\n    print(fault)\n"
                "print(ptides.report(sys.argv[1], sys.argv[1] + '/x.html') if len(sys.argv) > 2 else 0)")
        around = {**os.environ, "PYTHONPATH": str(pythons.PACKAGE)}
        words = [sys.executable, "-S", "-c", text, str(folder), *(["report"] if Path("/usr/share/javascript/dygraphs").exists() else [])]
        done = subprocess.run(words, env=around, capture_output=True, text=True, check=False)
        self.assertEqual(done.stderr, "")
        self.assertIn(", doesn't have: pip install pandas; or Debian's python3-pandas, which a virtual environment has", done.stdout.splitlines()[1])
        self.assertEqual(done.stdout.splitlines()[2:], ["0"])

    def test_where_sensor_files_are(self) -> None:
        """The package looks them up beside the graph, wherever Python was started, or in `folder`; commands from the current folder."""
        other = copied(GOVERNOR, self.folder / "other")
        (other / "speed.csv").write_text("time,seen,value\n1000,1000,150\n")
        self.addCleanup(os.chdir, os.getcwd())
        os.chdir(other)
        near, here = [ptides.Event(3500, 0, 1), ptides.Event(4500, 0, 0)], [ptides.Event(2500, 0, 1)]
        self.assertEqual(ptides.run(GOVERNOR / "graph.json").events["valve"], near)
        self.assertEqual(ptides.run(GOVERNOR, folder=".").events["valve"], here)
        self.assertEqual(ptides.run(json.loads((GOVERNOR / "graph.json").read_text())).events["valve"], here)
        for command in ("run", "wave", "lint"):
            done = program(command, GOVERNOR / "graph.json", *(["--csv", "-"] if command == "wave" else []), folder=other)
            self.assertEqual(("2500" in done.output, "3500" in done.output), (command != "lint", False), command)
            # Without the file here it isn't looked for beside the graph.
            self.assertEqual(program(command, GOVERNOR / "graph.json", folder=self.folder).notes, "read fault: sensor speed\n")

    def test_documented_examples(self) -> None:
        """What the docstrings show."""
        import doctest
        from importlib import import_module

        where = os.getcwd()
        os.chdir(TOP)
        self.addCleanup(os.chdir, where)
        for path in sorted((pythons.PACKAGE / "ptides").glob("*.py")):
            name = f"ptides.{path.stem}" if path.stem != "__init__" else "ptides"
            if path.stem == "pytest_plugin" and not pythons.has("pytest"):
                continue
            with self.subTest(module=name):
                self.assertEqual(doctest.testmod(import_module(name)).failed, 0)

    def test_all_pythons(self) -> None:
        """Every module can be read by each version of Python, and a run without pandas works there."""
        found = pythons.others()
        for version in pythons.VERSIONS:
            with self.subTest(version=version):
                if version not in found:
                    self.skipTest(f"python{version} isn't there")
                text = ("import pathlib, sys, ptides\nfor path in pathlib.Path(sys.argv[1]).rglob('*.py'):\n    compile(path.read_bytes(), str(path), 'exec')\n"
                        "print(ptides.run(sys.argv[2]), sum(room.room for room in ptides.run(sys.argv[2]).rooms), ptides.timing(sys.argv[2]).growth[0].now)")
                around = {**os.environ, "PYTHONPATH": str(pythons.PACKAGE)}
                done = subprocess.run([found[version], "-c", text, pythons.PACKAGE, GOVERNOR], env=around, capture_output=True, text=True, check=False)
                self.assertEqual((done.stdout, done.stderr), ("<ptides.Result: status 0, 2 events, 0 missed> 1995 200\n", ""))


@unittest.skipUnless(pythons.has("pandas"), "pandas isn't there")
class Frames(Case):
    """What pandas has to do with it."""

    def series(self, values, index):
        """A Series."""
        import pandas

        return pandas.Series(values, index=index)

    def test_series_and_frames(self) -> None:
        """Series by microseconds, by lengths of time and by wall time, and frames, are the same rows."""
        import pandas

        times, values = [1000, 2000, 3000], [98, 104, 97]
        spans, wall = pandas.to_timedelta(times, unit="us"), pandas.Timestamp("2026-03-29T00:58:00Z") + pandas.to_timedelta(times, unit="us")
        wanted = ptides.run(GOVERNOR).events
        rows_of = pandas.read_csv(GOVERNOR / "speed.csv")
        for data in (self.series(values, times), self.series(values, spans), self.series(values, wall), self.series([98.0, 104.0, 97.0], times), rows_of,
                     rows_of[["time", "value"]], rows_of.set_index("time"), pandas.DataFrame({"rpm": values}, index=wall),
                     pandas.DataFrame({"value": values, "seen": wall + pandas.Timedelta("7us")}, index=wall),
                     self.series(pandas.array(values, dtype="Int64"), times), self.series(pandas.array(values, dtype="uint16"), times)):
            self.assertEqual(ptides.run(GOVERNOR, speed=data).events, wanted)
        result = ptides.run(GOVERNOR, speed=self.series(values, wall))
        self.assertEqual(result.zero, pandas.Timestamp("2026-03-29T00:58:00Z"))
        self.assertEqual(list(result["valve"].index), [pandas.Timestamp("2026-03-29T00:58:00.003500Z"), pandas.Timestamp("2026-03-29T00:58:00.004500Z")])
        self.assertEqual(list(result.table["stamp"]), list(result["valve"].index))

    def test_zero(self) -> None:
        """The zero is the whole second before the first stamp of any sensor, or the one that is named; a horizon may be a wall time."""
        import pandas

        wall = pandas.DatetimeIndex(["2026-03-29T01:00:07.25+01:00", "2026-03-29T01:00:08.25+01:00"])
        series = self.series([98, 104], wall)
        result = ptides.run(GOVERNOR, speed=series, until=pandas.Timestamp("2026-03-29T00:01:00Z"))
        self.assertEqual(str(result.zero), "2026-03-29 01:00:07+01:00")
        self.assertEqual(str(result["valve"].index[0]), "2026-03-29 01:00:08.251500+01:00")
        named = ptides.run(GOVERNOR, speed=series, zero="2026-03-29T00:00:00Z", until="2026-03-29T00:01:00Z")
        self.assertEqual(named.events["valve"][0].time, 8_251_500)
        both = ptides.meaning(EXAMPLES / "redundant", left=series, right=self.series([1, 2], wall - pandas.Timedelta("3s")))
        self.assertEqual(str(both.zero), "2026-03-29 01:00:04+01:00")
        self.assertEqual(str(ptides.run(GOVERNOR, zero="2026-03-29T00:58:00Z")["valve"].index[0]), "2026-03-29 00:58:00.003500+00:00")

    def test_zero_of_files_and_series(self) -> None:
        """A Series is counted from the zero that is kept beside another sensor's file, and its zone is that of the result."""
        import pandas

        with tempfile.TemporaryDirectory() as work:
            folder = copied(EXAMPLES / "redundant", Path(work))
            (folder / "right.zero").write_text("2026-03-29T00:58:00Z\n")
            stamps = pandas.DatetimeIndex(["2026-03-29T01:58:00.001+01:00"])
            result = ptides.meaning(folder, left=self.series([7], stamps), probes=["left"])
            self.assertEqual((result.events_at("left")[0].time, str(result.zero)), (1000, "2026-03-29 01:58:00+01:00"))
            with self.assertRaisesRegex(ptides.Fault, "the zero is stated as .*, and the sensor files have"):
                ptides.run(folder, zero="2026-03-29T00:59:00Z")

    def test_refused_data(self) -> None:
        """Each in one line that says what to do."""
        import pandas

        wall = pandas.DatetimeIndex(["2026-03-29T01:00:07"])
        for data, line in ((self.series([1.5], [1]), "sensor speed: 1.5 is no whole number: scale the values"),
                           (self.series([None, 1.0], [1, 2]), "sensor speed: 1 values are missing: dropna"),
                           (self.series([1], [0.5]), "times are whole microseconds.*pandas.to_timedelta"),
                           (self.series(["a"], [1]), "sensor speed: values are whole numbers, and not object"),
                           (pandas.DataFrame({"a": [1], "b": [2]}), "sensor speed: no column `value`, but a, b"),
                           ([1, 2], "sensor speed: list is no path, Series or DataFrame"),
                           (self.series([1e30], [1]), "doesn't fit 64 bits")):
            with self.subTest(line=line), self.assertRaisesRegex(ptides.Fault, line):
                ptides.run(GOVERNOR, speed=data)
        with self.assertRaisesRegex(ptides.Fault, "no sensor rpm, but speed"):
            ptides.run(GOVERNOR, rpm=self.series([1], [1]))
        with self.assertRaisesRegex(ptides.Fault, "time zone"):
            ptides.run(GOVERNOR, speed=self.series([1], wall), zero="2026-03-29T00:00:00Z")
        with self.assertRaisesRegex(ptides.Fault, "name a zero"):
            ptides.run(GOVERNOR, until=wall[0])
        for zero in ("soon", 5, pandas.NaT):
            with self.assertRaisesRegex(ptides.Fault, "^zero: .* is no time of the wall clock, as "):
                ptides.run(GOVERNOR, zero=zero)
        for until, line in (("soon", "until: 'soon' is no time of the wall clock"), ("2026-01-01", "until: .* one has a time zone and one has none")):
            with self.assertRaisesRegex(ptides.Fault, line):
                ptides.run(GOVERNOR, until=until, zero="2026-01-01T00:00:00Z")
        # What the program refuses is refused by it.
        with self.assertRaises(ptides.Refused) as caught:
            ptides.run(GOVERNOR, speed=self.series([1, 2], [5, 5]))
        self.assertEqual(caught.exception.line, "sensor speed: time order at row 2")
        self.assertIn("speed.csv:3", str(caught.exception))

    def test_whole_numbers(self) -> None:
        """Numbers are whole in each frame, also where some are missing, and 64 bits stay exact."""
        frame = ptides.run(GOVERNOR).log.frame
        self.assertEqual({str(frame[name].dtype) for name in ("time", "step", "value", "seen", "number")}, {"Int64"})
        result = ptides.run(EXAMPLES / "redundant")
        self.assertEqual({str(dtype) for dtype in result.table.dtypes[1:]}, {"int64"})
        most = 2**63 - 1
        events = ptides.meaning(GOVERNOR, probes=["speed"], speed=self.series([most, -most - 1], [1, 2]))
        self.assertEqual(list(events["speed"]), [most, -most - 1])
        self.assertEqual(str(ptides.check(GOVERNOR).frame.dtypes["margin"]), "Int64")

    def test_series_of_the_result(self) -> None:
        """By time, with the steps of one time; one for each output that is watched, and an empty one for what did nothing."""
        lanes = ptides.run(EXAMPLES / "lanes", probes=["inputs"])
        self.assertGreater(len(lanes["inputs", 0]) * len(lanes["inputs", 1]), 0)
        self.assertEqual(ptides.run(EXAMPLES / "missed").room("valve").tolist(), [-101])
        empty = ptides.run(GOVERNOR, until=0)
        self.assertEqual((len(empty["valve"]), len(empty.table), len(empty.rooms.frame), len(empty.misses.frame)), (0, 0, 0, 0))
        self.assertIn("<td>valve</td><td>2</td>", ptides.run(GOVERNOR)._repr_html_())
        self.assertIn("<th>actor</th>", ptides.check(GOVERNOR)._repr_html_())
        with self.assertRaisesRegex(KeyError, "nobody"):
            lanes["nobody"]

    def test_air(self) -> None:
        """The recording of a network may be a frame."""
        import pandas

        network = EXAMPLES / "network"
        air = pandas.read_csv(network / "air.csv")
        self.assertEqual(ptides.replay(network, air).events, ptides.replay(network, network / "air.csv").events)
        air.loc[air.what == "transit", "value"] += 4000
        with self.assertRaises(ptides.Refused) as caught:
            ptides.replay(network, air)
        self.assertEqual((caught.exception.status, caught.exception.place), (4, "air row 2"))


@unittest.skipUnless(pythons.has("pandas"), "pandas isn't there")
class Notebook(Case):
    """The notebook of examples/canlog, from a log of candump to a verdict."""

    def setUp(self) -> None:
        self.folder = Path(tempfile.mkdtemp())
        self.addCleanup(shutil.rmtree, self.folder)
        copied(EXAMPLES / "canlog", self.folder)
        cells = json.loads((self.folder / "verdict.ipynb").read_text())["cells"]
        self.code = ["".join(cell["source"]) for cell in cells if cell["cell_type"] == "code"]

    def run_in(self, *command: str) -> subprocess.CompletedProcess:
        """Runs a command in the copy of the example."""
        around = {**os.environ, "PYTHONPATH": str(pythons.PACKAGE), "PYTHONDONTWRITEBYTECODE": "1"}
        return subprocess.run([sys.executable, *command], cwd=self.folder, env=around, capture_output=True, text=True, check=False)

    def test_length(self) -> None:
        """It has at most 20 lines of code, and nothing is stored of an earlier run."""
        self.assertLessEqual(sum(bool(line.strip()) for part in self.code for line in part.splitlines()), 20)
        self.assertNotIn('"execution_count": 1', (self.folder / "verdict.ipynb").read_text())

    def test_as_a_script(self) -> None:
        """It passes; and with a wheel that spins for longer it fails, and names the lamp."""
        done = self.run_in("-c", "\n".join(self.code))
        self.assertEqual((done.returncode, done.stdout), (0, "passed: the lamp was lit at 2025-11-28 09:00:00.440000+00:00 with 2399 us to spare\n"), done.stderr)
        log = (self.folder / "drive.log").read_text()
        (self.folder / "drive.log").write_text("".join(line for line in log.splitlines(True) if not (" can0 0B1#" in line and ".51" < line[11:14] < ".60")))
        done = self.run_in("-c", "\n".join(self.code))
        self.assertEqual(done.returncode, 1)
        self.assertIn("AssertionError", done.stderr)

    def test_in_jupyter(self) -> None:
        """It is run by nbconvert, if that is there, and shows the tables."""
        if not (pythons.has("nbconvert") and pythons.has("ipykernel")):
            self.skipTest("nbconvert and ipykernel aren't there")
        done = self.run_in("-m", "nbconvert", "--to", "html", "--execute", "--stdout", "verdict.ipynb")
        self.assertEqual(done.returncode, 0, done.stderr[-2000:])
        self.assertIn("passed: the lamp was lit at 2025-11-28 09:00:00.440000+00:00 with 2399 us to spare", done.stdout)
        self.assertIn("<td>lamp</td><td>2</td><td>2025-11-28 09:00:00.440000+00:00</td><td>2025-11-28 09:00:00.540000+00:00</td><td>0</td><td>0</td><td>2399</td>", done.stdout)


if __name__ == "__main__":
    main()
