#!/usr/bin/env python3
"""Checks what `ptides wave` shows: clocks and replays, parts, long runs, labels, traces, and the recipe for pandas."""
from __future__ import annotations

import json
import re
import shutil
import subprocess
import sys
import xml.etree.ElementTree as trees
from typing import Any

from counted import EXAMPLES, GRAPHS, TOP, blocks_of, copied, main, ptides, run
from shown import SVG, WaveCase, records


class Waves(WaveCase):
    """Waves of examples and of long runs, in a folder of their own."""

    # ---- what is run

    def test_clocks(self) -> None:
        """By a clock of its own the readings are those of the log, also of inner signals, and the values are the meaning's."""
        folder = EXAMPLES / "clocks"
        for words in (["graph.json", "--clock", "step:0:100"], ["run", "graph.json", "--clock=step:7:50"]):
            done = self.wave(*words, "--csv", "-", folder=folder)
            clock = words[-1].split("=")[-1]
            log = ptides("run", "graph.json", "--clock", clock, "--log", folder=folder)
            self.assertEqual((done.status, done.notes), (log.status, log.notes))
            found = records(done.output)
            self.assertEqual([(each["actor"], each["time"], each["seen"], each["value"]) for each in found if each["what"] == "row"],
                             [tuple(line.split(",")[1:]) for line in log.output.splitlines() if line.startswith("row,")])
            meaning = ptides("meaning", "graph.json", folder=folder).output.splitlines()[1:]
            self.assertEqual([f"{each['actor']},{each['time']},{each['step']},{each['value']}" for each in found if each["what"] == "event" and each["actor"] == "valve"],
                             [line for line in meaning if line.startswith("valve,")])
            self.assertTrue(any(each["actor"] == "gov" for each in found if each["what"] == "event"))
            self.assertFalse([each for each in found if each["actor"].startswith("probe_")])

    def test_replays(self) -> None:
        """A replay is shown with the readings of its log."""
        folder = EXAMPLES / "network"
        done = self.wave("replay", "graph.json", "air.csv", "--csv", "-", folder=folder)
        log = ptides("replay", "graph.json", "air.csv", "--log", folder=folder)
        self.assertEqual((done.status, done.notes), (log.status, log.notes))
        taken = [(each["actor"], each["time"], each["step"], each["value"]) for each in records(done.output) if each["what"] == "take"]
        self.assertEqual(taken, [tuple(line.split(",")[1:]) for line in log.output.splitlines() if re.match("take,.*[0-9]$", line)])
        readings = {each["reading"] for each in records(done.output) if each["what"] == "take"}
        self.assertLessEqual(readings, {line.split(",")[2] for line in log.output.splitlines() if line.startswith("turn,")})

    def test_refused_words(self) -> None:
        """Wrong words are one line; a run that is refused gives the line and the status of the program."""
        folder = EXAMPLES / "network"
        for words, line in [(["replay", "graph.json"], "replay needs a graph and an air file"), (["graph.json", "air.csv"], "unrecognized arguments: air.csv"),
                            (["replay", "graph.json", "air.csv", "--clock", "paced"], "--clock is of run, and not of replay"),
                            (["graph.json", "--wall"], "--wall is of --csv"), (["graph.json", "--from", "-5", "--csv", "-"], "--from is below 0"),
                            (["graph.json", "--csv", "-", "--wall"], "--wall: the wall time of 0 isn't known: --zero states it, and `ptides rows -o` keeps it beside a sensor file")]:
            with self.subTest(words=words):
                self.assertEqual(self.wave(*words, folder=folder), (1, "", f"ptides wave: {line}\n"))
        wanted = ptides("run", "graph.json", "--clock", "step:0:196", folder=EXAMPLES / "clocks")
        self.assertEqual(self.wave("graph.json", "--clock", "step:0:196", "--csv", "-", folder=EXAMPLES / "clocks"), (4, "", wanted.notes))
        self.assertEqual(self.wave("graph.json", "--clock", "sundial", folder=EXAMPLES / "clocks").status, 1)

    # ---- parts

    def test_a_part(self) -> None:
        """--from and --to choose a part of the table and of the VCD too, in which a signal begins with its last value before."""
        folder = EXAMPLES / "governor"
        whole, part = (records(self.wave("graph.json", "--csv", "-", *words, folder=folder).output) for words in ((), ("--from", "2600", "--to", "3400")))

        def is_in(each: dict[str, str]) -> bool:
            return any(each[name] and 2600 <= int(each[name]) <= 3400 for name in ("time", "reading", "seen"))

        self.assertEqual(part, [each for each in whole if is_in(each)])
        self.assertTrue(0 < len(part) < len(whole))
        dump = self.wave("graph.json", "--vcd", "-", "--from", "2600", "--to", "3400", folder=folder).output
        stamps = [int(line[1:]) for line in dump.splitlines() if re.fullmatch("#[0-9]+", line)]
        self.assertEqual((stamps[0], stamps[-1]), (2600, 3400))
        code = re.search(r"scope module events .*?\$var integer 64 (\S+) speed ", dump, re.S)[1]
        begin = dump[dump.index("$dumpvars"):dump.index("$end", dump.index("$dumpvars"))]
        self.assertIn(f"b{104:b} {code}\n", begin)

    # ---- long runs

    def test_long_runs_are_reduced(self) -> None:
        """20,000 events are bands, which the legend explains; the picture is small, and misses are marked in it and summed up."""
        folder = self.long_run(20_000, misses=True)
        done = self.wave("graph.json", "--svg", "long.svg", folder=folder)
        self.assertEqual(done.status, 5)
        self.assertEqual(done.notes.count("\nmissed ") + done.notes.startswith("missed "), 20_000)
        self.assertIn("ptides wave: 20,000 events were missed, all by `valve`; the first at 0.0, ", done.notes.splitlines()[-1])
        text = (folder / "long.svg").read_text()
        self.assertLess(len(text), 200_000)
        self.assertIn("many events: the range of their values in each 2 points", text)
        self.assertIn("<title>level: 20,000 events from 0 to 19999000, values 0 to 76</title>", text)
        self.assertIn("20,000 missed</title>", text)
        self.assertFalse([each for each in trees.fromstring(text).iter(f"{SVG}circle")])

    def test_wide_graphs_are_small(self) -> None:
        """A graph of a thousand actors with 200 firings each has a picture of less than 2 MB."""
        folder = self.long_run(190)
        graph = json.loads((folder / "graph.json").read_text())
        more = [{"name": f"a{number}", "platform": "tank", "kind": "shift", "by": 1} for number in range(1000)]
        graph.update(ptides=2, clock_errors=[], actors=graph["actors"] + more, wires=graph["wires"] + [["level", 0, each["name"], 0] for each in more])
        (folder / "graph.json").write_text(json.dumps(graph))
        self.wave("graph.json", "--svg", "wide.svg", "--no-inner", folder=folder)
        self.assertLess((folder / "wide.svg").stat().st_size, 2_000_000)

    def test_bands_and_single_events(self) -> None:
        """Where events are apart they are single signs, beside a band of those that are near each other."""
        folder = self.long_run(60)
        rows = (folder / "level.csv").read_text() + "10000000,10000003,7\n20000000,20000003,8\n"
        (folder / "level.csv").write_text(rows)
        self.wave("graph.json", "--svg", "both.svg", folder=folder)
        text = (folder / "both.svg").read_text()
        self.assertEqual(len(re.findall('class="event" ', text)), 6)
        self.assertIn("<title>level: 60 events from 0 to 59000, values 0 to 59</title>", text)

    def test_labels_do_not_overlap(self) -> None:
        """On no line a label covers another, and no name of an actor is drawn over the events."""
        for example in ("stand", "brake", "governor", "network"):
            text = self.wave("graph.json", "--svg", "-", folder=EXAMPLES / example).output
            lines: dict[str, list[tuple[float, float]]] = {}
            for each in trees.fromstring(text).iter(f"{SVG}text"):
                if each.get("dx") == "4":
                    start = float(each.get("x")) + 4
                    lines.setdefault(each.get("y"), []).append((start, start + 5 * len(each.text)))
            for found in lines.values():
                found.sort()
                self.assertTrue(all(one[1] <= other[0] for one, other in zip(found, found[1:])), example)
        folder = copied(EXAMPLES / "governor", self.folder)
        name = "a_name_of_thirty_two_letters_abc"
        (folder / "graph.json").write_text((folder / "graph.json").read_text().replace('"gov"', f'"{name}"'))
        text = self.wave("graph.json", "--svg", "-", folder=folder).output
        left = min(float(each.get("cx")) for each in trees.fromstring(text).iter(f"{SVG}circle") if each.get("class") == "event")
        self.assertLess(16 + 6 * len(name), left)

    def test_deadlines_and_misses_differ(self) -> None:
        """A deadline and a miss are signs of different forms and colours, and both are in the legend."""
        text = self.wave("graph.json", "--svg", "-", folder=EXAMPLES / "missed").output
        forms = {kind: re.sub("M[0-9.]+ [0-9.]+", "", re.search(f'class="{kind}" d="([^"]+)"', text)[1]) for kind in ("deadline", "miss")}
        self.assertNotEqual(*forms.values())
        colours = {kind: re.search(rf"\.{kind}{{[^}}]*stroke:(#\w+)", text)[1] for kind in ("deadline", "miss")}
        self.assertNotEqual(*colours.values())
        for says in (">deadline<", ">fired past its deadline"):
            self.assertIn(says, text)

    # ---- traces

    def check_trace(self, trace: dict[str, Any]) -> None:
        """The rules of the trace event format that matter here."""
        self.assertEqual((set(trace), trace["displayTimeUnit"]), ({"displayTimeUnit", "otherData", "traceEvents"}, "ms"))
        needed = {"M": {"name", "pid", "args"}, "b": {"name", "cat", "id", "ts", "pid", "tid"}, "e": {"name", "cat", "id", "ts", "pid", "tid"},
                  "C": {"name", "ts", "pid", "args"}, "i": {"name", "ts", "pid", "tid", "s"}}
        begun: dict[tuple[str, int], dict[str, Any]] = {}
        stamps, processes, threads = [], set(), set()
        for event in trace["traceEvents"]:
            self.assertLessEqual(needed[event["ph"]], set(event))
            self.assertTrue(all(isinstance(event[key], int) and event[key] >= 0 for key in ("pid", "tid", "ts", "id") if key in event))
            if event["ph"] == "M":
                processes |= {event["pid"]} if event["name"] == "process_name" else set()
                threads |= {(event["pid"], event["tid"])} if event["name"] == "thread_name" else set()
                continue
            stamps.append(event["ts"])
            self.assertIn(event["pid"], processes)
            self.assertTrue("tid" not in event or (event["pid"], event["tid"]) in threads)
            key = event.get("cat", ""), event.get("id", 0)
            if event["ph"] == "b":
                self.assertNotIn(key, begun)
                begun[key] = event
            elif event["ph"] == "e":
                start = begun.pop(key)
                self.assertEqual((start["name"], start["pid"], start["tid"]), (event["name"], event["pid"], event["tid"]))
            elif event["ph"] == "i":
                self.assertIn(event["s"], ("g", "p", "t"))
            elif event["ph"] == "C":
                self.assertTrue(all(isinstance(value, (int, str)) for value in event["args"].values()))
        self.assertEqual((begun, stamps), ({}, sorted(stamps)))

    def test_traces(self) -> None:
        """The trace of each example keeps to the rules of its format, and has each event of the table."""
        for example in GRAPHS:
            with self.subTest(example=example.name):
                done = self.wave("graph.json", *blocks_of(example), "--trace", str(self.folder / "t.json"), "--csv", str(self.folder / "t.csv"), folder=example)
                trace = json.loads((self.folder / "t.json").read_text())
                self.check_trace(trace)
                table = records((self.folder / "t.csv").read_text())
                for what, kind, key in (("event", "event", "cat"), ("row", "row", "cat")):
                    self.assertEqual(sum(event.get(key) == kind and event["ph"] in "bi" for event in trace["traceEvents"]), sum(each["what"] == what for each in table))
                self.assertEqual(sum(event.get("cat") == "missed" for event in trace["traceEvents"]), done.notes.count("missed ") if done.status == 5 else 0)

    # ---- pandas

    def test_the_recipe_for_pandas(self) -> None:
        """The recipe of the page works on the table of each example, and all its numbers are whole."""
        python = next((each for each in (sys.executable, "/usr/bin/python3")
                       if shutil.which(each) and subprocess.run([each, "-c", "import pandas"], capture_output=True, check=False).returncode == 0), None)
        if python is None:
            self.skipTest("pandas isn't there")
        recipe = re.search(r"```python\n(import pandas\n.*?)lamp = ", (TOP / "docs" / "RECORDINGS.md").read_text(), re.S)[1]
        script = ["import os, sys"]
        for number, example in enumerate(GRAPHS):
            folder = self.folder / str(number)
            folder.mkdir()
            self.wave("graph.json", *blocks_of(example), "--csv", str(folder / "drive.csv"), folder=example)
            script += [f"os.chdir({str(folder)!r})", recipe, f"assert not [name for name in numbers if str(table[name].dtype) != 'Int64'], {example.name!r}"]
        (self.folder / "recipe.py").write_text("\n".join(script))
        done = run([python, "recipe.py"], self.folder)
        self.assertEqual((done.status, done.notes), (0, ""))


if __name__ == "__main__":
    main()
