#!/usr/bin/env python3
"""Checks `--claims N` of the program, of the companions and of the package: without it, and with the usual number, all is the same; with a greater one longer runs and files are
taken; other numbers, commands and places are refused with the usage line, which doesn't name it."""
from __future__ import annotations

import json
import shutil
import sys
import tempfile
from pathlib import Path
from typing import Any, Callable, Iterator

from counted import EXAMPLES, GRAPHS, REFUSED, TOP, Case, companion, copied, example_words, main, make_files, ptides

sys.path.insert(0, str(TOP / "python"))
import ptides as package  # noqa: E402
from ptides import limits  # noqa: E402
from ptides.program import Fault  # noqa: E402
from ptides.scenarios import scenario_of, word_meanings  # noqa: E402

COMMANDS = ("run", "meaning", "replay", "audit")
GOVERNOR = EXAMPLES / "governor"


class InFolder(Case):
    """Graphs in a folder of their own."""

    def setUp(self) -> None:
        self.folder = Path(tempfile.mkdtemp())
        self.addCleanup(shutil.rmtree, self.folder)

    def ticking(self, ticks: int) -> dict[str, Any]:
        """A graph with a clock of that many ticks and an actuator, so that there are two firings for each."""
        actors = [{"name": "e", "platform": "p", "kind": "every", "start": 0, "period": 10}, {"name": "out", "platform": "p", "kind": "actuator", "slack": 20}]
        graph = {"ptides": 1, "until": 10 * ticks - 1, "clock_error": 0, "platforms": ["p"], "actors": actors, "wires": [["e", 0, "out", 0]], "links": []}
        (self.folder / "graph.json").write_text(json.dumps(graph))
        return graph


class Claims(InFolder):
    """The program."""

    def examples(self) -> Iterator[tuple[Path, list[str]]]:
        """The examples whose command takes the option, in folders that can be written to, and their words."""
        for folder in [*GRAPHS, *REFUSED]:
            words = example_words(folder)
            if words[:1] and words[0] in COMMANDS and "--" not in words:
                place = copied(folder, self.folder / folder.name) if (folder / "make.py").exists() else folder
                make_files(place)
                yield place, words
                if words == ["run", "graph.json"]:
                    yield place, ["meaning", "graph.json"]

    def test_usual_number(self) -> None:
        """With 200000 each example is answered as without the option, byte for byte."""
        for folder, words in self.examples():
            plain = ptides(*words, folder=folder)
            for option in (["--claims", "200000"], ["--claims=200000"]):
                with self.subTest(example=folder.name, words=words, option=option):
                    self.assertEqual(ptides(*words, *option, folder=folder), plain)
            with self.subTest(example=folder.name, words=words, option="first"):
                self.assertEqual(ptides(words[0], "--claims", "200000", *words[1:], folder=folder), plain)

    def test_greater_number(self) -> None:
        """With a greater number each example that isn't too long is answered as without the option."""
        for folder, words in self.examples():
            plain = ptides(*words, folder=folder)
            if plain.status != 6 and "too " not in plain.notes:
                with self.subTest(example=folder.name, words=words):
                    self.assertEqual(ptides(*words, "--claims", "100000000", folder=folder), plain)

    def test_refused(self) -> None:
        """Other numbers, the option twice, and with other commands: status 1, and the usage line as it was."""
        usage = ptides(folder=self.folder)
        self.assertEqual((usage.status, usage.output), (1, ""))
        self.assertNotIn("--claims", usage.notes)
        self.ticking(10)
        for command in (["run", "graph.json"], ["meaning", "graph.json"], ["replay", "graph.json", "a.csv"], ["audit", "graph.json", "log"]):
            for number in ("199999", "100000001", "0200000", "+200000", "200000.0", "2e5", "", "x", "-200000", "99999999999999999999999"):
                for option in (["--claims", number], [f"--claims={number}"]):
                    with self.subTest(command=command, option=option):
                        self.assertEqual(ptides(*command, *option, folder=self.folder), usage)
            for option in (["--claims"], ["--claims", "200000", "--claims", "200000"], ["--claims=200000", "--claims=300000"], ["--", "--claims", "200000"],
                           ["--claim", "200000"], ["--CLAIMS", "200000"]):
                with self.subTest(command=command, option=option):
                    self.assertEqual(ptides(*command, *option, folder=self.folder), usage)
        for words in (["check", "graph.json"], ["migrate", "graph.json"], ["slacks", "graph.json"], ["make", "1"]):
            with self.subTest(words=words):
                self.assertEqual(ptides(*words, "--claims", "200000", folder=self.folder), usage)

    def test_long_runs(self) -> None:
        """A run fits if its platform makes as many firings as it may, and not with one less; so do its meaning, its log and a replay."""
        self.ticking(150_000)
        (self.folder / "air.csv").write_text("what,name,value\n")
        for words, line in ((["run", "graph.json"], "long p\n"), (["run", "graph.json", "--clock", "step:0:900", "--workers", "4"], "long p\n"),
                            (["meaning", "graph.json"], "long meaning\n"), (["replay", "graph.json", "air.csv"], "long p\n")):
            with self.subTest(words=words):
                for option in ([], ["--claims", "299999"]):
                    self.assertEqual(ptides(*words, *option, folder=self.folder)[::2], (6, line))
                done = ptides(*words, "--claims", "300000", folder=self.folder)
                self.assertIn(done.status, (0, 5))
                self.assertEqual(done.output.count("\n"), 150_001)
                self.assertEqual(done.output, ptides(*words, "--claims", "100000000", folder=self.folder).output)

    def test_long_logs(self) -> None:
        """The log of a long run is lawful with the number of claims of the run, and not with less."""
        self.ticking(150_000)
        log = ptides("run", "graph.json", "--log", "--claims", "300000", folder=self.folder).output
        (self.folder / "log").write_text(log)
        self.assertEqual(ptides("audit", "graph.json", "log", "--claims", "300000", folder=self.folder), (0, "lawful\n", ""))
        less = ptides("audit", "graph.json", "log", folder=self.folder)
        self.assertEqual((less.status, less.output), (10, ""))

    def test_long_files(self) -> None:
        """A sensor file and an air file of more rows and bytes than usual are taken as far as the number allows."""
        actors = [{"name": "s", "platform": "p", "kind": "sensor", "file": "s.csv", "bound": 5}, {"name": "w", "platform": "p", "kind": "send", "slack": 20},
                  {"name": "r", "platform": "q", "kind": "receive"}, {"name": "out", "platform": "q", "kind": "actuator", "slack": 900}]
        graph = {"ptides": 1, "until": 10**12, "clock_error": 0, "platforms": ["p", "q"], "actors": actors, "wires": [["s", 0, "w", 0], ["r", 0, "out", 0]],
                 "links": [{"from": "w", "to": "r", "delay": 400}]}
        (self.folder / "graph.json").write_text(json.dumps(graph))
        rows = 300_000
        (self.folder / "s.csv").write_text("time,seen,value\n" + "".join(f"{100_000_000_000 + 1000 * row},{100_000_000_003 + 1000 * row},{row}\n" for row in range(rows)))
        (self.folder / "air.csv").write_text("what,name,value\n" + "transit,w,100\n" * rows)
        self.assertGreater((self.folder / "s.csv").stat().st_size, 1 << 23)
        for words in (["run", "graph.json"], ["meaning", "graph.json"], ["replay", "graph.json", "air.csv"]):
            with self.subTest(words=words):
                self.assertEqual(ptides(*words, folder=self.folder), (3, "", "sensor s: too long\n"))
                self.assertEqual(ptides(*words, "--claims", rows - 1, folder=self.folder), (3, "", "sensor s: too many rows\n"))
                done = ptides(*words, "--claims", 2 * rows, folder=self.folder)
                self.assertEqual((done.status, done.output.count("\n"), done.notes), (0, rows + 1, ""))
        (self.folder / "air.csv").write_text("what,name,value\n" + "transit,w,100\n" * (2 * rows + 1))
        self.assertEqual(ptides("replay", "graph.json", "air.csv", "--claims", 2 * rows, folder=self.folder), (3, "", "air: too many rows\n"))


class Companions(InFolder):
    """The companions, which pass the number on, and keep to its limits."""

    def test_limits(self) -> None:
        """The limits that follow, and the numbers that are one; other numbers are one line."""
        for claims, found in ((200_000, (100_000, 8_388_608, 67_108_864)), (200_001, (200_001, 12_800_064, 204_801_024)), (10**8, (10**8, 6_400_000_000, 102_400_000_000))):
            self.assertEqual((limits.rows_limit(claims), limits.file_bytes_limit(claims), limits.log_bytes_limit(claims)), found)
        for size, claims in (({"rows": 100_000}, 200_000), ({"rows": 100_001}, 200_001), ({"file_bytes": 8_388_609}, 200_001), ({"file_bytes": 64_000_001}, 1_000_001),
                             ({"log_bytes": 1_024_000_000}, 1_000_000), ({"rows": 10**8 + 1}, None)):
            self.assertEqual(limits.claims_for(**size), claims)
        self.assertEqual([limits.claims_in(words) for words in (["run", "g"], ["run", "--claims", "300000", "g"], ["run", "--claims=300000"], ["run", "--claims", "5"],
                                                                ["run", "g", "--", "--claims=300000"])], [200_000, 300_000, 300_000, 200_000, 200_000])
        for value, line in ((199_999, "claims: 199999 is not from 200,000 to 100,000,000"), (10**8 + 1, "claims: 100000001 is not from 200,000 to 100,000,000"),
                            (True, "claims: True is not from 200,000 to 100,000,000"), (300_000.0, "claims: 300000.0 is no whole number"),
                            ("300000", "claims: '300000' is no whole number")):
            with self.assertRaises(Fault) as caught:
                limits.claims_of(value)
            self.assertEqual(str(caught.exception), line)
        for name, words in (("lint", ["g.json"]), ("wave", ["g.json"]), ("report", ["g.json"]), ("bench", ["."]), ("rows", ["csv", "t.csv", "--stamp", "t", "--unit", "s", "--value", "v"])):
            done = companion(name, *words, "--claims", "199999", folder=self.folder)
            self.assertEqual(done, (1, "", f"ptides {name}: argument --claims: `199999` is not a number from 200000 to 100000000\n"))

    def test_scenarios(self) -> None:
        """`bench --claims N` is for those whose words don't say how many; what isn't run by such a command has none."""
        for words, claims in (("run\ngraph.json", 300_000), ("meaning\ngraph.json", 300_000), ("run\ngraph.json\n--claims\n400000", 400_000),
                              ("replay\n--claims=400000\ngraph.json\na.csv", 400_000), ("check\ngraph.json", None)):
            (self.folder / "words").write_text(words)
            scenario = scenario_of(self.folder, 300_000)
            self.assertEqual((word_meanings(scenario.words).claims, word_meanings(scenario.words).graph), (claims, "graph.json"))
            self.assertEqual(scenario_of(self.folder).words, words.split("\n"))
        (self.folder / "words").unlink()
        self.ticking(110_000)
        (self.folder / "expected.csv").write_text(ptides("run", "graph.json", "--claims", "220000", folder=self.folder).output)
        self.assertEqual(companion("bench", ".", folder=self.folder).status, 1)
        self.assertEqual(companion("bench", ".", "--claims", "219999", folder=self.folder).status, 1)
        self.assertEqual(companion("bench", ".", "--claims", "220000", folder=self.folder).status, 0)

    def test_waves(self) -> None:
        """`wave` passes it on, to runs with probes too, and to a replay."""
        self.ticking(110_000)
        (self.folder / "air.csv").write_text("what,name,value\n")
        for words in (["graph.json"], ["replay", "graph.json", "air.csv"], ["graph.json", "--clock", "step:0:90000"]):
            with self.subTest(words=words):
                self.assertEqual(companion("wave", *words, "--csv", "-", "--claims", "219999", folder=self.folder).status, 6)
                done = companion("wave", *words, "--csv", "w.csv", "--claims", "400000", folder=self.folder)
                self.assertIn(done.status, (0, 5))
                table = (self.folder / "w.csv").read_text()
                self.assertEqual([table.count(f"\nevent,p,{name},") for name in ("e", "out")], [110_000, 110_000])

    def test_lint(self) -> None:
        """`lint` names the number that a run and a file need, and is silent with it."""
        self.ticking(110_000)
        done = companion("lint", "graph.json", folder=self.folder)
        self.assertEqual(done.output, "graph.json: warning: a platform makes 220,000 firings, more than 200,000: with `--claims 220000` the whole run fits; it then keeps 11 to 25 MB; "
                                      "`ptides explain` says what else helps\n1 warning\n")
        self.assertEqual(companion("lint", "graph.json", "--claims", "220000", folder=self.folder).output, "no warnings\n")
        actors = [{"name": "s", "platform": "p", "kind": "sensor", "file": "s.csv", "bound": 5}, {"name": "out", "platform": "p", "kind": "actuator", "slack": 20}]
        graph = {"ptides": 1, "until": 200_000, "clock_error": 0, "platforms": ["p"], "actors": actors, "wires": [["s", 0, "out", 0]], "links": []}
        (self.folder / "graph.json").write_text(json.dumps(graph))
        (self.folder / "s.csv").write_text("time,seen,value\n" + "".join(f"{10 * row},{10 * row + 1},1\n" for row in range(150_000)))
        done = companion("lint", "graph.json", folder=self.folder)
        self.assertIn("`s.csv` has 150,000 rows, and a file may have 100,000 rows and 8,388,608 bytes: `run` takes it with `--claims 200001`\n", done.output)
        self.assertNotIn("firings", done.output)


class Package(InFolder):
    """`claims=` of `import ptides`."""

    def setUp(self) -> None:
        super().setUp()
        self.air = self.folder / "air.csv"
        self.air.write_text("what,name,value\n")

    def refusal(self, call: Callable[[], Any]) -> package.Refused:
        """The refusal of a call."""
        with self.assertRaises(package.Refused) as caught:
            call()
        return caught.exception

    def test_longer_runs(self) -> None:
        """A longer run with `claims=`; an audit of its result knows the number."""
        graph = self.ticking(110_000)
        for call in (package.run, package.meaning, lambda graph, **more: package.replay(graph, self.air, **more)):
            self.assertEqual(self.refusal(lambda: call(graph, claims=219_999)).status, 6)
            result = call(graph, claims=220_000)
            self.assertEqual((len(result.events["out"]), result.claims), (110_000, 220_000))
        self.assertIn("with `--claims 220000` the whole run fits", str(self.refusal(lambda: package.run(graph))))
        result = package.run(graph, claims=220_000)
        self.assertTrue(package.audit(graph, result).lawful)
        self.assertFalse(package.audit(graph, result, claims=200_000).lawful)
        self.assertEqual(package.run(GOVERNOR).claims, 200_000)
        self.assertEqual([len(package.lint(graph)), len(package.lint(graph, claims=220_000))], [1, 0])

    def test_other_numbers(self) -> None:
        """What is no such number is one line, in each call."""
        result = package.run(GOVERNOR)
        network = EXAMPLES / "network"
        for call in (lambda: package.run(GOVERNOR, claims=199_999), lambda: package.meaning(GOVERNOR, claims=199_999), lambda: package.lint(GOVERNOR, claims=199_999),
                     lambda: package.replay(network, network / "air.csv", claims=199_999), lambda: package.audit(GOVERNOR, result, claims=199_999),
                     lambda: package.report(GOVERNOR, self.folder / "page.html", claims=199_999)):
            with self.assertRaisesRegex(package.Fault, "^claims: 199999 is not from 200,000 to 100,000,000$"):
                call()


if __name__ == "__main__":
    main()
