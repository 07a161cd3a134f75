#!/usr/bin/env python3
"""Checks `--blocks FILE` of the companions and `blocks=` of the package: the file is passed on to each call of the program, and `lint` and
`dot` say something of its formulas."""
from __future__ import annotations

import json
import shutil
import sys
import tempfile
from pathlib import Path
from typing import Any, Callable

from counted import TOP, Case, Done, companion, main, ptides, run

sys.path.insert(0, str(TOP / "python"))
import ptides as package  # noqa: E402
from ptides.scenarios import scenario_of, word_meanings  # noqa: E402
from ptides.formulas.option import BlocksFile, file_in  # noqa: E402

# Speed and pressure on one platform, over a link, and a machine with a guard.
GRAPH: dict[str, Any] = {
    "ptides": 2, "until": 1000, "clock_error": 5, "clock_errors": [], "platforms": ["p", "q"],
    "actors": [{"name": "a", "platform": "p", "kind": "sensor", "file": "a.csv", "bound": 9}, {"name": "b", "platform": "p", "kind": "sensor", "file": "b.csv", "bound": 9},
               {"name": "apart", "platform": "p", "kind": "block", "block": "gap"},
               {"name": "state", "platform": "p", "kind": "machine", "start": 0, "outputs": 1, "rows": [
                   {"state": 0, "low": -100, "high": 100, "next": 1, "emit": [0, 1], "guard": "wide"}, {"state": 1, "low": -100, "high": 100, "next": 0, "emit": [0, 0], "guard": "narrow"}]},
               {"name": "w", "platform": "p", "kind": "send", "slack": 20}, {"name": "r", "platform": "q", "kind": "receive"},
               {"name": "out", "platform": "q", "kind": "actuator", "slack": 99}],
    "wires": [["a", 0, "apart", 0], ["b", 0, "apart", 1], ["apart", 0, "state", 0], ["state", 0, "w", 0], ["r", 0, "out", 0]],
    "links": [{"from": "w", "to": "r", "delay": 40}]}
FORMULAS = "# how far apart\ngap = abs(a - b)\nwide = a > 10\nnarrow = a < 5\n"
ROWS = {"a.csv": "time,seen,value\n100,103,20\n200,203,30\n300,303,5\n", "b.csv": "time,seen,value\n100,103,5\n200,203,29\n300,303,50\n"}
TABLE = "actuator,time,step,value\nout,100,0,1\nout,200,0,0\nout,300,0,1\n"
SPELLINGS = (["--blocks", "own.blocks"], ["--blocks=own.blocks"])


class InFolder(Case):
    """A graph with its files in a folder of their own."""

    def setUp(self) -> None:
        self.folder = Path(tempfile.mkdtemp())
        self.addCleanup(shutil.rmtree, self.folder)
        for name, text in {**ROWS, "own.blocks": FORMULAS, "graph.json": json.dumps(GRAPH)}.items():
            (self.folder / name).write_text(text)

    def companion(self, name: str, *words: Any, given: Any = None) -> Done:
        """Runs a companion in the folder."""
        return companion(name, *words, folder=self.folder, given=given)

    def ptides(self, *words: str, given: Any = None) -> Done:
        """Runs the program in the folder."""
        return ptides(*words, folder=self.folder, given=given)


class Companions(InFolder):
    """The companions."""

    def test_spellings(self) -> None:
        """Each companion takes both, and gives the same by them; without the file the graph is refused, with the line of the program."""
        self.assertEqual(self.ptides("run", "graph.json", "--blocks", "own.blocks"), (0, TABLE, ""))
        (self.folder / "air.csv").write_text("what,name,value\n")
        for words in (["lint", "graph.json"], ["dot", "graph.json"], ["timing", "graph.json"], ["probe", "graph.json"], ["wave", "graph.json", "--csv", "-"],
                      ["wave", "replay", "graph.json", "air.csv", "--svg", "-"], ["wave", "graph.json", "--clock", "step:0:1", "--trace", "-"]):
            name, *rest = words
            answers = {self.companion(name, *rest, *option) for option in SPELLINGS} | {self.companion(name, *option, *rest) for option in SPELLINGS}
            with self.subTest(words=words):
                self.assertEqual((len(answers), {(done.status, done.notes) for done in answers}), (1, {(0, "")}))
                self.assertEqual(self.companion(name, *rest)[::2], (2, "graph: block at actor 2\n"))

    def test_bad_files(self) -> None:
        """A file that can't be read is one line of the companion; one that is refused gives the line and the status of the program."""
        for name in ("lint", "dot", "timing", "probe", "wave", "report", "bench"):
            words = [name, "." if name == "bench" else "graph.json"]
            for path, why in (("none", "cannot read none: No such file or directory"), (".", "cannot read .: Is a directory"), ("", "the path of a file is missing")):
                with self.subTest(name=name, path=path):
                    self.assertEqual(self.companion(*words, f"--blocks={path}"), (1, "", f"ptides {name}: argument --blocks: {why}\n"))
        (self.folder / "own.blocks").write_text("gap = a -\n")
        for name in ("lint", "timing", "probe", "wave", "report"):
            with self.subTest(name=name):
                self.assertEqual(self.companion(name, "graph.json", "--blocks", "own.blocks"), (2, "", "blocks: line 1 column 10: no value\n"))
        done = self.companion("dot", "graph.json", "--blocks", "own.blocks")
        self.assertEqual((done.status, done.notes, 'label="blocks: line 1 column 10: no value"' in done.output), (2, "blocks: line 1 column 10: no value\n", True))

    def test_pipes(self) -> None:
        """A file that can be read only once is read once, whatever is asked of the program."""
        script = f"{sys.executable} -S {TOP / 'tools' / 'ptides-lint'} graph.json --blocks <(cat own.blocks)"
        self.assertEqual(run(["bash", "-c", script], self.folder), self.companion("lint", "graph.json", "--blocks", "own.blocks"))

    def test_probe(self) -> None:
        """The probed graph runs with the same file, and shows what the formula gives."""
        probed = self.companion("probe", "graph.json", "--blocks", "own.blocks", "apart").output
        done = self.ptides("run", "/dev/stdin", "--blocks", "own.blocks", given=probed)
        self.assertEqual((done.status, done.output), (0, TABLE + "p_apart,100,0,15\np_apart,200,0,1\np_apart,300,0,45\n"))

    def test_wave(self) -> None:
        """Inner signals come from runs with the same formulas."""
        done = self.companion("wave", "graph.json", "--csv", "-", "--blocks", "own.blocks")
        for line in ("event,p,apart,0,100,0,15,", "event,p,state,0,200,0,0,", "event,q,out,,300,0,1,"):
            self.assertIn(f"\n{line}", done.output)

    def test_timing(self) -> None:
        """The numbers are those of the same graph with a block of the program."""
        plain = json.loads(json.dumps(GRAPH).replace('"gap"', '"least"').replace('"wide"', '"mean"').replace('"narrow"', '"mean"'))
        self.assertEqual(self.companion("timing", "graph.json", "--blocks", "own.blocks"), self.companion("timing", "/dev/stdin", given=json.dumps(plain)))

    def test_long_runs(self) -> None:
        """What helps against a run that is too long is found with the formulas too."""
        actors = [{"name": "e", "platform": "p", "kind": "every", "start": 0, "period": 10}, {"name": "x", "platform": "p", "kind": "block", "block": "gap"},
                  {"name": "out", "platform": "p", "kind": "actuator", "slack": 20}]
        graph = {**GRAPH, "until": 999_999, "platforms": ["p"], "actors": actors, "wires": [["e", 0, "x", 0], ["e", 0, "x", 1], ["x", 0, "out", 0]], "links": []}
        (self.folder / "graph.json").write_text(json.dumps(graph))
        for name in ("explain", "lint", "wave"):
            done = self.companion(name, "graph.json", "--blocks", "own.blocks")
            with self.subTest(name=name):
                self.assertIn("with `--claims 300000` the whole run fits", done.output + done.notes)

    def test_explain_tries(self) -> None:
        """What `explain` proposes against a sender that can't send in time is tried with the formulas."""
        graph = json.loads(json.dumps(GRAPH))
        graph["actors"][4]["slack"] = 0
        (self.folder / "graph.json").write_text(json.dumps(graph))
        done = self.companion("explain", "check", "graph.json", "--blocks", "own.blocks")
        self.assertIn("raise the slack of `w` from 0 to 10: then `check` answers 0", done.output)


class Dot(InFolder):
    """The picture."""

    def test_formulas(self) -> None:
        """A node has its formula, and a machine its guards; a long formula is cut, and whole in the tooltip. Without the option nothing changes."""
        long = "gap = if(a > 1400, clamp(scale(a - b, 1000, a), 0, 1000), 0)"
        (self.folder / "own.blocks").write_text(FORMULAS.replace("gap = abs(a - b)", long + " # as a line"))
        done = self.companion("dot", "graph.json", "--blocks", "own.blocks")
        self.assertIn('"apart" [label="apart\\nblock gap\\nif(a > 1400, clamp(scale(a - b, 1000,...\\noffset 9", shape=box, fillcolor="white", tooltip="' + long + '"];', done.output)
        self.assertIn('label="state\\nmachine, 2 rows\\nwide = a > 10\\nnarrow = a < 5\\noffset 9"', done.output)
        self.assertIn('tooltip="wide = a > 10\\nnarrow = a < 5"', done.output)
        self.need("dot")
        picture = run(["dot", "-Tsvg"], self.folder, done.output)
        self.assertEqual((picture.status, picture.notes, 'xlink:title="gap = if(a &gt; 1400,' in picture.output), (0, "", True))

    def test_many_guards(self) -> None:
        """Of many guards three are shown, and how many more there are."""
        graph = json.loads(json.dumps(GRAPH))
        graph["actors"][3]["rows"] = [{"state": number, "low": 0, "high": 9, "next": 0, "emit": None, "guard": f"g{number}"} for number in range(5)]
        (self.folder / "graph.json").write_text(json.dumps(graph))
        (self.folder / "own.blocks").write_text("gap = a - b\n" + "".join(f"g{number} = a > {number}\n" for number in range(5)))
        output = self.companion("dot", "graph.json", "--blocks", "own.blocks").output
        self.assertIn("\\ng2 = a > 2\\nand 2 more guards\\n", output)
        self.assertIn("g4 = a > 4", output)


class Lint(InFolder):
    """The warnings."""

    def lint(self, formulas: str, change: Callable[[dict[str, Any]], Any] = lambda graph: None) -> list[str]:
        """What is said of these formulas, with a graph that is changed."""
        graph = json.loads(json.dumps(GRAPH))
        change(graph)
        (self.folder / "graph.json").write_text(json.dumps(graph, indent=0))
        (self.folder / "own.blocks").write_text(formulas)
        done = self.companion("lint", "graph.json", "--blocks", "own.blocks")
        self.assertEqual(done.status, 0, done.notes)
        return done.output.splitlines()[:-1]

    def test_warnings(self) -> None:
        """Each warning with its place."""
        self.assertEqual(self.lint(FORMULAS), [])
        for formulas, place, text in (
                ("gap = max(min(a, 3), 3)", "own.blocks:1", "`gap` gives 3, whatever its inputs are"),
                ("gap = 120", "own.blocks:1", "`gap` uses neither a nor b: it always gives 120, and no other formula can name it"),
                ("gap = a / b", "own.blocks:1", "in `gap`, the divisor `b` of `a / b` can be 0, and then this gives 0"),
                ("# why\ngap = 1000 % (a - b)", "own.blocks:2", "in `gap`, the divisor `(a - b)` of `1000 % (a - b)` can be 0, and then this gives 0"),
                ("gap = scale(a, b, 0)", "own.blocks:1", "in `gap`, the divisor `0` of `scale(a, b, 0)` is 0, and then this gives 0"),
                ("gap = if(abs(a) < 0, a, b)", "own.blocks:1", "in `gap`, `abs(a) < 0` never holds"),
                ("gap = if(b <= 9223372036854775807, a, b)", "own.blocks:1", "in `gap`, `b <= 9223372036854775807` always holds"),
                ("gap = a - b\nspare = a + b", "own.blocks:2", "no actor and no guard of the graph uses `spare`"),
                ("gap = a * 2", "graph.json:", "`gap` of `apart` doesn't use b, which `b` feeds: an event of `b` alone gives the value for a = 0; feed both inputs from `a`")):
            with self.subTest(formulas=formulas):
                found = [line for line in self.lint(formulas + "\nwide = a > 10\nnarrow = a < 5\n") if text in line]
                self.assertEqual(len(found), 1)
                self.assertRegex(found[0], rf"^{place}\d*: warning: ")

    def test_guards(self) -> None:
        """A guard that is always or never above 0 for the inputs of its row, and a test that can't hold in any row with this guard."""
        gap = "gap = a - b\n"
        for formulas, place, text in (
                ("wide = a > 100\nnarrow = a < 5", "graph.json:", "row 0 of `state` is never taken: its guard `wide` is never above 0 for inputs from -100 to 100 in state 0"),
                ("wide = a > 10\nnarrow = b - 1", "graph.json:", "row 1 of `state` is never taken: its guard `narrow` is never above 0 for inputs from -100 to 100 in state 1"),
                ("wide = a + 101\nnarrow = a < 5", "graph.json:", "the guard `wide` of row 0 of `state` is always above 0 for inputs from -100 to 100 in state 0"),
                ("wide = a > 10 or a < -100\nnarrow = a < 5", "own.blocks:2", "in `wide`, `a < -100` never holds for the inputs and states of the rows that have this guard")):
            with self.subTest(formulas=formulas):
                found = [line for line in self.lint(gap + formulas) if text in line]
                self.assertEqual(len(found), 1)
                self.assertRegex(found[0], rf"^{place}\d*: warning: ")
        # One guard for several rows may have tests that are known in each of them.
        one_for_both = json.dumps(GRAPH).replace('"narrow"', '"wide"')
        self.assertEqual(self.lint(gap + "wide = if(b == 0, a > 10, a < 5)", lambda graph: graph.update(json.loads(one_for_both))), [])

    def test_inputs(self) -> None:
        """An input that isn't used is fine if the same output feeds both."""
        self.assertEqual(self.lint("gap = a * 2\nwide = a > 10\nnarrow = a < 5", lambda graph: graph["wires"].__setitem__(1, ["a", 0, "apart", 1]))[1:], [])

    def test_nowhere(self) -> None:
        """Names that are nowhere follow the refusal of the program."""
        (self.folder / "own.blocks").write_text("gaap = a - b\nnarrow = a < 5\n")
        done = self.companion("lint", "graph.json", "--blocks", "own.blocks")
        self.assertEqual((done.status, done.output, done.notes.splitlines()), (2, "", [
            "graph: block at actor 2", "ptides lint: graph.json:1: `apart` names the block `gap`, which is defined nowhere; did you mean `gaap`?",
            "ptides lint: graph.json:1: `state` names the block `wide`, which is defined nowhere"]))


class Scenarios(InFolder):
    """Scenarios."""

    def test_words(self) -> None:
        """A scenario may name its file; one that doesn't gets the one of the option. `make` gets none."""
        for words, blocks in (("run\ngraph.json", "../own.blocks"), ("run\n--blocks\nx\ngraph.json", "x"), ("check\ngraph.json\n--blocks=x", "x"), ("make\n1", None)):
            inner = self.folder / "inner"
            inner.mkdir(exist_ok=True)
            (inner / "words").write_text(words)
            scenario = scenario_of(inner, blocks=BlocksFile(str(self.folder / "own.blocks"), "own.blocks"))
            self.assertEqual((word_meanings(scenario.words).blocks, scenario_of(inner).words), (blocks, words.split("\n")))

    def test_bench(self) -> None:
        """By its words, and by the option."""
        (self.folder / "expected.csv").write_text(TABLE)
        (self.folder / "expected.check").write_text(self.ptides("check", "graph.json", "--blocks", "own.blocks").output)
        self.assertEqual(self.companion("bench", ".").status, 1)
        for option in SPELLINGS:
            self.assertEqual(self.companion("bench", ".", *option).status, 0)
        for words in ("run\ngraph.json\n--blocks\nown.blocks", "run\n--blocks=own.blocks\ngraph.json"):
            (self.folder / "words").write_text(words)
            self.assertEqual(self.companion("bench", ".").status, 0)

    def test_report(self) -> None:
        """The page names the file, with its digest, and the picture has the formula; scenarios too."""
        if not Path("/usr/share/javascript/dygraphs").exists():
            self.skipTest("libjs-dygraphs isn't there")
        for option in SPELLINGS:
            done = self.companion("report", "graph.json", *option, "-o", "page.html")
            page = (self.folder / "page.html").read_text()
            self.assertEqual((done.status, done.notes), (0, ""))
            for text in ("$ ptides run graph.json --blocks own.blocks", "<td>own.blocks</td>"):
                self.assertTrue(text in page, text)
            self.assertTrue("abs(a &#45; b)" in page or not shutil.which("dot"))
        (self.folder / "expected.csv").write_text(TABLE)
        self.assertEqual(self.companion("report", ".", "--blocks", "own.blocks", "-o", "all.html")[::2], (0, ""))
        self.assertTrue("1 of 1 scenarios gave what is stored" in (self.folder / "all.html").read_text())
        self.assertEqual(self.companion("report", "graph.json", "--blocks", "own.blocks", "-o", "own.blocks").status, 1)

    def test_cluster(self) -> None:
        """A scenario for a cluster has the file with it, in both spellings."""
        from ptides import cluster

        inner = self.folder / "inner"
        inner.mkdir()
        for words in ("run\n../graph.json\n--blocks\n../own.blocks", "run\n../graph.json\n--blocks=../own.blocks"):
            (inner / "words").write_text(words)
            files, place = cluster.packed(scenario_of(inner))
            self.assertEqual((files["own.blocks"].decode(), place), (FORMULAS, "inner"))
        (inner / "words").write_text("run\n../graph.json")
        files, _ = cluster.packed(scenario_of(inner, blocks=BlocksFile(str(self.folder / "own.blocks"), "own.blocks")))
        self.assertIn("own.blocks", files)


class Package(InFolder):
    """`blocks=` of `import ptides`."""

    def test_calls(self) -> None:
        """Each call takes a path, a dict or bytes."""
        path, graph = self.folder / "own.blocks", self.folder / "graph.json"
        (self.folder / "air.csv").write_text("what,name,value\n")
        for blocks in (path, str(path), FORMULAS.encode(), {"gap": "abs(a - b)", "wide": "a > 10", "narrow": "a < 5"}):
            with self.subTest(blocks=type(blocks).__name__):
                result = package.run(graph, blocks=blocks, probes=["apart"])
                self.assertEqual([event.value for event in result.events["out"]], [1, 0, 1])
                self.assertEqual([event.value for event in result.events_at("apart")], [15, 1, 45])
                self.assertEqual(package.meaning(graph, blocks=blocks).output, TABLE)
                self.assertEqual(package.replay(graph, self.folder / "air.csv", blocks=blocks).status, 0)
                self.assertEqual(len(package.check(graph, blocks=blocks)), 7)
                self.assertEqual([slack.actor for slack in package.slacks(graph, blocks=blocks)], ["w", "out"])
                self.assertEqual(package.timing(graph, blocks=blocks).growth[0].of, "a")
                self.assertEqual(list(package.lint(graph, blocks=blocks)), [])

    def test_audit(self) -> None:
        """Of a result the formulas are known, as they were then."""
        result = package.run(self.folder, blocks=self.folder / "own.blocks")
        self.assertEqual(result.blocks, FORMULAS.encode())
        (self.folder / "own.blocks").write_text(FORMULAS.replace("a - b", "a + b"))
        self.assertTrue(package.audit(self.folder, result))
        other = package.audit(self.folder, result, blocks=self.folder / "own.blocks")
        self.assertEqual((other.lawful, other.line.split(" ")[:2]), (False, ["unlawful:", "turn"]))
        (self.folder / "log").write_text(result.output)
        with self.assertRaises(package.Refused) as caught:
            package.audit(self.folder, self.folder / "log")
        self.assertIn(f"the file beside the graph has these names: `--blocks {self.folder / 'own.blocks'}`", str(caught.exception))
        (self.folder / "own.blocks").unlink()
        with self.assertRaises(package.Refused) as caught:
            package.audit(self.folder, self.folder / "log")
        self.assertIn("if the run had a file of formulas, give the same one: `--blocks FILE`", str(caught.exception))

    def test_refusals(self) -> None:
        """What is refused is shown at its place in the file that the user knows."""
        bad = self.folder / "bad.blocks"
        bad.write_text("gap = a -\n")
        for blocks, place in ((bad, f"{bad}:1:10"), ({"x": "a", "gap": "a -"}, "blocks:2:10")):
            with self.assertRaises(package.Refused) as caught:
                package.run(self.folder, blocks=blocks)
            self.assertEqual((caught.exception.status, caught.exception.place), (2, f"blocks line {place.split(':')[1]} column 10"))
            self.assertIn(f" --> {place}\n", str(caught.exception))
        remarks = package.lint(self.folder, blocks={**{"gap": "a / b"}, "wide": "a > 10", "narrow": "a < 5"})
        self.assertEqual([tuple(remark) for remark in remarks if remark.line is None], [(None, "blocks:1: in `gap`, the divisor `b` of `a / b` can be 0, and then this gives 0")])
        for blocks, line in ((3, "blocks: int is no path, no dict of formulas by their names, and no bytes"), (self.folder / "none", f"blocks: cannot read {self.folder / 'none'}: No such file or directory"),
                             ({"x": 1}, "blocks: 'x': a formula and its name are each a text of one line"), ({"x": "a\ny = b"}, "blocks: 'x': a formula and its name are each a text of one line")):
            with self.assertRaises(package.Fault) as fault:
                package.run(self.folder, blocks=blocks)
            self.assertEqual(str(fault.exception), line)
        with self.assertRaises(package.Fault) as fault:
            package.run(self.folder, blocks=FORMULAS.encode(), workers=99)
        self.assertEqual(str(fault.exception), "`--workers` takes a number from 1 to 64, as 4; not `--workers 99`")

    def test_words(self) -> None:
        """The file that the words of a command name."""
        for words, file in (("run g --blocks f", "f"), ("run --blocks=f g", "f"), ("run g", None), ("run --workers --blocks f g", None), ("run -- --blocks f", None),
                            ("run g --blocks -f", None), ("run g --blocks -", "-"), ("run g --blocks=-f", "-f"), ("run g --blocks", None), ("run g --blocks=", None), ("make 1 --blocks f", None)):
            found = file_in(words.split())
            self.assertEqual(found.path if found else None, file, words)


if __name__ == "__main__":
    main()
