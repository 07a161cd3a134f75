#!/usr/bin/env python3
"""Checks `--blocks FILE`: what the program says of files of formulas, what `explain` makes of it, and that the reader of the companions
finds the same faults at the same places, and the same values.

FORMULA_FILES says how many made files are compared.
"""
from __future__ import annotations

import json
import os
import shutil
import sys
import tempfile
from pathlib import Path
from typing import Any, Optional

from counted import TOP, Case, Done, companion, main, ptides
from made_formulas import GREATEST, LEAST, Maker

sys.path.insert(0, str(TOP / "python"))
from ptides.formulas.file import Formula, Refusal, formulas_of  # noqa: E402
from ptides.formulas.ranges import Range, facts_of, range_of  # noqa: E402
from ptides.formulas.remarks import findings  # noqa: E402

FILES = int(os.environ.get("FORMULA_FILES", "2000"))
COMMANDS = {"run": [], "check": [], "meaning": [], "migrate": [], "slacks": [], "audit": ["log"], "replay": ["air"]}
# A file, the line that refuses it, where the explanation shows it, what is underlined, and words of the explanation.
REFUSED: list[tuple[str, str, str, str, list[str]]] = [
    ("# slip\n2nd = a", "line 2 column 1: no name", "2:1", "2nd", ["a letter first", "write `n2nd`"]),
    ("n234567890123456789012345678901234 = a", "line 1 column 1: no name", "1:1", "n234567890123456789012345678901234", ["34 letters"]),
    ("\ufeffx = a", "line 1 column 1: no name", "1:1", "?", ["without a byte order mark"]),
    ("x = sum + y", "line 1 column 5: unknown word", "1:5", "sum", ["an actor of kind `sum`"]),
    ("x = y", "line 1 column 5: unknown word", "1:5", "y", ["write `b`"]),
    ("slip : a", "line 1 column 6: no =", "1:6", ":", ["write `=`"]),
    ("brake slip = a", "line 1 column 7: no =", "1:7", "slip", ["write `brake_slip`"]),
    ("x = a & b", "line 1 column 7: unknown character", "1:7", "&", ["write `and`"]),
    ("x = a × b", "line 1 column 7: unknown character", "1:7", "×", ["write `*`"]),
    ("x = a * 1.5", "line 1 column 10: unknown character", "1:10", ".", ["smaller unit"]),
    ("x = a = b", "line 1 column 7: half a sign", "1:7", "=", ["`==`"]),
    ("x = !a", "line 1 column 5: half a sign", "1:5", "!", ["not(x)"]),
    ("x = a => b", "line 1 column 7: half a sign", "1:7", "=", ["write `>=`"]),
    ("x = 9223372036854775808", "line 1 column 5: number too large", "1:5", "9223372036854775808", ["at most 9223372036854775807"]),
    ("x = a\ny = x + 1", "line 2 column 5: unknown word", "2:5", "x", ["`x` is a block"]),
    ("slip = a\ny = slip > 1", "line 2 column 5: unknown word", "2:5", "slip", ["`slip` is a block", "let an actor compute it"]),
    ("x = mix(a, b)", "line 1 column 5: unknown word", "1:5", "mix", ["did you mean `min`?"]),
    ("x = MIN(a, b)", "line 1 column 5: unknown word", "1:5", "MIN", ["write `min`"]),
    ("x = sqrt(a)", "line 1 column 5: unknown word", "1:5", "sqrt", ["a table of straight lines"]),
    ("x = a +", "line 1 column 8: no value", "1:8", "", ["the line ends here", "after this `+`"]),
    ("x = a ** 2", "line 1 column 8: no value", "1:8", "*", ["there is no power"]),
    ("x = +a", "line 1 column 5: no value", "1:5", "+", ["no `+` before it"]),
    ("x = min", "line 1 column 8: no (", "1:8", "", ["min(x, y)"]),
    ("x = abs a", "line 1 column 9: no (", "1:9", "a", ["abs(x)"]),
    ("x = 2 a", "line 1 column 7: no sign", "1:7", "a", ["write `2 * a`"]),
    ("x = a b", "line 1 column 7: no sign", "1:7", "b", ["put a sign"]),
    ("x = 0 < a < 9", "line 1 column 11: tests in a row", "1:11", "<", ["`0 < a and a < 9`", "the test before it", "1:7"]),
    ("x = a)", "line 1 column 6: ) without (", "1:6", ")", ["a `(` for each `)`"]),
    ("x = (a # why", "line 1 column 13: ( without )", "1:13", "", ["this `(` is open", "1:5"]),
    ("x = min(a, b", "line 1 column 13: ( without )", "1:13", "", ["this call is open", "1:5"]),
    ("x = (a, b)", "line 1 column 7: , outside a call", "1:7", ",", ["this `(` is no call"]),
    ("x = min(a)", "line 1 column 10: min takes 2 values", "1:10", ")", ["min(x, y)", "the call"]),
    ("x = clamp(scale(a, 2, 3, 0, 9)", "line 1 column 24: scale takes 3 values", "1:24", ",", ["scale(x, n, d)", "is the `)` missing that ends it before this `,`?"]),
    ("x = not(a, b)", "line 1 column 10: not takes 1 value", "1:10", ",", ["not(x)"]),
    ("x = if(a, b)", "line 1 column 12: if takes 3 values", "1:12", ")", ["if(condition, x, y)"]),
    ("x = " + " + ".join(["a"] * 33), "line 1 column 134: more than 64 steps", "1:134", "", ["at most 64 numbers, inputs, signs and calls", "split it"]),
    ("x = a\n\nx = b", "line 3: repeated name", "3:1", "x", ["the earlier one", "1:1"]),
    ("mean = a", "line 1: repeated name", "1:1", "mean", ["the program has a block of this name", "my_mean"]),
    ("\n".join(f"f{number} = a" for number in range(61)), "line 60: more than 64 blocks", "60:1", "f59", ["formula 60 of 61", "59 formulas beside"])]


def graph_of(*names: str, guards: tuple[str, ...] = ()) -> dict[str, Any]:
    """A graph with two sensors, a block and an actuator for each name, and a machine with a row for each guard."""
    actors = [{"name": name, "platform": "p", "kind": "sensor", "file": f"{name}.csv", "bound": 9} for name in ("a", "b")]
    wires: list[list[Any]] = []
    for number, name in enumerate(names):
        actors += [{"name": f"x{number}", "platform": "p", "kind": "block", "block": name}, {"name": f"y{number}", "platform": "p", "kind": "actuator", "slack": 20}]
        wires += [["a", 0, f"x{number}", 0], ["b", 0, f"x{number}", 1], [f"x{number}", 0, f"y{number}", 0]]
    if guards:
        rows = [{"state": number % 2, "low": -100, "high": 100, "next": 1 - number % 2, "emit": [0, number], "guard": guard} for number, guard in enumerate(guards)]
        actors += [{"name": "m", "platform": "p", "kind": "machine", "start": 0, "outputs": 1, "rows": rows}, {"name": "n", "platform": "p", "kind": "actuator", "slack": 20}]
        wires += [["a", 0, "m", 0], ["m", 0, "n", 0]]
    return {"ptides": 2, "until": 10**9, "clock_error": 0, "clock_errors": [], "platforms": ["p"], "actors": actors, "wires": wires, "links": []}


class InFolder(Case):
    """Files in a folder of their own."""

    def setUp(self) -> None:
        self.folder = Path(tempfile.mkdtemp())
        self.addCleanup(shutil.rmtree, self.folder)
        self.write(graph_of("sum_of"))
        self.rows([(1, 2), (3, 4)])

    def write(self, graph: dict[str, Any]) -> None:
        """The graph."""
        (self.folder / "graph.json").write_text(json.dumps(graph))

    def rows(self, pairs: list[tuple[int, int]]) -> None:
        """The rows of both sensors."""
        for name, values in zip("ab", zip(*pairs)):
            (self.folder / f"{name}.csv").write_text("time,seen,value\n" + "".join(f"{100 * at + 100},{100 * at + 102},{value}\n" for at, value in enumerate(values)))

    def formulas(self, text: str) -> None:
        """The file of formulas."""
        (self.folder / "own.blocks").write_text(text)

    def ptides(self, *words: str) -> Done:
        """Runs the program in the folder."""
        return ptides(*words, folder=self.folder)

    def explain(self, *words: str) -> Done:
        """Runs `explain` in the folder."""
        return companion("explain", *words, folder=self.folder)


def first_place(output: str) -> tuple[str, str]:
    """Where an explanation points first, and the text there that is underlined, but for marks past the end of the line."""
    lines = output.splitlines()
    place = next((line.split("--> ")[1] for line in lines if " --> " in line), "")
    at = next((number for number, line in enumerate(lines) if "^" in line and "|" in line), 0)
    text, marks = lines[at - 1].partition("| ")[2], lines[at].partition("| ")[2]
    return place, text[marks.find("^"):marks.rfind("^") + 1] if at else ""


class Faults(InFolder):
    """The lines of the program, and their explanations."""

    def test_lines(self) -> None:
        """Each line once: by the program, by the reader of the companions and by `explain`, at its place and with its words."""
        for text, line, place, underlined, words in REFUSED:
            with self.subTest(text=text[:40], line=line):
                self.formulas(text)
                self.assertEqual(self.ptides("run", "graph.json", "--blocks", "own.blocks"), (2, "", f"blocks: {line}\n"))
                self.assertEqual(refusal_of(text.encode()), f"blocks: {line}")
                done = self.explain("graph.json", "--blocks", "own.blocks")
                self.assertEqual((done.status, done.output.split("\n")[0], done.notes), (2, f"error: blocks: {line}", ""))
                self.assertEqual(first_place(done.output), (f"own.blocks:{place}", underlined), done.output)
                for word in words:
                    self.assertIn(word, done.output)
                earlier = self.explain("--line", f"blocks: {line}", "check", "--blocks=own.blocks", "graph.json")
                self.assertEqual((earlier.status, earlier.output), (0, done.output))

    def test_characters(self) -> None:
        """Places of the program count bytes; those of an explanation count characters, and a tab is one."""
        self.formulas("x = a +\t# é²\ny = é")
        self.assertEqual(self.ptides("check", "graph.json", "--blocks", "own.blocks").notes, "blocks: line 1 column 15: no value\n")
        done = self.explain("check", "graph.json", "--blocks", "own.blocks")
        self.assertEqual(first_place(done.output)[0], "own.blocks:1:13")

    def test_files(self) -> None:
        """A file that is missing, is a folder, or is too long."""
        self.assertEqual(self.ptides("run", "graph.json", "--blocks", "own.blocks"), (7, "", "read fault: blocks\n"))
        self.formulas("sum_of = a + b\n")
        cases = [("onw.blocks", ["no such file; looked up from", "did you mean `own.blocks`?"]), ("none/wheel.blocks", ["there is no folder `none`"]), ("none/own.blocks", ["it is beside the graph: `--blocks own.blocks`"]), (".", ["this is a folder"])]
        for option in ("--blocks {}", "--blocks={}"):
            for path, words in cases:
                with self.subTest(path=path, option=option):
                    asked = ["run", "graph.json", *option.format(path).split()]
                    self.assertEqual(self.ptides(*asked), (7, "", "read fault: blocks\n"))
                    done = self.explain(*asked)
                    self.assertEqual((done.status, done.output.split("\n")[0]), (7, "error: read fault: blocks"))
                    self.assertTrue(first_place(done.output)[0].startswith("the command line:1:"), done.output)
                    for word in words:
                        self.assertIn(word, done.output)
        self.formulas("# " + "x" * 65_534)
        self.assertEqual(self.ptides("check", "graph.json", "--blocks", "own.blocks").status, 2)
        self.assertEqual(self.ptides("check", "graph.json", "--blocks", "own.blocks").notes, "graph: block at actor 2\n")
        self.formulas("# " + "x" * 65_535)
        self.assertEqual(self.ptides("check", "graph.json", "--blocks", "own.blocks"), (2, "", "blocks: too long\n"))
        done = self.explain("check", "graph.json", "--blocks", "own.blocks")
        self.assertEqual(first_place(done.output), ("own.blocks:1:65537", "x"), done.output)
        self.assertIn("at most 65,536 bytes", done.output)

    def test_other_files_now(self) -> None:
        """A line that the file doesn't give now isn't explained."""
        self.formulas("sum_of = a + b")
        for line in ("blocks: line 1 column 5: no value", "blocks: too long", "blocks: line 1: repeated name"):
            self.assertIn("don't have this fault now", self.explain("--line", line, "run", "graph.json", "--blocks", "own.blocks").output)
            self.assertIn("don't have this fault now", self.explain("--line", line, "run", "graph.json").output)

    def test_pipes(self) -> None:
        """A file that can be read only once, as of a process, is explained too."""
        os.mkfifo(self.folder / "pipe")
        for name in ("pipe",):
            writer = os.fork()
            if not writer:
                (self.folder / name).write_text("x = a +")
                os._exit(0)
            done = self.explain("run", "graph.json", "--blocks", name)
            os.waitpid(writer, 0)
            self.assertEqual((done.status, first_place(done.output)[0]), (2, "pipe:1:8"), done.output)


class Names(InFolder):
    """Names of blocks that are nowhere."""

    def test_blocks_that_are_nowhere(self) -> None:
        """`explain` names the one of the line and all others, and what may be meant."""
        self.write(graph_of("sumof", "least", "outflow", guards=("sum_of", "switches")))
        self.formulas("sum_of = a + b\n")
        self.assertEqual(self.ptides("check", "graph.json", "--blocks", "own.blocks"), (2, "", "graph: block at actor 2\n"))
        done = self.explain("check", "graph.json", "--blocks", "own.blocks")
        for text in ("no block has this name; did you mean `sum_of`?", "`least`, `greatest`, `clip100`, `dead5`, `mean`, `sum_of`", "`outflow`, `switches` are nowhere either",
                     "to the file of --blocks"):
            self.assertIn(text, done.output)
        self.assertEqual(first_place(done.output)[1], '"sumof"')
        done = self.explain("check", "graph.json")
        self.assertIn("`outflow`, `sum_of`, `switches` are nowhere either", done.output)
        self.assertIn("give the one that has these names as `--blocks FILE`", done.output)
        (self.folder / "own.blocks").rename(self.folder / "other")
        self.formulas("sumof = a\noutflow = a\nsum_of = a\nswitches = b\n")
        self.assertIn("the file beside the graph has these names: `--blocks own.blocks`", self.explain("check", "graph.json").output)

    def test_audit_and_replay_without_the_file(self) -> None:
        """The log of a run with formulas is lawful with them. Without the file it is said which names are lacking, and that the run had them."""
        self.write(graph_of("sum_of", guards=("is_up",)))
        self.formulas("sum_of = a + b\nis_up = a > 2\n")
        (self.folder / "log").write_text(self.ptides("run", "graph.json", "--blocks", "own.blocks", "--log").output)
        (self.folder / "air").write_text("what,name,value\n")
        self.assertEqual(self.ptides("audit", "graph.json", "log", "--blocks", "own.blocks"), (0, "lawful\n", ""))
        for words, file in ((["audit", "graph.json", "log"], "a log"), (["replay", "graph.json", "air"], "a recording")):
            self.assertEqual(self.ptides(*words), (2, "", "graph: block at actor 2\n"))
            done = self.explain(*words)
            self.assertEqual((done.status, first_place(done.output)[1]), (2, '"sum_of"'))
            (self.folder / "own.blocks").rename(self.folder / "kept")
            lacking = self.explain(*words)
            (self.folder / "kept").rename(self.folder / "own.blocks")
            self.assertIn("the file beside the graph has these names: `--blocks own.blocks`", done.output)
            for text in ("`is_up` is nowhere either", f"if the run had a file of formulas, give the same one: `--blocks FILE`; {file} doesn't name the file that the run had"):
                self.assertIn(text, lacking.output)
        self.formulas("sum_of = a - b\nis_up = a > 2\n")
        self.assertEqual(self.ptides("audit", "graph.json", "log", "--blocks", "own.blocks"), (10, "", "unlawful: table\n"))
        self.assertIn("`ptides meaning` has", self.explain("audit", "graph.json", "log", "--blocks", "own.blocks").output)


    def test_inputs_without_a_wire(self) -> None:
        """If the formula doesn't use the input, the output that feeds the other one may feed it too."""
        for formula, wanted in (("sum_of = a * 2", 'add ["a",0,"x0",1] to "wires": `sum_of` doesn\'t use b, so let one output feed both inputs'),
                                ("sum_of = a + b", 'add ["b",0,"x0",1] to "wires"')):
            graph = graph_of("sum_of")
            graph["wires"].remove(["b", 0, "x0", 1])
            self.write(graph)
            self.formulas(formula)
            done = self.explain("check", "graph.json", "--blocks", "own.blocks")
            self.assertEqual((done.status, done.output.split("\n")[0]), (2, "error: graph: unfed actor 2 input 1"))
            self.assertIn(wanted, done.output)


class Words(InFolder):
    """The option on the command line."""

    def test_commands(self) -> None:
        """With each command, before and after the graph, in both spellings, the answer is the same."""
        self.formulas("sum_of = a + b\n")
        (self.folder / "log").write_text(self.ptides("run", "graph.json", "--blocks", "own.blocks", "--log").output)
        (self.folder / "air").write_text("what,name,value\n")
        for command, more in COMMANDS.items():
            with self.subTest(command=command):
                places = [[command, *option, "graph.json", *more] for option in (["--blocks", "own.blocks"], ["--blocks=own.blocks"])]
                places += [[command, "graph.json", *more, *option] for option in (["--blocks", "own.blocks"], ["--blocks=own.blocks"])]
                answers = {self.ptides(*words) for words in places}
                self.assertEqual((len(answers), {done.status for done in answers}), (1, {0}))
                for words in places:
                    self.assertEqual(self.explain(*words), (0, f"no fault: `ptides {' '.join(words)}` answers 0\n", ""))

    def test_wrong_words(self) -> None:
        """Twice, without a file, with `make`: the usage line as it was, and `explain` shows the word."""
        self.formulas("sum_of = a + b\n")
        usage = self.ptides()
        self.assertEqual((usage.status, usage.output, "blocks" in usage.notes), (1, "", False))
        cases = [("run graph.json --blocks own.blocks --blocks own.blocks", "--blocks", "there already"), ("run graph.json --blocks", "", "the path of a file of formulas"),
                 ("run graph.json --blocks=", "--blocks=", "the path of a file of formulas"), ("run graph.json --blocks --log", "--log", "the path of a file of formulas"),
                 ("run --blocks -own.blocks graph.json", "-own.blocks", "after `=` it may begin with `-`"), ("make 1 --blocks own.blocks", "--blocks", "no option `--blocks`"),
                 ("run graph.json --block own.blocks", "--block", "did you mean `--blocks`?"), ("check graph.json -- --blocks own.blocks", "--blocks", "a word too many")]
        for line, underlined, words in cases:
            with self.subTest(line=line):
                self.assertEqual(self.ptides(*line.split()), usage)
                done = self.explain(*line.split())
                self.assertEqual((done.status, first_place(done.output)[1], words in done.output), (1, underlined, True), done.output)
        (self.folder / "-own.blocks").write_text("sum_of = a + b\n")
        self.assertEqual(self.ptides("run", "graph.json", "--blocks=-own.blocks").status, 0)


def refusal_of(data: bytes) -> str:
    """The line with which the reader of the companions refuses a file; nothing if it takes it."""
    try:
        formulas_of(data)
        return ""
    except Refusal as refusal:
        return str(refusal)


class Reader(InFolder):
    """The reader of the companions beside the program."""

    def test_made_files(self) -> None:
        """Of made files, good and mistaken, both say the same, with the same lines and columns."""
        self.write(graph_of())
        maker, found = Maker(1), {"taken": 0, "refused": 0}
        for number in range(FILES):
            data = maker.file()
            (self.folder / "own.blocks").write_bytes(data)
            line = refusal_of(data)
            found["refused" if line else "taken"] += 1
            done = self.ptides("check", "graph.json", "--blocks", "own.blocks")
            if (done.status, done.notes) != ((2, line + "\n") if line else (0, "")):
                with self.subTest(number=number, data=data):
                    self.assertEqual(done.notes, line + "\n" if line else "")
        self.assertTrue(all(count > FILES // 8 for count in found.values()), found)

    def test_explanations(self) -> None:
        """Each refusal of a made file is explained at its place."""
        maker = Maker(2)
        for number in range(FILES // 20):
            data = maker.file()
            line = refusal_of(data)
            if line:
                (self.folder / "own.blocks").write_bytes(data)
                with self.subTest(number=number, line=line, data=data):
                    done = self.explain("--line", line, "check", "graph.json", "--blocks", "own.blocks")
                    self.assertEqual((done.status, done.notes), (0, ""))
                    self.assertTrue(first_place(done.output)[0].startswith("own.blocks:"), done.output)

    def test_values(self) -> None:
        """Made formulas have the same values in a run of the program."""
        maker = Maker(3)
        for number in range(max(4, FILES // 100)):
            names = [f"f{index}" for index in range(59)]
            text = "".join(f"{name} = {maker.formula(maker.chance.choice([2, 3, 5, 8, 20, 60]))}\n" for name in names)
            pairs = [(maker.value(), maker.value()) for _ in range(20)]
            self.write(graph_of(*names))
            self.rows(pairs)
            self.formulas(text)
            wanted = "".join(f"y{index},{100 * at + 100},0,{formula.value(*pair)}\n" for index, formula in enumerate(formulas_of(text.encode())) for at, pair in enumerate(pairs))
            with self.subTest(number=number):
                for command in ("run", "meaning"):
                    done = self.ptides(command, "graph.json", "--blocks", "own.blocks")
                    self.assertEqual((done.status, done.output), (0, "actuator,time,step,value\n" + wanted))

    def test_add(self) -> None:
        """A formula `a + b` gives what the kind `add` gives, byte for byte, and so do its log and its margins."""
        self.formulas("sum_of = a + b\n")
        self.rows([(1, 2), (GREATEST, GREATEST), (LEAST, -1), (5, -5), (GREATEST, LEAST)])
        plain = graph_of("sum_of")
        plain["actors"][2] = {"name": "x0", "platform": "p", "kind": "add"}
        (self.folder / "add.json").write_text(json.dumps(plain))
        for command in (["run"], ["run", "--log"], ["meaning"], ["check"], ["slacks"]):
            with self.subTest(command=command):
                self.assertEqual(self.ptides(*command, "graph.json", "--blocks", "own.blocks"), self.ptides(*command, "add.json"))
        (self.folder / "log").write_text(self.ptides("run", "add.json", "--log").output)
        self.assertEqual(self.ptides("audit", "graph.json", "log", "--blocks", "own.blocks"), (0, "lawful\n", ""))

    def test_shipped_blocks(self) -> None:
        """The blocks of the program as formulas give the same."""
        laws = {"least": "min(a, b)", "greatest": "max(a, b)", "clip100": "clamp(a, -100, 100)"}
        self.formulas("".join(f"my_{name} = {text}\n" for name, text in laws.items()))
        maker = Maker(4)
        self.rows([(maker.value(), maker.value()) for _ in range(40)])
        self.write(graph_of(*laws))
        wanted = self.ptides("run", "graph.json")
        self.write(graph_of(*(f"my_{name}" for name in laws)))
        self.assertEqual(self.ptides("run", "graph.json", "--blocks", "own.blocks"), wanted)


class Ranges(Case):
    """What is known of values before a run."""

    def made(self, seed: int) -> tuple[Maker, Optional[Formula]]:
        """A made formula."""
        maker = Maker(seed)
        return maker, next(iter(formulas_of(f"f = {maker.formula(maker.chance.choice([3, 5, 8, 13, 30, 60]))}".encode())))

    def test_ranges(self) -> None:
        """No made formula leaves its range, whatever is known of its inputs."""
        for seed in range(FILES // 2):
            maker, formula = self.made(seed)
            a, b = (Range(*sorted((maker.value(), maker.value()))) for _ in range(2))
            found = range_of(formula.tree, facts_of(a, b))
            for _ in range(20):
                x, y = (maker.chance.choice([*each, maker.chance.randint(*each), max(each.low, min(maker.value(), each.high))]) for each in (a, b))
                value = formula.value(x, y)
                if not found.has(value):
                    with self.subTest(seed=seed, formula=formula.text, x=x, y=y):
                        self.fail(f"{value} is not in {found}")

    def test_findings(self) -> None:
        """A test that is said to hold always or never does so wherever its value counts; what is said to divide by a number but 0 does so."""
        for seed in range(FILES // 2):
            maker, formula = self.made(seed)
            said = {id(each.part): each.text for each in findings(formula, formula.tree, facts_of())}
            for _ in range(10):
                for part, value, divisor in used(formula.tree, maker.value(), maker.value()):
                    text = said.get(id(part), "")
                    if "always holds" in text and not value or "never holds" in text and value or divisor == 0 and "divisor" not in text:
                        with self.subTest(seed=seed, formula=formula.text, part=formula.part(part)):
                            self.fail(text or "it divides by 0")

    def test_by_hand(self) -> None:
        """What follows from tests."""
        for text, wanted in (("if(a > 1400, clamp(scale(a - b, 1000, a), 0, 1000), 0)", []), ("a / b", ["can be 0"]), ("a % 0", ["is 0"]), ("if(a != b, 9 / (a - b), 0)", []),
                             ("if(b, a / b, 0)", []), ("b != 0 and a / b > 3", []), ("b == 0 or a / b > 3", []), ("if(not(b), 0, a % b)", []), ("if(a > b, 9 / (b - a), 0)", []),
                             ("if(a >= b, 9 / (a - b), 0)", ["can be 0"]), ("if(b > 0, scale(a, 1, b), scale(a, 1, b - 1))", []), ("a > 9223372036854775807", ["never holds"]),
                             ("abs(a) >= 0", ["always holds"]), ("a == a", ["always holds"]), ("clamp(a, 0, 9) < 10", ["always holds"]), ("a > 3 and a < 2", ["never holds"]),
                             ("if(a > 5, if(a > 3, 1, 2), 3)", ["always holds"]), ("a % 10 > 9", ["never holds"]), ("min(a, 5) > max(b, 5)", ["never holds"]),
                             ("if(a == 3, a * 2 == 6, b)", ["always holds"])):
            formula = formulas_of(f"f = {text}".encode())[0]
            found = [each.text for each in findings(formula, formula.tree, facts_of())]
            with self.subTest(text=text):
                self.assertEqual((len(found), [word for word, line in zip(wanted, found) if word in line]), (len(wanted), wanted), found)


def used(node: Any, a: int, b: int) -> Any:
    """The parts of a formula whose values count for these inputs, with their values, and the divisor of one that divides."""
    from ptides.formulas.remarks import DIVISORS
    from ptides.formulas.tree import value_of

    values = [value_of(part, a, b) for part in node.parts]
    counting = list(node.parts)
    if node.function == "if":
        counting = [node.parts[0], node.parts[1] if values[0] else node.parts[2]]
    elif node.function in ("and", "or") and bool(values[0]) == (node.function == "or"):
        counting = [node.parts[0]]
    for part in counting:
        yield from used(part, a, b)
    yield node, value_of(node, a, b), values[DIVISORS[node.function]] if node.function in DIVISORS else None


if __name__ == "__main__":
    main()
