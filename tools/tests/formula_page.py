"""What docs/FORMULAS.md says of values, of places of faults and of limits, worked out by hand. Called by check-formula-pages.sh."""
from __future__ import annotations

import json
import shutil
import tempfile
from pathlib import Path

from counted import Case, Done, main, ptides

LEAST, GREATEST = -2**63, 2**63 - 1
# Formulas without inputs, and what they give. L and G stand for the least and the greatest number.
VALUES = [
    ("1 + 2", 3), ("1 - 2", -1), ("3 * -2", -6), ("G + 1", GREATEST), ("L - 1", LEAST), ("-2 - G", LEAST), ("G * G", GREATEST), ("L * G", LEAST),
    ("-L", GREATEST), ("-G", LEAST + 1), ("--5", 5), ("2 - -3", 5),
    ("7 / 2", 3), ("-7 / 2", -3), ("7 / -2", -3), ("-7 / -2", 3), ("7 / 0", 0), ("L / -1", GREATEST), ("L / 1", LEAST), ("0 / 0", 0),
    ("7 % 3", 1), ("-7 % 3", -1), ("7 % -3", 1), ("-7 % -3", -1), ("7 % 0", 0), ("L % -1", 0), ("L % G", -1), ("6 % 3", 0),
    ("1 < 2", 1), ("2 < 2", 0), ("2 <= 2", 1), ("3 <= 2", 0), ("2 > 1", 1), ("2 > 2", 0), ("2 >= 2", 1), ("1 >= 2", 0), ("2 == 2", 1), ("2 == 3", 0),
    ("2 != 3", 1), ("2 != 2", 0), ("5 and -3", 1), ("5 and 0", 0), ("0 or -3", 1), ("0 or 0", 0), ("not(0)", 1), ("not(-7)", 0),
    ("abs(-5)", 5), ("abs(5)", 5), ("abs(L)", GREATEST), ("min(-3, 2)", -3), ("max(-3, 2)", 2),
    ("clamp(5, 1, 9)", 5), ("clamp(0, 1, 9)", 1), ("clamp(10, 1, 9)", 9), ("clamp(5, 9, 1)", 9), ("clamp(9, 9, 1)", 1), ("clamp(10, 9, 1)", 1),
    ("scale(7, 3, 2)", 10), ("scale(-7, 3, 2)", -10), ("scale(G, G, G)", GREATEST), ("scale(L, L, G)", GREATEST), ("scale(G, 4, 8)", GREATEST // 2),
    ("scale(5, 5, 0)", 0), ("scale(L, G, 1)", LEAST), ("if(2, 5, 6)", 5), ("if(0, 5, 6)", 6), ("if(-1, 5, 1 / 0)", 5),
    # What binds more tightly, and from left to right.
    ("1 + 2 * 3", 7), ("(1 + 2) * 3", 9), ("10 - 4 - 3", 3), ("100 / 7 * 7", 98), ("100 % 7 * 7", 14), ("-2 * -3", 6), ("1 + 2 < 2 * 2", 1),
    ("1 or 1 and 0", 1), ("(1 or 1) and 0", 0), ("1 < 2 and 3 < 2", 0), ("2 * 3 % 4", 2), ("-5 % 3", -2), ("0 and 0 or 1", 1),
    ("007", 7), ("1+2*\t3", 7)]
# Lines with a fault: where, counted from 1 as the sign ^ below the line would be, and what it is.
PLACES = [
    ("2a = b", 1, "no name"), ("  _x = b", 3, "no name"), ("= b", 1, "no name"), ("n" * 33 + " = a", 1, "no name"), ("\ufefff = a", 1, "no name"), ("é = a", 1, "no name"),
    ("f", 2, "no ="), ("f  # comment", 4, "no ="), ("f a = b", 3, "no ="), ("f.g = a", 2, "no ="), ("f\r", 3, "no ="),
    ("f = a ^ b", 7, "unknown character"), ("f = a + é", 9, "unknown character"), ("f = _a", 5, "unknown character"), ("f = 1.5", 6, "unknown character"),
    ("f == a", 4, "half a sign"), ("f = a = b", 7, "half a sign"), ("f = !a", 5, "half a sign"), ("f = a < = b", 9, "half a sign"), ("f = a =", 7, "half a sign"),
    ("f = 9223372036854775808", 5, "number too large"), ("f = a + -9223372036854775808", 10, "number too large"),
    ("f = A", 5, "unknown word"), ("f = a1", 5, "unknown word"), ("f = g(a)", 5, "unknown word"), ("f = IF(a, b, 0)", 5, "unknown word"),
    # A word that is none comes before a word that doesn't fit.
    ("f = ) ^", 7, "unknown character"), ("f = a b + c", 11, "unknown word"),
    ("f =", 4, "no value"), ("f = # a", 8, "no value"), ("f = a +", 8, "no value"), ("f = a + * b", 9, "no value"), ("f = (", 6, "no value"), ("f = min()", 9, "no value"),
    ("f = min(a,)", 11, "no value"), ("f = and b", 5, "no value"), ("f = -", 6, "no value"), ("f = a + \t# more", 16, "no value"), ("f = a -\r", 9, "no value"),
    ("f = min", 8, "no ("), ("f = abs a", 9, "no ("), ("f = not not(a)", 9, "no ("),
    ("f = a b", 7, "no sign"), ("f = 2a", 6, "no sign"), ("f = (a)(b)", 8, "no sign"), ("f = a min(a, b)", 7, "no sign"), ("f = 2 3", 7, "no sign"), ("f = min(a b)", 11, "no sign"),
    ("f = 0 < a < 9", 11, "tests in a row"), ("f = a == b + 1 == 2", 16, "tests in a row"), ("f = a < (b and 1) < 2", 19, "tests in a row"),
    ("f = 1 or a < b != -b", 16, "tests in a row"), ("f = min(a, a < b < 1)", 18, "tests in a row"), ("f = (a < b) < (a < b < a)", 22, "tests in a row"),
    ("f = a)", 6, ") without ("), ("f = min(a, b))", 14, ") without ("), ("f = a, b", 6, ", outside a call"), ("f = (a, b)", 7, ", outside a call"),
    ("f = min((a, b), 1)", 11, ", outside a call"),
    ("f = min(a)", 10, "min takes 2 values"), ("f = max(a, b, 1)", 13, "max takes 2 values"), ("f = not(a, b)", 10, "not takes 1 value"), ("f = abs(a, b)", 10, "abs takes 1 value"),
    ("f = if(a, b)", 12, "if takes 3 values"), ("f = clamp(a, 1)", 15, "clamp takes 3 values"), ("f = scale(a, 1, 2, 3)", 18, "scale takes 3 values"),
    ("f = (a", 7, "( without )"), ("f = min(a, b # more", 20, "( without )"), ("f = min(a", 10, "( without )"),
    ("f = " + "a+" * 32 + "a", 70, "more than 64 steps"), ("f = " + "-" * 64 + "a # many", 77, "more than 64 steps")]
GOOD = ["", " \t\r", "# comment", "f=a", " f\t=\ta # x", "f = a\r", "min = a", "n" * 32 + " = b", "f = a # \u00e9\u0000", "f = (a < b) < (b < a)", "f = a < b and b < 9 or a > 1",
        "f = " + "(" * 5000 + "a" + ")" * 5000, "f = " + "a+" * 31 + "-a", "f = " + "-" * 63 + "a", "f = 09223372036854775807"]


class Page(Case):
    """A graph in a folder, with files of formulas."""

    def setUp(self) -> None:
        self.folder = Path(tempfile.mkdtemp())
        self.addCleanup(shutil.rmtree, self.folder)
        (self.folder / "s.csv").write_text("time,seen,value\n5,5,0\n")

    def run_with(self, formulas: str | bytes, *names: str) -> Done:
        """What the program answers with these formulas, in a graph that has a block and an actuator for each name."""
        actors, wires = [{"name": "s", "platform": "p", "kind": "sensor", "file": "s.csv", "bound": 0}], []
        for number, name in enumerate(names):
            actors += [{"name": f"x{number}", "platform": "p", "kind": "block", "block": name}, {"name": f"y{number}", "platform": "p", "kind": "actuator", "slack": 9}]
            wires += [["s", 0, f"x{number}", 0], ["s", 0, f"x{number}", 1], [f"x{number}", 0, f"y{number}", 0]]
        graph = {"ptides": 1, "until": 9, "clock_error": 0, "platforms": ["p"], "actors": actors, "wires": wires, "links": []}
        (self.folder / "graph.json").write_text(json.dumps(graph))
        (self.folder / "own.blocks").write_bytes(formulas.encode() if isinstance(formulas, str) else formulas)
        return ptides("run", "graph.json", "--blocks", "own.blocks", folder=self.folder)

    def refuses(self, formulas: str | bytes, line: str) -> None:
        """The formulas are refused with this line and status 2, whatever else is in the folder."""
        self.assertEqual(self.run_with(formulas), (2, "", f"blocks: {line}\n"))

    def test_values(self) -> None:
        """Each sign and function."""
        for first in range(0, len(VALUES), 50):
            part = VALUES[first:first + 50]
            lines = [f"f{number} = {text}\n".replace("L", "(-9223372036854775807 - 1)").replace("G", "9223372036854775807") for number, (text, _) in enumerate(part)]
            done = self.run_with("".join(lines), *(f"f{number}" for number in range(len(part))))
            found = [int(line.split(",")[3]) for line in done.output.splitlines()[1:]]
            self.assertEqual((done.status, len(found)), (0, len(part)), done.notes)
            for (text, wanted), value in zip(part, found):
                with self.subTest(formula=text):
                    self.assertEqual(value, wanted)

    def test_places(self) -> None:
        """Each fault, alone and after good lines."""
        for text, column, what in PLACES:
            with self.subTest(line=text):
                self.refuses(text, f"line 1 column {column}: {what}")
                self.refuses(f"g = a\n\n# h = (\n{text}\ni = )\n", f"line 4 column {column}: {what}")

    def test_good(self) -> None:
        """What is allowed, alone and in one file with others."""
        for text in GOOD:
            with self.subTest(line=text):
                self.assertEqual(self.run_with(text).status, 0)
        self.assertEqual(self.run_with(b"f = a # \xff\xfe\n").status, 0)

    def test_names(self) -> None:
        """Names that are there twice, or are the program's own, and too many; but first all lines."""
        self.refuses("f = a\n\nf = b\n", "line 3: repeated name")
        for name in ("least", "greatest", "clip100", "dead5", "mean"):
            self.refuses(f"{name} = a\n", "line 1: repeated name")
        self.refuses("f = a\nf = b\ng = a +\n", "line 3 column 8: no value")
        lines = [f"f{number} = a\n" for number in range(60)]
        self.assertEqual(self.run_with("".join(lines[:59]), "f58", "least").status, 0)
        self.refuses("".join(lines), "line 60: more than 64 blocks")
        self.refuses("".join(lines[:59]) + "f7 = b\n", "line 60: repeated name")
        self.refuses("mean = a\n" + "".join(lines), "line 1: repeated name")

    def test_length(self) -> None:
        """65,536 bytes are allowed."""
        self.assertEqual(self.run_with("f = a\n#" + 65529 * "x").status, 0)
        self.refuses("f = a\n#" + 65530 * "x", "too long")

    def test_words(self) -> None:
        """The option with each command and in both spellings; where it isn't allowed, the usage line."""
        self.assertEqual(self.run_with("f = a + 7", "f").output, "actuator,time,step,value\ny0,5,0,7\n")
        log = ptides("run", "graph.json", "--blocks=own.blocks", "--log", folder=self.folder)
        (self.folder / "log").write_text(log.output)
        (self.folder / "air").write_text("what,name,value\n")
        (self.folder / "-").write_text("f = a + 7")
        for command, more in (("run", []), ("meaning", []), ("check", []), ("migrate", []), ("slacks", []), ("audit", ["log"]), ("replay", ["air"])):
            plain = ptides(command, "graph.json", *more, folder=self.folder)
            self.assertEqual((plain.status, plain.notes), (2, "graph: block at actor 1\n"))
            answers = {ptides(*words, folder=self.folder) for words in (
                [command, "--blocks", "own.blocks", "graph.json", *more], [command, "graph.json", *more, "--blocks", "own.blocks"],
                [command, "graph.json", "--blocks=own.blocks", *more], [command, "--blocks", "-", "--", "graph.json", *more])}
            with self.subTest(command=command):
                self.assertEqual((len(answers), answers.pop().status), (1, 0))
        usage = ptides(folder=self.folder)
        self.assertNotIn("--blocks", usage.notes)
        for words in (["run", "graph.json", "--blocks"], ["run", "graph.json", "--blocks="], ["run", "graph.json", "--blocks", ""], ["run", "graph.json", "--blocks", "--log"],
                      ["run", "graph.json", "--blocks", "own.blocks", "--blocks", "own.blocks"], ["make", "1", "--blocks", "own.blocks"], ["--blocks", "own.blocks", "run", "graph.json"],
                      ["run", "graph.json", "--", "--blocks", "own.blocks"], ["run", "graph.json", "--blocks", "-own.blocks"]):
            with self.subTest(words=words):
                self.assertEqual(ptides(*words, folder=self.folder), usage)

    def test_files(self) -> None:
        """A file that can't be read, and faults in order: the file of formulas, its lines, the graph."""
        self.run_with("f = a +")
        (self.folder / "graph.json").unlink()
        self.assertEqual(ptides("run", "graph.json", "--blocks", "none", folder=self.folder), (7, "", "read fault: blocks\n"))
        self.assertEqual(ptides("run", "graph.json", "--blocks", ".", folder=self.folder), (7, "", "read fault: blocks\n"))
        self.assertEqual(ptides("run", "graph.json", "--blocks", "own.blocks", folder=self.folder), (2, "", "blocks: line 1 column 8: no value\n"))
        (self.folder / "own.blocks").write_text("")
        self.assertEqual(ptides("run", "graph.json", "--blocks", "own.blocks", folder=self.folder), (7, "", "read fault: graph\n"))


if __name__ == "__main__":
    main()
