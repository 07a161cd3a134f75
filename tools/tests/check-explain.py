#!/usr/bin/env python3
"""Checks `ptides explain`: the refused examples, a table of mistakes, command lines, files, and random edits."""
from __future__ import annotations

import json
import os
import random
import re
import shutil
import sys
import tempfile
from pathlib import Path

from counted import EXAMPLES, GRAPHS, REFUSED, TOP, Case, blocks_of, companion, copied, example_words, main, make_files, ptides, run
from explain_mistakes import MISTAKES

GOOD = TOP / "tools" / "tests" / "explain"


def first_place(output: str) -> tuple[str, str]:
    """The first file:line:column of an explanation, and the text that is underlined there."""
    place = re.search(r"^ *--> (.*)$", output, re.M)
    marks = re.search(r"^ *\d+ \| (.*)\n *\| ( *)(\^+)", output, re.M)
    if not place or not marks:
        return "", ""
    return place[1], marks[1][len(marks[2]):len(marks[2]) + len(marks[3])]


class Explain(Case):
    """What is said of each mistake."""

    def setUp(self) -> None:
        self.folder = Path(tempfile.mkdtemp())
        self.addCleanup(shutil.rmtree, self.folder)

    def edited(self, file: str, old: str, new: str) -> Path:
        """A copy of the good graph with one edit."""
        copied(GOOD, self.folder)
        text = (GOOD / file).read_text()
        self.assertIn(old, text)
        (self.folder / file).write_text(text.replace(old, new, 1))
        return self.folder

    def test_mistakes(self) -> None:
        """Each mistake of the table is found where it is, with its words, and with the line and status of the program."""
        for file, old, new, line, place, underlined, words in MISTAKES:
            with self.subTest(line=line, new=new):
                folder = self.edited(file, old, new)
                program = ptides("run", "graph.json", folder=folder)
                done = companion("explain", "graph.json", folder=folder)
                self.assertEqual(program.notes, line + "\n")
                self.assertEqual((done.status, done.output.split("\n")[0], done.notes), (program.status, f"error: {line}", ""))
                found, text = first_place(done.output)
                self.assertEqual((found, text.rstrip()), (f"{file}:{place}", underlined))
                for word in words:
                    self.assertIn(word, done.output)

    def test_refused_examples(self) -> None:
        """Each refused example has its line and status, a place, and what was expected or may be changed."""
        for example in REFUSED:
            with self.subTest(example=example.name):
                folder = copied(example, self.folder / example.name)
                make_files(folder)
                line = (example / "expected.notes").read_text()
                words = ["--line", line.rstrip("\n"), "graph.json"] if (example / "to").exists() else example_words(example)
                done = companion("explain", *words, folder=folder)
                self.assertTrue(done.output.startswith(f"error: {line}"), done.output)
                self.assertEqual(done.status, 0 if (example / "to").exists() else int((example / "status").read_text()))
                self.assertRegex(done.output, r"\n *= (expected|help): ")
                self.assertNotIn("don't have this fault", done.output)
                self.assertTrue((example / "to").exists() or first_place(done.output)[0], done.output)

    def test_good_graphs(self) -> None:
        """There is no fault in the examples, and events that are missed are explained."""
        for example in GRAPHS:
            with self.subTest(example=example.name):
                done = companion("explain", "graph.json", *blocks_of(example), folder=example)
                if (example / "status").exists():
                    self.assertEqual(done.status, int((example / "status").read_text()))
                    self.assertTrue(done.output.startswith("error: "))
                else:
                    asked = " ".join(["ptides", "run", "graph.json", *blocks_of(example)])
                    self.assertEqual((done.status, done.output), (0, f"no fault: `{asked}` answers 0\n"))
        done = companion("explain", "graph.json", folder=EXAMPLES / "missed")
        self.assertEqual((done.status, first_place(done.output)), (5, ("graph.json:6:65", "300")))
        self.assertIn("a slack of 401 gives `valve` the margin 0", done.output)

    def test_command_lines(self) -> None:
        """The word that isn't allowed is underlined."""
        cases = [("rnu graph.json", 8, "rnu", "did you mean `run`?"), ("run graph.json --workers 65", 33, "65", "1 to 64"),
                 ("run graph.json --workers=0", 23, "--workers=0", "1 to 64"), ("run graph.json --worker 4", 23, "--worker", "did you mean `--workers`?"),
                 ("check graph.json --log", 25, "--log", "no option `--log`"), ("run graph.json --log --log", 29, "--log", "there already"),
                 ("run graph.json --clock step:0:0", 31, "step:0:0", "STEP from 1"), ("run graph.json other.json", 23, "other.json", "a word too many"),
                 ("make 101", 13, "101", "a number from 1 to 100"), ("run --log", 18, "", "the path of a graph is missing"),
                 ("run graph.json --workers", 33, "", "1 to 64"), ("run graph.json --log=1", 23, "--log=1", "takes no value"),
                 ("audit", 14, "", "the path of a graph is missing"), ("audit graph.json", 25, "", "the path of a log is missing"),
                 ("audit graph.json a b", 27, "b", "a word too many"), ("audit --log graph.json a", 14, "--log", "no option `--log`"),
                 ("replay graph.json", 26, "", "the path of an air file is missing"), ("replay graph.json a b", 28, "b", "a word too many"),
                 ("replay graph.json a --clock paced", 28, "--clock", "no option `--clock`"), ("replay graph.json a --workers 0", 38, "0", "1 to 64")]
        for line, column, underlined, words in cases:
            with self.subTest(line=line):
                done = companion("explain", *line.split(), folder=GOOD)
                self.assertEqual(done.status, 1)
                self.assertTrue(done.output.startswith("error: usage: ptides run GRAPH "), done.output)
                self.assertEqual(first_place(done.output), (f"the command line:1:{column}", underlined))
                self.assertIn(words, done.output)

    def test_files(self) -> None:
        """A file that can't be read: its path and the folder that it was looked up from."""
        done = companion("explain", "examples/governor/graph.json", folder=TOP)
        self.assertEqual((done.status, first_place(done.output)), (7, ("examples/governor/graph.json:4:61", '"speed.csv"')))
        self.assertIn(f"no such file; looked up from {TOP}\n", done.output)
        self.assertIn("ptides -C examples/governor run graph.json", done.output)
        done = companion("explain", "check", "grahp.json", folder=GOOD)
        self.assertEqual((done.status, first_place(done.output)), (7, ("the command line:1:14", "grahp.json")))
        self.assertIn(f"no such file; looked up from {GOOD}\n", done.output)
        self.assertIn("did you mean `graph.json`?", done.output)
        done = companion("explain", "check", "governor", folder=EXAMPLES)
        self.assertIn("this is a folder", done.output)
        self.assertIn("did you mean `governor/graph.json`?", done.output)
        folder = self.edited("graph.json", '"speed.csv"', '"sped.csv"')
        done = companion("explain", "graph.json", folder=folder)
        self.assertEqual((done.status, first_place(done.output)), (7, ("graph.json:5:68", '"sped.csv"')))
        self.assertIn("did you mean `speed.csv`?", done.output)

    def test_late_messages(self) -> None:
        """Of a message that is late by a clock: what its bound is made of, and clocks and delays that are enough, which is tried."""
        folder = copied(EXAMPLES / "clocks", self.folder)
        for clock, line, helps in [("step:0:196", "late down at 1500.0, reading 1960 past 1950", ["`--clock step:0:98`", "a delay of 410 for this link takes this message"]),
                                   ("step:0:1000", "late down at 1500.0, reading 5000 past 1950", ["`--clock step:0:125`", "a delay of 3450 "]),
                                   ("step:1000000:1", "late down at 1500.0, reading 1000003 past 1950", ["`--clock step:0:1`", "a delay of 998453 "])]:
            with self.subTest(clock=clock):
                done = companion("explain", "graph.json", "--clock", clock, folder=folder)
                self.assertEqual((done.status, done.output.split("\n")[0], first_place(done.output)), (4, f"error: {line}", ("graph.json:8:11", '"down"')))
                for text in [*helps, "`panel` had read ", "the bound of `down` is 450", " --> graph.json:7:57\n", " --> graph.json:16:44\n", " --> graph.json:1:40\n"]:
                    self.assertIn(text, done.output)
                self.try_helps(folder, done.output, clock, line)
        # A margin of 0 and a bound of 0 leave no time for a visit.
        text = (folder / "graph.json").read_text().replace('"clock_error":50', '"clock_error":0').replace('"delay":400', '"delay":0').replace('"d":500', '"d":201')
        done = companion("explain", "run", "/dev/stdin", "--clock", "step:0:100", folder=folder, given=text)
        self.assertIn("the bound of `down` is 0", done.output)
        self.assertIn("no STEP from this one down to 1 was found", done.output)

    def try_helps(self, folder: Path, output: str, clock: str, line: str) -> None:
        """With the clock that is named no message is late, and with the delay this one isn't."""
        better, status = re.search(r"with `--clock (\S+)` no message is late: `run` then answers (\d)", output).groups()
        self.assertEqual(ptides("run", "graph.json", "--clock", better, folder=folder).status, int(status))
        text = (folder / "graph.json").read_text().replace('"delay":400', '"delay":' + re.search(r"a delay of (\d+) for", output)[1])
        self.assertNotEqual(ptides("run", "/dev/stdin", "--clock", clock, folder=folder, given=text).notes.split()[:4], line.split()[:4])

    def test_lines_of_late_messages(self) -> None:
        """The same for the line of an earlier run, by the machine's clock or one that isn't named; a line of another graph isn't explained."""
        folder, line = EXAMPLES / "clocks", "late down at 1500.0, reading 1960 past 1950"
        for words, text in [(["run", "graph.json", "--clock=machine"], "is it busy, or do firings take long?"), (["graph.json"], "platforms look too seldom"),
                            (["run", "--clock", "step:7:1960", "graph.json"], "with `--clock step:7:")]:
            with self.subTest(words=words):
                done = companion("explain", "--line", line, *words, folder=folder)
                self.assertEqual((done.status, first_place(done.output)), (0, ("graph.json:8:11", '"down"')))
                self.assertIn(text, done.output)
        for other in (line.replace("1950", "1951"), line.replace("down", "up"), line.replace("1960", "1950"), "graph: infeasible nobody, offset 1, slack 0"):
            with self.subTest(line=other):
                done = companion("explain", "--line", other, "graph.json", folder=folder)
                self.assertEqual((done.status, done.notes), (0, ""))
                self.assertIn("the files don't have this fault now", done.output)

    # Of lines on the air file of `refused/late_message`: another text of it, the line, the place, what is underlined, and words.
    AIRS = [("time,seen,value\n", "air: header", "1:1", "time,seen,value", ["this is a sensor file"]), ("", "air: header", "1:1", "", ["the file is empty"]),
            ("lag,q,5\n", "air: header", "1:1", "lag,q,5", ["the header is missing"]), ("What,Name,Value\n", "air: header", "1:1", "What,Name,Value", ["small letters"]),
            ("name,what,value\n", "air: header", "1:1", "name,what,value", ["into this order"]), ("what;name;value\n", "air: header", "1:1", "what;name;value", ["commas"]),
            ("what,name,value\nlag,q\n", "air: form at row 1", "2:1", "lag,q", ["row 1 has 2 fields"]),
            ("what,name,value\ntransfer,w,4\n", "air: form at row 1", "2:1", "transfer", ["neither `lag` nor `transit`; did you mean `transit`?"]),
            ("what,name,value\nlag,qq,4\n", "air: unknown at row 1", "2:5", "qq", ["did you mean `q`?", "one of `p`, `q`"]),
            ("what,name,value\ntransit,q,4\n", "air: unknown at row 1", "2:9", "q", ["a platform has a `lag`"]),
            ("what,name,value\nlag,w,4\n", "air: unknown at row 1", "2:5", "w", ["this is a `send`, and not a platform"]),
            ("what,name,value\nlag,q,4.5\n", "air: number at row 1", "2:7", "4.5", ["no point", "whole microseconds"]),
            ("what,name,value\n\nlag,q,4\nlag,q,-5\n", "air: number at row 2", "4:7", "-5", ["furthest ahead"]),
            ("what,name,value\nlag,p,0\nlag,q,6\n", "late r at 80.0, reading 1046 past 125, air row 1", "2:7", "0", ["6 from the lag of `q`, 6", "a clock error of 6 takes these two"]),
            ('"what",name,value\n"lag",q,6\n', "late r at 80.0, reading 1046 past 125, air row 1", "2:9", "6", ["6 from the lag of `p`, 0", "at most 5 apart"]),
            ("what,name,value\ntransit,w,40\ntransit,w,45\ntransit,w,50\n", "late r at 80.0, reading 126 past 125, air row 2", "3:11", "45",
             ["5 more than the delay of the link", "a delay of 50 takes all transits of `w`, 2 of 3 are past it now", "up to 125 it would have been in time"])]

    def test_breaches(self) -> None:
        """A row that is past a bound is shown also if no message is late."""
        scenarios = EXAMPLES / "network" / "scenarios"
        for name, wanted in [("slow_in_time", ("air.csv:7:12", "300 more than the delay of the link")), ("at_the_bounds", None)]:
            with self.subTest(name=name):
                done = companion("explain", "replay", "../../graph.json", "air.csv", folder=scenarios / name)
                self.assertEqual((done.status, done.output.split("\n")[0]), (0, "no fault: `ptides replay ../../graph.json air.csv` answers 0"))
                self.assertEqual("note: this row is past a bound, and no message was late\n" in done.output, wanted is not None)
                for text in wanted or ():
                    self.assertIn(text, done.output)

    def test_airs(self) -> None:
        """Of each line on an air file the place in it."""
        copied(REFUSED[0].parent / "late_message", self.folder)
        for text, line, place, underlined, words in self.AIRS:
            with self.subTest(line=line, text=text):
                (self.folder / "air.csv").write_text(text)
                done = companion("explain", "--line", line, "replay", "--workers", "2", "graph.json", "air.csv", folder=self.folder)
                self.assertEqual((done.status, done.output.split("\n")[0]), (0, f"error: {line}"))
                self.assertEqual(first_place(done.output), (f"air.csv:{place}", underlined))
                for word in words:
                    self.assertIn(word, done.output)

    def test_bytes(self) -> None:
        """Texts that aren't UTF-8, a byte order mark, an empty file, and lines of 100,000 letters with wide ones."""
        for data, place, words in [(b'{"a": "\xff"}', "1:8", "aren't UTF-8"), (b"\xef\xbb\xbf{}", "1:1", "byte order mark"), (b"", "1:1", "the file is empty"),
                                   ("{}".encode("utf-16"), "1:1", "UTF-16"), (b"[" * 128 + b"]" * 128, "1:128", "the 128th bracket"),
                                   (("[" + '"\u754c",' * 30000 + "]").encode(), "1:120001", "remove this `,`")]:
            with self.subTest(place=place, words=words):
                (self.folder / "graph.json").write_bytes(data)
                done = companion("explain", "check", "graph.json", folder=self.folder)
                self.assertEqual((done.status, done.output.split("\n")[0]), (2, "error: graph: not json"))
                self.assertEqual(first_place(done.output)[0], f"graph.json:{place}")
                self.assertIn(words, done.output)
                self.assertLess(max(map(len, done.output.split("\n"))), 200)

    def test_standard_input(self) -> None:
        """A graph may come over the standard input."""
        done = companion("explain", "check", "/dev/stdin", folder=GOOD, given=(GOOD / "graph.json").read_text().replace('"sub"', '"sbu"'))
        self.assertEqual((done.status, first_place(done.output)), (2, ("/dev/stdin:7:48", '"sbu"')))
        self.edited("graph.json", '"sub"', '"sbu"')
        for start in ("cat graph.json |", "<graph.json"):
            done = run(["sh", "-c", f'{start} "$0" -S "$1" check /dev/stdin', sys.executable, TOP / "tools" / "ptides-explain"], self.folder)
            self.assertEqual((done.status, first_place(done.output)), (2, ("/dev/stdin:7:48", '"sbu"')))

    def test_random_sensor_files(self) -> None:
        """For random edits of a sensor file a place in it is always found."""
        random.seed(2)
        copied(GOOD, self.folder)
        good = (GOOD / "speed.csv").read_text()
        for number in range(int(os.environ.get("RANDOM_EDITS", "20"))):
            start = random.randrange(len(good))
            new = random.choice(['"', ",", "\n", "\r\n", "\r", "-", "+", " ", ".", '""', '","', "\u00e9", "\t", ";", "9" * 19])
            (self.folder / "speed.csv").write_bytes((good[:start] + new + good[start + random.choice([0, 1]):]).encode())
            program = ptides("run", "graph.json", folder=self.folder)
            done = companion("explain", "graph.json", folder=self.folder)
            with self.subTest(number=number, line=program.notes):
                self.assertEqual(done.status, program.status)
                if program.status:
                    self.assertTrue(done.output.startswith(f"error: {program.notes}"), done.output)
                    self.assertTrue(first_place(done.output)[0].startswith("speed.csv:"), done.output)

    def test_random_edits(self) -> None:
        """For random edits of the examples a place is always found, and what is no JSON here is none to the program."""
        random.seed(1)
        for number in range(int(os.environ.get("RANDOM_EDITS", "40"))):
            text = random.choice([folder for folder in GRAPHS if not blocks_of(folder)]).joinpath("graph.json").read_text()
            start = random.randrange(len(text))
            end = start + random.choice([0, 0, 1, 2])
            new = random.choice(['"', ",", "{", "}", "[", "]", ":", "0", "-", "1.5", "null", '"x"', "-0", "\n", "\\", '"p"', "2", "x", "1e400"])
            given = text[:start] + new + text[end:]
            program = ptides("check", "/dev/stdin", folder=GOOD, given=given)
            done = companion("explain", "check", "/dev/stdin", folder=GOOD, given=given)
            with self.subTest(number=number, line=program.notes):
                self.assertEqual(done.status, program.status)
                if program.status:
                    self.assertTrue(done.output.startswith(f"error: {program.notes}"), done.output)
                    self.assertTrue(first_place(done.output)[0], done.output)

    def test_lines_that_do_not_hold(self) -> None:
        """A line on a row that isn't late, isn't out of order or was another one, and on an event that wasn't missed, isn't explained."""
        folder = EXAMPLES / "refused" / "late_row"
        self.assertIn("seen 11 after", companion("explain", "--line", "late s row 2, seen 71 past 70", "graph.json", folder=folder).output)
        lines = ["late s row 1, seen 50 past 60", "late s row 2, seen 72 past 70", "late s row 2, seen 71 past 71", "sensor s: time order at row 2",
                 "sensor s: seen order at row 2", "sensor s: seen early at row 2", "sensor s: number at row 2"]
        for line in lines:
            with self.subTest(line=line):
                done = companion("explain", "--line", line, "graph.json", folder=folder)
                self.assertEqual((done.status, first_place(done.output)), (0, ("", "")))
                self.assertIn("the files don't have this fault now", done.output)
        for line in ("missed valve at 4000.0, reading 4401 past 4301", "missed valve at 4000.0, reading 4300 past 4300"):
            with self.subTest(line=line):
                self.assertIn("don't have this fault", companion("explain", "--line", line, "graph.json", folder=EXAMPLES / "missed").output)

    def test_a_graph_that_names_its_schema(self) -> None:
        """`$schema` is no member, and the help says where an editor is told of the schema, which has an `$id`."""
        folder = self.edited("graph.json", '"ptides"', '"$schema":"x","ptides"')
        done = companion("explain", "check", "graph.json", folder=folder)
        self.assertEqual((done.status, first_place(done.output)[1]), (2, '"$schema"'))
        self.assertIn("the settings of an editor name the schema, as docs/GRAPHS.md shows", done.output)
        settings = json.loads(re.search(r'^\{"json.schemas": .*', (TOP / "docs" / "GRAPHS.md").read_text(), re.M)[0])
        schema = json.loads((TOP / settings["json.schemas"][0]["url"]).read_text())
        self.assertEqual(schema["$id"], "urn:ptides:graph")

    def test_many_misses(self) -> None:
        """Many misses are summed up: how many, the first and the worst. By a clock an event may be missed that the margin allows."""
        folder = copied(EXAMPLES / "missed", self.folder)
        rows = "".join(f"{time},{time},90\n" for time in range(1000, 61_000, 1000))
        (folder / "pressure.csv").write_text("time,seen,value\n" + rows)
        (folder / "graph.json").write_text(re.sub(r'"until":\d+', '"until":70000', (folder / "graph.json").read_text()))
        notes = ptides("run", "graph.json", folder=folder).notes
        done = companion("explain", "graph.json", folder=folder)
        self.assertEqual(done.output.split("\n")[0], "error: " + notes.split("\n")[0])
        self.assertGreater(notes.count("\n"), 5)
        late = re.search(r"at (\S+), reading (\d+) past (\d+)", notes)
        self.assertIn(f"help: {notes.count(chr(10))} events were missed, all by `valve`; the first at {late[1]}, {int(late[2]) - int(late[3])} us past", done.output)
        done = companion("explain", "run", "graph.json", "--clock", "step:0:900", folder=EXAMPLES / "basic")
        self.assertEqual(done.status, 5)
        self.assertIn("by the paced clock `out` misses nothing; the clock of this run makes its platform look too seldom", done.output)

    def test_bad_input(self) -> None:
        """No words: one line and status 1."""
        done = companion("explain", folder=GOOD)
        self.assertEqual((done.status, done.output, done.notes.count("\n")), (1, "", 1))
        self.assertIn("  ptides explain ", companion("explain", "-h", folder=GOOD).output)


if __name__ == "__main__":
    main()
