#!/usr/bin/env python3
"""Checks `ptides dot` with Graphviz: pictures of all examples, counts by `gvpr`, and `acyclic` against `graph: cycle`."""
from __future__ import annotations

import json
import shutil
import tempfile
from pathlib import Path

from counted import EXAMPLES, GRAPHS, REFUSED, Case, blocks_of, companion, copied, main, make_files, ptides, run

COUNTS = """BEGIN {int clusters = 0; int nodes = 0; int edges = 0; int dashed = 0; int red = 0; graph_t part}
N {nodes++} N [color == "red"] {red++} E {edges++} E [style == "dashed"] {dashed++}
END_G {for (part = fstsubg($G); part; part = nxtsubg(part)) if (substr(part.name, 0, 7) == "cluster") clusters++;
       printf("%d %d %d %d %d\\n", clusters, nodes, edges, dashed, red)}"""
INSTANT = 'E [later == "1"] {delete($G, $)}'


class Dot(Case):
    """The pictures."""

    def test_examples(self) -> None:
        """Of each example: a picture, and as many clusters, nodes, edges, dashed edges and red nodes as the graph has."""
        self.need("gvpr")
        for example in GRAPHS:
            with self.subTest(example=example.name):
                graph = json.loads((example / "graph.json").read_text())
                margins = [row.split(",")[2] for row in ptides("check", "graph.json", *blocks_of(example), folder=example).output.splitlines()[1:]]
                below = sum(margin.startswith("-") and margin != "-" for margin in margins)
                done = companion("dot", "graph.json", *blocks_of(example), folder=example)
                self.assertEqual((done.status, done.notes), (0, ""))
                counted = run(["gvpr", COUNTS], example, done.output)
                links = len(graph["links"])
                wanted = [len(graph["platforms"]), len(graph["actors"]), len(graph["wires"]) + links, links, below]
                self.assertEqual(counted.output.split(), [str(number) for number in wanted], counted.notes)
                picture = run(["dot", "-Tsvg"], example, done.output)
                drawn = [picture.output.count('<g id="clust'), picture.output.count('<g id="node')]
                self.assertEqual((picture.status, drawn), (0, wanted[:2]))

    def test_one_row(self) -> None:
        """A machine of one row has one row, and one of two has two."""
        rows = [{"state": 0, "low": 0, "high": 1, "next": 0, "emit": None}]
        for number, words in ((1, "machine, 1 row\""), (2, "machine, 2 rows\""), (0, "machine, 0 rows\"")):
            actors = [{"name": "e", "platform": "p", "kind": "every", "start": 0, "period": 9},
                      {"name": "m", "platform": "p", "kind": "machine", "start": 0, "outputs": 1, "rows": rows * number}]
            graph = {"ptides": 1, "until": 9, "clock_error": 0, "platforms": ["p"], "actors": actors, "wires": [["e", 0, "m", 0]], "links": []}
            self.assertIn(words, companion("dot", "/dev/stdin", folder=EXAMPLES, given=json.dumps(graph)).output)

    def test_labels(self) -> None:
        """What the labels of three examples say."""
        cases = {"governor": ['label="up\\nsend\\nslack 0 us\\noffset -300\\nmargin 299"', 'label="hold\\ndelay 500 us\\noffset 200"',
                              'style=dashed, label="400 us\\nclocks 50 us"', 'label="err\\nshift -100\\noffset 200"', 'label="plant"'],
                 "wheels": ['label="1 500 us\\nclocks 80 us"', 'label="1 500 us\\nclocks 50 us"', 'label="ground\\nblock least\\noffset 2580"'],
                 "missed": ['label="valve\\nactuator\\nslack 300 us\\noffset 400\\nmargin -101", '
                            'shape=box, peripheries=2, fillcolor="#fde68a", color=red']}
        for name, labels in cases.items():
            done = companion("dot", "graph.json", folder=EXAMPLES / name)
            for label in labels:
                with self.subTest(name=name, label=label):
                    self.assertIn(label, done.output)

    def test_refused(self) -> None:
        """Refused graphs are drawn too if they are JSON, with the line of `check`, and with its status."""
        self.need("dot")
        for example in REFUSED:
            line = (example / "expected.notes").read_text()
            folder = copied(example, Path(tempfile.mkdtemp()))
            self.addCleanup(shutil.rmtree, folder)
            make_files(folder)
            if not line.startswith("graph: ") or line.startswith(("graph: too", "graph: ring")) or not (folder / "graph.json").exists():
                continue
            with self.subTest(example=example.name):
                done = companion("dot", "graph.json", folder=folder)
                self.assertEqual((done.status, done.notes), (2, line))
                if example.name == "not_json":
                    self.assertEqual(done.output, "")
                else:
                    picture = run(["dot", "-Tsvg"], folder, done.output)
                    self.assertEqual((picture.status, picture.notes), (0, ""))
                    self.assertIn("red", done.output)

    def test_cycles(self) -> None:
        """`acyclic` finds a cycle in the edges without later=1 exactly if the program finds one."""
        self.need("acyclic")
        self.need("gvpr")
        ring = (EXAMPLES / "refused" / "cycle" / "graph.json").read_text()
        delayed = ring.replace('"kind":"shift","by":1', '"kind":"delay","d":DELAY')
        ends = [{"name": f"{kind}_{place}", "platform": place, "kind": kind, **({"slack": 99} if kind == "send" else {})}
                for place in "pq" for kind in ("receive", "send")]
        links = json.dumps({
            "ptides": 1, "until": 100, "clock_error": 0, "platforms": ["p", "q"], "actors": ends,
            "wires": [["receive_p", 0, "send_p", 0], ["receive_q", 0, "send_q", 0]],
            "links": [{"from": "send_p", "to": "receive_q", "delay": 5}, {"from": "send_q", "to": "receive_p", "delay": 5}]})
        cases = [(text, []) for text in (ring, delayed.replace("DELAY", "0"), delayed.replace("DELAY", "1"), links)]
        cases += [((each / "graph.json").read_text(), blocks_of(each)) for each in GRAPHS]
        for number, (text, blocks) in enumerate(cases):
            with self.subTest(number=number):
                program = ptides("check", "/dev/stdin", *blocks, folder=EXAMPLES, given=text)
                picture = companion("dot", "/dev/stdin", *blocks, folder=EXAMPLES, given=text)
                instant = run(["gvpr", "-c", INSTANT], EXAMPLES, picture.output)
                found = run(["acyclic", "-n"], EXAMPLES, instant.output)
                self.assertEqual(found.status == 1, program.notes.startswith("graph: cycle "), found.notes)
                self.assertEqual(number in (0, 1, 3), program.notes.startswith("graph: cycle "))

    def test_signs(self) -> None:
        """Names with signs of DOT's own don't break the picture."""
        self.need("dot")
        text = (EXAMPLES / "basic" / "graph.json").read_text().replace('"x"', '"x\\"]; \\\\n { \\u0007 <b>"')
        done = companion("dot", "/dev/stdin", folder=EXAMPLES, given=text)
        picture = run(["dot", "-Tsvg"], EXAMPLES, done.output)
        self.assertEqual((done.status, picture.status, picture.notes, picture.output.count("<g id=\"node")), (2, 0, "", 4))

    def test_bad_input(self) -> None:
        """Bad words, and files that aren't there."""
        self.refuses_bad_input("dot")


if __name__ == "__main__":
    main()
