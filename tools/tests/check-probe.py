#!/usr/bin/env python3
"""Checks `ptides probe`: the other tables stay the same bytes, and the inner signals are those that were worked out by hand."""
from __future__ import annotations

import json

from counted import EXAMPLES, GRAPHS, Case, blocks_of, companion, main, ptides


class Probe(Case):
    """The graph with an actuator on each output."""

    def probed(self, folder, *words, given=None):
        """The probed graph, and its run."""
        blocks = blocks_of(folder)
        graph = companion("probe", "/dev/stdin" if given else "graph.json", *words, *blocks, folder=folder, given=given)
        self.assertEqual((graph.status, graph.notes), (0, ""))
        return json.loads(graph.output), ptides("run", "/dev/stdin", *blocks, folder=folder, given=graph.output)

    def test_other_tables(self) -> None:
        """Of each example: status, notes and tables are as before, and each output has a table more."""
        for example in GRAPHS:
            with self.subTest(example=example.name):
                before = ptides("run", "graph.json", *blocks_of(example), folder=example)
                graph, after = self.probed(example)
                old = json.loads((example / "graph.json").read_text())
                outputs = sum({"send": 0, "actuator": 0, "machine": each.get("outputs"), "lanes": len(each.get("cells", []))}.get(each["kind"], 1)
                              for each in old["actors"])
                self.assertEqual(len(graph["actors"]), len(old["actors"]) + outputs)
                self.assertEqual(after._replace(output=after.output[:len(before.output)]), before)
                new = {line.split(",")[0] for line in after.output[len(before.output):].splitlines()}
                self.assertLessEqual(new, {actor["name"] for actor in graph["actors"][len(old["actors"]):]})
                self.assertEqual(ptides("meaning", "/dev/stdin", *blocks_of(example), folder=example, given=json.dumps(graph)).output, after.output)

    def test_signals(self) -> None:
        """The governor measures 98, 104 and 97, and its errors are -2, 4 and -3, half a millisecond later at `hold`."""
        _, done = self.probed(EXAMPLES / "governor", "err", "hold", "gov")
        self.assertEqual(done.output.splitlines()[3:], ["p_err,1000,0,-2", "p_err,2000,0,4", "p_err,3000,0,-3", "p_hold,1500,0,-2", "p_hold,2500,0,4",
                                                        "p_hold,3500,0,-3", "p_gov,2500,0,1", "p_gov,3500,0,0"])
        _, done = self.probed(EXAMPLES / "lanes", "inputs")
        self.assertEqual({line.split(",")[0] for line in done.output.splitlines()[1:]}, {"brake", "fan", "p_inputs_0", "p_inputs_1"})

    def test_names(self) -> None:
        """A name that is there already, and one of 32 letters, get names of their own."""
        text = (EXAMPLES / "basic" / "graph.json").read_text()
        for old, new in [("out", "p_s"), ("x", "x" * 32)]:
            text = text.replace(f'"name":"{old}"', f'"name":"{new}"').replace(f'["{old}",', f'["{new}",').replace(f',"{old}",0]', f',"{new}",0]')
        graph, done = self.probed(EXAMPLES / "basic", given=text)
        names = [actor["name"] for actor in graph["actors"]]
        self.assertEqual((done.status, done.notes, len(set(names)), max(map(len, names))), (0, "", 7, 32))

    def test_versions(self) -> None:
        """If version 1 has no room the graph is of version 2, and if that has none it is said."""
        graph = {"ptides": 1, "until": 10, "clock_error": 0, "platforms": ["p"], "wires": [], "links": [],
                 "actors": [{"name": f"e{number}", "platform": "p", "kind": "every", "start": 0, "period": 10} for number in range(200)]}
        probed, done = self.probed(EXAMPLES, given=json.dumps(graph))
        self.assertEqual((probed["ptides"], probed["clock_errors"], done.status, done.output.count("\n")), (2, [], 0, 401))
        graph["actors"] *= 3
        for number, actor in enumerate(graph["actors"]):
            graph["actors"][number] = {**actor, "name": f"e{number}"}
        graph.update(ptides=2, clock_errors=[])
        done = companion("probe", "/dev/stdin", folder=EXAMPLES, given=json.dumps(graph))
        self.assertEqual((done.status, done.output, done.notes.count("\n")), (1, "", 1))
        self.assertIn("name some actors", done.notes)

    def test_faults(self) -> None:
        """Actors that aren't there or have no output, bad words, refused graphs."""
        for words, text in [(["graph.json", "spede"], "no actor `spede`"), (["graph.json", "valve"], "`valve` has no output")]:
            done = companion("probe", *words, folder=EXAMPLES / "governor")
            self.assertEqual((done.status, done.output, done.notes), (1, "", f"ptides probe: graph.json: {text}\n"))
        self.refuses_bad_input("probe")
        self.passes_refusals_on("probe")
        done = companion("probe", "graph.json", folder=EXAMPLES / "refused" / "infeasible")
        self.assertEqual((done.status, len(json.loads(done.output)["actors"])), (0, 6))


if __name__ == "__main__":
    main()
