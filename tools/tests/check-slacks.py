#!/usr/bin/env python3
"""Checks `ptides slacks` by `ptides check`: of examples, of made graphs, and of the graphs below the folders that are named.

    check-slacks.py [FOLDER..]

With the slacks that are written each margin of a sender or an actuator is at least 0, and with one less at any sender that has more
than 0 the graph is refused.
"""
from __future__ import annotations

import json
import os
import sys
from pathlib import Path
from typing import Any

from counted import EXAMPLES, GRAPHS, Case, blocks_of, main, ptides

FOLDERS = [Path(folder) for folder in sys.argv[1:]]
# The greatest time that a graph file can state.
LATEST = 10**15
ANY = EXAMPLES / "basic"
Graph = dict[str, Any]


def actor(name: str, platform: str, kind: str, **members: Any) -> Graph:
    """An actor of a graph."""
    return {"name": name, "platform": platform, "kind": kind, **members}


def sensor(name: str, bound: int) -> Graph:
    """A sensor on p."""
    return actor(name, "p", "sensor", file="s.csv", bound=bound)


def graph(actors: list[Graph], wires: list[Any], links: list[Any], error: int = 0, pairs: Any = ()) -> Graph:
    """A graph of version 2 with the platforms p and q."""
    return {"ptides": 2, "until": 1000, "clock_error": error, "clock_errors": [*pairs], "platforms": ["p", "q"], "actors": actors,
            "wires": wires, "links": [{"from": start, "to": end, "delay": delay} for start, end, delay in links]}


def ring(size: int, delay: int, link: int, error: int) -> Graph:
    """Senders in a ring over two platforms, with a delay before each."""
    actors, wires, links = [], [], []
    for number in range(size):
        place = "pq"[number % 2]
        actors += [actor(f"r{number}", place, "receive"), actor(f"d{number}", place, "delay", d=delay),
                   actor(f"w{number}", place, "send", slack=0)]
        wires += [[f"r{number}", 0, f"d{number}", 0], [f"d{number}", 0, f"w{number}", 0]]
        links.append((f"w{number}", f"r{(number + 1) % size}", link))
    return graph(actors, wires, links, error)


def row(size: int, link: int) -> Graph:
    """A sensor, and senders one behind another; an actuator at the end."""
    actors, wires, links = [sensor("s", 10), actor("w0", "p", "send", slack=0)], [["s", 0, "w0", 0]], []
    for number in range(1, size):
        place = "pq"[number % 2]
        actors += [actor(f"r{number}", place, "receive"), actor(f"w{number}", place, "send", slack=0)]
        wires.append([f"r{number}", 0, f"w{number}", 0])
        links.append((f"w{number - 1}", f"r{number}", link))
    last = "pq"[size % 2]
    actors += [actor("end", last, "receive"), actor("out", last, "actuator", slack=0)]
    return graph(actors, [*wires, ["end", 0, "out", 0]], [*links, (f"w{size - 1}", "end", link)], 5)


def with_slacks(given: Graph, slacks: dict[str, int]) -> Graph:
    """The graph with these slacks in place of its own."""
    return {**given, "actors": [{**each, "slack": slacks[each["name"]]} if each["name"] in slacks else each for each in given["actors"]]}


class Slacks(Case):
    """The least slacks of graphs."""

    # The words that name the formulas of the graph.
    blocks: list[str] = []

    def ask(self, command: str, given: Graph) -> Any:
        """What a command says of a graph."""
        return ptides(command, "/dev/stdin", *self.blocks, folder=ANY, given=json.dumps(given))

    def slacks(self, given: Graph) -> dict[str, int]:
        """What `slacks` writes."""
        done = self.ask("slacks", given)
        head, *lines = done.output.splitlines()
        self.assertEqual((done.status, done.notes, head), (0, "", "actor,slack"))
        return {name: int(slack) for name, slack in (line.split(",") for line in lines)}

    def margins(self, given: Graph) -> dict[str, int]:
        """The margins that `check` writes."""
        done = self.ask("check", given)
        self.assertEqual((done.status, done.notes), (0, ""))
        found = [line.split(",") for line in done.output.splitlines()[1:]]
        return {name: int(margin) for name, _, margin in found if margin != "-"}

    def check_least(self, given: Graph) -> None:
        """The slacks of a graph are enough, and none of a sender can be less."""
        slacks = self.slacks(given)
        self.assertEqual(list(slacks), [each["name"] for each in given["actors"] if each["kind"] in ("send", "actuator")])
        if any(slack > LATEST for slack in slacks.values()):
            return
        least = with_slacks(given, slacks)
        self.assertEqual([name for name, margin in self.margins(least).items() if margin < 0], [])
        self.assertEqual(self.slacks(least), slacks)
        for each in least["actors"]:
            if each["kind"] == "send" and each["slack"]:
                done = self.ask("check", with_slacks(least, {each["name"]: each["slack"] - 1}))
                self.assertEqual((done.status, done.notes.split(" ")[:2]), (2, ["graph:", "infeasible"]))
            elif each["kind"] == "actuator" and each["slack"]:
                self.assertEqual(self.margins(with_slacks(least, {each["name"]: each["slack"] - 1}))[each["name"]], -1)

    def check_file(self, file: Path) -> bool:
        """The same of a file, if it is a graph that has slacks."""
        done = ptides("slacks", file, *self.blocks, folder=ANY)
        if done.status == 0:
            self.check_least(json.loads(file.read_text()))
        return done.status == 0

    def test_examples(self) -> None:
        """Of each example, and of one that `check` refuses."""
        for folder in [*GRAPHS, EXAMPLES / "refused" / "infeasible"]:
            with self.subTest(folder=folder.name):
                self.blocks = blocks_of(folder)
                self.assertTrue(self.check_file(folder / "graph.json"))

    def test_files(self) -> None:
        """Of each graph file below the folders that are named."""
        found = 0
        for file in (file for folder in FOLDERS for file in sorted(folder.rglob("*.json"))):
            with self.subTest(file=str(file)):
                found += self.check_file(file)
        if FOLDERS:
            self.assertGreater(found, 0)

    def test_rings(self) -> None:
        """If the delays make up for the links exactly, a ring asks for no slack; and if they lack 1 in all, for none that is enough."""
        for size in (2, 8, 64):
            with self.subTest(size=size):
                even = ring(size, 50, 44, 5)
                self.assertEqual(set(self.slacks(even).values()), {0})
                self.check_least(even)
                even["actors"][1]["d"] = 49
                done = self.ask("slacks", even)
                names = " ".join(f"w{number}" for number in range(size))
                self.assertEqual((done.status, done.output, done.notes), (2, "", f"graph: ring {names}, gain 1\n"))
        self.assertEqual(self.ask("slacks", ring(64, 1, LATEST, LATEST)).notes.split(",")[1], f" gain {64 * 2 * LATEST}\n")

    def test_rows(self) -> None:
        """Behind one another senders need more and more, also more than a file can state."""
        for size, link in ((1, 40), (2, 40), (64, 40), (64, LATEST // 100), (64, LATEST)):
            with self.subTest(size=size, link=link):
                given = row(size, link)
                wanted = {f"w{number}": 11 + number * (link + 6) for number in range(size)}
                self.assertEqual(self.slacks(given), {**wanted, "out": 11 + size * (link + 6)})
                self.check_least(given)

    def test_paths(self) -> None:
        """The slowest source and the shortest path count; lanes keep sources apart; a pair has its own clock error."""
        ends = [actor("w", "p", "send", slack=9), actor("r", "q", "receive"), actor("out", "q", "actuator", slack=7)]
        join = [sensor("s", 10), sensor("t", 200), actor("d", "p", "delay", d=150), actor("m", "p", "merge", n=3), *ends]
        into = [["s", 0, "m", 0], ["t", 0, "m", 1], ["t", 0, "d", 0], ["d", 0, "m", 2], ["m", 0, "w", 0], ["r", 0, "out", 0]]
        late = [["s", 0, "m", 0], ["t", 0, "d", 0], ["d", 0, "m", 1], ["d", 0, "m", 2], ["m", 0, "w", 0], ["r", 0, "out", 0]]
        apart = [sensor("s", 10), sensor("t", 200), actor("k", "p", "lanes", cells=[1, 1]), *ends]
        cells = [["s", 0, "k", 0], ["t", 0, "k", 1], ["k", 0, "w", 0], ["r", 0, "out", 0]]
        link = [("w", "r", 40)]
        for given, wanted in ((graph(join, into, link, 5), (201, 247)), (graph(join, late, link, 5), (51, 97)), (graph(apart, cells, link, 5), (11, 57)),
                              (graph(apart, cells, link, 5, [["q", "p", 25]]), (11, 77))):
            with self.subTest(wanted=wanted):
                self.assertEqual(tuple(self.slacks(given).values()), wanted)
                self.check_least(given)


if __name__ == "__main__":
    sys.argv[1:] = []
    os.environ.setdefault("PTIDES", str(EXAMPLES.parent / "ptides"))
    main()
