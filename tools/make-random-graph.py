#!/usr/bin/env python3
"""Writes a random lawful graph with the rows of its sensors: make-random-graph.py SEED FOLDER.

The folder gets `graph.json`, of version 1 or 2, and a file of rows for each sensor. The same seed writes the same bytes. Every kind of
actor occurs, on 1 to 16 platforms with clock errors, also of pairs; links lead forward and back; outputs feed back through delays;
rows come with jitter, with gaps, in bursts, and at the same times as those of other sensors. Values are small, or of all 64 bits.

The graph is lawful: `check`, `run` and `meaning` take it. Each cycle has a delay of a microsecond or more, and each sender has the slack
that it needs, which is worked out here from the definitions of docs/TIMING.md, and not by ptides. In one of sixteen graphs a row is
late. An actuator's slack may be too small, so that its events are missed.
"""
import heapq
import json
import os
import random
import sys

BLOCKS = ["least", "greatest", "clip100", "dead5", "mean"]
INPUTS = {"sensor": 0, "receive": 0, "every": 0, "add": 2, "sub": 2, "latch": 2, "block": 2}
MIDDLE = ["scale", "shift", "add", "sub", "above", "merge", "delay", "count", "sum", "latch", "machine", "block", "lanes", "every"]
GREATEST = 2**63 - 1
# The greatest time that a file can state.
MOST = 10**15


class Graph:
    """A graph that is built actor by actor."""

    def __init__(self, pick):
        self.pick = pick
        self.version = pick.choice([1, 2, 2])
        self.until = pick.choice([60, 200, 500, 500, 2000, 2000, 10_000])
        self.large_values = pick.random() < 0.3
        self.platforms = [f"p{n}" for n in range(pick.choice([1, 1, 2, 2, 3, 3, 4, 5, 8, 16]))]
        self.clock_error = pick.choice([0, 1, 5, 50])
        self.pairs = {}
        self.actors, self.wires, self.links, self.rows = [], [], [], {}
        # What an input on a platform may be fed by, inputs to be fed at the end, and delays behind links that lead back.
        self.outputs = {platform: [] for platform in self.platforms}
        self.holes, self.returns = [], []

    def value(self):
        if self.large_values and self.pick.random() < 0.5:
            return self.pick.choice([self.pick.randint(-GREATEST - 1, GREATEST), GREATEST, -GREATEST - 1])
        return self.pick.randint(-20, 20)

    def add(self, platform, kind, **members):
        actor = {"name": f"{self.pick.choice('abcxyzKQ')}{len(self.actors)}", "platform": platform, "kind": kind, **members}
        self.actors.append(actor)
        return actor

    def offer(self, actor):
        """Lets further inputs of the platform be fed by the actor."""
        count = actor.get("outputs", len(actor.get("cells", [0])))
        self.outputs[actor["platform"]] += [(actor["name"], number) for number in range(count)]

    def feed(self, actor, holes=0.0):
        """Gives each input a wire, or leaves it to be fed at the end, with this chance."""
        count = INPUTS.get(actor["kind"], actor.get("n", sum(actor.get("cells", [1]))))
        for port in range(count):
            if self.pick.random() < holes:
                self.holes.append((actor, port))
            else:
                self.wire(self.pick.choice(self.outputs[actor["platform"]]), actor, port)

    def wire(self, output, actor, port):
        self.wires.append([*output, actor["name"], port])


def members_of(graph, kind):
    """The members of an actor of this kind."""
    pick = graph.pick
    if kind == "scale":
        return {"num": pick.choice([2, -3, 1, 10**9, pick.randint(-10**9, 10**9)]), "den": pick.choice([1, 2, 3, 10**9])}
    if kind == "machine":
        outputs = pick.randint(1, pick.choice([2, 8]))
        return {"start": pick.randint(0, 1), "outputs": outputs, "rows": [machine_row(graph, outputs) for _ in range(pick.randint(0, 6))]}
    if kind == "lanes":
        cells = [pick.randint(1, 3) for _ in range(pick.randint(1, 4))]
        while sum(cells) > 8:
            cells.pop()
        return {"cells": cells}
    return {"shift": lambda: {"by": graph.value()},
            "above": lambda: {"limit": pick.randint(-10, 10)},
            "merge": lambda: {"n": pick.randint(2, pick.choice([3, 8]))},
            "delay": lambda: {"d": pick.choice([0, 0, 1, 7, 10, 100, pick.randint(0, graph.until)])},
            "every": lambda: {"start": pick.randint(0, graph.until), "period": pick.randint(1 + graph.until // 100, graph.until)},
            "block": lambda: {"block": pick.choice(BLOCKS)}}.get(kind, dict)()


def machine_row(graph, outputs):
    pick = graph.pick
    low = pick.choice([pick.randint(-20, 10), -GREATEST - 1])
    row = {"state": pick.randint(0, 1), "low": low, "high": pick.choice([low + pick.randint(0, 30), GREATEST]),
           "next": pick.randint(0, 1), "emit": None if pick.random() < 0.2 else [pick.randrange(outputs), graph.value()]}
    if graph.version == 2 and pick.random() < 0.3:
        row["guard"] = pick.choice(BLOCKS)
    return row


def add_sensor(graph, platform):
    pick = graph.pick
    bound = pick.choice([0, 1, 10, 50, 200])
    sensor = graph.add(platform, "sensor", bound=bound)
    sensor["file"] = f"{sensor['name']}.csv"
    step = pick.choice([1, 5, 10, 25, 100])
    rows, time, seen = [], pick.randint(0, 2) * step, 0
    for _ in range(pick.choice([0, 1, 5, 12, 30])):
        # Mostly the next point of a raster that sensors share, or a gap, or anything.
        time += pick.choice([step, step, step, 10 * step, pick.randint(1, 2 * step)])
        seen = max(seen, time + (pick.randint(0, bound) if pick.random() < 0.7 else pick.choice([0, bound])))
        rows.append([time, seen, graph.value()])
    graph.rows[sensor["name"]] = rows
    graph.offer(sensor)


def add_link(graph, source):
    """Adds a sender, a link and a receiver on another platform. A link that leads back has a delay right behind it."""
    pick = graph.pick
    target = pick.choice([platform for platform in graph.platforms if platform != source])
    sender = graph.add(source, "send", slack=0)
    graph.feed(sender)
    receiver = graph.add(target, "receive")
    graph.links.append({"from": sender["name"], "to": receiver["name"], "delay": pick.choice([0, 1, 40, 300])})
    if graph.platforms.index(target) > graph.platforms.index(source):
        graph.offer(receiver)
        return
    behind = graph.add(target, "delay", d=pick.choice([1, 50, 400]))
    graph.wire((receiver["name"], 0), behind, 0)
    graph.returns.append(behind)
    graph.offer(behind)


def build(graph):
    pick = graph.pick
    for platform in graph.platforms:
        for _ in range(pick.randint(1, 3) if platform == "p0" or pick.random() < 0.6 else 0):
            add_sensor(graph, platform)
        if not graph.outputs[platform] or pick.random() < 0.2:
            graph.offer(graph.add(platform, "every", **members_of(graph, "every")))
    for _ in range(pick.choice([3, 8, 15, 15, 30, 80])):
        platform = pick.choice(graph.platforms)
        if len(graph.platforms) > 1 and pick.random() < 0.25 and len(graph.links) < 60:
            add_link(graph, platform)
            continue
        kind = pick.choice(MIDDLE)
        if kind == "lanes" and graph.version == 1:
            kind = "latch"
        actor = graph.add(platform, kind, **members_of(graph, kind))
        graph.feed(actor, holes=0.15)
        graph.offer(actor)
    for actor, port in graph.holes:
        # What feeds back takes time.
        delay = graph.add(actor["platform"], "delay", d=pick.randint(1 + graph.until // 60, graph.until))
        graph.feed(delay)
        graph.wire((delay["name"], 0), actor, port)
    for platform in graph.platforms:
        for _ in range(pick.randint(1, 2) if platform == "p0" else pick.randint(0, 2)):
            graph.feed(graph.add(platform, "actuator", slack=pick.choice([0, 50, 400, 10**6])))
    # More actors than version 1 has.
    graph.version = graph.version if len(graph.actors) <= 256 else 2
    if graph.version == 2:
        for number, first in enumerate(graph.platforms):
            for second in graph.platforms[:number]:
                if pick.random() < 0.2:
                    graph.pairs[frozenset((first, second))] = pick.choice([0, 3, 80])


def unit_of(actor, port, is_input):
    """The unit of a port: an actor's name and, of lanes, the number of the cell."""
    if not is_input or "cells" not in actor:
        return actor["name"], port if "cells" in actor else 0
    cell = 0
    while port >= actor["cells"][cell]:
        port -= actor["cells"][cell]
        cell += 1
    return actor["name"], cell


def offsets(graph, actors, bounds):
    """The greatest bound less delay over the sources that lead to each unit, with these bounds of the sources."""
    behind = {}
    for source, output, target, port in graph.wires:
        edge = (unit_of(actors[target], port, True), actors[source].get("d", 0))
        behind.setdefault(unit_of(actors[source], output, False), []).append(edge)
    found = {}
    waiting = [(-bound, (name, 0)) for name, bound in bounds.items()]
    heapq.heapify(waiting)
    while waiting:
        less, unit = heapq.heappop(waiting)
        if unit not in found:
            found[unit] = -less
            for target, delay in behind.get(unit, []):
                heapq.heappush(waiting, (less + delay, target))
    return found


def set_slacks(graph):
    """Gives each sender the slack that it needs, some more. Around a ring of links that needs delays, which are raised until it is so."""
    actors = {actor["name"]: actor for actor in graph.actors}
    more = {link["from"]: graph.pick.choice([0, 0, 0, 1, 60]) for link in graph.links}
    while True:
        for name in more:
            actors[name]["slack"] = more[name]
        for _ in range(len(graph.links) + 2):
            bounds = {actor["name"]: actor["bound"] for actor in graph.actors if actor["kind"] == "sensor"}
            bounds.update((link["to"], bound_of(graph, actors, link)) for link in graph.links)
            found = offsets(graph, actors, bounds)
            needed = {name: found[name, 0] + 1 + more[name] for name in more if (name, 0) in found}
            if all(actors[name]["slack"] >= slack for name, slack in needed.items()):
                return
            for name, slack in needed.items():
                actors[name]["slack"] = max(actors[name]["slack"], slack)
        for actor in graph.returns:
            actor["d"] *= 2


def bound_of(graph, actors, link):
    """The bound of the receiver of a link."""
    ends = frozenset((actors[link["from"]]["platform"], actors[link["to"]]["platform"]))
    return actors[link["from"]]["slack"] + link["delay"] + graph.pairs.get(ends, graph.clock_error)


def make_a_row_late(graph):
    rows = [(actor, number) for actor in graph.actors for number in range(len(graph.rows.get(actor["name"], [])))]
    if rows:
        actor, number = graph.pick.choice(rows)
        row = graph.rows[actor["name"]][number]
        row[1] = row[0] + actor["bound"] + graph.pick.choice([1, 1, 30])
        for before, after in zip(graph.rows[actor["name"]][number:], graph.rows[actor["name"]][number + 1:]):
            after[1] = max(before[1], after[1])


def write(graph, folder):
    pick = graph.pick
    for entries in (graph.actors, graph.wires, graph.links, graph.platforms):
        pick.shuffle(entries)
    text = {"ptides": graph.version, "until": graph.until, "clock_error": graph.clock_error, "platforms": graph.platforms,
            "actors": graph.actors, "wires": graph.wires, "links": graph.links}
    if graph.version == 2:
        text["clock_errors"] = [[*sorted(ends), error] for ends, error in sorted(graph.pairs.items(), key=lambda pair: sorted(pair[0]))]
    os.makedirs(folder, exist_ok=True)
    with open(os.path.join(folder, "graph.json"), "w", encoding="ascii") as file:
        json.dump(text, file, indent=1)
    for name, rows in graph.rows.items():
        end = pick.choice(["\n", "\n", "\r\n"])
        with open(os.path.join(folder, name + ".csv"), "w", encoding="ascii", newline="") as file:
            file.write("time,seen,value" + end)
            file.writelines(",".join(map(str, row)) + end for row in rows)


def stretch(graph, factor):
    """Makes all times of a graph greater by a factor."""
    graph.until, graph.clock_error = graph.until * factor, graph.clock_error * factor
    graph.pairs = {ends: error * factor for ends, error in graph.pairs.items()}
    for link in graph.links:
        link["delay"] *= factor
    for actor in graph.actors:
        actor.update((member, min(actor[member] * factor, MOST)) for member in ("bound", "slack", "d", "period") if member in actor)
        if actor["kind"] == "every":
            actor["start"] *= factor
    for rows in graph.rows.values():
        rows[:] = [[time * factor, seen * factor, value] for time, seen, value in rows]


def make_far(graph, pick):
    """Gives a graph greater times, or some delays that lead past the horizon, or a platform on which nothing is."""
    if len(graph.platforms) < 16 and pick.random() < 0.2:
        graph.platforms.insert(pick.randint(0, len(graph.platforms)), "void")
    if pick.random() < 0.6:
        stretch(graph, pick.choice([7, 10**4, 10**9, 10**10]))
    for actor in graph.actors:
        if actor["kind"] == "delay" and pick.random() < 0.2:
            actor["d"] = pick.choice([graph.until, graph.until + 1, MOST])


def make(seed, folder, version=None, far=False):
    """Writes the graph of a seed. If it is asked for version 1 the graph is of that version, unless it has too many actors for it. If it
    is asked to be far its times go up to the greatest ones that a file can state."""
    graph = Graph(random.Random(seed))
    graph.version = version or graph.version
    build(graph)
    if far:
        make_far(graph, random.Random(seed))
    set_slacks(graph)
    if far and any(actor.get(member, 0) > MOST for actor in graph.actors for member in ("slack", "d")):
        make(seed, folder, version)
        return
    if graph.pick.random() < 1 / 16:
        make_a_row_late(graph)
    write(graph, folder)


if __name__ == "__main__":
    if len(sys.argv) != 3 or not sys.argv[1].isdecimal():
        sys.exit("usage: make-random-graph.py SEED FOLDER")
    make(int(sys.argv[1]), sys.argv[2])
