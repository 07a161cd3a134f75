#!/usr/bin/env python3
"""Writes a workload of bench/compare.sh, a graph of version 1 with its sensor files: workloads.py NAME FOLDER.

make1 .. make100   four platforms in a row, 18 actors, 4 sensors of 100 N rows each, three links
rows               a sensor of 20,000 rows, a scale, a delay and an actuator
wide               241 actors: 8 sensors of 10,000 rows, trees of adders, routers and 64 leaves with delays, of which few fire
dense              250 actors that all fire at each of 780 tags
chain              a sensor of 900 rows, 200 scales, an actuator
"""
import json
import os
import sys


class Graph:
    """A graph that is built actor by actor."""

    def __init__(self, platforms=("p",)):
        self.platforms, self.actors, self.wires, self.links, self.rows = list(platforms), [], [], [], {}

    def add(self, name, kind, *inputs, platform="p", **members):
        """Adds an actor whose inputs are fed by these outputs, and gives its output 0."""
        self.actors.append({"name": name, "platform": platform, "kind": kind, **members})
        self.wires += [[source, output, name, port] for port, (source, output) in enumerate(inputs)]
        return name, 0

    def sensor(self, name, rows, bound=10, platform="p"):
        self.rows[name] = list(rows)
        return self.add(name, "sensor", platform=platform, file=f"{name}.csv", bound=bound)

    def link(self, sender, receiver, delay):
        self.links.append({"from": sender, "to": receiver, "delay": delay})

    def write(self, folder, until, clock_error=0):
        os.makedirs(folder, exist_ok=True)
        graph = {"ptides": 1, "until": until, "clock_error": clock_error, "platforms": self.platforms, "actors": self.actors,
                 "wires": self.wires, "links": self.links}
        with open(os.path.join(folder, "graph.json"), "w") as file:
            json.dump(graph, file, indent=1)
        for name, rows in self.rows.items():
            with open(os.path.join(folder, name + ".csv"), "w") as file:
                file.write("time,seen,value\n")
                file.writelines(f"{time},{seen},{value}\n" for time, seen, value in rows)


def every_100(count, value, shift=0):
    """A row each 100 us, seen up to 10 us later."""
    return ((100 * k, 100 * k + (k + shift) % 11, value(k)) for k in range(1, count + 1))


def make(number, folder):
    graph = Graph([f"p{i}" for i in range(4)])
    count = 100 * number
    for i in range(4):
        def add(name, kind, *inputs, **members):
            return graph.add(name, kind, *inputs, platform=f"p{i}", **members)
        value = add(f"r{i}", "receive") if i else None
        sensor = graph.sensor(f"s{i}", every_100(count, lambda k: (number * k + i) % 100), platform=f"p{i}")
        value = add(f"a{i}", "add", value, sensor) if i else sensor
        if i < 3:
            add(f"w{i}", "send", add(f"d{i}", "delay", value, d=100), slack=0)
            graph.link(f"w{i}", f"r{i + 1}", 40)
        else:
            add("out", "actuator", add("t", "sum", value), slack=50)
    graph.write(folder, 100 * count + 400, clock_error=5)


def rows(folder):
    graph = Graph()
    sensor = graph.sensor("s", ((10 * k, 10 * k, k) for k in range(1, 20_001)), bound=1_000_000)
    scale = graph.add("x", "scale", sensor, num=2, den=1)
    graph.add("out", "actuator", graph.add("d", "delay", scale, d=100), slack=1_000_000)
    graph.write(folder, 300_000)


def chain(folder):
    graph = Graph()
    value = graph.sensor("s", every_100(900, lambda k: 1_000_003 * k + 17))
    for i in range(200):
        value = graph.add(f"x{i}", "scale", value, num=3 - i % 2, den=2 + i % 2)
    graph.add("out", "actuator", value, slack=20)
    graph.write(folder, 91_000)


def tree(graph, prefix, layer):
    """Adds a tree of adders over a layer of outputs, and gives its root."""
    number = 0
    while len(layer) > 1:
        above = []
        for i in range(0, len(layer) - 1, 2):
            above.append(graph.add(f"{prefix}{number}", "add", layer[i], layer[i + 1]))
            number += 1
        layer = above + layer[len(layer) - len(layer) % 2:]
    return layer[0]


def wide(folder):
    graph = Graph()
    count = 10_000
    sensors = [graph.sensor(f"s{i}", every_100(count, lambda k, i=i: (k * (37 + 2 * i) + 13 * i + k // 100) % 100, shift=i))
               for i in range(8)]
    # The top router parts the sums 0 to 792 by hundreds; each router below it goes round its outputs.
    bands = [{"state": 0, "low": 100 * j if j else -10**9, "high": 100 * j + 99 if j < 7 else 10**9, "next": 0,
              "emit": [j, 100 * j + 50]} for j in range(8)]
    graph.add("top", "machine", tree(graph, "a", sensors), start=0, outputs=8, rows=bands)
    merged = []
    for i in range(8):
        turns = [{"state": q, "low": -10**12, "high": 10**12, "next": (5 * q + 2 * i + 1) % 8, "emit": [q, 10 * q + i]}
                 for q in range(8)]
        graph.add(f"m{i}", "machine", ("top", i), start=0, outputs=8, rows=turns)
        leaves = []
        for j in range(8):
            passed = graph.add(f"v{i}_{j}", "above", (f"m{i}", j), limit=65)
            total = graph.add(f"q{i}_{j}", "sum", passed)
            leaves.append(graph.add(f"d{i}_{j}", "delay", total, d=50 * (1 + j % 2)))
        merged.append(graph.add(f"h{i}", "shift", graph.add(f"g{i}", "merge", *leaves, n=8), by=1000 * i))
    graph.add("out0", "actuator", tree(graph, "b", merged), slack=20)
    graph.add("out1", "actuator", merged[6], slack=20)
    graph.write(folder, 100 * count + 1000)


def dense(folder):
    graph = Graph()
    count = 780
    sensors = [graph.sensor(f"s{i}", every_100(count, lambda k, i=i: (k * (37 + 2 * i) + 13 * i) % 1000 - 300, shift=i))
               for i in range(8)]
    leaves = []
    for i in range(8):
        for j in range(13):
            name = f"f{i}_{j}"
            leaves.append([lambda: graph.add(name, "shift", sensors[i], by=j),
                           lambda: graph.add(name, "scale", sensors[i], num=j + 2, den=j + 1),
                           lambda: graph.add(name, "sum", sensors[i]),
                           lambda: graph.add(name, "sub", sensors[i], sensors[(i + 1) % 8])][j % 4]())
    # Adders of two and, one in seven, merges of four.
    layer, number = leaves, 0
    while len(layer) > 1:
        above = []
        while layer:
            width = 4 if number % 7 == 3 else 2
            group, layer = layer[:width], layer[width:]
            if len(group) == 1:
                above += group
                continue
            if width == 4:
                above.append(graph.add(f"g{number}", "merge", *group, n=len(group)))
            else:
                above.append(graph.add(f"g{number}", "add", *group))
            number += 1
        layer = above
    graph.add("out0", "actuator", layer[0], slack=20)
    graph.add("out1", "actuator", tree(graph, "h", leaves[::2]), slack=20)
    graph.write(folder, 100 * count + 1000)


def main():
    name, folder = sys.argv[1], sys.argv[2]
    if name.startswith("make"):
        make(int(name[4:]), folder)
    else:
        {"rows": rows, "wide": wide, "dense": dense, "chain": chain}[name](folder)


main()
