#!/usr/bin/env python3
"""Writes the graphs of bench/analysis.sh into a folder: graphs.py FOLDER.

largest     1,024 actors, 1,920 units, 4,096 wires, all on one platform, with feedback through delays
chain       1,000 actors in a row
dense       250 actors, each a merge of eight that stand before it
two_ways    500 merges and 500 delays in a row, with wires in both directions
n64 .. n1024   as largest, with 64 .. 1024 actors
"""
import json
import os
import random
import sys


def graph(actors, wires):
    return {"ptides": 2, "until": 1000, "clock_error": 0, "clock_errors": [], "platforms": ["p"],
            "actors": [dict(a, platform="p") for a in actors], "wires": wires, "links": []}


def mixed(count):
    """An eighth lanes of eight cells, the rest sensors, merges, delays and actuators."""
    pick = random.Random(count)
    sensors, lanes, actuators = max(1, count // 26), count // 8, count // 14
    merges = (3 * count - 7 * lanes + sensors) // 6  # so that there are nearly four wires for each actor
    delays = count - sensors - lanes - actuators - merges
    rest = ["lanes"] * lanes + ["merge"] * merges + ["delay"] * delays + ["actuator"] * actuators
    pick.shuffle(rest)
    actors, wires, outputs = [], [], []
    for number, kind in enumerate(["sensor"] * sensors + rest):
        name = f"a{number}"
        actor = {"name": name, "kind": kind}
        inputs, given = {"sensor": (0, 1), "lanes": (8, 8), "merge": (7, 1), "delay": (1, 1), "actuator": (1, 0)}[kind]
        if kind == "sensor":
            actor.update(file="s.csv", bound=pick.randint(0, 1000))
        elif kind == "lanes":
            actor.update(cells=[1] * 8)
        elif kind == "merge":
            actor.update(n=7)
        elif kind == "delay":
            actor.update(d=pick.randint(1, 1000))
        else:
            actor.update(slack=10 ** 6)
        actors.append(actor)
        outputs.append(given)
        for port in range(inputs):
            wires.append([kind == "delay", name, port, number])
    placed = []
    for back, name, port, number in wires:
        while True:
            source = pick.randrange(count if back else number)
            if outputs[source]:
                break
        placed.append([f"a{source}", pick.randrange(outputs[source]), name, port])
    return graph(actors, placed)


def chain(count):
    actors = [{"name": "s", "kind": "sensor", "file": "s.csv", "bound": 10}]
    wires = []
    for number in range(count - 2):
        wires.append([actors[-1]["name"], 0, f"x{number}", 0])
        actors.append({"name": f"x{number}", "kind": "shift", "by": 1})
    wires.append([actors[-1]["name"], 0, "out", 0])
    return graph(actors + [{"name": "out", "kind": "actuator", "slack": 1000}], wires)


def dense(count):
    pick = random.Random(count)
    actors = [{"name": f"s{n}", "kind": "sensor", "file": "s.csv", "bound": 10 * n} for n in range(8)]
    wires = []
    for number in range(count - 8):
        for port, source in enumerate(pick.sample(range(len(actors)), 8)):
            wires.append([actors[source]["name"], 0, f"m{number}", port])
        actors.append({"name": f"m{number}", "kind": "merge", "n": 8})
    return graph(actors, wires)


def two_ways(count):
    actors, wires = [{"name": "s", "kind": "sensor", "file": "s.csv", "bound": 10}], []
    for n in range(count):
        actors += [{"name": f"m{n}", "kind": "merge", "n": 2}, {"name": f"d{n}", "kind": "delay", "d": n + 1}]
        wires.append([f"m{n}", 0, f"d{n}", 0])
        wires.append(["s" if n == 0 else f"d{n - 1}", 0, f"m{n}", 0])
        wires.append(["s" if n == count - 1 else f"d{n + 1}", 0, f"m{n}", 1])
    return graph(actors, wires)


def main():
    folder = sys.argv[1]
    os.makedirs(folder, exist_ok=True)
    graphs = {"largest": mixed(1024), "chain": chain(1000), "dense": dense(250), "two_ways": two_ways(500),
              "n64": mixed(64), "n256": mixed(256), "n1024": mixed(1024)}
    for name, value in graphs.items():
        with open(os.path.join(folder, name + ".json"), "w") as file:
            json.dump(value, file)
        print(f"{name}: {len(value['actors'])} actors, {len(value['wires'])} wires", file=sys.stderr)


main()
